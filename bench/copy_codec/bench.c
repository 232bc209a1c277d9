/* Times writing and reading one copy of 16 switches and 48 nodes: the proved codec, and
 * libtirpc with the code that rpcgen makes.
 *
 * Every round calls all candidates, so that a change of the machine's speed affects all of
 * them. The fastest round of each counts. */

#include <stdint.h>
#include <stdio.h>
#include <stdlib.h>
#include <string.h>
#include <time.h>

#include "copy.h"

uint32_t copy_probe_write(uint32_t code, uint32_t n, uint32_t m, const uint32_t *hand,
                          size_t words, uint8_t *bytes, size_t length);
uint32_t copy_probe_read(uint32_t code, uint32_t n, uint32_t m, const uint8_t *bytes,
                         size_t length, uint32_t *hand, size_t words);

enum {
    N = MOST_SWITCHES,
    M = MOST_NODES,
    HAND = 1 + N * (1 + M),
    BYTES = 12 + N * (8 + 4 * M),
    ROUNDS = 200,
    CALLS = 500
};

static uint32_t hand[HAND], hand_read[HAND];
static uint8_t bytes[BYTES];
static u_int words[N][M];
static copy_record records[N];
static record_copy value;

static uint32_t proved_write(void)
{
    return copy_probe_write(1, N, M, hand, HAND, bytes, BYTES);
}

static uint32_t proved_read(void)
{
    return copy_probe_read(1, N, M, bytes, BYTES, hand_read, HAND);
}

static uint32_t xdr_write(void)
{
    XDR xdr;
    bool_t done;

    xdrmem_create(&xdr, (char *)bytes, BYTES, XDR_ENCODE);
    done = xdr_record_copy(&xdr, &value);
    xdr_destroy(&xdr);
    return done ? 0 : 1;
}

/* Into memory that is there already, so that no allocation is timed. */
static uint32_t xdr_read(void)
{
    XDR xdr;
    bool_t done;

    xdrmem_create(&xdr, (char *)bytes, BYTES, XDR_DECODE);
    done = xdr_record_copy(&xdr, &value);
    xdr_destroy(&xdr);
    return done ? 0 : 1;
}

static double nanoseconds(void)
{
    struct timespec now;

    clock_gettime(CLOCK_MONOTONIC, &now);
    return (double)now.tv_sec * 1e9 + (double)now.tv_nsec;
}

int main(void)
{
    static const struct {
        const char *name;
        uint32_t (*call)(void);
    } candidates[] = {
        {"write, proved", proved_write},
        {"write, libtirpc", xdr_write},
        {"read, proved", proved_read},
        {"read, libtirpc", xdr_read},
    };
    enum { COUNT = sizeof candidates / sizeof candidates[0] };
    double best[COUNT];
    size_t k = 0;

    value = (record_copy){.code = 1, .sender = 3, .records = {N, records}};
    hand[k++] = 3;
    for (u_int j = 0; j < N; j++) {
        records[j] = (copy_record){.count = 7 * j, .words = {M, words[j]}};
        hand[k++] = 7 * j;
        for (u_int i = 0; i < M; i++)
            hand[k++] = words[j][i] = j * 1000003u + i * 7919u;
    }
    for (int round = 0; round < ROUNDS; round++) {
        for (int c = 0; c < COUNT; c++) {
            double start = nanoseconds(), each;

            for (int call = 0; call < CALLS; call++) {
                if (candidates[c].call() != 0) {
                    fprintf(stderr, "failed: %s\n", candidates[c].name);
                    return 1;
                }
            }
            each = (nanoseconds() - start) / CALLS;
            if (round == 0 || each < best[c])
                best[c] = each;
        }
    }
    if (memcmp(hand, hand_read, sizeof hand) != 0) {
        fprintf(stderr, "failed: another hand was read\n");
        return 1;
    }
    for (int c = 0; c < COUNT; c++)
        printf("%-16s %8.0f ns\n", candidates[c].name, best[c]);
    return 0;
}
