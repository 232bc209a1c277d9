/* Times the check of one table: the static library, plain Rust, and libtirpc's decoding.
 *
 * Usage: bench TABLE_FILE
 *
 * Every round calls all candidates, so that a change of the machine's speed affects all of
 * them. The fastest round of each counts. */

#include <inttypes.h>
#include <stdio.h>
#include <stdlib.h>
#include <string.h>
#include <time.h>

#include "sirdofu.h"
#include "table.h"

uint32_t plain_table_check(const uint8_t *bytes, size_t length);

enum { MOST_BYTES = 2048, ROUNDS = 200, CALLS = 2000 };

static uint8_t bytes[MOST_BYTES];
static size_t length;

static uint32_t static_library(void)
{
    return table_check(bytes, length);
}

static uint32_t plain_rust(void)
{
    return plain_table_check(bytes, length);
}

static uint32_t xdr_decode(rule_table *table)
{
    XDR xdr;
    bool_t decoded;

    xdrmem_create(&xdr, (char *)bytes, (u_int)length, XDR_DECODE);
    decoded = xdr_rule_table(&xdr, table);
    xdr_destroy(&xdr);
    return decoded ? 0 : 1;
}

/* Into memory that is there already, so that no allocation is timed. */
static uint32_t libtirpc_in_place(void)
{
    static table_node nodes[MOST_NODES];
    static table_rule rules[MOST_RULES];
    static u_int starts[MOST_STARTS];
    rule_table table = {
        .nodes.nodes_val = nodes,
        .rules.rules_val = rules,
        .starts.starts_val = starts,
    };

    return xdr_decode(&table);
}

static uint32_t libtirpc_allocating(void)
{
    rule_table table;
    uint32_t failed;

    memset(&table, 0, sizeof table);
    failed = xdr_decode(&table);
    xdr_free((xdrproc_t)xdr_rule_table, &table);
    return failed;
}

struct candidate {
    const char *name;
    uint32_t (*call)(void);
    double fastest;
};

static struct candidate candidates[] = {
    {"static library, table_check", static_library, 0},
    {"plain Rust at -O3", plain_rust, 0},
    {"libtirpc, memory ready", libtirpc_in_place, 0},
    {"libtirpc, allocating", libtirpc_allocating, 0},
};

enum { CANDIDATES = sizeof candidates / sizeof candidates[0] };

static double now(void)
{
    struct timespec t;

    clock_gettime(CLOCK_MONOTONIC, &t);
    return (double)t.tv_sec * 1e9 + (double)t.tv_nsec;
}

/* Nanoseconds for one call. The pointer is volatile so that calls are neither merged nor
 * moved. */
static double time_round(const struct candidate *candidate)
{
    uint32_t (*volatile call)(void) = candidate->call;
    uint32_t answers = 0;
    double start = now();

    for (int i = 0; i < CALLS; i++)
        answers |= call();
    if (answers != 0) {
        fprintf(stderr, "%s does not accept the table\n", candidate->name);
        exit(1);
    }
    return (now() - start) / CALLS;
}

static void read_table(const char *path)
{
    FILE *file = fopen(path, "rb");

    if (file == NULL) {
        perror(path);
        exit(1);
    }
    length = fread(bytes, 1, sizeof bytes, file);
    fclose(file);
}

int main(int argc, char **argv)
{
    if (argc != 2) {
        fprintf(stderr, "usage: bench TABLE_FILE\n");
        return 1;
    }
    read_table(argv[1]);
    for (int round = 0; round < ROUNDS; round++)
        for (int i = 0; i < CANDIDATES; i++) {
            double took = time_round(&candidates[i]);
            if (round == 0 || took < candidates[i].fastest)
                candidates[i].fastest = took;
        }
    printf("%s, %zu bytes\n", argv[1], length);
    printf("%-30s %12s %26s\n", "", "ns per call", "times the static library");
    for (int i = 0; i < CANDIDATES; i++)
        printf("%-30s %12.1f %26.2f\n", candidates[i].name, candidates[i].fastest,
               candidates[i].fastest / candidates[0].fastest);
    return 0;
}
