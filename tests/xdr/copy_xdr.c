/* Holds copies against the codec that rpcgen makes from formats/copy.x, on libtirpc: random
 * copies written by one and read by the other, in both directions; every cut of some; one byte
 * more; and each field that has to have a certain value given another.
 *
 *   copy_xdr SEED N
 */

#include <inttypes.h>

#include "copy.h"
#include "sirdofu.h"
#include "support.h"

/* The codec under test, from the test library: 0, or the refusal's number. */
uint32_t copy_probe_write(uint32_t code, uint32_t n, uint32_t m, const uint32_t *hand,
                          size_t words, uint8_t *bytes, size_t length);
uint32_t copy_probe_read(uint32_t code, uint32_t n, uint32_t m, const uint8_t *bytes,
                         size_t length, uint32_t *hand, size_t words);

enum {
    MOST_HAND = 1 + MOST_SWITCHES * (1 + MOST_NODES),
    MOST_BYTES = 12 + MOST_SWITCHES * (8 + 4 * MOST_NODES),
    SHAPE = 5
};

/* Random numbers by xorshift, the same on every machine. */
static uint64_t random_state;

static uint32_t random_word(void)
{
    random_state ^= random_state << 13;
    random_state ^= random_state >> 7;
    random_state ^= random_state << 17;
    return (uint32_t)(random_state >> 32);
}

static u_int random_below(u_int end)
{
    return random_word() % end;
}

static void expect(uint32_t wanted, uint32_t got, const char *what)
{
    if (wanted == got)
        return;
    fprintf(stderr, "wanted %" PRIu32 ", got %" PRIu32 "\n", wanted, got);
    fail(what);
}

/* A copy as a value, as a hand, and as the bytes that libtirpc writes. */
struct sample {
    uint32_t code, n, m;
    record_copy value;
    copy_record records[MOST_SWITCHES];
    u_int words[MOST_SWITCHES][MOST_NODES];
    uint32_t hand[MOST_HAND];
    size_t hand_length;
    uint8_t bytes[MOST_BYTES + 4];
    size_t length;
};

static size_t encode(record_copy *value, uint8_t *bytes)
{
    XDR xdr;
    size_t length;

    xdrmem_create(&xdr, (char *)bytes, MOST_BYTES, XDR_ENCODE);
    if (!xdr_record_copy(&xdr, value))
        fail("libtirpc does not encode a copy");
    length = xdr_getpos(&xdr);
    xdr_destroy(&xdr);
    return length;
}

/* Answers whether the bytes are exactly one copy. The caller frees it in either case. */
static int decode(const uint8_t *bytes, size_t length, record_copy *value)
{
    XDR xdr;
    int whole;

    memset(value, 0, sizeof *value);
    /* libtirpc takes a writable pointer for both directions; decoding only reads. */
    xdrmem_create(&xdr, (char *)(uintptr_t)bytes, (u_int)length, XDR_DECODE);
    whole = xdr_record_copy(&xdr, value) && xdr_getpos(&xdr) == length;
    xdr_destroy(&xdr);
    return whole;
}

static void build(struct sample *s)
{
    size_t k = 0;

    s->code = 1 + random_below(2);
    s->n = 1 + random_below(MOST_SWITCHES);
    s->m = 1 + random_below(MOST_NODES);
    s->value.code = s->code;
    s->value.sender = random_below(s->n);
    s->value.records.records_len = s->n;
    s->value.records.records_val = s->records;
    s->hand[k++] = s->value.sender;
    for (u_int j = 0; j < s->n; j++) {
        s->records[j].count = s->hand[k++] = random_word();
        s->records[j].words.words_len = s->m;
        s->records[j].words.words_val = s->words[j];
        for (u_int i = 0; i < s->m; i++)
            s->words[j][i] = s->hand[k++] = random_word();
    }
    s->hand_length = k;
    s->length = encode(&s->value, s->bytes);
}

static void check_values(const struct sample *s, const record_copy *got)
{
    expect(s->code, got->code, "the code that libtirpc decodes");
    expect(s->value.sender, got->sender, "the sender that libtirpc decodes");
    expect(s->n, got->records.records_len, "the number of records that libtirpc decodes");
    for (u_int j = 0; j < s->n; j++) {
        const copy_record *record = &got->records.records_val[j];
        expect(s->records[j].count, record->count, "a count that libtirpc decodes");
        expect(s->m, record->words.words_len, "the number of words that libtirpc decodes");
        for (u_int i = 0; i < s->m; i++)
            expect(s->words[j][i], record->words.words_val[i], "a word that libtirpc decodes");
    }
}

static void check_both_ways(struct guarded *g, const struct sample *s)
{
    uint32_t hand[MOST_HAND];
    uint8_t bytes[MOST_BYTES];
    record_copy value;

    expect(0, copy_check(s->code, s->n, s->m, guarded_at_end(g, s->bytes, s->length), s->length),
           "copy_check of what libtirpc wrote");
    expect(0, copy_check(s->code, s->n, s->m, guarded_at_start(g, s->bytes, s->length), s->length),
           "copy_check of what libtirpc wrote");
    expect(0, copy_probe_read(s->code, s->n, s->m, s->bytes, s->length, hand, s->hand_length),
           "reading what libtirpc wrote");
    if (memcmp(hand, s->hand, s->hand_length * sizeof *hand) != 0)
        fail("another hand is read than libtirpc wrote");
    expect(0, copy_probe_write(s->code, s->n, s->m, s->hand, s->hand_length, bytes, s->length),
           "writing a hand");
    if (memcmp(bytes, s->bytes, s->length) != 0)
        fail("other bytes are written than libtirpc writes");
    if (!decode(bytes, s->length, &value))
        fail("libtirpc does not decode what was written");
    check_values(s, &value);
    xdr_free((xdrproc_t)xdr_record_copy, &value);
}

static uint32_t check(const struct sample *s, const uint8_t *bytes, size_t length)
{
    return copy_check(s->code, s->n, s->m, bytes, length);
}

static void check_cuts(struct guarded *g, struct sample *s)
{
    for (size_t cut = 0; cut < s->length; cut++) {
        const uint8_t *bytes = guarded_at_end(g, s->bytes, cut);
        record_copy value;

        if (decode(bytes, cut, &value))
            fail("libtirpc decodes a cut copy");
        xdr_free((xdrproc_t)xdr_record_copy, &value);
        expect((uint32_t)(cut / 4 * 4) * 256 + SIRDOFU_COPY, check(s, bytes, cut), "a cut");
    }
    s->bytes[s->length] = 0;
    expect((uint32_t)s->length * 256 + SIRDOFU_COPY, check(s, s->bytes, s->length + 1), "a byte left");
}

/* The copy with one field set to another value is refused at that field. */
static void check_field(const struct sample *s, size_t offset, uint32_t word, const char *what)
{
    uint8_t bytes[MOST_BYTES];

    memcpy(bytes, s->bytes, s->length);
    for (size_t k = 0; k < 4; k++)
        bytes[offset + k] = (uint8_t)(word >> (24 - 8 * k));
    expect((uint32_t)offset * 256 + SIRDOFU_COPY, check(s, bytes, s->length), what);
}

static void check_faults(const struct sample *s)
{
    uint32_t hand[MOST_HAND + 1] = {0};

    check_field(s, 0, s->code ^ (1 + random_below(3)), "another code");
    check_field(s, 0, s->code << 24, "low byte first");
    check_field(s, 4, s->n, "a sender that is n");
    check_field(s, 4, s->n + random_below(1000000), "a sender above n");
    check_field(s, 8, s->n ^ (1 + random_below(31)), "another number of records");
    check_field(s, 12 + random_below(s->n) * (8 + 4 * s->m) + 4, s->m ^ (1 + random_below(63)),
                "another number of words");
    expect(SIRDOFU_FIELD, copy_check(0, s->n, s->m, s->bytes, s->length), "code 0 asked for");
    expect(SIRDOFU_FIELD, copy_check(3, s->n, s->m, s->bytes, s->length), "code 3 asked for");
    expect(SIRDOFU_FIELD, copy_check(s->code, 0, s->m, s->bytes, s->length), "n = 0");
    expect(SIRDOFU_FIELD, copy_check(s->code, 17, s->m, s->bytes, s->length), "n = 17");
    expect(SIRDOFU_FIELD, copy_check(s->code, s->n, 0, s->bytes, s->length), "m = 0");
    expect(SIRDOFU_FIELD, copy_check(s->code, s->n, 49, s->bytes, s->length), "m = 49");
    expect(SHAPE, copy_probe_read(s->code, s->n, s->m, s->bytes, s->length, hand, s->hand_length + 1),
           "reading into a hand that is too long");
}

int main(int argc, char **argv)
{
    struct guarded g = guarded_new(MOST_BYTES);
    static struct sample s;
    uint64_t cuts = 0;
    long count;

    if (argc != 3)
        fail("usage: copy_xdr SEED N");
    random_state = UINT64_C(0x9e3779b97f4a7c15) ^ strtoull(argv[1], NULL, 10);
    count = strtol(argv[2], NULL, 10);
    for (long k = 0; k < count; k++) {
        build(&s);
        check_both_ways(&g, &s);
        check_faults(&s);
        if (k % 50 == 0) {
            check_cuts(&g, &s);
            cuts += s.length;
        }
    }
    printf("copies: %ld both ways, %" PRIu64 " cuts\n", count, cuts);
    return 0;
}
