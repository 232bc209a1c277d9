/* Calls for firmware in C. table_check is in libtable.a and copy_check in libcarriers.a, which
 * `tools/build.sh libtable.a libcarriers.a` writes to target/staticlib. */

#ifndef SIRDOFU_H
#define SIRDOFU_H

#include <stddef.h>
#include <stdint.h>

#ifdef __cplusplus
extern "C" {
#endif

/* The refusal numbers of table_check and copy_check, each with what its place is. */
enum {
    /* The table ends early or has bytes left.
     * Place: offset of the missing field, or of the first byte left. */
    SIRDOFU_LENGTH = 1,
    /* The code is of no delivered kind of reading; the number of switches, of nodes or of
     * rules is out of range; or the number of starting words is not 8 for each switch.
     * Place: offset of that field. */
    SIRDOFU_FIELD = 2,
    /* A node has no known kind, or its a or b is not what the kind wants.
     * Place: the node's number, the first node being 0. */
    SIRDOFU_NODE = 3,
    /* A rule's switch is not below the number of switches, or its node is no truth node.
     * Place: the rule's number, the first rule being 0. */
    SIRDOFU_RULE = 4,
    /* The bytes of a copy end early or have bytes left; the code, the number of records or a
     * number of words is not as given; or the sender is not below n.
     * Place: offset of the missing field, of that field, or of the first byte left. */
    SIRDOFU_COPY = 12
};

/* Checks the rule table in bytes[0] to bytes[length - 1]; the table must fill them exactly.
 *
 * Answers 0 when the table is accepted, else place * 256 + number for the first fault in
 * reading order. The table's own code picks the kind of reading: 1 numbers, 2 port sets.
 *
 * Only reads, keeps no pointer, allocates nothing. `bytes` must point to `length` readable
 * bytes that nobody writes during the call, and must not be NULL, even where length is 0. */
uint32_t table_check(const uint8_t *bytes, size_t length);

/* Checks the copy in bytes[0] to bytes[length - 1], for a table with this code, n switches and m
 * nodes; the copy must fill them exactly.
 *
 * Answers 0 when the copy is accepted, else place * 256 + number for the first fault in reading
 * order. A code that is neither 1 nor 2, an n that is not 1 to 16 or an m that is not 1 to 48
 * answers SIRDOFU_FIELD, at place 0.
 *
 * Reads as table_check does, and asks the same of `bytes`. */
uint32_t copy_check(uint32_t code, uint32_t n, uint32_t m, const uint8_t *bytes, size_t length);

/* The two parts of an answer. Both are 0 for accepted bytes. */
#define SIRDOFU_NUMBER(answer) ((uint32_t)(answer) & UINT32_C(0xff))
#define SIRDOFU_PLACE(answer) ((uint32_t)(answer) >> 8)

#ifdef __cplusplus
}
#endif

#endif
