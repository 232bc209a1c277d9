/* Prints table_check's answer for each record on standard input, one to a line. */

#include <inttypes.h>

#include "sirdofu.h"
#include "support.h"

/* Longer than any table with some bytes left. */
enum { MOST_BYTES = 1 << 16 };

static uint32_t answer_everywhere(struct guarded *guarded, const uint8_t *bytes, size_t length)
{
    uint32_t answer = table_check(bytes, length);

    if (table_check(guarded_at_end(guarded, bytes, length), length) != answer)
        fail("another answer before a guard page");
    if (table_check(guarded_at_start(guarded, bytes, length), length) != answer)
        fail("another answer after a guard page");
    return answer;
}

int main(void)
{
    struct guarded guarded = guarded_new(MOST_BYTES);
    struct heap_copy copy;
    size_t length;

    while (read_record(stdin, &copy, &length)) {
        printf("%" PRIu32 "\n", answer_everywhere(&guarded, copy.bytes, length));
        free(copy.block);
    }
    return 0;
}
