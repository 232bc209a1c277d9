/* Holds table_check against the codec that rpcgen makes from formats/table.x, on libtirpc.
 *
 *   table_xdr decode           for each table on standard input: its field values as libtirpc
 *                              decodes them, and the bytes it encodes them to
 *   table_xdr cuts             for each table on standard input: every cut is undecodable, and
 *                              table_check names the missing field
 *   table_xdr build SEED N     N tables built as C values, some with one fault: the encoded
 *                              bytes, the answer wanted, and table_check's
 */

#include <inttypes.h>

#include "sirdofu.h"
#include "support.h"
#include "table.h"

/* Longer than any table. */
enum { MOST_BYTES = 2048 };

/* Answers whether the bytes are exactly one table. The caller frees it in either case. */
static int decode(const uint8_t *bytes, size_t length, rule_table *table)
{
    XDR xdr;
    int whole;

    memset(table, 0, sizeof *table);
    /* libtirpc takes a writable pointer for both directions; decoding only reads. */
    xdrmem_create(&xdr, (char *)(uintptr_t)bytes, (u_int)length, XDR_DECODE);
    whole = xdr_rule_table(&xdr, table) && xdr_getpos(&xdr) == length;
    xdr_destroy(&xdr);
    return whole;
}

static void free_table(rule_table *table)
{
    xdr_free((xdrproc_t)xdr_rule_table, table);
}

static size_t encode(rule_table *table, uint8_t *bytes)
{
    XDR xdr;
    size_t length;

    xdrmem_create(&xdr, (char *)bytes, MOST_BYTES, XDR_ENCODE);
    if (!xdr_rule_table(&xdr, table))
        fail("libtirpc does not encode a table");
    length = xdr_getpos(&xdr);
    xdr_destroy(&xdr);
    return length;
}

static void print_hex(const uint8_t *bytes, size_t length)
{
    for (size_t i = 0; i < length; i++)
        printf("%02x", bytes[i]);
}

static void print_values(const rule_table *table)
{
    printf("%u %u %u", table->code, table->switches, table->nodes.nodes_len);
    for (u_int i = 0; i < table->nodes.nodes_len; i++) {
        const table_node *node = &table->nodes.nodes_val[i];
        printf(" %u %u %u", node->kind, node->a, node->b);
    }
    printf(" %u", table->rules.rules_len);
    for (u_int i = 0; i < table->rules.rules_len; i++) {
        const table_rule *rule = &table->rules.rules_val[i];
        printf(" %u %u", rule->at, rule->node);
    }
    printf(" %u", table->starts.starts_len);
    for (u_int i = 0; i < table->starts.starts_len; i++)
        printf(" %u", table->starts.starts_val[i]);
}

static void run_decode(void)
{
    struct heap_copy copy;
    size_t length;

    while (read_record(stdin, &copy, &length)) {
        uint8_t again[MOST_BYTES];
        rule_table table;

        if (decode(copy.bytes, length, &table)) {
            print_values(&table);
            printf(" = ");
            print_hex(again, encode(&table, again));
            printf("\n");
        } else {
            printf("undecodable\n");
        }
        free_table(&table);
        free(copy.block);
    }
}

static void check_cut(const uint8_t *bytes, size_t length)
{
    struct heap_copy cut = heap_copy_new(length);
    rule_table table;
    uint32_t answer;

    memcpy(cut.bytes, bytes, length);
    if (decode(cut.bytes, length, &table))
        fail("libtirpc decodes a cut table");
    free_table(&table);
    answer = table_check(cut.bytes, length);
    if (SIRDOFU_NUMBER(answer) != SIRDOFU_LENGTH || SIRDOFU_PLACE(answer) != length / 4 * 4)
        fail("table_check does not name the missing field of a cut table");
    free(cut.block);
}

static void run_cuts(void)
{
    struct heap_copy copy;
    size_t length;

    while (read_record(stdin, &copy, &length)) {
        for (size_t cut = 0; cut < length; cut++)
            check_cut(copy.bytes, cut);
        printf("%zu\n", length);
        free(copy.block);
    }
}

/* Random numbers by xorshift, the same on every machine. */
static uint64_t random_state;

static uint32_t random_word(void)
{
    random_state ^= random_state << 13;
    random_state ^= random_state >> 7;
    random_state ^= random_state << 17;
    return (uint32_t)(random_state >> 32);
}

static u_int random_below(u_int end)
{
    return random_word() % end;
}

/* A table value with room for the largest. */
struct room {
    rule_table table;
    table_node nodes[MOST_NODES];
    table_rule rules[MOST_RULES];
    u_int starts[MOST_STARTS];
};

static int is_truth(const table_node *node)
{
    return node->kind <= NODE_SAME;
}

/* Node 0 is a truth and node 1 a reading, so that later ones have both to name. */
static table_node random_node(const table_node *lower, u_int number, u_int switches)
{
    u_int any, truth, reading;

    if (number == 0)
        return (table_node){NODE_TRUTH, random_below(2), 0};
    if (number == 1)
        return (table_node){NODE_REGISTER, random_below(REGISTERS), 0};
    any = random_below(number);
    truth = is_truth(&lower[any]) ? any : 0;
    reading = is_truth(&lower[any]) ? 1 : any;
    switch (random_below(10)) {
    case 0:
        return (table_node){NODE_NOT, truth, 0};
    case 1:
        return (table_node){NODE_AND + random_below(4), truth, 0};
    case 2:
        return (table_node){NODE_PREVIOUSLY + random_below(3), truth, 0};
    case 3:
        return (table_node){NODE_SINCE, 0, truth};
    case 4:
        return (table_node){NODE_TRUTH_AT, random_below(switches), truth};
    case 5:
        return (table_node){NODE_WITHIN + random_below(2), reading, 1};
    case 6:
        return (table_node){NODE_CONSTANT, random_word(), 0};
    case 7:
        return (table_node){NODE_REGISTER, random_below(REGISTERS), 0};
    case 8:
        return (table_node){NODE_JOIN + random_below(2), 1, reading};
    default:
        return (table_node){NODE_READING_AT, random_below(switches), reading};
    }
}

static u_int random_truth_node(const table_node *nodes, u_int count)
{
    u_int node = random_below(count);

    return is_truth(&nodes[node]) ? node : 0;
}

static void build_sound(struct room *room)
{
    rule_table *table = &room->table;

    table->code = READING_NUMBERS + random_below(2);
    table->switches = 1 + random_below(MOST_SWITCHES);
    table->nodes.nodes_len = 1 + random_below(MOST_NODES);
    table->nodes.nodes_val = room->nodes;
    for (u_int i = 0; i < table->nodes.nodes_len; i++)
        room->nodes[i] = random_node(room->nodes, i, table->switches);
    table->rules.rules_len = random_below(MOST_RULES + 1);
    table->rules.rules_val = room->rules;
    for (u_int i = 0; i < table->rules.rules_len; i++) {
        room->rules[i].at = random_below(table->switches);
        room->rules[i].node = random_truth_node(room->nodes, table->nodes.nodes_len);
    }
    table->starts.starts_len = REGISTERS * table->switches;
    table->starts.starts_val = room->starts;
    for (u_int i = 0; i < table->starts.starts_len; i++)
        room->starts[i] = random_word();
}

static uint32_t refusal(uint32_t number, uint32_t place)
{
    return place * 256 + number;
}

/* Offset of the number of starting words. */
static uint32_t start_count_offset(const rule_table *table)
{
    return 16 + 12 * table->nodes.nodes_len + 8 * table->rules.rules_len;
}

static uint32_t put_node_fault(rule_table *table)
{
    u_int number = random_below(table->nodes.nodes_len);
    table_node *node = &table->nodes.nodes_val[number];

    switch (random_below(4)) {
    case 0:
        node->kind = NODE_SAME + 1 + random_below(NODE_CONSTANT - NODE_SAME - 1);
        break;
    case 1:
        node->kind = NODE_READING_AT + 1 + random_below(1000);
        break;
    case 2:
        *node = (table_node){NODE_ALWAYS, number, 0};
        break;
    default:
        *node = (table_node){NODE_REGISTER, REGISTERS, 0};
        break;
    }
    return refusal(SIRDOFU_NODE, number);
}

static uint32_t put_rule_fault(rule_table *table)
{
    u_int number = random_below(table->rules.rules_len);
    table_rule *rule = &table->rules.rules_val[number];

    switch (random_below(3)) {
    case 0:
        rule->at = table->switches;
        break;
    case 1:
        rule->node = table->nodes.nodes_len;
        break;
    default:
        /* Node 1 is a reading, or the first number with no node. */
        rule->node = 1;
        break;
    }
    return refusal(SIRDOFU_RULE, number);
}

/* Puts one fault into a sound table, or none; answers what table_check is to say. */
static uint32_t put_fault(rule_table *table)
{
    switch (random_below(8)) {
    case 0:
        table->code = 3 + random_below(1000);
        return refusal(SIRDOFU_FIELD, 0);
    case 1:
        table->switches = random_below(2) ? 0 : MOST_SWITCHES + 1 + random_below(1000);
        return refusal(SIRDOFU_FIELD, 4);
    case 2:
        table->nodes.nodes_len = 0;
        return refusal(SIRDOFU_FIELD, 8);
    case 3:
        table->starts.starts_len--;
        return refusal(SIRDOFU_FIELD, start_count_offset(table));
    case 4:
        return put_node_fault(table);
    case 5:
        return table->rules.rules_len == 0 ? 0 : put_rule_fault(table);
    default:
        return 0;
    }
}

static void run_build(unsigned long count)
{
    for (unsigned long i = 0; i < count; i++) {
        struct room room;
        uint8_t bytes[MOST_BYTES];
        uint32_t wanted;
        size_t length;

        build_sound(&room);
        wanted = put_fault(&room.table);
        length = encode(&room.table, bytes);
        print_hex(bytes, length);
        printf(" %" PRIu32 " %" PRIu32 "\n", wanted, table_check(bytes, length));
    }
}

int main(int argc, char **argv)
{
    if (argc == 2 && strcmp(argv[1], "decode") == 0) {
        run_decode();
    } else if (argc == 2 && strcmp(argv[1], "cuts") == 0) {
        run_cuts();
    } else if (argc == 4 && strcmp(argv[1], "build") == 0) {
        /* xorshift never leaves 0, so the state is made odd. */
        random_state = strtoull(argv[2], NULL, 10) * 2 + 1;
        for (int i = 0; i < 20; i++)
            random_word();
        run_build(strtoul(argv[3], NULL, 10));
    } else {
        fail("usage: table_xdr decode | cuts | build SEED N");
    }
    return 0;
}
