/* The fast program: reads both images of its folder, or a file of many pairs, and prints the reports. */
#include "fast.h"

/* The C library's calls that are used; declared here, since the kit's compiler brings no headers. */
int open(const char *path, int flags, ...);
long read(int file, void *into, unsigned long most);
long write(int file, const void *from, unsigned long count);
int strcmp(const char *a, const char *b);

enum { NODE_ROOM = NODE_BLOCKS * BLOCK + 1, RULE_ROOM = RULE_BLOCKS * BLOCK + 1, INPUT = 1 << 16, OUTPUT = 1 << 16 };
static u8 node_image[NODE_ROOM], rule_image[RULE_ROOM], input[INPUT];
static char output[OUTPUT];
static int output_length, input_at, input_length;
static struct verdict verdicts[RULES];

static void flush(void)
{
    for (int done = 0; done < output_length;) {
        const long wrote = write(1, output + done, (unsigned long)(output_length - done));
        if (wrote <= 0) break;
        done += (int)wrote;
    }
    output_length = 0;
}

/* A word; all words of the reports are far shorter than the room left. */
static void put(const char *word)
{
    if (output_length > OUTPUT - 64) flush();
    while (*word) output[output_length++] = *word++;
}

/* A space and a number that is at least 0. */
static void put_number(int number)
{
    char digits[12];
    int at = 12;
    do digits[--at] = (char)('0' + number % 10);
    while (number /= 10);
    if (output_length > OUTPUT - 64) flush();
    output[output_length++] = ' ';
    while (at < 12) output[output_length++] = digits[at++];
}

static void put_refusal(struct refusal no)
{
    put("refused");
    put_number(no.number);
    put_number(no.place);
    put("\n");
}

/* A verdict without its rule number. */
static void put_verdict(struct verdict v)
{
    if (v.failed) {
        put(" fails");
        put_number(v.day);
        put_number(v.record);
    } else {
        put(" holds - -");
    }
    put_number(v.looked);
    put("\n");
}

/* A line for each rule; the verdicts are kept. The number stands at the line's start, without the space before it. */
static void put_report(void)
{
    put("rule verdict day record looked\n");
    for (int k = 0; k < rule_count; k++) {
        verdicts[k] = judge(&rules[k]);
        if (output_length > OUTPUT - 64) flush();
        if (k >= 10) output[output_length++] = (char)('0' + k / 10);
        output[output_length++] = (char)('0' + k % 10);
        put_verdict(verdicts[k]);
    }
}

/* Reads a whole file, at most room bytes; -1 if it cannot be read. */
static int read_file(const char *name, u8 *into, int room)
{
    const int file = open(name, 0);
    int length = 0;
    if (file < 0) return -1;
    while (length < room) {
        const long got = read(file, into + length, (unsigned long)(room - length));
        if (got < 0) return -1;
        if (got == 0) break;
        length += (int)got;
    }
    return length;
}

static void report_folder(void)
{
    const int nodes = read_file("nodes.blk", node_image, NODE_ROOM);
    const int table = nodes < 0 ? 0 : read_file("rules.blk", rule_image, RULE_ROOM);
    if (nodes < 0) {
        put("unreadable nodes.blk\n");
    } else if (table < 0) {
        put("unreadable rules.blk\n");
    } else {
        struct refusal no = read_nodes(node_image, nodes);
        if (!no.number) no = read_rules(rule_image, table);
        if (no.number) put_refusal(no);
        else put_report();
    }
}

/* Takes bytes from a buffered file; 0 if it ends before. */
static int take(int file, u8 *into, int count)
{
    while (count > 0) {
        if (input_at == input_length) {
            input_at = 0;
            input_length = (int)read(file, input, INPUT);
            if (input_length <= 0) return input_length = 0;
        }
        const int part = count < input_length - input_at ? count : input_length - input_at;
        __builtin_memcpy(into, input + input_at, (unsigned long)part);
        into += part;
        count -= part;
        input_at += part;
    }
    return 1;
}

/* A list, or 12 if it has more numbers than there is room. */
static void put_list(const u16 *list, int count, int room)
{
    if (count > room) {
        put(" ");
        put_refusal((struct refusal){12, 0});
        return;
    }
    put_number(count);
    for (int k = 0; k < count; k++) put_number(list[k]);
    put("\n");
}

static void pair_slice(int day, int room, struct refusal no)
{
    static u16 list[NODES];
    int count = 0;
    put("slice");
    put_number(day);
    if (!no.number && day >= CENTURY) no.number = 11;
    if (no.number) {
        put(" ");
        put_refusal(no);
        return;
    }
    for (int i = 0; i < bank.count; i++)
        if (bank.type[i] == VERSION && meets(i, day, day + 1)) list[count++] = (u16)i;
    put_list(list, count, room);
}

static void pair_changes(int number, int room, struct refusal no)
{
    static u16 list[2 * NODES + 1];
    put("changes");
    put_number(number);
    if (!no.number && (number >= rule_count || rules[number].windowed)) no.number = 11;
    if (no.number) {
        put(" ");
        put_refusal(no);
        return;
    }
    find_roles(&rules[number]);
    find_events();
    put_list(list, change_days(&rules[number], CENTURY, list), room);
}

static void pair_verdict(int number, struct refusal no)
{
    put("verdict");
    put_number(number);
    if (!no.number && number >= rule_count) no.number = 11;
    if (!no.number) {
        put_verdict(verdicts[number]);
        return;
    }
    put(" ");
    put_refusal(no);
}

/* All that is printed for one pair; slices take no rules. */
static void put_pair(int pair, const u8 *head, int nodes, int table)
{
    const int room = load16(head + 16);
    const struct refusal no_slice = read_nodes(node_image, nodes);
    const struct refusal no = no_slice.number ? no_slice : read_rules(rule_image, table);
    put("pair");
    put_number(pair);
    put("\n");
    if (no.number) put_refusal(no);
    else put_report();
    for (int k = 0; k < 2; k++) pair_slice(load16(head + 8 + 2 * k), room, no_slice);
    for (int k = 0; k < 2; k++) pair_changes(load16(head + 12 + 2 * k), room, no);
    for (int k = 0; k < 2; k++) pair_verdict(load16(head + 12 + 2 * k), no);
}

/* The pairs of a file, until it ends or a pair is longer than images can be. */
static int report_pairs(const char *name)
{
    u8 head[20];
    const int file = open(name, 0);
    if (file < 0) return 2;
    for (int pair = 0; take(file, head, 20); pair++) {
        const u32 nodes = load32(head), table = load32(head + 4);
        if (nodes > NODE_ROOM || table > RULE_ROOM) break;
        if (!take(file, node_image, (int)nodes) || !take(file, rule_image, (int)table)) break;
        put_pair(pair, head, (int)nodes, (int)table);
    }
    return 0;
}

int main(int count, char **words)
{
    int status = 0;
    if (count == 3 && strcmp(words[1], "--pairs") == 0) status = report_pairs(words[2]);
    else if (count == 1) report_folder();
    else status = 2;
    flush();
    return status;
}
