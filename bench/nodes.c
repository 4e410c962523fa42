/* Node records into columns, with the refusals 4 to 10 in the order of the definition. */
#include "fast.h"

struct bank bank;
static u16 last_end[NODES]; /* of the versions of an item record so far */

/* 5 for an item, its parent apart; stores it. */
static int item_fault(const u8 *at, int i)
{
    const u16 name = load16(at + 2);
    const u32 number = load32(at + 14);
    if (at[1] || name == 0 || name == NONE || load64(at + 6) || number == 0) return 5;
    bank.name[i] = name;
    bank.number[i] = number;
    return 0;
}

/* The same for a version. */
static int version_fault(const u8 *at, int i)
{
    const int kind = at[1], value = (int)load32(at + 10), begin = load16(at + 6), end = load16(at + 8);
    if (load16(at + 2) || begin >= end || end > CENTURY || load32(at + 14)) return 5;
    if (kind != NUMBER) {
        if (kind == TEXT ? value < 0 : value != 0 || kind > NIL) return 5;
        if (kind == NIL) bank.nil[bank.nils++] = (u16)i;
    }
    bank.kind[i] = (u8)kind;
    bank.begin[i] = (u16)begin;
    bank.end[i] = (u16)end;
    bank.value[i] = value;
    return 0;
}

/* 4, 5, 6 and 8 for one record; 0 if it is sound. An item's depth is one more than that of the version above. */
static int record_fault(const u8 *at, int i)
{
    const int type = at[0], parent = load16(at + 4), item = type == ITEM;
    if (load16(at + 18)) return 4;
    if (item ? item_fault(at, i) : type != VERSION || version_fault(at, i)) return 5;
    bank.type[i] = (u8)type;
    bank.parent[i] = (u16)parent;
    if (i == 0) {
        bank.depth[0] = 1;
        return item && parent == NONE ? 0 : 6;
    }
    if (parent >= i || bank.type[parent] == type) return 6;
    bank.depth[i] = (u8)(bank.depth[parent] + item);
    bank.owner[i] = bank.parent[parent];
    return bank.depth[i] > DEPTH ? 8 : 0;
}

/* 7: a version begins before a lower one of its item ends, or leaves the period of the version above. */
static int out_of_place(int i)
{
    const int item = bank.parent[i], above = bank.owner[i];
    const int early = bank.begin[i] < last_end[item];
    last_end[item] = bank.end[i];
    return early || (above != NONE && (bank.begin[i] < bank.begin[above] || bank.end[i] > bank.end[above]));
}

/* 10: the root has no version, or one that does not begin where the last ended. */
static int root_gap(void)
{
    int seen = 0, reached = 0;
    for (int k = 0; k < bank.versions; k++) {
        const int i = bank.by_begin[k];
        if (bank.parent[i] != 0) continue;
        if (seen && bank.begin[i] != reached) return 1;
        seen = 1;
        reached = bank.end[i];
    }
    return !seen;
}

/* 9 and 10, once the tree is known to be sound. */
static struct refusal read_whole(void)
{
    find_paths_and_numbers();
    sort_versions();
    const int clash = number_clash();
    if (clash) return (struct refusal){9, clash};
    return (struct refusal){root_gap() ? 10 : 0, 0};
}

/* The whole image. The first record that breaks 7 is kept, since 4, 5, 6 and 8 of any record go before it. */
struct refusal read_nodes(const u8 *image, int length)
{
    struct refusal no = read_blocks(image, length, 1, NODE_SIZE, NODE_BLOCKS, 0);
    if (no.number) return no;
    bank.count = records_in(length, image, NODE_SIZE);
    __builtin_memset(last_end, 0, sizeof last_end);
    int misplaced = bank.nils = 0;
    const u8 *at = image + 8;
    for (int i = 0, left = 25; i < bank.count; i++, at += NODE_SIZE) {
        if (left-- == 0) {
            left = 24;
            at += BLOCK - 25 * NODE_SIZE;
        }
        const int fault = record_fault(at, i);
        if (fault) return (struct refusal){fault, i};
        if (at[0] == VERSION && out_of_place(i) && !misplaced) misplaced = i;
    }
    if (misplaced) return (struct refusal){7, misplaced};
    return read_whole();
}
