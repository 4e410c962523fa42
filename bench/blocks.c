/* The blocks of an image: length, check, block fields, zeros after the last record (refusals 1 to 4, and 21 to 24). */
#include "fast.h"

enum { BODY = 508, HEAD = 8 };

/* Powers of 33 modulo 2^32. */
static const u32 to4 = 1185921u, to8 = 1185921u * 1185921u, to12 = 1185921u * 1185921u * 1185921u;
static const u32 to16 = 1185921u * 1185921u * 1185921u * 1185921u, to496 = 2334547457u;

typedef u16 eight __attribute__((vector_size(16)));
typedef u32 four __attribute__((vector_size(16)));

/* The check of 508 bytes: the first 12 one by one, then 16 at a time. Neighbours are joined to pairs (below 2^15) and pairs
   to fours; each of the four lanes takes every fourth four, and the lanes are joined at the end. */
static u32 check_of(const u8 *block)
{
    u32 check = 5381;
    four lanes = {0, 0, 0, 0};
    for (int at = 0; at < 12; at++) check = check * 33 + block[at];
    for (int at = 12; at < BODY; at += 16) {
        eight pairs;
        __builtin_memcpy(&pairs, block + at, 16);
        pairs = (pairs & 255) * 33 + (pairs >> 8);
        const four fours = (four)pairs;
        lanes = lanes * to16 + (fours & 0x7fff) * 1089 + (fours >> 16);
    }
    return check * to496 + lanes[0] * to12 + lanes[1] * to8 + lanes[2] * to4 + lanes[3];
}

/* Whether bytes from..507 of a block are all zero. */
static int zero_from(const u8 *block, int from)
{
    u64 seen = 0;
    for (; from < BODY && (from & 7); from++) seen |= block[from];
    for (; from + 8 <= BODY; from += 8) seen |= load64(block + from);
    for (; from < BODY; from++) seen |= block[from];
    return seen == 0;
}

/* One block: its check, its four fields, its unused bytes. The numbers of rule images are 20 higher (base). */
static struct refusal read_block(const u8 *block, int at, int last, int kind, int size, int base)
{
    const int full = (BODY - HEAD) / size;
    const int count = load16(block + 4);
    if (check_of(block) != load32(block + BODY)) return (struct refusal){base + 2, at};
    if (load32(block) != (u32)at || block[6] != kind || block[7] != 0) return (struct refusal){base + 3, at};
    if (last ? count < 1 || count > full : count != full) return (struct refusal){base + 3, at};
    if (!zero_from(block, HEAD + count * size)) return (struct refusal){base + 4, at * full + count};
    return (struct refusal){0, 0};
}

/* All blocks of an image, in order. */
struct refusal read_blocks(const u8 *image, int length, int kind, int size, int most, int base)
{
    const int blocks = length / BLOCK;
    if (length == 0 || length % BLOCK || blocks > most) return (struct refusal){base + 1, 0};
    for (int at = 0; at < blocks; at++) {
        struct refusal no = read_block(image + at * BLOCK, at, at == blocks - 1, kind, size, base);
        if (no.number) return no;
    }
    return (struct refusal){0, 0};
}

/* How many records an image has whose blocks are sound. */
int records_in(int length, const u8 *image, int size)
{
    const int full = (BODY - HEAD) / size, blocks = length / BLOCK;
    return (blocks - 1) * full + load16(image + (blocks - 1) * BLOCK + 4);
}

/* Where a record stands. */
const u8 *record_at(const u8 *image, int record, int size)
{
    const int full = (BODY - HEAD) / size;
    return image + record / full * BLOCK + HEAD + record % full * size;
}
