/* What the parts of the fast program share: limits, the columns of a bank, the rules, verdicts, and the calls between the files. */
#ifndef FAST_H
#define FAST_H

typedef unsigned char u8;
typedef unsigned short u16;
typedef unsigned int u32;
typedef unsigned long long u64;

enum { BLOCK = 512, NODE_BLOCKS = 40, RULE_BLOCKS = 10, NODE_SIZE = 20, RULE_SIZE = 50 };
enum { NODES = 1000, RULES = 100, CENTURY = 36525, MONTHS = 1200, NONE = 65535, DEPTH = 8 };
enum { ITEM = 1, VERSION = 2 };
enum { NUMBER = 1, TEXT = 2, NIL = 3 };
enum { KEY = 1, UNIQUE, REFERENCE, CARDINALITY, DATATYPE };

/* A refusal; number 0 says that there is none. */
struct refusal { int number, place; };

/* A node image in columns. Classes count from 1: equal classes say equal values, item numbers or paths of names. */
struct bank {
    int count;                                  /* records */
    int versions;                               /* versions among them */
    u8 type[NODES], kind[NODES], depth[NODES];
    u16 name[NODES], parent[NODES], begin[NODES], end[NODES];
    u16 owner[NODES];                           /* the parent's parent: for a version, the one above its item */
    int value[NODES];
    u32 number[NODES];
    u16 numbered[NODES];                        /* class of the item number; a version has its item's */
    u16 path[NODES];                            /* class of the names from the root; a version has its item's */
    u16 valued[NODES];                          /* class of the value, 0 if there is none; see find_values */
    u16 pair[NODES];                            /* class of (number of the owner, value), 0 if there is none or a nil; see find_pairs */
    u16 by_begin[NODES], by_end[NODES];         /* versions by begin, lower records first; by end, higher records first */
    int nils;                                   /* versions with a nil, and which: most banks have none */
    u16 nil[NODES];
    int paths;                                  /* classes of paths; 0 stands above the root */
    u16 path_above[NODES + 1], path_name[NODES + 1];
    u8 path_depth[NODES + 1];
};

struct rule {
    u8 kind, windowed, length, distinct, unit;
    u16 path[DEPTH];
    u16 field, referred, begin, end, width, slide;
    int min, max;
};

/* What is known of one rule: failed 0 or 1, the day or window start, the lowest offender, how many were looked at. */
struct verdict { int failed, day, record, looked; };

extern struct bank bank;
extern struct rule rules[RULES];
extern int rule_count;
extern u16 month_start[MONTHS + 2];             /* filled by fill_months; a day past all days ends it */

/* Loads of little-endian numbers; the program is for little-endian machines. */
#if defined(__BYTE_ORDER__) && __BYTE_ORDER__ != __ORDER_LITTLE_ENDIAN__
#error "little-endian machines only"
#endif
static inline u16 load16(const u8 *at) { u16 x; __builtin_memcpy(&x, at, 2); return x; }
static inline u32 load32(const u8 *at) { u32 x; __builtin_memcpy(&x, at, 4); return x; }
static inline u64 load64(const u8 *at) { u64 x; __builtin_memcpy(&x, at, 8); return x; }

/* The version that a field version belongs to: itself for field 0, else the version above its item. */
static inline int owner_of(const struct rule *rule, int field)
{
    return rule->field ? bank.owner[field] : field;
}

/* The first month that starts on a day or after it: the mean month is at most two months too early. */
static inline int month_at_or_after(int day)
{
    const int mean = (int)((u32)day * 48 / 1461);
    return mean + (month_start[mean] < day) + (month_start[mean + 1] < day);
}

/* Whether a version shares a day with [from, to). */
static inline int meets(int version, int from, int to)
{
    return bank.begin[version] < to && bank.end[version] > from;
}

/* blocks.c */
struct refusal read_blocks(const u8 *image, int length, int kind, int size, int most, int base);
int records_in(int length, const u8 *image, int size);
const u8 *record_at(const u8 *image, int record, int size);

/* nodes.c */
struct refusal read_nodes(const u8 *image, int length);

/* classes.c */
void find_paths_and_numbers(void);
int number_clash(void);
void sort_versions(void);
void find_values(void);
void find_pairs(void);

/* rules.c */
struct refusal read_rules(const u8 *image, int length);
void fill_months(void);

/* roles.c */
enum { SELECTED = 1, FIELD = 2, REFERRED = 4, HELD = 8 };
extern u8 role[NODES + 1];
extern u16 entering[NODES + 1], leaving[NODES + 1], enter_day[NODES + 1], leave_day[NODES + 1];
void find_roles(const struct rule *rule);
void find_events(void);
int change_days(const struct rule *rule, int last, u16 *days);

/* offender.c, datatype.c, verdict.c */
int lowest_offender(const struct rule *rule, int from, int to);
struct verdict datatype_on_days(const struct rule *rule);
struct verdict datatype_in_windows(const struct rule *rule);
struct verdict judge(const struct rule *rule);

#endif
