/* The lowest offender of a day (taken as a window of one day) or window that is known to fail: one look, once for a rule. */
#include "fast.h"

static u16 values_of[NODES], one[NODES]; /* by version: how many values, and the last of them */
static u8 held[NODES + 1];               /* by class of value */
static u16 lowest[NODES + 1];            /* by class of value: its lowest holder */
static u16 counted[NODES + 1];           /* by class of item number */
static u8 seen_pair[NODES + 1];              /* by class of number and value */

#define CLEAR(column) __builtin_memset(column, 0, sizeof(column))

static int has(int version, int what) { return role[bank.path[version]] & what; }

/* Whether a nil is at fault by itself. */
static int bad_nil(const struct rule *r, int f) { return bank.kind[f] == NIL && (r->kind == KEY || r->kind == REFERENCE); }

/* Counts the values (or, where asked, all field versions) of each version in the window. A nil at fault counts as two, since on a day two
   values are at fault. A referred version may so hold a nil: only that same nil could want it, and is at fault whether it is held or not. */
static void count_values(const struct rule *r, int what, int from, int to, int all)
{
    CLEAR(values_of);
    for (int k = 0; k < bank.versions; k++) {
        const int f = bank.by_begin[k];
        if (!has(f, what) || !meets(f, from, to) || !(all || bank.kind[f])) continue;
        values_of[owner_of(r, f)] += (u16)(1 + bad_nil(r, f));
        one[owner_of(r, f)] = bank.valued[f];
    }
}

/* Key and unique on a day: lower records come first, so the first one at fault is the lowest. */
static int double_on_day(const struct rule *r, int from, int to)
{
    CLEAR(held);
    count_values(r, FIELD, from, to, 0);
    for (int v = 0; v < bank.count; v++) {
        if (bank.type[v] != VERSION || !has(v, SELECTED) || !meets(v, from, to)) continue;
        if (values_of[v] > 1 || (r->kind == KEY && values_of[v] == 0)) return v;
        if (values_of[v] == 1 && held[one[v]]) return v;
        if (values_of[v] == 1) held[one[v]] = 1;
    }
    return 0;
}

/* A reference on a day. The referred versions with a single value hold it. */
static int unheld_on_day(const struct rule *r, int from, int to)
{
    CLEAR(held);
    count_values(&rules[r->referred], HELD, from, to, 0);
    for (int v = 0; v < bank.count; v++)
        if (values_of[v] == 1) held[one[v]] = 1;
    count_values(r, FIELD, from, to, 0);
    for (int v = 0; v < bank.count; v++)
        if (values_of[v] > 1 || (values_of[v] == 1 && !held[one[v]])) return v;
    return 0;
}

static int miscounted_on_day(const struct rule *r, int from, int to)
{
    count_values(r, FIELD, from, to, 1);
    for (int v = 0; v < bank.count; v++) {
        if (bank.type[v] != VERSION || !has(v, SELECTED) || !meets(v, from, to)) continue;
        if (values_of[v] < r->min || values_of[v] > r->max) return v;
    }
    return 0;
}

/* The lowest selected version in the window without a value. */
static int without_value(const struct rule *r, int from, int to)
{
    count_values(r, FIELD, from, to, 0);
    for (int v = 0; v < bank.count; v++)
        if (bank.type[v] == VERSION && has(v, SELECTED) && meets(v, from, to) && values_of[v] == 0) return v;
    return NODES;
}

/* The lowest holder of each value in the window. */
static void find_lowest(const struct rule *r, int from, int to)
{
    __builtin_memset(lowest, 255, sizeof lowest);
    for (int k = 0; k < bank.versions; k++) {
        const int f = bank.by_begin[k], value = bank.valued[f];
        if (has(f, FIELD) && value && meets(f, from, to) && owner_of(r, f) < lowest[value]) lowest[value] = (u16)owner_of(r, f);
    }
}

/* Key and unique in a window: of one value, the lowest offender is the lowest holder of another number than the lowest holder's. A nil has
   one holder, who offends a key. */
static int double_in_window(const struct rule *r, int from, int to)
{
    int found = r->kind == KEY ? without_value(r, from, to) : NODES;
    find_lowest(r, from, to);
    for (int k = 0; k < bank.versions; k++) {
        const int f = bank.by_begin[k], v = owner_of(r, f);
        if (!has(f, FIELD) || !bank.valued[f] || !meets(f, from, to) || v >= found) continue;
        if (bad_nil(r, f) || bank.numbered[v] != bank.numbered[lowest[bank.valued[f]]]) found = v;
    }
    return found;
}

static int unheld_in_window(const struct rule *r, int from, int to)
{
    int found = NODES;
    CLEAR(held);
    for (int k = 0; k < bank.versions; k++) {
        const int f = bank.by_begin[k];
        if (has(f, HELD) && meets(f, from, to)) held[bank.valued[f]] = 1;
    }
    for (int k = 0; k < bank.versions; k++) {
        const int f = bank.by_begin[k];
        if (!has(f, FIELD) || !bank.valued[f] || !meets(f, from, to)) continue;
        if ((bad_nil(r, f) || !held[bank.valued[f]]) && owner_of(r, f) < found) found = owner_of(r, f);
    }
    return found;
}

static int miscounted_in_window(const struct rule *r, int from, int to)
{
    CLEAR(counted);
    CLEAR(seen_pair);
    for (int k = 0; k < bank.versions; k++) {
        const int f = bank.by_begin[k];
        if (!has(f, FIELD) || !bank.kind[f] || !meets(f, from, to)) continue;
        if (r->distinct && (!bank.pair[f] || seen_pair[bank.pair[f]])) continue;
        seen_pair[bank.pair[f]] = 1;
        counted[bank.numbered[owner_of(r, f)]]++;
    }
    for (int v = 0; v < bank.count; v++) {
        if (bank.type[v] != VERSION || !has(v, SELECTED) || !meets(v, from, to)) continue;
        if (counted[bank.numbered[v]] < r->min || counted[bank.numbered[v]] > r->max) return v;
    }
    return 0;
}

/* Datatypes find their offender themselves. */
int lowest_offender(const struct rule *r, int from, int to)
{
    if (r->kind <= UNIQUE) return r->windowed ? double_in_window(r, from, to) : double_on_day(r, from, to);
    if (r->kind == REFERENCE) return r->windowed ? unheld_in_window(r, from, to) : unheld_on_day(r, from, to);
    return r->windowed ? miscounted_in_window(r, from, to) : miscounted_on_day(r, from, to);
}
