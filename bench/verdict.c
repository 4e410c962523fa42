/* Verdicts of all kinds but datatype: tallies kept while versions enter and leave, day by change day or window by window. */
#include "windows.h"

#define INLINE static inline __attribute__((always_inline))

/* What is tallied, by kind of rule; walk is compiled once for each. */
enum mode { DOUBLE_DAY, REFERENCE_DAY, COUNT_DAY, DOUBLE_WINDOW, REFERENCE_WINDOW, COUNT_WINDOW, DISTINCT_WINDOW };

static u16 own[NODES], held_own[NODES];           /* by version: its field versions or values; the same as a referred one */
static u32 sum[NODES];                            /* by referred version: the classes of its values, added up */
static u16 wanted[NODES + 1], offered[NODES + 1]; /* by class of value: how many want it, how many hold it */
static u16 holder[NODES + 1];                     /* by class of value: the number that holds it in a window */
static u16 chosen[NODES + 1], counted[NODES + 1]; /* by class of item number: selected versions and field versions */
static u16 paired[NODES + 1];                     /* by class of number and value */

/* selected: present; filled: those with a value; bad: faults that last; doubled: a fault that ends the walk. */
struct tally { int selected, filled, bad, doubled; };

/* All tallies to 0, as far as there are records or classes of this bank. */
static void clear_tallies(void)
{
    const unsigned long two = sizeof(u16) * ((unsigned long)bank.count + 1), four = sizeof(u32) * (unsigned long)bank.count;
    __builtin_memset(own, 0, two - sizeof(u16));
    __builtin_memset(held_own, 0, two - sizeof(u16));
    __builtin_memset(sum, 0, four);
    __builtin_memset(wanted, 0, two);
    __builtin_memset(offered, 0, two);
    __builtin_memset(chosen, 0, two);
    __builtin_memset(counted, 0, two);
    __builtin_memset(paired, 0, two);
}

/* 1 if a count lies outside the bounds of the rule. */
INLINE int outside(const struct rule *r, int count)
{
    return (u32)count - (u32)r->min > (u32)r->max - (u32)r->min;
}

/* A count changes by one step; bad changes if it crosses a bound. */
INLINE void recount(const struct rule *r, struct tally *t, u16 *count, int step)
{
    t->bad -= outside(r, *count);
    *count = (u16)(*count + step);
    t->bad += outside(r, *count);
}

/* A value is wanted by one more or fewer; bad counts the values wanted and not offered. */
INLINE void want(struct tally *t, int value, int step)
{
    t->bad -= wanted[value] && !offered[value];
    wanted[value] = (u16)(wanted[value] + step);
    t->bad += wanted[value] && !offered[value];
}

INLINE void offer(struct tally *t, int value, int step)
{
    t->bad -= wanted[value] && !offered[value];
    offered[value] = (u16)(offered[value] + step);
    t->bad += wanted[value] && !offered[value];
}

/* A referred version on a day offers its value only while it has no other. */
INLINE void change_referred(struct tally *t, int v, int value, int step)
{
    if (held_own[v] == 1) offer(t, (int)sum[v], -1);
    held_own[v] = (u16)(held_own[v] + step);
    sum[v] += (u32)(step * value);
    if (held_own[v] == 1) offer(t, (int)sum[v], 1);
}

/* A selected version enters or leaves; its fields enter after it and leave before it, so its count is 0 then. */
INLINE void change_selected(const struct rule *r, enum mode mode, struct tally *t, int v, int step)
{
    t->selected += step;
    if (mode == COUNT_DAY) t->bad += step * outside(r, 0);
    if (mode == COUNT_WINDOW || mode == DISTINCT_WINDOW) {
        const int number = bank.numbered[v], before = chosen[number];
        chosen[number] = (u16)(before + step);
        if (step > 0 ? before == 0 : before == 1) t->bad += step * outside(r, 0);
    }
}

/* On a day one value to a version and one version to a value: anything more fails, and stays so whatever else enters. */
INLINE void change_single(struct tally *t, int v, int value, int step)
{
    if (step > 0 && (own[v] || offered[value])) t->doubled = 1;
    own[v] = offered[value] = step > 0;
    t->filled += step;
}

/* In a window a value may be held by many versions of one number. */
INLINE void change_shared(struct tally *t, int v, int value, int step)
{
    const int number = bank.numbered[v];
    if (step > 0 && offered[value] && holder[value] != number) t->doubled = 1;
    holder[value] = (u16)number;
    offered[value] = (u16)(offered[value] + step);
    if (step > 0) t->filled += own[v]++ == 0;
    else t->filled -= --own[v] == 0;
}

/* What a field version counts as: its kind where all values count, the class of its pair or of its value elsewhere; 0 if it does not count. */
INLINE int counted_as(enum mode mode, int f)
{
    if (mode == COUNT_DAY || mode == COUNT_WINDOW) return bank.kind[f];
    return mode == DISTINCT_WINDOW ? bank.pair[f] : bank.valued[f];
}

/* A field version enters or leaves. */
INLINE void change_field(const struct rule *r, enum mode mode, struct tally *t, int f, int step)
{
    const int v = owner_of(r, f), value = counted_as(mode, f);
    if (mode == COUNT_DAY) recount(r, t, &own[v], step);
    if (mode == COUNT_DAY || !value) return;
    if (mode == DOUBLE_DAY) change_single(t, v, value, step);
    if (mode == DOUBLE_WINDOW) change_shared(t, v, value, step);
    if (mode == REFERENCE_DAY || mode == REFERENCE_WINDOW) want(t, value, step);
    if (mode == REFERENCE_DAY) {
        if (step > 0 && own[v]) t->doubled = 1;
        own[v] = step > 0;
    }
    if (mode == COUNT_WINDOW) recount(r, t, &counted[bank.numbered[v]], step);
    if (mode == DISTINCT_WINDOW) {
        u16 *times = &paired[value];
        *times = (u16)(*times + step);
        if (step > 0 ? *times == 1 : *times == 0) recount(r, t, &counted[bank.numbered[v]], step);
    }
}

/* A version enters (step 1) or leaves (step -1), in each of its roles. */
INLINE void change(const struct rule *r, enum mode mode, struct tally *t, int v, int step)
{
    const int what = role[bank.path[v]];
    if (what & SELECTED) change_selected(r, mode, t, v, step);
    if (what & FIELD) change_field(r, mode, t, v, step);
    if (mode != REFERENCE_DAY && mode != REFERENCE_WINDOW) return;
    if (!(what & HELD) || !bank.valued[v]) return;
    if (mode == REFERENCE_WINDOW) offer(t, bank.valued[v], step);
    else change_referred(t, owner_of(&rules[r->referred], v), bank.valued[v], step);
}

/* Whether nobody offends. A key fails if not all selected versions are filled. */
INLINE int fine(const struct rule *r, const struct tally *t)
{
    return !t->bad && !t->doubled && (r->kind != KEY || t->selected == t->filled);
}

/* Change day by change day. Every version that begins or ends on the way does so on one of them; those that ended before
   the first neither enter nor leave. */
INLINE struct verdict walk_days(const struct rule *r, enum mode mode)
{
    struct tally t = {0, 0, 0, 0};
    int looked = 0, in = 0, out = 0;
    while (leave_day[out] <= r->begin) out++;
    for (int day = r->begin; day < r->end; day = enter_day[in] < leave_day[out] ? enter_day[in] : leave_day[out]) {
        looked++;
        while (leave_day[out] <= day) change(r, mode, &t, leaving[out++], -1);
        for (; enter_day[in] <= day; in++)
            if (bank.end[entering[in]] > day) change(r, mode, &t, entering[in], 1);
        if (!fine(r, &t)) return (struct verdict){1, day, lowest_offender(r, day, day + 1), looked};
    }
    return (struct verdict){0, 0, 0, looked};
}

/* The next window after k that something enters or leaves: those between see what k saw. */
INLINE int next_window(const struct windows *w, int in, int out)
{
    const int reached = enter_day[in] < w->end ? first_reaching(w, enter_day[in]) : w->count;
    const int past = first_past(w, leave_day[out]);
    return reached < past ? reached : past;
}

/* How many item numbers have a count outside the bounds; those without a selected version count 0. */
static int miscounted(const struct rule *r)
{
    int bad = 0;
    for (int number = 1; number <= bank.count; number++) bad += chosen[number] && outside(r, counted[number]);
    return bad;
}

/* How far a walk over windows has come: the window that is next, the end of the one before it, and what has entered and left. */
struct walk { struct tally t; int k, in, out, end; };

/* Window by window, up to the first shortened one if only whole ones are wanted; 1 where one fails. A version that lies wholly between two
   windows looked at neither enters nor leaves. */
INLINE int walk_on(const struct rule *r, enum mode mode, const struct windows *w, int whole_only, struct walk *s, struct verdict *found)
{
    for (; s->k < w->count && !(whole_only && window_shortened(w, s->k)); s->k = next_window(w, s->in, s->out)) {
        const int start = window_start(w, s->k), before = s->end;
        s->end = window_end(w, s->k);
        for (; leave_day[s->out] <= start; s->out++)
            if (bank.begin[leaving[s->out]] < before) change(r, mode, &s->t, leaving[s->out], -1);
        for (; enter_day[s->in] < s->end; s->in++)
            if (bank.end[entering[s->in]] > start) change(r, mode, &s->t, entering[s->in], 1);
        if (fine(r, &s->t)) continue;
        *found = (struct verdict){1, start, lowest_offender(r, start, s->end), s->k + 1};
        return 1;
    }
    return 0;
}

/* All windows, or the first so many. A shortened one is not held to the minimum of a cardinality, so that from the first of them on the rule
   goes without it; where the last window is whole, all are. */
INLINE struct verdict walk_windows(const struct rule *r, enum mode mode, int most)
{
    struct windows w = windows_of(r);
    if (most < w.count) w.count = most;
    struct verdict found = {0, 0, 0, w.count};
    struct walk s = {{0, 0, 0, 0}, 0, 0, 0, 0};
    if ((mode == COUNT_WINDOW || mode == DISTINCT_WINDOW) && r->min && window_shortened(&w, w.count - 1)) {
        struct rule freed = *r;
        if (walk_on(r, mode, &w, 1, &s, &found)) return found;
        freed.min = 0;
        s.t.bad = miscounted(&freed);
        walk_on(&freed, mode, &w, 0, &s, &found);
    } else {
        walk_on(r, mode, &w, 0, &s, &found);
    }
    return found;
}

static struct verdict judge_days(const struct rule *r)
{
    if (r->kind <= UNIQUE) return walk_days(r, DOUBLE_DAY);
    if (r->kind == REFERENCE) return walk_days(r, REFERENCE_DAY);
    return walk_days(r, COUNT_DAY);
}

static struct verdict judge_windows(const struct rule *r, int most)
{
    if (r->kind <= UNIQUE) return walk_windows(r, DOUBLE_WINDOW, most);
    if (r->kind == REFERENCE) return walk_windows(r, REFERENCE_WINDOW, most);
    return r->distinct ? walk_windows(r, DISTINCT_WINDOW, CENTURY) : walk_windows(r, COUNT_WINDOW, CENTURY);
}

/* Whether a nil is in a rule's field, and shares days with the rule's period. */
static int nil_in_field(const struct rule *r, int f) { return (role[bank.path[f]] & FIELD) && meets(f, r->begin, r->end); }

/* A key or a reference on days, in a bank with nils: it fails on the first day with a nil in its field, if it holds on all days before. */
static struct verdict days_with_nils(const struct rule *r)
{
    struct rule before = *r;
    struct verdict found = {0, 0, 0, 0};
    for (int k = 0; k < bank.nils; k++) {
        const int f = bank.nil[k], day = bank.begin[f] > r->begin ? bank.begin[f] : r->begin;
        if (nil_in_field(r, f) && day < before.end) before.end = (u16)day;
    }
    if (before.begin < before.end) found = judge_days(&before);
    if (found.failed || before.end == r->end) return found;
    return (struct verdict){1, before.end, lowest_offender(r, before.end, before.end + 1), found.looked + 1};
}

/* The same in windows; a nil that lies between two of them is in neither. */
static struct verdict windows_with_nils(const struct rule *r)
{
    const struct windows w = windows_of(r);
    int first = w.count;
    for (int k = 0; k < bank.nils; k++) {
        const int f = bank.nil[k], window = nil_in_field(r, f) ? first_reaching(&w, bank.begin[f]) : first;
        if (window < first && window_start(&w, window) < bank.end[f]) first = window;
    }
    const struct verdict found = judge_windows(r, first);
    if (found.failed || first == w.count) return found;
    const int start = window_start(&w, first);
    return (struct verdict){1, start, lowest_offender(r, start, window_end(&w, first)), first + 1};
}

/* The verdict on one rule. */
struct verdict judge(const struct rule *r)
{
    find_roles(r);
    if (r->kind == DATATYPE) return r->windowed ? datatype_in_windows(r) : datatype_on_days(r);
    if (r->distinct) find_pairs();
    if (r->kind != CARDINALITY) find_values();
    find_events();
    clear_tallies();
    if (bank.nils && (r->kind == KEY || r->kind == REFERENCE)) return r->windowed ? windows_with_nils(r) : days_with_nils(r);
    return r->windowed ? judge_windows(r, CENTURY) : judge_days(r);
}
