/* Verdicts of datatype rules, on days and in windows: each field version knows when it is at fault, so no day is walked. */
#include "windows.h"

/* In windows, a field version is at fault in [s, e) if its begin < e and its reach > s; 0 if never.
   A text reaches to its end. A number q reaches to the latest end of a number p before it, none between, with a bad difference. */
static u16 reach[NODES];

/* The field versions of the rule with a number or a text, by class of item number: group k has from[k] .. from[k + 1], by begin and by end. */
static u16 from[NODES + 2], fill[NODES + 2], group_begin[NODES], group_end[NODES];

/* Earlier numbers that later ones have not put in the shade: lows rise, highs fall, both by end. */
static u16 lows[NODES], highs[NODES];

static int is_field(int f) { return role[bank.path[f]] & FIELD; }

/* Whether a field version breaks the rule of a day. */
static int bad_on_day(const struct rule *r, int f)
{
    return bank.kind[f] == TEXT || (bank.kind[f] == NUMBER && (bank.value[f] < r->min || bank.value[f] > r->max));
}

/* The first day of the period with a bad field version; the versions come by begin, so that later begins end the search. */
static int first_bad_day(const struct rule *r)
{
    int first = r->end;
    for (int k = 0; k < bank.versions; k++) {
        const int f = bank.by_begin[k], begin = bank.begin[f] > r->begin ? bank.begin[f] : r->begin;
        if (begin >= first) break;
        if (is_field(f) && bank.end[f] > r->begin && bad_on_day(r, f)) first = begin;
    }
    return first;
}

struct verdict datatype_on_days(const struct rule *r)
{
    const int day = first_bad_day(r);
    find_events();
    const int looked = change_days(r, day, 0);
    if (day == r->end) return (struct verdict){0, 0, 0, looked};
    int found = NODES;
    for (int k = 0; k < bank.versions; k++) {
        const int f = bank.by_begin[k];
        if (is_field(f) && meets(f, day, day + 1) && bad_on_day(r, f) && owner_of(r, f) < found) found = owner_of(r, f);
    }
    return (struct verdict){1, day, found, looked};
}

/* Whether a version takes part in the groups: a nil does not, so that it is no fault, makes no step and parts no other two. */
static int in_group(int f) { return (bank.kind[f] == NUMBER || bank.kind[f] == TEXT) && is_field(f); }

/* Lays out the groups: counts, places, then both orders. */
static int find_groups(const struct rule *r)
{
    int groups = 0;
    __builtin_memset(fill, 0, sizeof fill);
    for (int k = 0; k < bank.versions; k++) {
        const int f = bank.by_begin[k];
        if (!in_group(f)) continue;
        const int group = bank.numbered[owner_of(r, f)];
        fill[group]++;
        if (group > groups) groups = group;
    }
    from[0] = from[1] = 0;
    for (int g = 1; g <= groups; g++) from[g + 1] = (u16)(from[g] + fill[g]);
    return groups;
}

/* Puts the field versions of a list into their groups, in the order of the list. */
static void fill_groups(const struct rule *r, const u16 *list, int groups, u16 *to)
{
    __builtin_memcpy(fill, from, (unsigned long)(groups + 1) * sizeof *from);
    for (int k = 0; k < bank.versions; k++)
        if (in_group(list[k])) to[fill[bank.numbered[owner_of(r, list[k])]]++] = list[k];
}

/* The end of the last of lows (sign 1: below the bound) or highs (sign -1: above it), or 0. Those at the front go furthest. */
static int latest(const u16 *list, int front, int back, int sign, long long bound)
{
    if (front == back || sign * (long long)bank.value[list[front]] >= sign * bound) return 0;
    while (back - front > 1) {
        const int middle = (front + back) / 2;
        if (sign * (long long)bank.value[list[middle]] < sign * bound) front = middle;
        else back = middle;
    }
    return bank.end[list[front]];
}

/* Appends a number, taking out those that it puts in the shade; gives the new back. */
static int append(u16 *list, int front, int back, int sign, int p)
{
    while (back > front && sign * (long long)bank.value[list[back - 1]] >= sign * (long long)bank.value[p]) back--;
    list[back] = (u16)p;
    return back + 1;
}

/* Drops from the front those with one of the group wholly between them and the next q; gives the new front. */
static int drop(const u16 *list, int front, int back, int latest_begin)
{
    while (front < back && bank.end[list[front]] <= latest_begin) front++;
    return front;
}

/* The reach of each field version of one group. latest_begin is that of those ended by q's begin. */
static void find_reach(const struct rule *r, int first, int last)
{
    int p = first, latest_begin = -1, low = 0, lows_end = 0, high = 0, highs_end = 0;
    for (int k = first; k < last; k++) {
        const int q = group_begin[k];
        for (; p < last && bank.end[group_end[p]] <= bank.begin[q]; p++) {
            const int f = group_end[p];
            if (bank.begin[f] > latest_begin) latest_begin = bank.begin[f];
            if (bank.kind[f] == TEXT) continue;
            lows_end = append(lows, low, lows_end, 1, f);
            highs_end = append(highs, high, highs_end, -1, f);
        }
        low = drop(lows, low, lows_end, latest_begin);
        high = drop(highs, high, highs_end, latest_begin);
        const int below = latest(lows, low, lows_end, 1, (long long)bank.value[q] - r->max);
        const int above = latest(highs, high, highs_end, -1, (long long)bank.value[q] - r->min);
        reach[q] = bank.kind[q] == TEXT ? bank.end[q] : (u16)(below > above ? below : above);
    }
}

/* The first window in which some field version is at fault, or the count of windows. */
static int first_bad_window(const struct windows *w, int fields)
{
    int first = w->count;
    for (int k = 0; k < fields; k++) {
        const int f = group_begin[k];
        if (reach[f] <= w->begin || bank.begin[f] >= w->end) continue;
        const int window = first_reaching(w, bank.begin[f]);
        if (window < first && window_start(w, window) < reach[f]) first = window;
    }
    return first;
}

struct verdict datatype_in_windows(const struct rule *r)
{
    const struct windows w = windows_of(r);
    const int groups = find_groups(r), fields = from[groups + 1];
    fill_groups(r, bank.by_begin, groups, group_begin);
    fill_groups(r, bank.by_end, groups, group_end);
    for (int g = 1; g <= groups; g++) find_reach(r, from[g], from[g + 1]);
    const int first = first_bad_window(&w, fields);
    if (first == w.count) return (struct verdict){0, 0, 0, w.count};
    const int start = window_start(&w, first), end = window_end(&w, first);
    int found = NODES;
    for (int k = 0; k < fields; k++) {
        const int f = group_begin[k];
        if (f < found && bank.begin[f] < end && reach[f] > start) found = f;
    }
    return (struct verdict){1, start, found, first + 1};
}
