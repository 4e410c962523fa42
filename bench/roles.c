/* Which versions a rule reads and as what, in order of their days, and its change days. */
#include "fast.h"

u8 role[NODES + 1]; /* by class of path */
u16 entering[NODES + 1], leaving[NODES + 1], enter_day[NODES + 1], leave_day[NODES + 1];
static u8 fits[NODES + 1];

/* Adds the two roles of a path and a field to the classes of paths: a class stands after the one above it. */
static void add_roles(const struct rule *r, int selected, int field)
{
    fits[0] = 1;
    for (int c = 1; c <= bank.paths; c++) {
        const int above = bank.path_above[c], depth = bank.path_depth[c];
        const int wanted = depth <= r->length ? r->path[depth - 1] : 0;
        fits[c] = fits[above] && (wanted == NONE || wanted == bank.path_name[c]);
        if (fits[c] && depth == r->length) role[c] |= (u8)(r->field ? selected : selected | field);
        else if ((role[above] & selected) && r->field == bank.path_name[c]) role[c] |= (u8)field;
    }
}

/* Roles of all classes of paths; a reference adds those of the rule that it refers to. */
void find_roles(const struct rule *r)
{
    __builtin_memset(role, 0, (unsigned long)bank.paths + 1);
    add_roles(r, SELECTED, FIELD);
    if (r->kind == REFERENCE) add_roles(&rules[r->referred], REFERRED, HELD);
}

/* The versions read, by begin and by end; a day past all days ends each list. */
void find_events(void)
{
    int in = 0, out = 0;
    for (int k = 0; k < bank.versions; k++) {
        const int a = bank.by_begin[k], b = bank.by_end[k];
        entering[in] = (u16)a;
        enter_day[in] = bank.begin[a];
        in += role[bank.path[a]] != 0;
        leaving[out] = (u16)b;
        leave_day[out] = bank.end[b];
        out += role[bank.path[b]] != 0;
    }
    enter_day[in] = leave_day[out] = NONE;
}

/* How many change days there are up to a day; stores them if a list is given (it has room for 2,001). */
int change_days(const struct rule *r, int last, u16 *days)
{
    const u16 *in = enter_day, *out = leave_day;
    int count = 0, day = r->begin;
    if (last >= r->end) last = r->end - 1;
    while (day <= last) {
        if (days) days[count] = (u16)day;
        count++;
        while (*in <= day) in++;
        while (*out <= day) out++;
        day = *in < *out ? *in : *out;
    }
    return count;
}
