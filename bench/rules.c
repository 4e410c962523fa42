/* Rule records, with the refusals 24 to 26, and the month starts. */
#include "fast.h"

struct rule rules[RULES];
int rule_count;
u16 month_start[MONTHS + 2];

/* Month starts, found when a rule first asks for them: of the years 2000 to 2099 every fourth is a leap year,
   so that after the first 48 months each start stands 1,461 days after the one 48 months before it. */
void fill_months(void)
{
    static const u8 length[12] = {31, 28, 31, 30, 31, 30, 31, 31, 30, 31, 30, 31};
    if (month_start[MONTHS]) return;
    for (int m = 0; m < 48; m++) month_start[m + 1] = (u16)(month_start[m] + length[m % 12] + (m == 1));
    for (int m = 49; m <= MONTHS; m++) month_start[m] = (u16)(month_start[m - 48] + 1461);
    month_start[MONTHS + 1] = NONE;
}

/* Used names are not 0, unused ones are. */
static int sound_path(const struct rule *r)
{
    if (r->length < 1 || r->length > DEPTH) return 0;
    for (int k = 0; k < DEPTH; k++)
        if ((r->path[k] != 0) != (k < r->length)) return 0;
    return 1;
}

/* The window fields and the period. */
static int sound_windows(const struct rule *r)
{
    if (r->begin >= r->end || r->end > CENTURY || r->unit > 2 || (!r->windowed && r->unit)) return 0;
    if (r->unit == 0) return r->width == 0 && r->slide == 0;
    if (r->width == 0 || r->slide == 0) return 0;
    if (r->unit == 1) return r->width <= CENTURY && r->slide <= CENTURY;
    fill_months();
    return r->width <= MONTHS && r->slide <= MONTHS && month_start[month_at_or_after(r->begin)] == r->begin;
}

/* What stands besides, by kind. */
static int sound_kind(const struct rule *r)
{
    if (r->kind < KEY || r->kind > DATATYPE || r->windowed > 1 || r->field == NONE) return 0;
    if (r->distinct > 1 || (r->distinct && !(r->kind == CARDINALITY && r->windowed))) return 0;
    if (r->kind != REFERENCE && r->referred != NONE) return 0;
    if (r->kind <= REFERENCE) return r->min == 0 && r->max == 0;
    return r->min <= r->max && (r->kind == DATATYPE || (r->min >= 0 && r->field >= 1));
}

/* One record; 24 or 25 if it is not sound. */
static int rule_fault(const u8 *at, struct rule *r)
{
    if (at[39] || load64(at + 42)) return 24;
    r->kind = at[0];
    r->windowed = at[1];
    for (int k = 0; k < DEPTH; k++) r->path[k] = load16(at + 2 + 2 * k);
    r->length = at[18];
    r->distinct = at[19];
    r->field = load16(at + 20);
    r->referred = load16(at + 22);
    r->min = (int)load32(at + 24);
    r->max = (int)load32(at + 28);
    r->begin = load16(at + 32);
    r->end = load16(at + 34);
    r->width = load16(at + 36);
    r->unit = at[38];
    r->slide = load16(at + 40);
    return sound_path(r) && sound_kind(r) && sound_windows(r) ? 0 : 25;
}

/* 26: the first reference whose rule is missing or neither key nor unique. */
static struct refusal read_references(void)
{
    for (int k = 0; k < rule_count; k++) {
        const int to = rules[k].referred;
        if (rules[k].kind == REFERENCE && (to >= rule_count || rules[to].kind > UNIQUE)) return (struct refusal){26, k};
    }
    return (struct refusal){0, 0};
}

struct refusal read_rules(const u8 *image, int length)
{
    struct refusal no = read_blocks(image, length, 2, RULE_SIZE, RULE_BLOCKS, 20);
    if (no.number) return no;
    rule_count = records_in(length, image, RULE_SIZE);
    for (int k = 0; k < rule_count; k++) {
        const int fault = rule_fault(record_at(image, k, RULE_SIZE), &rules[k]);
        if (fault) return (struct refusal){fault, k};
    }
    return read_references();
}
