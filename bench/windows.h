/* The windows of a rule, by number from 0: where each starts and ends, whether it is cut short, and which is the first to reach or pass a day. */
#ifndef WINDOWS_H
#define WINDOWS_H
#include "fast.h"

struct windows { int unit, begin, end, width, slide, month, count; };

static inline int divided_up(int a, int b) { return (a + b - 1) / b; }

static inline struct windows windows_of(const struct rule *r)
{
    struct windows w = {r->unit, r->begin, r->end, r->width, r->slide, 0, 1};
    if (w.unit == 1) w.count = divided_up(w.end - w.begin, w.slide);
    if (w.unit == 2) {
        fill_months();
        w.month = month_at_or_after(w.begin);
        w.count = divided_up(month_at_or_after(w.end) - w.month, w.slide);
    }
    return w;
}

static inline int window_start(const struct windows *w, int k)
{
    return w->unit == 2 ? month_start[w->month + k * w->slide] : w->begin + k * w->slide;
}

static inline int window_end(const struct windows *w, int k)
{
    int end = w->end;
    if (w->unit == 1) end = w->begin + k * w->slide + w->width;
    if (w->unit == 2) {
        const int month = w->month + k * w->slide + w->width;
        end = month_start[month < MONTHS ? month : MONTHS];
    }
    return end < w->end ? end : w->end;
}

/* Whether the period or the month table ends before the window's length is over; then so it does for every later window. */
static inline int window_shortened(const struct windows *w, int k)
{
    const int at = k * w->slide + w->width;
    if (w->unit == 1) return w->begin + at > w->end;
    return w->unit == 2 && (w->month + at > MONTHS || month_start[w->month + at] > w->end);
}

/* The first window that ends after a day of the period; at least the count if there is none. */
static inline int first_reaching(const struct windows *w, int day)
{
    if (w->unit == 0) return 0;
    const int back = w->unit == 1 ? day + 1 - w->width - w->begin : month_at_or_after(day + 1) - w->width - w->month;
    return back <= 0 ? 0 : divided_up(back, w->slide);
}

/* The first window that starts on a day or later, the day being after the period's begin; at least the count if there is none. */
static inline int first_past(const struct windows *w, int day)
{
    if (w->unit == 0 || day >= w->end) return w->count;
    return divided_up(w->unit == 1 ? day - w->begin : month_at_or_after(day) - w->month, w->slide);
}

#endif
