/* Which parts of a chart's line a refusal is about. A refusal names the line only, so the library is asked again: the line is
 * replaced by one that is good there, save for one part, and where the same refusal comes back that part is at fault. */
#include "lane.h"

#include <string.h>

const struct part parts[PARTS] = {
    {"the letter", 0, 1},
    {"the first field", 1, 5},
    {"the second field", 6, 5},
    {"the line feed", 11, 1},
};

enum { LETTER = 1, FIRST = 2 };

/* A line with nothing wrong by itself, for this place of the chart. */
static void good_line(const struct text *chart, size_t line, uint8_t good[DUSHEMQA_CHART_LINE_BYTES])
{
    char form[32];
    if (line == 0)
        snprintf(form, sizeof form, "H    1    1\n");
    else if (line <= positions(chart))
        snprintf(form, sizeof form, "O%5zu    0\n", line - 1);
    else
        snprintf(form, sizeof form, "M    0    0\n");
    memcpy(good, form, DUSHEMQA_CHART_LINE_BYTES);
}

static unsigned ask(const struct text *chart, dushemqa_refusal refusal)
{
    struct text tried = *chart;
    uint8_t good[DUSHEMQA_CHART_LINE_BYTES];
    unsigned found = 0;
    size_t start = refusal.line * DUSHEMQA_CHART_LINE_BYTES;
    good_line(chart, refusal.line, good);
    for (unsigned i = 0; i < PARTS; i++) {
        memcpy(tried.bytes + start, good, DUSHEMQA_CHART_LINE_BYTES);
        memcpy(tried.bytes + start + parts[i].column, chart->bytes + start + parts[i].column, parts[i].length);
        dushemqa_refusal again = examine(&tried);
        if (again.number == refusal.number && again.line == refusal.line)
            found |= 1u << i;
    }
    return found;
}

unsigned parts_at_fault(const struct text *chart, dushemqa_refusal refusal)
{
    switch (refusal.number) {
    case DUSHEMQA_REFUSED_FORM:
    case DUSHEMQA_REFUSED_LIMITS:
    case DUSHEMQA_REFUSED_SEQUENCE:
    case DUSHEMQA_REFUSED_ENDPOINT:
        return ask(chart, refusal);
    case DUSHEMQA_REFUSED_DISTURBED: /* the two together: a disturbance or a meant move, and where it leaves */
    case DUSHEMQA_REFUSED_RESTING:
        return LETTER | FIRST;
    default: /* it is about more than one line, or about the whole line */
        return 0;
    }
}
