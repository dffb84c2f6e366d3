/* The lines of a chart that the library has taken, the library's rows, and their numbers as words. */
#include "lane.h"

#include <string.h>

const uint8_t *chart_line(const struct text *chart, size_t line)
{
    return chart->bytes + line * DUSHEMQA_CHART_LINE_BYTES;
}

/* A field that was taken has spaces and digits only. One of spaces is a mark, and means 0. */
static size_t field(const uint8_t *bytes)
{
    size_t number = 0;
    for (int i = 0; i < 5; i++) {
        if (bytes[i] >= '0' && bytes[i] <= '9')
            number = 10 * number + (size_t)(bytes[i] - '0');
    }
    return number;
}

size_t first_field(const uint8_t *line)
{
    return field(line + 1);
}

size_t second_field(const uint8_t *line)
{
    return field(line + 6);
}

size_t positions(const struct text *chart)
{
    return first_field(chart->bytes);
}

size_t moves(const struct text *chart)
{
    return second_field(chart->bytes);
}

/* Whether a position is one of rest, which a number past the last is not. */
bool at_rest(const struct text *chart, size_t position)
{
    return position < positions(chart) && chart_line(chart, 1 + position)[0] == 'R';
}

/* Whether a chart is taken: Checking tests it before the plate, and an empty plate is refused with 11 after that. */
dushemqa_refusal examine(const struct text *chart)
{
    dushemqa_refusal refusal = dushemqa_check(chart->bytes, chart->length, chart->bytes, 0);
    if (refusal.number == DUSHEMQA_REFUSED_PLATE)
        refusal.number = DUSHEMQA_TAKEN;
    return refusal;
}

dushemqa_refusal value_rows(const struct text *chart, struct rows *rows)
{
    return dushemqa_value(chart->bytes, chart->length, rows->values, DUSHEMQA_MAX_POSITIONS, rows->choices,
                          DUSHEMQA_MAX_POSITIONS, rows->steps, DUSHEMQA_MAX_POSITIONS)
        .refusal;
}

dushemqa_refusal read_rows(const struct text *chart, const struct text *plate, struct rows *rows)
{
    return dushemqa_read(chart->bytes, chart->length, plate->bytes, plate->length, rows->values, DUSHEMQA_MAX_POSITIONS,
                         rows->choices, DUSHEMQA_MAX_POSITIONS, rows->steps, DUSHEMQA_MAX_POSITIONS)
        .refusal;
}

struct word word_of(uint16_t number, const char *none)
{
    struct word word;
    if (number == DUSHEMQA_NONE)
        snprintf(word.letters, sizeof word.letters, "%s", none);
    else
        snprintf(word.letters, sizeof word.letters, "%u", (unsigned)number);
    return word;
}
