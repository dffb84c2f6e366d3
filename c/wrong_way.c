/* A plain way that errs, to see what `lane ways` says where the two ways differ: it gives what the filed way gives, but for the
 * number that WRONG names in the environment; of a row that is the second. c/test links it into `wrong_lane`, under another name,
 * in the place of the library's. */
#include <stdlib.h>
#include <string.h>

#include "dushemqa.h"

static bool errs_in(const char *name)
{
    const char *wrong = getenv("WRONG");
    return wrong != NULL && strcmp(wrong, name) == 0;
}

dushemqa_valued dushemqa_value_plain(const uint8_t *chart, size_t chart_length,
                                     uint16_t *values, size_t values_length,
                                     uint16_t *choices, size_t choices_length,
                                     uint16_t *steps, size_t steps_length)
{
    dushemqa_valued valued = dushemqa_value(chart, chart_length, values, values_length, choices, choices_length, steps,
                                            steps_length);
    valued.refusal.number += errs_in("number");
    valued.refusal.line += errs_in("line");
    valued.rounds += errs_in("rounds");
    if (errs_in("value"))
        values[1]++;
    if (errs_in("choice"))
        choices[1]++;
    if (errs_in("step"))
        steps[1]++;
    return valued;
}
