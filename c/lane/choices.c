/* Choices from a file; lane weigh, lane compare: a controller's worths beside the values. */
#include "lane.h"

#include <string.h>

static enum status refuse_list(const struct text *text, const char *wrong)
{
    fprintf(stderr, "lane: ");
    show_name(stderr, text->name);
    fprintf(stderr, ": refused: %s\n", wrong);
    return REFUSED;
}

static enum status refuse_line(const struct text *text, size_t line, const char *word, size_t length)
{
    refuse_list(text, "a line that is neither a number up to 65,535 nor -");
    fprintf(stderr, "  line %zu (the first is 0): ", line);
    show_cut(stderr, word, length);
    fprintf(stderr, "\n");
    return REFUSED;
}

static bool choice_of(const char *word, size_t length, uint16_t *choice)
{
    size_t number = DUSHEMQA_NONE;
    trim(&word, &length);
    bool dash = length == 1 && *word == '-';
    if (!dash && (!decimal(word, length, &number) || number > UINT16_MAX))
        return false;
    *choice = (uint16_t)number;
    return true;
}

/* The last line may lack its line feed. */
static enum status listed_choices(const struct text *text, struct choices *choices)
{
    const char *line = (const char *)text->bytes;
    const char *end = line + text->length;
    if (text->length > DUSHEMQA_MAX_PLATE_BYTES)
        return refuse_list(text, "more than 11,286 bytes, the most that choices or a plate may have");
    while (line < end) {
        const char *feed = memchr(line, '\n', (size_t)(end - line));
        size_t length = feed == NULL ? (size_t)(end - line) : (size_t)(feed - line);
        if (!choice_of(line, length, &choices->row[choices->count]))
            return refuse_line(text, choices->count, line, length);
        choices->count++;
        line = feed == NULL ? end : feed + 1;
    }
    return TAKEN;
}

/* The choices of a plate (a file that begins with P), or those listed one a line. */
enum status read_choices(const char *name, const struct text *chart, struct choices *choices)
{
    struct text text;
    struct rows rows;
    choices->name = name;
    choices->count = 0;
    if (!read_plate(name, &text))
        return UNUSABLE;
    if (text.length == 0 || text.bytes[0] != 'P')
        return listed_choices(&text, choices);
    dushemqa_refusal refusal = read_rows(chart, &text, &rows);
    if (refusal.number != DUSHEMQA_TAKEN)
        return say_refusal(chart, &text, refusal);
    choices->count = positions(chart);
    memcpy(choices->row, rows.choices, choices->count * sizeof rows.choices[0]);
    return TAKEN;
}

/* Refusal 12 names no position. The library takes the choices that Valuing gives: the first position whose given choice makes it
 * refuse them is found by halves. */
static size_t refused_position(const struct text *chart, const struct choices *choices)
{
    struct rows rows;
    uint16_t tried[DUSHEMQA_MAX_POSITIONS], worths[DUSHEMQA_MAX_POSITIONS];
    size_t low = 0, high = positions(chart);
    value_rows(chart, &rows);
    while (high - low > 1) {
        size_t middle = low + (high - low) / 2;
        memcpy(tried, rows.choices, sizeof tried);
        memcpy(tried, choices->row, middle * sizeof tried[0]);
        if (dushemqa_weigh(chart->bytes, chart->length, tried, positions(chart), worths, DUSHEMQA_MAX_POSITIONS).number
            == DUSHEMQA_TAKEN)
            low = middle;
        else
            high = middle;
    }
    return low;
}

/* Says why choices were refused, or the sheets that they came with. */
enum status refuse_choices(const struct text *chart, const struct text *plate, const struct choices *choices,
                           dushemqa_refusal refusal)
{
    if (refusal.number != DUSHEMQA_REFUSED_SHORT && refusal.number != DUSHEMQA_REFUSED_CHOICE)
        return say_refusal(chart, plate, refusal);
    fprintf(stderr, "lane: ");
    show_name(stderr, choices->name);
    fprintf(stderr, ": refused, %u: %s\n", (unsigned)refusal.number, what_is_wrong(refusal.number));
    if (refusal.number == DUSHEMQA_REFUSED_SHORT) {
        fprintf(stderr, "  it has %zu; the chart has %zu positions\n", choices->count, positions(chart));
        return REFUSED;
    }
    size_t position = refused_position(chart, choices);
    fprintf(stderr, "  at position %zu the choice is %s; the chart's line there: ", position,
            word_of(choices->row[position], "-").letters);
    show_chart_line(stderr, chart, 1 + position);
    fprintf(stderr, "\n");
    if (at_rest(chart, position))
        fprintf(stderr, "  at a position of rest nobody chooses: it wants -\n");
    return REFUSED;
}

static void show_table(size_t count, const uint16_t *values, const uint16_t *worths)
{
    printf("position  value  worth\n");
    for (size_t v = 0; v < count; v++)
        printf("%8zu  %5s  %5s%s\n", v, word_of(values[v], "ever").letters, word_of(worths[v], "ever").letters,
               values[v] == worths[v] ? "" : "  *");
}

/* The plate's values beside the worths of the choices. */
static enum status weigh(const struct text *chart, const struct text *plate, const char *choices_name)
{
    struct choices choices;
    struct rows rows;
    uint16_t worths[DUSHEMQA_MAX_POSITIONS];
    enum status status = read_choices(choices_name, chart, &choices);
    if (status != TAKEN)
        return status;
    dushemqa_compared compared = dushemqa_compare(chart->bytes, chart->length, plate->bytes, plate->length, choices.row,
                                                  choices.count);
    if (compared.refusal.number != DUSHEMQA_TAKEN)
        return refuse_choices(chart, plate, &choices, compared.refusal);
    read_rows(chart, plate, &rows);
    dushemqa_weigh(chart->bytes, chart->length, choices.row, choices.count, worths, DUSHEMQA_MAX_POSITIONS);
    show_table(positions(chart), rows.values, worths);
    if (compared.agree)
        printf("the worth is the value at every position: no controller is better\n");
    else
        printf("the worth is not the value where marked, first at position %zu\n", compared.position);
    return TAKEN;
}

/* Against the chart's own plate. */
enum status weigh_command(const struct call *call)
{
    struct text chart, plate;
    if (!read_chart(call->words[0], &chart))
        return UNUSABLE;
    dushemqa_written written = dushemqa_write(chart.bytes, chart.length, plate.bytes, sizeof plate.bytes);
    if (written.refusal.number != DUSHEMQA_TAKEN)
        return say_refusal(&chart, NULL, written.refusal);
    plate.name = chart.name;
    plate.length = written.length;
    return weigh(&chart, &plate, call->words[1]);
}

enum status compare_command(const struct call *call)
{
    struct text chart, plate;
    if (!read_chart(call->words[0], &chart) || !read_plate(call->words[1], &plate))
        return UNUSABLE;
    return weigh(&chart, &plate, call->words[2]);
}
