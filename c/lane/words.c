/* Refusals and faults in words: the one table of them, and what is said of a sheet that was refused. */
#include "lane.h"

#include <string.h>

/* Which sheet has the line that a refusal gives. */
enum sheet { NO_SHEET, CHART, PLATE };

struct refusal_words {
    enum sheet sheet;
    const char *wrong;
    const char *where;
};

static const char chart_where[] = "a line of the chart, counted from 0";

static const struct refusal_words refusals[] = {
    [DUSHEMQA_REFUSED_LENGTH] = {CHART, "chart empty, over 55,308 bytes, or no multiple of 12", "the whole chart"},
    [DUSHEMQA_REFUSED_FORM] = {CHART, "letter not allowed at this line, bad field or no line feed", chart_where},
    [DUSHEMQA_REFUSED_LIMITS] = {CHART, "count of positions outside 1 to 512, or of moves outside 1 to 4,096",
                                 "the chart's line 0"},
    [DUSHEMQA_REFUSED_COUNT] = {CHART, "not as many lines as the first line says", "the chart's line 0"},
    [DUSHEMQA_REFUSED_SEQUENCE] = {CHART, "position out of sequence, or mark above 1", chart_where},
    [DUSHEMQA_REFUSED_ENDPOINT] = {CHART, "a move names a position that is not on the chart", chart_where},
    [DUSHEMQA_REFUSED_DISTURBED] = {CHART, "a disturbance from a position of the lane's", chart_where},
    [DUSHEMQA_REFUSED_ORDER] = {CHART, "a move not above the one before", chart_where},
    [DUSHEMQA_REFUSED_NO_MEANT] = {CHART, "a position without a meant move", "the chart's line of the lowest such position"},
    [DUSHEMQA_REFUSED_SHORT] = {NO_SHEET, "fewer choices than the chart has positions, or a lent buffer too short",
                                "the choices"},
    [DUSHEMQA_REFUSED_PLATE] = {PLATE, "plate's length not 22 times (positions + 1), or a line not of the plate's form",
                                "a line of the plate, counted from 0; line 0 for the length"},
    [DUSHEMQA_REFUSED_CHOICE] = {NO_SHEET, "a choice that is no meant target at O, or not - at L", "the choices"},
    [DUSHEMQA_REFUSED_POSITION] = {NO_SHEET, "a position that is not on the chart", "the start or a report"},
    [DUSHEMQA_REFUSED_FAULT] = {PLATE, "checking finds a fault", "a position of the plate, and the condition it breaks"},
    [DUSHEMQA_REFUSED_MOVE] = {NO_SHEET, "the reported move can't follow", "a report"},
    [DUSHEMQA_REFUSED_SEEN] = {NO_SHEET, "a disturbance with 99,999 or more seen", "a report"},
    [DUSHEMQA_REFUSED_RESTING] = {CHART, "a meant move from a position of rest", chart_where},
    [DUSHEMQA_REFUSED_HELD] = {NO_SHEET, "the plate's value at the run's position is not the one that the run holds",
                               "a report"},
    [DUSHEMQA_REFUSED_EVER] = {NO_SHEET, "the worth at the position is \"ever\": no play from there is unsafe",
                               "the start of a way to ruin"},
    [DUSHEMQA_REFUSED_LANES] = {NO_SHEET, "no lanes, more than 64, or not as many reports as lanes", "a row of a house"},
    [DUSHEMQA_REFUSED_NOT_SMALL] = {NO_SHEET, "positions outside 1 to 3, an index past the last, or a chart of another sort",
                                    "the positions and the index that are given, or the whole chart"},
};

enum { REFUSALS = sizeof refusals / sizeof refusals[0] };

const char counts_of_small_charts[] = "there are 6 small charts of 1 position, 900 of 2 and 2,000,376 of 3, numbered from 0";

struct condition_words {
    const char *name;
    const char *asks;         /* document 01's sentence */
    const char *asks_at_rest; /* what it asks at R, where that is not said yet */
};

static const struct condition_words conditions[] = {
    {"", "", NULL},
    {"unsafe", "An unsafe position has value 0.", NULL},
    {"step", "The step is - exactly when the value is \"ever\".", NULL},
    {"choice", "The choice is a meant target at O, - at L.", "At R it is -."},
    {"holding", "Holding: at O the choice has at least this value, and each disturbance's target at least this value\n"
                "       less one (\"ever\" less one is \"ever\"). At L each meant target has at least this value.",
     "At R each disturbance's target has at least this value less one."},
    {"ruin", "Ruin, for a safe position of finite value: at O some disturbance's target has a smaller value, or all\n"
             "       meant targets are earlier; at L some meant target is earlier. Earlier means smaller value, or equal\n"
             "       value and smaller step; - is above each step.",
     "At R some disturbance's target has a smaller value."},
    {"first line", "The first line's numbers are those of the plate's lines.", NULL},
};

enum { CONDITIONS = sizeof conditions / sizeof conditions[0] };

const char *what_is_wrong(uint32_t number)
{
    return number >= 1 && number < REFUSALS ? refusals[number].wrong : "a refusal that this tool has no words for";
}

static enum sheet sheet_of(uint32_t number)
{
    return number < REFUSALS ? refusals[number].sheet : NO_SHEET;
}

/* Whether a refusal is about a chart or a plate, so that say_refusal has all the words for it. */
bool about_a_sheet(uint32_t number)
{
    return sheet_of(number) != NO_SHEET;
}

static const char *condition_name(unsigned condition)
{
    return condition < CONDITIONS ? conditions[condition].name : "one that this tool has no words for";
}

static void show_condition(FILE *out, unsigned condition, bool resting)
{
    if (condition < 1 || condition >= CONDITIONS)
        return;
    fprintf(out, "    %u  %s\n", condition, conditions[condition].asks);
    if (resting && conditions[condition].asks_at_rest != NULL)
        fprintf(out, "       %s\n", conditions[condition].asks_at_rest);
}

static void explain(unsigned number)
{
    printf("%u: %s\n    where: %s\n", number, refusals[number].wrong, refusals[number].where);
    if (number == DUSHEMQA_REFUSED_FORM)
        printf("    a blank field (five spaces) is bad, save as a position's mark, where it means 0\n");
    if (number == DUSHEMQA_REFUSED_SEQUENCE)
        printf("    a blank mark means 0\n");
    if (number == DUSHEMQA_REFUSED_NO_MEANT)
        printf("    a position of rest (R) has none, and is not refused for it\n");
    if (number == DUSHEMQA_REFUSED_CHOICE)
        printf("    at a position of rest (R) it is - too\n");
    if (number == DUSHEMQA_REFUSED_NOT_SMALL)
        printf("    %s\n    of another sort is a chart of more positions, or with a position of rest (R)\n",
               counts_of_small_charts);
    if (number != DUSHEMQA_REFUSED_FAULT)
        return;
    printf("    the conditions, at each position from 0 up:\n");
    for (unsigned condition = 1; condition < CONDITIONS; condition++)
        show_condition(stdout, condition, true);
}

enum status explain_command(const struct call *call)
{
    size_t number = 0;
    if (call->count == 0) {
        for (unsigned all = 1; all < REFUSALS; all++)
            explain(all);
        return TAKEN;
    }
    if (!decimal(call->words[0], strlen(call->words[0]), &number) || number < 1 || number >= REFUSALS) {
        fprintf(stderr, "lane: refusals have the numbers 1 to %d: ", REFUSALS - 1);
        show_name(stderr, call->words[0]);
        fprintf(stderr, "\nusage: lane explain [NUMBER]\n");
        return UNUSABLE;
    }
    explain((unsigned)number);
    return TAKEN;
}

/* A line without its line feed; what is past the text's end is not there. */
static void show_line(FILE *out, const struct text *text, size_t line, size_t length)
{
    size_t start = line * length;
    if (start >= text->length)
        return;
    if (length > text->length - start)
        length = text->length - start;
    if (text->bytes[start + length - 1] == '\n')
        length--;
    show_bytes(out, text->bytes + start, length);
}

void show_chart_line(FILE *out, const struct text *chart, size_t line)
{
    show_line(out, chart, line, DUSHEMQA_CHART_LINE_BYTES);
}

static void show_plate_line(FILE *out, const struct text *plate, size_t line)
{
    show_line(out, plate, line, DUSHEMQA_PLATE_LINE_BYTES);
}

/* The plate's line that a fault is in: a position's, or the first. */
static size_t fault_line(const struct text *chart, dushemqa_refusal refusal)
{
    return refusal.position < positions(chart) ? 1 + refusal.position : 0;
}

/* A text's length, of which no more is known than what was read. */
static void show_length(FILE *out, const struct text *text, size_t limit)
{
    size_t known = text->length > limit ? limit : text->length;
    fprintf(out, "it has %s%zu %s", text->length > limit ? "more than " : "", known, known == 1 ? "byte" : "bytes");
}

static size_t plate_length(const struct text *chart)
{
    return DUSHEMQA_PLATE_LINE_BYTES * (positions(chart) + 1);
}

/* Where a refusal of a chart or a plate is, on the line that says it. */
void show_where(FILE *out, const struct text *chart, const struct text *plate, dushemqa_refusal refusal)
{
    if (refusal.number == DUSHEMQA_REFUSED_LENGTH) {
        show_length(out, chart, DUSHEMQA_MAX_CHART_BYTES);
    } else if (sheet_of(refusal.number) == CHART) {
        fprintf(out, "line %zu: ", refusal.line);
        show_chart_line(out, chart, refusal.line);
    } else if (refusal.number == DUSHEMQA_REFUSED_FAULT) {
        size_t line = fault_line(chart, refusal);
        if (line > 0)
            fprintf(out, "position %zu, ", refusal.position);
        fprintf(out, "condition %u (%s), line %zu: ", (unsigned)refusal.condition, condition_name(refusal.condition), line);
        show_plate_line(out, plate, line);
    } else if (plate->length != plate_length(chart)) {
        show_length(out, plate, DUSHEMQA_MAX_PLATE_BYTES);
        fprintf(out, ", a plate of this chart %zu", plate_length(chart));
    } else {
        fprintf(out, "line %zu: ", refusal.line);
        show_plate_line(out, plate, refusal.line);
    }
}

static void say_line(const struct text *chart, size_t line)
{
    fprintf(stderr, "  line %4zu: ", line);
    show_chart_line(stderr, chart, line);
    fprintf(stderr, "\n");
}

/* Marks the parts of the line above that are at fault, and names them. */
static void say_columns(const uint8_t *line, unsigned found)
{
    const char *before = " ";
    if (found == 0)
        return;
    fprintf(stderr, "             ");
    for (unsigned i = 0; i < PARTS; i++) {
        for (size_t column = parts[i].column; column < parts[i].column + parts[i].length; column++) {
            bool hidden = column == DUSHEMQA_CHART_LINE_BYTES - 1 && line[column] == '\n';
            for (int width = hidden ? 0 : shown_width(line[column]); width > 0; width--)
                fprintf(stderr, "%c", found >> i & 1 ? '^' : ' ');
        }
    }
    for (unsigned i = 0; i < PARTS; i++) {
        if ((found >> i & 1) == 0)
            continue;
        size_t last = parts[i].column + parts[i].length - 1;
        if (last == parts[i].column)
            fprintf(stderr, "%s%s, column %zu", before, parts[i].name, last);
        else
            fprintf(stderr, "%s%s, columns %zu to %zu", before, parts[i].name, parts[i].column, last);
        before = "; ";
    }
    fprintf(stderr, "\n");
}

/* A chart whose length is wrong has no lines to speak of; the first one of another length than 12 is often the cause. */
static void say_length(const struct text *chart)
{
    size_t start = 0, line = 0;
    fprintf(stderr, "  ");
    show_length(stderr, chart, DUSHEMQA_MAX_CHART_BYTES);
    if (chart->length == 0 || chart->length > DUSHEMQA_MAX_CHART_BYTES) {
        fprintf(stderr, "\n");
        return;
    }
    while (chart->length - start >= DUSHEMQA_CHART_LINE_BYTES
           && memchr(chart->bytes + start, '\n', DUSHEMQA_CHART_LINE_BYTES)
                  == chart->bytes + start + DUSHEMQA_CHART_LINE_BYTES - 1) {
        start += DUSHEMQA_CHART_LINE_BYTES;
        line++;
    }
    const uint8_t *feed = memchr(chart->bytes + start, '\n', chart->length - start);
    size_t length = feed == NULL ? chart->length - start : (size_t)(feed - chart->bytes) + 1 - start;
    fprintf(stderr, "; line %zu (the first is 0) has %zu instead of 12%s: ", line, length,
            feed == NULL ? " and no line feed" : "");
    show_cut(stderr, chart->bytes + start, length);
    fprintf(stderr, "\n");
}

static void say_chart(const struct text *chart, dushemqa_refusal refusal)
{
    if (refusal.number == DUSHEMQA_REFUSED_LENGTH) {
        say_length(chart);
        return;
    }
    if (refusal.number == DUSHEMQA_REFUSED_ORDER)
        say_line(chart, refusal.line - 1);
    say_line(chart, refusal.line);
    say_columns(chart_line(chart, refusal.line), parts_at_fault(chart, refusal));
    if (refusal.number == DUSHEMQA_REFUSED_COUNT)
        fprintf(stderr, "  that makes 1 + %zu + %zu lines; the chart has %zu\n", positions(chart), moves(chart),
                chart->length / DUSHEMQA_CHART_LINE_BYTES);
    fprintf(stderr, "  (lines and columns are counted from 0)\n");
}

static void say_plate(const struct text *chart, const struct text *plate, dushemqa_refusal refusal)
{
    fprintf(stderr, "  ");
    show_where(stderr, chart, plate, refusal);
    fprintf(stderr, "\n");
    if (refusal.number == DUSHEMQA_REFUSED_FAULT)
        show_condition(stderr, refusal.condition, at_rest(chart, refusal.position));
    if (plate->length == plate_length(chart))
        fprintf(stderr, "  (lines are counted from 0)\n");
}

/* Says why a chart or a plate was refused. A refusal that is about neither is its command's to say. */
enum status say_refusal(const struct text *chart, const struct text *plate, dushemqa_refusal refusal)
{
    enum sheet sheet = sheet_of(refusal.number);
    fprintf(stderr, "lane: ");
    show_name(stderr, sheet == PLATE ? plate->name : chart->name);
    fprintf(stderr, ": %s, %u: %s\n", refusal.number == DUSHEMQA_REFUSED_FAULT ? "faulted" : "refused",
            (unsigned)refusal.number, what_is_wrong(refusal.number));
    if (sheet == CHART)
        say_chart(chart, refusal);
    if (sheet == PLATE)
        say_plate(chart, plate, refusal);
    return REFUSED;
}
