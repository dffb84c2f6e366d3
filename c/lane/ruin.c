/* lane ruin: the shortest way to ruin under a controller. */
#include "lane.h"

#include <string.h>

/* A way to ruin, as the library wrote it. */
struct way {
    size_t lines;
    uint8_t bytes[DUSHEMQA_MAX_RUIN_BYTES];
};

static const uint8_t *way_line(const struct way *way, size_t line)
{
    return way->bytes + line * DUSHEMQA_CHART_LINE_BYTES;
}

/* One position of the play: what was seen so far, and what the controller does there. */
static void show_position(const struct way *way, size_t line, size_t seen, const struct rows *rows,
                          const struct choices *choices)
{
    size_t position = first_field(way_line(way, line));
    bool disturbance = second_field(way_line(way, line)) == 1;
    printf("at %zu, seen %zu%s, value %s, ", position, seen, disturbance ? " (a disturbance)" : "",
           word_of(rows->values[position], "ever").letters);
    if (line + 1 == way->lines)
        printf("unsafe\n");
    else if (choices->row[position] == DUSHEMQA_NONE)
        printf("nothing to choose\n");
    else
        printf("chooses %u\n", (unsigned)choices->row[position]);
}

static void show_way(const struct way *way, const struct rows *rows, const struct choices *choices)
{
    size_t seen = 0, moves = way->lines - 1;
    for (size_t line = 0; line < way->lines; line++) {
        seen += second_field(way_line(way, line));
        show_position(way, line, seen, rows, choices);
    }
    printf("ruin by %zu %s in %zu %s\n", seen, seen == 1 ? "disturbance" : "disturbances", moves,
           moves == 1 ? "move" : "moves");
}

/* 13 and 19 are about the start, all others about the chart or the choices. */
static enum status refuse_way(const struct text *chart, const struct choices *choices, const char *word,
                              dushemqa_refusal refusal)
{
    if (refusal.number != DUSHEMQA_REFUSED_POSITION && refusal.number != DUSHEMQA_REFUSED_EVER)
        return refuse_choices(chart, NULL, choices, refusal);
    fprintf(stderr, "lane: start ");
    show_name(stderr, word);
    fprintf(stderr, ": refused, %u: %s\n", (unsigned)refusal.number, what_is_wrong(refusal.number));
    if (refusal.number == DUSHEMQA_REFUSED_POSITION)
        fprintf(stderr, "  its positions are 0 to %zu\n", positions(chart) - 1);
    return REFUSED;
}

/* From a chart that is taken. */
static enum status ruin(const struct text *chart, const char *choices_name, const char *word, size_t position)
{
    struct choices choices;
    struct rows rows;
    struct way way;
    enum status status = read_choices(choices_name, chart, &choices);
    if (status != TAKEN)
        return status;
    dushemqa_listed listed = dushemqa_ruin(chart->bytes, chart->length, choices.row, choices.count, position, way.bytes,
                                           sizeof way.bytes);
    if (listed.refusal.number != DUSHEMQA_TAKEN)
        return refuse_way(chart, &choices, word, listed.refusal);
    way.lines = listed.lines;
    value_rows(chart, &rows);
    show_way(&way, &rows, &choices);
    return TAKEN;
}

enum status ruin_command(const struct call *call)
{
    struct text chart;
    size_t position = 0;
    if (!decimal(call->words[2], strlen(call->words[2]), &position)) {
        fprintf(stderr, "lane: START is a position's number: ");
        show_name(stderr, call->words[2]);
        fprintf(stderr, "\nusage: lane ruin CHART CHOICES START\n");
        return UNUSABLE;
    }
    if (!read_chart(call->words[0], &chart))
        return UNUSABLE;
    dushemqa_refusal refusal = examine(&chart);
    if (refusal.number != DUSHEMQA_TAKEN)
        return say_refusal(&chart, NULL, refusal);
    return ruin(&chart, call->words[1], call->words[2], position);
}
