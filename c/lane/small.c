/* lane small, lane index: a small chart by its index, and the index of one. */
#include "lane.h"

#include <string.h>

static bool take_number(const char *word, size_t *number)
{
    if (decimal(word, strlen(word), number))
        return true;
    fprintf(stderr, "lane: POSITIONS and INDEX are numbers: ");
    show_name(stderr, word);
    fprintf(stderr, "\nusage: lane small POSITIONS INDEX\n");
    return false;
}

static enum status refuse_index(const struct call *call, dushemqa_refusal refusal)
{
    fprintf(stderr, "lane: positions ");
    show_name(stderr, call->words[0]);
    fprintf(stderr, ", index ");
    show_name(stderr, call->words[1]);
    fprintf(stderr, ": refused, %u: %s\n", (unsigned)refusal.number, what_is_wrong(refusal.number));
    if (refusal.number == DUSHEMQA_REFUSED_NOT_SMALL)
        fprintf(stderr, "  %s\n", counts_of_small_charts);
    return REFUSED;
}

enum status small_command(const struct call *call)
{
    uint8_t chart[DUSHEMQA_MAX_SMALL_BYTES];
    size_t count = 0, index = 0;
    if (!take_number(call->words[0], &count) || !take_number(call->words[1], &index))
        return UNUSABLE;
    dushemqa_written written = dushemqa_small_chart(count, index, chart, sizeof chart);
    if (written.refusal.number != DUSHEMQA_TAKEN)
        return refuse_index(call, written.refusal);
    fwrite(chart, 1, written.length, stdout);
    return TAKEN;
}

static void show_positions(FILE *out, const struct text *chart)
{
    fprintf(out, "%zu %s", positions(chart), positions(chart) == 1 ? "position" : "positions");
}

/* Why a chart that is well drawn has no index. */
static void say_sort(const struct text *chart)
{
    size_t resting = 0;
    while (resting < positions(chart) && !at_rest(chart, resting))
        resting++;
    fprintf(stderr, "  it has ");
    show_positions(stderr, chart);
    if (resting < positions(chart))
        fprintf(stderr, "; %zu is a position of rest", resting);
    fprintf(stderr, "\n");
}

static enum status look_at(const char *name)
{
    struct text chart;
    if (!read_chart(name, &chart))
        return UNUSABLE;
    dushemqa_indexed indexed = dushemqa_small_index(chart.bytes, chart.length);
    if (indexed.refusal.number != DUSHEMQA_TAKEN) {
        say_refusal(&chart, NULL, indexed.refusal);
        if (indexed.refusal.number == DUSHEMQA_REFUSED_NOT_SMALL)
            say_sort(&chart);
        return REFUSED;
    }
    show_name(stdout, name);
    printf(": ");
    show_positions(stdout, &chart);
    printf(", index %zu\n", indexed.index);
    return TAKEN;
}

enum status index_command(const struct call *call)
{
    return look_at_each(call, look_at);
}
