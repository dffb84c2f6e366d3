/* lane ways: charts valued the filed way and the plain way, side by side. */
#include "lane.h"

/* Both ways are functions of this one type. */
typedef dushemqa_valued valuing(const uint8_t *chart, size_t chart_length, uint16_t *values, size_t values_length,
                                uint16_t *choices, size_t choices_length, uint16_t *steps, size_t steps_length);

/* A way's name, and what it gives for a chart. */
struct way {
    const char *name;
    dushemqa_valued valued;
    struct rows rows;
};

static void go(struct way *way, const char *name, valuing *value, const struct text *chart)
{
    struct rows *rows = &way->rows;
    way->name = name;
    way->valued = value(chart->bytes, chart->length, rows->values, DUSHEMQA_MAX_POSITIONS, rows->choices,
                        DUSHEMQA_MAX_POSITIONS, rows->steps, DUSHEMQA_MAX_POSITIONS);
}

static bool same_refusal(const struct way *one, const struct way *other)
{
    return one->valued.refusal.number == other->valued.refusal.number && one->valued.refusal.line == other->valued.refusal.line;
}

/* The first position where the rows differ, or the count of positions. */
static size_t first_difference(const struct rows *one, const struct rows *other, size_t count)
{
    size_t v = 0;
    while (v < count && one->values[v] == other->values[v] && one->choices[v] == other->choices[v]
           && one->steps[v] == other->steps[v])
        v++;
    return v;
}

/* What a way gives at a position, or, past the last, what it answers. */
static void show_way(const struct way *way, size_t position, size_t count)
{
    const struct rows *rows = &way->rows;
    dushemqa_refusal refusal = way->valued.refusal;
    if (position < count)
        printf("; %s: value %s, choice %s, step %s", way->name, word_of(rows->values[position], "ever").letters,
               word_of(rows->choices[position], "-").letters, word_of(rows->steps[position], "-").letters);
    else
        printf("; %s: refusal %u, line %zu, rounds %u", way->name, (unsigned)refusal.number, refusal.line,
               (unsigned)way->valued.rounds);
}

/* Both ways are proved to agree. What is said where they differ is for an archive that nobody proved. */
static enum status show_ways(const struct text *chart, const struct way *filed, const struct way *plain)
{
    size_t count = same_refusal(filed, plain) ? positions(chart) : 0;
    size_t position = first_difference(&filed->rows, &plain->rows, count);
    unsigned rounds = filed->valued.rounds;
    show_name(stdout, chart->name);
    if (count > 0 && position == count && rounds == plain->valued.rounds) {
        printf(": both ways agree: %zu %s, %u %s\n", count, count == 1 ? "position" : "positions", rounds,
               rounds == 1 ? "round" : "rounds");
        return TAKEN;
    }
    printf(": the ways differ");
    if (position < count)
        printf(", first at position %zu", position);
    show_way(filed, position, count);
    show_way(plain, position, count);
    printf("\n");
    return REFUSED;
}

static enum status look_at(const char *name)
{
    struct text chart;
    struct way filed, plain;
    if (!read_chart(name, &chart))
        return UNUSABLE;
    go(&filed, "filed", dushemqa_value, &chart);
    go(&plain, "plain", dushemqa_value_plain, &chart);
    if (same_refusal(&filed, &plain) && filed.valued.refusal.number != DUSHEMQA_TAKEN)
        return say_refusal(&chart, NULL, filed.valued.refusal);
    return show_ways(&chart, &filed, &plain);
}

enum status ways_command(const struct call *call)
{
    return look_at_each(call, look_at);
}
