/* lane picture: a chart as a graph in DOT. The lines that are drawn are those of a chart that the library took. */
#include "lane.h"

#include <string.h>

/* Shape and fill say who chooses, and a dark fill with a double rim that a position is unsafe: also without colours. */
struct look {
    uint8_t letter;
    const char *shape, *fill;
};
static const struct look looks[] = {
    {'O', "box", "\"#dbe9f6\""},
    {'L', "ellipse", "\"#fdf3d0\""},
    {'R', "hexagon", "\"#dfe8d8\""},
};
static const char unsafe_fill[] = "\"#7a1f1f\", fontcolor=white, peripheries=2";

enum { LOOKS = sizeof looks / sizeof looks[0] };

static const struct look *look_of(uint8_t letter)
{
    size_t i = 0;
    while (i + 1 < LOOKS && looks[i].letter != letter)
        i++;
    return &looks[i];
}

/* The part of a name after its last slash, as a DOT string. */
static void show_title(const char *name)
{
    const char *slash = strrchr(name, '/');
    name = slash == NULL ? name : slash + 1;
    for (; *name != '\0'; name++) {
        if (*name == '"' || *name == '\\')
            printf("\\");
        if (shown_width((uint8_t)*name) > 1)
            printf("\\");
        show_bytes(stdout, name, 1);
    }
}

/* How many positions share the value that most of them have. */
static size_t largest_row(size_t count, const uint16_t *values)
{
    size_t largest = 0;
    for (size_t v = 0; v < count; v++) {
        size_t sharing = 0;
        for (size_t w = 0; w < count; w++)
            sharing += values[w] == values[v];
        largest = sharing > largest ? sharing : largest;
    }
    return largest;
}

/* Moves within a row are drawn above it, so a long row wants more room there: inches, in hundredths. */
static size_t room(size_t row)
{
    return row > 40 ? 180 : 60 + 3 * row;
}

static bool any_at_rest(const struct text *chart)
{
    for (size_t v = 0; v < positions(chart); v++) {
        if (at_rest(chart, v))
            return true;
    }
    return false;
}

static void show_head(const struct text *chart, const uint16_t *values)
{
    size_t hundredths = room(largest_row(positions(chart), values));
    printf("digraph chart {\n");
    printf("  label=\"");
    show_title(chart->name);
    printf("\\nboxes: the console chooses; ellipses: the lane; %sdark: unsafe\\n"
           "in each its number, value and (step); bold: the choice; dashed: disturbances\";\n",
           any_at_rest(chart) ? "hexagons: nobody, at rest; " : "");
    printf("  fontname=\"Helvetica\"; nodesep=0.35; ranksep=%zu.%02zu;\n", hundredths / 100, hundredths % 100);
    printf("  node [style=filled, fontname=\"Helvetica\"];\n");
    printf("  edge [constraint=false];\n");
}

/* A position with its number, value and step. */
static void show_position(const uint8_t *line, size_t v, const struct rows *rows)
{
    printf("  %zu [label=\"%zu\\n%s", v, v, word_of(rows->values[v], "ever").letters);
    if (rows->steps[v] != DUSHEMQA_NONE)
        printf(" (%u)", (unsigned)rows->steps[v]);
    const struct look *look = look_of(line[0]);
    printf("\", shape=%s, fillcolor=%s];\n", look->shape, second_field(line) == 1 ? unsafe_fill : look->fill);
}

static void show_move(const uint8_t *line, const struct rows *rows)
{
    size_t from = first_field(line), to = second_field(line);
    printf("  %zu -> %zu", from, to);
    if (line[0] != 'M')
        printf(" [style=dashed, color=\"#a02020\"]");
    else if (rows->choices[from] == to)
        printf(" [style=bold, penwidth=2.5]");
    printf(";\n");
}

/* The positions of one value in one row, beside a node that names the value. */
static void show_rank(size_t count, const uint16_t *values, uint16_t value)
{
    struct word word = word_of(value, "ever");
    printf("  value_%s [label=\"%s%s\", shape=plaintext, style=\"\"];\n", word.letters,
           value == DUSHEMQA_NONE ? "" : "value ", word.letters);
    printf("  { rank=same; value_%s;", word.letters);
    for (size_t v = 0; v < count; v++) {
        if (values[v] == value)
            printf(" %zu;", v);
    }
    printf(" }\n");
}

/* The greatest value below a bound; the bound itself if there is none. */
static uint32_t next_below(size_t count, const uint16_t *values, uint32_t bound)
{
    uint32_t greatest = bound;
    for (size_t v = 0; v < count; v++) {
        if (values[v] < bound && (greatest == bound || values[v] > greatest))
            greatest = values[v];
    }
    return greatest;
}

/* A row above another: only these edges place rows, so that the moves lie as they will. */
static void show_above(const char *above, const char *below)
{
    printf("  %s -> value_%s [style=invis, constraint=true];\n", above, below);
}

/* One row for each value that occurs, "ever" at the top under an empty one that makes room for its moves. */
static void show_ranks(size_t count, const uint16_t *values)
{
    char above[16] = "top";
    uint32_t bound = DUSHEMQA_NONE + 1;
    printf("  top [style=invis, label=\"\", height=0.1];\n");
    for (uint32_t value = next_below(count, values, bound); value != bound; value = next_below(count, values, bound)) {
        struct word word = word_of((uint16_t)value, "ever");
        show_rank(count, values, (uint16_t)value);
        show_above(above, word.letters);
        snprintf(above, sizeof above, "value_%s", word.letters);
        bound = value;
    }
}

static void show_graph(const struct text *chart, const struct rows *rows)
{
    size_t count = positions(chart), lines = 1 + count + moves(chart);
    show_head(chart, rows->values);
    show_ranks(count, rows->values);
    for (size_t v = 0; v < count; v++)
        show_position(chart_line(chart, 1 + v), v, rows);
    for (size_t line = 1 + count; line < lines; line++)
        show_move(chart_line(chart, line), rows);
    printf("}\n");
}

enum status picture_command(const struct call *call)
{
    struct text chart, plate;
    struct rows rows;
    dushemqa_refusal refusal;
    if (!read_chart(call->words[0], &chart) || (call->count > 1 && !read_plate(call->words[1], &plate)))
        return UNUSABLE;
    if (call->count == 1)
        refusal = value_rows(&chart, &rows);
    else
        refusal = dushemqa_check(chart.bytes, chart.length, plate.bytes, plate.length);
    if (call->count > 1 && refusal.number == DUSHEMQA_TAKEN)
        refusal = read_rows(&chart, &plate, &rows);
    if (refusal.number != DUSHEMQA_TAKEN)
        return say_refusal(&chart, &plate, refusal);
    show_graph(&chart, &rows);
    return TAKEN;
}
