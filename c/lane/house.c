/* lane house: the runs of several lanes by rows of reports from standard input. */
#include "lane.h"

#include <string.h>

/* A row of reports, as many as a line's words can be. */
struct row {
    size_t count;
    uint16_t reports[LETTERS / 2];
};

/* A position's number, or - for none. A larger number than a row can hold is no report, and the one that stands for none is no
 * position. */
static bool report_of(const char *word, size_t length, uint16_t *report)
{
    size_t number = DUSHEMQA_NONE;
    bool none = length == 1 && *word == '-';
    if (!none && (!decimal(word, length, &number) || number >= DUSHEMQA_NONE))
        return false;
    *report = (uint16_t)number;
    return true;
}

/* Reads a word for each lane, or as many as there are: the library says whether that fits. */
static bool read_row(const struct desk *desk, const struct line *line, struct row *row)
{
    const char *rest = line->letters, *word;
    size_t length = line->length, count;
    row->count = 0;
    if (length > LETTERS) {
        refuse(desk, "row", line);
        fprintf(stderr, "  too long for a row of reports\n");
        return false;
    }
    while ((count = next_word(&rest, &length, &word)) > 0) {
        if (!report_of(word, count, &row->reports[row->count])) {
            refuse(desk, "row", line);
            fprintf(stderr, "  neither a position's number up to 65,534 nor -: ");
            show_cut(stderr, word, count);
            fprintf(stderr, "\n");
            return false;
        }
        row->count++;
    }
    return true;
}

/* A house is refused by its rows (20), by the sheets, or at one lane. */
static void say_house(const struct desk *desk, const struct row *row, dushemqa_house house)
{
    if (house.refusal.number == DUSHEMQA_REFUSED_LANES) {
        fprintf(stderr, "  %u: %s\n  reports: %zu, lanes: %zu\n", (unsigned)house.refusal.number,
                what_is_wrong(house.refusal.number), row->count, desk->lanes);
        return;
    }
    if (!about_a_sheet(house.refusal.number))
        fprintf(stderr, "  lane %zu, which stands at %zu, reports %u\n", house.lane, desk->runs[house.lane].position,
                (unsigned)row->reports[house.lane]);
    say_why(desk->lent, desk->runs[house.lane], house.refusal);
}

/* The lanes that moved, with the plate's advice where each now stands. */
static void show_moved(const struct desk *desk, const struct row *row, const dushemqa_run *before)
{
    struct rows rows;
    read_rows(&desk->lent->chart, &desk->lent->plate, &rows);
    for (size_t lane = 0; lane < desk->lanes; lane++) {
        dushemqa_run run = desk->runs[lane];
        if (row->reports[lane] == DUSHEMQA_NONE)
            continue;
        printf("lane %zu ", lane);
        show_run(run, (dushemqa_advice){rows.choices[run.position], rows.values[run.position]}, run.seen > before[lane].seen);
    }
}

/* One row; answers whether it was taken. */
static bool take_row(struct desk *desk, const struct line *line)
{
    const struct text *chart = &desk->lent->chart, *plate = &desk->lent->plate;
    dushemqa_run before[DUSHEMQA_MAX_LANES];
    struct row row;
    if (!read_row(desk, line, &row))
        return false;
    memcpy(before, desk->runs, desk->lanes * sizeof before[0]);
    dushemqa_house house = dushemqa_report_house(desk->runs, desk->lanes, row.reports, row.count, chart->bytes, chart->length,
                                                 plate->bytes, plate->length);
    if (house.refusal.number != DUSHEMQA_TAKEN) {
        refuse(desk, "row", line);
        say_house(desk, &row, house);
        return false;
    }
    printf("row %zu: %zu %s\n", line->number, house.moved, house.moved == 1 ? "lane moves" : "lanes move");
    show_moved(desk, &row, before);
    return true;
}

enum status house_command(const struct call *call)
{
    struct desk desk;
    desk.house = true;
    enum status status = open_desk(&desk, call, "house CHART PLATE START...");
    return status == TAKEN ? follow(&desk, take_row) : status;
}
