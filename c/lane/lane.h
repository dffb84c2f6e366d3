/* What the parts of `lane` share. Every answer is the library's; what is here puts it into words. */
#ifndef LANE_H
#define LANE_H

#include <stdbool.h>
#include <stddef.h>
#include <stdint.h>
#include <stdio.h>

#include "dushemqa.h"

/* The exit status: 0, 1 or 2, the higher one where a command met both. */
enum status {
    TAKEN = 0,
    REFUSED = 1, /* a sheet, choices or a report refused, or a plate faulted */
    UNUSABLE = 2 /* usage, or a file that can't be read or written */
};

/* The words after a command's name, and whether its option was among them. */
struct call {
    char **words;
    int count;
    bool option;
};

/* The commands, one function each; lane.c has the table. */
enum status plate_command(const struct call *call);
enum status check_command(const struct call *call);
enum status weigh_command(const struct call *call);
enum status compare_command(const struct call *call);
enum status good_command(const struct call *call);
enum status ruin_command(const struct call *call);
enum status run_command(const struct call *call);
enum status house_command(const struct call *call);
enum status ways_command(const struct call *call);
enum status small_command(const struct call *call);
enum status index_command(const struct call *call);
enum status collection_command(const struct call *call);
enum status picture_command(const struct call *call);
enum status explain_command(const struct call *call);

/* A file's bytes: at most a limit and one more, so that a longer file is seen to be longer and is not cut. */
struct text {
    const char *name;
    size_t length;
    uint8_t bytes[DUSHEMQA_MAX_CHART_BYTES + 1];
};

/* files.c */
int take_file(const char *name, size_t limit, struct text *text);
bool read_file(const char *name, size_t limit, struct text *text);
bool read_chart(const char *name, struct text *chart);
bool read_plate(const char *name, struct text *plate);
enum status look_at_each(const struct call *call, enum status (*look_at)(const char *name));
void complain(const char *name, const char *reason);
bool flush_output(void);
int shown_width(uint8_t byte);
void show_bytes(FILE *out, const void *bytes, size_t length);
void show_cut(FILE *out, const void *bytes, size_t length);
void show_name(FILE *out, const char *name);
void trim(const char **word, size_t *length);
bool decimal(const char *word, size_t length, size_t *number);

/* chart.c: the lines of a chart whose first line was taken. */
const uint8_t *chart_line(const struct text *chart, size_t line);
size_t first_field(const uint8_t *line);
size_t second_field(const uint8_t *line);
size_t positions(const struct text *chart);
size_t moves(const struct text *chart);
bool at_rest(const struct text *chart, size_t position);
dushemqa_refusal examine(const struct text *chart);

/* The rows that Valuing and Reading fill. */
struct rows {
    uint16_t values[DUSHEMQA_MAX_POSITIONS];
    uint16_t choices[DUSHEMQA_MAX_POSITIONS];
    uint16_t steps[DUSHEMQA_MAX_POSITIONS];
};
dushemqa_refusal value_rows(const struct text *chart, struct rows *rows);
dushemqa_refusal read_rows(const struct text *chart, const struct text *plate, struct rows *rows);

/* choices.c: a row of choices from a file. A file within the limit has fewer lines than it has bytes. */
struct choices {
    const char *name;
    size_t count;
    uint16_t row[DUSHEMQA_MAX_PLATE_BYTES];
};
enum status read_choices(const char *name, const struct text *chart, struct choices *choices);
enum status refuse_choices(const struct text *chart, const struct text *plate, const struct choices *choices,
                           dushemqa_refusal refusal);

/* A number of a row as a word, `none` for DUSHEMQA_NONE. */
struct word {
    char letters[8];
};
struct word word_of(uint16_t number, const char *none);

/* desk.c: runs by lines of standard input, one for lane run and one a lane for lane house. As many letters of a line are kept as
 * two names may have that can be opened, with the word before them. */
enum { LETTERS = 8200 };

/* A line of standard input: its number from 1, its length, and as many of its first letters as are looked at. */
struct line {
    size_t number;
    size_t length;
    char letters[LETTERS];
};

/* A machine's card: a chart and a plate that are lent together, and their names where a swap gave them. */
struct card {
    struct text chart, plate;
    char names[LETTERS];
};

/* The runs, the card that their reports are lent, and a place for the next one. */
struct desk {
    bool house;
    size_t lanes;
    dushemqa_run runs[DUSHEMQA_MAX_LANES];
    struct card *lent, *spare;
    struct card cards[2];
};
enum status open_desk(struct desk *desk, const struct call *call, const char *usage);
enum status follow(struct desk *desk, bool (*take)(struct desk *desk, const struct line *line));
size_t next_word(const char **rest, size_t *length, const char **word);
void show_run(dushemqa_run run, dushemqa_advice advice, bool disturbance);
void refuse(const struct desk *desk, const char *what, const struct line *line);
void say_why(const struct card *card, dushemqa_run run, dushemqa_refusal refusal);

/* column.c: which parts of a chart's line a refusal is about, a bit for each. */
enum { PARTS = 4 };
struct part {
    const char *name;
    size_t column;
    size_t length;
};
extern const struct part parts[PARTS];
unsigned parts_at_fault(const struct text *chart, dushemqa_refusal refusal);

/* words.c: refusals and faults in words. */
extern const char counts_of_small_charts[];
const char *what_is_wrong(uint32_t number);
bool about_a_sheet(uint32_t number);
void show_chart_line(FILE *out, const struct text *chart, size_t line);
void show_where(FILE *out, const struct text *chart, const struct text *plate, dushemqa_refusal refusal);
enum status say_refusal(const struct text *chart, const struct text *plate, dushemqa_refusal refusal);

#endif
