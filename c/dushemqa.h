/* Dushemqa: lane charts and their plates, from C.
 *
 * A chart names the positions of a bowling lane's machine, who chooses the next move there, the moves that are meant, the
 * disturbances that may take their place, the positions of rest, where a cycle may end, and the unsafe positions. Its plate
 * says how many disturbances it takes to bring the machine from each position to an unsafe one, against every controller that
 * could be built, and which move to choose there.
 *
 * Every function is proved, for all bytes and numbers that may be lent to it, to answer what the library's job of that name
 * answers, to end, and to touch nothing but what is lent. What a caller owes:
 *   - a pointer that is not null and points to as many readable elements as its length says; a pointer without `const`
 *     points to elements that may be written. For nothing, with length 0, any valid address serves, as that of "": the
 *     proofs speak of memory that is there, and null is no such place;
 *   - memory that is lent for writing overlaps nothing else that is lent to the same call;
 *   - nothing else writes the lent memory during the call.
 * Nothing is kept between calls, so calls may run side by side. A call wants up to 96 KiB of stack.
 *
 * A chart is text in lines of 12 bytes: a letter, two fields of five bytes, a line feed. A field is a number, right-justified
 * after spaces, with no leading zero.
 *     H positions moves   the first line: how many there are
 *     O position mark     a position where the console chooses; L where the lane does; R a position of rest, where nobody does
 *                         and a cycle may end. They are numbered from 0 in order, and the mark is 0 for safe, 1 for unsafe. A
 *                         blank mark, five spaces, means 0; no other field may be blank
 *     M from to           a meant move; D a disturbance. They rise: by from, then M before D, then by to
 * Each O and L position has a meant move, an R none. Disturbances leave O and R positions only; an R may have none.
 *
 * A plate is text in lines of 22 bytes: a letter, four such fields, a line feed. A field may also read "-" or "ever".
 *     P positions rounds highest evers   the first line: how many positions, how many different pairs of value and step, the
 *                                        highest value that is a number ("-" if there is none), how many read "ever"
 *     V position value choice step       a line for each position, in order. The value is the least number of disturbances by
 *                                        which an unsafe position can be reached from there against the best controller,
 *                                        "ever" if none can be reached; the choice is the meant target to choose at O, "-"
 *                                        at L and R; the step orders positions of one value by how near ruin is, "-" at "ever".
 *                                        A safe R without disturbances reads "ever"
 * A plate is of the form if the first line's count is the chart's and each other number is within its bounds: rounds and evers 0
 * to 512; highest, value and step 0 to 511; choice below the count of positions.
 * In rows of numbers a position's entry stands at its number, and DUSHEMQA_NONE stands for "ever" and for "-". In the rows of a
 * house a lane's entry stands at its number, from 0 up.
 *
 * A sheet of good moves is text in the chart's columns, without a first line:
 *     G position target   a line for each meant move of an O position whose target has at least the position's own value, in the
 *                         chart's order. Where the position reads "ever" that is each move into "ever", at an unsafe position
 *                         each meant move; where a disturbance holds the value down, the targets may have several values.
 *                         The plate's choice is always among them. Moves of L and R positions have no line
 *
 * A way to ruin is a play as text in the chart's columns, without a first line:
 *     W position led      a line for each position of the play, in its order, the last one unsafe: led is 1 if a disturbance led
 *                         there, else 0. The first has 0. The sum of this column is the count of disturbances, and the lines
 *                         after the first are the moves
 *
 * A small chart is one of 1 to 3 positions, each O or L. Those of as many positions are numbered from 0 in the order of numerals,
 * position 0 the leading digit. Within a position O comes before L, then the mark, then the meant set, then the disturbance set; a
 * set counts 2 to the i for each target i. There are 6 small charts of 1 position, 900 of 2 and 2,000,376 of 3, and each has one
 * index; a blank mark counts as 0.
 *
 * On a refusal everything that was lent is as it was, a run comes back as it was handed in, and all other numbers of the
 * answer are 0, save the position where a start began no run and the lane whose report a house refused.
 */
#ifndef DUSHEMQA_H
#define DUSHEMQA_H

#include <stdbool.h>
#include <stddef.h>
#include <stdint.h>

#ifdef __cplusplus
extern "C" {
#endif

/* The most positions and moves of a chart, and the bytes of the longest chart, the longest plate, the longest sheet of good moves
 * and the longest way to ruin; the most positions of a small chart, and the bytes of the longest one. */
#define DUSHEMQA_MAX_POSITIONS 512
#define DUSHEMQA_MAX_MOVES 4096
#define DUSHEMQA_MAX_CHART_BYTES 55308
#define DUSHEMQA_MAX_PLATE_BYTES 11286
#define DUSHEMQA_MAX_SHEET_BYTES 49152
#define DUSHEMQA_MAX_RUIN_BYTES 6144
#define DUSHEMQA_MAX_SMALL_POSITIONS 3
#define DUSHEMQA_MAX_SMALL_BYTES 264

/* The bytes of a chart's line, which is also a line of a sheet of good moves and of a way to ruin, and of a plate's line. */
#define DUSHEMQA_CHART_LINE_BYTES 12
#define DUSHEMQA_PLATE_LINE_BYTES 22

/* "ever" as a value or a worth; "-" as a choice, a step or a highest value; no report of a lane. */
#define DUSHEMQA_NONE 65535

/* The most disturbances that a run counts. */
#define DUSHEMQA_MAX_SEEN 99999

/* The most lanes of a house. */
#define DUSHEMQA_MAX_LANES 64

/* Why a job refused. 1 to 9 and 17 are the chart's: every job that is lent a chart to read tests them first, save that
 * dushemqa_report_house tests 20 before them; 9 comes last of them, and the lowest line at fault is answered; 17 is tested beside
 * 7, after 6 and before 8. 21 comes next, before 10. Of 10 to 16, 18 and 19 a job answers the first that applies, by number, save
 * that 18 is tested after 14 and before 15, that dushemqa_ruin tests 19 after 13 and then 10 once more, for the sheet, and that
 * dushemqa_report_house tests 14 before the lanes' 13. Its own list says which a job has. */
enum dushemqa_number {
    DUSHEMQA_TAKEN = 0,             /* nothing was refused */
    DUSHEMQA_REFUSED_LENGTH = 1,    /* chart empty, over 55,308 bytes, or no multiple of 12 */
    DUSHEMQA_REFUSED_FORM = 2,      /* letter not allowed at this line, bad field, blank field save a mark, or no line feed */
    DUSHEMQA_REFUSED_LIMITS = 3,    /* count of positions or of moves outside its limits */
    DUSHEMQA_REFUSED_COUNT = 4,     /* not as many lines as the first line says */
    DUSHEMQA_REFUSED_SEQUENCE = 5,  /* position out of sequence, or mark above 1 */
    DUSHEMQA_REFUSED_ENDPOINT = 6,  /* a move names a position that is not on the chart */
    DUSHEMQA_REFUSED_DISTURBED = 7, /* a disturbance from a position of the lane's */
    DUSHEMQA_REFUSED_ORDER = 8,     /* a move not above the one before */
    DUSHEMQA_REFUSED_NO_MEANT = 9,  /* an O or L position without a meant move; the line of the lowest such position */
    DUSHEMQA_REFUSED_SHORT = 10,    /* a lent buffer or row too short */
    DUSHEMQA_REFUSED_PLATE = 11,    /* plate's length not 22 times (positions + 1), or a line not of the plate's form */
    DUSHEMQA_REFUSED_CHOICE = 12,   /* a choice that is no meant target at O, or not DUSHEMQA_NONE at L or R */
    DUSHEMQA_REFUSED_POSITION = 13, /* a position that is not on the chart */
    DUSHEMQA_REFUSED_FAULT = 14,    /* checking finds a fault; its position and condition are given */
    DUSHEMQA_REFUSED_MOVE = 15,     /* the reported move can't follow */
    DUSHEMQA_REFUSED_SEEN = 16,     /* a disturbance with DUSHEMQA_MAX_SEEN or more seen */
    DUSHEMQA_REFUSED_RESTING = 17,  /* a meant move from a position of rest */
    DUSHEMQA_REFUSED_HELD = 18,     /* the plate's value at the run's position is not the one that the run holds */
    DUSHEMQA_REFUSED_EVER = 19,     /* the worth at the position is "ever": no play from there is unsafe */
    DUSHEMQA_REFUSED_LANES = 20,    /* no lanes, more than DUSHEMQA_MAX_LANES, or not as many reports as lanes */
    DUSHEMQA_REFUSED_NOT_SMALL = 21 /* positions outside 1 to 3, an index past the last, or a chart of another sort */
};

/* The conditions of a plate that dushemqa_check tests, at each position from 0 up:
 *   1  An unsafe position has value 0.
 *   2  The step is "-" exactly when the value is "ever".
 *   3  The choice is a meant target at O, "-" at L and R.
 *   4  Holding: at O the choice has at least this value, and each disturbance's target at least this value less one ("ever"
 *      less one is "ever"). At L each meant target has at least this value. At R the same is asked of disturbances as at O.
 *   5  Ruin, for a safe position whose value is a number: at O some disturbance's target has a smaller value, or all meant
 *      targets are earlier; at L some meant target is earlier; at R some disturbance's target has a smaller value. Earlier means
 *      smaller value, or equal value and smaller step; "-" is above each step.
 *   6  The first line's numbers are those of the plate's lines; answered with the count of positions as the position. */

/* Whether a job refused, and why. */
typedef struct {
    uint32_t number;   /* a number of the list above; DUSHEMQA_TAKEN if nothing was refused */
    size_t line;       /* counted from 0 in the chart (1 to 9 and 17) or the plate (11), else 0 */
    size_t position;   /* the fault's position (14), else 0; the count of positions if the plate's first line is at fault */
    uint8_t condition; /* the fault's condition, 1 to 6 (14), else 0 */
} dushemqa_refusal;

/* What Valuing answers. */
typedef struct {
    dushemqa_refusal refusal;
    uint16_t rounds; /* how many different pairs of value and step occur */
} dushemqa_valued;

/* What Writing and Small chart answer. */
typedef struct {
    dushemqa_refusal refusal;
    size_t length; /* the bytes of the plate or of the chart */
} dushemqa_written;

/* The numbers of a plate's first line after the count of positions. */
typedef struct {
    uint16_t rounds;  /* how many different pairs of value and step */
    uint16_t highest; /* the highest finite value, DUSHEMQA_NONE if there is none */
    uint16_t evers;   /* how many positions read "ever" */
} dushemqa_first_line;

/* What Reading answers. */
typedef struct {
    dushemqa_refusal refusal;
    dushemqa_first_line first_line;
} dushemqa_reading;

/* What Comparing answers. */
typedef struct {
    dushemqa_refusal refusal;
    bool agree;      /* the plate's values and the worths are the same at every position */
    size_t position; /* the first position where they differ, with the plate's value and the worth there; all 0 if they agree */
    uint16_t value;
    uint16_t worth;
} dushemqa_compared;

/* A run. It begins only by dushemqa_start: keep it as it is handed back. A console that stores a run stores the struct it was
 * handed. One that dushemqa_start did not begin has no promise beyond what dushemqa_report says. */
typedef struct {
    size_t position;  /* where the machine stands; SIZE_MAX where a refused start began no run */
    uint32_t seen;    /* the disturbances seen */
    uint16_t initial; /* the value at the start, DUSHEMQA_NONE for "ever" */
    uint16_t value;   /* the value at the position, as the plate of the start or of the last report that was taken gives it;
                       * DUSHEMQA_NONE for "ever" */
} dushemqa_run;

/* The plate's choice and value at a position. */
typedef struct {
    uint16_t choice;
    uint16_t value;
} dushemqa_advice;

/* What a start and a report answer: the run, and the advice at the position that it now holds. */
typedef struct {
    dushemqa_refusal refusal;
    dushemqa_run run;
    dushemqa_advice advice;
} dushemqa_step;

/* What the report of a house answers. */
typedef struct {
    dushemqa_refusal refusal;
    size_t lane;  /* the lane whose report was refused (13, 15, 16, 18), else 0 */
    size_t moved; /* how many lanes reported, all of which moved; 0 on a refusal */
} dushemqa_house;

/* What Listing and Ruin answer. */
typedef struct {
    dushemqa_refusal refusal;
    size_t lines; /* how many lines were written: the good moves, or the positions of the play */
} dushemqa_listed;

/* What Small index answers. */
typedef struct {
    dushemqa_refusal refusal;
    size_t index; /* the chart's index among the small charts of as many positions */
} dushemqa_indexed;

/* Valuing: the values, choices and steps of a chart's positions into the first numbers of three rows.
 *   chart, chart_length      the chart's bytes
 *   values, values_length    a row for the values; numbers past the last position stay
 *   choices, choices_length  a row for the choices
 *   steps, steps_length      a row for the steps
 * Refusals: 1 to 9 and 17; 10 if a row has fewer numbers than the chart has positions. */
dushemqa_valued dushemqa_value(const uint8_t *chart, size_t chart_length,
                               uint16_t *values, size_t values_length,
                               uint16_t *choices, size_t choices_length,
                               uint16_t *steps, size_t steps_length);

/* Valuing the plain way. There are two ways through the rounds that give a chart's values and steps: the plain one walks all moves
 * in every round; the filed one has each move filed under its target, and looks in each round only at the moves into positions
 * that were placed just before. dushemqa_value goes the filed way, and so does every other job that goes through rounds; this
 * function goes the plain one. For every text, and whatever rows are lent, the two give the same answer and leave the same rows.
 * One wants the plain way to set the one against the other; where a chart has many rounds it takes longer.
 * What is lent and the refusals are as for dushemqa_value. */
dushemqa_valued dushemqa_value_plain(const uint8_t *chart, size_t chart_length,
                                     uint16_t *values, size_t values_length,
                                     uint16_t *choices, size_t choices_length,
                                     uint16_t *steps, size_t steps_length);

/* Writing: the plate of a chart.
 *   chart, chart_length  the chart's bytes
 *   plate, plate_length  a buffer for the plate; bytes past the plate's last line stay. DUSHEMQA_MAX_PLATE_BYTES always suffice
 * Refusals: 1 to 9 and 17; 10 if the plate doesn't fit. */
dushemqa_written dushemqa_write(const uint8_t *chart, size_t chart_length,
                                uint8_t *plate, size_t plate_length);

/* Reading: a plate of a chart into three rows. It looks at the plate's form and not at whether the plate is right.
 *   chart, chart_length      the chart's bytes
 *   plate, plate_length      the plate's bytes
 *   values, values_length    a row for the values; numbers past the last position stay
 *   choices, choices_length  a row for the choices
 *   steps, steps_length      a row for the steps
 * Refusals: 1 to 9 and 17; 10 if a row has fewer numbers than the chart has positions; 11. */
dushemqa_reading dushemqa_read(const uint8_t *chart, size_t chart_length,
                               const uint8_t *plate, size_t plate_length,
                               uint16_t *values, size_t values_length,
                               uint16_t *choices, size_t choices_length,
                               uint16_t *steps, size_t steps_length);

/* Checking: whether anybody's plate is right for a chart. Taken: its values are those of the positions, and its choices make
 * an optimal controller.
 *   chart, chart_length  the chart's bytes
 *   plate, plate_length  the plate's bytes
 * Refusals: 1 to 9 and 17; 11; 14 with the first fault. */
dushemqa_refusal dushemqa_check(const uint8_t *chart, size_t chart_length,
                                const uint8_t *plate, size_t plate_length);

/* Weighing: the worths of the positional controller that makes given choices.
 *   chart, chart_length      the chart's bytes
 *   choices, choices_length  a choice for each position, DUSHEMQA_NONE at L and R
 *   worths, worths_length    a row for the worths; numbers past the last position stay
 * Refusals: 1 to 9 and 17; 10 if a row has fewer numbers than the chart has positions; 12. */
dushemqa_refusal dushemqa_weigh(const uint8_t *chart, size_t chart_length,
                                const uint16_t *choices, size_t choices_length,
                                uint16_t *worths, size_t worths_length);

/* Comparing: a plate's values against the worths of the positional controller that makes given choices.
 *   chart, chart_length      the chart's bytes
 *   plate, plate_length      the plate's bytes
 *   choices, choices_length  a choice for each position, DUSHEMQA_NONE at L and R
 * Refusals: 1 to 9 and 17; 10 if there are fewer choices than positions; 11; 12; 14 with the first fault. */
dushemqa_compared dushemqa_compare(const uint8_t *chart, size_t chart_length,
                                   const uint8_t *plate, size_t plate_length,
                                   const uint16_t *choices, size_t choices_length);

/* Start: a run on a plate that checking accepts. It holds the plate's value at its position, as that of the start and as the
 * present one.
 *   chart, chart_length  the chart's bytes
 *   plate, plate_length  the plate's bytes
 *   position             where the machine stands
 * Refusals: 1 to 9 and 17; 11; 13; 14 with the first fault. A refused start begins no run: what it hands back has the position
 * SIZE_MAX and is otherwise 0, and a report of it is refused with 13. */
dushemqa_step dushemqa_start(const uint8_t *chart, size_t chart_length,
                             const uint8_t *plate, size_t plate_length,
                             size_t position);

/* Report: the machine went to a position. At O the move counts as meant if it is the plate's choice and a meant target, else
 * as a disturbance if a D line has it, else it is refused with 15; at L it counts as meant if it is a meant target, else it is
 * refused with 15; at R it counts as a disturbance if a D line has it, else it is refused with 15. A meant target at O that is
 * not the plate's choice thus counts as a disturbance, or not at all.
 * Any chart and plate may be lent at any report, those of the start or others. The plate is checked, as dushemqa_check does, and
 * its value at the run's position must be the one that the run holds. A report that is taken leaves the run with the plate's
 * value at the new position. So the value that a run holds plus the disturbances seen is at least the value at its start, after
 * all reports that were taken, whichever texts each was lent; "ever" is above each number.
 * Of a run that dushemqa_start did not begin this much holds: a report of it is refused with 18, if with nothing before, unless
 * its value is that of the lent plate, and the value that it holds plus the disturbances seen never falls below what it was.
 *   run                  as the start or the last report handed it back
 *   chart, chart_length  the chart's bytes
 *   plate, plate_length  the plate's bytes
 *   to                   where the machine went
 * Refusals, in this order: 1 to 9 and 17; 11; 13 for `to` or for the run's own position; 14 with the first fault; 18; 15; 16. */
dushemqa_step dushemqa_report(dushemqa_run run,
                              const uint8_t *chart, size_t chart_length,
                              const uint8_t *plate, size_t plate_length,
                              size_t to);

/* Listing: every move that is as good as the chosen one, as a sheet of good moves. A positional controller is optimal, its worth
 * the value at every position, exactly when all its choices at O are listed. Any controller, whatever it remembers, that makes
 * only listed moves is worth the value at every position. The plate's own choices are always listed.
 *   chart, chart_length  the chart's bytes
 *   sheet, sheet_length  a buffer for the sheet; bytes past the sheet's last line stay. DUSHEMQA_MAX_SHEET_BYTES always suffice
 * Refusals: 1 to 9 and 17; 10 if the sheet's lines don't fit. A chart without O positions has no line: then any length serves,
 * 0 too. */
dushemqa_listed dushemqa_good_moves(const uint8_t *chart, size_t chart_length,
                                    uint8_t *sheet, size_t sheet_length);

/* Ruin: the shortest way from a position to an unsafe one, against the positional controller that makes given choices, as a way
 * to ruin. At O the chosen meant move follows or a disturbance, at L any meant move, at R a disturbance. Of all unsafe plays from
 * the position it is one with fewest disturbances, which is the worth there; of these one with fewest moves; of these the one
 * with the lower position where two first differ. So there is one such play; it has no position twice, and only its last is
 * unsafe. A move at O to the chosen target is meant, also where a D line has that target too. From an unsafe position the play
 * has one line.
 *   chart, chart_length      the chart's bytes
 *   choices, choices_length  a choice for each position, DUSHEMQA_NONE at L and R; numbers past the last position are not looked
 *                            at
 *   position                 where the play begins
 *   sheet, sheet_length      a buffer for the way; bytes past its last line stay. DUSHEMQA_MAX_RUIN_BYTES always suffice
 * Refusals, in this order: 1 to 9 and 17; 10 if there are fewer choices than positions; 12; 13; 19 exactly if the worth at the
 * position, as dushemqa_weigh gives it, is "ever"; 10 if the lines don't fit. */
dushemqa_listed dushemqa_ruin(const uint8_t *chart, size_t chart_length,
                              const uint16_t *choices, size_t choices_length,
                              size_t position,
                              uint8_t *sheet, size_t sheet_length);

/* Report of a house: one console drives up to DUSHEMQA_MAX_LANES lanes of the same machine, and some of them went to a position.
 * Either every lane that reports moves, its record becoming the run that dushemqa_report hands back for it with the same texts,
 * and the other records stay; or the call is refused and no record changes. So what dushemqa_report says of a run holds at each
 * lane of the house, whichever texts each call is lent, and a lane may be reported by this function and by dushemqa_report in
 * turn. The advice for a lane is the plate's choice and value at its new position, as dushemqa_read gives them.
 * The plate is checked once, also when no lane reports. Then, of the lanes that report, the lowest whose report is refused is
 * answered. A lane that reports nothing is not tested, whatever its record holds.
 *   runs, runs_length        a run for each lane, as a start or the last report left it
 *   reports, reports_length  for each lane where its machine went, DUSHEMQA_NONE if it reports nothing
 *   chart, chart_length      the chart's bytes
 *   plate, plate_length      the plate's bytes
 * Refusals, in this order: 20; 1 to 9 and 17; 11; 14 with the first fault; then, with the lowest lane that has one, 13 for its
 * report or for its run's own position; 18; 15; 16. A single report tests 13 before 14. */
dushemqa_house dushemqa_report_house(dushemqa_run *runs, size_t runs_length,
                                     const uint16_t *reports, size_t reports_length,
                                     const uint8_t *chart, size_t chart_length,
                                     const uint8_t *plate, size_t plate_length);

/* Small chart: the chart with a given index among the small charts of a given count of positions, its marks as 0 or 1.
 *   positions            the count of positions, 1 to DUSHEMQA_MAX_SMALL_POSITIONS
 *   index                from 0; the last is 5 for 1 position, 899 for 2 and 2,000,375 for 3
 *   chart, chart_length  a buffer for the chart; bytes past its last line stay. DUSHEMQA_MAX_SMALL_BYTES always suffice
 * Refusals: 21 for the count of positions or the index; 10 if the chart doesn't fit. */
dushemqa_written dushemqa_small_chart(size_t positions, size_t index,
                                      uint8_t *chart, size_t chart_length);

/* Small index: the index of a small chart. dushemqa_small_chart gives the same chart for it, with 0 for blank marks.
 *   chart, chart_length  the chart's bytes
 * Refusals: 1 to 9 and 17; 21 if the chart has more positions than DUSHEMQA_MAX_SMALL_POSITIONS, or a position of rest. */
dushemqa_indexed dushemqa_small_index(const uint8_t *chart, size_t chart_length);

#ifdef __cplusplus
}
#endif

#endif
