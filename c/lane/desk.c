/* The desk that follows machines by lines of standard input: swaps of the texts are the same for a run and for a house. */
#include "lane.h"

#include <ctype.h>
#include <errno.h>
#include <string.h>

/* Answers false at the end of the input. */
static bool read_line(FILE *in, struct line *line)
{
    int byte = getc(in);
    line->length = 0;
    if (byte == EOF)
        return false;
    for (; byte != '\n' && byte != EOF; byte = getc(in)) {
        if (line->length < sizeof line->letters)
            line->letters[line->length] = (char)byte;
        line->length++;
    }
    return ferror(in) == 0;
}

void show_run(dushemqa_run run, dushemqa_advice advice, bool disturbance)
{
    printf("at %zu, seen %u%s, value %s, ", run.position, (unsigned)run.seen, disturbance ? " (a disturbance)" : "",
           word_of(advice.value, "ever").letters);
    if (advice.choice == DUSHEMQA_NONE)
        printf("nothing to choose\n");
    else
        printf("choose %u\n", (unsigned)advice.choice);
}

void refuse(const struct desk *desk, const char *what, const struct line *line)
{
    fprintf(stderr, "lane: %s %zu, '", what, line->number);
    show_cut(stderr, line->letters, line->length);
    if (desk->house)
        fprintf(stderr, "', refused; no lane moves\n");
    else
        fprintf(stderr, "', refused; the run stands at %zu\n", desk->runs[0].position);
}

/* Why a report of this run was refused. Where the run itself does not fit what is lent, both are shown. */
void say_why(const struct card *card, dushemqa_run run, dushemqa_refusal refusal)
{
    const struct text *chart = &card->chart, *plate = &card->plate;
    if (about_a_sheet(refusal.number)) {
        say_refusal(chart, plate, refusal);
        return;
    }
    fprintf(stderr, "  %u: %s\n", (unsigned)refusal.number, what_is_wrong(refusal.number));
    if (refusal.number == DUSHEMQA_REFUSED_POSITION && run.position >= positions(chart))
        fprintf(stderr, "  it is where the run stands; the chart's are 0 to %zu\n", positions(chart) - 1);
    if (refusal.number == DUSHEMQA_REFUSED_HELD) {
        struct rows rows;
        read_rows(chart, plate, &rows);
        fprintf(stderr, "  at %zu the run holds %s, the plate has %s\n", run.position, word_of(run.value, "ever").letters,
                word_of(rows.values[run.position], "ever").letters);
    }
}

/* Takes the next word off the front of what is left of a line; its length is 0 where none is left. */
size_t next_word(const char **rest, size_t *length, const char **word)
{
    size_t count = 0;
    trim(rest, length);
    *word = *rest;
    while (count < *length && !isspace((unsigned char)(*rest)[count]))
        count++;
    *rest += count;
    *length -= count;
    return count;
}

static bool is_swap(const struct line *line)
{
    const char *rest = line->letters, *word;
    size_t length = line->length < LETTERS ? line->length : LETTERS;
    return next_word(&rest, &length, &word) == 4 && memcmp(word, "swap", 4) == 0;
}

/* Gives a card the two names of a swap. Answers what is wrong with the line, or NULL. */
static const char *take_names(const struct line *line, struct card *card)
{
    const char *rest = line->letters, *word;
    size_t length = line->length;
    char *place = card->names;
    if (length > LETTERS)
        return "too long for two names that can be opened";
    next_word(&rest, &length, &word);
    for (int i = 0; i < 2; i++) {
        size_t count = next_word(&rest, &length, &word);
        if (count == 0 || memchr(word, '\0', count) != NULL)
            return "not two names: swap CHART PLATE";
        memcpy(place, word, count);
        place[count] = '\0';
        *(i == 0 ? &card->chart.name : &card->plate.name) = place;
        place += count + 1;
    }
    return next_word(&rest, &length, &word) == 0 ? NULL : "more than two names: swap CHART PLATE, with no blanks in either";
}

/* One swap; answers whether both files could be read. Whether they fit is for the next report to say. */
static bool take_swap(struct desk *desk, const struct line *line)
{
    struct card *card = desk->spare;
    const char *wrong = take_names(line, card);
    if (wrong == NULL && (!read_chart(card->chart.name, &card->chart) || !read_plate(card->plate.name, &card->plate)))
        wrong = "a file can't be read: the chart and the plate stay as they were";
    if (wrong != NULL) {
        refuse(desk, "line", line);
        fprintf(stderr, "  %s\n", wrong);
        return false;
    }
    desk->spare = desk->lent;
    desk->lent = card;
    return true;
}

/* Goes on to the end of the input, or until nobody takes the answers. What is no swap is for `take`. */
enum status follow(struct desk *desk, bool (*take)(struct desk *desk, const struct line *line))
{
    struct line line;
    enum status status = TAKEN;
    for (line.number = 1; flush_output(); line.number++) {
        errno = 0;
        if (!read_line(stdin, &line)) {
            if (ferror(stdin) == 0)
                return status;
            complain("standard input", strerror(errno));
            return UNUSABLE;
        }
        if (!(is_swap(&line) ? take_swap(desk, &line) : take(desk, &line)))
            status = REFUSED;
    }
    return UNUSABLE;
}

/* Starts the next lane's run on the card that is lent; `word` is the position as it was given. */
static enum status start(struct desk *desk, const char *word, size_t position)
{
    const struct text *chart = &desk->lent->chart, *plate = &desk->lent->plate;
    dushemqa_step step = dushemqa_start(chart->bytes, chart->length, plate->bytes, plate->length, position);
    if (step.refusal.number == DUSHEMQA_REFUSED_POSITION) {
        fprintf(stderr, "lane: start ");
        show_name(stderr, word);
        fprintf(stderr, ": refused, %u: %s\n  its positions are 0 to %zu\n", (unsigned)step.refusal.number,
                what_is_wrong(step.refusal.number), positions(chart) - 1);
        return REFUSED;
    }
    if (step.refusal.number != DUSHEMQA_TAKEN)
        return say_refusal(chart, plate, step.refusal);
    if (desk->house)
        printf("lane %zu ", desk->lanes);
    show_run(step.run, step.advice, false);
    desk->runs[desk->lanes++] = step.run;
    return TAKEN;
}

static bool take_starts(const struct call *call, const char *usage, size_t *starts)
{
    for (int i = 2; i < call->count; i++) {
        if (decimal(call->words[i], strlen(call->words[i]), &starts[i - 2]))
            continue;
        fprintf(stderr, "lane: START is a position's number: ");
        show_name(stderr, call->words[i]);
        fprintf(stderr, "\nusage: lane %s\n", usage);
        return false;
    }
    return true;
}

/* Reads the chart and the plate that the first words name, and starts a run for each word after them. */
enum status open_desk(struct desk *desk, const struct call *call, const char *usage)
{
    size_t starts[DUSHEMQA_MAX_LANES];
    enum status status = TAKEN;
    desk->lanes = 0;
    desk->lent = &desk->cards[0];
    desk->spare = &desk->cards[1];
    if (!take_starts(call, usage, starts) || !read_chart(call->words[0], &desk->lent->chart)
        || !read_plate(call->words[1], &desk->lent->plate))
        return UNUSABLE;
    for (int i = 2; i < call->count && status == TAKEN; i++)
        status = start(desk, call->words[i], starts[i - 2]);
    return status;
}
