/* Shows the use of dushemqa.h: writes the plate of a chart, starts a run on it and reports moves.
 *
 *     example CHART START [TO ...]
 *
 * CHART is the chart's file, START the position that the machine stands at, and each TO a position that it then goes to. After the
 * plate comes a line for the start and for each report: where the run stands, the disturbances seen, and the plate's choice and
 * value there. */
#include <ctype.h>
#include <errno.h>
#include <stdio.h>
#include <stdlib.h>

#include "dushemqa.h"

/* One byte more than the longest chart, so that a longer file is refused and not cut. */
static uint8_t chart[DUSHEMQA_MAX_CHART_BYTES + 1];
static uint8_t plate[DUSHEMQA_MAX_PLATE_BYTES];

static bool read_chart(const char *name, size_t *length)
{
    FILE *file = fopen(name, "rb");
    if (file == NULL) {
        perror(name);
        return false;
    }
    *length = fread(chart, 1, sizeof chart, file);
    /* A directory can be opened, and fails here. */
    bool read = ferror(file) == 0;
    if (!read)
        perror(name);
    fclose(file);
    return read;
}

/* A position's number in words: digits and nothing else. */
static bool read_position(const char *word, size_t *position)
{
    char *end = NULL;
    errno = 0;
    unsigned long long number = strtoull(word, &end, 10);
    if (!isdigit((unsigned char)word[0]) || *end != '\0' || errno != 0 || number > SIZE_MAX) {
        fprintf(stderr, "%s: not a position's number\n", word);
        return false;
    }
    *position = (size_t)number;
    return true;
}

static void show_refusal(const char *job, dushemqa_refusal refusal)
{
    printf("%s refused: %u, line %zu", job, (unsigned)refusal.number, refusal.line);
    if (refusal.number == DUSHEMQA_REFUSED_FAULT)
        printf(", position %zu, condition %u", refusal.position, (unsigned)refusal.condition);
    printf("\n");
}

static void show_number(uint16_t x, const char *none)
{
    if (x == DUSHEMQA_NONE)
        printf("%s", none);
    else
        printf("%u", (unsigned)x);
}

static void show_step(const char *job, dushemqa_step step)
{
    if (step.refusal.number != DUSHEMQA_TAKEN) {
        show_refusal(job, step.refusal);
        return;
    }
    printf("%s: at %zu, %u seen, choice ", job, step.run.position, (unsigned)step.run.seen);
    show_number(step.advice.choice, "-");
    printf(", value ");
    show_number(step.advice.value, "ever");
    printf("\n");
}

int main(int count, char **words)
{
    size_t length = 0, position = 0;
    if (count < 3) {
        fprintf(stderr, "usage: %s CHART START [TO ...]\n", words[0]);
        return 2;
    }
    if (!read_chart(words[1], &length) || !read_position(words[2], &position))
        return 2;

    dushemqa_written written = dushemqa_write(chart, length, plate, sizeof plate);
    if (written.refusal.number != DUSHEMQA_TAKEN) {
        show_refusal("plate", written.refusal);
        return 1;
    }
    fwrite(plate, 1, written.length, stdout);

    dushemqa_step step = dushemqa_start(chart, length, plate, written.length, position);
    show_step("start", step);
    if (step.refusal.number != DUSHEMQA_TAKEN)
        return 1;
    for (int i = 3; i < count; i++) {
        if (!read_position(words[i], &position))
            return 2;
        /* A refused report hands the run back as it was, so that the next one goes on from there. */
        step = dushemqa_report(step.run, chart, length, plate, written.length, position);
        show_step("report", step);
    }
    return 0;
}
