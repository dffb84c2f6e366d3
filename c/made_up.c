/* Reports a run that is made up of four numbers, whatever they are, and shows the whole answer.
 *
 *     made_up CHART PLATE POSITION SEEN INITIAL VALUE TO
 *
 * CHART and PLATE are files, POSITION to VALUE the run's numbers, and TO is the position that the machine went to. */
#include <ctype.h>
#include <errno.h>
#include <stdio.h>
#include <stdlib.h>

#include "dushemqa.h"

_Static_assert(sizeof(dushemqa_run) == 16 && offsetof(dushemqa_run, value) == 14, "a run's numbers lie side by side");

/* One byte more than may be there, so that a longer file is refused and not cut. */
static uint8_t chart[DUSHEMQA_MAX_CHART_BYTES + 1];
static uint8_t plate[DUSHEMQA_MAX_PLATE_BYTES + 1];

static size_t read_file(const char *name, uint8_t *bytes, size_t most)
{
    FILE *file = fopen(name, "rb");
    size_t length = file == NULL ? 0 : fread(bytes, 1, most, file);
    if (file == NULL || ferror(file) != 0) {
        perror(name);
        exit(2);
    }
    fclose(file);
    return length;
}

static uint64_t number(const char *word, uint64_t most)
{
    char *end = NULL;
    errno = 0;
    unsigned long long read = strtoull(word, &end, 10);
    if (!isdigit((unsigned char)word[0]) || *end != '\0' || errno != 0 || read > most) {
        fprintf(stderr, "%s: not a number up to %llu\n", word, (unsigned long long)most);
        exit(2);
    }
    return read;
}

int main(int count, char **words)
{
    if (count != 8) {
        fprintf(stderr, "usage: made_up CHART PLATE POSITION SEEN INITIAL VALUE TO\n");
        return 2;
    }
    dushemqa_run run = {
        .position = (size_t)number(words[3], SIZE_MAX),
        .seen = (uint32_t)number(words[4], UINT32_MAX),
        .initial = (uint16_t)number(words[5], UINT16_MAX),
        .value = (uint16_t)number(words[6], UINT16_MAX),
    };
    size_t to = (size_t)number(words[7], SIZE_MAX);
    size_t chart_length = read_file(words[1], chart, sizeof chart);
    size_t plate_length = read_file(words[2], plate, sizeof plate);

    dushemqa_step step = dushemqa_report(run, chart, chart_length, plate, plate_length, to);
    printf("refusal: number %u, line %zu, position %zu, condition %u\n", (unsigned)step.refusal.number, step.refusal.line,
           step.refusal.position, (unsigned)step.refusal.condition);
    printf("run: position %zu, seen %u, initial %u, value %u\n", step.run.position, (unsigned)step.run.seen,
           (unsigned)step.run.initial, (unsigned)step.run.value);
    printf("advice: choice %u, value %u\n", (unsigned)step.advice.choice, (unsigned)step.advice.value);
    return 0;
}
