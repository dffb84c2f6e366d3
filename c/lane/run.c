/* lane run: a run by reports from standard input. */
#include "lane.h"

/* As many letters as a number may have. */
enum { DIGITS = 48 };

/* One report; answers whether it was taken. */
static bool take_report(struct desk *desk, const struct line *line)
{
    const struct text *chart = &desk->lent->chart, *plate = &desk->lent->plate;
    dushemqa_run *run = &desk->runs[0];
    size_t to = 0;
    if (line->length > DIGITS || !decimal(line->letters, line->length, &to)) {
        refuse(desk, "report", line);
        fprintf(stderr, "  not a position's number\n");
        return false;
    }
    dushemqa_step step = dushemqa_report(*run, chart->bytes, chart->length, plate->bytes, plate->length, to);
    if (step.refusal.number != DUSHEMQA_TAKEN) {
        refuse(desk, "report", line);
        say_why(desk->lent, *run, step.refusal);
        return false;
    }
    show_run(step.run, step.advice, step.run.seen > run->seen);
    *run = step.run;
    return true;
}

enum status run_command(const struct call *call)
{
    struct desk desk;
    desk.house = false;
    enum status status = open_desk(&desk, call, "run CHART PLATE START");
    return status == TAKEN ? follow(&desk, take_report) : status;
}
