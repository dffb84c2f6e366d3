/* lane plate, lane check, lane good. */
#include "lane.h"

enum status plate_command(const struct call *call)
{
    struct text chart;
    uint8_t plate[DUSHEMQA_MAX_PLATE_BYTES];
    if (!read_chart(call->words[0], &chart))
        return UNUSABLE;
    dushemqa_written written = dushemqa_write(chart.bytes, chart.length, plate, sizeof plate);
    if (written.refusal.number != DUSHEMQA_TAKEN)
        return say_refusal(&chart, NULL, written.refusal);
    fwrite(plate, 1, written.length, stdout);
    return TAKEN;
}

enum status check_command(const struct call *call)
{
    struct text chart, plate;
    if (!read_chart(call->words[0], &chart) || !read_plate(call->words[1], &plate))
        return UNUSABLE;
    dushemqa_refusal refusal = dushemqa_check(chart.bytes, chart.length, plate.bytes, plate.length);
    if (refusal.number != DUSHEMQA_TAKEN)
        return say_refusal(&chart, &plate, refusal);
    printf("accepted\n");
    return TAKEN;
}

enum status good_command(const struct call *call)
{
    struct text chart;
    uint8_t sheet[DUSHEMQA_MAX_SHEET_BYTES];
    if (!read_chart(call->words[0], &chart))
        return UNUSABLE;
    dushemqa_listed listed = dushemqa_good_moves(chart.bytes, chart.length, sheet, sizeof sheet);
    if (listed.refusal.number != DUSHEMQA_TAKEN)
        return say_refusal(&chart, NULL, listed.refusal);
    fwrite(sheet, DUSHEMQA_CHART_LINE_BYTES, listed.lines, stdout);
    return TAKEN;
}
