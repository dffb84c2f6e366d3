/* Files and words from outside, and how they are shown. */
#include "lane.h"

#include <ctype.h>
#include <errno.h>
#include <string.h>

/* Reads a file up to the limit and one byte more. Answers 0, or errno's number. */
int take_file(const char *name, size_t limit, struct text *text)
{
    text->name = name;
    text->length = 0;
    FILE *file = fopen(name, "rb");
    if (file == NULL)
        return errno;
    errno = 0;
    text->length = fread(text->bytes, 1, limit + 1, file);
    int reason = ferror(file) == 0 ? 0 : errno != 0 ? errno : EIO;
    fclose(file);
    return reason;
}

void complain(const char *name, const char *reason)
{
    fprintf(stderr, "lane: ");
    show_name(stderr, name);
    fprintf(stderr, ": %s\n", reason);
}

/* Sends what is waiting to standard output, and says so if that or something before it failed. */
bool flush_output(void)
{
    errno = 0;
    if (fflush(stdout) == 0 && ferror(stdout) == 0)
        return true;
    complain("standard output", errno != 0 ? strerror(errno) : "can't be written");
    clearerr(stdout); /* it is said once */
    return false;
}

bool read_file(const char *name, size_t limit, struct text *text)
{
    int reason = take_file(name, limit, text);
    if (reason != 0)
        complain(name, strerror(reason));
    return reason == 0;
}

bool read_chart(const char *name, struct text *chart)
{
    return read_file(name, DUSHEMQA_MAX_CHART_BYTES, chart);
}

bool read_plate(const char *name, struct text *plate)
{
    return read_file(name, DUSHEMQA_MAX_PLATE_BYTES, plate);
}

/* Looks at each file that a call names, in turn. The highest status of them is the call's. */
enum status look_at_each(const struct call *call, enum status (*look_at)(const char *name))
{
    enum status status = TAKEN;
    for (int i = 0; i < call->count; i++) {
        enum status found = look_at(call->words[i]);
        status = found > status ? found : status;
    }
    return status;
}

/* Bytes outside ASCII's printable ones are shown as \xNN: no file can command the terminal that shows it. */
static bool printable(uint8_t byte)
{
    return byte >= ' ' && byte <= '~';
}

int shown_width(uint8_t byte)
{
    return printable(byte) ? 1 : 4;
}

void show_bytes(FILE *out, const void *bytes, size_t length)
{
    const uint8_t *next = bytes;
    for (size_t i = 0; i < length; i++)
        fprintf(out, printable(next[i]) ? "%c" : "\\x%02x", next[i]);
}

/* As much of a line as is worth showing. */
void show_cut(FILE *out, const void *bytes, size_t length)
{
    show_bytes(out, bytes, length > 40 ? 40 : length);
    if (length > 40)
        fprintf(out, "...");
}

void show_name(FILE *out, const char *name)
{
    show_bytes(out, name, strlen(name));
}

/* Leaves out the blanks around a word. */
void trim(const char **word, size_t *length)
{
    while (*length > 0 && isspace((unsigned char)(*word)[*length - 1]))
        (*length)--;
    for (; *length > 0 && isspace((unsigned char)**word); (*length)--)
        (*word)++;
}

/* Reads digits, with blanks around them. A number beyond size_t becomes the largest, which is no position and no index. */
bool decimal(const char *word, size_t length, size_t *number)
{
    trim(&word, &length);
    *number = 0;
    for (size_t i = 0; i < length; i++) {
        if (!isdigit((unsigned char)word[i]))
            return false;
        size_t digit = (size_t)(word[i] - '0');
        *number = *number > (SIZE_MAX - digit) / 10 ? SIZE_MAX : 10 * *number + digit;
    }
    return length > 0;
}
