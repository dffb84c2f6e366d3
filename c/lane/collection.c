/* lane collection: every chart of a folder against the plate beside it. */
#define _POSIX_C_SOURCE 200809L
#include "lane.h"

#include <dirent.h>
#include <errno.h>
#include <stdlib.h>
#include <string.h>
#include <sys/stat.h>
#include <unistd.h>

/* What can be said of a chart and its plate. */
enum finding { ACCEPTED, FAULTED, MISSING, WRITTEN, CHART_REFUSED, FAILED, FINDINGS };

static const char *const finding_names[FINDINGS] = {"accepted", "faulted", "missing", "written", "refused", "failed"};

struct folder {
    const char *name;
    struct dirent **entries;
    size_t count;
    bool writes;
    bool shows_progress;
    size_t found[FINDINGS];
};

static bool ends_with(const char *name, const char *ending)
{
    size_t length = strlen(name), tail = strlen(ending);
    return length > tail && strcmp(name + length - tail, ending) == 0;
}

static int is_chart(const struct dirent *entry)
{
    return ends_with(entry->d_name, ".chart") || ends_with(entry->d_name, ".txt");
}

/* FOLDER/NAME, with NAME's ending replaced if another is given; to be freed. */
static char *path_of(const char *folder, const char *name, const char *ending)
{
    size_t kept = ending == NULL ? strlen(name) : (size_t)(strrchr(name, '.') - name);
    size_t length = strlen(folder) + kept + (ending == NULL ? 0 : strlen(ending)) + 2;
    char *path = malloc(length);
    if (path != NULL)
        snprintf(path, length, "%s/%.*s%s", folder, (int)kept, name, ending == NULL ? "" : ending);
    return path;
}

/* A progress line is for a terminal, and not for one that a pipe's reader is writing to. */
static bool wants_progress(void)
{
    struct stat output;
    return isatty(STDERR_FILENO) == 1 && fstat(STDOUT_FILENO, &output) == 0 && !S_ISFIFO(output.st_mode);
}

static void clear_progress(const struct folder *folder)
{
    if (folder->shows_progress)
        fprintf(stderr, "\r\033[K");
}

static void show_progress(const struct folder *folder, size_t done)
{
    if (!folder->shows_progress)
        return;
    fflush(stdout);
    fprintf(stderr, "%zu of %zu", done, folder->count);
    fflush(stderr);
}

/* No number of errno's. */
enum { NOT_REGULAR = -1 };

/* Reads a regular file: a pipe or a device in the folder could keep the desk waiting for ever. */
static int take_regular(const char *path, size_t limit, struct text *text)
{
    struct stat kind;
    if (stat(path, &kind) != 0)
        return errno;
    return S_ISREG(kind.st_mode) ? take_file(path, limit, text) : NOT_REGULAR;
}

static enum finding fail(const struct folder *folder, const char *path, int reason)
{
    clear_progress(folder);
    complain(path, reason == NOT_REGULAR ? "not a regular file" : strerror(reason));
    return FAILED;
}

/* Creates the plate's file, which must not be there. One that can't be written whole is taken away again. */
static enum finding write_plate(const struct folder *folder, const struct text *chart, const char *path)
{
    uint8_t plate[DUSHEMQA_MAX_PLATE_BYTES];
    dushemqa_written written = dushemqa_write(chart->bytes, chart->length, plate, sizeof plate);
    errno = 0;
    FILE *file = fopen(path, "wbx");
    if (file == NULL)
        return fail(folder, path, errno);
    bool whole = fwrite(plate, 1, written.length, file) == written.length;
    whole = fclose(file) == 0 && whole;
    if (whole)
        return WRITTEN;
    int reason = errno != 0 ? errno : EIO;
    remove(path);
    return fail(folder, path, reason);
}

static enum finding compare_sheets(const struct folder *folder, const struct text *chart, const char *plate_path,
                                   struct text *plate, dushemqa_refusal *refusal)
{
    *refusal = examine(chart);
    if (refusal->number != DUSHEMQA_TAKEN)
        return CHART_REFUSED;
    int reason = take_regular(plate_path, DUSHEMQA_MAX_PLATE_BYTES, plate);
    if (reason == ENOENT)
        return folder->writes ? write_plate(folder, chart, plate_path) : MISSING;
    if (reason != 0)
        return fail(folder, plate_path, reason);
    *refusal = dushemqa_check(chart->bytes, chart->length, plate->bytes, plate->length);
    return refusal->number == DUSHEMQA_TAKEN ? ACCEPTED : FAULTED;
}

/* How a chart was refused or a plate faulted, on the rest of its line. */
static void show_refusal(const struct text *chart, const struct text *plate, dushemqa_refusal refusal)
{
    if (refusal.number == DUSHEMQA_REFUSED_FAULT)
        printf(": ");
    else
        printf(": %u, %s; ", (unsigned)refusal.number, what_is_wrong(refusal.number));
    show_where(stdout, chart, plate, refusal);
}

static enum finding look_at(const struct folder *folder, const char *name)
{
    struct text chart, plate;
    dushemqa_refusal refusal = {DUSHEMQA_TAKEN, 0, 0, 0};
    enum finding finding = FAILED;
    char *chart_path = path_of(folder->name, name, NULL), *plate_path = path_of(folder->name, name, ".plate");
    int reason = chart_path == NULL || plate_path == NULL
                     ? ENOMEM
                     : take_regular(chart_path, DUSHEMQA_MAX_CHART_BYTES, &chart);
    if (reason != 0)
        fail(folder, chart_path == NULL ? name : chart_path, reason);
    else
        finding = compare_sheets(folder, &chart, plate_path, &plate, &refusal);
    clear_progress(folder);
    printf("%-10s  ", finding_names[finding]);
    show_name(stdout, name);
    if (refusal.number != DUSHEMQA_TAKEN)
        show_refusal(&chart, &plate, refusal);
    printf("\n");
    free(chart_path);
    free(plate_path);
    return finding;
}

static void show_summary(const struct folder *folder)
{
    const char *before = ": ";
    printf("%zu %s", folder->count, folder->count == 1 ? "chart" : "charts");
    for (int finding = 0; finding < FINDINGS; finding++) {
        if (folder->found[finding] == 0)
            continue;
        printf("%s%zu %s", before, folder->found[finding], finding_names[finding]);
        before = ", ";
    }
    printf("\n");
}

enum status collection_command(const struct call *call)
{
    struct folder folder = {.name = call->words[0], .writes = call->option, .shows_progress = wants_progress()};
    int count = scandir(folder.name, &folder.entries, is_chart, alphasort);
    if (count < 0) {
        complain(folder.name, strerror(errno));
        return UNUSABLE;
    }
    folder.count = (size_t)count;
    for (size_t i = 0; i < folder.count; i++) {
        folder.found[look_at(&folder, folder.entries[i]->d_name)]++;
        free(folder.entries[i]);
        show_progress(&folder, i + 1);
    }
    free(folder.entries);
    clear_progress(&folder);
    show_summary(&folder);
    if (folder.found[FAILED] > 0)
        return UNUSABLE;
    return folder.found[FAULTED] + folder.found[MISSING] + folder.found[CHART_REFUSED] > 0 ? REFUSED : TAKEN;
}
