/* The desk tool: the library's jobs on files, with their answers in words.
 *
 *     lane COMMAND WORDS
 *
 * It decides nothing itself. A command is a function and a row of the table below. */
#define _POSIX_C_SOURCE 200809L
#include <fcntl.h>
#include <limits.h>
#include <signal.h>
#include <string.h>
#include <unistd.h>

#include "lane/lane.h"

struct command {
    const char *name;
    const char *words; /* as the usage has them */
    int least, most;   /* how many */
    const char *option;
    enum status (*act)(const struct call *call);
    const char *summary;
    const char *help;
};

static const struct command commands[] = {
    {"plate", "CHART", 1, 1, NULL, plate_command, "write the chart's plate",
     "Writes the plate of CHART to standard output.\n"},
    {"check", "CHART PLATE", 2, 2, NULL, check_command, "is the plate right for the chart?",
     "Says 'accepted', or the first fault: its position, the condition and what that asks, the plate's line.\n"
     "An accepted plate has the right values and an optimal controller, whoever made it. A chart or a plate that is not\n"
     "of its form is refused, with the line and what is wrong there.\n"},
    {"weigh", "CHART CHOICES", 2, 2, NULL, weigh_command, "what is a controller worth?",
     "A table of the positions: the value, the worth of the controller that makes CHOICES, and a mark where the two\n"
     "differ. CHOICES is a plate, whose choices are taken, or a file with a line for each position from 0 up: the\n"
     "chosen position's number at O, - at L; lines past the last position are not looked at. The status is 0 also\n"
     "where they differ.\n"
     "At R, a position of rest, the choice is - too.\n"},
    {"compare", "CHART PLATE CHOICES", 3, 3, NULL, compare_command, "a plate's values beside a controller's worths",
     "As 'lane weigh', with the values of PLATE, which must be accepted.\n"},
    {"good", "CHART", 1, 1, NULL, good_command, "every move that is as good as the chosen one",
     "Writes the good moves of CHART to standard output, in the chart's columns and order: a line G, position, target for\n"
     "each meant move at O whose target has at least the position's value. A controller that makes only these moves,\n"
     "whatever it remembers, is worth the value at every position; one that has a fixed choice for each position is\n"
     "optimal only if all its choices at O are listed.\n"},
    {"ruin", "CHART CHOICES START", 3, 3, NULL, ruin_command, "the shortest way to ruin under a controller",
     "The play from position START to an unsafe one, against the controller that makes CHOICES, which are given as for\n"
     "'lane weigh': one with fewest disturbances, of these one with fewest moves, of these the one with the lower\n"
     "position where two first differ. A line for each position says the disturbances seen so far, the chart's value\n"
     "there and what the controller chooses; the last line has the sums. Where the value falls without a disturbance,\n"
     "the choice before gave it away. Where the worth is \"ever\" no play is unsafe, and START is refused.\n"},
    {"run", "CHART PLATE START", 3, 3, NULL, run_command, "follow a machine by its reports",
     "Starts a run at position START and takes reports from standard input, each the number of the position that the\n"
     "machine went to, on a line of its own. After the start and after each report a line says where the run stands,\n"
     "the disturbances seen, and the plate's value and choice there. A refused report is said on standard error and\n"
     "the run goes on from where it stood; the status is then 1 at the end.\n"
     "A line 'swap CHART PLATE' lends the texts of these two files to the reports that follow; the names have no blanks.\n"
     "They are tested by the next report: the plate must be accepted and have the value that the run holds where it\n"
     "stands. Where a file can't be read the texts stay as they were, and the status is 1 at the end. Messages count\n"
     "reports and swaps alike.\n"},
    {"house", "CHART PLATE START...", 3, 2 + DUSHEMQA_MAX_LANES, NULL, house_command, "follow a house of lanes by their reports",
     "Starts a run at each position START, one for each lane from 0 up, at most 64. Each line of standard input is a row of\n"
     "reports, one word for each lane: the number of the position that its machine went to, or - if it reports nothing.\n"
     "After each row a line says how many lanes move, and a line for each of these where it stands, as 'lane run' does.\n"
     "Either all lanes of a row move that report, or none does: then the lowest lane whose report is refused is said on\n"
     "standard error, the house goes on from where it stood, and the status is 1 at the end. The plate is checked at each\n"
     "row, also at one of - only. A line 'swap CHART PLATE' is as for 'lane run'. Messages count rows and swaps alike.\n"},
    {"ways", "CHART...", 1, INT_MAX, NULL, ways_command, "value charts both ways",
     "Values each CHART the filed way, as all other commands do, and the plain way, which walks all moves in every round.\n"
     "A line for each says that both ways agree, with the counts of positions and of rounds. Should they ever differ, it has\n"
     "what each way gives, at the first position where that is not the same. The status is 0 if they agree on all charts,\n"
     "1 if a chart is refused or they differ.\n"},
    {"small", "POSITIONS INDEX", 2, 2, NULL, small_command, "the small chart with this index",
     "Writes the chart with this INDEX among the small charts of so many POSITIONS to standard output, its marks as 0 or 1.\n"
     "A small chart has 1 to 3 positions, each O or L: there are 6 of 1 position, 900 of 2 and 2,000,376 of 3, numbered from\n"
     "0 in the order of numerals, position 0 the leading digit. Within a position O comes before L, then the mark, then\n"
     "the meant set, then the disturbance set; a set counts 2 to the i for each target i.\n"},
    {"index", "CHART...", 1, INT_MAX, NULL, index_command, "the index of each small chart",
     "A line for each CHART says how many positions it has, and its index among the small charts of as many, for which 'lane\n"
     "small' writes the same chart. A blank mark counts as 0. A chart of more than 3 positions, or with a position of rest,\n"
     "has no index and is refused. The status is 0 if all have one, 1 if a chart is refused.\n"},
    {"collection", "FOLDER [--write]", 1, 1, "--write", collection_command, "every chart of a folder against its plate",
     "A line for each chart (*.chart, *.txt) in FOLDER, by name, and a summary. A chart is accepted, faulted (its plate is\n"
     "wrong), missing (its plate is), refused (it is no chart), or failed (a file can't be read or written). The plate lies\n"
     "beside it under the same name with .plate. Lines that are named are counted from 0; 'lane plate' and 'lane check'\n"
     "say more of one chart. --write writes the plates that are missing; what is there is never overwritten. The status\n"
     "is 1 if any is faulted, refused or still missing, 2 if a file can't be read or written.\n"},
    {"picture", "CHART [PLATE]", 1, 2, NULL, picture_command, "the chart as a graph, for Graphviz",
     "Writes the chart as a graph in DOT. To see it:\n\n"
     "    lane picture CHART | dot -Tsvg > chart.svg\n\n"
     "Boxes are the console's positions, ellipses the lane's, dark ones unsafe. In each stand its number, its value\n"
     "and its step; those of equal value lie in one row, \"ever\" at the top. Meant moves are solid, the choice bold,\n"
     "disturbances dashed. Values and choices are computed, or PLATE's; one that is faulted is not drawn.\n"
     "Hexagons are positions of rest, where nobody chooses.\n"},
    {"explain", "[NUMBER]", 0, 1, NULL, explain_command, "what a refusal's number means",
     "Says what is wrong and where, for the refusal with this number or for all.\n"},
};

enum { COMMANDS = sizeof commands / sizeof commands[0] };

static void show_usage(FILE *out)
{
    fprintf(out, "usage: lane COMMAND WORDS\n\n");
    for (size_t i = 0; i < COMMANDS; i++)
        fprintf(out, "  lane %-10s %-20s  %s\n", commands[i].name, commands[i].words, commands[i].summary);
    fprintf(out, "\nCHART and PLATE are files, as c/dushemqa.h describes them. 'lane COMMAND --help' says more of a command.\n"
                 "Answers go to standard output, messages to standard error. The status is 0 for taken, 1 for refused or\n"
                 "faulted, 2 for usage or a file that can't be read or written.\n");
}

static void show_help(FILE *out, const struct command *command)
{
    fprintf(out, "usage: lane %s %s\n\n%s", command->name, command->words, command->help);
}

static enum status refuse_word(const struct command *command, const char *wrong, const char *word)
{
    fprintf(stderr, "lane: %s", wrong);
    show_name(stderr, word);
    if (command == NULL) {
        fprintf(stderr, "\n");
        show_usage(stderr);
        return UNUSABLE;
    }
    fprintf(stderr, "%s\n", word[0] == '-' ? " (a file of such a name is given as ./NAME)" : "");
    fprintf(stderr, "usage: lane %s %s\n", command->name, command->words);
    return UNUSABLE;
}

/* Sorts the words into the option and the rest, and runs the command on them. */
static enum status act(const struct command *command, int count, char **words)
{
    struct call call = {words, 0, false};
    for (int i = 0; i < count; i++) {
        if (strcmp(words[i], "--help") == 0) {
            show_help(stdout, command);
            return TAKEN;
        }
        if (command->option != NULL && strcmp(words[i], command->option) == 0)
            call.option = true;
        else if (words[i][0] == '-')
            return refuse_word(command, "unknown word: ", words[i]);
        else
            words[call.count++] = words[i];
    }
    if (call.count < command->least)
        return refuse_word(command, "words are missing after ", command->name);
    if (call.count > command->most)
        return refuse_word(command, "one word too many: ", words[command->most]);
    return command->act(&call);
}

static enum status dispatch(int count, char **words)
{
    if (count < 2) {
        show_usage(stderr);
        return UNUSABLE;
    }
    if (strcmp(words[1], "--help") == 0) {
        show_usage(stdout);
        return TAKEN;
    }
    for (size_t i = 0; i < COMMANDS; i++) {
        if (strcmp(words[1], commands[i].name) == 0)
            return act(&commands[i], count - 2, words + 2);
    }
    return refuse_word(NULL, "unknown command: ", words[1]);
}

/* A standard stream that was handed over closed would lend its number to the next file that is opened, and a plate could then
 * receive what is meant for the desk. Its place is taken by one that refuses every use. */
static void hold_places(void)
{
    for (int place = 0; place <= 2; place++) {
        if (fcntl(place, F_GETFD) == -1)
            (void)!open("/dev/null", place == 0 ? O_WRONLY : O_RDONLY);
    }
}

int main(int count, char **words)
{
    hold_places();
    signal(SIGPIPE, SIG_IGN); /* a closed pipe is an error of standard output like any other */
    enum status status = dispatch(count, words);
    if (!flush_output())
        status = UNUSABLE;
    return (int)status;
}
