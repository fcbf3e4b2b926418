// A small controller: loads a chart, derives its rule book, has it checked and indexed, and takes steps from standard input.
//
//   controller CHART < STEPS
//
// A step is a line: the numbers of an event and of the role that executes it, as `5 1`. Where the chart names no roles the event alone will
// do, and the role is 0. The chart says whether the role is permitted, which no rule book knows; the stage is then completed in the book,
// through the index that is kept beside it and has the running order of each stage.
// A line that begins with `list` is a list of events, as `list 5 6 7 by 1`, or without `by` and the role as above: their stages are completed
// in one call, one after another up to the first that is refused.
// A line `strike 2` takes back the step at that position of the steps so far, from 0, if the others are allowed without it; `replay` goes
// through them again from the start, as one does with a record that was kept, and says whether that ends where the controller stands. A line
// `test 5` asks whether that event is open, and takes no step.
// At the start it prints the open stages, and `finished` where no included event is pending. Each step gets one line: the same after it with
// the number of rules that its completion evaluated, or the refusal, which leaves everything as it was and does not count as a failure. A list
// gets the refusal, if there is one, with the position as place, and the open stages in any case, since what was granted before it stands.
// With a refused event stands all that blocks it, by the names of the chart's text where that stands beside the image. A line that is no step
// is said on standard error and passed over, an empty one in silence; one of over 1,024 characters, which may be no text at all, ends the run.
// Exit status: 0; 1 if the chart is refused or a line was no step; 2 usage, or no such chart; 3 if input or output failed.
#include "ozhimka.h"

#include <ctype.h>
#include <errno.h>
#include <inttypes.h>
#include <stdio.h>
#include <string.h>

static uint8_t image[OZHIMKA_MAX_CHART + 1], book[OZHIMKA_MAX_DERIVED]; // one byte more, so that a longer file is refused
static uint8_t index_image[OZHIMKA_MAX_DERIVED_INDEX];
static size_t image_length, book_length, index_length;
static struct ozhimka_counts counts;
static struct ozhimka_chart chart;
static struct ozhimka_marking marking;
static struct ozhimka_snapshot now; // what the marking is in the book's marks

enum { LONGEST_RECORD = 4096 };
static struct ozhimka_recorded record[LONGEST_RECORD]; // the steps that were granted since `start`
static size_t recorded;
static struct ozhimka_marking start;

enum { LONGEST_NAME = 64 };
static char names[OZHIMKA_MAX_EVENTS][LONGEST_NAME]; // of the events
static bool named;

static void say_refusal(FILE *file, const char *call, struct ozhimka_answer answer)
{
    fprintf(file, "%s refused: code %" PRIu32 ", place %" PRIu32 ", other %" PRIu32 ": %s", call, answer.code, answer.place, answer.other,
            ozhimka_reason(answer.code));
}

static bool granted(FILE *file, const char *call, struct ozhimka_answer answer)
{
    if (answer.code == OZHIMKA_GRANTED)
        return true;
    say_refusal(file, call, answer);
    fprintf(file, "\n");
    return false;
}

static void say_events(const char *sort, const char *state, struct ozhimka_set set)
{
    const char *between = "";
    if (!ozhimka_set_empty(set))
        printf("; %s%s %s: ", sort, ozhimka_set_count(set) == 1 ? "" : "s", state);
    for (uint32_t e = ozhimka_set_next(set, 0); e < OZHIMKA_NO_EVENT; e = ozhimka_set_next(set, e + 1), between = ", ") {
        if (named)
            printf("%s%s", between, names[e]);
        else
            printf("%sevent %" PRIu32, between, e);
    }
}

// Ends the line of a refused event with why the chart refuses it: all that blocks it, or that it is not included.
static void print_blocking(uint32_t code, struct ozhimka_set conditions, struct ozhimka_set milestones)
{
    if (code == OZHIMKA_NOT_INCLUDED)
        printf("; %s", ozhimka_reason(code));
    say_events("condition", "not yet executed", conditions);
    say_events("milestone", "still pending", milestones);
    printf("\n");
}

static bool read_file(const char *name)
{
    FILE *file = fopen(name, "rb");
    if (file != NULL)
        image_length = fread(image, 1, sizeof image, file);
    bool good = file != NULL && !ferror(file);
    if (!good)
        fprintf(stderr, "%s: %s\n", name, strerror(errno));
    if (file != NULL)
        fclose(file);
    return good;
}

// The events' names, from the text beside the image (`x.txt` beside `x.chart`) if it is there and has as many events; whether it
// draws the image is not tested. Its lines `event NAME` stand in the order of the events' numbers.
static void load_names(const char *path)
{
    char text[1024], line[1024], word[LONGEST_NAME], name[LONGEST_NAME];
    const char *end = strrchr(path, '.');
    size_t stem = end == NULL || strchr(end, '/') != NULL ? strlen(path) : (size_t)(end - path);
    if (stem + sizeof ".txt" > sizeof text)
        return;
    snprintf(text, sizeof text, "%.*s.txt", (int)stem, path);
    FILE *file = fopen(text, "r");
    if (file == NULL)
        return;
    uint32_t count = 0;
    while (count <= chart.count && fgets(line, sizeof line, file) != NULL) {
        if (sscanf(line, "%63s %63[^ \t\r\n#]", word, name) != 2 || strcmp(word, "event") != 0)
            continue;
        if (count < chart.count)
            memcpy(names[count], name, sizeof name);
        count++;
    }
    named = count == chart.count;
    fclose(file);
}

static bool load(void)
{
    static struct ozhimka_reading reading;
    reading = ozhimka_read_chart(image, image_length);
    if (!granted(stderr, "read", reading.answer) || !granted(stderr, "derive", ozhimka_derive(&reading.chart, book, sizeof book)))
        return false;
    counts = ozhimka_book_counts(book);
    book_length = ozhimka_book_length(book);
    if (!granted(stderr, "index", ozhimka_build_index(book, book_length, index_image, sizeof index_image))) // which checks the book, too
        return false;
    index_length = ozhimka_index_length(book);
    struct ozhimka_settled matching = ozhimka_matching(&reading.chart, reading.marking);
    chart = reading.chart;
    marking = start = reading.marking;
    now = matching.snapshot;
    return granted(stderr, "matching", matching.answer);
}

static bool names_roles(void)
{
    for (uint32_t e = 0; e < chart.count; e++)
        if (chart.roles[e] != 0)
            return true;
    return false;
}

// Marks e, n + e, 2n + e and 3n + e of a derived book of n stages: e is open, executed, included, answered.
static void say_open(void)
{
    uint32_t stages = counts.stages;
    bool none = true, finished = true;
    printf("open:");
    for (uint32_t e = 0; e < stages; e++) {
        if (now.marks[e]) {
            printf(" %" PRIu32, e);
            none = false;
        }
        if (now.marks[2 * stages + e] && !now.marks[3 * stages + e])
            finished = false;
    }
    printf("%s%s", none ? " none" : "", finished ? ", finished" : "");
}

static void print_open(void)
{
    say_open();
    printf("\n");
}

// After a completion, or a list of them: the open stages, and how many rules were evaluated.
static void print_completed(uint32_t evaluated)
{
    say_open();
    printf("; %" PRIu32 " rules evaluated\n", evaluated);
}

enum { LONGEST = 1024, SHOWN = 64 }; // characters of a line, and of one that is no step

struct line {
    unsigned char text[LONGEST];
    size_t length;
    bool cut; // it goes on
};

// The next line of standard input, without its end; false where there is none.
static bool next_line(struct line *line)
{
    int c = getchar();
    if (c == EOF)
        return false;
    line->length = 0;
    for (; c != EOF && c != '\n' && line->length < LONGEST; c = getchar())
        line->text[line->length++] = (unsigned char)c;
    line->cut = c != EOF && c != '\n';
    return !ferror(stdin); // else a part of the line may be missing
}

static size_t behind_spaces(const struct line *line, size_t at)
{
    while (at < line->length && isspace(line->text[at]))
        at++;
    return at;
}

// Reads the number that begins at `at`, decimal digits up to 2^32 - 1, and goes behind it; says what is wrong with it, or gives null.
static const char *read_number(const struct line *line, size_t *at, uint32_t *number)
{
    uint64_t value = 0;
    for (; *at < line->length && !isspace(line->text[*at]); ++*at) {
        unsigned char c = line->text[*at];
        if (c < '0' || c > '9')
            return "decimal digits only";
        value = 10 * value + (uint64_t)(c - '0');
        if (value > UINT32_MAX)
            return "above 4294967295";
    }
    *number = (uint32_t)value;
    return NULL;
}

// Whether this word stands at `at`; goes behind it and the spaces there.
static bool read_word(const struct line *line, size_t *at, const char *word)
{
    size_t length = strlen(word), end = *at + length;
    if (end > line->length || memcmp(line->text + *at, word, length) != 0 || (end < line->length && !isspace(line->text[end])))
        return false;
    *at = behind_spaces(line, end);
    return true;
}

enum command { STEP, STRIKE, REPLAY, TEST };

// The command that a line begins with, a step where it is no word of the others; goes behind it.
static enum command read_command(const struct line *line, size_t *at)
{
    if (read_word(line, at, "strike"))
        return STRIKE;
    if (read_word(line, at, "test"))
        return TEST;
    return read_word(line, at, "replay") ? REPLAY : STEP;
}

// What is wrong with so many numbers behind a command, or null.
static const char *wrong_count(enum command command, int count)
{
    if (command == STRIKE && count != 1)
        return "one position is struck";
    if (command == TEST && count != 1)
        return "one event is tested";
    if (command == REPLAY && count != 0)
        return "nothing stands behind replay";
    if (command == STEP && count == 1 && names_roles())
        return "an event without a role, and this chart names roles";
    return NULL;
}

// Reads a line: its command and the numbers behind it, none to two; says what is wrong with it, or gives null.
static const char *read_line(const struct line *line, enum command *command, uint32_t numbers[2], int *count)
{
    size_t at = behind_spaces(line, 0);
    const char *wrong = NULL;
    *command = read_command(line, &at);
    for (*count = 0; wrong == NULL && at < line->length && *count < 2; ++*count) {
        wrong = read_number(line, &at, &numbers[*count]);
        at = behind_spaces(line, at);
    }
    if (wrong == NULL && at < line->length)
        return "an event and a role, and something behind them";
    return wrong == NULL ? wrong_count(*command, *count) : wrong;
}

struct list {
    uint32_t events[LONGEST / 2], role;
    size_t count;
};

// Reads the events and the role of a list, from behind its first word; says what is wrong with it, or gives null.
static const char *read_list(const struct line *line, size_t at, struct list *list)
{
    bool by = false;
    list->count = 0;
    list->role = 0;
    while (at < line->length && !by) {
        by = read_word(line, &at, "by");
        const char *wrong = by && at == line->length ? "`by` and no role" : read_number(line, &at, by ? &list->role : &list->events[list->count++]);
        if (wrong != NULL)
            return wrong;
        at = behind_spaces(line, at);
    }
    if (at < line->length)
        return "a list, a role, and something behind them";
    return !by && names_roles() ? "a list without `by` and a role, and this chart names roles" : NULL;
}

static void say_no_step(const struct line *line, const char *wrong)
{
    char text[SHOWN]; // with ? for what is not to be printed
    size_t length = line->length < SHOWN ? line->length : SHOWN;
    for (size_t i = 0; i < length; i++) {
        unsigned char c = line->text[i];
        text[i] = c >= ' ' && c <= '~' ? (char)c : '?';
    }
    fprintf(stderr, "no step: %.*s%s (%s)\n", (int)length, text, line->length > SHOWN ? " .." : "", wrong);
}

// Where the record is full, it begins anew from here.
static void keep(uint32_t event, uint32_t role)
{
    if (recorded < LONGEST_RECORD) {
        record[recorded++] = (struct ozhimka_recorded){event, role};
        return;
    }
    start = marking;
    recorded = 0;
}

static void take(uint32_t event, uint32_t role)
{
    char call[64];
    struct ozhimka_step step = ozhimka_execute(&chart, marking, event, role);
    snprintf(call, sizeof call, "execute %" PRIu32 " by %" PRIu32, event, role);
    if (step.answer.code == OZHIMKA_NOT_PERMITTED) {
        granted(stdout, call, step.answer);
        return;
    }
    snprintf(call, sizeof call, "complete %" PRIu32, event);
    struct ozhimka_indexed_completion next = ozhimka_complete_indexed(book, book_length, index_image, index_length, now, event);
    marking = step.marking; // this and the snapshot as they were where the step is refused, which chart and book do alike
    now = next.snapshot;
    if (next.answer.code == OZHIMKA_GRANTED) {
        keep(event, role);
        print_completed(next.evaluated);
        return;
    }
    say_refusal(stdout, call, next.answer);
    print_blocking(step.answer.code, step.conditions, step.milestones);
}

static void test(uint32_t event)
{
    char call[64];
    struct ozhimka_tested open = ozhimka_open_test(&chart, marking, event);
    snprintf(call, sizeof call, "test %" PRIu32, event);
    if (open.answer.code == OZHIMKA_GRANTED) {
        printf("%s: open\n", call);
    } else if (ozhimka_set_empty(open.conditions) && ozhimka_set_empty(open.milestones)) { // no such event, or one that is not included
        granted(stdout, call, open.answer);
    } else {
        printf("%s refused: code %" PRIu32, call, open.answer.code);
        print_blocking(open.answer.code, open.conditions, open.milestones);
    }
}

static void strike(uint32_t position)
{
    struct ozhimka_struck struck = ozhimka_strike(&chart, start, record, recorded, position);
    if (struck.answer.code == OZHIMKA_NO_SUCH_POSITION) {
        printf("strike %" PRIu32 " refused: code 36: %s\n", position, ozhimka_reason(OZHIMKA_NO_SUCH_POSITION));
        return;
    }
    if (struck.answer.code != OZHIMKA_GRANTED) { // the chart and the marking are fit, so the place is a position
        printf("strike %" PRIu32 " refused: without it step %" PRIu32 " is not allowed, code %" PRIu32, position, struck.answer.place,
               struck.answer.code);
        print_blocking(struck.answer.code, struck.conditions, struck.milestones);
        return;
    }
    memmove(record + position, record + position + 1, (recorded - position - 1) * sizeof record[0]);
    recorded--;
    marking = struck.marking;
    now = ozhimka_matching(&chart, marking).snapshot;
    print_open();
}

static void replay(void)
{
    struct ozhimka_replayed replayed = ozhimka_replay(&chart, start, record, recorded);
    if (!granted(stdout, "replay", replayed.answer))
        return;
    bool same = ozhimka_marking_same(replayed.marking, marking);
    printf("replay: %" PRIu64 " of %zu steps, %s%s\n", replayed.steps, recorded, same ? "to where it stands" : "to somewhere else",
           replayed.finished ? ", finished" : "");
}

// The chart goes along the list, too, to say how far the role is permitted: the book gets no stage from there on. Where the chart refuses for
// another reason the book does so at the same position.
static void take_list(const struct list *list)
{
    char call[64];
    struct ozhimka_step step = {.marking = marking};
    size_t stepped = 0;
    for (; stepped < list->count && step.answer.code == OZHIMKA_GRANTED; stepped++) {
        step = ozhimka_execute(&chart, marking, list->events[stepped], list->role);
        marking = step.marking; // as it was where the step is refused
        if (step.answer.code == OZHIMKA_GRANTED)
            keep(list->events[stepped], list->role);
    }
    bool forbidden = step.answer.code == OZHIMKA_NOT_PERMITTED;
    struct ozhimka_list_completion next = ozhimka_complete_list(book, book_length, index_image, index_length, now, list->events,
                                                                forbidden ? stepped - 1 : list->count);
    now = next.snapshot;
    snprintf(call, sizeof call, "list, %" PRIu32 " completed,", next.granted);
    if (next.answer.code != OZHIMKA_GRANTED) {
        say_refusal(stdout, call, next.answer);
        print_blocking(step.answer.code, step.conditions, step.milestones);
    } else if (forbidden) {
        snprintf(call, sizeof call, "execute %" PRIu32 " by %" PRIu32, list->events[stepped - 1], list->role);
        granted(stdout, call, step.answer);
    }
    print_completed(next.evaluated);
}

static void take_command(enum command command, const uint32_t numbers[2], int count)
{
    if (command == STRIKE)
        strike(numbers[0]);
    else if (command == TEST)
        test(numbers[0]);
    else if (command == REPLAY)
        replay();
    else if (count > 0)
        take(numbers[0], numbers[1]);
}

// Takes the step, the list or the command of a line; says why it is none, or gives null.
static const char *take_line(const struct line *line)
{
    static struct list list;
    enum command command = STEP;
    uint32_t numbers[2] = {0, 0};
    size_t at = behind_spaces(line, 0);
    int count = 0;
    if (line->cut)
        return "over 1,024 characters, nothing behind it is read";
    bool listed = read_word(line, &at, "list");
    const char *wrong = listed ? read_list(line, at, &list) : read_line(line, &command, numbers, &count);
    if (wrong == NULL && listed)
        take_list(&list);
    else if (wrong == NULL)
        take_command(command, numbers, count);
    return wrong;
}

int main(int argc, char **argv)
{
    if (argc != 2) {
        fprintf(stderr, "usage: controller CHART < STEPS\n");
        return 2;
    }
    if (!read_file(argv[1]))
        return 2;
    if (!load())
        return 1;
    load_names(argv[1]);
    print_open();
    int status = 0;
    struct line line = {.cut = false};
    while (fflush(stdout) == 0 && !line.cut && next_line(&line)) { // a program at the other end of a pipe gets each line at once
        const char *wrong = take_line(&line);
        if (wrong != NULL) {
            say_no_step(&line, wrong);
            status = 1;
        }
    }
    if (ferror(stdin) || ferror(stdout)) {
        fprintf(stderr, "standard %s: %s\n", ferror(stdin) ? "input" : "output", strerror(errno));
        status = 3;
    }
    return status;
}
