// Times each call of the library, of the plain C and of the leaner plain C on the same buffers, and prints six tables.
#define _POSIX_C_SOURCE 199309L
#include "inputs.h"
#include "lean.h"
#include "ozhimka.h"

#include <stdio.h>
#include <stdlib.h>
#include <string.h>
#include <time.h>

// A side is timed in rounds until it has taken its seconds; one that takes longer than LONGEST is not tried at twice the size.
enum { ROUNDS = 9, LIST = 32, LARGEST = OZHIMKA_MAX_EVENTS };
static const double ROUND_SECONDS = 0.004, SIDE_SECONDS = 0.4, LONGEST = 20;

// ---- what both sides are called on

static uint8_t image[CHART_BYTES], book[BOOK_BYTES], index_image[INDEX_BYTES], room[INDEX_BYTES];
static uint32_t order[ORDER_NUMBERS], numbers[ORDER_NUMBERS];
static size_t image_length, book_length, index_length, ordered; // how many rules the order has: those that count for the stage
static struct flat_chart chart;
static struct marking marking;
static struct snapshot snapshot;
static uint32_t stages[LIST]; // a list of completions that are all granted
static const uint32_t event = 1, role = 1; // the event is the stage that is checked and completed, too

enum { LONGEST_RECORD = 10000 };
static struct recorded record[LONGEST_RECORD]; // allowed whole
static size_t steps;
static uint32_t struck; // a position without which it is, too

// the same chart, marking, snapshot and record under the library's names
static struct ozhimka_chart own_chart;
static struct ozhimka_marking own_marking;
static struct ozhimka_snapshot own_snapshot;
static struct ozhimka_recorded own_record[LONGEST_RECORD];

_Static_assert(sizeof own_chart == sizeof chart && sizeof own_marking == sizeof marking && sizeof own_snapshot == sizeof snapshot
                   && sizeof(struct ozhimka_reading) == sizeof(struct reading) && sizeof(struct ozhimka_step) == sizeof(struct step)
                   && sizeof(struct ozhimka_tested) == sizeof(struct open_test)
                   && sizeof(struct ozhimka_chart_behind) == sizeof(struct read_back)
                   && sizeof(struct ozhimka_open_count) == sizeof(struct open_count)
                   && sizeof(struct ozhimka_finish) == sizeof(struct finish)
                   && sizeof(struct ozhimka_settled) == sizeof(struct settled)
                   && sizeof(struct ozhimka_indexed_completion) == sizeof(struct indexed)
                   && sizeof(struct ozhimka_list_completion) == sizeof(struct listed) && sizeof own_record == sizeof record
                   && sizeof(struct ozhimka_mended) == sizeof(struct mended) && sizeof(struct ozhimka_smaller) == sizeof(struct smaller)
                   && sizeof(struct ozhimka_replayed) == sizeof(struct replayed) && sizeof(struct ozhimka_struck) == sizeof(struct step),
               "both sides pass as many bytes");

// The structs of both sides have the same fields in the same places.
static void share(void)
{
    memcpy(&own_chart, &chart, sizeof chart);
    memcpy(&own_marking, &marking, sizeof marking);
    memcpy(&own_snapshot, &snapshot, sizeof snapshot);
}

// ---- one call, on either side; the result goes where a test can see it

static union {
    struct answer answer; // where the others begin
    struct reading reading;
    struct step step;
    struct open_test open_test;
    struct read_back read_back;
    struct open_count open_count;
    struct finish finish;
    struct settled settled;
    struct indexed indexed;
    struct listed listed;
    struct replayed replayed;
    struct mended mended;
    struct smaller smaller;
} plain_out;

static union {
    struct ozhimka_answer answer;
    struct ozhimka_reading reading;
    struct ozhimka_step step;
    struct ozhimka_tested open_test;
    struct ozhimka_chart_behind read_back;
    struct ozhimka_open_count open_count;
    struct ozhimka_finish finish;
    struct ozhimka_settled settled;
    struct ozhimka_indexed_completion indexed;
    struct ozhimka_list_completion listed;
    struct ozhimka_replayed replayed;
    struct ozhimka_struck struck;
    struct ozhimka_mended mended;
    struct ozhimka_smaller smaller;
} own_out;

static void plain_1(void) { plain_out.reading = plain_read_chart(image, image_length); }
static void own_1(void) { own_out.reading = ozhimka_read_chart(image, image_length); }
static void plain_2(void) { plain_out.step = plain_execute(&chart, marking, event, role); }
static void own_2(void) { own_out.step = ozhimka_execute(&own_chart, own_marking, event, role); }
static void plain_3(void) { plain_out.open_count = plain_count_open(&chart, marking); }
static void own_3(void) { own_out.open_count = ozhimka_count_open(&own_chart, own_marking); }
static void plain_4(void) { plain_out.finish = plain_finished(&chart, marking); }
static void own_4(void) { own_out.finish = ozhimka_finished(&own_chart, own_marking); }
static void plain_5(void) { plain_out.settled = plain_matching(&chart, marking); }
static void own_5(void) { own_out.settled = ozhimka_matching(&own_chart, own_marking); }
static void plain_6(void) { plain_out.answer = plain_derive(&chart, room, BOOK_BYTES); }
static void own_6(void) { own_out.answer = ozhimka_derive(&own_chart, room, BOOK_BYTES); }
static void plain_7(void) { plain_out.answer = plain_check(book, book_length, event, numbers, ORDER_NUMBERS); }
static void lean_7(void) { plain_out.answer = lean_check(book, book_length, event, numbers, ORDER_NUMBERS); }
static void own_7(void) { own_out.answer = ozhimka_check(book, book_length, event, numbers, ORDER_NUMBERS); }
static void plain_8(void) { plain_out.settled = plain_complete(book, book_length, order, ordered, snapshot, event); }
static void lean_8(void) { plain_out.settled = lean_complete(book, book_length, order, ordered, snapshot, event); }
static void own_8(void) { own_out.settled = ozhimka_complete(book, book_length, order, ordered, own_snapshot, event); }
static void plain_9(void) { plain_out.answer = plain_build_index(book, book_length, room, sizeof room); }
static void lean_9(void) { plain_out.answer = lean_build_index(book, book_length, room, sizeof room); }
static void own_9(void) { own_out.answer = ozhimka_build_index(book, book_length, room, sizeof room); }
static void plain_10(void) { plain_out.indexed = plain_complete_indexed(book, book_length, index_image, index_length, snapshot, event); }
static void lean_10(void) { plain_out.indexed = lean_complete_indexed(book, book_length, index_image, index_length, snapshot, event); }
static void own_10(void) { own_out.indexed = ozhimka_complete_indexed(book, book_length, index_image, index_length, own_snapshot, event); }
static void plain_11(void) { plain_out.listed = plain_complete_list(book, book_length, index_image, index_length, snapshot, stages, LIST); }
static void lean_11(void) { plain_out.listed = lean_complete_list(book, book_length, index_image, index_length, snapshot, stages, LIST); }
static void own_11(void) { own_out.listed = ozhimka_complete_list(book, book_length, index_image, index_length, own_snapshot, stages, LIST); }

// The same list, one call through the index after another; the result is put where that of the list stands.
static void plain_12(void)
{
    struct indexed next = {.snapshot = snapshot};
    uint32_t granted = 0, evaluated = 0;
    for (; granted < LIST && next.answer.code == 0; granted++, evaluated += next.evaluated)
        next = plain_complete_indexed(book, book_length, index_image, index_length, next.snapshot, stages[granted]);
    plain_out.listed = (struct listed){next.answer, granted, next.snapshot, evaluated};
}

static void lean_12(void)
{
    struct indexed next = {.snapshot = snapshot};
    uint32_t granted = 0, evaluated = 0;
    for (; granted < LIST && next.answer.code == 0; granted++, evaluated += next.evaluated)
        next = lean_complete_indexed(book, book_length, index_image, index_length, next.snapshot, stages[granted]);
    plain_out.listed = (struct listed){next.answer, granted, next.snapshot, evaluated};
}

static void own_12(void)
{
    struct ozhimka_indexed_completion next = {.snapshot = own_snapshot};
    uint32_t granted = 0, evaluated = 0;
    for (; granted < LIST && next.answer.code == 0; granted++, evaluated += next.evaluated)
        next = ozhimka_complete_indexed(book, book_length, index_image, index_length, next.snapshot, stages[granted]);
    own_out.listed = (struct ozhimka_list_completion){next.answer, granted, next.snapshot, evaluated};
}

static void plain_13(void) { plain_out.replayed = plain_replay(&chart, marking, record, steps); }
static void own_13(void) { own_out.replayed = ozhimka_replay(&own_chart, own_marking, own_record, steps); }
static void plain_14(void) { plain_out.step = plain_strike(&chart, marking, record, steps, struck); }
static void own_14(void) { own_out.struck = ozhimka_strike(&own_chart, own_marking, own_record, steps, struck); }
static void plain_15(void) { plain_out.open_test = plain_open_test(&chart, marking, event); }
static void own_15(void) { own_out.open_test = ozhimka_open_test(&own_chart, own_marking, event); }
static void plain_16(void) { plain_out.read_back = plain_read_back(book, book_length); }
static void own_16(void) { own_out.read_back = ozhimka_read_back(book, book_length); }

static void plain_18(void) { plain_out.smaller = plain_derive_smaller(&chart, marking, room, BOOK_BYTES); }
static void own_18(void) { own_out.smaller = ozhimka_derive_smaller(&own_chart, own_marking, room, BOOK_BYTES); }

// The list goes into the room behind the chart's.
static void plain_17(void) { plain_out.mended = plain_mend(image, image_length, room, CHART_BYTES, room + CHART_BYTES, sizeof room - CHART_BYTES); }
static void own_17(void) { own_out.mended = ozhimka_mend(image, image_length, room, CHART_BYTES, room + CHART_BYTES, sizeof room - CHART_BYTES); }

// The record by a call of execute for each step.
static void plain_each(void)
{
    plain_out.step.marking = marking;
    for (size_t i = 0; i < steps; i++)
        plain_out.step = plain_execute(&chart, plain_out.step.marking, record[i].event, record[i].role);
}

static void own_each(void)
{
    own_out.step.marking = own_marking;
    for (size_t i = 0; i < steps; i++)
        own_out.step = ozhimka_execute(&own_chart, own_out.step.marking, own_record[i].event, own_record[i].role);
}

// ---- whether both results are the same, field by field, since the bytes between fields may be any

static bool same_answer(void)
{
    const struct answer *plain = &plain_out.answer;
    const struct ozhimka_answer *own = &own_out.answer;
    return plain->code == own->code && plain->place == own->place && plain->other == own->other;
}

static bool same_set(const struct set *plain, const struct ozhimka_set *own)
{
    return memcmp(plain->word, own->words, sizeof own->words) == 0;
}

static bool same_marking(const struct marking *plain, const struct ozhimka_marking *own)
{
    return same_set(&plain->executed, &own->executed) && same_set(&plain->pending, &own->pending) && same_set(&plain->included, &own->included);
}

static bool same_chart(const struct flat_chart *plain, const struct ozhimka_chart *own)
{
    return plain->count == own->count && memcmp(plain->conditions, own->conditions, sizeof own->conditions) == 0
           && memcmp(plain->responses, own->responses, sizeof own->responses) == 0
           && memcmp(plain->milestones, own->milestones, sizeof own->milestones) == 0
           && memcmp(plain->includes, own->includes, sizeof own->includes) == 0
           && memcmp(plain->excludes, own->excludes, sizeof own->excludes) == 0
           && memcmp(plain->roles, own->roles, sizeof own->roles) == 0;
}

static bool same_reading(void)
{
    return same_chart(&plain_out.reading.chart, &own_out.reading.chart)
           && same_marking(&plain_out.reading.start, &own_out.reading.marking);
}

static bool same_read_back(void) { return same_chart(&plain_out.read_back.chart, &own_out.read_back.chart); }

static bool same_step(void)
{
    const struct step *plain = &plain_out.step;
    const struct ozhimka_step *own = &own_out.step;
    return same_marking(&plain->marking, &own->marking) && same_set(&plain->conditions, &own->conditions)
           && same_set(&plain->milestones, &own->milestones);
}

static bool same_open_test(void)
{
    return same_set(&plain_out.open_test.conditions, &own_out.open_test.conditions)
           && same_set(&plain_out.open_test.milestones, &own_out.open_test.milestones);
}

static bool same_open_count(void)
{
    return plain_out.open_count.open == own_out.open_count.count && plain_out.open_count.lowest == own_out.open_count.lowest;
}

static bool same_finish(void) { return plain_out.finish.yes == own_out.finish.yes; }

static bool same_snapshot(void)
{
    return memcmp(plain_out.settled.snapshot.marks, own_out.settled.snapshot.marks, sizeof snapshot.marks) == 0;
}

static bool same_indexed(void)
{
    return plain_out.indexed.evaluated == own_out.indexed.evaluated
           && memcmp(plain_out.indexed.snapshot.marks, own_out.indexed.snapshot.marks, sizeof snapshot.marks) == 0;
}

static bool same_list(void)
{
    return plain_out.listed.granted == LIST && own_out.listed.granted == LIST && plain_out.listed.evaluated == own_out.listed.evaluated
           && memcmp(plain_out.listed.snapshot.marks, own_out.listed.snapshot.marks, sizeof snapshot.marks) == 0;
}

static bool same_replay(void)
{
    const struct replayed *plain = &plain_out.replayed;
    const struct ozhimka_replayed *own = &own_out.replayed;
    return plain->code == own->code && plain->steps == own->steps && plain->finished == own->finished
           && same_marking(&plain->marking, &own->marking) && same_set(&plain->conditions, &own->conditions)
           && same_set(&plain->milestones, &own->milestones);
}

static bool same_strike(void)
{
    const struct step *plain = &plain_out.step;
    const struct ozhimka_struck *own = &own_out.struck;
    return same_marking(&plain->marking, &own->marking) && same_set(&plain->conditions, &own->conditions)
           && same_set(&plain->milestones, &own->milestones);
}

static bool same_smaller(void) { return memcmp(plain_out.smaller.table, own_out.smaller.table, sizeof own_out.smaller.table) == 0; }
static bool same_mended(void) { return plain_out.mended.entries == own_out.mended.entries; }

struct call {
    const char *name;
    void (*plain)(void), (*lean)(void), (*own)(void); // lean is null where plain C has no shortcut to take
    bool (*same)(void);
};

static const struct call calls[] = {
    {"read_chart", plain_1, NULL, own_1, same_reading},
    {"execute", plain_2, NULL, own_2, same_step},
    {"open_test", plain_15, NULL, own_15, same_open_test},
    {"count_open", plain_3, NULL, own_3, same_open_count},
    {"finished", plain_4, NULL, own_4, same_finish},
    {"matching", plain_5, NULL, own_5, same_snapshot},
    {"derive", plain_6, NULL, own_6, same_answer},
    {"derive_smaller", plain_18, NULL, own_18, same_smaller},
    {"read_back", plain_16, NULL, own_16, same_read_back},
    {"check", plain_7, lean_7, own_7, same_answer},
    {"complete", plain_8, lean_8, own_8, same_snapshot},
    {"build_index", plain_9, lean_9, own_9, same_answer},
    {"complete_indexed", plain_10, lean_10, own_10, same_indexed},
};

enum { CALLS = sizeof calls / sizeof calls[0], CHECK = 9, LAST = CALLS - 1 };

static const struct call list_call = {"complete_list", plain_11, lean_11, own_11, same_list},
                         list_in_turn = {"complete_indexed, 32 calls", plain_12, lean_12, own_12, same_list};

static const struct call mend_call = {"mend", plain_17, NULL, own_17, same_mended};

static const struct call record_calls[] = {
    {"replay", plain_13, NULL, own_13, same_replay},
    {"strike", plain_14, NULL, own_14, same_strike},
    {"execute for each step", plain_each, NULL, own_each, same_step},
};

enum { RECORD_CALLS = sizeof record_calls / sizeof record_calls[0] };

// ---- timing

static double seconds(void)
{
    struct timespec now;
    clock_gettime(CLOCK_PROCESS_CPUTIME_ID, &now);
    return (double)now.tv_sec + 1e-9 * (double)now.tv_nsec;
}

static double run(void (*side)(void), long times)
{
    double start = seconds();
    for (long i = 0; i < times; i++)
        side();
    return (seconds() - start) / (double)times;
}

struct times {
    double plain, lean, own;
};

// One side of a call: its best time, how often a round makes the call, and what was spent on it.
struct side {
    void (*call)(void);
    double best, spent;
    long times;
};

static void go(struct side *side)
{
    double now = run(side->call, side->times);
    side->spent += now * (double)side->times;
    side->best = side->best == 0 || now < side->best ? now : side->best;
}

// Makes a round long enough.
static void lengthen(struct side *side)
{
    while (side->best * (double)side->times < ROUND_SECONDS) {
        side->times *= 2;
        side->best = 0;
        go(side);
    }
}

static void fill(size_t bytes)
{
    memset(room, 0xA5, bytes);
    memset(numbers, 0xA5, sizeof numbers);
}

// Calls a side of plain C and the library once each; they have to grant, and to give and write the same. The lent room is filled before each
// call, as far as a call on this input writes and some bytes behind it, so that what one side does not write is seen, and what lies behind what
// it writes too.
static void compare(const struct call *call, struct side *plain, struct side *lean, struct side *own)
{
    static uint8_t plain_room[sizeof room];
    static uint32_t plain_numbers[ORDER_NUMBERS];
    size_t bytes = index_length > BOOK_BYTES ? index_length + 4096 : BOOK_BYTES + 4096;
    bytes = bytes < sizeof room ? bytes : sizeof room;
    struct side *sides[3] = {plain, own, lean};
    for (int i = 0; i < 3 && sides[i]->call; i++) {
        fill(bytes);
        go(sides[i]);
        if (i == 0) {
            memcpy(plain_room, room, bytes);
            memcpy(plain_numbers, numbers, sizeof numbers);
        } else if (plain_out.answer.code != 0 || !same_answer() || !call->same() || memcmp(plain_room, room, bytes) != 0
                   || memcmp(plain_numbers, numbers, sizeof numbers) != 0) {
            fprintf(stderr, "%s: two sides differ, or refuse (codes %u and %u)\n", call->name, (unsigned)plain_out.answer.code,
                    (unsigned)own_out.answer.code);
            exit(1);
        }
    }
}

// The best of several rounds, the sides by turns.
static struct times measure(const struct call *call)
{
    struct side plain = {call->plain, 0, 0, 1}, lean = {call->lean, 0, 0, 1}, own = {call->own, 0, 0, 1};
    struct side *sides[3] = {&plain, &lean, &own};
    compare(call, &plain, &lean, &own);
    for (int i = 0; i < 3; i++)
        if (sides[i]->call)
            lengthen(sides[i]);
    for (int round = 0; round < ROUNDS; round++)
        for (int i = 0; i < 3; i++)
            if (sides[i]->call && sides[i]->spent < SIDE_SECONDS)
                go(sides[i]);
    return (struct times){plain.best, lean.best, own.best};
}

// ---- the table

// A time of 0 is none.
static void print_time(double time)
{
    if (time <= 0)
        printf(" – |");
    else if (time < 1e-6)
        printf(" %.0f ns |", 1e9 * time);
    else if (time < 1e-3)
        printf(" %.1f us |", 1e6 * time);
    else
        printf(" %.2f ms |", 1e3 * time);
}

static void print_ratio(double time, double to, const char *end)
{
    if (time > 0 && to > 0)
        printf(" %.2f%s", time / to, end);
    else
        printf(" –%s", end);
}

static void print_header(const char *size)
{
    printf("| call | input | %s | plain C | leaner C | ozhimka | to plain C | to leaner C |", size);
    printf(" growth from half the %s: plain C, leaner C, ozhimka |\n", size);
    printf("|---|---|---|---:|---:|---:|---:|---:|---|\n");
}

static bool too_long(struct times times)
{
    return times.plain > LONGEST || times.lean > LONGEST || times.own > LONGEST;
}

// `before` has the times at half the size, 0 where there are none.
static struct times print_row(const struct call *call, const char *input, unsigned size, struct times before)
{
    printf("| %s | %s | %u |", call->name, input, size);
    if (too_long(before)) {
        printf(" – | – | – | – | – | not run: a side takes over %.0f s at half the size |\n", LONGEST);
        return before;
    }
    struct times now = measure(call);
    print_time(now.plain);
    print_time(now.lean);
    print_time(now.own);
    print_ratio(now.own, now.plain, " |");
    print_ratio(now.own, now.lean, " |");
    print_ratio(now.plain, before.plain, ",");
    print_ratio(now.lean, before.lean, ",");
    print_ratio(now.own, before.own, " |\n");
    fflush(stdout);
    return now;
}

// The order of the loaded book's stage, and the book's index; the calls say how much each takes where they get no room.
static void load_order(void)
{
    struct answer needed = lean_check(book, book_length, event, order, 0), bytes = lean_build_index(book, book_length, index_image, 0);
    ordered = needed.place;
    index_length = bytes.place;
    if (needed.code != 31 || lean_check(book, book_length, event, order, ORDER_NUMBERS).code != 0 || bytes.code != 35
        || lean_build_index(book, book_length, index_image, sizeof index_image).code != 0)
        abort();
    share();
}

// Loads a chart and its book. Every event was executed and none is pending, so that all are open and every call is granted.
static void load_chart(size_t (*write)(uint8_t *, uint32_t), uint32_t n)
{
    image_length = write(image, n);
    struct reading reading = plain_read_chart(image, image_length);
    struct ozhimka_set all = ozhimka_set_below(n);
    chart = reading.chart;
    memset(&marking, 0, sizeof marking);
    memcpy(&marking.executed, &all, sizeof all);
    memcpy(&marking.included, &all, sizeof all);
    snapshot = plain_matching(&chart, marking).snapshot;
    if (reading.answer.code != 0 || plain_derive(&chart, book, sizeof book).code != 0)
        abort();
    book_length = ozhimka_book_length(book);
    load_order();
}

static void load_book(size_t (*write)(uint8_t *, uint32_t), uint32_t rules)
{
    book_length = write(book, rules);
    memset(&snapshot, 1, sizeof snapshot);
    load_order();
}

// A record of steps that are granted one after the other: each time the next event, round and round, that is open, by its lowest role.
static void load_record(size_t count)
{
    struct marking reached = marking;
    uint32_t e = 0, tried = 0;
    for (steps = 0; steps < count && tried <= chart.count; e = (e + 1) % chart.count, tried++) {
        struct recorded next = {e, chart.roles[e] == 0 ? 0 : (uint32_t)__builtin_ctz(chart.roles[e])};
        struct step step = plain_execute(&chart, reached, next.event, next.role);
        if (step.answer.code == 0) {
            own_record[steps] = (struct ozhimka_recorded){next.event, next.role};
            record[steps++] = next;
            reached = step.marking;
            tried = 0;
        }
    }
    struck = (uint32_t)(count / 2);
    while (struck < steps && plain_strike(&chart, marking, record, steps, struck).answer.code != 0)
        struck++;
    if (steps < count || struck >= steps)
        abort();
}

// Leaves the times of the largest chart in `last`. The smallest is not half of the next one, so there is no growth from it.
static void print_charts(const char *input, size_t (*write)(uint8_t *, uint32_t), struct times last[CALLS])
{
    const uint32_t sizes[] = {8, LARGEST / 4, LARGEST / 2, LARGEST};
    for (int size = 0; size < 4; size++) {
        load_chart(write, sizes[size]);
        if (size < 2)
            memset(last, 0, CALLS * sizeof last[0]);
        for (int i = 0; i < CALLS; i++)
            last[i] = print_row(&calls[i], input, (unsigned)sizes[size], last[i]);
    }
}

// What the calls on the whole book take beside the check of it.
static void print_to_check(const char *input, const struct times last[CALLS])
{
    for (int i = CHECK + 1; i <= LAST; i++) {
        printf("| %s | %s |", calls[i].name, input);
        print_ratio(last[i].plain, last[CHECK].plain, " |");
        print_ratio(last[i].lean, last[CHECK].lean, " |");
        print_ratio(last[i].own, last[CHECK].own, " |\n");
    }
}

// Loads a list of stages, each of which is open when its turn comes.
static void load_list(void)
{
    struct snapshot now = snapshot;
    for (uint32_t i = 0, stage = 0; i < LIST; i++) {
        uint32_t tried = 0;
        do
            stage = (stage + 1) % chart.count;
        while (!now.marks[stage] && ++tried < chart.count);
        stages[i] = stage;
        now = lean_complete_indexed(book, book_length, index_image, index_length, now, stage).snapshot;
    }
}

// The completions of a derived book of the most events in one call, and in as many.
static void print_lists(const char *input, size_t (*write)(uint8_t *, uint32_t))
{
    const struct times none = {0, 0, 0};
    load_chart(write, LARGEST);
    load_list();
    print_row(&list_call, input, LIST, none);
    print_row(&list_in_turn, input, LIST, none);
}

static void print_books(const char *input, size_t (*write)(uint8_t *, uint32_t))
{
    struct times before[CALLS] = {{0, 0, 0}};
    for (uint32_t rules = ORDER_NUMBERS / 8; rules <= ORDER_NUMBERS; rules *= 2) {
        load_book(write, rules);
        for (int i = CHECK; i <= LAST; i++)
            before[i] = print_row(&calls[i], input, (unsigned)rules, before[i]);
    }
}

static void print_records(const char *input, size_t (*write)(uint8_t *, uint32_t), uint32_t events)
{
    struct times before[RECORD_CALLS] = {{0, 0, 0}};
    load_chart(write, events);
    for (size_t count = LONGEST_RECORD / 8; count <= LONGEST_RECORD; count *= 2) {
        load_record(count);
        for (int i = 0; i < RECORD_CALLS; i++)
            before[i] = print_row(&record_calls[i], input, (unsigned)count, before[i]);
    }
}

static void print_mended(const char *input, size_t (*write)(uint8_t *))
{
    const struct times none = {0, 0, 0};
    image_length = write(image);
    plain_17();
    print_row(&mend_call, input, plain_out.mended.entries, none);
}

int main(void)
{
    struct times full[CALLS], sparse[CALLS];
    print_header("events");
    print_charts("all relations", full_chart, full);
    print_charts("sparse", sparse_chart, sparse);
    printf("\n| call | input, 256 events | to the check: plain C | leaner C | ozhimka |\n|---|---|---:|---:|---:|\n");
    print_to_check("all relations", full);
    print_to_check("sparse", sparse);
    printf("\n");
    print_header("completions");
    print_lists("all relations but milestones", list_chart);
    print_lists("sparse", sparse_chart);
    printf("\n");
    print_header("rules");
    print_books("layered", layered_book);
    print_books("one mark", one_mark_book);
    print_books("one mark, one condition", one_condition_book);
    print_books("one stage", one_stage_book);
    print_books("one stage, one chain", one_chain_book);
    print_books("every stage", staged_book);
    printf("\n");
    print_header("steps");
    print_records("sparse, 64 events", sparse_chart, LARGEST / 4);
    print_records("sparse, 256 events", sparse_chart, LARGEST);
    printf("\n");
    print_header("changes");
    print_mended("512 nodes on one loop", one_loop);
    print_mended("256 loops of two nodes", loops_of_two);
    print_mended("16,384 bad relations", bad_relations);
    return 0;
}
