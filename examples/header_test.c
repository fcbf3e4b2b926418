// Tries on the library what the header says of null pointers, of sets, of the largest sizes, of a book's length, of roles, of a chart's tables,
// of stages, of the index, of lists, of the rules evaluated, of what blocks an event, of records, of reading a book back, of smaller books, of
// mending, of the words for each code, and of the stack.
// Prints what does not hold; exit status 0 if nothing, else 1. With an argument it prints the stack of each call, too. Wants POSIX contexts,
// to run a call on a stack that was painted before.
#define _XOPEN_SOURCE 700
#include "ozhimka.h"

#include <stdio.h>
#include <string.h>
#include <ucontext.h>

enum { PAINT = 0xA5, ROOM = 1 << 23, STEPS = 1000 };

// What the header says of the stack, in KiB.
enum {
    STACK_READ_CHART = 128,
    STACK_READ_BACK = 176,
    STACK_CHECK = 64,    // and building an index
    STACK_COMPLETE = 64, // and completing through an index
    STACK_MEND = 4,
    STACK_SMALLER = 16,
    STACK_MATCHING = 4,
    STACK_OTHER = 4
};

static int failures;
static uint8_t image[OZHIMKA_MAX_CHART], book[OZHIMKA_MAX_BOOK];
static uint8_t index_image[OZHIMKA_MAX_DERIVED_INDEX], mended_image[OZHIMKA_MAX_CHART], changes[OZHIMKA_MAX_CHANGE_LIST];
static uint32_t order[OZHIMKA_MAX_RULES];
static size_t image_length, book_length, index_length, ordered; // how many rules of the book count for stage 0
static struct ozhimka_reading reading;
static struct ozhimka_settled settled;
static struct ozhimka_chart bare; // as many events as there can be, and no relations
static struct ozhimka_recorded steps[STEPS]; // event 0 by role 0, each time
static struct ozhimka_marking done; // everything was executed, and nothing is pending
static struct ozhimka_snapshot open; // stage 0 is open, and nothing else is yes
static const uint32_t stages[4] = {0, 0, 3, 0};
static bool telling; // the stack of each call

static void expect(bool holds, const char *what)
{
    if (!holds) {
        printf("does not hold: %s\n", what);
        failures++;
    }
}

// The set of some of the events 0 to 63, as bits.
static struct ozhimka_set low(uint64_t bits)
{
    struct ozhimka_set set = ozhimka_set_below(0);
    set.words[0] = bits;
    return set;
}

static struct ozhimka_marking mark(uint64_t executed, uint64_t pending, uint64_t included)
{
    struct ozhimka_marking marking;
    marking.executed = low(executed), marking.pending = low(pending), marking.included = low(included);
    return marking;
}

static bool is_low(struct ozhimka_set set, uint64_t bits)
{
    return ozhimka_set_same(set, low(bits));
}

static void put16(uint8_t *at, size_t number)
{
    at[0] = (uint8_t)number;
    at[1] = (uint8_t)(number >> 8);
}

static void put32(uint8_t *at, size_t number)
{
    put16(at, number);
    put16(at + 2, number >> 16);
}

static size_t get32(const uint8_t *at)
{
    return at[0] | (size_t)at[1] << 8 | (size_t)at[2] << 16 | (size_t)at[3] << 24;
}

// A chart of 256 groups, each in the one before, with an event in each, and 16,384 relations: all kinds but exclude, the first of each from the
// first group to itself, so that every event has all the others in four sets. The first group names role 0, and the last event role 7.
static void largest_chart(void)
{
    size_t nodes = OZHIMKA_MAX_NODES, events = OZHIMKA_MAX_EVENTS, relations_at = OZHIMKA_CHART_HEADER + OZHIMKA_NODE_SIZE * nodes;
    put16(image, nodes);
    put16(image + 2, OZHIMKA_MAX_RELATIONS);
    put16(image + 4, OZHIMKA_CHART_HEADER);
    put16(image + 6, relations_at);
    for (size_t n = 0; n < nodes; n++) {
        uint8_t *node = image + OZHIMKA_CHART_HEADER + OZHIMKA_NODE_SIZE * n;
        put16(node, n == 0 ? OZHIMKA_NO_PARENT : n < events ? n - 1 : n - events);
        put16(node + 2, n < events ? 0 : OZHIMKA_FLAG_INCLUDED);
    }
    image[OZHIMKA_CHART_HEADER + 3] = 1;
    image[relations_at - 1] = 1 << (OZHIMKA_MAX_ROLES - 1);
    for (size_t k = 0; k < OZHIMKA_MAX_RELATIONS; k++) {
        uint8_t *relation = image + relations_at + OZHIMKA_RELATION_SIZE * k;
        put16(relation, k < OZHIMKA_KIND_EXCLUDE ? 0 : events + k % events);
        put16(relation + 2, k < OZHIMKA_KIND_EXCLUDE ? 0 : events + k / events);
        put16(relation + 4, k % OZHIMKA_KIND_EXCLUDE);
    }
    image_length = OZHIMKA_MAX_CHART;
}

// A book of the largest counts, in which every rule sets a mark on a completion and under a condition that names the marks behind it: of each
// stage the loops are searched for, and its rules wait for one another.
static void largest_book(void)
{
    enum { S = 4, M = OZHIMKA_MAX_MARKS, /* few stages, so that their orders are soon made */ R = OZHIMKA_MAX_RULES, Q = OZHIMKA_MAX_CONDITIONS, W = OZHIMKA_MAX_WORDS, TEXT = W / Q };
    const size_t conditions = OZHIMKA_BOOK_HEADER + OZHIMKA_RULE_SIZE * R, words = conditions + OZHIMKA_CONDITION_SIZE * Q;
    const size_t header[8] = {S, M, R, Q, W, OZHIMKA_BOOK_HEADER, conditions, words};
    memset(book, 0, sizeof book);
    for (size_t i = 0; i < 8; i++)
        put32(book + 4 * i, header[i]);
    for (size_t p = 0; p < R; p++) {
        uint8_t *rule = book + OZHIMKA_BOOK_HEADER + OZHIMKA_RULE_SIZE * p;
        rule[0] = OZHIMKA_TRIGGER_COMPLETED, rule[1] = OZHIMKA_SENSE_AS_WRITTEN, rule[2] = OZHIMKA_EFFECT_SET;
        put16(rule + 4, p % S);
        put16(rule + 6, p / S % (M - 1));
        put16(rule + 8, p / S % (M - 1));
    }
    for (size_t c = 0; c < Q; c++) {
        put32(book + conditions + OZHIMKA_CONDITION_SIZE * c, TEXT * c);
        put32(book + conditions + OZHIMKA_CONDITION_SIZE * c + 4, TEXT);
        for (size_t i = 0; i < TEXT; i++) { // a mark, then mark and or by turns, and one not at the end
            size_t above = c + 1 + (i + 1) / 2, mark = above < M ? above : M - 1;
            put16(book + words + 2 * (TEXT * c + i), i == TEXT - 1 ? OZHIMKA_WORD_NOT : i > 0 && i % 2 == 0 ? OZHIMKA_WORD_OR : mark);
        }
    }
    book_length = ozhimka_book_length(book);
}

// ---- the calls, each on the values above: granted, and refused as late as can be

static void no_call(void) {}
static void read_chart(void) { reading = ozhimka_read_chart(image, image_length); }
static void mend(void) { settled.answer = ozhimka_mend(image, image_length, mended_image, sizeof mended_image, changes, sizeof changes).answer; }
static void finished(void) { settled.snapshot.marks[0] = ozhimka_finished(&reading.chart, reading.marking).yes; }
static void matching(void) { settled = ozhimka_matching(&reading.chart, reading.marking); }
static void derive(void) { settled.answer = ozhimka_derive(&reading.chart, book, sizeof book); }
static void derive_smaller(void) { settled.answer = ozhimka_derive_smaller(&reading.chart, reading.marking, book, sizeof book).answer; }
static void read_back(void) { settled.answer = ozhimka_read_back(book, book_length).answer; }
static void check(void) { settled.answer = ozhimka_check(book, book_length, 0, order, OZHIMKA_MAX_RULES); }
static void complete(void) { settled = ozhimka_complete(book, book_length, order, ordered, open, 0); }
static void build_index(void) { settled.answer = ozhimka_build_index(book, book_length, index_image, sizeof index_image); }
static void complete_list(void) { settled.answer = ozhimka_complete_list(book, book_length, index_image, index_length, open, stages, 1).answer; }
static void complete_indexed(void) { settled.answer = ozhimka_complete_indexed(book, book_length, index_image, index_length, open, 0).answer; }

static void execute(void)
{
    order[0] = ozhimka_execute(&reading.chart, done, 0, 0).answer.code;
    order[1] = ozhimka_execute(&reading.chart, reading.marking, 0, 0).answer.code;
}

static void open_test(void)
{
    order[0] = ozhimka_open_test(&reading.chart, done, 0).answer.code;
    order[1] = ozhimka_open_test(&reading.chart, reading.marking, 0).answer.code;
}

static void count_open(void)
{
    order[0] = ozhimka_count_open(&reading.chart, done).answer.code;
    order[1] = ozhimka_count_open(&reading.chart, reading.marking).lowest == OZHIMKA_NO_EVENT ? OZHIMKA_CONDITION_WANTING : 0;
}

static void replay(void)
{
    order[0] = ozhimka_replay(&bare, done, steps, STEPS).code;
    order[1] = ozhimka_replay(&reading.chart, reading.marking, steps, STEPS).code;
}

static void strike(void)
{
    order[0] = ozhimka_strike(&bare, done, steps, STEPS, 1).answer.code;
    order[1] = ozhimka_strike(&reading.chart, reading.marking, steps, STEPS, 1).answer.code;
}

static ucontext_t here, there;

static size_t stack_of(void (*call)(void))
{
    static unsigned char stack[ROOM];
    size_t left = 0;
    call(); // once before, so that the dynamic linker has found what the call uses
    memset(stack, PAINT, sizeof stack);
    getcontext(&there);
    there.uc_stack.ss_sp = stack;
    there.uc_stack.ss_size = sizeof stack;
    there.uc_link = &here;
    makecontext(&there, call, 0);
    swapcontext(&here, &there);
    while (left < sizeof stack && stack[left] == PAINT)
        left++;
    return sizeof stack - left;
}

static void expect_stack(const char *name, void (*call)(void), size_t kib)
{
    size_t bytes = stack_of(call) - stack_of(no_call);
    if (telling)
        printf("%s: %zu bytes of stack, %zu KiB said\n", name, bytes, kib);
    if (bytes > 1024 * kib) {
        printf("does not hold: %s: %zu bytes of stack, %zu KiB said\n", name, bytes, kib);
        failures++;
    }
}

// The stack of a call, and its code.
static void expect_code(const char *name, void (*call)(void), size_t kib, uint32_t code)
{
    expect_stack(name, call, kib);
    expect(settled.answer.code == code, name);
}

// The stack of a call on a marking in which event 0 is open, and on one in which a condition is wanting.
static void expect_both(const char *name, void (*call)(void))
{
    expect_stack(name, call, STACK_OTHER);
    expect(order[0] == OZHIMKA_GRANTED && order[1] == OZHIMKA_CONDITION_WANTING, name);
}

static void try_stack_of_books(void)
{
    index_length = ozhimka_index_length(book);
    ordered = ozhimka_order_length(book, 0);
    expect_code("ozhimka_check", check, STACK_CHECK, OZHIMKA_GRANTED);
    expect_code("ozhimka_complete", complete, STACK_COMPLETE, OZHIMKA_GRANTED);
    expect_code("ozhimka_build_index", build_index, STACK_CHECK, OZHIMKA_GRANTED);
    expect_code("ozhimka_complete_indexed", complete_indexed, STACK_COMPLETE, OZHIMKA_GRANTED);
    expect_code("ozhimka_complete_list", complete_list, STACK_COMPLETE, OZHIMKA_GRANTED);
}

// Groups 0 to 255 become a loop of parents.
static void try_stack_of_loops(void)
{
    put16(image + OZHIMKA_CHART_HEADER, OZHIMKA_MAX_EVENTS - 1);
    expect_stack("ozhimka_read_chart of a chart with a loop", read_chart, STACK_READ_CHART);
    expect(reading.answer.code == OZHIMKA_PARENTS_LOOP && reading.answer.place == 0 && reading.chart.count == 0, "a loop of 256 groups");
    expect_code("ozhimka_mend of a chart with a loop", mend, STACK_MEND, OZHIMKA_GRANTED);
    largest_chart();
}

// The largest chart and its book, and the largest book by hand, without a loop and with one.
static void try_stack(void)
{
    largest_chart();
    try_stack_of_loops();
    expect_stack("ozhimka_read_chart", read_chart, STACK_READ_CHART);
    expect(reading.answer.code == OZHIMKA_GRANTED && reading.chart.count == OZHIMKA_MAX_EVENTS, "the largest chart is read");
    expect_code("ozhimka_mend", mend, STACK_MEND, OZHIMKA_GRANTED);
    expect_both("ozhimka_execute", execute);
    expect_both("ozhimka_open_test", open_test);
    expect_both("ozhimka_count_open", count_open);
    expect_stack("ozhimka_finished", finished, STACK_OTHER);
    expect_both("ozhimka_replay", replay);
    expect_both("ozhimka_strike", strike);
    expect_code("ozhimka_matching", matching, STACK_MATCHING, OZHIMKA_GRANTED);
    largest_book();
    if (telling)
        printf("the largest book by hand:\n");
    try_stack_of_books();
    expect_code("ozhimka_read_back", read_back, STACK_READ_BACK, OZHIMKA_NOT_DERIVED);
    put16(book + OZHIMKA_BOOK_HEADER + 8, 1); // its own condition names this mark
    expect_code("ozhimka_check of a book with a loop", check, STACK_CHECK, OZHIMKA_LOOP);
    expect_code("ozhimka_derive_smaller", derive_smaller, STACK_SMALLER, OZHIMKA_GRANTED);
    expect_code("ozhimka_derive", derive, STACK_OTHER, OZHIMKA_GRANTED);
    book_length = ozhimka_book_length(book);
    expect(book_length == OZHIMKA_MAX_DERIVED, "the largest derived book");
    if (telling)
        printf("the largest derived book:\n");
    try_stack_of_books();
    expect_code("ozhimka_read_back", read_back, STACK_READ_BACK, OZHIMKA_GRANTED);
}

static bool is(struct ozhimka_answer answer, uint32_t code, size_t place)
{
    return answer.code == code && answer.place == place && answer.other == 0;
}

static void try_null(void)
{
    uint8_t no_rules[OZHIMKA_BOOK_HEADER] = {0};
    no_rules[0] = no_rules[4] = 1; // a stage, which is a mark
    no_rules[20] = no_rules[24] = no_rules[28] = OZHIMKA_BOOK_HEADER;
    expect(is(ozhimka_read_chart(NULL, 0).answer, OZHIMKA_CHART_SHORT, 0), "no chart");
    expect(is(ozhimka_mend(NULL, 0, NULL, 0, NULL, 0).answer, OZHIMKA_CHART_SHORT, 0), "no chart to mend");
    expect(is(ozhimka_mend(image, image_length, NULL, 0, NULL, 0).answer, OZHIMKA_MEND_ROOM, image_length), "no room for a mended chart");
    expect(is(ozhimka_derive(&reading.chart, NULL, 0), OZHIMKA_BOOK_ROOM, book_length), "no room for a book");
    struct ozhimka_smaller smaller = ozhimka_derive_smaller(&reading.chart, reading.marking, NULL, 0);
    expect(smaller.answer.code == OZHIMKA_BOOK_ROOM && smaller.answer.place <= book_length, "no room for a smaller book");
    expect(is(ozhimka_read_back(NULL, 0).answer, OZHIMKA_BOOK_SHORT, 0), "no book to read back");
    expect(is(ozhimka_check(NULL, 0, 0, NULL, 0), OZHIMKA_BOOK_SHORT, 0), "no book to check");
    expect(is(ozhimka_check(book, book_length, 0, NULL, 0), OZHIMKA_ORDER_ROOM, ordered), "no room for an order");
    expect(is(ozhimka_check(no_rules, sizeof no_rules, 0, NULL, 0), OZHIMKA_GRANTED, 0), "no rules, no room");
    expect(is(ozhimka_complete(NULL, 0, NULL, 0, open, 0).answer, OZHIMKA_BOOK_SHORT, 0), "no book to complete a stage of");
    expect(is(ozhimka_complete(book, book_length, NULL, 0, open, 0).answer, OZHIMKA_ORDER_UNFIT, 0), "rules, no order");
    struct ozhimka_settled same = ozhimka_complete(no_rules, sizeof no_rules, NULL, 0, open, 0);
    expect(is(same.answer, OZHIMKA_GRANTED, 0) && memcmp(&same.snapshot, &open, sizeof open) == 0, "no rules, no order");
    expect(ozhimka_book_length(no_rules) == sizeof no_rules, "the length of a book without rules");
    expect(is(ozhimka_build_index(NULL, 0, NULL, 0), OZHIMKA_BOOK_SHORT, 0), "no book to index");
    expect(is(ozhimka_build_index(book, book_length, NULL, 0), OZHIMKA_INDEX_ROOM, index_length), "no room for an index");
    expect(is(ozhimka_complete_indexed(NULL, 0, NULL, 0, open, 0).answer, OZHIMKA_BOOK_SHORT, 0), "no book to complete a stage of by index");
    expect(is(ozhimka_complete_indexed(book, book_length, NULL, 0, open, 0).answer, OZHIMKA_INDEX_UNFIT, 0), "no index");
    expect(is(ozhimka_complete_list(NULL, 0, NULL, 0, open, NULL, 0).answer, OZHIMKA_BOOK_SHORT, 0), "no book to complete a list of");
    expect(is(ozhimka_complete_list(book, book_length, NULL, 0, open, stages, 4).answer, OZHIMKA_INDEX_UNFIT, 0), "a list, no index");
    expect(ozhimka_complete_indexed(book, book_length, index_image, index_length, open, 0).evaluated == ordered, "every rule, fired or not");
}

// What the header says of a set and of the functions beside it, at the edges of its words.
static void try_sets(void)
{
    const uint32_t events[6] = {0, 63, 64, 127, 128, 255};
    struct ozhimka_set set = ozhimka_set_below(0), all = ozhimka_set_below(OZHIMKA_MAX_EVENTS);
    expect(ozhimka_set_empty(set) && ozhimka_set_count(set) == 0 && ozhimka_set_next(set, 0) == OZHIMKA_NO_EVENT, "the empty set");
    for (size_t i = 0; i < 6; i++) {
        ozhimka_set_put(&set, events[i]);
        expect(ozhimka_set_has(set, events[i]) && set.words[events[i] / 64] >> events[i] % 64 == 1, "an event's bit");
        expect(ozhimka_set_count(set) == i + 1 && !ozhimka_set_empty(set), "one event more");
    }
    size_t met = 0;
    for (uint32_t e = ozhimka_set_next(set, 0); e < OZHIMKA_NO_EVENT; e = ozhimka_set_next(set, e + 1))
        expect(met < 6 && e == events[met++], "the events of a set, lowest first");
    expect(met == 6 && ozhimka_set_next(set, OZHIMKA_NO_EVENT) == OZHIMKA_NO_EVENT, "all of them, and none behind the last");
    struct ozhimka_set same = set;
    ozhimka_set_put(&same, OZHIMKA_MAX_EVENTS);
    ozhimka_set_drop(&same, UINT32_MAX);
    expect(ozhimka_set_same(set, same) && !ozhimka_set_has(all, OZHIMKA_MAX_EVENTS), "a number that is no event");
    ozhimka_set_drop(&same, 64);
    expect(!ozhimka_set_same(set, same) && !ozhimka_set_has(same, 64) && ozhimka_set_count(same) == 5, "an event less");
    expect(ozhimka_set_count(all) == OZHIMKA_MAX_EVENTS && ozhimka_set_count(ozhimka_set_below(65)) == 65, "all events below a count");
    expect(ozhimka_set_has(ozhimka_set_below(65), 64) && !ozhimka_set_has(ozhimka_set_below(64), 64), "up to the count, and no further");
}

// A chart of 256 events in which events from all four words of a set matter: 255 waits for condition 63 and milestone 64, and executing it
// takes 64 out, brings 128 in and makes 0 pending.
static struct ozhimka_chart wide_chart(void)
{
    struct ozhimka_chart chart = {.count = OZHIMKA_MAX_EVENTS};
    ozhimka_set_put(&chart.conditions[255], 63);
    ozhimka_set_put(&chart.milestones[255], 64);
    ozhimka_set_put(&chart.excludes[255], 64);
    ozhimka_set_put(&chart.includes[255], 128);
    ozhimka_set_put(&chart.responses[255], 0);
    return chart;
}

// What the header says at the limits: the highest event, mark and rule, and what is past them.
static void try_limits(void)
{
    static struct ozhimka_chart chart;
    struct ozhimka_marking marking = mark(0, 0, 0), next;
    chart = wide_chart();
    marking.included = ozhimka_set_below(OZHIMKA_MAX_EVENTS);
    ozhimka_set_drop(&marking.included, 128);
    ozhimka_set_put(&marking.pending, 64);
    struct ozhimka_step step = ozhimka_execute(&chart, marking, 255, 0);
    expect(is(step.answer, OZHIMKA_CONDITION_WANTING, 63) && ozhimka_set_same(step.conditions, chart.conditions[255]), "63 is wanting");
    expect(ozhimka_set_same(step.milestones, chart.milestones[255]), "and 64 is pending");
    marking = ozhimka_execute(&chart, marking, 63, 0).marking;
    expect(is(ozhimka_open_test(&chart, marking, 255).answer, OZHIMKA_MILESTONE_WANTING, 64), "64 is pending");
    struct ozhimka_open_count count = ozhimka_count_open(&chart, marking);
    expect(count.count == 254 && count.lowest == 0, "all are open but 128 and 255");
    marking = ozhimka_execute(&chart, marking, 64, 0).marking;
    step = ozhimka_execute(&chart, marking, 255, 0);
    next = marking;
    ozhimka_set_put(&next.executed, 255), ozhimka_set_put(&next.pending, 0);
    ozhimka_set_drop(&next.included, 64), ozhimka_set_put(&next.included, 128);
    expect(is(step.answer, OZHIMKA_GRANTED, 0) && ozhimka_marking_same(step.marking, next), "a step of the last event");
    expect(is(ozhimka_execute(&chart, marking, 256, 0).answer, OZHIMKA_NO_SUCH_EVENT, 0), "event 256");
    expect(is(ozhimka_derive(&chart, book, sizeof book), OZHIMKA_GRANTED, 0), "its book");
    size_t length = ozhimka_book_length(book), count_of_last = ozhimka_order_length(book, 255);
    struct ozhimka_settled before = ozhimka_matching(&chart, marking), after = ozhimka_matching(&chart, next);
    expect(before.snapshot.marks[1023] && before.snapshot.marks[768] && !after.snapshot.marks[768], "answered 255 is mark 1,023");
    expect(is(ozhimka_check(book, length, 255, order, OZHIMKA_MAX_RULES), OZHIMKA_GRANTED, 0), "an order of stage 255");
    settled = ozhimka_complete(book, length, order, count_of_last, before.snapshot, 255);
    expect(is(settled.answer, OZHIMKA_GRANTED, 0) && memcmp(&settled.snapshot, &after.snapshot, sizeof open) == 0, "stage 255, completed");
    expect(is(ozhimka_complete(book, length, order, count_of_last, before.snapshot, 256).answer, OZHIMKA_NO_SUCH_STAGE, 0), "stage 256");
    chart.count = 255;
    expect(is(ozhimka_count_open(&chart, mark(0, 0, 0)).answer, OZHIMKA_UNFIT, 0), "a set at the count");
    chart.count = 257;
    expect(is(ozhimka_finished(&chart, mark(0, 0, 0)).answer, OZHIMKA_UNFIT, 0), "257 events");
}

// No open event is 256, of small charts and of refused counts too; an empty snapshot is one of 1,024 marks, and the last of them is above any
// book of fewer.
static void try_none(void)
{
    static struct ozhimka_chart chart, unfit;
    struct ozhimka_snapshot last = open;
    chart.count = 2;
    struct ozhimka_open_count count = ozhimka_count_open(&chart, mark(0, 0, 0)), refused = ozhimka_count_open(&unfit, mark(0, 0, 0));
    expect(is(count.answer, OZHIMKA_GRANTED, 0) && count.count == 0 && count.lowest == 256, "no open event");
    expect(is(refused.answer, OZHIMKA_UNFIT, 0) && refused.count == 0 && refused.lowest == 256, "no open event of a refused count");
    expect(is(ozhimka_derive(&chart, book, sizeof book), OZHIMKA_GRANTED, 0), "a book of two events");
    size_t length = ozhimka_book_length(book), rules = ozhimka_order_length(book, 0);
    expect(is(ozhimka_check(book, length, 0, order, OZHIMKA_MAX_RULES), OZHIMKA_GRANTED, 0), "its order");
    last.marks[1023] = true;
    expect(is(ozhimka_complete(book, length, order, rules, last, 0).answer, OZHIMKA_MARK_ABOVE, 0), "mark 1,023 of a book of eight");
    expect(is(ozhimka_complete(book, length, order, rules, open, 0).answer, OZHIMKA_GRANTED, 0), "and without it");
    order[0] += 65536;
    expect(is(ozhimka_complete(book, length, order, rules, open, 0).answer, OZHIMKA_ORDER_UNFIT, 0), "a number that agrees in 16 bits");
}

// Rules above 65,535, in an order and in the index: of the book that the largest chart has, with which this begins.
static void try_high_rules(void)
{
    size_t last = OZHIMKA_MAX_RULES - 1, at = get32(index_image + OZHIMKA_INDEX_HEADER + OZHIMKA_INDEX_STAGE * 255);
    size_t rules = ozhimka_order_length(book, 255);
    expect(is(ozhimka_check(book, book_length, 255, order, OZHIMKA_MAX_RULES), OZHIMKA_GRANTED, 0), "the last stage's order");
    expect(order[rules - 1] == last && order[0] > 65535 && order[0] < last, "its numbers");
    expect(get32(index_image + at) == order[0] && get32(index_image + at + 4 * (rules - 1)) == last, "the same in the index");
    expect(at + 4 * rules == index_length, "at the end of it");
    order[0] -= 65536;
    expect(is(ozhimka_complete(book, book_length, order, rules, open, 255).answer, OZHIMKA_ORDER_UNFIT, 0), "a number cut to 16 bits");
}

// What the header says of the roles in ozhimka_chart and of the order of ozhimka_execute's refusals.
static void try_roles(void)
{
    struct ozhimka_chart chart = reading.chart;
    struct ozhimka_marking marking = mark(0, 0, 0);
    uint32_t last = OZHIMKA_MAX_EVENTS - 1, role = OZHIMKA_MAX_ROLES - 1;
    expect(chart.roles[0] == 1 && chart.roles[last] == 129, "an event has its roles and those of the groups above it");
    expect(is(ozhimka_execute(&chart, marking, last, role).answer, OZHIMKA_NOT_INCLUDED, 0), "a role that the event names");
    expect(is(ozhimka_execute(&chart, marking, 0, role).answer, OZHIMKA_NOT_PERMITTED, 0), "another event's role");
    expect(is(ozhimka_execute(&chart, marking, OZHIMKA_MAX_EVENTS, role).answer, OZHIMKA_NO_SUCH_EVENT, 0), "no event, whatever the role");
    chart.roles[0] = 0;
    expect(is(ozhimka_execute(&chart, marking, 0, role).answer, OZHIMKA_NOT_INCLUDED, 0), "an event that is open to everyone");
    expect(is(ozhimka_execute(&chart, marking, 0, role + 1).answer, OZHIMKA_NOT_PERMITTED, 0), "a number that is no role");
    struct ozhimka_chart none = {.count = 1};
    none.roles[last] = 1;
    expect(is(ozhimka_execute(&none, marking, last, role + 1).answer, OZHIMKA_UNFIT, 0), "a role past the count");
    expect(is(ozhimka_count_open(&none, marking).answer, OZHIMKA_UNFIT, 0), "a role past the count in another call");
}

static uint32_t codes_on(const struct ozhimka_chart *chart)
{
    struct ozhimka_marking none = mark(0, 0, 0);
    return ozhimka_count_open(chart, none).answer.code | ozhimka_finished(chart, none).answer.code
           | ozhimka_matching(chart, none).answer.code | ozhimka_derive(chart, book, sizeof book).code;
}

// An event's sets may have in common what they will.
static void try_common_events(struct ozhimka_chart chart)
{
    chart.conditions[0] = chart.responses[0] = chart.milestones[0] = chart.includes[0];
    expect(codes_on(&chart) == OZHIMKA_GRANTED, "sets that have in common what is included");
    chart.conditions[0] = chart.responses[0] = chart.milestones[0] = chart.excludes[0];
    expect(codes_on(&chart) == OZHIMKA_GRANTED, "sets that have in common what is excluded");
    chart.includes[0] = chart.excludes[0];
    expect(codes_on(&chart) == OZHIMKA_GRANTED, "what is both included and excluded");
}

// That each call on a chart gets every table as itself: event 0 has another event in each of its sets. Stepping the chart and its book end
// alike.
static void try_tables(void)
{
    struct ozhimka_chart chart = {.count = 6};
    struct ozhimka_marking marking = mark(2, 4, 39), early = mark(60, 0, 39);
    chart.conditions[0] = low(2), chart.milestones[0] = low(4), chart.responses[0] = low(8);
    chart.includes[0] = low(16), chart.excludes[0] = low(32);
    expect(is(ozhimka_execute(&chart, early, 0, 0).answer, OZHIMKA_CONDITION_WANTING, 1), "a condition is wanting");
    expect(is(ozhimka_execute(&chart, marking, 0, 0).answer, OZHIMKA_MILESTONE_WANTING, 2), "a milestone is wanting");
    expect(ozhimka_count_open(&chart, early).lowest == 1 && ozhimka_count_open(&chart, marking).lowest == 1, "what is open");
    expect(!ozhimka_matching(&chart, early).snapshot.marks[0] && !ozhimka_matching(&chart, marking).snapshot.marks[0],
           "what is open in the matching snapshot");
    expect(!ozhimka_finished(&chart, marking).yes && ozhimka_finished(&chart, early).yes, "what is finished");
    marking.pending = low(0);
    struct ozhimka_step step = ozhimka_execute(&chart, marking, 0, 0);
    expect(ozhimka_marking_same(step.marking, mark(3, 8, 23)), "what a step does");
    expect(is(ozhimka_derive(&chart, book, sizeof book), OZHIMKA_GRANTED, 0), "a book is derived");
    expect(is(ozhimka_check(book, ozhimka_book_length(book), 0, order, OZHIMKA_MAX_RULES), OZHIMKA_GRANTED, 0), "and passes");
    struct ozhimka_settled start = ozhimka_matching(&chart, marking), end = ozhimka_matching(&chart, step.marking);
    settled = ozhimka_complete(book, ozhimka_book_length(book), order, ozhimka_order_length(book, 0), start.snapshot, 0);
    expect(is(settled.answer, OZHIMKA_GRANTED, 0) && memcmp(&settled.snapshot, &end.snapshot, sizeof end.snapshot) == 0,
           "the book completes what the chart steps");
    try_common_events(chart);
}

// Three rules on mark 1, behind which stand two conditions: on completion of stage 0 set by condition 0 and cleared by its opposite, on completion of
// stage 1 set by condition 1. All are apart, which only the search by stage tells.
static void try_close_rules(const uint8_t *rest, size_t length)
{
    const uint8_t counts[8] = {2, 4, 3, 2, 2, 32, 62, 78};
    const uint8_t rules[30] = {1, 1, 1, 0, 0, 0, 0, 0, 1, 0, 1, 2, 0, 0, 0, 0, 0, 0, 1, 0, 1, 1, 1, 0, 1, 0, 1, 0, 1, 0};
    memset(book, 0, OZHIMKA_BOOK_HEADER);
    for (size_t i = 0; i < 8; i++)
        book[4 * i] = counts[i];
    memcpy(book + OZHIMKA_BOOK_HEADER, rules, sizeof rules);
    memcpy(book + OZHIMKA_BOOK_HEADER + sizeof rules, rest, length);
    book_length = OZHIMKA_BOOK_HEADER + sizeof rules + length;
    ordered = 2;
    expect_code("ozhimka_check with a search by stage", check, STACK_CHECK, OZHIMKA_GRANTED);
    expect_code("ozhimka_complete with a search by stage", complete, STACK_COMPLETE, OZHIMKA_GRANTED);
}

// What the header says of the rules that count for a stage, of their order, and of 29: on the request's two rules, of which each refers to
// what the other one sets, on completions of stages 0 and 1. Marks 2 and 3 are conditions 0 and 1.
static void try_stages(void)
{
    uint8_t two[OZHIMKA_BOOK_HEADER + 2 * OZHIMKA_RULE_SIZE + 2 * OZHIMKA_CONDITION_SIZE + 2 * OZHIMKA_WORD_SIZE] = {0};
    const uint8_t counts[8] = {2, 4, 2, 2, 2, 32, 52, 68}, rules[20] = {1, 1, 1, 0, 0, 0, 0, 0, 3, 0, 1, 1, 1, 0, 1, 0, 1, 0, 2, 0};
    const uint8_t rest[20] = {0, 0, 0, 0, 1, 0, 0, 0, 1, 0, 0, 0, 1, 0, 0, 0, 2, 0, 3, 0};
    uint32_t lent[3] = {7, 7, 7};
    struct ozhimka_snapshot start = open;
    start.marks[1] = start.marks[2] = true;
    for (size_t i = 0; i < 8; i++)
        two[4 * i] = counts[i];
    memcpy(two + OZHIMKA_BOOK_HEADER, rules, sizeof rules);
    memcpy(two + OZHIMKA_BOOK_HEADER + sizeof rules, rest, sizeof rest);
    for (uint32_t stage = 0; stage < 2; stage++) {
        expect(is(ozhimka_check(two, sizeof two, stage, NULL, 0), OZHIMKA_ORDER_ROOM, 1), "room for the stage's rules, not for all");
        expect(is(ozhimka_check(two, sizeof two, stage, lent, 3), OZHIMKA_GRANTED, 0), "no loop within one completion");
        expect(lent[0] == stage && lent[1] == 7 && lent[2] == 7, "the stage's order, and nothing behind it");
        expect(ozhimka_order_length(two, stage) == 1, "the length of a stage's order");
    }
    const uint32_t both[2] = {0, 1}, wrong[1] = {1}, right[1] = {0};
    expect(is(ozhimka_check(two, sizeof two, 2, NULL, 0), OZHIMKA_NO_SUCH_STAGE, 0), "no such stage, before room");
    expect(is(ozhimka_complete(two, sizeof two, both, 2, start, 2).answer, OZHIMKA_NO_SUCH_STAGE, 0), "no such stage, before the order");
    expect(is(ozhimka_complete(two, sizeof two, both, 2, start, 0).answer, OZHIMKA_ORDER_UNFIT, 0), "an order of the whole book");
    expect(is(ozhimka_complete(two, sizeof two, wrong, 1, start, 0).answer, OZHIMKA_ORDER_UNFIT, 0), "an order of another stage");
    struct ozhimka_settled next = ozhimka_complete(two, sizeof two, right, 1, start, 0);
    expect(is(next.answer, OZHIMKA_GRANTED, 0) && next.snapshot.marks[3], "a completion in the stage's order");
    memcpy(book, two, sizeof two); // each stage has a completion rule with a condition, so loops are searched for
    book_length = sizeof two;
    ordered = 1;
    expect_code("ozhimka_check with a search for loops", check, STACK_CHECK, OZHIMKA_GRANTED);
    expect_code("ozhimka_complete with a search for loops", complete, STACK_COMPLETE, OZHIMKA_GRANTED);
    try_close_rules(two + OZHIMKA_BOOK_HEADER + sizeof rules, sizeof rest);
    two[OZHIMKA_BOOK_HEADER] = OZHIMKA_TRIGGER_NONE;
    for (uint32_t stage = 0; stage < 3; stage++)
        expect(is(ozhimka_check(two, sizeof two, stage, NULL, 0), OZHIMKA_LOOP, 2), "a loop in one stage refuses the book for all");
}

// What the header says of a list: 28 and 38 before it, 29 and 30 within it with the position and the snapshot reached, and an empty list.
static void try_list(const uint8_t *three, size_t length, const uint8_t *lent, struct ozhimka_snapshot above, struct ozhimka_snapshot once)
{
    static const uint32_t many[OZHIMKA_MAX_LIST + 1];
    const uint32_t closed[3] = {0, 1, 0};
    struct ozhimka_list_completion all = ozhimka_complete_list(three, length, lent, 40, open, stages, 2);
    expect(is(all.answer, OZHIMKA_GRANTED, 0) && all.granted == 2 && memcmp(&all.snapshot, &once, sizeof open) == 0, "a list, whole");
    expect(all.evaluated == 2, "the rules of both completions");
    all = ozhimka_complete_list(three, length, lent, 40, open, stages, 4);
    expect(is(all.answer, OZHIMKA_NO_SUCH_STAGE, 2) && all.granted == 2 && memcmp(&all.snapshot, &once, sizeof open) == 0,
           "a stage that the book has not, and the snapshot reached");
    expect(all.evaluated == 2, "the rules of the granted ones");
    all = ozhimka_complete_list(three, length, lent, 40, open, closed, 3);
    expect(is(all.answer, OZHIMKA_STAGE_CLOSED, 1) && all.granted == 1 && memcmp(&all.snapshot, &once, sizeof open) == 0,
           "a closed stage, and the snapshot reached");
    expect(all.evaluated == 1, "the refused one evaluates nothing");
    all = ozhimka_complete_list(three, length, lent, 40, open, NULL, 0);
    expect(is(all.answer, OZHIMKA_GRANTED, 0) && all.granted == 0 && memcmp(&all.snapshot, &open, sizeof open) == 0, "an empty list");
    expect(all.evaluated == 0, "an empty list evaluates nothing");
    all = ozhimka_complete_list(three, length, lent, 40, open, many, OZHIMKA_MAX_LIST);
    expect(is(all.answer, OZHIMKA_GRANTED, 0) && all.evaluated == OZHIMKA_MAX_LIST, "the longest list");
    all = ozhimka_complete_list(three, length, lent, 40, open, many, OZHIMKA_MAX_LIST + 1);
    expect(is(all.answer, OZHIMKA_LONG_LIST, OZHIMKA_MAX_LIST + 1) && all.granted == 0 && all.evaluated == 0, "a list that is too long");
    all = ozhimka_complete_list(three, length, lent, 40, above, many, OZHIMKA_MAX_LIST + 1);
    expect(is(all.answer, OZHIMKA_MARK_ABOVE, 0) && memcmp(&all.snapshot, &above, sizeof open) == 0, "a mark above, before 38");
    expect(is(ozhimka_complete_list(three, length, lent, 39, above, stages, 4).answer, OZHIMKA_INDEX_UNFIT, 0), "a byte less, before 28");
}

// What the header says of the index: its length and fields, on three stages of which no rule counts for the second; which one is fit; the
// order of refusals; and that a completion through it is one with the order from the check.
static void try_index(void)
{
    uint8_t three[OZHIMKA_BOOK_HEADER + 2 * OZHIMKA_RULE_SIZE] = {0}, lent[44];
    const uint8_t counts[8] = {3, 4, 2, 0, 0, 32, 52, 52}, rules[20] = {1, 0, 1, 0, 2, 0, 0, 0, 3, 0, 1, 0, 1, 0, 0, 0, 0, 0, 3, 0};
    const uint8_t numbers[10] = {3, 2, 32, 1, 36, 0, 36, 1, 1, 0};
    struct ozhimka_snapshot above = open;
    uint32_t lone[1];
    for (size_t i = 0; i < 8; i++)
        three[4 * i] = counts[i];
    memcpy(three + OZHIMKA_BOOK_HEADER, rules, sizeof rules);
    memset(lent, PAINT, sizeof lent);
    expect(ozhimka_index_length(three) == 40, "the length of an index");
    expect(is(ozhimka_build_index(three, sizeof three, lent, 39), OZHIMKA_INDEX_ROOM, 40) && lent[0] == PAINT, "room one byte short");
    expect(is(ozhimka_build_index(three, sizeof three, lent, sizeof lent), OZHIMKA_GRANTED, 0), "an index is built");
    for (size_t i = 0; i < 10; i++)
        expect(get32(lent + 4 * i) == numbers[i], "the index's numbers and orders");
    expect(lent[40] == PAINT, "and nothing behind them");
    above.marks[4] = true;
    expect(is(ozhimka_complete_indexed(three, sizeof three, lent, 41, above, 9).answer, OZHIMKA_INDEX_UNFIT, 0), "a byte more, before 28");
    expect(is(ozhimka_complete_indexed(three, sizeof three, lent, 40, above, 9).answer, OZHIMKA_MARK_ABOVE, 0), "a mark above, before 29");
    expect(is(ozhimka_complete_indexed(three, sizeof three, lent, 40, open, 3).answer, OZHIMKA_NO_SUCH_STAGE, 0), "no such stage");
    struct ozhimka_indexed_completion next = ozhimka_complete_indexed(three, sizeof three, lent, 40, open, 1);
    expect(is(next.answer, OZHIMKA_STAGE_CLOSED, 0) && next.evaluated == 0, "a closed stage, and no rule evaluated");
    expect(is(ozhimka_check(three, sizeof three, 0, lone, 1), OZHIMKA_GRANTED, 0), "the check's order");
    struct ozhimka_settled along = ozhimka_complete(three, sizeof three, lone, 1, open, 0);
    next = ozhimka_complete_indexed(three, sizeof three, lent, 40, open, 0);
    expect(is(next.answer, OZHIMKA_GRANTED, 0) && memcmp(&next.snapshot, &along.snapshot, sizeof open) == 0, "the same snapshot");
    expect(next.evaluated == 1, "the rules of the stage's order, not of the book");
    try_list(three, sizeof three, lent, above, next.snapshot);
    lent[36] = 1; // the order of the last stage, which is not the one completed
    expect(is(ozhimka_complete_indexed(three, sizeof three, lent, 40, open, 0).answer, OZHIMKA_INDEX_UNFIT, 0), "another stage's order");
}

static bool reaches(struct ozhimka_replayed told, uint64_t count, uint32_t code, struct ozhimka_marking marking, bool finished)
{
    return is(told.answer, OZHIMKA_GRANTED, 0) && told.steps == count && told.code == code && ozhimka_marking_same(told.marking, marking)
           && told.finished == finished;
}

static bool strikes(struct ozhimka_struck struck, uint32_t code, uint32_t place, struct ozhimka_marking marking)
{
    return is(struck.answer, code, place) && ozhimka_marking_same(struck.marking, marking);
}

// A step that is not allowed, by code, behind one that is.
static void try_stops(const struct ozhimka_chart *chart, struct ozhimka_marking start)
{
    const struct ozhimka_recorded stops[6] = {{4, 0}, {UINT32_MAX, 9}, {2, 8}, {3, 4}, {3, 5}, {1, 0}};
    const uint32_t codes[6] = {OZHIMKA_NO_SUCH_EVENT, OZHIMKA_NO_SUCH_EVENT,  OZHIMKA_NOT_PERMITTED,
                               OZHIMKA_NOT_PERMITTED, OZHIMKA_NOT_INCLUDED, OZHIMKA_CONDITION_WANTING};
    for (int i = 0; i < 6; i++) {
        struct ozhimka_recorded record[3] = {{2, 0}, stops[i], {0, 0}};
        struct ozhimka_marking there = mark(4, 0, 7);
        expect(reaches(ozhimka_replay(chart, start, record, 3), 1, codes[i], there, true), "a step that is not allowed");
        expect(strikes(ozhimka_strike(chart, start, record, 3, 2), codes[i], 1, start), "a step that fails before the struck one");
        expect(strikes(ozhimka_strike(chart, start, record, 3, 0), codes[i], 1, start), "one behind it, by its old position");
        expect(is(ozhimka_strike(chart, start, record, 3, 1).answer, OZHIMKA_GRANTED, 0), "the struck step is not judged");
    }
}

// What the header says of records: on event 0, which makes 1 pending and is a condition of it; 2 is free, and 3 for role 5 alone and out.
static void try_records(void)
{
    struct ozhimka_chart chart = {.count = 4}, unfit = {.count = 0};
    struct ozhimka_marking start = mark(0, 0, 7), beyond = mark(16, 0, 7), first = mark(1, 2, 7), both = mark(5, 2, 7), end = mark(7, 0, 7);
    struct ozhimka_recorded made[3] = {{0, 0}, {2, 7}, {1, 1}};
    chart.conditions[1] = low(1), chart.responses[0] = low(2), chart.roles[3] = 32;
    expect(reaches(ozhimka_replay(&chart, start, NULL, 0), 0, 0, start, true), "an empty record");
    expect(reaches(ozhimka_replay(&chart, start, made, 2), 2, 0, both, false), "a record that is allowed, not finished");
    expect(reaches(ozhimka_replay(&chart, start, made, 3), 3, 0, end, true), "a record that is allowed, finished");
    try_stops(&chart, start);
    expect(strikes(ozhimka_strike(&chart, start, made, 3, 0), OZHIMKA_CONDITION_WANTING, 2, start), "a step that the struck one allowed");
    expect(strikes(ozhimka_strike(&chart, start, made, 2, 1), OZHIMKA_GRANTED, 0, first), "the marking of the shortened record");
    expect(strikes(ozhimka_strike(&chart, start, made, 3, 3), OZHIMKA_NO_SUCH_POSITION, 0, start), "no such position");
    expect(strikes(ozhimka_strike(&chart, start, NULL, 0, 0), OZHIMKA_NO_SUCH_POSITION, 0, start), "no position of an empty record");
    expect(strikes(ozhimka_strike(&chart, beyond, made, 3, 3), OZHIMKA_UNFIT, 0, beyond), "14 before 36");
    struct ozhimka_replayed refused = ozhimka_replay(&chart, beyond, made, 3);
    expect(is(refused.answer, OZHIMKA_UNFIT, 0) && refused.steps == 0 && refused.code == 0 && !refused.finished
               && ozhimka_marking_same(refused.marking, beyond),
           "an unfit marking");
    expect(is(ozhimka_replay(&unfit, start, made, 3).answer, OZHIMKA_UNFIT, 0), "an unfit chart");
    expect(ozhimka_replay_in(chart.count, chart.conditions, chart.responses, chart.milestones, chart.includes, chart.excludes, chart.roles,
                             start, &made[0].event, 3)
                   .steps
               == 1,
           "an odd last number is no step");
}

// What the header says of one event in a marking: the open test's code and place, and both sets, also where the step, a replay and a strike
// hand them on.
static void expect_blocked(const struct ozhimka_chart *chart, struct ozhimka_marking marking, uint32_t event, uint32_t code, uint32_t place,
                           uint64_t conditions, uint64_t milestones)
{
    struct ozhimka_recorded record[2] = {{event, 0}, {event, 0}};
    struct ozhimka_tested open = ozhimka_open_test(chart, marking, event);
    struct ozhimka_step step = ozhimka_execute(chart, marking, event, 0);
    struct ozhimka_replayed told = ozhimka_replay(chart, marking, record, 1);
    struct ozhimka_struck struck = ozhimka_strike(chart, marking, record, 2, 1);
    expect(is(open.answer, code, place) && is_low(open.conditions, conditions) && is_low(open.milestones, milestones), "what blocks an event");
    expect(is(step.answer, code, place) && is_low(step.conditions, conditions) && is_low(step.milestones, milestones), "what blocks a step");
    expect(ozhimka_marking_same(step.marking, marking), "a refused step changes nothing");
    expect(is_low(told.conditions, conditions) && is_low(told.milestones, milestones), "what blocks a record");
    expect(is_low(struck.conditions, conditions) && is_low(struck.milestones, milestones), "what blocks a record without a step");
}

// Event 0 waits for conditions 1, 2 and 3 and for milestones 2, 3 and 4; 4 is out.
static void try_blocking(void)
{
    struct ozhimka_chart chart = {.count = 6}, unfit = {.count = 0};
    const struct ozhimka_marking none = mark(0, 28, 15), one = mark(2, 28, 15), late = mark(14, 28, 15), last = mark(14, 24, 15);
    const struct ozhimka_marking out = mark(0, 28, 14), beyond = mark(64, 28, 15);
    chart.conditions[0] = low(14), chart.milestones[0] = low(28);
    expect_blocked(&chart, none, 0, OZHIMKA_CONDITION_WANTING, 1, 14, 12);
    expect_blocked(&chart, one, 0, OZHIMKA_CONDITION_WANTING, 2, 12, 12);
    expect_blocked(&chart, late, 0, OZHIMKA_MILESTONE_WANTING, 2, 0, 12);
    expect_blocked(&chart, last, 0, OZHIMKA_MILESTONE_WANTING, 3, 0, 8);
    expect_blocked(&chart, out, 0, OZHIMKA_NOT_INCLUDED, 0, 0, 0);
    expect_blocked(&chart, none, 6, OZHIMKA_NO_SUCH_EVENT, 0, 0, 0);
    expect_blocked(&chart, beyond, 6, OZHIMKA_UNFIT, 0, 0, 0);
    expect_blocked(&unfit, none, 0, OZHIMKA_UNFIT, 0, 0, 0);
    struct ozhimka_marking cleared = mark(14, 16, 15);
    struct ozhimka_tested open = ozhimka_open_test(&chart, cleared, 0);
    expect(is(open.answer, OZHIMKA_GRANTED, 0) && ozhimka_set_empty(open.conditions) && ozhimka_set_empty(open.milestones), "an event that nothing blocks");
    chart.conditions[0] = low(0), cleared.pending = low(28);
    expect_blocked(&chart, cleared, 0, OZHIMKA_MILESTONE_WANTING, 2, 0, 12);
    chart.roles[0] = 2;
    struct ozhimka_step step = ozhimka_execute(&chart, cleared, 0, 0);
    expect(is(step.answer, OZHIMKA_NOT_PERMITTED, 0) && ozhimka_set_empty(step.conditions) && ozhimka_set_empty(step.milestones), "a role that is not permitted");
    expect(is(ozhimka_open_test(&chart, cleared, 0).answer, OZHIMKA_MILESTONE_WANTING, 2), "the open test asks for no role");
}

static bool same_relations(const struct ozhimka_chart *one, const struct ozhimka_chart *other)
{
    return one->count == other->count && memcmp(one->conditions, other->conditions, sizeof one->conditions) == 0
           && memcmp(one->responses, other->responses, sizeof one->responses) == 0
           && memcmp(one->milestones, other->milestones, sizeof one->milestones) == 0
           && memcmp(one->includes, other->includes, sizeof one->includes) == 0
           && memcmp(one->excludes, other->excludes, sizeof one->excludes) == 0;
}

// Field by field: the bytes between the count and the first table may be any.
static bool is_refused_back(size_t length, uint32_t code)
{
    static const struct ozhimka_chart empty;
    struct ozhimka_chart_behind back = ozhimka_read_back(book, length);
    return is(back.answer, code, 0) && same_relations(&back.chart, &empty) && memcmp(back.chart.roles, empty.roles, sizeof empty.roles) == 0;
}

// That each table comes back as itself, roles do not, and what is derived from it is the same book; and that no other book is taken, though it
// passes the check: with a mark more, or with the senses of the last two rules exchanged.
static void try_read_back(void)
{
    static uint8_t again[OZHIMKA_MAX_DERIVED];
    struct ozhimka_chart chart = {.count = 6}, lost = chart;
    chart.conditions[0] = low(2), chart.milestones[1] = low(4), chart.responses[2] = low(8);
    chart.includes[3] = low(16), chart.excludes[4] = low(33);
    chart.roles[0] = 255;
    expect(is(ozhimka_derive(&chart, book, sizeof book), OZHIMKA_GRANTED, 0), "a book to read back");
    size_t length = ozhimka_book_length(book);
    struct ozhimka_chart_behind back = ozhimka_read_back(book, length);
    expect(is(back.answer, OZHIMKA_GRANTED, 0) && same_relations(&back.chart, &chart), "the chart behind a book");
    expect(memcmp(back.chart.roles, lost.roles, sizeof lost.roles) == 0, "and no roles");
    expect(is(ozhimka_derive(&back.chart, again, sizeof again), OZHIMKA_GRANTED, 0) && memcmp(again, book, length) == 0, "the same book again");
    book[4]++;
    expect(is_refused_back(length, OZHIMKA_NOT_DERIVED), "a mark more");
    book[4]--;
    expect(is_refused_back(length - 1, OZHIMKA_BOOK_LENGTH), "a byte less, before 33");
    uint8_t *sense = book + OZHIMKA_BOOK_HEADER + OZHIMKA_RULE_SIZE * (ozhimka_book_counts(book).rules - 1) + 1;
    sense[0] = OZHIMKA_SENSE_AS_WRITTEN, sense[-OZHIMKA_RULE_SIZE] = OZHIMKA_SENSE_NEGATED;
    expect(is(ozhimka_check(book, length, 0, order, OZHIMKA_MAX_RULES), OZHIMKA_GRANTED, 0), "a book that passes");
    expect(is_refused_back(length, OZHIMKA_NOT_DERIVED), "and is not derived");
}

// Nothing is written, and no mark has a number.
static void expect_no_smaller(const struct ozhimka_chart *chart, struct ozhimka_marking start, size_t length, uint32_t code, size_t place)
{
    uint8_t lent[200];
    memset(lent, PAINT, sizeof lent);
    struct ozhimka_smaller smaller = ozhimka_derive_smaller(chart, start, lent, length);
    expect(is(smaller.answer, code, place), "a smaller book is refused");
    for (size_t i = 0; i < sizeof lent; i++)
        expect(lent[i] == PAINT, "a refused smaller book writes nothing");
    for (size_t m = 0; m < OZHIMKA_MAX_MARKS; m++)
        expect(smaller.table[m] == OZHIMKA_NO_MARK, "a refused smaller book has no table");
}

// A snapshot of the full book through the table.
static struct ozhimka_snapshot through(const struct ozhimka_smaller *smaller, struct ozhimka_snapshot full)
{
    struct ozhimka_snapshot kept = {{false}};
    for (size_t m = 0; m < OZHIMKA_MAX_MARKS; m++)
        if (smaller->table[m] != OZHIMKA_NO_MARK)
            kept.marks[smaller->table[m]] = full.marks[m];
    return kept;
}

// Completes both stages and then the first one again, which is closed by then, through the full book and the smaller one.
static void try_both_books(const struct ozhimka_chart *chart, struct ozhimka_marking start, const struct ozhimka_smaller *smaller,
                           const uint8_t *small, size_t length)
{
    static uint32_t small_order[OZHIMKA_MAX_RULES];
    struct ozhimka_snapshot full = ozhimka_matching(chart, start).snapshot, kept = through(smaller, full);
    const uint32_t turns[3] = {0, 1, 0};
    expect(is(ozhimka_derive(chart, book, sizeof book), OZHIMKA_GRANTED, 0), "the full book");
    for (size_t i = 0; i < 3; i++) {
        uint32_t stage = turns[i];
        expect(is(ozhimka_check(small, length, stage, small_order, OZHIMKA_MAX_RULES), OZHIMKA_GRANTED, 0), "a smaller book passes");
        expect(is(ozhimka_check(book, ozhimka_book_length(book), stage, order, OZHIMKA_MAX_RULES), OZHIMKA_GRANTED, 0), "and the full one");
        struct ozhimka_settled one = ozhimka_complete(book, ozhimka_book_length(book), order, ozhimka_order_length(book, stage), full, stage);
        struct ozhimka_settled two = ozhimka_complete(small, length, small_order, ozhimka_order_length(small, stage), kept, stage);
        expect(is(one.answer, i < 2 ? OZHIMKA_GRANTED : OZHIMKA_STAGE_CLOSED, 0) && is(two.answer, one.answer.code, 0), "both grant, or refuse");
        full = one.snapshot, kept = through(smaller, full);
        expect(memcmp(&kept, &two.snapshot, sizeof kept) == 0, "stages and kept marks are those of the full book");
    }
}

// The smaller book of the paper's chart, whole: executed 1, included 1 and answered 0 go.
static void put_smaller(uint8_t *at)
{
    const uint8_t counts[8] = {2, 5, 8, 2, 5, 32, 112, 128}, records[4] = {0, 1, 1, 4};
    const uint8_t rules[80] = {1, 0, 0, 0, 0, 0, 0, 0, 4, 0, 1, 0, 1, 0, 0, 0, 0, 0, 2, 0, 1, 0, 0, 0, 1, 0, 0, 0, 3, 0, 1, 0, 1, 0, 1, 0, 0, 0, 4, 0,
                               0, 1, 1, 0, 0, 0, 0, 0, 0, 0, 0, 2, 0, 0, 0, 0, 0, 0, 0, 0, 0, 1, 1, 0, 0, 0, 1, 0, 1, 0, 0, 2, 0, 0, 0, 0, 1, 0, 1, 0};
    const uint16_t text[5] = {3, 3, OZHIMKA_WORD_NOT, 2, OZHIMKA_WORD_OR};
    memset(at, 0, 128);
    for (size_t i = 0; i < 8; i++)
        at[4 * i] = counts[i];
    memcpy(at + OZHIMKA_BOOK_HEADER, rules, sizeof rules);
    for (size_t i = 0; i < 4; i++)
        at[112 + 4 * i] = records[i];
    for (size_t i = 0; i < 5; i++)
        put16(at + 128 + 2 * i, text[i]);
}

// What the header says of smaller books, on the paper's chart: each refusal, the bytes, the table, and completions beside the full book. Then the
// same chart with relations that keep the three marks.
static void try_smaller(void)
{
    enum { NONE = OZHIMKA_NO_MARK, LENGTH = 138 };
    const uint16_t table[8] = {0, 1, 2, NONE, 3, NONE, NONE, 4};
    struct ozhimka_chart chart = {.count = 2}, unfit = {.count = 0};
    struct ozhimka_marking start = mark(0, 2, 3), beyond = mark(0, 2, 7);
    uint8_t lent[200], wanted[LENGTH];
    chart.conditions[1] = low(1), chart.responses[0] = low(2), chart.excludes[1] = low(1);
    expect_no_smaller(&chart, beyond, 0, OZHIMKA_UNFIT, 0);
    expect_no_smaller(&unfit, start, sizeof lent, OZHIMKA_UNFIT, 0);
    expect_no_smaller(&chart, start, LENGTH - 1, OZHIMKA_BOOK_ROOM, LENGTH);
    put_smaller(wanted);
    memset(lent, PAINT, sizeof lent);
    struct ozhimka_smaller smaller = ozhimka_derive_smaller(&chart, start, lent, sizeof lent);
    expect(is(smaller.answer, OZHIMKA_GRANTED, 0) && ozhimka_book_length(lent) == LENGTH, "a smaller book");
    expect(memcmp(lent, wanted, LENGTH) == 0 && lent[LENGTH] == PAINT, "its bytes, and the room behind it");
    for (size_t m = 0; m < OZHIMKA_MAX_MARKS; m++)
        expect(smaller.table[m] == (m < 8 ? table[m] : NONE), "the numbers of its marks");
    try_both_books(&chart, start, &smaller, lent, LENGTH);
    expect(is(ozhimka_read_back(lent, LENGTH).answer, OZHIMKA_NOT_DERIVED, 0), "it is no derived book");
    chart.conditions[0] = low(2), chart.includes[0] = low(2), chart.responses[1] = low(1);
    expect(ozhimka_derive_smaller(&chart, start, lent, sizeof lent).table[7] == 7, "a condition, an include and a response keep their marks");
    expect(is(ozhimka_read_back(lent, ozhimka_book_length(lent)).answer, OZHIMKA_GRANTED, 0), "where no mark goes, it is the full book");
}

// What keeps a mark of a single event: its start, and what it is to itself. Two events that nothing relates leave nothing but their stages.
static void try_kept_marks(void)
{
    const struct ozhimka_marking in = mark(3, 0, 3), alone = mark(1, 0, 1), out = mark(0, 1, 0);
    struct ozhimka_chart bare = {.count = 2}, own = {.count = 1};
    uint8_t lent[200];
    struct ozhimka_smaller smaller = ozhimka_derive_smaller(&bare, in, lent, OZHIMKA_BOOK_HEADER + 2 * OZHIMKA_RULE_SIZE);
    expect(is(smaller.answer, OZHIMKA_GRANTED, 0) && smaller.table[1] == 1 && smaller.table[2] == OZHIMKA_NO_MARK, "nothing but stages");
    struct ozhimka_counts counts = ozhimka_book_counts(lent);
    expect(counts.marks == 2 && counts.rules == 2 && counts.conditions == 0 && counts.words == 0, "and a rule for each");
    expect(lent[32] == OZHIMKA_TRIGGER_NONE && lent[33] == OZHIMKA_SENSE_NONE && lent[34] == OZHIMKA_EFFECT_SET, "without trigger and condition");
    smaller = ozhimka_derive_smaller(&own, out, lent, sizeof lent);
    expect(smaller.table[1] == OZHIMKA_NO_MARK && smaller.table[2] == 1 && smaller.table[3] == 2, "excluded and pending at the start");
    own.conditions[0] = own.excludes[0] = own.responses[0] = low(1);
    smaller = ozhimka_derive_smaller(&own, alone, lent, sizeof lent);
    expect(smaller.table[1] == 1 && smaller.table[2] == 2 && smaller.table[3] == 3, "what an event is to itself counts");
}

// The image of `nodes` nodes and `relations` relations; its length.
static size_t draw(uint8_t *at, size_t nodes, const uint16_t (*node)[2], size_t relations, const uint16_t (*relation)[3])
{
    size_t next = OZHIMKA_CHART_HEADER;
    put16(at, nodes);
    put16(at + 2, relations);
    put16(at + 4, OZHIMKA_CHART_HEADER);
    put16(at + 6, OZHIMKA_CHART_HEADER + OZHIMKA_NODE_SIZE * nodes);
    for (size_t i = 0; i < 2 * nodes; i++, next += 2)
        put16(at + next, node[i / 2][i % 2]);
    for (size_t i = 0; i < 3 * relations; i++, next += 2)
        put16(at + next, relation[i / 3][i % 3]);
    return next;
}

// Nothing is written, whatever the code.
static void expect_unmended(size_t length, size_t chart_room, size_t list_room, uint32_t code, size_t place, size_t other)
{
    memset(mended_image, PAINT, sizeof mended_image);
    memset(changes, PAINT, sizeof changes);
    struct ozhimka_mended mended = ozhimka_mend(image, length, mended_image, chart_room, changes, list_room);
    expect(mended.answer.code == code && mended.answer.place == place && mended.answer.other == other && mended.entries == 0,
           "a chart is not mended");
    for (size_t i = 0; i < sizeof changes; i++)
        if (changes[i] != PAINT || (i < sizeof mended_image && mended_image[i] != PAINT)) {
            expect(false, "a refusal writes nothing");
            return;
        }
}

// Nodes 0 and 1 loop, and node 3 with itself: 1 and 3 are events then, and 0 is a group. Node 2 has a parent that does not exist and all
// flags. Relations 1 and 2 are bad.
static void try_mending(void)
{
    enum { NONE = OZHIMKA_NO_PARENT, ENTRIES = 7, LISTED = ENTRIES * OZHIMKA_CHANGE_SIZE };
    const uint16_t nodes[4][2] = {{1, 4}, {0, 260}, {9, 767}, {3, 6}}, relations[4][3] = {{0, 2, 0}, {5, 0, 1}, {1, 2, 5}, {2, 3, 4}};
    const uint16_t right[4][2] = {{NONE, 0}, {0, 260}, {NONE, 519}, {NONE, 6}}, left[2][3] = {{0, 2, 0}, {2, 3, 4}};
    const uint16_t entry[ENTRIES][5] = {{1, 2, 9, 767, 0}, {2, 2, NONE, 767, 0}, {3, 0, 1, 4, 0}, {3, 3, 3, 6, 0},
                                        {4, 0, NONE, 4, 0}, {5, 1, 5, 0, 1}, {5, 2, 1, 2, 5}};
    static uint8_t wanted[OZHIMKA_MAX_CHART], list[LISTED];
    static const uint16_t many[OZHIMKA_MAX_EVENTS + 1][2];
    size_t length = draw(image, 4, nodes, 4, relations), need = draw(wanted, 4, right, 2, left);
    for (size_t i = 0; i < 5 * ENTRIES; i++)
        put16(list + 2 * i, entry[i / 5][i % 5]);
    expect_unmended(length, need - 1, LISTED, OZHIMKA_MEND_ROOM, need, LISTED);
    expect_unmended(length, need, LISTED - 1, OZHIMKA_MEND_ROOM, need, LISTED);
    expect_unmended(length - 1, need, LISTED, OZHIMKA_CHART_LENGTH, 0, 0);
    struct ozhimka_mended mended = ozhimka_mend(image, length, mended_image, need, changes, LISTED);
    expect(is(mended.answer, OZHIMKA_GRANTED, 0) && mended.entries == ENTRIES, "a chart is mended");
    expect(memcmp(mended_image, wanted, need) == 0 && mended_image[need] == PAINT, "the mended chart, and the room behind it");
    expect(memcmp(changes, list, LISTED) == 0 && changes[LISTED] == PAINT, "the list of changes, and the room behind it");
    expect(is(ozhimka_read_chart(mended_image, need).answer, OZHIMKA_GRANTED, 0), "what is mended is accepted");
    mended = ozhimka_mend(wanted, need, mended_image, need, NULL, 0);
    expect(is(mended.answer, OZHIMKA_GRANTED, 0) && mended.entries == 0 && memcmp(mended_image, wanted, need) == 0,
           "and mended again it is the same");
    length = draw(image, OZHIMKA_MAX_EVENTS + 1, many, 0, relations);
    put16(image + OZHIMKA_CHART_HEADER, NONE);
    expect(is(ozhimka_mend(image, length, mended_image, length, changes, LISTED).answer, OZHIMKA_GRANTED, 0), "256 events in a group");
    put16(image + OZHIMKA_CHART_HEADER + OZHIMKA_NODE_SIZE, OZHIMKA_MAX_EVENTS + 1);
    for (size_t i = 2; i <= OZHIMKA_MAX_EVENTS; i++)
        put16(image + OZHIMKA_CHART_HEADER + OZHIMKA_NODE_SIZE * i, OZHIMKA_MAX_EVENTS + 1);
    expect_unmended(length, 0, 0, OZHIMKA_MANY_EVENTS, OZHIMKA_MAX_EVENTS + 1, 0);
}

// The most changes there can be: each node has bad flags, node n is the parent of node n + 1 and the last one's parent does not exist; all
// relations are bad.
static void try_most_changes(void)
{
    static uint16_t nodes[OZHIMKA_MAX_NODES][2], relations[OZHIMKA_MAX_RELATIONS][3];
    for (size_t i = 0; i < OZHIMKA_MAX_NODES; i++)
        nodes[i][0] = (uint16_t)(i + 1), nodes[i][1] = 255;
    for (size_t i = 0; i < OZHIMKA_MAX_RELATIONS; i++)
        relations[i][2] = OZHIMKA_KINDS;
    size_t length = draw(image, OZHIMKA_MAX_NODES, (const uint16_t(*)[2])nodes, OZHIMKA_MAX_RELATIONS, (const uint16_t(*)[3])relations);
    struct ozhimka_mended mended = ozhimka_mend(image, length, mended_image, length, changes, sizeof changes);
    expect(is(mended.answer, OZHIMKA_GRANTED, 0) && mended.entries == OZHIMKA_MAX_CHANGES, "the most changes");
    size_t need = OZHIMKA_CHART_HEADER + OZHIMKA_NODE_SIZE * OZHIMKA_MAX_NODES;
    expect_unmended(length, need, sizeof changes - 1, OZHIMKA_MEND_ROOM, need, sizeof changes);
}

static void try_reasons(void)
{
    const char *unknown = ozhimka_reason(UINT32_MAX);
    for (uint32_t code = 0; code <= OZHIMKA_LONG_LIST + 1; code++) {
        bool known = code <= OZHIMKA_BOOK_ROOM || (code >= OZHIMKA_BOOK_SHORT && code <= OZHIMKA_LONG_LIST);
        expect((strcmp(ozhimka_reason(code), unknown) != 0) == known, "words for each code and for no other number");
    }
}

int main(int argc, char **argv)
{
    (void)argv;
    telling = argc > 1;
    setvbuf(stdout, NULL, _IOLBF, BUFSIZ);
    open.marks[0] = true;
    bare.count = OZHIMKA_MAX_EVENTS;
    done = mark(0, 0, 0);
    done.executed = done.included = ozhimka_set_below(OZHIMKA_MAX_EVENTS);
    try_stack();
    try_null();
    try_high_rules();
    try_sets();
    try_limits();
    try_none();
    try_roles();
    try_tables();
    try_stages();
    try_index();
    try_records();
    try_blocking();
    try_read_back();
    try_smaller();
    try_kept_marks();
    try_mending();
    try_most_changes();
    try_reasons();
    return failures == 0 ? 0 : 1;
}
