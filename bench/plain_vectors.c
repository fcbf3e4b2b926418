// Speaks the protocol of the program `vectors` over the plain C calls, so that the model can check them: those of plain.c, or, compiled with
// -DLEAN, the calls on books of lean.c.
#include "lean.h"

#include <inttypes.h>
#include <stdarg.h>
#include <stdio.h>
#include <stdlib.h>
#include <string.h>

enum { MAX_BODY = 8388608, MAX_BYTES = 4000000, MAX_NUMBERS = 200000, MAX_STEPS = 200000, FILL = 165 };
enum { SET = 8 * SET_WORDS, FLAT = 4 + 5 * MAX_EVENTS * SET + MAX_EVENTS, MARKING = 3 * SET, SNAPSHOT = MAX_MARKS / 8 };
enum { LISTING = 18, LISTED_CHART = 25097, LISTED_BOOK = 49152, AND = 65533, OR = 65534, NOT = 65535 };

#ifdef LEAN
#define CHECK lean_check
#define COMPLETE lean_complete
#define BUILD_INDEX lean_build_index
#define COMPLETE_INDEXED lean_complete_indexed
#define COMPLETE_LIST lean_complete_list
#else
#define CHECK plain_check
#define COMPLETE plain_complete
#define BUILD_INDEX plain_build_index
#define COMPLETE_INDEXED plain_complete_indexed
#define COMPLETE_LIST plain_complete_list
#endif

static uint8_t body[MAX_BODY];

static uint64_t number(const uint8_t *at, int bytes)
{
    uint64_t value = 0;
    for (int i = bytes; i-- > 0;)
        value = value << 8 | at[i];
    return value;
}

static uint32_t adler(const uint8_t *at, size_t length, uint32_t sum)
{
    uint32_t a = sum & 0xFFFF, b = sum >> 16;
    for (size_t i = 0; i < length; i++) {
        a = (a + at[i]) % 65521;
        b = (b + a) % 65521;
    }
    return b << 16 | a;
}

static void say(const char *name, struct answer answer)
{
    printf("%s %" PRIu32 " %" PRIu32 " %" PRIu32, name, answer.code, answer.place, answer.other);
}

static void say_set(struct set set)
{
    for (int w = 0; w < SET_WORDS; w++)
        printf(" %" PRIu64, set.word[w]);
}

static void say_marking(struct marking marking)
{
    say_set(marking.executed);
    say_set(marking.pending);
    say_set(marking.included);
}

static void say_sets(struct set conditions, struct set milestones)
{
    say_set(conditions);
    say_set(milestones);
}

static void say_relations(const struct flat_chart *chart, uint32_t e)
{
    say_set(chart->conditions[e]);
    say_set(chart->responses[e]);
    say_set(chart->milestones[e]);
    say_set(chart->includes[e]);
    say_set(chart->excludes[e]);
}

static void say_snapshot(const struct snapshot *snapshot)
{
    for (int w = 0; w < MARK_WORDS; w++) {
        uint64_t word = 0;
        for (int i = 0; i < 64; i++)
            word |= (uint64_t)snapshot->marks[64 * w + i] << i;
        printf(" %" PRIu64, word);
    }
}

// Room of just this size, so that a sanitizer sees a step past its end.
static void *filled(size_t bytes)
{
    void *room = malloc(bytes + (bytes == 0));
    if (room == NULL)
        exit(1);
    memset(room, FILL, bytes);
    return room;
}

static struct set set_at(const uint8_t *at)
{
    struct set set;
    for (int w = 0; w < SET_WORDS; w++)
        set.word[w] = number(at + 8 * w, 8);
    return set;
}

static struct flat_chart flat_at(const uint8_t *at)
{
    struct flat_chart chart = {.count = (uint32_t)number(at, 4)};
    struct set *tables[5] = {chart.conditions, chart.responses, chart.milestones, chart.includes, chart.excludes};
    for (int t = 0; t < 5; t++)
        for (int e = 0; e < MAX_EVENTS; e++)
            tables[t][e] = set_at(at + 4 + SET * (MAX_EVENTS * t + e));
    memcpy(chart.roles, at + FLAT - MAX_EVENTS, MAX_EVENTS);
    return chart;
}

static struct marking marking_at(const uint8_t *at)
{
    return (struct marking){set_at(at), set_at(at + SET), set_at(at + 2 * SET)};
}

static void read_chart(const uint8_t *image, size_t length)
{
    struct reading reading = plain_read_chart(image, length);
    say("read", reading.answer);
    printf(" %" PRIu32, reading.chart.count);
    say_marking(reading.start);
    for (uint32_t e = 0; e < reading.chart.count; e++) {
        say_relations(&reading.chart, e);
        printf(" %u", (unsigned)reading.chart.roles[e]);
    }
}

static bool on_chart(int operation, const uint8_t *at, size_t length)
{
    if (length < (size_t)(FLAT + MARKING + (operation == 2 ? 8 : operation == 14 ? 4 : 0)))
        return false;
    struct flat_chart chart = flat_at(at);
    struct marking marking = marking_at(at + FLAT);
    const uint8_t *numbers = at + FLAT + MARKING;
    if (operation == 2) {
        struct step step = plain_execute(&chart, marking, (uint32_t)number(numbers, 4), (uint32_t)number(numbers + 4, 4));
        say("execute", step.answer);
        say_marking(step.marking);
        say_sets(step.conditions, step.milestones);
    } else if (operation == 14) {
        struct open_test open = plain_open_test(&chart, marking, (uint32_t)number(numbers, 4));
        say("open", open.answer);
        say_sets(open.conditions, open.milestones);
    } else if (operation == 3) {
        struct open_count count = plain_count_open(&chart, marking);
        say("count", count.answer);
        printf(" %" PRIu32 " %" PRIu32, count.open, count.lowest);
    } else if (operation == 4) {
        struct finish finish = plain_finished(&chart, marking);
        say("finished", finish.answer);
        printf(finish.yes ? " yes" : " no");
    } else {
        struct settled settled = plain_matching(&chart, marking);
        say("matching", settled.answer);
        say_snapshot(&settled.snapshot);
    }
    return true;
}

static bool derive(const uint8_t *at, size_t length)
{
    if (length < 4 + FLAT || number(at, 4) > MAX_BYTES)
        return false;
    size_t bytes = number(at, 4);
    struct flat_chart chart = flat_at(at + 4);
    uint8_t *room = filled(bytes);
    say("derive", plain_derive(&chart, room, bytes));
    printf(" %" PRIu32, adler(room, bytes, 1));
    free(room);
    return true;
}

static void read_back(const uint8_t *book, size_t length)
{
    struct read_back back = plain_read_back(book, length);
    say("back", back.answer);
    printf(" %" PRIu32, back.chart.count);
    for (uint32_t e = 0; e < back.chart.count; e++)
        say_relations(&back.chart, e);
}

static bool check(const uint8_t *at, size_t length)
{
    if (length < 8 || number(at, 4) > MAX_NUMBERS)
        return false;
    size_t count = number(at, 4);
    uint32_t *numbers = filled(4 * count), sum = 1;
    say("check", CHECK(at + 8, length - 8, (uint32_t)number(at + 4, 4), numbers, count));
    for (size_t i = 0; i < count; i++)
        for (int b = 0; b < 32; b += 8)
            sum = adler((const uint8_t[]){(uint8_t)(numbers[i] >> b)}, 1, sum);
    printf(" %" PRIu32, sum);
    free(numbers);
    return true;
}

static struct snapshot snapshot_at(const uint8_t *at)
{
    struct snapshot snapshot;
    for (int m = 0; m < MAX_MARKS; m++)
        snapshot.marks[m] = at[m / 8] >> (m % 8) & 1;
    return snapshot;
}

static bool complete(const uint8_t *at, size_t length)
{
    enum { BEFORE = 4 + SNAPSHOT + 4 };
    if (length < BEFORE || number(at + BEFORE - 4, 4) > MAX_NUMBERS || length < BEFORE + 4 * number(at + BEFORE - 4, 4))
        return false;
    size_t count = number(at + BEFORE - 4, 4), start = BEFORE + 4 * count;
    struct snapshot snapshot = snapshot_at(at + 4);
    uint32_t *numbers = filled(4 * count);
    for (size_t i = 0; i < count; i++)
        numbers[i] = (uint32_t)number(at + BEFORE + 4 * i, 4);
    struct settled settled = COMPLETE(at + start, length - start, numbers, count, snapshot, (uint32_t)number(at, 4));
    say("complete", settled.answer);
    say_snapshot(&settled.snapshot);
    free(numbers);
    return true;
}

static bool build_index(const uint8_t *at, size_t length)
{
    if (length < 4 || number(at, 4) > MAX_BYTES)
        return false;
    size_t bytes = number(at, 4);
    uint8_t *room = filled(bytes);
    say("index", BUILD_INDEX(at + 4, length - 4, room, bytes));
    printf(" %" PRIu32, adler(room, bytes, 1));
    free(room);
    return true;
}

// The index is copied, so that a sanitizer sees a step past its end.
static bool complete_indexed(const uint8_t *at, size_t length)
{
    enum { BEFORE = 4 + SNAPSHOT + 4 };
    if (length < BEFORE || length - BEFORE < number(at + BEFORE - 4, 4))
        return false;
    size_t bytes = number(at + BEFORE - 4, 4), start = BEFORE + bytes;
    uint8_t *index = filled(bytes);
    memcpy(index, at + BEFORE, bytes);
    struct indexed indexed = COMPLETE_INDEXED(at + start, length - start, index, bytes, snapshot_at(at + 4), (uint32_t)number(at, 4));
    say("indexed", indexed.answer);
    say_snapshot(&indexed.snapshot);
    printf(" %" PRIu32, indexed.evaluated);
    free(index);
    return true;
}

static bool complete_list(const uint8_t *at, size_t length)
{
    if (length < SNAPSHOT + 4 || number(at + SNAPSHOT, 4) > MAX_NUMBERS)
        return false;
    size_t count = number(at + SNAPSHOT, 4), start = SNAPSHOT + 8 + 4 * count; // where the index begins
    if (length < start || length - start < number(at + start - 4, 4))
        return false;
    size_t bytes = number(at + start - 4, 4), end = start + bytes;
    uint8_t *index = filled(bytes);
    memcpy(index, at + start, bytes);
    uint32_t *stages = filled(4 * count);
    for (size_t i = 0; i < count; i++)
        stages[i] = (uint32_t)number(at + SNAPSHOT + 4 + 4 * i, 4);
    struct listed listed = COMPLETE_LIST(at + end, length - end, index, bytes, snapshot_at(at), stages, count);
    say("list", listed.answer);
    printf(" %" PRIu32, listed.granted);
    say_snapshot(&listed.snapshot);
    printf(" %" PRIu32, listed.evaluated);
    free(index);
    free(stages);
    return true;
}

// A strike has its position before the record.
static bool on_record(int operation, const uint8_t *at, size_t length)
{
    size_t behind = FLAT + MARKING + (operation == 13 ? 4 : 0);
    if (length < behind + 4 || number(at + behind, 4) > MAX_STEPS || length < behind + 4 + 8 * number(at + behind, 4))
        return false;
    size_t count = number(at + behind, 4);
    struct flat_chart chart = flat_at(at);
    struct marking start = marking_at(at + FLAT);
    struct recorded *steps = filled(8 * count);
    for (size_t i = 0; i < count; i++)
        steps[i] = (struct recorded){(uint32_t)number(at + behind + 4 + 8 * i, 4), (uint32_t)number(at + behind + 8 + 8 * i, 4)};
    if (operation == 12) {
        struct replayed replayed = plain_replay(&chart, start, steps, count);
        say("replay", replayed.answer);
        printf(" %" PRIu64 " %" PRIu32, replayed.steps, replayed.code);
        say_marking(replayed.marking);
        printf(replayed.finished ? " yes" : " no");
        say_sets(replayed.conditions, replayed.milestones);
    } else {
        struct step struck = plain_strike(&chart, start, steps, count, (uint32_t)number(at + FLAT + MARKING, 4));
        say("strike", struck.answer);
        say_marking(struck.marking);
        say_sets(struck.conditions, struck.milestones);
    }
    free(steps);
    return true;
}

static bool smaller(const uint8_t *at, size_t length)
{
    if (length < 4 + FLAT + MARKING || number(at, 4) > MAX_BYTES)
        return false;
    size_t bytes = number(at, 4);
    struct flat_chart chart = flat_at(at + 4);
    uint8_t *room = filled(bytes), table[2 * MAX_MARKS];
    struct smaller smaller = plain_derive_smaller(&chart, marking_at(at + 4 + FLAT), room, bytes);
    for (size_t m = 0; m < MAX_MARKS; m++) {
        table[2 * m] = (uint8_t)smaller.table[m];
        table[2 * m + 1] = (uint8_t)(smaller.table[m] >> 8);
    }
    say("smaller", smaller.answer);
    printf(" %" PRIu32 " %" PRIu32, adler(room, bytes, 1), adler(table, sizeof table, 1));
    free(room);
    return true;
}

static bool mend(const uint8_t *at, size_t length)
{
    if (length < 8 || number(at, 4) > MAX_BYTES || number(at + 4, 4) > MAX_BYTES)
        return false;
    size_t chart_length = number(at, 4), list_length = number(at + 4, 4);
    uint8_t *chart = filled(chart_length), *list = filled(list_length);
    struct mended mended = plain_mend(at + 8, length - 8, chart, chart_length, list, list_length);
    say("mend", mended.answer);
    printf(" %" PRIu32 " %" PRIu32 " %" PRIu32, mended.entries, adler(chart, chart_length, 1), adler(list, list_length, 1));
    free(chart);
    free(list);
    return true;
}

// ---- the listing: what the program book_listing prints, as its length and its sum

static uint32_t listed, listed_sum;

static void list(const char *format, ...)
{
    char text[128];
    va_list values;
    va_start(values, format);
    int length = vsnprintf(text, sizeof text, format, values);
    va_end(values);
    listed += (uint32_t)length;
    listed_sum = adler((const uint8_t *)text, (size_t)length, listed_sum);
}

static unsigned get(const uint8_t *at, int bytes)
{
    return (unsigned)number(at, bytes);
}

static void list_rule(unsigned p, const uint8_t *rule)
{
    unsigned when = get(rule + (rule[0] != 0 ? 4 : 6), 2);
    list("%u %s %u %s %u\n", p, rule[0] != 0 ? "on" : rule[1] == 1 ? "if" : "unless", when, rule[2] == 1 ? "set" : "clear",
         get(rule + 8, 2));
}

static void list_condition(unsigned c, const uint8_t *words, unsigned count)
{
    list("cond %u:", c);
    for (unsigned i = 0; i < count; i++) {
        unsigned word = get(words + 2 * i, 2);
        list(word == AND ? " and" : word == OR ? " or" : word == NOT ? " not" : " %u", word);
    }
    list("\n");
}

static void list_book(const uint8_t *book)
{
    const uint8_t *rules = book + 32, *conditions = book + get(book + 24, 4), *words = book + get(book + 28, 4);
    list("stages %u marks %u rules %u conditions %u words %u\n", get(book, 4), get(book + 4, 4), get(book + 8, 4), get(book + 12, 4),
         get(book + 16, 4));
    for (unsigned p = 0; p < get(book + 8, 4); p++)
        list_rule(p, rules + 10 * p);
    for (unsigned c = 0; c < get(book + 12, 4); c++)
        list_condition(c, words + 2 * get(conditions + 8 * c, 4), get(conditions + 8 * c + 4, 4));
}

static void listing(const uint8_t *image, size_t length)
{
    static uint8_t book[LISTED_BOOK];
    struct reading reading = plain_read_chart(image, length < LISTED_CHART ? length : LISTED_CHART);
    struct answer answer = reading.answer.code != 0 ? reading.answer : plain_derive(&reading.chart, book, sizeof book);
    listed = 0;
    listed_sum = 1;
    if (answer.code == 0)
        list_book(book);
    else
        list("refused %" PRIu32 " %" PRIu32 " %" PRIu32 "\n", answer.code, answer.place, answer.other);
    printf("listing %" PRIu32 " %" PRIu32, listed, listed_sum);
}

static bool serve(const uint8_t *at, size_t length)
{
    switch (at[0]) {
    case 1:
        read_chart(at + 1, length - 1);
        return true;
    case 2: case 3: case 4: case 5: case 14:
        return on_chart(at[0], at + 1, length - 1);
    case 6:
        return derive(at + 1, length - 1);
    case 7:
        return check(at + 1, length - 1);
    case 8:
        return complete(at + 1, length - 1);
    case 9:
        return build_index(at + 1, length - 1);
    case 10:
        return complete_indexed(at + 1, length - 1);
    case 11:
        return complete_list(at + 1, length - 1);
    case 12: case 13:
        return on_record(at[0], at + 1, length - 1);
    case 15:
        read_back(at + 1, length - 1);
        return true;
    case 16:
        return smaller(at + 1, length - 1);
    case 17:
        return mend(at + 1, length - 1);
    case LISTING:
        listing(at + 1, length - 1);
        return true;
    default:
        return false;
    }
}

int main(void)
{
    uint8_t head[4];
    while (fread(head, 1, 4, stdin) == 4) {
        uint64_t length = number(head, 4);
        if (length < 1 || length > MAX_BODY || fread(body, 1, length, stdin) != length) {
            puts("bad request");
            break;
        }
        uint8_t *own = filled(length);
        memcpy(own, body, length);
        puts(serve(own, length) ? "" : "bad request");
        free(own);
    }
    return 0;
}
