// The calls on books in plain C with the library's shortcuts, so that the library is also timed against what does as little:
// one pass over the rules, and for an index one more that chains them by their stage; a search for loops only where a mark is both altered by a
// rule that refers to something and referred to; opposed rules compared only where their mark is not calm; a condition evaluated only where its
// rule would alter its target.
#include "lean.h"

#include "clash.h"
#include "order.h"

#include <string.h>

// ---- one pass over the rules

// The rules that set a mark, or those that clear it: the stages whose completions they wait for, and their keys.
struct side {
    struct set stages;
    struct keys keys;
};

struct found {
    struct book book;
    struct side sides[MAX_MARKS][2];
    struct marks altered, referred, used; // used: the conditions that rules have
    struct progress progress;             // of the rules that count for the stage
};

static void clear(struct found *found)
{
    for (uint32_t m = 0; m < found->book.marks; m++)
        for (int effect = 0; effect < 2; effect++)
            found->sides[m][effect] = (struct side){{{0}}, no_keys};
    memset(found->progress.left, 0, found->book.marks * sizeof found->progress.left[0]);
    found->altered = found->referred = found->used = found->progress.unsettled = (struct marks){{0}};
    found->progress.count = 0;
}

// Notes a rule that refers to something.
static inline void note_references(struct found *found, struct rule rule)
{
    add(&found->altered, rule.target);
    if (rule.sense != NO_CONDITION)
        add(&found->used, rule.condition);
    if (rule.trigger >= BECOME_YES)
        add(&found->referred, rule.number);
}

// Refusal 23.
static struct answer read_rules(struct found *found, uint32_t stage)
{
    const struct book *book = &found->book;
    struct progress *progress = &found->progress;
    const uint32_t numbers[4] = {1, book->stages, book->marks, book->marks}, conditions[3] = {1, book->conditions, book->conditions};
    const uint32_t rules = book->rules, marks = book->marks;
    const uint8_t *at = book->rules_at;
    for (uint32_t p = 0; p < rules; p++, at += 10) {
        uint32_t head = get32(at); // trigger, sense, effect and a byte 0
        struct rule rule = {(uint8_t)head, (uint8_t)(head >> 8), (uint8_t)(head >> 16), 0, get16(at + 4), get16(at + 6), get16(at + 8)};
        if (rule.trigger > BECOME_NO || rule.sense > NEGATED || head >> 16 > SET || rule.number >= numbers[rule.trigger]
            || rule.condition >= conditions[rule.sense] || rule.target >= marks)
            return refused(23, p, 0);
        struct side *side = &found->sides[rule.target][rule.effect];
        note_key(&side->keys, key_of(rule));
        if (rule.trigger == COMPLETED)
            put(&side->stages, rule.number);
        if (rule.trigger >= BECOME_YES || rule.sense != NO_CONDITION)
            note_references(found, rule);
        if (counts(rule, stage)) {
            progress->left[rule.target]++;
            progress->rules[progress->count++] = p;
            add(&progress->unsettled, rule.target);
        }
    }
    return granted;
}

// ---- loops

// Whether some mark is both altered by a rule that refers to something and referred to: without one no stage has a loop.
static bool may_loop(struct found *found)
{
    for (uint32_t i = 0; i < MARK_WORDS; i++)
        for (uint64_t left = found->used.word[i]; left != 0; left &= left - 1)
            join(&found->referred, &found->book.refers[64 * i + lowest(left)]);
    return meet(&found->altered, &found->referred);
}

// ---- clashes

// Whether it shows without a further look that no two rules of the mark clash.
static bool calm(const struct side *clearing, const struct side *setting)
{
    if (clearing->keys.any == 0 || setting->keys.any == 0)
        return true;
    if (opposite(clearing->keys, setting->keys.any) && opposite(setting->keys, clearing->keys.any))
        return true;
    return ((clearing->keys.any | setting->keys.any) & OTHER) == 0 && is_empty(common(clearing->stages, setting->stages));
}

static struct marks restless(const struct found *found)
{
    struct marks marks = {{0}};
    for (uint32_t m = 0; m < found->book.marks; m++)
        if (!calm(&found->sides[m][CLEAR], &found->sides[m][SET]))
            add(&marks, m);
    return marks;
}

// The lowest clashing pair, which is looked for only among the rules of marks that are not calm.
static struct answer first_clash(const struct found *found)
{
    static const struct marks no_marks = {{0}};
    const struct marks marks = restless(found);
    return memcmp(&marks, &no_marks, sizeof marks) == 0 ? granted : clash_at(&found->book, &marks);
}

// Refusals 20 to 26.
static struct answer judge(const uint8_t *image, size_t length, uint32_t stage, struct found *found)
{
    struct answer answer = read_counts(image, length, &found->book);
    if (answer.code != 0)
        return answer;
    clear(found);
    answer = read_rules(found, stage);
    if (answer.code != 0)
        return answer;
    for (uint32_t c = 0; c < found->book.conditions; c++)
        if (!good_condition(&found->book, c))
            return refused(24, c, 0);
    uint32_t mark = may_loop(found) ? lowest_of_stages(&found->book) : MAX_MARKS;
    return mark < MAX_MARKS ? refused(25, mark, 0) : first_clash(found);
}

// ---- the running order

struct answer lean_check(const uint8_t *image, size_t length, uint32_t stage, uint32_t *room, size_t count)
{
    struct found found;
    struct answer answer = judge(image, length, stage, &found);
    if (answer.code != 0)
        return answer;
    if (stage >= found.book.stages)
        return refused(29, 0, 0);
    if (count < found.progress.count)
        return refused(31, found.progress.count, 0);
    struct waiting waiting;
    begin_waiting(&found.book, &waiting);
    write_order(&found.book, &found.progress, &waiting, room);
    return granted;
}

// ---- completing a stage

// Each condition is compared with the unsettled marks until it names none of them, and not again.
static bool fit_order(struct found *found, uint32_t stage, const uint32_t *order, size_t count)
{
    const struct book *book = &found->book;
    struct progress *progress = &found->progress;
    uint64_t seen[(MAX_RULES + 63) / 64];
    struct marks free = {{0}};
    if (count != progress->count)
        return false;
    memset(seen, 0, (book->rules + 63) / 64 * sizeof seen[0]);
    for (size_t i = 0; i < count; i++) {
        uint32_t p = order[i];
        if (p >= book->rules || (seen[p / 64] & bit(p)) != 0)
            return false;
        seen[p / 64] |= bit(p);
        struct rule rule = rule_of(book, p);
        if (!counts(rule, stage) || (rule.trigger >= BECOME_YES && has(&progress->unsettled, rule.number)))
            return false;
        if (rule.sense != NO_CONDITION && !has(&free, rule.condition)) {
            if (meet(&book->refers[rule.condition], &progress->unsettled))
                return false;
            add(&free, rule.condition);
        }
        settles(progress, rule.target);
    }
    return true;
}

static bool any_above(const struct book *book, const struct snapshot *snapshot)
{
    uint32_t above = 0;
    for (uint32_t m = book->marks; m < MAX_MARKS; m++)
        above |= snapshot->marks[m];
    return above != 0;
}

// Refusals 29, 27, 28 and 30.
static struct answer ready(struct found *found, const uint32_t *order, size_t count, const struct snapshot *snapshot, uint32_t stage)
{
    if (stage >= found->book.stages)
        return refused(29, 0, 0);
    if (!fit_order(found, stage, order, count))
        return refused(27, 0, 0);
    if (any_above(&found->book, snapshot))
        return refused(28, 0, 0);
    return snapshot->marks[stage] ? granted : refused(30, 0, 0);
}

// Alters the marks if the rule, which counts for the completed stage, fires and would alter its target.
static inline void apply(const struct book *book, struct rule rule, const bool *start, bool *now)
{
    if (now[rule.target] == (rule.effect == SET) || !triggered(rule, start, now))
        return;
    if (rule.sense == NO_CONDITION || holds(book, rule.condition, now) == (rule.sense == AS_WRITTEN))
        now[rule.target] = rule.effect == SET;
}

struct settled lean_complete(const uint8_t *image, size_t length, const uint32_t *order, size_t count, struct snapshot snapshot,
                             uint32_t stage)
{
    struct settled settled = {.snapshot = snapshot};
    struct found found;
    settled.answer = judge(image, length, stage, &found);
    if (settled.answer.code == 0)
        settled.answer = ready(&found, order, count, &snapshot, stage);
    if (settled.answer.code != 0)
        return settled;
    for (size_t i = 0; i < count; i++)
        apply(&found.book, rule_of(&found.book, order[i]), snapshot.marks, settled.snapshot.marks);
    return settled;
}

// ---- the index

// What the orders of all stages are made from, beside a book judged for no stage at all: what it then counted, and the rules that wait for a
// completion, chained by their stage, each leading to the next.
struct orders {
    struct marks unsettled;
    uint32_t left[MAX_MARKS], common[MAX_RULES], head[MAX_STAGES], next[MAX_RULES], count;
    struct waiting waiting;
};

static void begin_orders(const struct found *found, struct orders *orders)
{
    const struct book *book = &found->book;
    orders->unsettled = found->progress.unsettled;
    orders->count = found->progress.count;
    memcpy(orders->left, found->progress.left, book->marks * sizeof orders->left[0]);
    memcpy(orders->common, found->progress.rules, orders->count * sizeof orders->common[0]);
    memset(orders->head, 0xFF, sizeof orders->head);
    for (uint32_t p = book->rules; p-- > 0;) {
        const uint8_t *rule = book->rules_at + 10 * p;
        if (rule[0] == COMPLETED) {
            orders->next[p] = orders->head[get16(rule + 4)];
            orders->head[get16(rule + 4)] = p;
        }
    }
    begin_waiting(book, &orders->waiting);
}

// The running order of a stage, from the rules that count for every stage and its own, the lower one first.
static uint32_t order_of(struct found *found, struct orders *orders, uint32_t stage, uint32_t *order)
{
    const struct book *book = &found->book;
    struct progress *progress = &found->progress;
    progress->unsettled = orders->unsettled;
    memcpy(progress->left, orders->left, book->marks * sizeof progress->left[0]);
    uint32_t count = 0, i = 0;
    for (uint32_t p = orders->head[stage]; p != NO_RULE; p = orders->next[p]) {
        uint32_t target = get16(book->rules_at + 10 * p + 8);
        while (i < orders->count && orders->common[i] < p)
            progress->rules[count++] = orders->common[i++];
        progress->rules[count++] = p;
        progress->left[target]++;
        add(&progress->unsettled, target);
    }
    while (i < orders->count)
        progress->rules[count++] = orders->common[i++];
    progress->count = count;
    write_order(book, progress, &orders->waiting, order);
    return count;
}

struct answer lean_build_index(const uint8_t *image, size_t length, uint8_t *room, size_t bytes)
{
    struct found found;
    struct answer answer = judge(image, length, MAX_STAGES, &found);
    if (answer.code != 0)
        return answer;
    uint32_t needed = index_size(&found.book);
    if (bytes < needed)
        return refused(35, needed, 0);
    struct orders orders;
    uint32_t order[MAX_RULES];
    begin_orders(&found, &orders);
    uint8_t *entry = put32(put32(room, found.book.stages), found.book.rules), *at = room + 8 + 8 * found.book.stages;
    for (uint32_t stage = 0; stage < found.book.stages; stage++) {
        uint32_t count = order_of(&found, &orders, stage, order);
        entry = put32(put32(entry, (uint32_t)(at - room)), count);
        for (uint32_t i = 0; i < count; i++)
            at = put32(at, order[i]);
    }
    return granted;
}

static bool fit_index(struct found *found, const uint8_t *index, size_t bytes)
{
    const struct book *book = &found->book;
    if (bytes != index_size(book) || get32(index) != book->stages || get32(index + 4) != book->rules)
        return false;
    struct orders orders;
    uint32_t order[MAX_RULES];
    begin_orders(found, &orders);
    const uint8_t *at = index + 8 + 8 * book->stages;
    for (uint32_t stage = 0; stage < book->stages; stage++) {
        uint32_t count = order_of(found, &orders, stage, order), differ = 0;
        if (get32(index + 8 + 8 * stage) != (size_t)(at - index) || get32(index + 12 + 8 * stage) != count)
            return false;
        for (uint32_t i = 0; i < count; i++, at += 4)
            differ |= get32(at) ^ order[i];
        if (differ != 0)
            return false;
    }
    return true;
}

// Refusals 20 to 26, 34 and 28.
static struct answer judge_indexed(const uint8_t *image, size_t length, const uint8_t *index, size_t bytes,
                                   const struct snapshot *snapshot, struct found *found)
{
    struct answer answer = judge(image, length, MAX_STAGES, found);
    if (answer.code != 0)
        return answer;
    if (!fit_index(found, index, bytes))
        return refused(34, 0, 0);
    return any_above(&found->book, snapshot) ? refused(28, 0, 0) : granted;
}

// Completes an open stage of a book with its index; gives how many rules were evaluated.
static uint32_t go_through(const struct book *book, const uint8_t *index, uint32_t stage, struct snapshot *snapshot)
{
    const struct snapshot start = *snapshot;
    const uint8_t *at = index + get32(index + 8 + 8 * stage), *end = at + 4 * get32(index + 12 + 8 * stage);
    uint32_t evaluated = 0;
    for (; at < end; at += 4, evaluated++)
        apply(book, rule_of(book, get32(at)), start.marks, snapshot->marks);
    return evaluated;
}

// Refusals 29 and 30.
static struct answer open_stage(const struct book *book, const struct snapshot *snapshot, uint32_t stage, uint32_t place)
{
    if (stage >= book->stages)
        return refused(29, place, 0);
    return snapshot->marks[stage] ? granted : refused(30, place, 0);
}

struct indexed lean_complete_indexed(const uint8_t *image, size_t length, const uint8_t *index, size_t bytes, struct snapshot snapshot,
                                     uint32_t stage)
{
    struct indexed indexed = {.snapshot = snapshot};
    struct found found;
    indexed.answer = judge_indexed(image, length, index, bytes, &snapshot, &found);
    if (indexed.answer.code == 0)
        indexed.answer = open_stage(&found.book, &snapshot, stage, 0);
    if (indexed.answer.code == 0)
        indexed.evaluated = go_through(&found.book, index, stage, &indexed.snapshot);
    return indexed;
}

struct listed lean_complete_list(const uint8_t *image, size_t length, const uint8_t *index, size_t bytes, struct snapshot snapshot,
                               const uint32_t *stages, size_t count)
{
    struct listed listed = {.snapshot = snapshot};
    struct found found;
    listed.answer = judge_indexed(image, length, index, bytes, &snapshot, &found);
    if (listed.answer.code == 0 && count > MAX_LIST)
        listed.answer = refused(38, count < UINT32_MAX ? (uint32_t)count : UINT32_MAX, 0);
    for (; listed.answer.code == 0 && listed.granted < count; listed.granted++) {
        uint32_t stage = stages[listed.granted];
        listed.answer = open_stage(&found.book, &listed.snapshot, stage, listed.granted);
        if (listed.answer.code != 0)
            break;
        listed.evaluated += go_through(&found.book, index, stage, &listed.snapshot);
    }
    return listed;
}
