// What both files of plain C read a book with: numbers, sets of events and of marks, records and texts.
#ifndef BOOK_H
#define BOOK_H

#include "plain.h"

enum { AND = 65533, OR = 65534, NOT = 65535 };
enum { NO_TRIGGER, COMPLETED, BECOME_YES, BECOME_NO };
enum { NO_CONDITION, AS_WRITTEN, NEGATED };
enum { CLEAR, SET };

static const struct answer granted = {0, 0, 0};
static const uint32_t NO_RULE = UINT32_MAX;

static inline struct answer refused(uint32_t code, uint32_t place, uint32_t other)
{
    return (struct answer){code, place, other};
}

static inline uint32_t get16(const uint8_t *at)
{
    return at[0] | (uint32_t)at[1] << 8;
}

static inline uint32_t get32(const uint8_t *at)
{
    return get16(at) | get16(at + 2) << 16;
}

static inline uint8_t *put16(uint8_t *at, uint32_t number)
{
    at[0] = (uint8_t)number;
    at[1] = (uint8_t)(number >> 8);
    return at + 2;
}

static inline uint8_t *put32(uint8_t *at, uint32_t number)
{
    return put16(put16(at, number), number >> 16);
}

static inline uint64_t bit(uint32_t e)
{
    return (uint64_t)1 << e % 64;
}

static inline uint32_t lowest(uint64_t word)
{
    return (uint32_t)__builtin_ctzll(word);
}

static inline uint32_t size(uint64_t word)
{
    return (uint32_t)__builtin_popcountll(word);
}

// ---- sets of events, or of stages

static inline bool holds_event(const struct set *set, uint32_t e)
{
    return set->word[e / 64] >> e % 64 & 1;
}

static inline void put(struct set *set, uint32_t e)
{
    set->word[e / 64] |= bit(e);
}

static inline struct set unite(struct set one, struct set other)
{
    for (int i = 0; i < SET_WORDS; i++)
        one.word[i] |= other.word[i];
    return one;
}

static inline struct set common(struct set one, struct set other)
{
    for (int i = 0; i < SET_WORDS; i++)
        one.word[i] &= other.word[i];
    return one;
}

static inline struct set without(struct set one, struct set other)
{
    for (int i = 0; i < SET_WORDS; i++)
        one.word[i] &= ~other.word[i];
    return one;
}

static inline bool is_empty(struct set set)
{
    uint64_t any = 0;
    for (int i = 0; i < SET_WORDS; i++)
        any |= set.word[i];
    return any == 0;
}

static inline uint32_t size_of(struct set set)
{
    uint32_t count = 0;
    for (int i = 0; i < SET_WORDS; i++)
        count += size(set.word[i]);
    return count;
}

// MAX_EVENTS of an empty set.
static inline uint32_t lowest_of(struct set set)
{
    for (uint32_t i = 0; i < SET_WORDS; i++)
        if (set.word[i] != 0)
            return 64 * i + lowest(set.word[i]);
    return MAX_EVENTS;
}

// Takes the lowest event out of a set that is not empty.
static inline uint32_t take_lowest(struct set *set)
{
    uint32_t e = lowest_of(*set);
    set->word[e / 64] &= set->word[e / 64] - 1;
    return e;
}

static inline struct set all_below(uint32_t count)
{
    struct set set;
    for (uint32_t i = 0; i < SET_WORDS; i++)
        set.word[i] = count >= 64 * (i + 1) ? ~(uint64_t)0 : count <= 64 * i ? 0 : bit(count) - 1;
    return set;
}

// ---- sets of marks, or of conditions, of which there are as many

struct marks {
    uint64_t word[MARK_WORDS];
};

static inline bool has(const struct marks *set, uint32_t mark)
{
    return set->word[mark / 64] >> (mark % 64) & 1;
}

static inline void add(struct marks *set, uint32_t mark)
{
    set->word[mark / 64] |= bit(mark);
}

static inline void drop(struct marks *set, uint32_t mark)
{
    set->word[mark / 64] &= ~bit(mark);
}

static inline void join(struct marks *set, const struct marks *more)
{
    for (int i = 0; i < MARK_WORDS; i++)
        set->word[i] |= more->word[i];
}

static inline bool meet(const struct marks *one, const struct marks *two)
{
    uint64_t both = 0;
    for (int i = 0; i < MARK_WORDS; i++)
        both |= one->word[i] & two->word[i];
    return both != 0;
}

// ---- records and texts

struct rule {
    uint8_t trigger, sense, effect, zero;
    uint32_t number, condition, target;
};

struct book {
    uint32_t stages, marks, rules, conditions, words;
    const uint8_t *rules_at, *conditions_at, *words_at;
    struct marks refers[MAX_CONDITIONS]; // of a condition: the marks in its text
};

static inline struct rule rule_of(const struct book *book, uint32_t p)
{
    const uint8_t *at = book->rules_at + 10 * p;
    return (struct rule){at[0], at[1], at[2], at[3], get16(at + 4), get16(at + 6), get16(at + 8)};
}

static inline bool good_rule(const struct book *book, struct rule rule)
{
    if (rule.trigger > BECOME_NO || rule.sense > NEGATED || rule.effect > SET || rule.zero != 0)
        return false;
    uint32_t numbers = rule.trigger == NO_TRIGGER ? 1 : rule.trigger == COMPLETED ? book->stages : book->marks;
    uint32_t conditions = rule.sense == NO_CONDITION ? 1 : book->conditions;
    return rule.number < numbers && rule.condition < conditions && rule.target < book->marks;
}

static inline bool good_condition(struct book *book, uint32_t c)
{
    uint32_t start = get32(book->conditions_at + 8 * c), count = get32(book->conditions_at + 8 * c + 4), held = 0;
    if (count == 0 || start > book->words || count > book->words - start)
        return false;
    struct marks refers = {{0}};
    const uint8_t *at = book->words_at + 2 * start;
    for (uint32_t i = 0; i < count; i++, at += 2) {
        uint32_t word = get16(at);
        if (word < book->marks) {
            if (++held > MAX_HELD)
                return false;
            add(&refers, word);
        } else if (word < AND || held < (word == NOT ? 1u : 2u)) {
            return false;
        } else if (word != NOT) {
            held--;
        }
    }
    book->refers[c] = refers;
    return held == 1;
}

// Refusals 20 to 22.
static inline struct answer read_counts(const uint8_t *image, size_t length, struct book *book)
{
    if (length < 32)
        return refused(20, 0, 0);
    uint32_t stages = get32(image), marks = get32(image + 4), rules = get32(image + 8), conditions = get32(image + 12),
             words = get32(image + 16);
    if (stages > MAX_STAGES || marks < stages || marks > MAX_MARKS || rules > MAX_RULES || conditions > MAX_CONDITIONS
        || words > MAX_WORDS)
        return refused(21, 0, 0);
    uint32_t conditions_at = 32 + 10 * rules, words_at = conditions_at + 8 * conditions;
    if (get32(image + 20) != 32 || get32(image + 24) != conditions_at || get32(image + 28) != words_at
        || length != words_at + 2 * words)
        return refused(22, 0, 0);
    book->stages = stages;
    book->marks = marks;
    book->rules = rules;
    book->conditions = conditions;
    book->words = words;
    book->rules_at = image + 32;
    book->conditions_at = image + conditions_at;
    book->words_at = image + words_at;
    return granted;
}

// Of two rule records as they stand in the image: completions of different stages, or one condition in opposite senses.
static inline bool apart(const uint8_t *one, const uint8_t *two)
{
    if (one[0] == COMPLETED && two[0] == COMPLETED && get16(one + 4) != get16(two + 4))
        return true;
    return one[1] != NO_CONDITION && two[1] != NO_CONDITION && one[1] != two[1] && get16(one + 6) == get16(two + 6);
}

// Whether a rule counts for a stage.
static inline bool counts(struct rule rule, uint32_t stage)
{
    return rule.trigger != COMPLETED || rule.number == stage;
}

// The bytes of the index of a good book: a rule on a completion counts for one stage, any other for all.
static inline uint32_t index_size(const struct book *book)
{
    uint32_t own = 0;
    for (uint32_t p = 0; p < book->rules; p++)
        own += book->rules_at[10 * p] == COMPLETED;
    return 8 + 8 * book->stages + 4 * (own + book->stages * (book->rules - own));
}

// The stack of values is a number, its top the lowest bit.
static inline bool holds(const struct book *book, uint32_t condition, const bool *marks)
{
    const uint8_t *record = book->conditions_at + 8 * condition;
    const uint8_t *at = book->words_at + 2 * get32(record), *end = at + 2 * get32(record + 4);
    uint32_t stack = 0;
    for (; at < end; at += 2) {
        uint32_t word = get16(at);
        switch (word) {
        case AND:
            stack = stack >> 1 & (stack | ~1u);
            break;
        case OR:
            stack = stack >> 1 | (stack & 1);
            break;
        case NOT:
            stack ^= 1;
            break;
        default:
            stack = stack << 1 | marks[word];
        }
    }
    return stack & 1;
}

// Of a rule that counts for the completed stage.
static inline bool triggered(struct rule rule, const bool *start, const bool *now)
{
    switch (rule.trigger) {
    case BECOME_YES:
        return !start[rule.number] && now[rule.number];
    case BECOME_NO:
        return start[rule.number] && !now[rule.number];
    default:
        return true;
    }
}

// The lowest mark on a loop of any stage, or MAX_MARKS.
uint32_t lowest_of_stages(const struct book *book);

#endif
