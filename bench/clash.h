// The search for two rules that clash, in time that grows as the rules do: each mark's rules by the stage whose completion they wait for.
#ifndef CLASH_H
#define CLASH_H

#include "book.h"

#include <string.h>

// A rule's key is its sense and its condition; OTHER stands in it where the rule waits for no completion.
enum { OPPOSITE = 3, ONE_SENSE = 4 * MAX_CONDITIONS - 1, OTHER = ONE_SENSE + 1, PRESENT = 2 * OTHER };

static inline uint32_t key_of(struct rule rule)
{
    return rule.sense | rule.condition << 2 | PRESENT | (rule.trigger == COMPLETED ? 0u : OTHER);
}

// The bits that any and that all of some rules' keys have.
struct keys {
    uint32_t any, all;
};

static const struct keys no_keys = {0, ~0u};

static inline void note_key(struct keys *keys, uint32_t key)
{
    keys->any |= key;
    keys->all &= key;
}

// Whether the keys are all of one sense and one condition, just the opposite of this key's.
static inline bool opposite(struct keys keys, uint32_t key)
{
    return ((keys.any ^ keys.all) & ONE_SENSE) == 0 && ((keys.any ^ key) & ONE_SENSE) == OPPOSITE;
}

// One mark's rules by effect, all of them and by the stage whose completion they wait for; those that wait for none stand at MAX_STAGES.
struct groups {
    struct keys every[2], at[2][MAX_STAGES + 1];
};

static inline uint32_t place_of(struct rule rule)
{
    return rule.trigger == COMPLETED ? rule.number : MAX_STAGES;
}

static inline void group(const struct book *book, const uint32_t *next, uint32_t first, struct groups *groups)
{
    for (int effect = 0; effect < 2; effect++)
        groups->every[effect] = groups->at[effect][MAX_STAGES] = no_keys;
    for (uint32_t p = first; p != NO_RULE; p = next[p])
        groups->at[CLEAR][place_of(rule_of(book, p))] = groups->at[SET][place_of(rule_of(book, p))] = no_keys;
    for (uint32_t p = first; p != NO_RULE; p = next[p]) {
        struct rule rule = rule_of(book, p);
        note_key(&groups->every[rule.effect], key_of(rule));
        note_key(&groups->at[rule.effect][place_of(rule)], key_of(rule));
    }
}

// The lowest of a mark's rules that clashes with another, or NO_RULE: one whose opposed rules that are not apart from it by their stages
// are not all of one sense and one condition, just the opposite of its own.
static inline uint32_t lowest_clashing(const struct book *book, const uint32_t *next, uint32_t first)
{
    struct groups groups;
    group(book, next, first, &groups);
    if (groups.every[CLEAR].any == 0 || groups.every[SET].any == 0)
        return NO_RULE;
    for (uint32_t p = first; p != NO_RULE; p = next[p]) {
        struct rule rule = rule_of(book, p);
        uint32_t against = 1 - rule.effect;
        struct keys keys = groups.every[against];
        if (rule.trigger == COMPLETED) {
            keys = groups.at[against][rule.number];
            keys.any |= groups.at[against][MAX_STAGES].any;
            keys.all &= groups.at[against][MAX_STAGES].all;
        }
        if (keys.any != 0 && !opposite(keys, key_of(rule)))
            return p;
    }
    return NO_RULE;
}

// The lowest clashing pair of rules that alter one of these marks. The rules of each of them are chained, each leading to the next.
static inline struct answer clash_at(const struct book *book, const struct marks *marks)
{
    uint32_t head[MAX_MARKS], next[MAX_RULES];
    memset(head, 0xFF, book->marks * sizeof head[0]);
    for (uint32_t p = book->rules; p-- > 0;) {
        uint32_t target = get16(book->rules_at + 10 * p + 8);
        if (has(marks, target)) {
            next[p] = head[target];
            head[target] = p;
        }
    }
    uint32_t first = NO_RULE;
    for (uint32_t m = 0; m < book->marks; m++)
        if (has(marks, m)) {
            uint32_t p = lowest_clashing(book, next, head[m]);
            first = p < first ? p : first;
        }
    if (first == NO_RULE)
        return granted;
    const uint8_t *rule = book->rules_at + 10 * first;
    uint32_t q = next[first];
    while (book->rules_at[10 * q + 2] == rule[2] || apart(rule, book->rules_at + 10 * q))
        q = next[q];
    return refused(26, first, q);
}

#endif
