// The running order of a stage, in time that grows as the rules do: rules that are met too early wait in chains, and no rule is met twice
// for every mark that it waits for.
#ifndef ORDER_H
#define ORDER_H

#include "book.h"

#include <string.h>

// The rules that count for a stage, lowest first, and which marks still have some of them to come.
struct progress {
    struct marks unsettled;
    uint32_t left[MAX_MARKS], rules[MAX_RULES], count;
};

// Counts a rule that is written; says whether its target is settled by it.
static inline bool settles(struct progress *progress, uint32_t target)
{
    if (--progress->left[target] != 0)
        return false;
    drop(&progress->unsettled, target);
    return true;
}

// Rules that were met too early, in chains: at the mark that they wait to become yes or no while it is unsettled, then at their condition.
// `wanting` is how many of a condition's marks are unsettled. Those that need wait no longer are released, in sets of 64 rules; the sets below
// `low` are empty. `free` are the conditions that no rule has to wait for any more, as far as is known.
struct waiting {
    uint32_t at_mark[MAX_MARKS], at_condition[MAX_CONDITIONS], wanting[MAX_CONDITIONS], next[MAX_RULES];
    struct marks conditions, free, used_by[MAX_MARKS]; // by mark: the conditions that name it, once a rule had to wait
    uint64_t released[(MAX_RULES + 63) / 64];
    uint32_t low, count, chained;
    bool known;
};

static inline void begin_waiting(const struct book *book, struct waiting *waiting)
{
    memset(waiting->at_mark, 0xFF, book->marks * sizeof waiting->at_mark[0]);
    memset(waiting->at_condition, 0xFF, book->conditions * sizeof waiting->at_condition[0]);
    memset(&waiting->conditions, 0, sizeof waiting->conditions);
    memset(waiting->released, 0, (book->rules + 63) / 64 * sizeof waiting->released[0]);
    waiting->low = waiting->count = waiting->chained = 0;
    waiting->known = false;
}

// Whether a condition names an unsettled mark.
static inline bool wants(const struct book *book, const struct progress *progress, struct waiting *waiting, uint32_t condition)
{
    if (has(&waiting->free, condition))
        return false;
    if (has(&waiting->conditions, condition))
        return true;
    if (!meet(&book->refers[condition], &progress->unsettled)) {
        add(&waiting->free, condition);
        return false;
    }
    waiting->wanting[condition] = 0;
    for (int i = 0; i < MARK_WORDS; i++)
        waiting->wanting[condition] += size(book->refers[condition].word[i] & progress->unsettled.word[i]);
    add(&waiting->conditions, condition);
    return true;
}

// Puts a rule into the chain of what it waits for; says no where it waits for nothing.
static inline bool waits(const struct book *book, const struct progress *progress, struct waiting *waiting, uint32_t p, struct rule rule)
{
    uint32_t *chain;
    if (rule.trigger >= BECOME_YES && has(&progress->unsettled, rule.number))
        chain = &waiting->at_mark[rule.number];
    else if (rule.sense != NO_CONDITION && wants(book, progress, waiting, rule.condition))
        chain = &waiting->at_condition[rule.condition];
    else
        return false;
    waiting->next[p] = *chain;
    *chain = p;
    waiting->chained++;
    return true;
}

// Takes a chain apart: each of its rules waits for something else, or is released.
static inline void release(const struct book *book, const struct progress *progress, struct waiting *waiting, uint32_t *chain)
{
    uint32_t p = *chain, next;
    *chain = NO_RULE;
    for (; p != NO_RULE; p = next) {
        next = waiting->next[p];
        waiting->chained--;
        if (waits(book, progress, waiting, p, rule_of(book, p)))
            continue;
        waiting->released[p / 64] |= bit(p);
        waiting->low = p / 64 < waiting->low ? p / 64 : waiting->low;
        waiting->count++;
    }
}

static inline void tell_used_by(const struct book *book, struct waiting *waiting)
{
    memset(waiting->used_by, 0, book->marks * sizeof waiting->used_by[0]);
    for (uint32_t c = 0; c < book->conditions; c++)
        for (uint32_t i = 0; i < MARK_WORDS; i++)
            for (uint64_t left = book->refers[c].word[i]; left != 0; left &= left - 1)
                add(&waiting->used_by[64 * i + lowest(left)], c);
    waiting->known = true;
}

static inline void release_by(const struct book *book, const struct progress *progress, struct waiting *waiting, uint32_t mark)
{
    if (!waiting->known)
        tell_used_by(book, waiting);
    for (uint32_t i = 0; i < MARK_WORDS; i++)
        for (uint64_t left = waiting->used_by[mark].word[i] & waiting->conditions.word[i]; left != 0; left &= left - 1) {
            uint32_t c = 64 * i + lowest(left);
            if (--waiting->wanting[c] != 0)
                continue;
            drop(&waiting->conditions, c);
            add(&waiting->free, c);
            release(book, progress, waiting, &waiting->at_condition[c]);
        }
    release(book, progress, waiting, &waiting->at_mark[mark]); // last, so that what then waits at a condition was not counted down for it
}

static inline uint32_t lowest_released(struct waiting *waiting)
{
    while (waiting->released[waiting->low] == 0)
        waiting->low++;
    uint64_t *set = &waiting->released[waiting->low];
    uint32_t p = 64 * waiting->low + lowest(*set);
    *set &= *set - 1;
    waiting->count--;
    return p;
}

// A rule that is released comes before every one that was not met yet. At the end no rule waits, as at the beginning.
static inline void write_order(const struct book *book, struct progress *progress, struct waiting *waiting, uint32_t *room)
{
    memset(&waiting->free, 0, sizeof waiting->free);
    for (uint32_t done = 0, met = 0; done < progress->count;) {
        bool released = waiting->count != 0;
        uint32_t p = released ? lowest_released(waiting) : progress->rules[met++];
        struct rule rule = rule_of(book, p);
        if (!released && waits(book, progress, waiting, p, rule))
            continue;
        room[done++] = p;
        if (settles(progress, rule.target) && waiting->chained != 0)
            release_by(book, progress, waiting, rule.target);
    }
}

#endif
