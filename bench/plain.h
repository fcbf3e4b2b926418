// The paper's calls in plain C, as a controller's author would write them by hand: what the library is timed against.
// They take and give what include/ozhimka.h does: a chart by pointer, the other structs by value.
#ifndef PLAIN_H
#define PLAIN_H

#include <stdbool.h>
#include <stddef.h>
#include <stdint.h>

enum { MAX_NODES = 512, MAX_RELATIONS = 16384, MAX_EVENTS = 256, MAX_ROLES = 8 };
enum { MAX_STAGES = 256, MAX_MARKS = 1024, MAX_RULES = 131840, MAX_CONDITIONS = 1024, MAX_WORDS = 655616, MAX_HELD = 16, MAX_LIST = 4096 };
enum { SET_WORDS = MAX_EVENTS / 64, MARK_WORDS = MAX_MARKS / 64 }; // of 64 bits

struct answer {
    uint32_t code, place, other;
};

// Event e is bit e % 64 of word e / 64.
struct set {
    uint64_t word[SET_WORDS];
};

// conditions[e] and milestones[e] hold e back; responses[e], includes[e] and excludes[e] are what e does; role r may execute e where bit r of
// roles[e] is set, and everyone where none is
struct flat_chart {
    uint32_t count;
    struct set conditions[MAX_EVENTS], responses[MAX_EVENTS], milestones[MAX_EVENTS], includes[MAX_EVENTS], excludes[MAX_EVENTS];
    uint8_t roles[MAX_EVENTS];
};

struct marking {
    struct set executed, pending, included;
};

struct snapshot {
    bool marks[MAX_MARKS];
};

struct reading {
    struct answer answer;
    struct flat_chart chart;
    struct marking start;
};

struct read_back {
    struct answer answer;
    struct flat_chart chart;
};

struct mended {
    struct answer answer;
    uint32_t entries;
};

// By the numbers of the full book's marks: the numbers in the smaller book, or none.
struct smaller {
    struct answer answer;
    uint16_t table[MAX_MARKS];
};

// What blocks an event, with 12 and 13; else two empty sets.
struct open_test {
    struct answer answer;
    struct set conditions, milestones;
};

struct step {
    struct answer answer;
    struct marking marking;
    struct set conditions, milestones;
};

struct open_count {
    struct answer answer;
    uint32_t open, lowest;
};

struct finish {
    struct answer answer;
    bool yes;
};

struct settled {
    struct answer answer;
    struct snapshot snapshot;
};

struct indexed {
    struct answer answer;
    struct snapshot snapshot;
    uint32_t evaluated; // rules of the stage's order
};

struct listed {
    struct answer answer;
    uint32_t granted;
    struct snapshot snapshot;
    uint32_t evaluated;
};

struct recorded {
    uint32_t event, role;
};

struct replayed {
    struct answer answer;
    uint32_t code;
    uint64_t steps;
    struct marking marking;
    bool finished;
    struct set conditions, milestones;
};

struct reading plain_read_chart(const uint8_t *image, size_t length);
struct mended plain_mend(const uint8_t *image, size_t length, uint8_t *chart, size_t chart_length, uint8_t *list, size_t list_length);
struct step plain_execute(const struct flat_chart *chart, struct marking marking, uint32_t event, uint32_t role);
struct open_test plain_open_test(const struct flat_chart *chart, struct marking marking, uint32_t event);
struct open_count plain_count_open(const struct flat_chart *chart, struct marking marking);
struct finish plain_finished(const struct flat_chart *chart, struct marking marking);
struct settled plain_matching(const struct flat_chart *chart, struct marking marking);
struct answer plain_derive(const struct flat_chart *chart, uint8_t *room, size_t length);
struct smaller plain_derive_smaller(const struct flat_chart *chart, struct marking start, uint8_t *room, size_t length);
struct read_back plain_read_back(const uint8_t *image, size_t length);
struct answer plain_check(const uint8_t *image, size_t length, uint32_t stage, uint32_t *room, size_t count);
struct settled plain_complete(const uint8_t *image, size_t length, const uint32_t *order, size_t count, struct snapshot snapshot,
                              uint32_t stage);
struct answer plain_build_index(const uint8_t *image, size_t length, uint8_t *room, size_t bytes);
struct indexed plain_complete_indexed(const uint8_t *image, size_t length, const uint8_t *index, size_t bytes, struct snapshot snapshot,
                                      uint32_t stage);
struct listed plain_complete_list(const uint8_t *image, size_t length, const uint8_t *index, size_t bytes, struct snapshot snapshot,
                                 const uint32_t *stages, size_t count);

// A strike gives what a step does.
struct replayed plain_replay(const struct flat_chart *chart, struct marking start, const struct recorded *steps, size_t count);
struct step plain_strike(const struct flat_chart *chart, struct marking start, const struct recorded *steps, size_t count, uint32_t position);

#endif
