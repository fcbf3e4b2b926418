// The controller's interface to Ozhimka: reading a chart, mending a damaged one, stepping it, asking what blocks an event, replaying a record
// of steps, deriving its rule book or a smaller one, reading a derived book back, checking a book, indexing it, completing a stage, or a list
// of them.
//
// For C99 and later and C++11 and later. Link libozhimka.a (x86-64, the System V calling convention); of the C library it uses memcpy,
// memmove and memset at most. Every call ends, keeps no memory between calls, allocates nothing, and may be made from several threads at
// once.
//
// The caller's duties. A slice goes in as a pointer and a count of elements. The pointer may be null where the count is 0; else it is
// valid for as many elements as the count says, and nobody else writes them during the call. A pointer to uint32_t or to a recorded step is a
// multiple of 4. A chart goes in by a pointer that is never null, a multiple of 8, and nobody writes the chart during the call. Room that is
// lent to be written overlaps nothing else that the call is given. A `bool` is 0 or 1.
//
// Large structs. A chart takes 41,224 bytes and a snapshot 1,024: a chart goes in by pointer, but ozhimka_read_chart and
// ozhimka_read_back hand one back by value, and a snapshot goes both ways by value. What is kept of them is best static, or the caller's own.
//
// Stack, at most, with the copies that the caller's code makes there of structs that go in or come back by value (ozhimka_reading takes
// 41,336 bytes), and without what the C library and the dynamic linker take: ozhimka_read_back 176 KiB, ozhimka_check and
// ozhimka_build_index 64 KiB, ozhimka_complete, ozhimka_complete_indexed and ozhimka_complete_list 64 KiB, ozhimka_read_chart
// 128 KiB, ozhimka_mend 4 KiB, ozhimka_derive_smaller 16 KiB, ozhimka_matching 4 KiB, every other call 4
// KiB. examples/header_test.c measures them.
//
// Every answer is a code, a place and an other. Code 0 is granted; any other refuses, and then
//   - a marking or a snapshot that was handed in is handed back as it was; but where ozhimka_complete_list refuses within the list, it hands
//     back the snapshot reached;
//   - no byte of lent room is written.
// Place and other are 0 where the list below names nothing; in ozhimka_strike the place beside a step's code is that step's position. Of
// several reasons the lowest code is given, in ozhimka_execute the first of 14, 10, 32, 11, 12, 13, in ozhimka_open_test the first of 14, 10,
// 11, 12, 13, in ozhimka_strike the first of 14, 36 and the failing step's own, in ozhimka_complete the first of 20 to 26, 29, 27, 28, 30,
// in ozhimka_complete_indexed the first of 20 to 26, 34, 28, 29, 30, in ozhimka_complete_list the first of 20 to 26, 34, 28, 38 and then the
// first refused completion's 29 or 30; within a code the lowest place, then the lowest other.
//
// Chart image. Numbers of 16 bits, little-endian, and nothing behind the last:
//   header       count of nodes N (1 to 512), count of relations K (0 to 16,384), 8, 8 + 4 N
//   N nodes      parent (a node, or 65,535 for none), flags: the lower byte is the sum of 1 executed, 2 pending, 4 included, the upper byte
//                the roles that the node names, role r (0 to 7) worth 256 times 2 to the r
//   K relations  from (a node), to (a node), kind: 0 from is a condition of to, 1 to is a response of from, 2 from is a milestone of to,
//                3 from includes to, 4 from excludes to
// A node that is nobody's parent is an event; events are numbered from 0 in node order. Any other node is a group, and the lower byte of
// its flags is 0. Parents form no loop, also none of one node. A relation of a group holds for each event below it; repeats mean nothing
// more. An event is open to the roles that it names and to those that the groups above it name; where its whole chain names none, to all.
//
// List of changes, what ozhimka_mend did to a chart image: entries of five 16-bit numbers, little-endian, one behind the other:
//   step         1 a parent that does not exist, 2 flags, 3 a loop of parents, 4 a group's flags, 5 a relation
//   number       of the node, or in step 5 of the relation, from 0, as the damaged chart has it
//   the record   as it stood before that step: a node's parent and flags and 0, or a relation's from, to and kind
//
// Book image, little-endian, and nothing behind the last word:
//   header, 32 bits each        stages S (0 to 256), marks M (S to 1,024), rules R (0 to 131,840), conditions Q (0 to 1,024),
//                               words W (0 to 655,616), 32, 32 + 10 R, 32 + 10 R + 8 Q
//   R rules, 10 bytes each      trigger (8 bits: 0 none, 1 a stage completed, 2 a mark become yes, 3 a mark become no), sense (8 bits: 0 no
//                               condition, 1 as written, 2 negated), effect (8 bits: 0 clear, 1 set), 0 (8 bits), trigger's stage or mark,
//                               condition, target mark (16 bits each); 0 for the number of an absent trigger or condition
//   Q conditions, 8 bytes each  first word, count of words (32 bits each); conditions may share words
//   W words, 16 bits each       a mark, or 65,533 and, 65,534 or, 65,535 not; a condition's words are postfix
// Mark e below S is stage e, yes where it is open. Rules, conditions and words are numbered from 0.
//
// Order. For a stage all rules count but those that wait for another stage's completion, which cannot fire when this one is completed. A
// rule refers to the marks in its condition's text and to the mark that it waits to become yes or no; a completed stage is no reference.
// Rule p comes before rule q if q refers to p's target. A loop is a chain of rules that all count for one stage, each before the next, that
// comes back to its start, also a rule before itself. A book that has one for any stage is refused for every stage; a book without stages
// has none. A fit order of a stage lists each rule that counts for it once and no other rule, after all those listed that come before it.
// The running order of a stage is its fit order that always takes the lowest-numbered rule left whose predecessors are all listed. Two rules
// of the book, one that sets a mark and one that clears it, clash unless they wait for completions of different stages, or use the same
// condition record, one as written and one negated.
//
// Completing a stage goes once through a fit order of it. A rule fires if its trigger and its condition hold, both in the marks as they now
// stand. A trigger holds: none, always; a stage completed, if it is the call's stage; become yes, if the mark was no when the call began
// and is yes now; become no, if it was yes and is no now. A condition holds: none, always; as written, if its text gives yes; negated, if
// it gives no. A rule that fires sets or clears its target at once. A completed stage does not close by itself: a rule has to clear it.
//
// Index image, little-endian, the running orders of a book's stages beside it:
//   header, 32 bits each        stages S and rules R, both as in the book
//   S stages, 8 bytes each      where the stage's order begins, in bytes from the image's start, and how many rules it has (32 bits each)
//   S orders, 32 bits a rule    the stages' running orders, one behind the other without gaps
// A stage for which no rule counts has the offset at which its order would begin. An index is fit for a book exactly if it is, byte for byte
// and in length, what ozhimka_build_index writes for it: one byte more or less, an order of another stage or of another book is unfit, and so
// is an index with 16 bits a rule, which version 5 wrote, unless it lists no rule.
//
// What version 5 left stored. Chart images, books, lists of changes and records are as they were. The rest has another size:
//   order        16 bits a rule: ask ozhimka_check for it anew
//   index        16 bits a rule: build it anew; an old one that lists any rule gets 34
//   snapshot     256 marks: the marks from 256 to 1,023 are no (0)
//   marking      three numbers: each is the first of its set's four numbers, the upper three are 0
//   flat chart   64 numbers a table: read its image anew
//   table        of a smaller book, 256 places: those from 256 to 1,023 are 65,535
#ifndef OZHIMKA_H
#define OZHIMKA_H

// Windows has another calling convention, and so has x32, with pointers of 4 bytes.
#if !defined(__x86_64__) || defined(__ILP32__) || defined(_WIN32) || defined(__CYGWIN__)
#error "libozhimka.a is for x86-64 with the System V calling convention"
#endif

#ifndef __cplusplus
#include <stdbool.h>
#endif
#include <stddef.h>
#include <stdint.h>

// The header's version. A new major number changes what a program written for the one before relies on; a new minor number adds to it.
// Structs grow with either: an object built with an older header gives them too little room, so compile anew.
#define OZHIMKA_VERSION_MAJOR 6
#define OZHIMKA_VERSION_MINOR 0
#define OZHIMKA_VERSION "6.0"

#ifdef __cplusplus
extern "C" {
#endif

// Limits.
enum {
    OZHIMKA_MAX_NODES = 512,                     // nodes of a chart image, events and groups
    OZHIMKA_MAX_RELATIONS = 16384,               // relations of a chart image
    OZHIMKA_MAX_EVENTS = 256,                    // events of a chart
    OZHIMKA_NO_EVENT = OZHIMKA_MAX_EVENTS,       // the lowest event of a set that has none, and the lowest open one where none is open
    OZHIMKA_SET_WORDS = OZHIMKA_MAX_EVENTS / 64, // numbers of 64 bits that a set of events has
    OZHIMKA_MAX_STAGES = OZHIMKA_MAX_EVENTS,     // stages of a book
    OZHIMKA_MAX_MARKS = 1024,                    // marks of a book and of a snapshot
    OZHIMKA_MAX_RULES = 131840,                  // rules of a book, and numbers of an order
    OZHIMKA_MAX_CONDITIONS = 1024,               // conditions of a book
    OZHIMKA_MAX_WORDS = 655616,                  // words of a book
    OZHIMKA_MAX_STACK = 16,                      // values that a condition's text holds at once
    OZHIMKA_MAX_ROLES = 8,                       // roles, which are 0 to 7
    OZHIMKA_MAX_LIST = 4096                      // stages of a list of completions
};

// The chart image: sizes in bytes, flags and roles of a node, kinds of a relation.
enum {
    OZHIMKA_CHART_HEADER = 8,
    OZHIMKA_NODE_SIZE = 4,
    OZHIMKA_RELATION_SIZE = 6,
    OZHIMKA_MAX_CHART = OZHIMKA_CHART_HEADER + OZHIMKA_NODE_SIZE * OZHIMKA_MAX_NODES + OZHIMKA_RELATION_SIZE * OZHIMKA_MAX_RELATIONS,
    OZHIMKA_NO_PARENT = 65535,
    OZHIMKA_FLAGS_BYTE = 256                     // role r of a node's flags is worth this times 2 to the r
};

enum ozhimka_flag {
    OZHIMKA_FLAG_EXECUTED = 1,
    OZHIMKA_FLAG_PENDING = 2,
    OZHIMKA_FLAG_INCLUDED = 4,
    OZHIMKA_MAX_FLAGS = 7                        // all three
};

enum ozhimka_kind {
    OZHIMKA_KIND_CONDITION = 0,                  // from is a condition of to
    OZHIMKA_KIND_RESPONSE = 1,                   // to is a response of from
    OZHIMKA_KIND_MILESTONE = 2,                  // from is a milestone of to
    OZHIMKA_KIND_INCLUDE = 3,                    // from includes to
    OZHIMKA_KIND_EXCLUDE = 4,                    // from excludes to
    OZHIMKA_KINDS = 5
};

// The list of changes: the step of an entry, and sizes in bytes.
enum ozhimka_mend_step {
    OZHIMKA_MEND_PARENT = 1,                     // a parent that does not exist becomes none
    OZHIMKA_MEND_FLAGS = 2,                      // the flags 8 to 128 are cleared
    OZHIMKA_MEND_LOOP = 3,                       // the lowest node on a loop of parents loses its parent
    OZHIMKA_MEND_GROUP = 4,                      // a group's flags are cleared, not its roles
    OZHIMKA_MEND_RELATION = 5                    // a bad relation is dropped
};

enum {
    OZHIMKA_CHANGE_SIZE = 10,
    OZHIMKA_MAX_CHANGES = 2 * OZHIMKA_MAX_NODES + OZHIMKA_MAX_RELATIONS, // entries of any list
    OZHIMKA_MAX_CHANGE_LIST = OZHIMKA_CHANGE_SIZE * OZHIMKA_MAX_CHANGES
};

// The book image: sizes in bytes, the bytes of a rule, the words that are operators.
enum {
    OZHIMKA_BOOK_HEADER = 32,
    OZHIMKA_RULE_SIZE = 10,
    OZHIMKA_CONDITION_SIZE = 8,
    OZHIMKA_WORD_SIZE = 2,
    OZHIMKA_MAX_BOOK = OZHIMKA_BOOK_HEADER + OZHIMKA_RULE_SIZE * OZHIMKA_MAX_RULES + OZHIMKA_CONDITION_SIZE * OZHIMKA_MAX_CONDITIONS
                       + OZHIMKA_WORD_SIZE * OZHIMKA_MAX_WORDS,
    OZHIMKA_MAX_DERIVED = OZHIMKA_BOOK_HEADER + OZHIMKA_RULE_SIZE * OZHIMKA_MAX_RULES + OZHIMKA_CONDITION_SIZE * OZHIMKA_MAX_EVENTS
                          + OZHIMKA_WORD_SIZE * OZHIMKA_MAX_WORDS, // of a derived book, which has one condition an event, and of a smaller one
    OZHIMKA_NO_MARK = 65535                      // in the table beside a smaller book: a mark that it has not
};

// The index image: sizes in bytes.
enum {
    OZHIMKA_INDEX_HEADER = 8,
    OZHIMKA_INDEX_STAGE = 8,
    OZHIMKA_INDEX_RULE = 4,
    OZHIMKA_MAX_INDEX = OZHIMKA_INDEX_HEADER + OZHIMKA_INDEX_STAGE * OZHIMKA_MAX_STAGES
                        + OZHIMKA_INDEX_RULE * OZHIMKA_MAX_STAGES * OZHIMKA_MAX_RULES,
    OZHIMKA_MAX_DERIVED_INDEX = OZHIMKA_INDEX_HEADER + OZHIMKA_INDEX_STAGE * OZHIMKA_MAX_STAGES
                                + OZHIMKA_INDEX_RULE * OZHIMKA_MAX_STAGES * (4 * OZHIMKA_MAX_EVENTS + 1) // of a derived book of n events,
                                                              // of whose rules at most 4 n + 1 count for a stage
};

enum ozhimka_trigger {
    OZHIMKA_TRIGGER_NONE = 0,
    OZHIMKA_TRIGGER_COMPLETED = 1,               // a stage completed
    OZHIMKA_TRIGGER_BECOME_YES = 2,              // a mark become yes
    OZHIMKA_TRIGGER_BECOME_NO = 3                // a mark become no
};

enum ozhimka_sense {
    OZHIMKA_SENSE_NONE = 0,                      // no condition
    OZHIMKA_SENSE_AS_WRITTEN = 1,
    OZHIMKA_SENSE_NEGATED = 2
};

enum ozhimka_effect {
    OZHIMKA_EFFECT_CLEAR = 0,
    OZHIMKA_EFFECT_SET = 1
};

enum ozhimka_word {
    OZHIMKA_WORD_AND = 65533,
    OZHIMKA_WORD_OR = 65534,
    OZHIMKA_WORD_NOT = 65535
};

enum ozhimka_code {
    OZHIMKA_GRANTED = 0,
    OZHIMKA_CHART_SHORT = 1,       // chart under 8 bytes
    OZHIMKA_CHART_COUNT = 2,       // N or K is out of range
    OZHIMKA_CHART_LENGTH = 3,      // not 8 and 8 + 4 N in the header, or the length is not 8 + 4 N + 6 K
    OZHIMKA_BAD_NODE = 4,          // a parent from N to 65,534, or the lower byte of the flags above 7; place: node
    OZHIMKA_PARENTS_LOOP = 5,      // parents loop; place: lowest node on a loop
    OZHIMKA_GROUP_FLAGS = 6,       // group with flags in the lower byte; place: node
    OZHIMKA_MANY_EVENTS = 7,       // over 256 events, in ozhimka_mend after mending; place: how many
    OZHIMKA_BAD_RELATION = 8,      // from or to not below N, or a kind above 4; place: relation
    OZHIMKA_INCLUDE_EXCLUDE = 9,   // never given any more, and reserved: a pair may have include and exclude, and inclusion wins
    OZHIMKA_NO_SUCH_EVENT = 10,
    OZHIMKA_NOT_INCLUDED = 11,
    OZHIMKA_CONDITION_WANTING = 12, // place: lowest condition that is included and not executed; in a strike the step's position
    OZHIMKA_MILESTONE_WANTING = 13, // place: lowest milestone that is included and pending; in a strike the step's position
    OZHIMKA_UNFIT = 14,            // unfit flat chart or marking
    OZHIMKA_BOOK_ROOM = 15,        // room for the book too short; place: bytes needed
    OZHIMKA_BOOK_SHORT = 20,       // book under 32 bytes
    OZHIMKA_BOOK_COUNT = 21,       // S, M, R, Q or W is out of range
    OZHIMKA_BOOK_LENGTH = 22,      // an offset of the header is wrong, or the length is not 32 + 10 R + 8 Q + 2 W
    OZHIMKA_BAD_RULE = 23,         // trigger, sense or effect above its last value, the fourth byte not 0, the number of an absent trigger
                                   // or condition not 0, a stage not below S, a mark not below M, a condition not below Q; place: rule
    OZHIMKA_BAD_CONDITION = 24,    // no words, words past W, a word that is neither an operator nor below M, or a text that takes from an
                                   // empty stack, holds over 16 values or does not end with one; place: condition, used or not
    OZHIMKA_LOOP = 25,             // rules that count for one stage loop; place: lowest mark that a rule on a loop targets, over all stages
    OZHIMKA_CLASH = 26,            // two rules clash; place: first rule, other: second
    OZHIMKA_ORDER_UNFIT = 27,      // no fit order of the stage: it lists not just the rules that count for it, each once, or lists one before
                                   // another that comes before it
    OZHIMKA_MARK_ABOVE = 28,       // a mark of the snapshot at or above M is yes
    OZHIMKA_NO_SUCH_STAGE = 29,    // the stage is not below S; in a list place: its position, from 0
    OZHIMKA_STAGE_CLOSED = 30,     // in a list place: the stage's position, from 0
    OZHIMKA_ORDER_ROOM = 31,       // room for the order too short; place: numbers needed, which is how many rules count for the stage
    OZHIMKA_NOT_PERMITTED = 32,    // the event names roles and this is none of them, or the role is above 7
    OZHIMKA_NOT_DERIVED = 33,      // the book is not one that ozhimka_derive writes for some chart
    OZHIMKA_INDEX_UNFIT = 34,      // the index is not the one of this book
    OZHIMKA_INDEX_ROOM = 35,       // room for the index too short; place: bytes needed
    OZHIMKA_NO_SUCH_POSITION = 36, // the position to strike is outside the record
    OZHIMKA_MEND_ROOM = 37,        // room for the mended chart or for the list too short; place: bytes for the chart, other: bytes for the list
    OZHIMKA_LONG_LIST = 38         // a list of over 4,096 stages; place: how many, or 4,294,967,295 for more than that
};

struct ozhimka_answer {
    uint32_t code, place, other;
};

// A set of events, event e at bit e % 64 of words[e / 64]; ozhimka_set_has and the functions beside it spare one that.
struct ozhimka_set {
    uint64_t words[OZHIMKA_SET_WORDS];
};

// A flat chart: sets of events. conditions[e] and milestones[e] hold event e back; responses[e] become pending, includes[e] included and
// excludes[e] excluded when e is executed. Role r may execute e where bit r of roles[e] is set; where roles[e] is 0, e is open to everyone,
// which is to roles 0 to 7. The chart is fit if count is 1 to 256, no set has an event at or above count, and every entry at or above count is
// empty, or 0 in roles. What e both excludes and includes is included.
struct ozhimka_chart {
    uint32_t count;
    struct ozhimka_set conditions[OZHIMKA_MAX_EVENTS], responses[OZHIMKA_MAX_EVENTS], milestones[OZHIMKA_MAX_EVENTS];
    struct ozhimka_set includes[OZHIMKA_MAX_EVENTS], excludes[OZHIMKA_MAX_EVENTS];
    uint8_t roles[OZHIMKA_MAX_EVENTS];
};

// Which events were executed, are pending, are included. It is fit for a chart if no set has an event at or above the chart's count.
struct ozhimka_marking {
    struct ozhimka_set executed, pending, included;
};

// Marks of a book, yes or no. Mark e below the book's count of stages is stage e. In a derived book of n events, stage e is open,
// n + e executed, 2n + e included, 3n + e answered (not pending).
struct ozhimka_snapshot {
    bool marks[OZHIMKA_MAX_MARKS];
};

struct ozhimka_reading {
    struct ozhimka_answer answer;
    struct ozhimka_chart chart;
    struct ozhimka_marking marking;
};

// What mending gives beside chart and list: how many entries the list has, 0 where the chart needed no mending and where the call is refused.
struct ozhimka_mended {
    struct ozhimka_answer answer;
    uint32_t entries;
};

// The chart behind a derived book, its roles all 0.
struct ozhimka_chart_behind {
    struct ozhimka_answer answer;
    struct ozhimka_chart chart;
};

// What deriving a smaller book gives beside it. By the number m that a mark has in the full book, table[m] is its number in the smaller one,
// or OZHIMKA_NO_MARK where it was dropped. Of n events the full book has 4 n marks; behind them, and throughout where the call is refused, stands
// OZHIMKA_NO_MARK.
struct ozhimka_smaller {
    struct ozhimka_answer answer;
    uint16_t table[OZHIMKA_MAX_MARKS];
};

// Whether an event is open, and all that blocks it. With 12 and with 13 both sets are whole: `conditions` are the event's conditions that
// are included and not yet executed, `milestones` its milestones that are included and still pending. With 12 the first is not empty and the
// second may be empty or not; with 13 the first is empty. With every other code, granted and 11 among them, both are empty. Once every
// condition in the first set was executed and every milestone in the second is pending no more, with nothing else changed, the event is open.
struct ozhimka_tested {
    struct ozhimka_answer answer;
    struct ozhimka_set conditions, milestones;
};

// The sets are those that ozhimka_open_test gives with 12 and 13, and empty with every other code.
struct ozhimka_step {
    struct ozhimka_answer answer;
    struct ozhimka_marking marking;
    struct ozhimka_set conditions, milestones;
};

struct ozhimka_open_count {
    struct ozhimka_answer answer;
    uint32_t count, lowest;
};

struct ozhimka_finish {
    struct ozhimka_answer answer;
    bool yes;
};

struct ozhimka_settled {
    struct ozhimka_answer answer;
    struct ozhimka_snapshot snapshot;
};

// What a completion through the index gives: the snapshot after it, and how many rules were evaluated, which is one for each rule in the
// stage's order, fired or not, and 0 where the completion is refused. Of a derived book of n events it is at most 4 n + 1.
struct ozhimka_indexed_completion {
    struct ozhimka_answer answer;
    struct ozhimka_snapshot snapshot;
    uint32_t evaluated;
};

// What a list of completions gives: how many of it were granted, the snapshot after these, and how many rules these evaluated together.
struct ozhimka_list_completion {
    struct ozhimka_answer answer;
    uint32_t granted;
    struct ozhimka_snapshot snapshot;
    uint32_t evaluated;
};

// A step that a purchase's record says was taken: the event, and the role that executed it.
struct ozhimka_recorded {
    uint32_t event, role;
};

// How far a record is allowed. Where `steps` is below the record's count, the step at that position is the first that is not allowed and
// `code` says why; else `code` is 0. With 12 and 13 the sets are all that blocks that step, as ozhimka_step has them; else both are empty.
struct ozhimka_replayed {
    struct ozhimka_answer answer;
    uint32_t code;
    uint64_t steps;
    struct ozhimka_marking marking;
    bool finished;
    struct ozhimka_set conditions, milestones;
};

// With 12 and 13 the sets are all that blocks the step that fails, as ozhimka_step has them; else both are empty.
struct ozhimka_struck {
    struct ozhimka_answer answer;
    struct ozhimka_marking marking;
    struct ozhimka_set conditions, milestones;
};

// The sizes that the archive is built with: a compiler that lays the structs out in another way stops here.
typedef char ozhimka_sizes[sizeof(size_t) == 8 && sizeof(struct ozhimka_answer) == 12 && sizeof(struct ozhimka_set) == 32
                                   && sizeof(struct ozhimka_chart) == 41224 && offsetof(struct ozhimka_chart, conditions) == 8
                                   && offsetof(struct ozhimka_chart, roles) == 40968 && sizeof(struct ozhimka_marking) == 96
                                   && sizeof(struct ozhimka_snapshot) == 1024 && sizeof(struct ozhimka_reading) == 41336
                                   && sizeof(struct ozhimka_step) == 176 && sizeof(struct ozhimka_tested) == 80
                                   && sizeof(struct ozhimka_open_count) == 20 && sizeof(struct ozhimka_finish) == 16
                                   && sizeof(struct ozhimka_settled) == 1036 && sizeof(struct ozhimka_indexed_completion) == 1040
                                   && sizeof(struct ozhimka_list_completion) == 1044 && sizeof(struct ozhimka_recorded) == 8
                                   && sizeof(struct ozhimka_replayed) == 192 && offsetof(struct ozhimka_replayed, conditions) == 128
                                   && sizeof(struct ozhimka_struck) == 176 && sizeof(struct ozhimka_chart_behind) == 41240
                                   && sizeof(struct ozhimka_mended) == 16 && sizeof(struct ozhimka_smaller) == 2060
                               ? 1
                               : -1];

// ---- sets of events

// Whether an event is in a set; no number from OZHIMKA_MAX_EVENTS on is.
static inline bool ozhimka_set_has(struct ozhimka_set set, uint32_t event)
{
    return event < OZHIMKA_MAX_EVENTS && (set.words[event / 64] >> event % 64 & 1) != 0;
}

// Puts an event into a set, or takes it out; a number from OZHIMKA_MAX_EVENTS on changes nothing.
static inline void ozhimka_set_put(struct ozhimka_set *set, uint32_t event)
{
    if (event < OZHIMKA_MAX_EVENTS)
        set->words[event / 64] |= (uint64_t)1 << event % 64;
}

static inline void ozhimka_set_drop(struct ozhimka_set *set, uint32_t event)
{
    if (event < OZHIMKA_MAX_EVENTS)
        set->words[event / 64] &= ~((uint64_t)1 << event % 64);
}

// The lowest event of a set that is not below `from`, or OZHIMKA_NO_EVENT where there is none. All events of a set, lowest first:
//   for (uint32_t e = ozhimka_set_next(set, 0); e < OZHIMKA_NO_EVENT; e = ozhimka_set_next(set, e + 1))
static inline uint32_t ozhimka_set_next(struct ozhimka_set set, uint32_t from)
{
    while (from < OZHIMKA_MAX_EVENTS && (set.words[from / 64] >> from % 64 & 1) == 0)
        from = set.words[from / 64] >> from % 64 == 0 ? (from / 64 + 1) * 64 : from + 1;
    return from < OZHIMKA_MAX_EVENTS ? from : (uint32_t)OZHIMKA_NO_EVENT;
}

// How many events a set has.
static inline uint32_t ozhimka_set_count(struct ozhimka_set set)
{
    uint32_t count = 0;
    for (int i = 0; i < OZHIMKA_SET_WORDS; i++)
        for (uint64_t left = set.words[i]; left != 0; left &= left - 1)
            count++;
    return count;
}

static inline bool ozhimka_set_empty(struct ozhimka_set set)
{
    uint64_t any = 0;
    for (int i = 0; i < OZHIMKA_SET_WORDS; i++)
        any |= set.words[i];
    return any == 0;
}

static inline bool ozhimka_set_same(struct ozhimka_set one, struct ozhimka_set other)
{
    uint64_t differ = 0;
    for (int i = 0; i < OZHIMKA_SET_WORDS; i++)
        differ |= one.words[i] ^ other.words[i];
    return differ == 0;
}

// The set of all events below `count`, and so of a whole chart; below 0, the empty set.
static inline struct ozhimka_set ozhimka_set_below(uint32_t count)
{
    struct ozhimka_set set;
    for (uint32_t i = 0; i < OZHIMKA_SET_WORDS; i++)
        set.words[i] = count >= 64 * i + 64 ? UINT64_MAX : count <= 64 * i ? 0 : ((uint64_t)1 << count % 64) - 1;
    return set;
}

static inline bool ozhimka_marking_same(struct ozhimka_marking one, struct ozhimka_marking other)
{
    return ozhimka_set_same(one.executed, other.executed) && ozhimka_set_same(one.pending, other.pending)
           && ozhimka_set_same(one.included, other.included);
}

// ---- the calls, and what a book's header tells

// The five counts at the start of a book image.
struct ozhimka_counts {
    uint32_t stages, marks, rules, conditions, words;
};

// The flat chart and the start marking of a chart image of `length` bytes. Refuses with 1 to 8, and then gives a chart of count 0 with
// every set empty and no roles, and an empty marking.
struct ozhimka_reading ozhimka_read_chart(const uint8_t *image, size_t length);

// Mends a damaged chart image of `length` bytes: writes one that ozhimka_read_chart accepts to the start of the room `chart`, and every change
// to the start of the room `list`. The header has to be right. Then, in this order:
//   1  a parent that does not exist, from N to 65,534, becomes none
//   2  the flags 8, 16, 32, 64 and 128 of a node are cleared; its roles stay
//   3  while parents loop, the lowest node on a loop loses its parent, so one node for each loop
//   4  the flags 1, 2 and 4 of a group are cleared; its roles stay. Groups are those that are left now: a node that lost its only child is an
//      event and keeps its flags
//   5  a relation whose from or to is no node, or whose kind is above 4, is dropped, and the header's K made right; the others close up
// Each step goes over the whole chart before the next begins. The list has each change once, in this order, within a step the lowest record
// first; `entries` is how many it has, the header's K is no entry. An accepted chart comes out byte for byte, with no entry, and so does what
// was mended when it is mended again. From chart and list the damaged chart can be put together again: undo the entries from the last to the
// first; a dropped relation goes in at its old number less the dropped ones with lower numbers, and the counts follow.
// The mended chart has 8 + 4 N + 6 K bytes by its own header, and the list OZHIMKA_CHANGE_SIZE times `entries`; what lies behind each stays as
// it was. `length` bytes are always enough for the chart. A chart of N nodes and K relations has at most 2 N + K changes, since steps 1 and 3
// leave a node without a parent and there are no more groups than nodes with one: OZHIMKA_MAX_CHANGE_LIST bytes are enough for any list. The
// three slices do not overlap.
// Refuses with the first that holds of 1, 2, 3 (a header that cannot be mended), 7 (over 256 events after mending, place: how many; bad
// relations do not hide it), 37 (either room too short, place: bytes that the chart needs, other: bytes that the list needs, both whichever is
// short); then nothing is written to either room, and there are 0 entries.
struct ozhimka_mended ozhimka_mend(const uint8_t *image, size_t length, uint8_t *chart, size_t chart_length, uint8_t *list,
                                   size_t list_length);

// What the archive has for the calls on a chart: each takes the count and the tables of one, of OZHIMKA_MAX_EVENTS entries each, where they
// stand. The calls below that take a chart are these.
struct ozhimka_step ozhimka_execute_in(uint32_t count, const struct ozhimka_set *conditions, const struct ozhimka_set *responses,
                                       const struct ozhimka_set *milestones, const struct ozhimka_set *includes,
                                       const struct ozhimka_set *excludes, const uint8_t *roles, struct ozhimka_marking marking,
                                       uint32_t event, uint32_t role);
struct ozhimka_tested ozhimka_open_test_in(uint32_t count, const struct ozhimka_set *conditions, const struct ozhimka_set *responses,
                                           const struct ozhimka_set *milestones, const struct ozhimka_set *includes,
                                           const struct ozhimka_set *excludes, const uint8_t *roles, struct ozhimka_marking marking,
                                           uint32_t event);
struct ozhimka_open_count ozhimka_count_open_in(uint32_t count, const struct ozhimka_set *conditions, const struct ozhimka_set *responses,
                                                const struct ozhimka_set *milestones, const struct ozhimka_set *includes,
                                                const struct ozhimka_set *excludes, const uint8_t *roles, struct ozhimka_marking marking);
struct ozhimka_finish ozhimka_finished_in(uint32_t count, const struct ozhimka_set *conditions, const struct ozhimka_set *responses,
                                          const struct ozhimka_set *milestones, const struct ozhimka_set *includes,
                                          const struct ozhimka_set *excludes, const uint8_t *roles, struct ozhimka_marking marking);
struct ozhimka_settled ozhimka_matching_in(uint32_t count, const struct ozhimka_set *conditions, const struct ozhimka_set *responses,
                                           const struct ozhimka_set *milestones, const struct ozhimka_set *includes,
                                           const struct ozhimka_set *excludes, const uint8_t *roles, struct ozhimka_marking marking);
struct ozhimka_answer ozhimka_derive_in(uint32_t count, const struct ozhimka_set *conditions, const struct ozhimka_set *responses,
                                        const struct ozhimka_set *milestones, const struct ozhimka_set *includes,
                                        const struct ozhimka_set *excludes, const uint8_t *roles, uint8_t *room, size_t length);
struct ozhimka_smaller ozhimka_derive_smaller_in(uint32_t count, const struct ozhimka_set *conditions, const struct ozhimka_set *responses,
                                                 const struct ozhimka_set *milestones, const struct ozhimka_set *includes,
                                                 const struct ozhimka_set *excludes, const uint8_t *roles, struct ozhimka_marking start,
                                                 uint8_t *room, size_t length);
// Of a record these take the numbers, event and role in turn, and how many numbers there are; an odd last number is no step.
struct ozhimka_replayed ozhimka_replay_in(uint32_t count, const struct ozhimka_set *conditions, const struct ozhimka_set *responses,
                                          const struct ozhimka_set *milestones, const struct ozhimka_set *includes,
                                          const struct ozhimka_set *excludes, const uint8_t *roles, struct ozhimka_marking start,
                                          const uint32_t *recorded, size_t numbers);
struct ozhimka_struck ozhimka_strike_in(uint32_t count, const struct ozhimka_set *conditions, const struct ozhimka_set *responses,
                                        const struct ozhimka_set *milestones, const struct ozhimka_set *includes,
                                        const struct ozhimka_set *excludes, const uint8_t *roles, struct ozhimka_marking start,
                                        const uint32_t *recorded, size_t numbers, uint32_t position);

// The marking after an event is executed by a role. The role has to be permitted: 0 to 7, and one of roles[event] unless that is 0; for a
// chart that names no roles any of 0 to 7 will do. The event has to be open: included, each included condition of it executed, no included
// milestone of it pending. It is then executed and, unless it is its own response, pending no more; its responses are pending, what it
// excludes is excluded, and then what it includes included. Refuses with the first that holds of 14 (unfit chart or marking), 10 (no such
// event), 32 (role not permitted), 11 (not included), 12 (condition wanting), 13 (milestone wanting), and then hands the marking back; 12 and
// 13 come with all that blocks the event, which ozhimka_open_test tells without a step and without a role.
// Replay and strike take the roles of a record's steps. No other call takes a role, and a rule book carries none: a controller that runs
// the book asks here whether the role is permitted.
static inline struct ozhimka_step ozhimka_execute(const struct ozhimka_chart *chart, struct ozhimka_marking marking, uint32_t event,
                                                  uint32_t role)
{
    return ozhimka_execute_in(chart->count, chart->conditions, chart->responses, chart->milestones, chart->includes, chart->excludes,
                              chart->roles, marking, event, role);
}

// Whether an event is open: included, each included condition of it executed, no included milestone of it pending; and if it is not, all that
// blocks it. It asks for no role and changes nothing. Refuses with the first that holds of 14 (unfit chart or marking), 10 (no such event),
// 11 (not included), 12 (condition wanting), 13 (milestone wanting), with the lowest blocking event as place; 12 and 13 come with both whole
// sets, every other code with two empty ones.
static inline struct ozhimka_tested ozhimka_open_test(const struct ozhimka_chart *chart, struct ozhimka_marking marking, uint32_t event)
{
    return ozhimka_open_test_in(chart->count, chart->conditions, chart->responses, chart->milestones, chart->includes, chart->excludes,
                                chart->roles, marking, event);
}

// How many events are open, and the lowest of them, OZHIMKA_NO_EVENT if none is. Refuses with 14, and then gives 0 and OZHIMKA_NO_EVENT.
static inline struct ozhimka_open_count ozhimka_count_open(const struct ozhimka_chart *chart, struct ozhimka_marking marking)
{
    return ozhimka_count_open_in(chart->count, chart->conditions, chart->responses, chart->milestones, chart->includes, chart->excludes,
                                 chart->roles, marking);
}

// Whether no event is both included and pending. Refuses with 14, and then says no.
static inline struct ozhimka_finish ozhimka_finished(const struct ozhimka_chart *chart, struct ozhimka_marking marking)
{
    return ozhimka_finished_in(chart->count, chart->conditions, chart->responses, chart->milestones, chart->includes, chart->excludes,
                               chart->roles, marking);
}

// The snapshot of the derived book that stands for a marking of the chart. Refuses with 14, and then gives every mark no.
static inline struct ozhimka_settled ozhimka_matching(const struct ozhimka_chart *chart, struct ozhimka_marking marking)
{
    return ozhimka_matching_in(chart->count, chart->conditions, chart->responses, chart->milestones, chart->includes, chart->excludes,
                               chart->roles, marking);
}

// Writes the chart's rule book to the start of the room, which has `length` bytes; OZHIMKA_MAX_DERIVED are enough for any chart.
// ozhimka_book_length tells its length. What lies behind it stays as it was.
// From the matching snapshot of a marking, completing its stage e gives the matching snapshot of the marking after event e is executed.
// Refuses with 14 and 15.
static inline struct ozhimka_answer ozhimka_derive(const struct ozhimka_chart *chart, uint8_t *room, size_t length)
{
    return ozhimka_derive_in(chart->count, chart->conditions, chart->responses, chart->milestones, chart->includes, chart->excludes,
                             chart->roles, room, length);
}

// Writes a smaller rule book to the start of the room, which has `length` bytes: that of a chart which begins in the marking `start`, without the
// marks that never matter from there on. Of the full book, the one that ozhimka_derive writes,
//   executed e goes if e is a condition of nothing, whether it was executed or not
//   included e goes if nothing includes or excludes e, and e is included at the start
//   answered e goes if e is nobody's response, and is not pending at the start
// where an event is something to itself as to any other. Rules that set or clear a dropped mark go. In a text a dropped included or answered
// mark reads as yes: a clause on a milestone that cannot become pending goes, and a clause on an event that is always included keeps its second
// half alone, the executed or the answered mark. An event of whose text nothing is left is always open: its condition goes, its stage is set by
// a rule without trigger and condition, and no rule clears it. What is left closes up in its old order, marks too, as `table` says; stages stay,
// with their numbers.
// The smaller book has no more marks, rules, conditions and words than the full one, and the same bytes where no mark goes; nor is its index
// longer. OZHIMKA_MAX_DERIVED bytes are enough for any chart, and ozhimka_book_length tells its length; what lies behind it stays as it was.
// Its start snapshot has mark table[m] as the matching snapshot of `start` has mark m, for each m with a number there, and every other mark no.
// From there any completions, one after another, are granted and refused as those of the full book from its matching snapshot, and leave stages
// and kept marks as that has them. The purchase is finished where no event of n has mark 2n + e yes and 3n + e no, looked up in the table, dropped
// ones read as yes. A marking that no steps lead to from `start` needs a book of its own. ozhimka_read_back refuses a smaller book with 33 unless no
// mark went.
// Refuses with the first that holds of 14 (unfit chart or marking), 15, and then the table has OZHIMKA_NO_MARK throughout.
static inline struct ozhimka_smaller ozhimka_derive_smaller(const struct ozhimka_chart *chart, struct ozhimka_marking start, uint8_t *room,
                                                            size_t length)
{
    return ozhimka_derive_smaller_in(chart->count, chart->conditions, chart->responses, chart->milestones, chart->includes, chart->excludes,
                                     chart->roles, start, room, length);
}

// How far a record of `count` steps is allowed from a start marking: the chart's own or any other fit one. Each step is what
// ozhimka_execute does, from the marking that the steps before it gave; chart and marking are tested once, so that a step costs less than a
// call of it. The first step that is not allowed ends the replay and refuses nothing: the answer is granted, `steps` is how many were
// allowed, which is that step's position from 0, `code` is its code, the first that holds of 10, 32, 11, 12, 13, the sets are all that blocks
// it with 12 and 13, and marking and finished are those reached before it; the place that goes with the code is the lowest event of
// `conditions` with 12, of `milestones` with 13.
// Where all are allowed, as in an empty record, `steps` is `count`, `code` is 0, and marking and finished are those at the end.
// Refuses with 14 (unfit chart or marking) alone, before any step, and then hands the marking back beside 0 steps, code 0, not finished.
static inline struct ozhimka_replayed ozhimka_replay(const struct ozhimka_chart *chart, struct ozhimka_marking start,
                                                     const struct ozhimka_recorded *steps, size_t count)
{
    return ozhimka_replay_in(chart->count, chart->conditions, chart->responses, chart->milestones, chart->includes, chart->excludes,
                             chart->roles, start, (const uint32_t *)(const void *)steps, 2 * count);
}

// Whether the record is allowed without the step at one position, from 0, and the marking that the shortened record then ends in. The steps
// before the struck one are judged as well, the struck one is not. Refuses with the first that holds of 14 (unfit chart or marking), 36 (no
// such position; always where the record is empty), both before any step, and then the code of the first step that is not allowed, 10, 32,
// 11, 12 or 13, with that step's position in the whole record as place (4,294,967,295 for that position and all behind it) and 0 as other.
// What is refused hands the start marking back; 12 and 13 come with all that blocks the step that fails.
static inline struct ozhimka_struck ozhimka_strike(const struct ozhimka_chart *chart, struct ozhimka_marking start,
                                                   const struct ozhimka_recorded *steps, size_t count, uint32_t position)
{
    return ozhimka_strike_in(chart->count, chart->conditions, chart->responses, chart->milestones, chart->includes, chart->excludes,
                             chart->roles, start, (const uint32_t *)(const void *)steps, 2 * count, position);
}

// The flat chart behind a derived book of `length` bytes, for one whose chart was lost. It accepts exactly the books that ozhimka_derive
// writes for some fit chart, and gives that chart's count and relations, of exclusions those that no inclusion overrules; the others do
// nothing. No chart with other such relations has this book, and ozhimka_derive writes the same bytes for what is given. A book carries no
// roles, no groups and no marking: role bytes are 0, which is open to everyone, and which events were executed, are pending or are included
// at the start is for the caller to say.
// Refuses with the first that holds of 20 to 26, 33 (not a derived book), and then gives a chart of count 0 with every set empty.
struct ozhimka_chart_behind ozhimka_read_back(const uint8_t *book, size_t length);

// Checks a book of `length` bytes, for all of its stages, and writes the running order of one stage to the start of the room, which has
// place for `count` numbers; OZHIMKA_MAX_RULES are enough for any book. It writes one number for each rule that counts for the stage, as
// many as ozhimka_order_length says; what lies behind them stays as it was. A stage's order holds as long as the book stays the same.
// Refuses with the first that holds of 20 to 26 (whichever stage is asked for), 29 (no such stage; always where the book has none), 31.
struct ozhimka_answer ozhimka_check(const uint8_t *book, size_t length, uint32_t stage, uint32_t *room, size_t count);

// The snapshot after a stage is completed: goes once through the order, which has one number for each rule that counts for this stage (as
// ozhimka_check writes it for the stage; any fit order of the stage ends alike), and fires each rule whose trigger and condition hold.
// The order of one stage is unfit for another, unless the same rules count for both. The book is checked anew in every call.
// Books carry no roles: who may complete a stage is for ozhimka_execute to say first.
// Refuses with the first that holds of 20 to 26, 29 (no such stage), 27 (unfit order), 28 (a mark above), 30 (stage closed), and then
// hands the snapshot back.
struct ozhimka_settled ozhimka_complete(const uint8_t *book, size_t length, const uint32_t *order, size_t count,
                                        struct ozhimka_snapshot snapshot, uint32_t stage);

// Checks a book of `length` bytes, for all of its stages, and writes its index to the start of the room, which has `bytes` bytes;
// OZHIMKA_MAX_DERIVED_INDEX are enough for a derived book. For any book OZHIMKA_MAX_INDEX are, some 129 MiB, since a rule that waits for no
// completion stands in the order of every stage; ozhimka_index_length tells how long the index of one book is. What lies behind it stays as
// it was. The index holds as long as the book stays the same: a controller makes it once, when it loads the book, and keeps both. Refuses with
// the first that holds of 20 to 26, 35.
struct ozhimka_answer ozhimka_build_index(const uint8_t *book, size_t length, uint8_t *room, size_t bytes);

// The snapshot after a stage is completed along the order that the index has for it: for a stage that the book has, the same answer and
// snapshot as ozhimka_complete gives with the order from ozhimka_check. `bytes` is the index's length, no more. Book and index are checked
// anew in every call, the orders of all stages, whichever is completed. `evaluated` is how many rules the stage's order has, whether they
// fired or not; what the check reads is not counted.
// Refuses with the first that holds of 20 to 26, 34 (unfit index), 28 (a mark above), 29 (no such stage), 30 (stage closed), and then hands
// the snapshot back, with 0 evaluated.
struct ozhimka_indexed_completion ozhimka_complete_indexed(const uint8_t *book, size_t length, const uint8_t *index, size_t bytes,
                                                           struct ozhimka_snapshot snapshot, uint32_t stage);

// Completes `count` stages through the index, one after another, and stops at the first that is refused: the snapshot, the number granted
// and the sum of the rules evaluated are those of as many calls of ozhimka_complete_indexed, each with the snapshot of the one before. Book
// and index are checked once. An empty list is granted, changes nothing and evaluates no rule.
// Refuses with the first that holds of 20 to 26, 34 (unfit index), 28 (a mark above), 38 (over OZHIMKA_MAX_LIST stages, place: how many); then
// none was granted, no rule evaluated, and the snapshot is handed back as it was. Within the list it refuses with 29 (no such stage) or 30
// (stage closed), with the refused stage's position in the list, from 0, as place, which is also the number granted; and hands back the
// snapshot reached, with the rules that the granted ones evaluated.
struct ozhimka_list_completion ozhimka_complete_list(const uint8_t *book, size_t length, const uint8_t *index, size_t bytes,
                                                     struct ozhimka_snapshot snapshot, const uint32_t *stages, size_t count);

// The counts in a book's header, which is the first OZHIMKA_BOOK_HEADER bytes.
static inline struct ozhimka_counts ozhimka_book_counts(const uint8_t *header)
{
    uint32_t number[5];
    struct ozhimka_counts counts;
    for (int i = 0; i < 5; i++)
        number[i] = (uint32_t)header[4 * i] | (uint32_t)header[4 * i + 1] << 8 | (uint32_t)header[4 * i + 2] << 16
                    | (uint32_t)header[4 * i + 3] << 24;
    counts.stages = number[0];
    counts.marks = number[1];
    counts.rules = number[2];
    counts.conditions = number[3];
    counts.words = number[4];
    return counts;
}

// The length in bytes of the book, derived or any other, that has this header; above OZHIMKA_MAX_BOOK only if a count is out of range.
static inline size_t ozhimka_book_length(const uint8_t *header)
{
    struct ozhimka_counts counts = ozhimka_book_counts(header);
    return OZHIMKA_BOOK_HEADER + OZHIMKA_RULE_SIZE * (size_t)counts.rules + OZHIMKA_CONDITION_SIZE * (size_t)counts.conditions
           + OZHIMKA_WORD_SIZE * (size_t)counts.words;
}

// How many rules of a book count for a stage, and so the numbers of its orders. The book's length has to be ozhimka_book_length's, as it is
// of every book that ozhimka_check grants.
static inline size_t ozhimka_order_length(const uint8_t *book, uint32_t stage)
{
    const uint8_t *rule = book + OZHIMKA_BOOK_HEADER;
    size_t rules = ozhimka_book_counts(book).rules, counted = 0;
    for (size_t p = 0; p < rules; p++, rule += OZHIMKA_RULE_SIZE)
        if (rule[0] != OZHIMKA_TRIGGER_COMPLETED || ((uint32_t)rule[4] | (uint32_t)rule[5] << 8) == stage)
            counted++;
    return counted;
}

// The length in bytes of a book's index. The book's length has to be ozhimka_book_length's, and each rule that waits for a completion has to
// name a stage that the book has, as in every book that ozhimka_check grants.
static inline size_t ozhimka_index_length(const uint8_t *book)
{
    const uint8_t *rule = book + OZHIMKA_BOOK_HEADER;
    struct ozhimka_counts counts = ozhimka_book_counts(book);
    size_t waiting = 0;
    for (size_t p = 0; p < counts.rules; p++, rule += OZHIMKA_RULE_SIZE)
        if (rule[0] == OZHIMKA_TRIGGER_COMPLETED)
            waiting++; // for one stage's completion; any other rule counts for every stage
    return OZHIMKA_INDEX_HEADER + OZHIMKA_INDEX_STAGE * (size_t)counts.stages
           + OZHIMKA_INDEX_RULE * (waiting + counts.stages * (counts.rules - waiting));
}

// A code in words, with what its place and other are.
static inline const char *ozhimka_reason(uint32_t code)
{
    switch (code) {
    case OZHIMKA_GRANTED: return "granted";
    case OZHIMKA_CHART_SHORT: return "the chart is too short to have a header";
    case OZHIMKA_CHART_COUNT: return "the chart's count of nodes or of relations is out of range";
    case OZHIMKA_CHART_LENGTH: return "the chart's offsets or its length do not fit its counts";
    case OZHIMKA_BAD_NODE: return "a node's parent is no node of the chart, or the lower byte of its flags is above 7 (place: the node)";
    case OZHIMKA_PARENTS_LOOP: return "parents form a loop (place: the lowest node on one)";
    case OZHIMKA_GROUP_FLAGS: return "a group has flags in the lower byte (place: its node)";
    case OZHIMKA_MANY_EVENTS: return "the chart has over 256 events (place: how many)";
    case OZHIMKA_BAD_RELATION: return "a relation names no node of the chart, or no kind (place: the relation)";
    case OZHIMKA_INCLUDE_EXCLUDE: return "a code that is never given any more: an event may both include and exclude another";
    case OZHIMKA_NO_SUCH_EVENT: return "the chart has no such event";
    case OZHIMKA_NOT_INCLUDED: return "the event is not included";
    case OZHIMKA_CONDITION_WANTING: return "a condition of the event was not executed (place: the lowest such, in a strike the step's position)";
    case OZHIMKA_MILESTONE_WANTING: return "a milestone of the event is pending (place: the lowest such, in a strike the step's position)";
    case OZHIMKA_UNFIT: return "the flat chart or the marking is unfit";
    case OZHIMKA_BOOK_ROOM: return "the room for the book is too short (place: bytes needed)";
    case OZHIMKA_BOOK_SHORT: return "the book is too short to have a header";
    case OZHIMKA_BOOK_COUNT: return "a count in the book's header is out of range";
    case OZHIMKA_BOOK_LENGTH: return "the book's offsets or its length do not fit its counts";
    case OZHIMKA_BAD_RULE: return "a rule is a bad record (place: the rule)";
    case OZHIMKA_BAD_CONDITION: return "a condition is a bad record, or its text is (place: the condition)";
    case OZHIMKA_LOOP: return "rules of one completion loop (place: the lowest mark that a rule on a loop targets)";
    case OZHIMKA_CLASH: return "two rules clash (place: the first, other: the second)";
    case OZHIMKA_ORDER_UNFIT: return "the order does not fit the book and the stage";
    case OZHIMKA_MARK_ABOVE: return "the snapshot has a mark that the book has not";
    case OZHIMKA_NO_SUCH_STAGE: return "the book has no such stage";
    case OZHIMKA_STAGE_CLOSED: return "the stage is closed";
    case OZHIMKA_ORDER_ROOM: return "the room for the order is too short (place: numbers needed)";
    case OZHIMKA_NOT_PERMITTED: return "the event names other roles, or the role is none of 0 to 7";
    case OZHIMKA_NOT_DERIVED: return "the book is not a derived one";
    case OZHIMKA_INDEX_UNFIT: return "the index is not this book's";
    case OZHIMKA_INDEX_ROOM: return "the room for the index is too short (place: bytes needed)";
    case OZHIMKA_NO_SUCH_POSITION: return "the record has no such position";
    case OZHIMKA_MEND_ROOM: return "the room for the mended chart or for the list is too short (place: bytes for the chart, other: for the list)";
    case OZHIMKA_LONG_LIST: return "the list has over 4,096 stages (place: how many)";
    default: return "no code of this library";
    }
}

#ifdef __cplusplus
}
#endif

#endif
