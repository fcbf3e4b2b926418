// Writes the inputs that the calls are timed on.
#include "inputs.h"

enum { CONDITION, RESPONSE, MILESTONE, INCLUDE, EXCLUDE };
enum { NO_PARENT = 65535, INCLUDED = 4, FLAGS_BYTE = 256, MAX_ROLES = 8 };
enum { MAX_NODES = 512, MAX_RELATIONS = 16384, STAGES = 256, MARKS = 1024, CONDITIONS = 1024, WORDS = 655616, OR = 65534, NOT = 65535 };

static uint8_t *put16(uint8_t *at, uint32_t number)
{
    at[0] = (uint8_t)number;
    at[1] = (uint8_t)(number >> 8);
    return at + 2;
}

static uint8_t *put32(uint8_t *at, uint32_t number)
{
    return put16(put16(at, number), number >> 16);
}

// ---- charts

static uint8_t *put_chart_header(uint8_t *at, uint32_t nodes, uint32_t relations)
{
    return put16(put16(put16(put16(at, nodes), relations), 8), 8 + 4 * nodes);
}

// Every node names one role, its number modulo 8.
static uint8_t *put_node(uint8_t *at, uint32_t node, uint32_t parent, uint32_t flags)
{
    return put16(put16(at, parent), flags + (FLAGS_BYTE << node % MAX_ROLES));
}

static uint8_t *put_relation(uint8_t *at, uint32_t from, uint32_t to, uint32_t kind)
{
    return put16(put16(put16(at, from), to), kind);
}

// Even events lie below one chain of groups, odd events below another, and the last node is the top of both.
static uint32_t full_parent(uint32_t node, uint32_t n)
{
    uint32_t top = 2 * n - 1;
    if (node < n)
        return n + node < top ? n + node : top - 2; // the last odd event shares its chain's last group
    return node == top ? NO_PARENT : node + 2 < top ? node + 2 : top;
}

// With the kinds below `kinds`, and includes and excludes.
static size_t wide_chart(uint8_t *image, uint32_t n, uint32_t kinds)
{
    uint32_t top = 2 * n - 1, even = 2 * n - 2, odd = 2 * n - 3, relations = n * n < MAX_RELATIONS ? n * n : MAX_RELATIONS;
    const uint32_t wide[7][3] = {{top, top, CONDITION}, {top, top, RESPONSE}, {top, top, kinds - 1}, {even, even, INCLUDE},
                                 {odd, odd, INCLUDE},   {even, odd, EXCLUDE}, {odd, even, EXCLUDE}};
    uint8_t *at = put_chart_header(image, 2 * n, relations);
    for (uint32_t node = 0; node < 2 * n; node++)
        at = put_node(at, node, full_parent(node, n), node < n ? INCLUDED : 0);
    for (uint32_t i = 0; i < relations; i++)
        at = i < 7 ? put_relation(at, wide[i][0], wide[i][1], wide[i][2]) : put_relation(at, i / n, i % n, i % kinds);
    return (size_t)(at - image);
}

size_t full_chart(uint8_t *image, uint32_t n)
{
    return wide_chart(image, n, INCLUDE);
}

size_t list_chart(uint8_t *image, uint32_t n)
{
    return wide_chart(image, n, MILESTONE);
}

static uint8_t *put_sparse(uint8_t *at, uint32_t e, uint32_t n)
{
    uint32_t next = (e + 1) % n, far = (e + 5) % n;
    if (e + 1 < n)
        at = put_relation(at, e, next, CONDITION);
    if (e % 2 == 0)
        at = put_relation(at, e, next, RESPONSE);
    if (e % 3 == 0)
        at = put_relation(at, far, e, MILESTONE);
    if (e % 4 == 1)
        at = put_relation(at, e, e, EXCLUDE);
    if (e % 4 == 3)
        at = put_relation(at, e, n + e / 4, INCLUDE); // its whole group
    return at;
}

size_t sparse_chart(uint8_t *image, uint32_t n)
{
    uint32_t nodes = n + n / 4;
    uint8_t *start = image + 8 + 4 * nodes, *at = start;
    for (uint32_t e = 0; e < n; e++)
        at = put_sparse(at, e, n);
    size_t length = (size_t)(at - image);
    at = put_chart_header(image, nodes, (uint32_t)(length - (size_t)(start - image)) / 6);
    for (uint32_t e = 0; e < n; e++)
        at = put_node(at, e, n + e / 4, INCLUDED);
    for (uint32_t g = n; g < nodes; g++)
        at = put_node(at, g, NO_PARENT, 0);
    return length;
}

// ---- damaged charts

static size_t damaged(uint8_t *image, uint32_t relations, uint32_t (*parent)(uint32_t))
{
    enum { ALL = 255 };
    uint8_t *at = put_chart_header(image, MAX_NODES, relations);
    for (uint32_t node = 0; node < MAX_NODES; node++)
        at = put_node(at, node, parent(node), ALL);
    for (uint32_t r = 0; r < relations; r++)
        at = put_relation(at, r % MAX_NODES, MAX_NODES, r % (EXCLUDE + 1));
    return (size_t)(at - image);
}

static uint32_t next_of_all(uint32_t node) { return (node + 1) % MAX_NODES; }
static uint32_t other_of_two(uint32_t node) { return node ^ 1; }
static uint32_t own_group(uint32_t node) { return node % 2 == 0 ? NO_PARENT : node - 1; }

size_t one_loop(uint8_t *image) { return damaged(image, 0, next_of_all); }
size_t loops_of_two(uint8_t *image) { return damaged(image, 0, other_of_two); }
size_t bad_relations(uint8_t *image) { return damaged(image, MAX_RELATIONS, own_group); }

// ---- books

static uint8_t *put_book_header(uint8_t *at, uint32_t rules)
{
    const uint32_t header[8] = {STAGES, MARKS, rules, CONDITIONS, WORDS, 32, 32 + 10 * rules, 32 + 10 * rules + 8 * CONDITIONS};
    for (int i = 0; i < 8; i++)
        at = put32(at, header[i]);
    return at;
}

// Sets the target if the condition holds, or clears it unless.
static uint8_t *put_rule(uint8_t *at, uint32_t set, uint32_t condition, uint32_t target)
{
    at[0] = 0;
    at[1] = set ? 1 : 2;
    at[2] = (uint8_t)set;
    at[3] = 0;
    return put16(put16(put16(at + 4, 0), condition), target);
}

// The same on the completion of a stage.
static uint8_t *put_completion(uint8_t *at, uint32_t stage, uint32_t set, uint32_t condition, uint32_t target)
{
    uint8_t *end = put_rule(at, set, condition, target);
    at[0] = 1;
    put16(at + 4, stage);
    return end;
}

// Words before those of condition c: the whole text divided as evenly as it goes.
static uint32_t words_before(uint32_t c)
{
    return WORDS / CONDITIONS * c + (c < WORDS % CONDITIONS ? c : WORDS % CONDITIONS);
}

// A text of `count` words: a mark from `first` on, then mark and or by turns, round and round up to mark `last`, and a last not where one
// word is left.
static uint8_t *put_text(uint8_t *at, uint32_t first, uint32_t last, uint32_t count)
{
    uint32_t mark = first, put = 1;
    at = put16(at, mark);
    for (; put + 2 <= count; put += 2) {
        mark = mark < last ? mark + 1 : first;
        at = put16(put16(at, mark), OR);
    }
    return put < count ? put16(at, NOT) : at;
}

// Conditions whose text starts with the mark above their number, the last condition with the last mark, and names `named` marks at most.
static uint8_t *put_texts(uint8_t *at, uint32_t named)
{
    for (uint32_t c = 0; c < CONDITIONS; c++)
        at = put32(put32(at, words_before(c)), words_before(c + 1) - words_before(c));
    for (uint32_t c = 0; c < CONDITIONS; c++) {
        uint32_t first = c < MARKS - 1 ? c + 1 : c, last = first + named < MARKS ? first + named - 1 : MARKS - 1;
        at = put_text(at, first, last, words_before(c + 1) - words_before(c));
    }
    return at;
}

static uint8_t *put_conditions(uint8_t *at)
{
    return put_texts(at, MARKS);
}

// The target of rule p in layers: never the last mark, which the condition before the last names.
static uint32_t layer(uint32_t p, uint32_t rules)
{
    return p * (MARKS - 1) / rules;
}

size_t layered_book(uint8_t *book, uint32_t rules)
{
    uint8_t *at = put_book_header(book, rules);
    for (uint32_t p = 0; p < rules; p++)
        at = put_rule(at, p % 2, layer(p, rules), layer(p, rules));
    return (size_t)(put_conditions(at) - book);
}

size_t one_mark_book(uint8_t *book, uint32_t rules)
{
    uint8_t *at = put_book_header(book, rules);
    for (uint32_t p = 0; p < rules; p++)
        at = put_completion(at, p % STAGES, p / STAGES % 2, p % STAGES, 0);
    return (size_t)(put_conditions(at) - book);
}

size_t one_condition_book(uint8_t *book, uint32_t rules)
{
    uint8_t *at = put_book_header(book, rules);
    for (uint32_t p = 0; p < rules; p++)
        at = put_rule(at, p % 2, 0, 0);
    return (size_t)(put_conditions(at) - book);
}

static uint8_t *put_layers_of_stage(uint8_t *at, uint32_t rules)
{
    for (uint32_t p = 0; p < rules; p++)
        at = put_completion(at, 1, p % 2, layer(p, rules), layer(p, rules));
    return at;
}

size_t one_stage_book(uint8_t *book, uint32_t rules)
{
    return (size_t)(put_conditions(put_layers_of_stage(put_book_header(book, rules), rules)) - book);
}

size_t one_chain_book(uint8_t *book, uint32_t rules)
{
    return (size_t)(put_texts(put_layers_of_stage(put_book_header(book, rules), rules), 1) - book);
}

size_t staged_book(uint8_t *book, uint32_t rules)
{
    uint8_t *at = put_book_header(book, rules);
    for (uint32_t p = 0; p < rules; p++) {
        uint32_t stage = p % STAGES, target = layer(p / STAGES, rules / STAGES + 1);
        at = put_completion(at, stage, stage % 2, target, target);
    }
    return (size_t)(put_conditions(at) - book);
}
