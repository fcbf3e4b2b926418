// The paper's calls in plain C: bit sets, one pass over each table, no memory but the stack.
#include "clash.h"
#include "order.h"

#include <string.h>

enum { NO_PARENT = 65535, NO_MARK = 65535 };
enum { MAX_BOOK = 2637856, FLAGS_BYTE = 256 };

// ---- reading a chart

struct nodes {
    uint32_t count, parent[MAX_NODES], flags[MAX_NODES];
};

// The lowest node on a loop of parents, or the node count. Each walk upwards stamps the nodes it is the first to meet.
static uint32_t lowest_on_loop(const struct nodes *nodes)
{
    uint32_t best = nodes->count;
    uint16_t stamp[MAX_NODES] = {0};
    for (uint32_t from = 0; from < nodes->count; from++) {
        uint32_t n = from;
        while (n != NO_PARENT && stamp[n] == 0) {
            stamp[n] = (uint16_t)(from + 1);
            n = nodes->parent[n];
        }
        if (n == NO_PARENT || stamp[n] != from + 1)
            continue;
        uint32_t end = n;
        do {
            best = n < best ? n : best;
            n = nodes->parent[n];
        } while (n != end);
    }
    return best;
}

// Refusals 1 to 3.
static struct answer read_header(const uint8_t *image, size_t length)
{
    if (length < 8)
        return refused(1, 0, 0);
    uint32_t count = get16(image), relations = get16(image + 2);
    if (count < 1 || count > MAX_NODES || relations > MAX_RELATIONS)
        return refused(2, 0, 0);
    if (get16(image + 4) != 8 || get16(image + 6) != 8 + 4 * count || length != 8 + 4 * count + 6 * relations)
        return refused(3, 0, 0);
    return granted;
}

// Refusals 1 to 4.
static struct answer read_nodes(const uint8_t *image, size_t length, struct nodes *nodes)
{
    struct answer answer = read_header(image, length);
    if (answer.code != 0)
        return answer;
    uint32_t count = nodes->count = get16(image);
    for (uint32_t n = 0; n < count; n++) {
        uint32_t parent = get16(image + 8 + 4 * n), flags = get16(image + 10 + 4 * n);
        if ((parent >= count && parent != NO_PARENT) || flags % FLAGS_BYTE > 7)
            return refused(4, n, 0);
        nodes->parent[n] = parent;
        nodes->flags[n] = flags;
    }
    return granted;
}

// Refusals 5 to 7. Afterwards event[e] is the node of event e.
static struct answer number_events(const struct nodes *nodes, uint16_t *event, uint32_t *events)
{
    uint32_t looping = lowest_on_loop(nodes);
    if (looping < nodes->count)
        return refused(5, looping, 0);
    bool group[MAX_NODES] = {false};
    for (uint32_t n = 0; n < nodes->count; n++)
        if (nodes->parent[n] != NO_PARENT)
            group[nodes->parent[n]] = true;
    uint32_t count = 0;
    for (uint32_t n = 0; n < nodes->count; n++) {
        if (group[n] && nodes->flags[n] % FLAGS_BYTE != 0)
            return refused(6, n, 0);
        if (!group[n])
            event[count++] = (uint16_t)n;
    }
    *events = count;
    return count > MAX_EVENTS ? refused(7, count, 0) : granted;
}

// Refusal 8. Relations are gathered at their nodes; an event then takes what stands at it and at the groups above it, roles too.
static struct answer flatten(const struct nodes *nodes, const uint16_t *event, const uint8_t *at, uint32_t relations,
                             struct flat_chart *chart)
{
    struct set below[MAX_NODES], gathered[5][MAX_NODES];
    memset(below, 0, nodes->count * sizeof below[0]);
    for (int kind = 0; kind < 5; kind++)
        memset(gathered[kind], 0, nodes->count * sizeof gathered[kind][0]);
    for (uint32_t e = 0; e < chart->count; e++)
        for (uint32_t n = event[e]; n != NO_PARENT; n = nodes->parent[n])
            put(&below[n], e);
    for (uint32_t r = 0; r < relations; r++, at += 6) {
        uint32_t from = get16(at), to = get16(at + 2), kind = get16(at + 4);
        if (from >= nodes->count || to >= nodes->count || kind > 4)
            return refused(8, r, 0);
        if (kind == 0 || kind == 2)
            gathered[kind][to] = unite(gathered[kind][to], below[from]);
        else
            gathered[kind][from] = unite(gathered[kind][from], below[to]);
    }
    for (uint32_t e = 0; e < chart->count; e++) {
        for (uint32_t n = event[e]; n != NO_PARENT; n = nodes->parent[n]) {
            chart->conditions[e] = unite(chart->conditions[e], gathered[0][n]);
            chart->responses[e] = unite(chart->responses[e], gathered[1][n]);
            chart->milestones[e] = unite(chart->milestones[e], gathered[2][n]);
            chart->includes[e] = unite(chart->includes[e], gathered[3][n]);
            chart->excludes[e] = unite(chart->excludes[e], gathered[4][n]);
            chart->roles[e] |= (uint8_t)(nodes->flags[n] / FLAGS_BYTE);
        }
    }
    return granted;
}

struct reading plain_read_chart(const uint8_t *image, size_t length)
{
    struct reading reading = {.answer = granted};
    struct nodes nodes;
    uint16_t event[MAX_NODES];
    reading.answer = read_nodes(image, length, &nodes);
    if (reading.answer.code != 0)
        return reading;
    uint32_t events;
    reading.answer = number_events(&nodes, event, &events);
    if (reading.answer.code != 0)
        return reading;
    reading.chart.count = events;
    reading.answer = flatten(&nodes, event, image + 8 + 4 * nodes.count, get16(image + 2), &reading.chart);
    if (reading.answer.code != 0) {
        memset(&reading.chart, 0, sizeof reading.chart);
        return reading;
    }
    for (uint32_t e = 0; e < events; e++) {
        uint32_t flags = nodes.flags[event[e]];
        if (flags & 1)
            put(&reading.start.executed, e);
        if (flags & 2)
            put(&reading.start.pending, e);
        if (flags & 4)
            put(&reading.start.included, e);
    }
    return reading;
}

// ---- mending a chart

struct mending {
    struct nodes nodes;
    uint32_t changes, dropped;
    uint16_t change[2 * MAX_NODES][4]; // of the nodes: step, node, and its two numbers before the step
};

static void note(struct mending *mending, uint32_t step, uint32_t n)
{
    uint16_t *change = mending->change[mending->changes++];
    change[0] = (uint16_t)step;
    change[1] = (uint16_t)n;
    change[2] = (uint16_t)mending->nodes.parent[n];
    change[3] = (uint16_t)mending->nodes.flags[n];
}

// Steps 1 and 2.
static void mend_records(struct mending *mending, const uint8_t *image)
{
    struct nodes *nodes = &mending->nodes;
    nodes->count = get16(image);
    for (uint32_t n = 0; n < nodes->count; n++) {
        nodes->parent[n] = get16(image + 8 + 4 * n);
        nodes->flags[n] = get16(image + 10 + 4 * n);
        if (nodes->parent[n] >= nodes->count && nodes->parent[n] != NO_PARENT) {
            note(mending, 1, n);
            nodes->parent[n] = NO_PARENT;
        }
    }
    for (uint32_t n = 0; n < nodes->count; n++)
        if (nodes->flags[n] & 0xF8) {
            note(mending, 2, n);
            nodes->flags[n] &= 0xFF07;
        }
}

// Step 3. Each loop is met once, by the first walk upwards that comes to it.
static void cut_loops(struct mending *mending)
{
    struct nodes *nodes = &mending->nodes;
    uint16_t stamp[MAX_NODES] = {0};
    bool cut[MAX_NODES] = {false};
    for (uint32_t from = 0; from < nodes->count; from++) {
        uint32_t n = from;
        while (n != NO_PARENT && stamp[n] == 0) {
            stamp[n] = (uint16_t)(from + 1);
            n = nodes->parent[n];
        }
        if (n == NO_PARENT || stamp[n] != from + 1)
            continue;
        uint32_t end = n, least = n;
        do {
            least = n < least ? n : least;
            n = nodes->parent[n];
        } while (n != end);
        cut[least] = true;
    }
    for (uint32_t n = 0; n < nodes->count; n++)
        if (cut[n]) {
            note(mending, 3, n);
            nodes->parent[n] = NO_PARENT;
        }
}

// Step 4; the number of events.
static uint32_t clear_groups(struct mending *mending)
{
    struct nodes *nodes = &mending->nodes;
    bool group[MAX_NODES] = {false};
    uint32_t events = nodes->count;
    for (uint32_t n = 0; n < nodes->count; n++)
        if (nodes->parent[n] != NO_PARENT)
            group[nodes->parent[n]] = true;
    for (uint32_t n = 0; n < nodes->count; n++) {
        events -= group[n];
        if (group[n] && (nodes->flags[n] & 7)) {
            note(mending, 4, n);
            nodes->flags[n] &= 0xFFF8;
        }
    }
    return events;
}

static bool bad_relation(const uint8_t *at, uint32_t nodes)
{
    return get16(at) >= nodes || get16(at + 2) >= nodes || get16(at + 4) > 4;
}

static void write_mended(const struct mending *mending, const uint8_t *image, uint8_t *chart, uint8_t *list)
{
    uint32_t nodes = mending->nodes.count, relations = get16(image + 2);
    const uint8_t *at = image + 8 + 4 * nodes;
    chart = put16(put16(put16(put16(chart, nodes), relations - mending->dropped), 8), 8 + 4 * nodes);
    for (uint32_t n = 0; n < nodes; n++)
        chart = put16(put16(chart, mending->nodes.parent[n]), mending->nodes.flags[n]);
    for (uint32_t i = 0; i < mending->changes; i++) {
        const uint16_t *change = mending->change[i];
        list = put16(put16(put16(put16(put16(list, change[0]), change[1]), change[2]), change[3]), 0);
    }
    for (uint32_t r = 0; r < relations; r++, at += 6)
        if (bad_relation(at, nodes)) {
            memcpy(put16(put16(list, 5), r), at, 6);
            list += 10;
        } else {
            memcpy(chart, at, 6);
            chart += 6;
        }
}

struct mended plain_mend(const uint8_t *image, size_t length, uint8_t *chart, size_t chart_length, uint8_t *list, size_t list_length)
{
    struct answer answer = read_header(image, length);
    if (answer.code != 0)
        return (struct mended){answer, 0};
    struct mending mending;
    mending.changes = mending.dropped = 0;
    mend_records(&mending, image);
    cut_loops(&mending);
    uint32_t events = clear_groups(&mending), nodes = mending.nodes.count, relations = get16(image + 2);
    if (events > MAX_EVENTS)
        return (struct mended){refused(7, events, 0), 0};
    for (uint32_t r = 0; r < relations; r++)
        mending.dropped += bad_relation(image + 8 + 4 * nodes + 6 * r, nodes);
    uint32_t entries = mending.changes + mending.dropped, needed = 8 + 4 * nodes + 6 * (relations - mending.dropped);
    if (chart_length < needed || list_length < 10 * entries)
        return (struct mended){refused(37, needed, 10 * entries), 0};
    write_mended(&mending, image, chart, list);
    return (struct mended){granted, entries};
}

// ---- steps

// What the sets of an event have in any of the five tables.
static inline struct set any_of(const struct flat_chart *chart, uint32_t e)
{
    struct set any = unite(unite(chart->conditions[e], chart->responses[e]), chart->milestones[e]);
    return unite(any, unite(chart->includes[e], chart->excludes[e]));
}

static bool fit_chart(const struct flat_chart *chart)
{
    uint32_t count = chart->count;
    if (count < 1 || count > MAX_EVENTS)
        return false;
    struct set within = {{0}}, past = {{0}};
    for (uint32_t e = 0; e < count; e++)
        within = unite(within, any_of(chart, e));
    for (uint32_t e = count; e < MAX_EVENTS; e++)
        past = unite(past, any_of(chart, e));
    uint8_t named = 0; // in a loop of its own, so that the one over sets needs no bytes
    for (uint32_t e = count; e < MAX_EVENTS; e++)
        named |= chart->roles[e];
    return is_empty(without(within, all_below(count))) && is_empty(past) && named == 0;
}

static bool fit(const struct flat_chart *chart, const struct marking *marking)
{
    if (!fit_chart(chart))
        return false;
    struct set any = unite(unite(marking->executed, marking->pending), marking->included);
    return is_empty(without(any, all_below(chart->count)));
}

static struct set open_set(const struct flat_chart *chart, const struct marking *marking)
{
    struct set unexecuted = without(marking->included, marking->executed), due = common(marking->included, marking->pending), open = {{0}};
    for (uint32_t e = 0; e < chart->count; e++)
        if (is_empty(unite(common(chart->conditions[e], unexecuted), common(chart->milestones[e], due))))
            put(&open, e);
    return common(open, marking->included);
}

static bool permitted(uint8_t roles, uint32_t role)
{
    return role < MAX_ROLES && (roles == 0 || (roles >> role & 1) != 0);
}

static const struct set none = {{0}};

// The open test of an event of a chart and a marking that are fit.
static inline struct open_test test(const struct flat_chart *chart, const struct marking *marking, uint32_t event)
{
    if (!holds_event(&marking->included, event))
        return (struct open_test){refused(11, 0, 0), none, none};
    struct set wanting = without(common(chart->conditions[event], marking->included), marking->executed);
    struct set awaited = common(common(chart->milestones[event], marking->included), marking->pending);
    if (!is_empty(wanting))
        return (struct open_test){refused(12, lowest_of(wanting), 0), wanting, awaited};
    if (!is_empty(awaited))
        return (struct open_test){refused(13, lowest_of(awaited), 0), wanting, awaited};
    return (struct open_test){granted, none, none};
}

// Takes a step of a chart and a marking that are fit; the marking is altered where it stands.
static inline struct open_test take(const struct flat_chart *chart, struct marking *marking, uint32_t event, uint32_t role)
{
    if (event >= chart->count)
        return (struct open_test){refused(10, 0, 0), none, none};
    if (!permitted(chart->roles[event], role))
        return (struct open_test){refused(32, 0, 0), none, none};
    struct open_test open = test(chart, marking, event);
    if (open.answer.code != 0)
        return open;
    put(&marking->executed, event);
    marking->pending.word[event / 64] &= ~bit(event);
    marking->pending = unite(marking->pending, chart->responses[event]);
    marking->included = unite(without(marking->included, chart->excludes[event]), chart->includes[event]);
    return open;
}

struct step plain_execute(const struct flat_chart *chart, struct marking marking, uint32_t event, uint32_t role)
{
    if (!fit(chart, &marking))
        return (struct step){refused(14, 0, 0), marking, none, none};
    struct open_test taken = take(chart, &marking, event, role);
    return (struct step){taken.answer, marking, taken.conditions, taken.milestones};
}

struct open_test plain_open_test(const struct flat_chart *chart, struct marking marking, uint32_t event)
{
    if (!fit(chart, &marking))
        return (struct open_test){refused(14, 0, 0), none, none};
    return event < chart->count ? test(chart, &marking, event) : (struct open_test){refused(10, 0, 0), none, none};
}

struct open_count plain_count_open(const struct flat_chart *chart, struct marking marking)
{
    if (!fit(chart, &marking))
        return (struct open_count){refused(14, 0, 0), 0, MAX_EVENTS};
    struct set open = open_set(chart, &marking);
    return (struct open_count){granted, size_of(open), lowest_of(open)};
}

struct finish plain_finished(const struct flat_chart *chart, struct marking marking)
{
    if (!fit(chart, &marking))
        return (struct finish){refused(14, 0, 0), false};
    return (struct finish){granted, is_empty(common(marking.included, marking.pending))};
}

// ---- replaying a record

// Takes the steps from one position to another; gives the position of the first that is not allowed, or the other one.
static size_t walk(const struct flat_chart *chart, struct marking *marking, struct open_test *last, const struct recorded *steps, size_t from,
                   size_t end)
{
    for (size_t at = from; at < end; at++) {
        *last = take(chart, marking, steps[at].event, steps[at].role);
        if (last->answer.code != 0)
            return at;
    }
    return end;
}

struct replayed plain_replay(const struct flat_chart *chart, struct marking start, const struct recorded *steps, size_t count)
{
    if (!fit(chart, &start))
        return (struct replayed){refused(14, 0, 0), 0, 0, start, false, none, none};
    struct open_test last = {granted, none, none};
    struct marking marking = start;
    size_t allowed = walk(chart, &marking, &last, steps, 0, count);
    bool finished = is_empty(common(marking.included, marking.pending));
    return (struct replayed){granted, last.answer.code, allowed, marking, finished, last.conditions, last.milestones};
}

struct step plain_strike(const struct flat_chart *chart, struct marking start, const struct recorded *steps, size_t count, uint32_t position)
{
    if (!fit(chart, &start))
        return (struct step){refused(14, 0, 0), start, none, none};
    if (position >= count)
        return (struct step){refused(36, 0, 0), start, none, none};
    struct open_test last = {granted, none, none};
    struct marking marking = start;
    size_t at = walk(chart, &marking, &last, steps, 0, position);
    if (last.answer.code == 0)
        at = walk(chart, &marking, &last, steps, position + (size_t)1, count);
    if (last.answer.code == 0)
        return (struct step){granted, marking, none, none};
    return (struct step){refused(last.answer.code, at < UINT32_MAX ? (uint32_t)at : UINT32_MAX, 0), start, last.conditions, last.milestones};
}

struct settled plain_matching(const struct flat_chart *chart, struct marking marking)
{
    struct settled settled = {.answer = granted};
    if (!fit(chart, &marking)) {
        settled.answer = refused(14, 0, 0);
        return settled;
    }
    uint32_t n = chart->count;
    struct set open = open_set(chart, &marking);
    bool *marks = settled.snapshot.marks;
    for (uint32_t e = 0; e < n; e++) {
        marks[e] = holds_event(&open, e);
        marks[n + e] = holds_event(&marking.executed, e);
        marks[2 * n + e] = holds_event(&marking.included, e);
        marks[3 * n + e] = !holds_event(&marking.pending, e);
    }
    return settled;
}

// ---- deriving

static uint8_t *put_rule(uint8_t *at, uint8_t trigger, uint8_t sense, uint8_t effect, uint32_t number, uint32_t condition,
                         uint32_t target)
{
    at[0] = trigger;
    at[1] = sense;
    at[2] = effect;
    at[3] = 0;
    return put16(put16(put16(at + 4, number), condition), target);
}

// The rules on completion of e.
static uint8_t *put_completion(uint8_t *at, const struct flat_chart *chart, uint32_t e)
{
    uint32_t n = chart->count;
    for (struct set left = unite(chart->includes[e], chart->excludes[e]); !is_empty(left);) {
        uint32_t f = take_lowest(&left);
        at = put_rule(at, COMPLETED, NO_CONDITION, holds_event(&chart->includes[e], f), e, 0, 2 * n + f);
    }
    for (struct set left = chart->responses[e]; !is_empty(left);)
        at = put_rule(at, COMPLETED, NO_CONDITION, CLEAR, e, 0, 3 * n + take_lowest(&left));
    if (!holds_event(&chart->responses[e], e))
        at = put_rule(at, COMPLETED, NO_CONDITION, SET, e, 0, 3 * n + e);
    return put_rule(at, COMPLETED, NO_CONDITION, SET, e, 0, n + e);
}

// For each f: included f, not, mark f, or, and; the marks start at `first`.
static uint8_t *put_clauses(uint8_t *at, struct set set, uint32_t included, uint32_t first)
{
    while (!is_empty(set)) {
        uint32_t f = take_lowest(&set);
        at = put16(put16(put16(put16(put16(at, included + f), NOT), first + f), OR), AND);
    }
    return at;
}

struct answer plain_derive(const struct flat_chart *chart, uint8_t *room, size_t length)
{
    if (!fit_chart(chart))
        return refused(14, 0, 0);
    uint32_t n = chart->count, rules = 3 * n, words = n;
    for (uint32_t e = 0; e < n; e++) {
        rules += size_of(unite(chart->includes[e], chart->excludes[e])) + size_of(chart->responses[e]) + !holds_event(&chart->responses[e], e);
        words += 5 * (size_of(chart->conditions[e]) + size_of(chart->milestones[e]));
    }
    uint32_t conditions_at = 32 + 10 * rules, words_at = conditions_at + 8 * n, needed = words_at + 2 * words;
    if (length < needed)
        return refused(15, needed, 0);
    const uint32_t header[8] = {n, 4 * n, rules, n, words, 32, conditions_at, words_at};
    uint8_t *at = room;
    for (uint32_t i = 0; i < 8; i++)
        at = put32(at, header[i]);
    for (uint32_t e = 0; e < n; e++)
        at = put_completion(at, chart, e);
    for (uint32_t e = 0; e < n; e++) {
        at = put_rule(at, NO_TRIGGER, AS_WRITTEN, SET, 0, e, e);
        at = put_rule(at, NO_TRIGGER, NEGATED, CLEAR, 0, e, e);
    }
    for (uint32_t e = 0, start = 0; e < n; e++) {
        uint32_t count = 1 + 5 * (size_of(chart->conditions[e]) + size_of(chart->milestones[e]));
        at = put32(put32(at, start), count);
        start += count;
    }
    for (uint32_t e = 0; e < n; e++) {
        at = put16(at, 2 * n + e);
        at = put_clauses(at, chart->conditions[e], 2 * n, n);
        at = put_clauses(at, chart->milestones[e], 2 * n, 3 * n);
    }
    return granted;
}

// ---- deriving the smaller book

// The events whose executed, included and answered marks stay.
struct staying {
    struct set executed, included, answered;
};

static struct staying staying_of(const struct flat_chart *chart, const struct marking *start)
{
    struct staying staying = {none, without(all_below(chart->count), start->included), start->pending};
    for (uint32_t e = 0; e < chart->count; e++) {
        staying.executed = unite(staying.executed, chart->conditions[e]);
        staying.included = unite(staying.included, unite(chart->includes[e], chart->excludes[e]));
        staying.answered = unite(staying.answered, chart->responses[e]);
    }
    return staying;
}

// Gives the marks that stay their new numbers, in a table of no numbers, and says how many there are.
static uint32_t number_marks(uint16_t *table, uint32_t n, const struct staying *staying)
{
    const struct set sorts[3] = {staying->executed, staying->included, staying->answered};
    uint32_t next = 0;
    while (next < n) {
        table[next] = (uint16_t)next;
        next++;
    }
    for (uint32_t sort = 0; sort < 3; sort++)
        for (struct set left = sorts[sort]; !is_empty(left);)
            table[n * (sort + 1) + take_lowest(&left)] = (uint16_t)next++;
    return next;
}

// How many words are left of the text of event e. A condition's executed mark always stays, so only a milestone's clause can become yes.
static uint32_t words_left(const struct flat_chart *chart, const struct staying *staying, uint32_t e)
{
    struct set conditions = chart->conditions[e], milestones = common(chart->milestones[e], staying->answered);
    uint32_t own = holds_event(&staying->included, e), clauses = size_of(conditions) + size_of(milestones);
    uint32_t whole = size_of(common(conditions, staying->included)) + size_of(common(milestones, staying->included));
    return own + clauses == 0 ? 0 : 2 * (own + clauses) - 1 + 3 * whole;
}

// The rules on completion of e. What it includes, excludes or has as a response keeps its mark, so only the two rules on its own marks can go.
static uint8_t *put_completion_left(uint8_t *at, const struct flat_chart *chart, const uint16_t *table, uint32_t e)
{
    uint32_t n = chart->count;
    const uint16_t *executed = table + n, *included = table + 2 * n, *answered = table + 3 * n;
    for (struct set left = unite(chart->includes[e], chart->excludes[e]); !is_empty(left);) {
        uint32_t f = take_lowest(&left);
        at = put_rule(at, COMPLETED, NO_CONDITION, holds_event(&chart->includes[e], f), e, 0, included[f]);
    }
    for (struct set left = chart->responses[e]; !is_empty(left);)
        at = put_rule(at, COMPLETED, NO_CONDITION, CLEAR, e, 0, answered[take_lowest(&left)]);
    if (!holds_event(&chart->responses[e], e) && answered[e] != NO_MARK)
        at = put_rule(at, COMPLETED, NO_CONDITION, SET, e, 0, answered[e]);
    return executed[e] == NO_MARK ? at : put_rule(at, COMPLETED, NO_CONDITION, SET, e, 0, executed[e]);
}

// What is left of the clauses on these events; the first of the text has no "and" behind it.
static uint8_t *put_clauses_left(uint8_t *at, const uint8_t *text, struct set set, const uint16_t *included, const uint16_t *second)
{
    while (!is_empty(set)) {
        uint32_t f = take_lowest(&set);
        bool first = at == text;
        at = included[f] == NO_MARK ? put16(at, second[f]) : put16(put16(put16(put16(at, included[f]), NOT), second[f]), OR);
        if (!first)
            at = put16(at, AND);
    }
    return at;
}

static uint8_t *put_text_left(uint8_t *at, const struct flat_chart *chart, const struct staying *staying, const uint16_t *table, uint32_t e)
{
    const uint16_t *executed = table + chart->count, *included = executed + chart->count, *answered = included + chart->count;
    uint8_t *text = at;
    if (included[e] != NO_MARK)
        at = put16(at, included[e]);
    at = put_clauses_left(at, text, chart->conditions[e], included, executed);
    return put_clauses_left(at, text, common(chart->milestones[e], staying->answered), included, answered);
}

// Rules, conditions and words.
static void count_left(const struct flat_chart *chart, const struct staying *staying, uint32_t *counts)
{
    for (uint32_t e = 0; e < chart->count; e++) {
        uint32_t words = words_left(chart, staying, e);
        bool answers = holds_event(&staying->answered, e) && !holds_event(&chart->responses[e], e);
        counts[0] += size_of(unite(chart->includes[e], chart->excludes[e])) + size_of(chart->responses[e]) + answers
                     + holds_event(&staying->executed, e) + 1 + (words != 0);
        counts[1] += words != 0;
        counts[2] += words;
    }
}

static void write_smaller(const struct flat_chart *chart, const struct staying *staying, const uint16_t *table, const uint32_t *header, uint8_t *at)
{
    uint32_t n = chart->count;
    for (uint32_t i = 0; i < 8; i++)
        at = put32(at, header[i]);
    for (uint32_t e = 0; e < n; e++)
        at = put_completion_left(at, chart, table, e);
    for (uint32_t e = 0, condition = 0; e < n; e++)
        if (words_left(chart, staying, e) == 0) {
            at = put_rule(at, NO_TRIGGER, NO_CONDITION, SET, 0, 0, e);
        } else {
            at = put_rule(at, NO_TRIGGER, AS_WRITTEN, SET, 0, condition, e);
            at = put_rule(at, NO_TRIGGER, NEGATED, CLEAR, 0, condition++, e);
        }
    for (uint32_t e = 0, start = 0; e < n; e++) {
        uint32_t words = words_left(chart, staying, e);
        if (words != 0)
            at = put32(put32(at, start), words);
        start += words;
    }
    for (uint32_t e = 0; e < n; e++)
        at = put_text_left(at, chart, staying, table, e);
}

struct smaller plain_derive_smaller(const struct flat_chart *chart, struct marking start, uint8_t *room, size_t length)
{
    struct smaller smaller = {.answer = granted};
    memset(smaller.table, 0xFF, sizeof smaller.table);
    if (!fit(chart, &start)) {
        smaller.answer = refused(14, 0, 0);
        return smaller;
    }
    struct staying staying = staying_of(chart, &start);
    uint32_t counts[3] = {0, 0, 0};
    count_left(chart, &staying, counts);
    uint32_t conditions_at = 32 + 10 * counts[0], words_at = conditions_at + 8 * counts[1], needed = words_at + 2 * counts[2];
    if (length < needed) {
        smaller.answer = refused(15, needed, 0);
        return smaller;
    }
    uint32_t n = chart->count, marks = number_marks(smaller.table, n, &staying);
    const uint32_t header[8] = {n, marks, counts[0], counts[1], counts[2], 32, conditions_at, words_at};
    write_smaller(chart, &staying, smaller.table, header, room);
    return smaller;
}

// ---- reading a book

// Refusals 20 to 24.
static struct answer read_book(const uint8_t *image, size_t length, struct book *book)
{
    struct answer answer = read_counts(image, length, book);
    if (answer.code != 0)
        return answer;
    for (uint32_t p = 0; p < book->rules; p++)
        if (!good_rule(book, rule_of(book, p)))
            return refused(23, p, 0);
    for (uint32_t c = 0; c < book->conditions; c++)
        if (!good_condition(book, c))
            return refused(24, c, 0);
    return granted;
}

// ---- loops and clashes

// A search over the marks: row[m] is what the rules that target m refer to.
struct search {
    struct marks row[MAX_MARKS], referring, fresh, open; // targets of rules that refer; marks not yet visited, and those on the way here
};

static void refer(struct search *search, const struct book *book, struct rule rule)
{
    if (rule.sense != NO_CONDITION)
        join(&search->row[rule.target], &book->refers[rule.condition]);
    if (rule.trigger >= BECOME_YES)
        add(&search->row[rule.target], rule.number);
    add(&search->referring, rule.target);
}

// Whether a loop is met from this mark on.
static bool leads_to_loop(struct search *search, uint32_t mark)
{
    const struct marks *row = &search->row[mark];
    drop(&search->fresh, mark);
    add(&search->open, mark);
    if (meet(row, &search->open))
        return true;
    for (uint32_t i = 0; i < MARK_WORDS; i++)
        for (uint64_t next; (next = row->word[i] & search->fresh.word[i]) != 0;)
            if (leads_to_loop(search, 64 * i + lowest(next)))
                return true;
    drop(&search->open, mark);
    return false;
}

// Whether a loop is met from one of these marks on. Only marks that a referring rule targets can be on one.
static bool finds_loop(struct search *search, struct marks from)
{
    search->fresh = search->referring;
    memset(&search->open, 0, sizeof search->open);
    for (uint32_t i = 0; i < MARK_WORDS; i++)
        for (uint64_t next; (next = from.word[i] & search->fresh.word[i]) != 0;)
            if (leads_to_loop(search, 64 * i + lowest(next)))
                return true;
    return false;
}

// The lowest mark on a loop, where there is one.
static uint32_t lowest_looping(const struct search *search, uint32_t marks)
{
    struct marks reached[MAX_MARKS];
    memcpy(reached, search->row, marks * sizeof reached[0]);
    for (uint32_t k = 0; k < marks; k++)
        for (uint32_t m = 0; m < marks; m++)
            if (has(&reached[m], k))
                join(&reached[m], &reached[k]);
    uint32_t m = 0;
    while (m < marks && !has(&reached[m], m))
        m++;
    return m;
}

// Rules that wait for a completion and refer to something, by stage: each leads to the next.
struct chains {
    uint32_t head[MAX_STAGES], next[MAX_RULES];
};

// Puts what counts for every stage into the search, and the others into their stage's chain.
static void begin_search(const struct book *book, struct search *search, struct chains *chains)
{
    memset(search->row, 0, book->marks * sizeof search->row[0]);
    memset(&search->referring, 0, sizeof search->referring);
    memset(chains->head, 0xFF, sizeof chains->head);
    for (uint32_t p = 0; p < book->rules; p++) {
        struct rule rule = rule_of(book, p);
        if (rule.trigger == COMPLETED && rule.sense != NO_CONDITION) {
            chains->next[p] = chains->head[rule.number];
            chains->head[rule.number] = p;
        } else if (rule.trigger >= BECOME_YES || rule.sense != NO_CONDITION) {
            refer(search, book, rule);
        }
    }
}

// The lowest mark on a loop among the rules of this chain and those that count for every stage, or MAX_MARKS. Another loop than those that
// every stage has goes through a target of the chain. Leaves the search as it was.
static uint32_t stage_looping(const struct book *book, struct search *search, const struct chains *chains, uint32_t first)
{
    struct marks before = search->referring, targets = {{0}}, kept[MAX_MARKS];
    for (uint32_t p = first; p != NO_RULE; p = chains->next[p]) {
        struct rule rule = rule_of(book, p);
        if (!has(&targets, rule.target))
            kept[rule.target] = search->row[rule.target];
        add(&targets, rule.target);
        refer(search, book, rule);
    }
    uint32_t mark = finds_loop(search, targets) ? lowest_looping(search, book->marks) : MAX_MARKS;
    for (uint32_t i = 0; i < MARK_WORDS; i++)
        for (uint64_t left = targets.word[i]; left != 0; left &= left - 1)
            search->row[64 * i + lowest(left)] = kept[64 * i + lowest(left)];
    search->referring = before;
    return mark;
}

// The lowest mark on a loop of any stage, or MAX_MARKS: one search for what counts for every stage, and one more for each stage that has a
// completion rule with a condition.
uint32_t lowest_of_stages(const struct book *book)
{
    struct search search;
    struct chains chains;
    if (book->stages == 0)
        return MAX_MARKS;
    begin_search(book, &search, &chains);
    struct marks referred = {{0}};
    for (uint32_t m = 0; m < book->marks; m++)
        join(&referred, &search.row[m]);
    uint32_t best = finds_loop(&search, referred) ? lowest_looping(&search, book->marks) : MAX_MARKS;
    for (uint32_t s = 0; s < book->stages; s++)
        if (chains.head[s] != NO_RULE) {
            uint32_t mark = stage_looping(book, &search, &chains, chains.head[s]);
            best = mark < best ? mark : best;
        }
    return best;
}

// The lowest clashing pair of the book.
static struct answer first_clash(const struct book *book)
{
    struct marks all;
    memset(&all, 0xFF, sizeof all);
    return clash_at(book, &all);
}

// Refusals 20 to 26.
static struct answer judge(const uint8_t *image, size_t length, struct book *book)
{
    struct answer answer = read_book(image, length, book);
    if (answer.code != 0)
        return answer;
    uint32_t mark = lowest_of_stages(book);
    if (mark < MAX_MARKS)
        return refused(25, mark, 0);
    return first_clash(book);
}

// ---- reading a book back

// What a rule on completion of its stage says of the chart of n events.
static void gather_rule(struct flat_chart *chart, struct rule rule)
{
    uint32_t n = chart->count, sort = rule.target / n, f = rule.target % n;
    if (sort == 2 && rule.effect == SET)
        put(&chart->includes[rule.number], f);
    else if (sort == 2)
        put(&chart->excludes[rule.number], f);
    else if (sort == 3 && rule.effect == CLEAR)
        put(&chart->responses[rule.number], f);
}

// The chart that the rules and texts say, if the counts are a derived book's.
static bool gather(const struct book *book, struct flat_chart *chart)
{
    uint32_t n = book->stages;
    if (n == 0 || book->marks != 4 * n || book->conditions != n)
        return false;
    chart->count = n;
    for (uint32_t p = 0; p < book->rules; p++) {
        struct rule rule = rule_of(book, p);
        if (rule.trigger == COMPLETED)
            gather_rule(chart, rule);
    }
    for (uint32_t e = 0; e < n; e++) {
        const uint8_t *condition = book->conditions_at + 8 * e, *word = book->words_at + 2 * get32(condition);
        for (uint32_t left = get32(condition + 4); left > 0; left--, word += 2) {
            uint32_t mark = get16(word);
            if (mark >= n && mark < 2 * n)
                put(&chart->conditions[e], mark - n);
            else if (mark >= 3 * n && mark < 4 * n)
                put(&chart->milestones[e], mark - 3 * n);
        }
    }
    return fit_chart(chart);
}

struct read_back plain_read_back(const uint8_t *image, size_t length)
{
    struct read_back back = {.answer = granted};
    struct book book;
    back.answer = judge(image, length, &book);
    if (back.answer.code != 0)
        return back;
    uint8_t again[MAX_BOOK]; // the book of the gathered chart, whose header tells first whether it is as long
    if (gather(&book, &back.chart) && plain_derive(&back.chart, again, length).code == 0 && memcmp(again, image, 32) == 0
        && memcmp(again, image, length) == 0)
        return back;
    return (struct read_back){.answer = refused(33, 0, 0)};
}

// ---- the running order

static void begin(const struct book *book, uint32_t stage, struct progress *progress)
{
    memset(&progress->unsettled, 0, sizeof progress->unsettled);
    memset(progress->left, 0, sizeof progress->left);
    progress->count = 0;
    for (uint32_t p = 0; p < book->rules; p++) {
        struct rule rule = rule_of(book, p);
        if (!counts(rule, stage))
            continue;
        progress->rules[progress->count++] = p;
        progress->left[rule.target]++;
        add(&progress->unsettled, rule.target);
    }
}

static bool ready(const struct book *book, const struct progress *progress, struct rule rule)
{
    if (rule.trigger >= BECOME_YES && has(&progress->unsettled, rule.number))
        return false;
    return rule.sense == NO_CONDITION || !meet(&book->refers[rule.condition], &progress->unsettled);
}

struct answer plain_check(const uint8_t *image, size_t length, uint32_t stage, uint32_t *room, size_t count)
{
    struct book book;
    struct answer answer = judge(image, length, &book);
    if (answer.code != 0)
        return answer;
    if (stage >= book.stages)
        return refused(29, 0, 0);
    struct progress progress;
    begin(&book, stage, &progress);
    if (count < progress.count)
        return refused(31, progress.count, 0);
    struct waiting waiting;
    begin_waiting(&book, &waiting);
    write_order(&book, &progress, &waiting, room);
    return granted;
}

// ---- completing a stage

static bool fit_order(const struct book *book, uint32_t stage, const uint32_t *order, size_t count)
{
    struct progress progress;
    begin(book, stage, &progress);
    if (count != progress.count)
        return false;
    bool seen[MAX_RULES];
    memset(seen, 0, book->rules);
    for (size_t i = 0; i < count; i++) {
        uint32_t p = order[i];
        if (p >= book->rules || seen[p])
            return false;
        seen[p] = true;
        struct rule rule = rule_of(book, p);
        if (!counts(rule, stage) || !ready(book, &progress, rule))
            return false;
        settles(&progress, rule.target);
    }
    return true;
}

// Alters the marks if the rule, which counts for the completed stage, fires.
static void apply(const struct book *book, struct rule rule, const bool *start, bool *now)
{
    if (!triggered(rule, start, now))
        return;
    if (rule.sense == NO_CONDITION || holds(book, rule.condition, now) == (rule.sense == AS_WRITTEN))
        now[rule.target] = rule.effect == SET;
}

static bool any_above(const struct book *book, const struct snapshot *snapshot)
{
    for (uint32_t m = book->marks; m < MAX_MARKS; m++)
        if (snapshot->marks[m])
            return true;
    return false;
}

struct settled plain_complete(const uint8_t *image, size_t length, const uint32_t *order, size_t count, struct snapshot snapshot,
                              uint32_t stage)
{
    struct settled settled = {.snapshot = snapshot};
    struct book book;
    settled.answer = judge(image, length, &book);
    if (settled.answer.code != 0)
        return settled;
    if (stage >= book.stages) {
        settled.answer = refused(29, 0, 0);
        return settled;
    }
    if (!fit_order(&book, stage, order, count)) {
        settled.answer = refused(27, 0, 0);
        return settled;
    }
    if (any_above(&book, &snapshot)) {
        settled.answer = refused(28, 0, 0);
        return settled;
    }
    if (!snapshot.marks[stage]) {
        settled.answer = refused(30, 0, 0);
        return settled;
    }
    for (size_t i = 0; i < count; i++)
        apply(&book, rule_of(&book, order[i]), snapshot.marks, settled.snapshot.marks);
    return settled;
}

// ---- the index

static uint32_t order_of(const struct book *book, uint32_t stage, struct waiting *waiting, uint32_t *order)
{
    struct progress progress;
    begin(book, stage, &progress);
    write_order(book, &progress, waiting, order);
    return progress.count;
}

struct answer plain_build_index(const uint8_t *image, size_t length, uint8_t *room, size_t bytes)
{
    struct book book;
    struct answer answer = judge(image, length, &book);
    if (answer.code != 0)
        return answer;
    uint32_t needed = index_size(&book);
    if (bytes < needed)
        return refused(35, needed, 0);
    uint8_t *entry = put32(put32(room, book.stages), book.rules), *at = room + 8 + 8 * book.stages;
    uint32_t order[MAX_RULES];
    struct waiting waiting;
    begin_waiting(&book, &waiting);
    for (uint32_t stage = 0; stage < book.stages; stage++) {
        uint32_t count = order_of(&book, stage, &waiting, order);
        entry = put32(put32(entry, (uint32_t)(at - room)), count);
        for (uint32_t i = 0; i < count; i++)
            at = put32(at, order[i]);
    }
    return granted;
}

static bool fit_index(const struct book *book, const uint8_t *index, size_t bytes)
{
    if (bytes != index_size(book) || get32(index) != book->stages || get32(index + 4) != book->rules)
        return false;
    uint32_t at = 8 + 8 * book->stages;
    uint32_t order[MAX_RULES];
    struct waiting waiting;
    begin_waiting(book, &waiting);
    for (uint32_t stage = 0; stage < book->stages; stage++) {
        uint32_t count = order_of(book, stage, &waiting, order);
        if (get32(index + 8 + 8 * stage) != at || get32(index + 12 + 8 * stage) != count)
            return false;
        for (uint32_t i = 0; i < count; i++, at += 4)
            if (get32(index + at) != order[i])
                return false;
    }
    return true;
}

// Completes an open stage of a book with its index; gives how many rules were evaluated.
static uint32_t go_through(const struct book *book, const uint8_t *index, uint32_t stage, struct snapshot *snapshot)
{
    const struct snapshot start = *snapshot;
    const uint8_t *at = index + get32(index + 8 + 8 * stage), *end = at + 4 * get32(index + 12 + 8 * stage);
    uint32_t evaluated = 0;
    for (; at < end; at += 4, evaluated++)
        apply(book, rule_of(book, get32(at)), start.marks, snapshot->marks);
    return evaluated;
}

// Refusals 20 to 26, 34 and 28.
static struct answer judge_indexed(const uint8_t *image, size_t length, const uint8_t *index, size_t bytes,
                                   const struct snapshot *snapshot, struct book *book)
{
    struct answer answer = judge(image, length, book);
    if (answer.code != 0)
        return answer;
    if (!fit_index(book, index, bytes))
        return refused(34, 0, 0);
    return any_above(book, snapshot) ? refused(28, 0, 0) : granted;
}

// Refusals 29 and 30.
static struct answer open_stage(const struct book *book, const struct snapshot *snapshot, uint32_t stage, uint32_t place)
{
    if (stage >= book->stages)
        return refused(29, place, 0);
    return snapshot->marks[stage] ? granted : refused(30, place, 0);
}

struct indexed plain_complete_indexed(const uint8_t *image, size_t length, const uint8_t *index, size_t bytes, struct snapshot snapshot,
                                      uint32_t stage)
{
    struct indexed indexed = {.snapshot = snapshot};
    struct book book;
    indexed.answer = judge_indexed(image, length, index, bytes, &snapshot, &book);
    if (indexed.answer.code == 0)
        indexed.answer = open_stage(&book, &snapshot, stage, 0);
    if (indexed.answer.code == 0)
        indexed.evaluated = go_through(&book, index, stage, &indexed.snapshot);
    return indexed;
}

struct listed plain_complete_list(const uint8_t *image, size_t length, const uint8_t *index, size_t bytes, struct snapshot snapshot,
                                const uint32_t *stages, size_t count)
{
    struct listed listed = {.snapshot = snapshot};
    struct book book;
    listed.answer = judge_indexed(image, length, index, bytes, &snapshot, &book);
    if (listed.answer.code == 0 && count > MAX_LIST)
        listed.answer = refused(38, count < UINT32_MAX ? (uint32_t)count : UINT32_MAX, 0);
    for (; listed.answer.code == 0 && listed.granted < count; listed.granted++) {
        uint32_t stage = stages[listed.granted];
        listed.answer = open_stage(&book, &listed.snapshot, stage, listed.granted);
        if (listed.answer.code != 0)
            break;
        listed.evaluated += go_through(&book, index, stage, &listed.snapshot);
    }
    return listed;
}
