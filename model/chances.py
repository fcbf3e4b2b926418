# Random charts, markings, books, orders and snapshots, and the families of random requests made from them.

import ozhimka as model
from ozhimka import AND, MAX_EVENTS, MAX_MARKS, NONE, NOT, OR, Book, Marking, Rule, snapshot_of
from protocol import (FLAT_BYTES, MARKING_BYTES, MAX_ROOM_BYTES, back_request, check_request, complete_request, count_request, derive_request, execute_request,
                      finished_request, index_request, indexed_request, list_request, listing_request, matching_request, mend_request,
                      open_request, read_request, replay_request, smaller_request, strike_request)


def some(rng, population, chance):
    return {e for e in population if rng.random() < chance}


# ---- roles

# numbers that are no role: some would pass for one if they were cut to fewer bits, or shifted by
NO_ROLES = (8, 9, 15, 16, 32, 64, 71, 255, 256, 259, 65536, 1 << 31, (1 << 32) - 8, (1 << 32) - 1)


def random_roles(rng):
    """The upper byte of a node's flags, often 0."""
    return rng.choice((0, 0, 0, 1 << rng.randrange(8), 1 << rng.randrange(8), rng.randrange(256), 255))


def random_role(rng, chart, event):
    """A role for a step: mostly one that is permitted."""
    named = sorted(chart.roles[event]) if event < chart.count else []
    if rng.random() < 0.1:
        return rng.choice(NO_ROLES)
    return rng.choice(named) if named and rng.random() < 0.8 else rng.randrange(8)


# ---- charts

def forest(rng, count, nesting):
    """Parents without a loop: each node's parent stands before it in a shuffled row."""
    row = list(range(count))
    rng.shuffle(row)
    parents = [NONE] * count
    for place, n in enumerate(row):
        if place and rng.random() < nesting:
            parents[n] = row[rng.randrange(max(0, place - 8), place)]
    return parents


def random_nodes(rng, count, nesting=0.5):
    parents, named = forest(rng, count, nesting), rng.random() < 0.6
    groups = set(parents)
    flags = [0 if n in groups else rng.choice((4, 4, 4, 4, 4, 6, 6, 5, 7, 0, 1, 2, 3)) for n in range(count)]
    return [(parent, flags[n] + (256 * random_roles(rng) if named else 0)) for n, parent in enumerate(parents)]


def random_relations(rng, nodes, count):
    """Relations of any kind; now and then one that includes beside one that excludes, at the same nodes or at one of their parents."""
    relations = []
    for _ in range(count):
        a, b, kind = rng.randrange(len(nodes)), rng.randrange(len(nodes)), rng.randrange(5)
        if relations and relations[-1][2] in (3, 4) and rng.random() < 0.3:
            a, b, kind = relations[-1][0], relations[-1][1], 7 - relations[-1][2]
            a, b = [nodes[n][0] if nodes[n][0] != NONE and rng.random() < 0.3 else n for n in (a, b)]
        relations.append((a, b, kind))
    return relations


# event counts at the ends of a set's words, and between them
WIDE_COUNTS = (65, 66, 100, 127, 128, 129, 150, 191, 192, 193, 200, 254, 255, 256)


def random_chart_image(rng, count=None):
    """Most have a few nodes, some up to all that a chart may have."""
    count = count or (rng.choice((1, 2, 3, 4, 5, 6, 8, 10, 12, 16)) if rng.random() < 0.95 else rng.choice((64, 65, 128, 200, 257, 300, 511, 512)))
    nodes = random_nodes(rng, count, rng.choice((0, 0.3, 0.6, 0.9)))
    return model.chart_image(nodes, random_relations(rng, nodes, rng.randrange(0, 3 * count + 1)))


def random_flat(rng, count=None, chance=None):
    """Most have a few events, some up to all that a set holds, and these fewer relations for each."""
    count = count or (rng.choice((1, 2, 3, 4, 5, 8, 13, 32, 63, 64)) if rng.random() < 0.8 else rng.choice(WIDE_COUNTS))
    chance = rng.choice((0.02, 0.1, 0.3, 0.7) if count <= 64 else (0.002, 0.01, 0.05, 0.2)) if chance is None else chance
    chart = model.empty_chart(count)
    named, apart = rng.random() < 0.6, rng.random() < 0.4
    for e in range(count):
        chart.roles[e] |= model.roles_in(random_roles(rng)) if named else set()
        for table in model.tables(chart):
            table[e] |= some(rng, range(count), chance)
        for f in chart.includes[e] & chart.excludes[e] if apart else ():
            rng.choice((chart.includes, chart.excludes))[e].discard(f)
    return chart


def random_marking(rng, count):
    return Marking(some(rng, range(count), rng.choice((0.1, 0.5, 0.9))), some(rng, range(count), rng.choice((0.05, 0.3))),
                   some(rng, range(count), rng.choice((0.3, 0.8, 1.0))))


# ---- books

def expression(rng, marks, size):
    """Postfix words of a random expression with `size` marks, and the spans (start, count) of all its parts."""
    if size == 1:
        words, spans = [rng.choice(marks)], [(0, 1)]
    else:
        first = rng.randrange(1, size)
        left, spans = expression(rng, marks, first)
        right, more = expression(rng, marks, size - first)
        spans = spans + [(len(left) + start, count) for start, count in more]
        words = left + right + [rng.choice((AND, OR))]
        spans.append((0, len(words)))
    if rng.random() < 0.3:
        words = words + [NOT]
        spans = spans + [(0, len(words))]
    return words, spans


def random_texts(rng, marks, conditions, longest=6):
    """Words and conditions into them: parts of expressions, often overlapping, with words in no condition between."""
    words, spans = [], []
    while len(spans) < conditions:
        if rng.random() < 0.3:
            words += [rng.choice((AND, OR, NOT, 0, 256, 1024, 60000)) for _ in range(rng.randrange(1, 4))]
        part, found = expression(rng, marks, rng.randrange(1, longest + 1))
        rng.shuffle(found)
        spans += [(len(words) + start, count) for start, count in found[:rng.choice((1, 1, 2, 4))]]
        words += part
    rng.shuffle(spans)
    return spans[:conditions], words


def wild_book(rng):
    """Any rules: loops and clashes are common."""
    stages = rng.choice((0, 1, 2, 3, 5))
    marks = stages + rng.choice((1, 2, 3, 5, 8, 20))
    used = rng.sample(range(marks), rng.randrange(1, marks + 1))
    conditions, words = random_texts(rng, used, rng.choice((0, 1, 2, 4)), 3)
    rules = []
    for _ in range(rng.choice((0, 1, 2, 3, 4, 6, 10))):
        trigger = rng.choice((0, 1, 1, 1, 2, 3)) if stages else rng.choice((0, 2, 3))
        number = 0 if trigger == 0 else rng.randrange(stages if trigger == 1 else marks)
        sense = rng.choice((0, 0, 1, 2)) if conditions else 0
        rules.append(Rule(trigger, sense, rng.randrange(2), 0, number,
                          rng.randrange(len(conditions)) if sense else 0, rng.randrange(marks)))
    return Book(stages, marks, rules, conditions, words)


# marks at the ends of a snapshot's words
EDGES = (62, 63, 64, 65, 127, 128, 191, 192, 254, 255, 256, 257, 319, 320, 511, 512, 575, 767, 768, 959, 960, 1021, 1022, 1023)


def scattered(rng, book):
    """The book with its marks that are no stages under other numbers, up to the highest: what loops or clashes still does, and nothing else."""
    others = range(book.stages, book.marks)
    edges = [mark for mark in EDGES if mark >= book.stages]
    if len(others) > len(edges):
        return book
    numbers = dict(zip(others, rng.sample(edges, len(others))))
    rules = [rule._replace(target=numbers.get(rule.target, rule.target), number=numbers.get(rule.number, rule.number) if rule.trigger > 1 else rule.number)
             for rule in book.rules]
    marks = max(numbers.values(), default=book.marks - 1) + 1
    return Book(book.stages, rng.choice((marks, MAX_MARKS)), rules, book.conditions, [numbers.get(word, word) for word in book.words])


def at_times_scattered(make):
    """The maker of books, one in seven of which is scattered."""
    def maker(rng):
        book = make(rng)
        return scattered(rng, book) if rng.random() < 0.15 else book

    return maker


def ranks_by_stage(rng, stages, marks, crossed):
    """A rank of the marks for each stage: mostly one for all, or the lower part of it in another order for each stage."""
    row = rng.sample(range(marks), marks)
    part = rng.choice((marks, marks * 2 // 3)) if crossed else rng.choice((0, 0, marks // 2))
    rows = [rng.sample(row[:part], part) + row[part:] for stage in range(max(1, stages))]
    return [{mark: place for place, mark in enumerate(row)} for row in rows]


def sound_book(rng, stages=None, marks=None, rules=None, conditions=None, longest=None, crossed=False):
    """A book without loop and clash: in the ranks of each stage that a rule counts for, its target ranks above what it refers to, and
    each target has one way to be apart. The whole book often has a loop, from one stage's completion to another's and back."""
    stages = (rng.choice((1, 2, 3, 5, 8)) if rng.random() < 0.97 else rng.choice((64, 65, 128, 255, 256))) if stages is None else stages
    marks = stages + rng.choice((1, 2, 4, 8, 20)) if marks is None else marks
    count = rng.choice((0, 1, 2, 3, 5, 8, 12, 20, 30)) if rules is None else rules
    ranks = ranks_by_stage(rng, stages, marks, crossed)
    low = [m for m in range(marks) if ranks[0][m] < max(1, marks * 2 // 3) or crossed]
    spans, words = random_texts(rng, low, rng.choice((1, 2, 4, 8)) if conditions is None else conditions, longest or rng.choice((1, 2, 6)))
    refers = [{word for word in words[start:start + length] if word < marks} for start, length in spans]
    way = [(rng.choice(('set', 'clear', 'stages', 'record')), rng.randrange(len(spans)),
            [rng.randrange(2) for _ in range(stages)]) for _ in range(marks)]
    made = []
    tries = iter(range(100 * count))
    while len(made) < count and (not crossed or next(tries, None) is not None):  # in crossed ranks there may be no further rule
        rule = sound_rule(rng, stages, marks, ranks, refers, way)
        if rule:
            made.append(rule)
    return Book(stages, marks, made, spans, words)


def crossed_book(rng):
    """A sound book of few stages and marks and many conditions of one mark: it often has a loop over the whole book."""
    stages = rng.choice((2, 2, 3))
    return sound_book(rng, stages, stages + rng.choice((1, 2, 4)), rng.choice((8, 12, 20, 30)), 8, 1, crossed=True)


def sound_rule(rng, stages, marks, ranks, refers, way):
    """A rule on a random target, or None where the target ranks too low for what the rule would refer to."""
    target = rng.randrange(marks)
    kind, record, effects = way[target]
    trigger = 1 if kind == 'stages' else rng.choice((0, 1, 1, 1, 2, 3))
    if trigger == 1 and stages == 0:
        return None
    number = 0 if trigger == 0 else rng.randrange(stages if trigger == 1 else marks)
    sense = rng.choice((1, 2)) if kind == 'record' else rng.choice((0, 1, 2))
    condition = 0 if sense == 0 else record if kind == 'record' else rng.randrange(len(refers))
    marks_used = (refers[condition] if sense else set()) | ({number} if trigger in (2, 3) else set())
    if any(rank[m] >= rank[target] for rank in (ranks[number:number + 1] if trigger == 1 else ranks) for m in marks_used):
        return None
    effect = {'set': 1, 'clear': 0, 'record': sense % 2}.get(kind)
    return Rule(trigger, sense, effects[number] if effect is None else effect, 0, number, condition, target)


def circle_of_completions(rng):
    """Rules in a circle, each with a condition on the mark that the one before targets. They wait for completions of one stage, of two or
    more, or some for nothing; now and then one of them is missing, or stands twice for two stages."""
    stages, length = rng.choice((1, 2, 2, 3, 4)), rng.choice((1, 2, 2, 2, 3, 4, 6))
    marks = stages + length + rng.randrange(3)
    ring = rng.sample(range(marks), length)
    home, stray, bare = rng.randrange(stages), rng.choice((0, 0.3, 0.6)), rng.choice((0, 0.2, 0.5))
    rules = []
    for i, target in enumerate(ring):
        stage = rng.randrange(stages) if rng.random() < stray else home
        trigger = rng.choice((0, 2)) if rng.random() < bare else 1
        number = {0: 0, 1: stage, 2: ring[i - 1]}[trigger]
        rules.append(Rule(trigger, rng.choice((1, 2)), 1, 0, number, (i - 1) % length, target))
    if rng.random() < 0.3:
        rules.pop(rng.randrange(length))
    elif rng.random() < 0.3:
        rules.append(rng.choice(rules)._replace(trigger=1, number=rng.randrange(stages)))
    rng.shuffle(rules)
    return Book(stages, marks, rules, [(i, 1) for i in range(length)], ring)


def opposed_pair(rng, conditions):
    """The senses (sense, condition) of a mark's rules by effect: one record, as written for the one effect and negated for the other."""
    sense, condition = rng.choice((1, 2)), rng.randrange(conditions)
    return [[(3 - sense, condition)], [(sense, condition)]]


def crowded_ways(rng, stages, conditions):
    """A plan for a mark with many rules that do not clash: for each stage, and at None for rules on no completion, the senses that a rule
    may have, by effect; an empty list where that effect has no rule."""
    free = [(0, 0)] + [(sense, rng.randrange(conditions)) for sense in (1, 2, 1, 2)]
    one_effect = lambda: rng.choice(([free, []], [[], free]))
    plan = rng.choice(('one effect', 'one pair', 'stages apart', 'pair by stage', 'pair by stage', 'others', 'others'))
    pair, effect = opposed_pair(rng, conditions), rng.randrange(2)
    if plan == 'one effect':
        way = one_effect()
        return {at: way for at in (None, *range(stages))}
    if plan == 'one pair':
        return {at: pair for at in (None, *range(stages))}
    if plan == 'stages apart':
        return {stage: one_effect() for stage in range(stages)}
    if plan == 'pair by stage':
        return {stage: rng.choice((one_effect(), opposed_pair(rng, conditions))) for stage in range(stages)}
    only = [pair[side] if side == effect else [] for side in (0, 1)]
    same = [free if side == effect else [] for side in (0, 1)]
    return {None: only, **{stage: rng.choice((pair, same)) for stage in range(stages)}}


def crowded_rule(rng, ways, sources, target):
    at = rng.choice(list(ways))
    effect = rng.choice([side for side in (0, 1) if ways[at][side]])
    trigger = rng.choice((0, 0, 2, 3)) if at is None else 1
    number = at if trigger == 1 else rng.choice(sources) if trigger else 0
    sense, condition = rng.choice(ways[at][effect])
    return Rule(trigger, sense, effect, 0, number, condition, target)


def turned(rng, rule, stages, sources, conditions):
    """The rule with one thing changed, so that it may clash with others of its mark."""
    way = rng.choice(('effect', 'sense', 'no sense', 'condition', 'stage', 'no trigger', 'become'))
    if way == 'effect':
        return rule._replace(effect=1 - rule.effect)
    if way == 'no sense':
        return rule._replace(sense=0, condition=0)
    if way == 'sense':
        return rule._replace(sense=3 - rule.sense if rule.sense else 1)
    if way == 'condition':
        return rule._replace(sense=rule.sense or 1, condition=rng.randrange(conditions))
    if way == 'stage':
        return rule._replace(trigger=1, number=rng.randrange(stages))
    if way == 'no trigger':
        return rule._replace(trigger=0, number=0)
    return rule._replace(trigger=rng.choice((2, 3)), number=rng.choice(sources))


def crowded_book(rng):
    """Many rules on one or two marks, of few stages and shared conditions: no loop, and no clash or one that hangs on one or two rules.
    Some records have one and the same text. The lowest marks may be the crowded ones, or stages, or the last."""
    stages, conditions = rng.choice((1, 2, 2, 3, 4, 8)), rng.choice((1, 2, 3, 3, 5))
    marks = stages + rng.choice((2, 3, 5))
    row = rng.sample(range(marks), marks)
    crowded, sources = row[:rng.choice((1, 1, 2))], row[2:]
    spans, words = random_texts(rng, sources, conditions, 2)
    if rng.random() < 0.5:
        spans[rng.randrange(conditions)] = rng.choice(spans)
    plans = {target: crowded_ways(rng, stages, conditions) for target in crowded}
    rules = []
    for _ in range(rng.choice((2, 3, 4, 6, 8, 12, 20, 40))):
        target = rng.choice(crowded)
        rules.append(crowded_rule(rng, plans[target], sources, target))
    for _ in range(rng.choice((0, 0, 1, 1, 1, 2))):
        p = rng.randrange(len(rules))
        rules[p] = turned(rng, rules[p], stages, sources, conditions)
    return Book(stages, marks, rules, spans, words)


def a_trigger_less(rng, book):
    """The book with one rule's trigger taken away: the rule then counts for every stage."""
    rules = list(book.rules)
    completing = [p for p, rule in enumerate(rules) if rule.trigger == 1]
    if completing:
        p = rng.choice(completing)
        rules[p] = rules[p]._replace(trigger=0, number=0)
    return book._replace(rules=rules)


def a_stage(rng, stages):
    """A stage to ask for: mostly one that the book has, now and then the first past it or one far off."""
    return rng.randrange(stages) if stages and rng.random() < 0.85 else rng.choice((stages, stages + 1, 64, 256, 65536, (1 << 32) - 1))


def random_order(rng, book, stage):
    """Some fit order of the stage: any rule that is ready comes next."""
    order, unwritten = [], model.counted(book, stage)
    while unwritten:
        targets = model.mark_bits(book.rules[p].target for p in unwritten)
        rule = rng.choice([q for q in unwritten if not book.refers[q] & targets])
        order.append(rule)
        unwritten.remove(rule)
    return order


def with_uncounted(rng, book, order):
    """A stage's order with one rule too many, or in another's place, that does not count for the stage; where all count, as it was."""
    order, others = list(order), sorted(set(range(len(book.rules))) - set(order))
    if others and order and rng.random() < 0.4:
        order[rng.randrange(len(order))] = rng.choice(others)
    elif others:
        order.insert(rng.choice((0, len(order), rng.randrange(len(order) + 1))), rng.choice(others))
    return order


def of_whole_book(rng, book, order):
    """Every rule once: as they stand, or those of the stage's order first and the others behind them, or before them."""
    others = sorted(set(range(len(book.rules))) - set(order))
    return rng.choice((list(range(len(book.rules))), list(order) + others, others + list(order)))


def disturbed(rng, order, count):
    """An order changed in one way; now and then it is still fit."""
    order = list(order)
    way = rng.choice(('swap', 'swap', 'move', 'move', 'repeat', 'outside', 'shorter', 'longer', 'shuffle'))
    if way == 'shorter' and order:
        order.pop(rng.randrange(len(order)))
    elif way == 'longer' or not order:
        order.insert(rng.randrange(len(order) + 1), rng.randrange(count + 1))
    elif way == 'outside':
        place = rng.randrange(len(order))
        order[place] = rng.choice((count, count + 1, 65535, 65536 + order[place], (1 << 31) + order[place], (1 << 32) - 1))  # some would pass if they were cut
    elif way == 'repeat':
        order[rng.randrange(len(order))] = rng.choice(order)
    elif way == 'move':
        order.insert(rng.randrange(len(order)), order.pop(rng.randrange(len(order))))
    elif way == 'swap':
        i, j = rng.randrange(len(order)), rng.randrange(len(order))
        order[i], order[j] = order[j], order[i]
    else:
        rng.shuffle(order)
    return order


def disturbed_index(rng, book, index):
    """An index changed in one way; now and then it is still the book's."""
    way = rng.choice(('bytes', 'bytes', 'entry', 'entry', 'rule', 'rule', 'another book', 'another order', 'narrow'))
    orders_at = 8 + 8 * book.stages
    if way == 'narrow':
        return model.index_image(book, 2)  # as it was stored with 16 bits a rule
    if way == 'another book':
        rules = rng.sample(book.rules, len(book.rules))
        return model.index_image(book._replace(rules=rules if rng.random() < 0.5 else rules[1:]))
    if way == 'another order' and book.stages:
        stage = rng.randrange(book.stages)
        at, order = model.number32(index, 8 + 8 * stage), random_order(rng, book, stage)
        return index[:at] + model.run32(order) + index[at + 4 * len(order):]
    if way == 'entry':
        at = rng.randrange(0, orders_at, 4)
        return index[:at] + model.bytes32((model.number32(index, at) + rng.choice((-2, -1, 1, 2, 4))) % (1 << 32)) + index[at + 4:]
    if way == 'rule' and len(index) > orders_at:
        at = rng.randrange(orders_at, len(index), 4)
        number = rng.choice((rng.randrange(len(book.rules) + 1), model.number32(index, at) + 65536))
        return index[:at] + model.bytes32(number) + index[at + 4:]
    return with_bytes_changed(rng, index)


def random_snapshot(rng, marks):
    chance = rng.choice((0.2, 0.5, 0.8))
    return snapshot_of(some(rng, range(marks), chance))


# ---- families of requests: each yields bodies

def charts(rng):
    yield read_request(random_chart_image(rng))


def steps(rng):
    """One marking of one flat chart, through every call that takes both."""
    chart = random_flat(rng)
    marking = random_marking(rng, chart.count)
    event = rng.randrange(chart.count)
    yield execute_request(chart, marking, event, random_role(rng, chart, event))
    makers = (count_request, finished_request, matching_request)
    yield rng.choice(makers)(chart, marking)
    included = marking.included | {event} if rng.random() < 0.7 else marking.included
    marking = marking._replace(included=included)
    cleared_opens(chart, marking, event)
    yield open_request(chart, marking, event if rng.random() < 0.95 else rng.choice((chart.count, 64, 256, 256 + event, 65536 + event)))


def cleared_opens(chart, marking, event):
    """Once the conditions of the first set have run and the milestones of the second are no longer pending, the event is open; each of
    them alone holds it back, of which the last and some before it are tried."""
    (code, place, _), blocks = model.open_test(chart, marking, event)
    cleared = marking._replace(executed=marking.executed | blocks.conditions, pending=marking.pending - blocks.milestones)
    assert model.open_test(chart, cleared, event)[0] == ((11, 0, 0) if code == 11 else model.GRANTED)
    for f in sorted(blocks.conditions)[::-1 - len(blocks.conditions) // 8]:
        assert model.open_test(chart, cleared._replace(executed=cleared.executed - {f}), event) == ((12, f, 0), ({f}, set()))
    for f in sorted(blocks.milestones)[::-1 - len(blocks.milestones) // 8]:
        assert model.open_test(chart, cleared._replace(pending=cleared.pending | {f}), event) == ((13, f, 0), (set(), {f}))


def random_record(rng, chart, marking):
    """Steps of which most are granted where they stand."""
    record = []
    for _ in range(rng.choice((0, 1, 2, 5, 10, 20))):
        opened = model.open_events(chart, marking)
        event = rng.choice(opened) if opened and rng.random() < 0.97 else rng.randrange(chart.count + 1)
        named = sorted(chart.roles[event]) if event < chart.count else []
        role = rng.choice(named or range(8)) if rng.random() < 0.97 else random_role(rng, chart, event)
        record.append((event, role))
        marking = model.step(chart, marking, event, role)[1]
    return record


def records(rng):
    """A record replayed, and replayed without one step; at times without a step that it needs."""
    chart = random_flat(rng, chance=rng.choice((0.02, 0.05, 0.1)))
    marking = random_marking(rng, chart.count)
    record = random_record(rng, chart, marking)
    if record and rng.random() < 0.2:
        del record[rng.randrange(len(record))]
    yield replay_request(chart, marking, record)
    yield strike_request(chart, marking, rng.randrange(len(record) + 1), record)


def derivings(rng):
    chart = random_flat(rng)
    needed = len(model.book_image(model.derived_book(chart)))
    yield derive_request(rng.choice((needed, needed, needed - 1, needed + 1, needed + 100, needed // 2, 0)), chart)


def wild_checks(rng):
    book = at_times_scattered(wild_book)(rng)
    stage = a_stage(rng, book.stages)
    yield check_request(max(0, len(model.counted(book, stage)) + rng.choice((0, 0, 1, 5, -1))), stage, model.book_image(book))


def wild_completions(rng):
    book = at_times_scattered(wild_book)(rng)
    stage = a_stage(rng, book.stages)
    order = model.counted(book, stage)
    rng.shuffle(order)
    snapshot = random_snapshot(rng, rng.choice((book.marks, book.marks, book.marks, MAX_MARKS)))
    yield complete_request(stage, snapshot, order, model.book_image(book))


def circles(rng):
    """A circle of rules in one completion, or over several, and the same with one trigger taken away: each stage is asked for."""
    book = at_times_scattered(circle_of_completions)(rng)
    for book in (book, a_trigger_less(rng, book)):
        for stage in range(book.stages):
            order = model.counted(book, stage)
            yield check_request(len(order) + rng.choice((0, 1)), stage, model.book_image(book))
            rng.shuffle(order)
            snapshot = snapshot_of(set(range(book.stages)) | some(rng, range(book.marks), 0.5))
            yield complete_request(stage, snapshot, order, model.book_image(book))


def crowded_books(rng):
    """A book with many rules on one mark: its check for a stage, and completions in the stage's running order and in any other."""
    book = at_times_scattered(crowded_book)(rng)
    image, stage = model.book_image(book), a_stage(rng, book.stages)
    yield check_request(max(0, len(model.counted(book, stage)) + rng.choice((0, 0, 0, 1, -1))), stage, image)
    stage = rng.randrange(book.stages)
    for order in (model.running_order(book, stage), random_order(rng, book, stage)):
        snapshot = random_snapshot(rng, book.marks)
        snapshot[stage] = True
        yield complete_request(stage, snapshot, order, image)


def sound_books(rng):
    """A sound hand-made book: its check for a stage, and completions in the stage's running order, in other fit orders, and in unfit
    ones, among them orders of another stage and of the whole book. Now and then a trigger is taken away, and it may be sound no more."""
    book = at_times_scattered(rng.choice((sound_book, crossed_book)))(rng)
    image = model.book_image(book)
    stage = a_stage(rng, book.stages)
    yield check_request(len(model.counted(book, stage)) + rng.choice((0, 0, 3)), stage, image)
    yield check_request(len(book.rules), stage, model.book_image(a_trigger_less(rng, book)))
    for _ in range(3):
        snapshot = random_snapshot(rng, book.marks)
        opened = [s for s in range(book.stages) if snapshot[s]] or [0]
        stage = rng.choice(opened)
        yield complete_request(stage, snapshot, model.running_order(book, stage), image)
        order = random_order(rng, book, stage)
        yield complete_request(stage, snapshot, order, image)
        yield complete_request(stage, snapshot, disturbed(rng, order, len(book.rules)), image)
        unfit = rng.choice((with_uncounted, with_uncounted, of_whole_book))(rng, book, order)
        yield complete_request(rng.choice((stage, stage, stage, a_stage(rng, book.stages))), snapshot, unfit, image)
        yield complete_request(rng.choice(opened), snapshot, order, image)


def sound_runs(rng):
    """Completions of a sound hand-made book one after another, each from the snapshot before it, in the order of its stage."""
    book = at_times_scattered(rng.choice((sound_book, crossed_book)))(rng)
    image, orders = model.book_image(book), [model.running_order(book, stage) for stage in range(book.stages)]
    snapshot = random_snapshot(rng, book.marks)
    for _ in range(rng.randrange(3, 12)):
        opened = [s for s in range(book.stages) if snapshot[s]]
        stage = rng.choice(opened) if opened and rng.random() < 0.9 else rng.randrange(book.stages)
        yield complete_request(stage, snapshot, orders[stage], image)
        snapshot = model.complete(image, orders[stage], snapshot, stage)[1]


def indexes(rng):
    """A book, sound or not, with room around what its index needs; completions through the index, through one that is disturbed, and
    through that of another book with the same rules, or one less."""
    book = at_times_scattered(rng.choice((sound_book, crossed_book, wild_book)))(rng)
    image, stages = model.book_image(book), range(book.stages)
    needed = model.index_length(book)
    yield index_request(max(0, needed + rng.choice((0, 0, 0, 1, 7, -1, -2, -needed))), image)
    passes = model.build_index(image, bytes(needed))[0] == model.GRANTED
    index = model.index_image(book) if passes else rng.randbytes(needed)
    for _ in range(3):
        snapshot = random_snapshot(rng, rng.choice((book.marks,) * 6 + (MAX_MARKS,)))
        opened = [s for s in stages if snapshot[s]]
        stage = rng.choice(opened) if opened and rng.random() < 0.8 else a_stage(rng, book.stages)
        yield indexed_request(stage, snapshot, index, image)
        if passes:
            yield indexed_request(stage, snapshot, disturbed_index(rng, book, index), image)
            if stage < book.stages and not any(snapshot[book.marks:]):
                along = model.complete(image, model.running_order(book, stage), snapshot, stage)
                evaluated = len(model.counted(book, stage)) if along[0] == model.GRANTED else 0
                assert model.complete_indexed(image, index, snapshot, stage) == (*along, evaluated)


def a_list(rng, image, index, snapshot, length):
    """Stages to complete one after another: mostly open ones, so that the list goes on; now and then one that is closed or that is none."""
    stages, count = [], model.number32(image, 0)
    for _ in range(length):
        opened = [stage for stage in range(count) if snapshot[stage]]
        if opened and rng.random() < 0.95:
            stages.append(rng.choice(opened))
            snapshot = model.complete_indexed(image, index, snapshot, stages[-1])[1]
        else:
            stages.append(a_stage(rng, count))
    return stages


def in_turn(image, index, snapshot, stages):
    """One call through the index after another, stopping at the first that is refused: how many were granted, the snapshot there, and the
    rules that they evaluated together."""
    together = 0
    for granted, stage in enumerate(stages):
        answer, snapshot, evaluated = model.complete_indexed(image, index, snapshot, stage)
        if answer != model.GRANTED:
            return granted, snapshot, together
        together += evaluated
    return len(stages), snapshot, together


def lists(rng):
    """A list of a sound book's completions, and the same with the index disturbed or a mark above."""
    book = at_times_scattered(rng.choice((sound_book, crossed_book)))(rng)
    image, index = model.book_image(book), model.index_image(book)
    for _ in range(2):
        snapshot = random_snapshot(rng, book.marks)
        stages = a_list(rng, image, index, snapshot, rng.choice((0, 1, 2, 3, 5, 8, 13)))
        assert model.complete_list(image, index, snapshot, stages)[1:] == in_turn(image, index, snapshot, stages)
        yield list_request(snapshot, stages, index, image)
    yield list_request(snapshot, stages, disturbed_index(rng, book, index), image)
    yield list_request(random_snapshot(rng, rng.choice((book.marks, MAX_MARKS))), stages, index, image)


def accepted_image(rng):
    """A random chart that the reader accepts."""
    while True:
        image = random_chart_image(rng)
        if model.read_chart(image)[0] == model.GRANTED:
            return image


def side_by_side(rng, longest=25):
    """A chart and its derived book through one sequence of steps."""
    image = accepted_image(rng)
    chart, start = model.read_chart(image)[1:]
    yield read_request(image)
    yield from run_of_both(rng, chart, start, rng.randrange(1, longest))


def long_runs(rng, steps_to_go=100):
    """Many steps of a wider chart and its book."""
    chart = random_flat(rng, rng.randrange(20, 40), 0.03)
    start = Marking(set(), some(rng, range(chart.count), 0.2), some(rng, range(chart.count), 0.9))
    yield from run_of_both(rng, chart, start, steps_to_go)


def run_of_both(rng, chart, marking, steps_to_go):
    """The chart's step and the book's completion, one after the other; the model's two sides must agree at each step by a permitted role.
    Other steps are refused and make no completion: the book knows no roles."""
    derived = model.derived_book(chart)
    book, rules = model.book_image(derived), len(derived.rules)
    yield derive_request(len(book), chart)
    yield check_request(rules, rng.randrange(chart.count), book)
    orders, taken, freely = {}, [], rules < 100 and rng.random() < 0.3
    first = snapshot = model.matching(chart, marking)[1]
    for _ in range(steps_to_go):
        opened = model.open_events(chart, marking)
        event = rng.choice(opened) if opened and rng.random() < 0.8 else rng.randrange(chart.count)
        role, before = random_role(rng, chart, event), marking
        yield execute_request(chart, marking, event, role)
        stepped, marking, blocks = model.execute(chart, marking, event, role)
        if not model.is_permitted(chart, event, role):
            assert stepped == (32, 0, 0) and marking == before and blocks == model.NOTHING
            continue
        assert (stepped, blocks) == model.open_test(chart, before, event)
        if event not in orders:
            orders[event] = random_order(rng, derived, event) if freely else model.running_order(derived, event)
        yield complete_request(event, snapshot, orders[event], book)
        completed, snapshot = model.complete(book, orders[event], snapshot, event)
        assert (stepped[0] in (11, 12, 13) and completed[0] == 30) or stepped == completed == model.GRANTED
        assert snapshot == model.matching(chart, marking)[1]
        taken.append(event)
        if rng.random() < 0.4:
            begun = model.matching(chart, before)[1]
            evaluated = model.complete_indexed(book, model.index_of(book), begun, event)[2]
            assert evaluated <= 4 * chart.count + 1 and (evaluated == 0) == (completed != model.GRANTED)
            yield indexed_request(event, begun, model.index_of(book), book)
        if rng.random() < 0.2:
            yield rng.choice((count_request, finished_request, matching_request))(chart, marking)
            yield open_request(chart, marking, rng.randrange(chart.count))
    yield list_request(first, taken, model.index_of(book), book)  # the whole run as one list, which stops at the first refused step


def other_rules(rng, book):
    """The rules with one moved, two exchanged, one changed in one field, one missing, one twice, or one more of a relation."""
    rules, way = list(book.rules), rng.choice(('move', 'exchange', 'target', 'target', 'effect', 'missing', 'twice', 'trigger', 'sense', 'another'))
    p, q = rng.randrange(len(rules)), rng.randrange(len(rules))
    if way == 'move':
        rules.insert(q, rules.pop(p))
    elif way == 'exchange':
        rules[p], rules[q] = rules[q], rules[p]
    elif way == 'target':
        rules[p] = rules[p]._replace(target=rng.choice((rules[p].target ^ 1, rng.randrange(book.marks))))
    elif way == 'effect':
        rules[p] = rules[p]._replace(effect=1 - rules[p].effect)
    elif way == 'missing':
        rules.pop(p)
    elif way == 'twice':
        rules.insert(q, rules[p])
    elif way == 'trigger':
        kind = rng.randrange(4)
        rules[p] = rules[p]._replace(trigger=kind, number=0 if kind == 0 else rng.randrange(book.stages))
    elif way == 'sense':
        sense = rng.randrange(3)
        rules[p] = rules[p]._replace(sense=sense, condition=rules[p].condition if sense else 0)
    else:
        n = book.stages
        rules.insert(p, model.on_completion(rng.randrange(n), rng.randrange(2), rng.choice((2, 3)) * n + rng.randrange(n)))
    return book._replace(rules=rules)


def other_texts(rng, book):
    """One word of a text changed, a clause missing, twice or elsewhere, a gap, an unused condition, one count of a record changed, or two
    records exchanged."""
    conditions, words = list(book.conditions), list(book.words)
    way = rng.choice(('word', 'word', 'word', 'clause', 'clause', 'clause', 'gap', 'unused', 'count', 'records'))
    c = rng.randrange(len(conditions))
    start, count = conditions[c]
    if start + count > len(words):  # changed before
        return book
    if way == 'word':
        at = rng.randrange(start, start + count)
        words[at] = rng.choice((AND, OR, NOT)) if words[at] >= book.marks else rng.choice((words[at] ^ 1, rng.randrange(book.marks)))
    elif way == 'clause' and count > 1:
        clauses = [words[at:at + 5] for at in range(start + 1, start + count, 5)]
        clause = clauses[rng.randrange(len(clauses))] if rng.random() < 0.5 else clauses.pop(rng.randrange(len(clauses)))
        if rng.random() < 0.6:
            clauses.insert(rng.randrange(len(clauses) + 1), clause)
        text = words[start:start + 1] + sum(clauses, [])
        words[start:start + count] = text
        conditions = [(at if at <= start else at + len(text) - count, length) for at, length in conditions]
        conditions[c] = (start, len(text))
    elif way == 'gap':
        words[start:start] = [rng.choice((0, AND, NOT, 60000))]
        conditions = [(at + (at >= start), length) for at, length in conditions]
    elif way == 'unused':
        conditions.append(rng.choice(((start, 1), (start, count), (len(words) - 1, 1))))
    elif way == 'count':
        conditions[c] = rng.choice(((start, max(1, count + rng.choice((-5, -1, 1, 5)))), (start + rng.choice((-1, 1, 5)) & 0xFFFF, count)))
    else:
        other = rng.randrange(len(conditions))
        conditions[c], conditions[other] = conditions[other], conditions[c]
    return book._replace(conditions=conditions, words=words)


def other_counts(rng, book):
    """Other stages or marks than the deriver's, often none."""
    stages = rng.choice((0, 0, book.stages - 1, book.stages + 1, book.stages))
    rules = [rule for rule in book.rules if rule.trigger != 1 or rule.number < stages]
    return book._replace(stages=stages, marks=max(book.marks + rng.choice((0, 0, 1, -1)), stages), rules=rng.choice((rules, book.rules)))


def read_backs(rng):
    """A derived book read back, and the same changed in one way or two; whatever is accepted is what the deriver writes for its chart."""
    chart = random_flat(rng, rng.choice((1, 2, 2, 3, 3, 4, 5, 8)), rng.choice((0.0, 0.1, 0.3, 0.5, 1.0)))
    book = model.derived_book(chart)
    assert model.read_back(model.book_image(book)) == (model.GRANTED, model.told_by_book(chart))
    yield back_request(model.book_image(book))
    for ways in ((other_rules,), (other_rules,), (other_texts,), (other_texts,), (other_counts,), (other_rules, other_texts), (other_texts, other_texts)):
        other = book
        for change in ways:
            other = change(rng, other)
        image = model.book_image(other)
        answer, found = model.read_back(image)
        assert answer != model.GRANTED or model.book_image(model.derived_book(found)) == image
        yield back_request(image)
    yield back_request(with_bytes_changed(rng, model.book_image(book)))


def with_bytes_changed(rng, image):
    image = bytearray(image)
    way = rng.choice(('bytes', 'bytes', 'bytes', 'bit', 'cut', 'longer', 'header'))
    if way == 'cut':
        return bytes(image[:rng.randrange(len(image) + 1)])
    if way == 'longer':
        return bytes(image) + rng.randbytes(rng.randrange(1, 5))
    for _ in range(rng.choice((1, 1, 2, 4))):
        at = rng.randrange(min(len(image), 32) if way == 'header' else len(image))
        if way == 'bit':
            image[at] ^= 1 << rng.randrange(8)
        else:
            image[at] = rng.choice((0, 1, 2, 3, 4, 7, 8, 255, 253, rng.randrange(256)))
    return bytes(image)


def damaged_charts(rng):
    image = with_bytes_changed(rng, random_chart_image(rng))
    yield read_request(image)
    yield mend_request(len(image), rng.choice((0, 10, 100)), image)


def damaged_nodes(rng, count):
    """Nodes of which some have a parent that is none or is on a loop, or flags that a node or a group may not have."""
    nodes, worse = random_nodes(rng, count, rng.choice((0, 0.3, 0.6, 0.9))), rng.choice((0.05, 0.2, 0.5))
    parents, flags = [parent for parent, _ in nodes], [flags for _, flags in nodes]
    for _ in range(rng.choice((0, 1, 1, 2, 5))):  # loops, of one node and more
        ring = rng.sample(range(count), min(count, rng.choice((1, 1, 2, 2, 3, 5, 8))))
        for i, n in enumerate(ring):
            parents[n] = ring[i - 1]
    for n in range(count):
        if rng.random() < worse / 2:
            parents[n] = rng.choice((count, count + 1, 65534, 32768 + n, rng.randrange(count)))
        if rng.random() < worse:
            flags[n] = flags[n] & 65280 | rng.randrange(256)
    return list(zip(parents, flags))


def damaged_relations(rng, count):
    return [tuple(rng.choice((count, 65535, rng.randrange(65536))) if rng.random() < 0.1 else rng.randrange(limit) for limit in (count, count, 5))
            for _ in range(rng.choice((0, 1, 2, 5, 10)))]


def mendings(rng):
    """A damaged chart mended, with both rooms around what is needed, and what comes out mended again and read."""
    count = rng.choice((1, 2, 3, 4, 5, 6, 8, 12, 12, 66, 70, 128) * 2 + (258, 280, 400, 512))
    image = model.chart_image(damaged_nodes(rng, count), damaged_relations(rng, count))
    nodes, relations, changes = model.mended(image)
    better = model.chart_image(nodes, relations)
    needs, places = (len(better), 10 * len(changes)), [change[:2] for change in changes]
    assert places == sorted(set(places)) and model.mended(better) == (nodes, relations, [])
    assert (better == image) == (not changes) and model.read_chart(better)[0][0] in (0, 7)
    assert model.read_chart(image)[0][0] != 0 or not changes
    yield mend_request(*needs, image)
    for short in rng.sample(((0, -1), (-1, 0), (-1, -1), (1, 10), (100, 0), (0, 100), (-6, 0), (0, -10), (-1, 5)), 2):
        yield mend_request(*[max(0, need + more) for need, more in zip(needs, short)], image)
    yield rng.choice((mend_request(len(better), 0, better), read_request(better)))


def smallers(rng):
    """A chart and a start marking to the smaller book, in room around what is needed. Then both books through one sequence of completions, with
    closed stages among them: the model's two sides must agree at each."""
    count = rng.choice((1, 2, 3, 4, 5, 6, 8, 8, 13, 32, 64)) if rng.random() < 0.9 else rng.choice(WIDE_COUNTS)
    chart = random_flat(rng, count, rng.choice((0, 0.3 / count, 1 / count, 1 / count, 2 / count, 0.3)))
    for table in model.tables(chart):
        for e in range(count) if rng.random() < 0.2 else ():
            table[e].clear()  # a kind that the chart has not
    start = random_marking(rng, count)
    if rng.random() < 0.6:
        start = start._replace(included=set(range(count)), pending=some(rng, range(count), rng.choice((0, 0.2))))
    book, table = model.smaller_book(chart, start)
    image, full = model.book_image(book), model.derived_book(chart)
    assert_smaller(full, book, table)
    yield smaller_request(max(0, len(image) + rng.choice((0, 0, 0, -1, 1, 100, -len(image)))), chart, start)
    yield from run_of_smaller(rng, chart, start, rng.choice((3, 6, 12) if count < 20 else (2, 4)))


def assert_smaller(full, book, table):
    """Never more marks, rules, conditions or words, every stage, and the same bytes where nothing goes."""
    assert book.stages == full.stages and table[:full.stages] == list(range(full.stages)) and book.marks <= full.marks
    assert all(len(some) <= len(every) for some, every in zip(book[2:], full[2:]))
    assert [number for number in table if number != model.NO_MARK] == list(range(book.marks))
    assert book.marks < full.marks or model.book_image(book) == model.book_image(full)


def run_of_smaller(rng, chart, start, completions):
    """Both books from the start marking; the requests are the smaller one's, and at times it is read back."""
    (book, table), full = model.smaller_book(chart, start), model.derived_book(chart)
    image, marking, n = model.book_image(book), start, chart.count
    of_full = model.matching(chart, start)[1]
    snapshot = model.through_table(table, of_full)
    for _ in range(completions):
        opened = model.open_events(chart, marking)
        stage = rng.choice(opened) if opened and rng.random() < 0.8 else rng.randrange(n)
        order = random_order(rng, book, stage) if len(book.rules) < 100 and rng.random() < 0.3 else model.running_order(book, stage)
        answer, of_full = model.complete(model.book_image(full), model.running_order(full, stage), of_full, stage)
        completed, after = model.complete(image, order, snapshot, stage)
        if rng.random() < 0.5:
            yield complete_request(stage, snapshot, order, image)
        marking, snapshot = model.execute(chart._replace(roles=[set() for e in range(MAX_EVENTS)]), marking, stage, 0)[1], after
        assert completed == answer and answer[0] in (0, 30) and of_full == model.matching(chart, marking)[1]
        assert snapshot == model.through_table(table, of_full)  # stages and kept marks
        assert all(of_full[mark] for mark in range(2 * n, 4 * n) if table[mark] == model.NO_MARK)  # included and answered read as yes
        assert model.finished_by_marks(n, table, snapshot) == model.finished(chart, marking)[1]
    if rng.random() < 0.1:
        yield back_request(image)


def badly_flagged(rng):
    """A chart of which some nodes have roles, and in the lower byte what a node or a group may not have."""
    nodes = random_nodes(rng, rng.randrange(1, 12), rng.choice((0, 0.6)))
    for _ in range(rng.choice((1, 1, 2))):
        n = rng.randrange(len(nodes))
        lower = rng.choice((1, 4, 7, 8, 9, 16, 128, 255))
        nodes[n] = (nodes[n][0], lower + 256 * rng.choice((0, 1, 2, 127, 128, 255)))
    yield read_request(model.chart_image(nodes, random_relations(rng, nodes, 2)))


def listings(rng):
    yield listing_request(random_chart_image(rng))
    yield listing_request(with_bytes_changed(rng, random_chart_image(rng)))


def damaged_books(rng):
    book = rng.choice((wild_book, sound_book))(rng)
    image = with_bytes_changed(rng, model.book_image(book))
    stage = rng.randrange(book.stages + 1)
    snapshot = random_snapshot(rng, book.marks)
    yield rng.choice((lambda: check_request(len(book.rules), stage, image), lambda: back_request(image), lambda: index_request(rng.choice((0, 1000)), image),
                      lambda: complete_request(stage, snapshot, model.counted(book, stage), image),
                      lambda: indexed_request(stage, snapshot, rng.randbytes(8 + 8 * book.stages), image),
                      lambda: list_request(snapshot, [stage] * rng.randrange(3), rng.randbytes(8 + 8 * book.stages), image)))()


def damaged_flats(rng):
    """A flat chart and a marking with a few bits turned."""
    chart = random_flat(rng)
    event = rng.randrange(chart.count + 2)
    body = bytearray(execute_request(chart, random_marking(rng, chart.count), event, random_role(rng, chart, event)))
    roles_at, marking_at = 1 + FLAT_BYTES - MAX_EVENTS, 1 + FLAT_BYTES
    for _ in range(rng.choice((1, 1, 2))):
        places = rng.choice(((5, roles_at), (marking_at, marking_at + MARKING_BYTES), (roles_at, marking_at), (roles_at + chart.count - 1, marking_at)))
        body[rng.randrange(*places)] ^= 1 << rng.randrange(8)
    body[0] = rng.choice((2, 3, 4, 5, 14, 16))
    if body[0] == 16:
        body[1:1] = model.bytes32(MAX_ROOM_BYTES)
    yield bytes(body) if body[0] in (2, 14) else bytes(body[:-8])


SMALL = (charts, wild_checks, wild_completions, circles, crowded_books, sound_books, sound_runs, indexes, lists, read_backs,
         damaged_charts, badly_flagged, mendings, damaged_books, listings)
WIDE = (steps, derivings, side_by_side, damaged_flats, records, smallers)  # their requests carry a flat chart of 41,220 bytes
