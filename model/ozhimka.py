#!/usr/bin/env python3
# The paper's calls in plain Python, written from the paper alone and plain rather than fast: hold it beside the paper. Where the words of the paper
# would take too long on a long book, a second function stands beside the one that follows them.
#
# Every call hands back its answer (code, place, other) first and its value after it. A set of events is a Python set of numbers; the marks that rules
# refer to are the bits of a number.
# `model/ozhimka.py` alone runs the paper's settled examples; `model/ozhimka.py CHART` lists a chart's book, and with `--small` before it the
# smaller one.

import functools
import heapq
import random
import struct
import sys
import zlib
from collections import namedtuple

# ---- Limits: they stand here and nowhere else

MAX_NODES = 512
MAX_RELATIONS = 16384
MAX_EVENTS = 256  # and stages
NO_EVENT = MAX_EVENTS  # "no open event", of any chart
MAX_MARKS = 1024
MAX_RULES = 131840
MAX_CONDITIONS = 1024
MAX_WORDS = 655616
MAX_STACK = 16
MAX_LIST = 4096
LISTING_READS = 25097  # bytes that the program "book listing" reads
LISTING_ROOM = 49152  # bytes that it derives into

GRANTED = (0, 0, 0)


class Refused(Exception):
    """A refusal; place and other are 0 where the paper names none."""

    def __init__(self, code, place=0, other=0):
        self.answer = (code, place, other)


def refuse_if(code, bad):
    if bad:
        raise Refused(code)


def refuse_lowest(code, places):
    """Refuses if there is any place, and names the lowest (place, or place and other)."""
    places = [place if isinstance(place, tuple) else (place,) for place in places]
    if places:
        raise Refused(code, *min(places))


def number16(image, at):
    return image[at] + 256 * image[at + 1]


def number32(image, at):
    return number16(image, at) + 65536 * number16(image, at + 2)


def records(image, start, end, fields):
    """The records of an image from one place to another, each of these fields: B a byte, H 16 bits, I 32 bits."""
    return list(struct.iter_unpack('<' + fields, image[start:end]))


def bytes16(number):
    return number.to_bytes(2, 'little')


def bytes32(number):
    return number.to_bytes(4, 'little')


def run16(numbers):
    return struct.pack('<%dH' % len(numbers), *numbers)


def run32(numbers):
    return struct.pack('<%dI' % len(numbers), *numbers)


# ---- Chart image

NONE = 65535
EXECUTED, PENDING, INCLUDED = 1, 2, 4
CONDITION, RESPONSE, MILESTONE, INCLUDE, EXCLUDE = range(5)

# the two bytes of a node's flags: the lower one as a number, the upper one as the set of its roles
Node = namedtuple('Node', 'parent flags roles')
Relation = namedtuple('Relation', 'origin to kind')
# five tables of MAX_EVENTS sets: who holds e back (conditions, milestones), and what e does (responses, includes, excludes); then the roles
# that e is open to, none for everyone
FlatChart = namedtuple('FlatChart', 'count conditions responses milestones includes excludes roles')
Marking = namedtuple('Marking', 'executed pending included')


def empty_chart(count=0):
    return FlatChart(count, *[[set() for e in range(MAX_EVENTS)] for table in range(6)])


def tables(chart):
    """The five tables of relations."""
    return chart[1:6]


def empty_marking():
    return Marking(set(), set(), set())


def roles_in(byte):
    return {role for role in range(8) if byte >> role & 1}


def chain_above(nodes, n):
    """The groups above node n, from the nearest on; it stops where it meets a node again."""
    chain = {}  # in order, the first one first
    n = nodes[n].parent
    while n != NONE and n not in chain:
        chain[n] = None
        n = nodes[n].parent
    return list(chain)


def chart_header(image):
    """Where the relations begin: refusals 1 to 3."""
    refuse_if(1, len(image) < 8)
    node_count, relation_count, nodes_at, relations_at = [number16(image, at) for at in (0, 2, 4, 6)]
    refuse_if(2, not (1 <= node_count <= MAX_NODES) or not (0 <= relation_count <= MAX_RELATIONS))
    refuse_if(3, nodes_at != 8 or relations_at != 8 + 4 * node_count)
    refuse_if(3, len(image) != 8 + 4 * node_count + 6 * relation_count)
    return node_count, relations_at


def chart_relations(image, relations_at):
    return [Relation(*record) for record in records(image, relations_at, len(image), 'HHH')]


def is_bad_relation(relation, node_count):
    return relation.origin >= node_count or relation.to >= node_count or relation.kind > 4


def chart_records(image):
    """The header, nodes and relations: refusals 1 to 8."""
    node_count, relations_at = chart_header(image)
    nodes = [Node(parent, flags, roles_in(upper)) for parent, flags, upper in records(image, 8, relations_at, 'HBB')]
    refuse_lowest(4, [n for n, node in enumerate(nodes)
                      if (node.parent >= node_count and node.parent != NONE) or node.flags > 7])
    refuse_lowest(5, [n for n in range(node_count) if n in chain_above(nodes, n)])
    groups = {node.parent for node in nodes if node.parent != NONE}
    refuse_lowest(6, [n for n in groups if nodes[n].flags != 0])
    events = [n for n in range(node_count) if n not in groups]
    if len(events) > MAX_EVENTS:
        raise Refused(7, len(events))

    relations = chart_relations(image, relations_at)
    refuse_lowest(8, [r for r, relation in enumerate(relations) if is_bad_relation(relation, node_count)])
    return nodes, events, relations


# ---- Flattening

def flatten(nodes, events, relations):
    """The flat chart and the start marking. A pair may get both include and exclude."""
    chart = empty_chart(len(events))
    members = {n: set() for n in range(len(nodes))}  # of a node: the events that are it or stand below it
    for e, node in enumerate(events):
        for n in [node] + chain_above(nodes, node):
            members[n].add(e)
            chart.roles[e].update(nodes[n].roles)
    for relation in set(relations):
        sources, targets = members[relation.origin], members[relation.to]
        for f in targets:
            if relation.kind == CONDITION:
                chart.conditions[f].update(sources)
            elif relation.kind == MILESTONE:
                chart.milestones[f].update(sources)
        for e in sources:
            if relation.kind == RESPONSE:
                chart.responses[e].update(targets)
            elif relation.kind == INCLUDE:
                chart.includes[e].update(targets)
            elif relation.kind == EXCLUDE:
                chart.excludes[e].update(targets)

    start = Marking(*[{e for e, node in enumerate(events) if nodes[node].flags & flag}
                      for flag in (EXECUTED, PENDING, INCLUDED)])
    return chart, start


def read_chart(image):
    try:
        chart, start = flatten(*chart_records(image))
    except Refused as refused:
        return refused.answer, empty_chart(), empty_marking()
    return GRANTED, chart, start


def is_fit_chart(chart):
    return (1 <= chart.count <= MAX_EVENTS
            and all(max(entry, default=0) < chart.count for table in tables(chart) for entry in table)
            and all(not table[e] for table in tables(chart) for e in range(chart.count, MAX_EVENTS))
            and all(not chart.roles[e] for e in range(chart.count, MAX_EVENTS)))


def is_fit_marking(chart, marking):
    return all(e < chart.count for entry in marking for e in entry)


def refuse_unfit(chart, marking):
    refuse_if(14, not is_fit_chart(chart) or not is_fit_marking(chart, marking))


# ---- Steps

Blocking = namedtuple('Blocking', 'conditions milestones')
NOTHING = Blocking(frozenset(), frozenset())


def wanting_conditions(chart, marking, e):
    return {f for f in chart.conditions[e] if f in marking.included and f not in marking.executed}


def wanting_milestones(chart, marking, e):
    return {f for f in chart.milestones[e] if f in marking.included and f in marking.pending}


def is_open(chart, marking, e):
    return (e in marking.included
            and not wanting_conditions(chart, marking, e)
            and not wanting_milestones(chart, marking, e))


def open_events(chart, marking):
    return [e for e in range(chart.count) if is_open(chart, marking, e)]


def is_permitted(chart, event, role):
    """An event whose whole chain names no role stays open to everyone; there are no other roles than 0 to 7."""
    return role <= 7 and (not chart.roles[event] or role in chart.roles[event])


def refuse_shut(chart, marking, event):
    """Refusals 11 to 13."""
    refuse_if(11, event not in marking.included)
    refuse_lowest(12, wanting_conditions(chart, marking, event))
    refuse_lowest(13, wanting_milestones(chart, marking, event))


def blocking(chart, marking, event, code):
    """Both whole sets: the included conditions not yet executed, and the included milestones still pending. Codes other than 12 and 13
    carry two empty sets."""
    if code not in (12, 13):
        return NOTHING
    return Blocking(wanting_conditions(chart, marking, event), wanting_milestones(chart, marking, event))


def open_test(chart, marking, event):
    """The answer and everything that blocks; nobody's role is asked for."""
    try:
        refuse_unfit(chart, marking)
    except Refused as refused:
        return refused.answer, NOTHING
    return open_test_of_fit(chart, marking, event)


def open_test_of_fit(chart, marking, event):
    try:
        refuse_if(10, event >= chart.count)
        refuse_shut(chart, marking, event)
    except Refused as refused:
        return refused.answer, blocking(chart, marking, event, refused.answer[0])
    return GRANTED, NOTHING


def step(chart, marking, event, role):
    """A step of a chart and a marking that are fit: the answer, the marking and what blocks."""
    try:
        refuse_if(10, event >= chart.count)
        refuse_if(32, not is_permitted(chart, event, role))
        refuse_shut(chart, marking, event)
    except Refused as refused:
        return refused.answer, marking, blocking(chart, marking, event, refused.answer[0])
    return GRANTED, Marking(executed=marking.executed | {event},
                            pending=(marking.pending - {event}) | chart.responses[event],
                            included=(marking.included - chart.excludes[event]) | chart.includes[event]), NOTHING


def execute(chart, marking, event, role):
    try:
        refuse_unfit(chart, marking)
    except Refused as refused:
        return refused.answer, marking, NOTHING
    return step(chart, marking, event, role)


def count_open(chart, marking):
    try:
        refuse_unfit(chart, marking)
    except Refused as refused:
        return refused.answer, 0, NO_EVENT
    opened = [e for e in range(chart.count) if open_test_of_fit(chart, marking, e) == (GRANTED, NOTHING)]
    return GRANTED, len(opened), min(opened, default=NO_EVENT)


def finished(chart, marking):
    try:
        refuse_unfit(chart, marking)
    except Refused as refused:
        return refused.answer, False
    return GRANTED, not any(e in marking.included and e in marking.pending for e in range(chart.count))


# ---- Replaying a recorded purchase: a record is a list of (event, role) pairs

def how_far(chart, start, record):
    """How many steps are allowed, the code of the first that is not (the record's length and 0 if all are), the marking there, and what
    blocks that step."""
    marking = start
    for position, (event, role) in enumerate(record):
        answer, after, blocks = step(chart, marking, event, role)
        if answer != GRANTED:
            return position, answer[0], marking, blocks
        marking = after
    return len(record), 0, marking, NOTHING


def replay(chart, start, record):
    """A replay that stops at a step is no refused call and keeps the marking reached."""
    try:
        refuse_unfit(chart, start)
    except Refused as refused:
        return refused.answer, 0, 0, start, False, NOTHING
    steps, code, marking, blocks = how_far(chart, start, record)
    return GRANTED, steps, code, marking, finished(chart, marking)[1], blocks


def strike(chart, start, position, record):
    """Replays the record without the step at one position; a step that fails is named by its old position."""
    blocks = NOTHING
    try:
        refuse_unfit(chart, start)
        refuse_if(36, position >= len(record))
        steps, code, marking, blocks = how_far(chart, start, record[:position] + record[position + 1:])
        if code:
            raise Refused(code, steps if steps < position else steps + 1)
    except Refused as refused:
        return refused.answer, start, blocks
    return GRANTED, marking, blocks


# ---- Rule book

NO_TRIGGER, COMPLETED, BECOME_YES, BECOME_NO = range(4)
NO_CONDITION, AS_WRITTEN, NEGATED = range(3)
CLEAR, SET = range(2)
AND, OR, NOT = 65533, 65534, 65535

Rule = namedtuple('Rule', 'trigger sense effect zero number condition target')


class Book(namedtuple('Book', 'stages marks rules conditions words')):
    """A condition is (start, count) into the words. What is asked of a book again and again is kept beside it."""

    @functools.cached_property
    def refers(self):
        """Of each rule the marks that it refers to, as a number with these bits: those of its condition and of its become trigger."""
        in_text = [mark_bits(word for word in set(text(self, c)) if word < self.marks) for c in range(len(self.conditions))]
        return [(in_text[rule.condition] if rule.sense != NO_CONDITION else 0) | (1 << rule.number if rule.trigger in (BECOME_YES, BECOME_NO) else 0)
                for rule in self.rules]

    @functools.cached_property
    def on_completions(self):
        """The rules that a stage's completion triggers, by stage; the others, which count for every stage, at None."""
        rules = {None: []}
        for p, rule in enumerate(self.rules):
            rules.setdefault(rule.number if rule.trigger == COMPLETED else None, []).append(p)
        return rules

    @functools.cached_property
    def leading(self):
        """Of the rules that count for every stage: of a mark the marks, as bits, to which a rule with this target refers."""
        return leads(self, self.on_completions[None], {})


def mark_bits(marks):
    """The number whose bits are these marks."""
    number = 0
    for mark in marks:
        number |= 1 << mark
    return number


def bits_of(number):
    """The marks that are bits of a number, the lowest first."""
    marks = []
    while number:
        lowest = number & -number
        marks.append(lowest.bit_length() - 1)
        number ^= lowest
    return marks


def text(book, condition):
    start, count = book.conditions[condition]
    return book.words[start:start + count]


def is_good_rule(rule, stages, marks, conditions):
    if rule.trigger > 3 or rule.sense > 2 or rule.effect > 1 or rule.zero != 0:
        return False
    if rule.trigger == NO_TRIGGER and rule.number != 0:
        return False
    if rule.trigger == COMPLETED and rule.number >= stages:
        return False
    if rule.trigger in (BECOME_YES, BECOME_NO) and rule.number >= marks:
        return False
    if rule.sense == NO_CONDITION and rule.condition != 0:
        return False
    if rule.sense != NO_CONDITION and rule.condition >= conditions:
        return False
    return rule.target < marks


def is_good_text(words, marks):
    """Postfix: nothing is taken from an empty stack, it never holds more than MAX_STACK values, it ends with one."""
    held = 0
    for word in words:
        if word < marks:
            held += 1
        elif word in (AND, OR):
            if held < 2:
                return False
            held -= 1
        elif word == NOT:
            if held < 1:
                return False
        else:
            return False
        if held > MAX_STACK:
            return False
    return held == 1


def is_good_condition(book, condition):
    start, count = book.conditions[condition]
    return count >= 1 and start + count <= len(book.words) and is_good_text(text(book, condition), book.marks)


def read_book(image):
    """Refusals 20 to 24."""
    refuse_if(20, len(image) < 32)
    header = [number32(image, at) for at in range(0, 32, 4)]
    stages, marks, rule_count, condition_count, word_count, rules_at, conditions_at, words_at = header
    refuse_if(21, stages > MAX_EVENTS or not (stages <= marks <= MAX_MARKS))
    refuse_if(21, rule_count > MAX_RULES or condition_count > MAX_CONDITIONS or word_count > MAX_WORDS)
    refuse_if(22, rules_at != 32 or conditions_at != 32 + 10 * rule_count)
    refuse_if(22, words_at != 32 + 10 * rule_count + 8 * condition_count)
    refuse_if(22, len(image) != 32 + 10 * rule_count + 8 * condition_count + 2 * word_count)

    rules = [Rule(*record) for record in records(image, rules_at, conditions_at, 'BBBBHHH')]
    conditions = records(image, conditions_at, words_at, 'II')
    words = [word for word, in records(image, words_at, len(image), 'H')]
    book = Book(stages, marks, rules, conditions, words)
    refuse_lowest(23, [p for p, rule in enumerate(rules) if not is_good_rule(rule, stages, marks, condition_count)])
    refuse_lowest(24, [c for c in range(condition_count) if not is_good_condition(book, c)])
    return book


def book_image(book):
    rules_at = 32
    conditions_at = rules_at + 10 * len(book.rules)
    words_at = conditions_at + 8 * len(book.conditions)
    parts = [bytes32(number) for number in (book.stages, book.marks, len(book.rules), len(book.conditions),
                                            len(book.words), rules_at, conditions_at, words_at)]
    parts += [struct.pack('<BBBBHHH', *rule) for rule in book.rules]
    parts += [bytes32(start) + bytes32(count) for start, count in book.conditions]
    return b''.join(parts) + run16(book.words)


# ---- Derived book

def on_completion(stage, effect, target):
    return Rule(COMPLETED, NO_CONDITION, effect, 0, stage, 0, target)


def without_trigger(sense, condition, effect, target):
    return Rule(NO_TRIGGER, sense, effect, 0, 0, condition, target)


def derived_book(chart):
    n = chart.count
    stage, executed, included, answered = [lambda e, first=first: first + e for first in (0, n, 2 * n, 3 * n)]
    rules, conditions, words = [], [], []
    for e in range(n):
        for f in sorted(chart.includes[e] | chart.excludes[e]):  # a clearing rule only where there is no include
            rules.append(on_completion(e, SET if f in chart.includes[e] else CLEAR, included(f)))
        for f in sorted(chart.responses[e]):
            rules.append(on_completion(e, CLEAR, answered(f)))
        if e not in chart.responses[e]:
            rules.append(on_completion(e, SET, answered(e)))
        rules.append(on_completion(e, SET, executed(e)))
    for e in range(n):
        rules.append(without_trigger(AS_WRITTEN, e, SET, stage(e)))
        rules.append(without_trigger(NEGATED, e, CLEAR, stage(e)))
        words_of_e = [included(e)]
        for f in sorted(chart.conditions[e]):
            words_of_e += [included(f), NOT, executed(f), OR, AND]
        for f in sorted(chart.milestones[e]):
            words_of_e += [included(f), NOT, answered(f), OR, AND]
        conditions.append((len(words), len(words_of_e)))
        words += words_of_e
    return Book(n, 4 * n, rules, conditions, words)


def derive(chart, room):
    """The answer and the room after the call."""
    try:
        refuse_if(14, not is_fit_chart(chart))
        image = book_image(derived_book(chart))
        if len(room) < len(image):
            raise Refused(15, len(image))
    except Refused as refused:
        return refused.answer, room
    return GRANTED, image + room[len(image):]


def snapshot_of(marks):
    """The snapshot in which these marks are yes."""
    return [mark in marks for mark in range(MAX_MARKS)]


def matching(chart, marking):
    try:
        refuse_unfit(chart, marking)
    except Refused as refused:
        return refused.answer, snapshot_of(())
    n = chart.count
    snapshot = snapshot_of(())
    for e in range(n):
        snapshot[e] = is_open(chart, marking, e)
        snapshot[n + e] = e in marking.executed
        snapshot[2 * n + e] = e in marking.included
        snapshot[3 * n + e] = e not in marking.pending
    return GRANTED, snapshot


# ---- Order and clash

def counted(book, stage):
    """For a stage: all rules but those triggered by another stage's completion."""
    return sorted(book.on_completions[None] + book.on_completions.get(stage, []))


def count_of(book, stage):
    return len(book.on_completions[None]) + len(book.on_completions.get(stage, []))


@functools.lru_cache(maxsize=256)
def marks_led_back_to(leading):
    """Of pairs (mark, those that lead to it, as bits): the marks from which some steps lead back to them."""
    before = dict(leading)
    after = {mark: [] for mark in before}
    for mark in before:
        for one in bits_of(before[mark]):
            after.setdefault(one, []).append(mark)
    before.update({mark: 0 for mark in after if mark not in before})
    done = [mark for mark in before if not before[mark]]
    for mark in done:  # a mark to which none leads is not led back to, nor one to which none but these lead
        for next_one in after[mark]:
            before[next_one] ^= 1 << mark
            if not before[next_one]:
                done.append(next_one)
    reached = {mark: before[mark] for mark in sorted(before) if before[mark]}
    for through in reached:  # from which marks some steps lead here, through the marks so far
        for mark in reached:
            if reached[mark] >> through & 1:
                reached[mark] |= reached[through]
    return {mark for mark in reached if reached[mark] >> mark & 1}


def leads(book, rules, before):
    """Of a mark the marks, as bits, that lead to it by these rules, beside those that do before: a rule leads from each mark that it refers to
    to its target."""
    before = dict(before)
    for q in rules:
        if book.refers[q]:
            before[book.rules[q].target] = before.get(book.rules[q].target, 0) | book.refers[q]
    return before


def looping_targets(book, stage):
    """The targets of the rules on a loop: a chain of rules counted for the stage, each before the next, that comes back to its start. These are
    the marks that are led back to."""
    return marks_led_back_to(tuple(sorted(leads(book, book.on_completions.get(stage, []), book.leading).items())))


def are_apart(one, two):
    different_stages = one.trigger == two.trigger == COMPLETED and one.number != two.number
    opposite_senses = {one.sense, two.sense} == {AS_WRITTEN, NEGATED} and one.condition == two.condition
    return different_stages or opposite_senses


def clashes_as_said(book):
    """Every clashing pair, the lower rule first."""
    same_target = {}
    for p, rule in enumerate(book.rules):
        same_target.setdefault(rule.target, []).append(p)
    return [(p, q) for rules in same_target.values() for i, p in enumerate(rules) for q in rules[i + 1:]
            if book.rules[p].effect != book.rules[q].effect and not are_apart(book.rules[p], book.rules[q])]


def clashes_of_long_book(book):
    """The lowest clashing pair of each mark that has one, and perhaps others of that mark. Of rules that are alike in all that matters the first one
    stands for all, and a rule on a completion is held against those on the same one and those on none."""
    firsts = {}  # of a mark: by stage, or None, the first rule of each kind
    for p, rule in enumerate(book.rules):
        stage = rule.number if rule.trigger == COMPLETED else None
        firsts.setdefault(rule.target, {}).setdefault(stage, {}).setdefault((rule.effect, rule.sense, rule.condition), p)
    return [pair for by_stage in firsts.values() for stage, kinds in by_stage.items()
            for pair in [first_clash(book, sorted({*kinds.values(), *by_stage.get(None, {}).values()}))] if pair]


def first_clash(book, rules):
    """The lowest clashing pair of some rules of one mark, or None."""
    if len({book.rules[p].effect for p in rules}) < 2:
        return None
    return next(((p, q) for i, p in enumerate(rules) for q in rules[i + 1:]
                 if book.rules[p].effect != book.rules[q].effect and not are_apart(book.rules[p], book.rules[q])), None)


def clashes(book):
    return clashes_as_said(book) if len(book.rules) <= 100 else clashes_of_long_book(book)


def running_order_as_said(book, stage):
    """Always the lowest-numbered unwritten rule, of those counted for the stage, all of whose predecessors are written."""
    order, unwritten = [], counted(book, stage)
    while unwritten:
        unwritten_targets = mark_bits(book.rules[p].target for p in unwritten)
        lowest = next(q for q in unwritten if not book.refers[q] & unwritten_targets)
        order.append(lowest)
        unwritten.remove(lowest)
    return order


def running_order_of_long_book(book, stage):
    """The same, with the rules that are ready kept in a heap. Rules that refer to the same marks wait together, for the lowest of these marks
    that an unwritten rule targets."""
    left = [0] * MAX_MARKS  # of a mark: how many rules with this target are unwritten
    alike = {}  # of marks, as bits: the rules that refer to them
    for p in counted(book, stage):
        left[book.rules[p].target] += 1
        alike.setdefault(book.refers[p], []).append(p)
    unsettled = mark_bits(mark for mark in range(MAX_MARKS) if left[mark])
    ready, waiting = [], {}

    def go_on(marks):
        awaited = marks & unsettled
        if awaited:
            waiting.setdefault(awaited & -awaited, []).append(marks)
        else:
            for q in alike[marks]:
                heapq.heappush(ready, q)

    for marks in alike:
        go_on(marks)
    order = []
    while ready:
        p = heapq.heappop(ready)
        order.append(p)
        target = book.rules[p].target
        left[target] -= 1
        if left[target] == 0:
            unsettled ^= 1 << target
            for marks in waiting.pop(1 << target, []):
                go_on(marks)
    return order


def running_order(book, stage):
    return running_order_as_said(book, stage) if len(book.rules) <= 100 else running_order_of_long_book(book, stage)


def is_fit_order(book, stage, order):
    """Each rule counted for the stage once, no other, and none before one that comes before it."""
    if sorted(order) != counted(book, stage):
        return False
    to_come = [0] * MAX_MARKS  # of a mark: how many rules with this target are still to come
    for p in order:
        to_come[book.rules[p].target] += 1
    unsettled = mark_bits(mark for mark in range(MAX_MARKS) if to_come[mark])
    for q in order:
        if book.refers[q] & unsettled:
            return False
        target = book.rules[q].target
        to_come[target] -= 1
        if to_come[target] == 0:
            unsettled ^= 1 << target
    return True


@functools.lru_cache(maxsize=4)
def judged_book(image):
    """Refusals 20 to 26. A loop of any stage refuses the book, whichever stage is asked for; clashes are over all rules. A book
    that passes is remembered, as long runs come back to it."""
    book = read_book(image)
    refuse_lowest(25, set().union(*[looping_targets(book, stage) for stage in range(book.stages)]))
    refuse_lowest(26, clashes(book))
    return book


def check_book(image, stage, room):
    """The answer and the room, a list of 32-bit numbers, after the call."""
    try:
        book = judged_book(image)
        refuse_if(29, stage >= book.stages)
        needed = count_of(book, stage)
        if len(room) < needed:
            raise Refused(31, needed)
    except Refused as refused:
        return refused.answer, room
    return GRANTED, running_order(book, stage) + room[needed:]


# ---- Completing a stage

def holds(words, snapshot):
    stack = []
    for word in words:
        if word == AND:
            right, left = stack.pop(), stack.pop()
            stack.append(left and right)
        elif word == OR:
            right, left = stack.pop(), stack.pop()
            stack.append(left or right)
        elif word == NOT:
            stack.append(not stack.pop())
        else:
            stack.append(snapshot[word])
    return stack.pop()


def fires(book, rule, stage, at_start, now):
    if rule.trigger == COMPLETED and rule.number != stage:
        return False
    if rule.trigger == BECOME_YES and not (not at_start[rule.number] and now[rule.number]):
        return False
    if rule.trigger == BECOME_NO and not (at_start[rule.number] and not now[rule.number]):
        return False
    if rule.sense == AS_WRITTEN:
        return holds(text(book, rule.condition), now)
    if rule.sense == NEGATED:
        return not holds(text(book, rule.condition), now)
    return True


def gone_through(book, order, snapshot, stage):
    """The snapshot at the end, and the rules evaluated: one for each rule in the order, fired or not."""
    now, evaluated = list(snapshot), 0
    for p in order:
        rule = book.rules[p]
        evaluated += 1
        if fires(book, rule, stage, snapshot, now):
            now[rule.target] = rule.effect == SET
    return now, evaluated


def complete(image, order, snapshot, stage):
    """The answer and the snapshot after the call."""
    try:
        book = judged_book(image)
        refuse_if(29, stage >= book.stages)
        refuse_if(27, not is_fit_order(book, stage, order))
        refuse_if(28, any(snapshot[book.marks:]))
        refuse_if(30, not snapshot[stage])
    except Refused as refused:
        return refused.answer, snapshot
    return GRANTED, gone_through(book, order, snapshot, stage)[0]


# ---- An index of orders beside the book

def index_image(book, width=4):
    """S and R, for each stage the byte offset from the image's start and the count of its order, then the running orders, so many bytes a rule:
    four, and two in an index that was stored before the books grew."""
    orders = [running_order(book, stage) for stage in range(book.stages)]
    image, at = bytes32(book.stages) + bytes32(len(book.rules)), 8 + 8 * book.stages
    for order in orders:
        image += bytes32(at) + bytes32(len(order))
        at += width * len(order)
    return image + b''.join((run32 if width == 4 else run16)(order) for order in orders)


def index_length(book):
    """How long its index is; the longest has more bytes than one would write to know it."""
    return 8 + 8 * book.stages + 4 * sum(count_of(book, stage) for stage in range(book.stages))


@functools.lru_cache(maxsize=4)
def index_of(image):
    """Of a book without 20 to 26; remembered as the book is."""
    return index_image(judged_book(image))


def build_index(image, room):
    """The answer and the room, in bytes, after the call."""
    try:
        needed = index_length(judged_book(image))
        if len(room) < needed:
            raise Refused(35, needed)
        index = index_of(image)
    except Refused as refused:
        return refused.answer, room
    return GRANTED, index + room[len(index):]


def is_fit_index(image, index):
    """An index is fit exactly if it is what the builder writes for this book."""
    return len(index) == index_length(judged_book(image)) and index == index_of(image)


def complete_indexed(image, index, snapshot, stage):
    """The answer, the snapshot after the call, and the rules evaluated, of which a refused completion reports 0."""
    try:
        book = judged_book(image)
        refuse_if(34, not is_fit_index(image, index))
        refuse_if(28, any(snapshot[book.marks:]))
        refuse_if(29, stage >= book.stages)
        refuse_if(30, not snapshot[stage])
    except Refused as refused:
        return refused.answer, snapshot, 0
    return GRANTED, *gone_through(book, running_order(book, stage), snapshot, stage)


# ---- A list of completions in one call

def complete_list(image, index, snapshot, stages):
    """The answer, how many were granted, the snapshot reached, and the rules evaluated by the granted ones: one completion after another,
    stopping at the first that is refused, which is named by its place in the list."""
    try:
        book = judged_book(image)
        refuse_if(34, not is_fit_index(image, index))
        refuse_if(28, any(snapshot[book.marks:]))
        if len(stages) > MAX_LIST:
            raise Refused(38, len(stages))
    except Refused as refused:
        return refused.answer, 0, snapshot, 0
    evaluated = 0
    orders = {stage: running_order(book, stage) for stage in set(stages) if stage < book.stages}
    for place, stage in enumerate(stages):
        if stage >= book.stages:
            return (29, place, 0), place, snapshot, evaluated
        if not snapshot[stage]:
            return (30, place, 0), place, snapshot, evaluated
        snapshot, walk = gone_through(book, orders[stage], snapshot, stage)
        evaluated += walk
    return GRANTED, len(stages), snapshot, evaluated


# ---- Reading a book back

def chart_behind(book):
    """The chart that the book was derived from, if it was derived from any: what its rules and texts name, wherever they stand."""
    n = book.stages
    chart = empty_chart(n)
    for rule in book.rules:
        if rule.trigger == COMPLETED:
            sort, f = divmod(rule.target, n)
            if sort == 2:
                (chart.includes if rule.effect == SET else chart.excludes)[rule.number].add(f)
            elif sort == 3 and rule.effect == CLEAR:
                chart.responses[rule.number].add(f)
    for e in range(min(n, len(book.conditions))):
        for word in text(book, e):
            sort, f = divmod(word, n)
            if sort == 1:
                chart.conditions[e].add(f)
            elif sort == 3:
                chart.milestones[e].add(f)
    return chart


def read_back(image):
    """The answer and the chart, without marking or roles, and of its exclusions those that no inclusion overrules. Accepted are exactly the
    books that the deriver writes for some fit flat chart."""
    try:
        chart = chart_behind(judged_book(image))
        refuse_if(33, not is_fit_chart(chart) or book_image(derived_book(chart)) != image)
    except Refused as refused:
        return refused.answer, empty_chart()
    return GRANTED, chart


def told_by_book(chart):
    """What of a chart its book tells: no roles, and of the exclusions those that no inclusion overrules."""
    overruled = [excluded - included for excluded, included in zip(chart.excludes, chart.includes)]
    return chart._replace(excludes=overruled, roles=[set() for e in range(MAX_EVENTS)])


# ---- Smaller books

NO_MARK = 65535  # in the table: a mark that is dropped, or that the full book has not


def dropped_marks(chart, start):
    """The marks of the full book that never matter."""
    n, events = chart.count, range(chart.count)
    conditions, responses = set().union(*chart.conditions), set().union(*chart.responses)  # of any event
    included_or_excluded = set().union(*chart.includes, *chart.excludes)
    executed = {n + e for e in events if e not in conditions}
    included = {2 * n + e for e in events if e in start.included and e not in included_or_excluded}
    answered = {3 * n + e for e in events if e not in start.pending and e not in responses}
    return executed | included | answered


def clauses_left(words, dropped):
    """Of a text: the clauses that are left, each without its "and". The first is an included mark alone; any other has four words, that an
    event is not included, or its second half."""
    left = [] if words[0] in dropped else [words[:1]]
    for at in range(1, len(words), 5):
        included, _, second, _ = clause = words[at:at + 4]
        if second in dropped:
            continue  # it became yes
        left.append([second] if included in dropped else clause)
    return left


def smaller_book(chart, start):
    """The smaller book, and for each mark of the full one its new number, or none if it is dropped."""
    full, dropped = derived_book(chart), dropped_marks(chart, start)
    kept = [mark for mark in range(full.marks) if mark not in dropped]
    renamed = {**{mark: number for number, mark in enumerate(kept)}, AND: AND, OR: OR, NOT: NOT}
    conditions, words, numbers = [], [], {}
    for c in range(len(full.conditions)):
        left = clauses_left(text(full, c), dropped)
        joined = [word for place, clause in enumerate(left) for word in clause + [AND] * (place > 0)]
        if joined:
            numbers[c] = len(conditions)
            conditions.append((len(words), len(joined)))
            words += [renamed[word] for word in joined]
    rules = []
    for rule in full.rules:
        if rule.target in dropped:
            continue
        if rule.sense != NO_CONDITION and rule.condition not in numbers:
            if rule.effect == CLEAR:
                continue
            rule = rule._replace(sense=NO_CONDITION, condition=0)
        elif rule.sense != NO_CONDITION:
            rule = rule._replace(condition=numbers[rule.condition])
        rules.append(rule._replace(target=renamed[rule.target]))
    return Book(full.stages, len(kept), rules, conditions, words), [renamed.get(mark, NO_MARK) for mark in range(full.marks)]


def derive_smaller(chart, start, room):
    """The answer, the room after the call, and the table of MAX_MARKS new mark numbers."""
    try:
        refuse_unfit(chart, start)
        book, table = smaller_book(chart, start)
        image = book_image(book)
        if len(room) < len(image):
            raise Refused(15, len(image))
    except Refused as refused:
        return refused.answer, room, [NO_MARK] * MAX_MARKS
    return GRANTED, image + room[len(image):], table + [NO_MARK] * (MAX_MARKS - len(table))


def through_table(table, snapshot):
    """A snapshot of the full book as the smaller one has it: the kept marks under their new numbers."""
    smaller = snapshot_of(())
    for mark, number in enumerate(table):
        if number != NO_MARK:
            smaller[number] = snapshot[mark]
    return smaller


def finished_by_marks(n, table, snapshot):
    """The finished test on a snapshot of the smaller book of n events: none is included and not answered, with dropped marks read as yes."""
    def reads(mark):
        return table[mark] == NO_MARK or snapshot[table[mark]]

    return not any(reads(2 * n + e) and not reads(3 * n + e) for e in range(n))


# ---- Mending a damaged chart

MEND_PARENT, MEND_FLAGS, MEND_LOOP, MEND_GROUP, MEND_RELATION = 1, 2, 3, 4, 5
NodeRecord = namedtuple('NodeRecord', 'parent flags')  # a node's two numbers as they stand


def mended(image):
    """Of a chart whose header passes: its nodes and relations after the five steps, and the changes. A change is the step, the record's number,
    and the record as it stood before that step: a node's two numbers and 0, a relation's three."""
    count, relations_at = chart_header(image)
    nodes = [NodeRecord(*record) for record in records(image, 8, relations_at, 'HH')]
    changes = []

    def change(step, n, **numbers):
        changes.append((step, n, *nodes[n], 0))
        nodes[n] = nodes[n]._replace(**numbers)

    for n in range(count):  # a parent that doesn't exist becomes none
        if nodes[n].parent >= count and nodes[n].parent != NONE:
            change(MEND_PARENT, n, parent=NONE)
    for n in range(count):  # flag bits 8 to 128 are cleared
        if nodes[n].flags & (8 + 16 + 32 + 64 + 128):
            change(MEND_FLAGS, n, flags=nodes[n].flags & ~(8 + 16 + 32 + 64 + 128))
    while True:  # while parents loop, the lowest node on a loop loses its parent
        on_loop = [n for n in range(count) if n in chain_above(nodes, n)]
        if not on_loop:
            break
        change(MEND_LOOP, min(on_loop), parent=NONE)
    groups = {node.parent for node in nodes if node.parent != NONE}
    for n in sorted(groups):  # a group's lowest three flags are cleared
        if nodes[n].flags & 7:
            change(MEND_GROUP, n, flags=nodes[n].flags & ~7)
    relations = chart_relations(image, relations_at)
    for r, relation in enumerate(relations):  # relation records with a bad number are dropped
        if is_bad_relation(relation, count):
            changes.append((MEND_RELATION, r, *relation))
    return nodes, [relation for relation in relations if not is_bad_relation(relation, count)], changes


def mend(image, chart_room, list_room):
    """The answer, the number of entries, and both rooms after the call."""
    try:
        nodes, relations, changes = mended(image)
        events = set(range(len(nodes))) - {node.parent for node in nodes}
        if len(events) > MAX_EVENTS:
            raise Refused(7, len(events))
        chart, entries = chart_image(nodes, relations), run16([number for change in changes for number in change])
        if len(chart_room) < len(chart) or len(list_room) < len(entries):
            raise Refused(37, len(chart), len(entries))
    except Refused as refused:
        return refused.answer, 0, chart_room, list_room
    return GRANTED, len(changes), chart + chart_room[len(chart):], entries + list_room[len(entries):]


# ---- The program "book listing"

def book_lines(book):
    """The lines of a book without become triggers."""
    lines = ['stages %d marks %d rules %d conditions %d words %d'
             % (book.stages, book.marks, len(book.rules), len(book.conditions), len(book.words))]
    for p, rule in enumerate(book.rules):
        when = 'on %d ' % rule.number if rule.trigger == COMPLETED else '' if rule.sense == NO_CONDITION else \
            '%s %d ' % ('if' if rule.sense == AS_WRITTEN else 'unless', rule.condition)
        lines.append('%d %s%s %d' % (p, when, 'set' if rule.effect == SET else 'clear', rule.target))
    names = {AND: 'and', OR: 'or', NOT: 'not'}
    for c in range(len(book.conditions)):
        lines.append('cond %d: %s' % (c, ' '.join(names.get(word, str(word)) for word in text(book, c))))
    return '\n'.join(lines) + '\n'


def listing(image):
    """What the program prints for the chart on its standard input."""
    answer, chart, start = read_chart(image[:LISTING_READS])
    room = bytes(LISTING_ROOM)
    if answer == GRANTED:
        answer, room = derive(chart, room)
    if answer != GRANTED:
        return 'refused %d %d %d\n' % answer
    return book_lines(derived_book(chart))


def smaller_listing(image):
    """The smaller book of a chart and its start marking, in the same lines."""
    answer, chart, start = read_chart(image)
    return 'refused %d %d %d\n' % answer if answer != GRANTED else book_lines(smaller_book(chart, start)[0])


# ---- Settled examples

PAPER_CHART = bytes.fromhex('02 00 03 00 08 00 10 00 FF FF 04 00 FF FF 06 00 00 00 01 00 00 00 00 00 '
                            '01 00 01 00 01 00 00 00 04 00')
PAPER_LISTING = '''stages 2 marks 8 rules 10 conditions 2 words 7
0 on 0 clear 7
1 on 0 set 6
2 on 0 set 2
3 on 1 clear 4
4 on 1 set 7
5 on 1 set 3
6 if 0 set 0
7 unless 0 clear 0
8 if 1 set 1
9 unless 1 clear 1
cond 0: 4
cond 1: 5 4 not 2 or and
'''


def worth(snapshot):
    return mark_bits(mark for mark in range(MAX_MARKS) if snapshot[mark])


def chart_image(nodes, relations):
    numbers = [len(nodes), len(relations), 8, 8 + 4 * len(nodes)]
    for record in list(nodes) + list(relations):
        numbers += record
    return run16(numbers)


def settled_examples():
    answer, chart, start = read_chart(PAPER_CHART)
    assert answer == GRANTED and listing(PAPER_CHART) == PAPER_LISTING
    image = book_image(derived_book(chart))
    checks = [check_book(image, stage, [0] * 7) for stage in (0, 1)]
    assert checks == [(GRANTED, [0, 1, 2, 6, 7, 8, 9]), (GRANTED, [3, 4, 5, 6, 7, 8, 9])]
    orders = [order for answer, order in checks]
    snapshot = matching(chart, start)[1]
    assert worth(snapshot) == 113 and execute(chart, start, 1, 0)[0] == (12, 0, 0)  # P1
    after, snapshot = execute(chart, start, 0, 0)[1], complete(image, orders[0], snapshot, 0)[1]
    assert worth(matching(chart, after)[1]) == worth(snapshot) == 119  # P2
    after, snapshot = execute(chart, after, 1, 0)[1], complete(image, orders[1], snapshot, 1)[1]
    assert worth(matching(chart, after)[1]) == worth(snapshot) == 238 and finished(chart, after)[1]  # P3

    free = (NONE, INCLUDED)
    answer, chart, start = read_chart(chart_image([free], [(0, 0, RESPONSE)]))
    assert execute(chart, start, 0, 0)[1].pending == {0}  # P4
    answer, chart, start = read_chart(chart_image([(NONE, 0), free], [(0, 1, CONDITION)]))
    assert execute(chart, start, 1, 0)[0] == GRANTED  # P5
    answer, chart, start = read_chart(chart_image([(NONE, PENDING), free], [(0, 1, MILESTONE)]))
    assert execute(chart, start, 1, 0)[0] == GRANTED  # P6
    nested = [(NONE, 0), (0, 4), (0, 4), free]
    answer, chart, start = read_chart(chart_image(nested, [(0, 3, CONDITION)]))
    assert chart.count == 3 and chart.conditions[2] == {0, 1}  # P7
    answer, chart, start = read_chart(chart_image(nested, [(3, 0, INCLUDE), (3, 1, EXCLUDE)]))
    assert answer == GRANTED and (chart.includes[2], chart.excludes[2]) == ({0, 1}, {0})  # P8
    assert execute(chart, start, 2, 0)[1].included == {0, 1, 2}  # inclusion wins

    loop = Book(1, 1, [without_trigger(NEGATED, 0, SET, 0)], [(0, 1)], [0])
    assert check_book(book_image(loop), 0, [0])[0] == (25, 0, 0)  # P9
    pair = Book(2, 2, [on_completion(0, SET, 1), on_completion(1, CLEAR, 1)], [], [])
    assert [check_book(book_image(pair), stage, [7, 7]) for stage in (0, 1)] == [(GRANTED, [0, 7]), (GRANTED, [1, 7])]
    both = book_image(pair._replace(rules=[on_completion(0, SET, 1), on_completion(0, CLEAR, 1)]))
    assert check_book(both, 0, [0, 0])[0] == (26, 0, 1)  # P10
    still = snapshot_of({0})
    assert complete(book_image(Book(1, 1, [], [], [])), [], still, 0) == (GRANTED, still)  # P11
    assert complete(book_image(pair), [0, 0], still, 0)[0] == (27, 0, 0)  # P12

    for count, code in ((64, GRANTED), (65, GRANTED), (256, GRANTED), (257, (7, 257, 0)), (512, (7, 512, 0)), (513, (2, 0, 0))):
        assert read_chart(chart_image([free] * count, []))[0] == code
    for held, code in ((16, GRANTED), (17, (24, 0, 0))):
        deep = Book(1, 1, [], [(0, 2 * held - 1)], [0] * held + [AND] * (held - 1))
        assert check_book(book_image(deep), 0, [])[0] == code


def role_examples():
    """Node 0 in group 1 in group 2 in group 3; node 4 in group 2; node 5 alone."""
    def byte(*roles):
        return 256 * sum(1 << role for role in roles)

    nodes = [(1, INCLUDED + byte(0)), (2, byte(3)), (3, 0), (NONE, byte(3, 7)), (2, 0), (NONE, INCLUDED)]
    answer, chart, start = read_chart(chart_image(nodes, []))
    assert answer == GRANTED and chart.roles[:4] == [{0, 3, 7}, {3, 7}, set(), set()]
    assert start == Marking(set(), set(), {0, 2})
    for role in range(8):
        assert execute(chart, start, 0, role)[0] == (GRANTED if role in (0, 3, 7) else (32, 0, 0))
        assert execute(chart, start, 1, role)[0] == ((11, 0, 0) if role in (3, 7) else (32, 0, 0))
        assert execute(chart, start, 2, role)[0] == GRANTED
    for role in (8, 255, 256, 1 << 31, (1 << 32) - 1):
        assert [execute(chart, start, event, role)[0] for event in range(4)] == [(32, 0, 0)] * 3 + [(10, 0, 0)]
    chart.roles[3].add(0)
    assert not is_fit_chart(chart) and execute(chart, start, 3, 8)[0] == (14, 0, 0)
    assert read_chart(chart_image([(NONE, 8 + byte(1))], []))[0] == (4, 0, 0)
    assert read_chart(chart_image([(NONE, 1 + byte(1)), (0, 4)], []))[0] == (6, 0, 0)


def stage_examples():
    """The request's two rules: marks A, B, b, c are 0 to 3; condition 0 is b, condition 1 is c."""
    def on_if(stage, condition, target):
        return Rule(COMPLETED, AS_WRITTEN, SET, 0, stage, condition, target)

    two = Book(2, 4, [on_if(0, 0, 3), on_if(1, 1, 2)], [(0, 1), (1, 1)], [2, 3])
    assert [check_book(book_image(two), stage, [9, 9]) for stage in (0, 1)] == [(GRANTED, [0, 9]), (GRANTED, [1, 9])]
    assert check_book(book_image(two), 2, [])[0] == (29, 0, 0) and check_book(book_image(two), 1, [])[0] == (31, 1, 0)
    for taken in (0, 1):  # without its trigger, the rule counts for the other one's stage
        rules = [rule._replace(trigger=NO_TRIGGER, number=0) if p == taken else rule for p, rule in enumerate(two.rules)]
        for stage in (0, 1, 2):
            assert check_book(book_image(two._replace(rules=rules)), stage, [])[0] == (25, 2, 0)
    open_both = snapshot_of({0, 1, 2})
    after = complete(book_image(two), [0], open_both, 0)
    assert after[0] == GRANTED and worth(after[1]) == 15
    assert complete(book_image(two), [0, 1], open_both, 0)[0] == (27, 0, 0)
    assert complete(book_image(two), [0, 1], open_both, 2)[0] == (29, 0, 0)
    none = Book(0, 1, [Rule(BECOME_YES, NO_CONDITION, SET, 0, 0, 0, 0)], [], [])  # no stage, so no loop
    assert check_book(book_image(none), 0, [])[0] == (29, 0, 0)


def index_examples():
    """The paper's chart: seven rules of ten count for each stage. Then a stage for which no rule counts, and no stage at all."""
    answer, chart, start = read_chart(PAPER_CHART)
    image, snapshot = book_image(derived_book(chart)), matching(chart, start)[1]
    index = run32((2, 10, 24, 7, 52, 7) + (0, 1, 2, 6, 7, 8, 9, 3, 4, 5, 6, 7, 8, 9))
    assert build_index(image, bytes(88)) == (GRANTED, index + bytes(8)) and build_index(image, bytes(79)) == ((35, 80, 0), bytes(79))
    for stage, order in ((0, [0, 1, 2, 6, 7, 8, 9]), (1, [3, 4, 5, 6, 7, 8, 9])):
        assert complete_indexed(image, index, snapshot, stage)[:2] == complete(image, order, snapshot, stage)
    for wrong in (index[:-1], index + b'\0', index[:-1] + b'\x01', b'\x03' + index[1:], b''):
        assert complete_indexed(image, wrong, snapshot, 0) == ((34, 0, 0), snapshot, 0)
    everything = [True] * MAX_MARKS
    assert complete_indexed(image, index[1:], everything, 9)[0] == (34, 0, 0)
    assert complete_indexed(image, index, everything, 9)[0] == (28, 0, 0) and complete_indexed(image, index, snapshot, 9)[0] == (29, 0, 0)
    assert complete_indexed(image, index, snapshot_of(()), 1)[0] == (30, 0, 0)
    gap = Book(3, 3, [on_completion(0, SET, 1), on_completion(2, SET, 1)], [], [])
    assert index_image(gap) == run32((3, 2, 32, 1, 36, 0, 36, 1, 0, 1))
    assert index_image(Book(0, 1, [without_trigger(NO_CONDITION, 0, SET, 0)], [], [])) == run32((0, 1))
    # an index that was stored with 16 bits a rule: unfit if it lists a rule, and fit if it lists none
    old = run32((2, 10, 24, 7, 38, 7)) + run16((0, 1, 2, 6, 7, 8, 9, 3, 4, 5, 6, 7, 8, 9))
    assert index_image(derived_book(chart), 2) == old and complete_indexed(image, old, everything, 9)[0] == (34, 0, 0)
    quiet = Book(3, 3, [], [], [])
    assert index_image(quiet, 2) == index_image(quiet) == run32((3, 0, 32, 0, 32, 0, 32, 0))
    assert complete_indexed(book_image(quiet), index_image(quiet, 2), snapshot_of(range(3)), 2)[0] == GRANTED
    none = Book(0, 1, [without_trigger(NO_CONDITION, 0, SET, 0)], [], [])  # a rule, but no stage that lists it
    assert complete_list(book_image(none), index_image(none, 2), snapshot_of(()), [])[0] == GRANTED


def list_examples():
    """The paper's chart from its start: 0, 1 and then 0, which is closed by then. Then a mark that becomes yes in each of two completions."""
    answer, chart, start = read_chart(PAPER_CHART)
    image, snapshot = book_image(derived_book(chart)), matching(chart, start)[1]
    index = index_of(image)
    for stages, answer, granted, ends in (([], GRANTED, 0, 113), ([0], GRANTED, 1, 119), ([0, 1], GRANTED, 2, 238), ([0, 1, 0, 1], (30, 2, 0), 2, 238),
                                          ([1, 0], (30, 0, 0), 0, 113), ([0, 2, 1], (29, 1, 0), 1, 119)):
        given = complete_list(image, index, snapshot, stages)
        assert given[:2] == (answer, granted) and worth(given[2]) == ends and given[3] == 7 * granted
    assert complete_list(image, index[1:], [True] * MAX_MARKS, [9] * 5000)[:2] == ((34, 0, 0), 0)
    assert complete_list(image, index, [True] * MAX_MARKS, [9] * 5000)[:2] == ((28, 0, 0), 0)
    assert complete_list(image, index, snapshot, [9] * 4097) == ((38, 4097, 0), 0, snapshot, 0)
    assert complete_list(image, index, snapshot, [9] * 4096) == ((29, 0, 0), 0, snapshot, 0)
    # mark 1 is cleared by stage 0 and set by stage 2; mark 3 is set where mark 1 became yes, and cleared where it became no
    turns = Book(3, 4, [on_completion(0, CLEAR, 1), on_completion(2, SET, 1), Rule(BECOME_YES, AS_WRITTEN, SET, 0, 1, 0, 3),
                        Rule(BECOME_NO, NEGATED, CLEAR, 0, 1, 0, 3)], [(0, 1)], [1])
    image, snapshot = book_image(turns), snapshot_of({0, 1, 2})
    for stages, ends in (([0], 5), ([2], 7), ([0, 2], 15), ([0, 2, 2], 15), ([0, 2, 0], 5), ([0, 2, 0, 2, 0], 5)):
        assert worth(complete_list(image, index_of(image), snapshot, stages)[2]) == ends


def evaluated_examples():
    """Of a derived book of n events at most 4n + 1 rules are evaluated, and that many where an event includes or excludes all and has all
    as responses. Rules that do not fire count; those of other stages do not."""
    for n in (1, 2, 5):
        chart = empty_chart(n)
        chart.includes[0] |= set(range(n))
        chart.responses[0] |= set(range(n))
        image = book_image(derived_book(chart))
        for e in range(n):
            assert complete_indexed(image, index_of(image), snapshot_of({e}), e)[2] == (4 * n + 1 if e == 0 else 2 * n + 2)
            assert complete_indexed(image, index_of(image), snapshot_of(()), e) == ((30, 0, 0), snapshot_of(()), 0)
    rules = [on_completion(0, SET, 2), Rule(BECOME_YES, NO_CONDITION, SET, 0, 1, 0, 3), on_completion(1, SET, 2), without_trigger(NO_CONDITION, 0, SET, 1)]
    image, opened = book_image(Book(2, 4, rules, [], [])), snapshot_of({0, 1})
    assert [complete_indexed(image, index_of(image), opened, stage)[2] for stage in (0, 1, 2)] == [3, 3, 0]
    for stages, evaluated in (([], 0), ([0], 3), ([0, 1, 0], 9), ([0, 2, 1], 3), ([2], 0)):
        assert complete_list(image, index_of(image), opened, stages)[3] == evaluated


def replay_examples():
    """A purchase that stood still: event 0, ordering, makes 1, delivery, pending and is a condition of it; 2 may be left out."""
    chart = empty_chart(3)
    chart.conditions[1].add(0)
    chart.responses[0].add(1)
    start, made = Marking(set(), set(), {0, 1, 2}), [(0, 0), (2, 5), (1, 7)]
    end = Marking({0, 1, 2}, set(), {0, 1, 2})
    assert replay(chart, start, made) == (GRANTED, 3, 0, end, True, NOTHING)
    assert replay(chart, start, []) == (GRANTED, 0, 0, start, True, NOTHING)
    ordered, blocks = Marking({0}, {1}, {0, 1, 2}), Blocking({0}, set())
    assert replay(chart, start, [(0, 0), (3, 0), (1, 0)]) == (GRANTED, 1, 10, ordered, False, NOTHING)
    assert replay(chart, start, [(0, 0), (1, 8)]) == (GRANTED, 1, 32, ordered, False, NOTHING)
    assert replay(chart, start, [(2, 0), (1, 0)]) == (GRANTED, 1, 12, Marking({2}, set(), {0, 1, 2}), True, blocks)
    assert strike(chart, start, 1, made) == (GRANTED, Marking({0, 1}, set(), {0, 1, 2}), NOTHING)
    assert strike(chart, start, 0, made) == ((12, 2, 0), start, blocks) and strike(chart, start, 2, made[:2] + [(9, 0)])[0] == GRANTED
    assert strike(chart, start, 2, [(1, 0)] + made) == ((12, 0, 0), start, blocks)
    for position, record in ((3, made), (0, []), ((1 << 32) - 1, made)):
        assert strike(chart, start, position, record) == ((36, 0, 0), start, NOTHING)
    beyond = Marking({3}, set(), set())
    assert replay(chart, beyond, made) == ((14, 0, 0), 0, 0, beyond, False, NOTHING)
    assert strike(chart, beyond, 3, made) == ((14, 0, 0), beyond, NOTHING)


def blocking_examples():
    """The paper's chart: 0 blocks 1 from the start. Then four events that block a fifth, the last two as milestones."""
    answer, chart, start = read_chart(PAPER_CHART)
    assert open_test(chart, start, 0) == (GRANTED, NOTHING) and open_test(chart, start, 1) == ((12, 0, 0), Blocking({0}, set()))
    assert execute(chart, start, 1, 0) == ((12, 0, 0), start, Blocking({0}, set()))
    five = empty_chart(5)
    five.conditions[4] |= {0, 1}
    five.milestones[4] |= {2, 3}
    for out, code, blocks in ((set(), (12, 0, 0), Blocking({0, 1}, {2, 3})), ({0}, (12, 1, 0), Blocking({1}, {2, 3})), ({1, 2}, (12, 0, 0), Blocking({0}, {3})),
                              ({0, 1}, (13, 2, 0), Blocking(set(), {2, 3})), ({0, 1, 2}, (13, 3, 0), Blocking(set(), {3})), ({0, 1, 2, 3}, GRANTED, NOTHING),
                              ({4}, (11, 0, 0), NOTHING)):
        everyone = set(range(5))
        for marking in (Marking(set(), everyone, everyone - out), Marking(out & {0, 1}, everyone - out, everyone - (out & {4}))):
            assert open_test(five, marking, 4) == (code, blocks) and execute(five, marking, 4, 0)[::2] == (code, blocks)
            assert execute(five, marking, 4, 8)[::2] == ((32, 0, 0), NOTHING) and open_test(five, marking, 5) == ((10, 0, 0), NOTHING)
            assert replay(five, marking, [(4, 0)])[2::3] == (code[0], blocks)
            assert strike(five, marking, 1, [(4, 0)] * 2)[::2] == ((code[0], 0, 0), blocks)  # named by its position


def back_examples():
    """The paper's chart comes back from its book, and so does each chart of one event; a book without stages, and one whose rules stand in
    another order, are no derived books."""
    answer, chart, start = read_chart(PAPER_CHART)
    book = derived_book(chart)
    assert read_back(book_image(book)) == (GRANTED, chart)
    for rules in (book.rules[1:] + book.rules[:1], book.rules[:-1], book.rules + book.rules[-1:]):
        assert read_back(book_image(book._replace(rules=rules))) == ((33, 0, 0), empty_chart())
    assert read_back(book_image(book._replace(rules=book.rules[1:])))[1].responses[0] == set()  # of the chart without that response
    for stages, marks in ((0, 0), (0, 4), (1, 4)):
        assert read_back(book_image(Book(stages, marks, [], [], [])))[0] == (33, 0, 0)
    charts = []
    for tables_of_one in range(32):
        chart = empty_chart(1)
        for table in range(5):
            chart[1 + table][0].update({0} if tables_of_one >> table & 1 else ())
        without = chart._replace(excludes=[excluded - included for excluded, included in zip(chart.excludes, chart.includes)])
        assert read_back(book_image(derived_book(chart))) == (GRANTED, without)
        chart.roles[0].add(3)
        assert read_back(book_image(derived_book(chart)))[1].roles[0] == set()
        charts.append(chart)
    assert len(charts) == 32 and len({book_image(derived_book(chart)) for chart in charts}) == 24  # eight have an exclusion overruled


def both_examples():
    """Event 2 excludes the group of 0 and 1 and includes 1: after it 0 is out, and 1 is in, whether it was before or not; so in the book."""
    nodes = [(NONE, 0), (0, INCLUDED), (0, 0), (NONE, INCLUDED)]
    answer, chart, start = read_chart(chart_image(nodes, [(3, 0, EXCLUDE), (3, 2, INCLUDE)]))
    assert answer == GRANTED and is_fit_chart(chart) and (chart.includes[2], chart.excludes[2]) == ({1}, {0, 1})
    after = execute(chart, start, 2, 0)[1]
    assert after.included == {1, 2}
    book = derived_book(chart)
    assert [rule for rule in book.rules if rule.target in range(6, 9)] == [on_completion(2, CLEAR, 6), on_completion(2, SET, 7)]
    image, snapshot = book_image(book), matching(chart, start)[1]
    assert complete(image, running_order(book, 2), snapshot, 2) == (GRANTED, matching(chart, after)[1])
    back = read_back(image)[1]
    assert (back.includes[2], back.excludes[2]) == ({1}, {0}) and derived_book(back) == book


def mend_examples():
    """Six nodes with every kind of damage; then the paper's chart, which comes out as it went in, and a self-loop, which leaves an event."""
    roles = 256 * 9
    nodes = [(6, 7), (NONE, roles + 7), (3, 6), (2, roles + 15), (4, 128 + 5), (1, 255)]
    relations = [(0, 1, 0), (6, 0, 0), (0, 5, 4), (0, 65535, 1), (5, 5, 5)]
    image = chart_image(nodes, relations)
    better = chart_image([(NONE, 7), (NONE, roles), (NONE, 0), (2, roles + 7), (NONE, 5), (1, 7)], [(0, 1, 0), (0, 5, 4)])
    # 2 and 3 are each other's parent: 2 loses its own and stays a group; 4 was its own parent and is an event from then on
    changes = ((1, 0, 6, 7, 0), (2, 3, 2, roles + 15, 0), (2, 4, 4, 133, 0), (2, 5, 1, 255, 0), (3, 2, 3, 6, 0), (3, 4, 4, 5, 0),
               (4, 1, NONE, roles + 7, 0), (4, 2, NONE, 6, 0), (5, 1, 6, 0, 0), (5, 3, 0, 65535, 1), (5, 4, 5, 5, 5))
    entries = run16([number for change in changes for number in change])
    assert mend(image, bytes(50), bytes(120)) == (GRANTED, 11, better + bytes(50 - len(better)), entries + bytes(10))
    assert read_chart(image)[0] == (4, 0, 0) and read_chart(better)[0] == GRANTED and mend(better, bytes(44), b'') == (GRANTED, 0, better, b'')
    for rooms in ((44, 109), (43, 110), (0, 0), (43, 200), (200, 0)):
        assert mend(image, *map(bytes, rooms)) == ((37, 44, 110), 0, *map(bytes, rooms))
    assert mend(PAPER_CHART, bytes(34), b'') == (GRANTED, 0, PAPER_CHART, b'') and mend(PAPER_CHART, bytes(33), b'') == ((37, 34, 0), 0, bytes(33), b'')
    for count, answer in ((256, GRANTED), (257, (7, 257, 0))):  # nodes that are their own parents are events once they have none
        for damaged in ([(n, 4) for n in range(count)], [(count, 4)] * count):
            assert mend(chart_image(damaged, [(600, 0, 0)]), bytes(3000), bytes(3000))[0] == answer
    assert mend(chart_image([(n, 4) for n in range(257)], []), b'', b'')[0] == (7, 257, 0)
    for wrong, code in ((PAPER_CHART[:7], 1), (bytes(8), 2), (PAPER_CHART + b'\0', 3)):
        assert mend(wrong, b'', b'') == ((code, 0, 0), 0, b'', b'')


PAPER_SMALLER = '''stages 2 marks 5 rules 8 conditions 2 words 5
0 on 0 clear 4
1 on 0 set 2
2 on 1 clear 3
3 on 1 set 4
4 if 0 set 0
5 unless 0 clear 0
6 if 1 set 1
7 unless 1 clear 1
cond 0: 3
cond 1: 3 not 2 or
'''


def smaller_examples():
    """The paper's chart: executed 1, included 1 and answered 0 go. Then a chart of which nothing is left but its stages, one of which nothing
    goes, and each mark of a single event by what keeps it."""
    answer, chart, start = read_chart(PAPER_CHART)
    book, table = smaller_book(chart, start)
    assert book_lines(book) == PAPER_SMALLER and table == [0, 1, 2, NO_MARK, 3, NO_MARK, NO_MARK, 4]
    image = book_image(book)
    assert len(image) == 138 and check_book(image, 1, [0] * 6) == (GRANTED, [2, 3, 4, 5, 6, 7])
    assert derive_smaller(chart, start, bytes(140)) == (GRANTED, image + bytes(2), table + [NO_MARK] * 1016)
    assert derive_smaller(chart, start, bytes(137)) == ((15, 138, 0), bytes(137), [NO_MARK] * 1024)
    for unfit in ((chart, start._replace(executed={2})), (chart._replace(count=1), start), (chart._replace(count=0), start)):
        assert derive_smaller(*unfit, bytes(200)) == ((14, 0, 0), bytes(200), [NO_MARK] * 1024)
    assert not finished_by_marks(2, table, through_table(table, matching(chart, start)[1]))

    everyone = set(range(3))
    book, table = smaller_book(empty_chart(3), Marking(set(), set(), everyone))
    assert book == Book(3, 3, [without_trigger(NO_CONDITION, 0, SET, e) for e in range(3)], [], []) and table == [0, 1, 2] + [NO_MARK] * 9
    for kinds in ((1, 2, 4), (1, 2, 5), (1, 2, 3, 4, 5)):  # condition, response and include or exclude: of every event by the next one
        chart = empty_chart(3)
        for e in range(3):
            for kind in kinds:
                chart[kind][e].add((e + 1) % 3)
        for start in (Marking(set(), set(), everyone), Marking(everyone, everyone, set())):
            assert smaller_book(chart, start) == (derived_book(chart), list(range(12)))
    for start in (Marking({0}, set(), {0}), Marking(set(), set(), {0}), Marking(set(), {0}, {0}), Marking(set(), set(), set())):
        for kind, mark in ((None, 0), (1, 1), (2, 3), (3, 0), (4, 2), (5, 2)):  # the mark that being one's own keeps
            chart = empty_chart(1)
            if kind:
                chart[kind][0].add(0)
            kept = {0, mark} | ({3} if start.pending else set()) | (set() if start.included else {2})
            assert {old for old, number in enumerate(smaller_book(chart, start)[1]) if number != NO_MARK} == kept


def full_chart(n):
    """n events, each related to each by every kind."""
    return FlatChart(n, *[[set(range(n)) if e < n else set() for e in range(MAX_EVENTS)] for table in range(5)], [set() for e in range(MAX_EVENTS)])


def larger_examples():
    """The largest chart and its book: the limits of a book are what it needs. A chart that has no open event reports 256, whatever its size, and
    so does a refused count. Event 255 is in a set's last word."""
    for n in (1, 2, 64):
        book = derived_book(full_chart(n))
        assert (book.marks, len(book.rules), len(book.words)) == (4 * n, 2 * n * n + 3 * n, 10 * n * n + n)
    largest, everyone = full_chart(256), set(range(256))
    start = Marking(everyone, set(), everyone)
    book = derived_book(largest)
    assert (book.stages, book.marks, len(book.rules), len(book.conditions), len(book.words)) == (256, 1024, 131840, 256, 655616)
    image = book_image(book)
    assert len(image) == 2631712 and derive(largest, bytes(2631711))[0] == (15, 2631712, 0)
    assert check_book(image, 255, [0] * 1024)[0] == (31, 1025, 0) and check_book(image, 256, [])[0] == (29, 0, 0)
    order = check_book(image, 255, [0] * 1025)[1]
    assert order == list(range(130815, 131840))  # the last stage's own rules, and those on no completion
    snapshot = matching(largest, start)[1]
    after = execute(largest, start, 255, 0)[1]
    assert after.pending == everyone and complete(image, order, snapshot, 255) == (GRANTED, matching(largest, after)[1])
    assert complete(image, [p % 65536 for p in order], snapshot, 255)[0] == (27, 0, 0)
    assert build_index(image, bytes(1051655))[0] == (35, 1051656, 0) and complete_indexed(image, index_of(image), snapshot, 255)[2] == 1025
    assert read_back(image) == (GRANTED, told_by_book(largest))
    everywhere = Book(256, 1024, [without_trigger(NO_CONDITION, 0, SET, p % 1024) for p in range(131840)], [], [])
    assert build_index(book_image(everywhere), b'')[0] == (35, 8 + 8 * 256 + 4 * 256 * 131840, 0)
    for n in (1, 64, 255, 256):
        chart = empty_chart(n)
        assert count_open(chart, empty_marking()) == (GRANTED, 0, 256) and count_open(chart, Marking({n}, set(), set())) == ((14, 0, 0), 0, 256)
        assert count_open(chart, Marking(set(), set(), {n - 1})) == (GRANTED, 1, n - 1)
        assert execute(chart, empty_marking(), n, 0)[0] == (10, 0, 0)
    wide = empty_chart(256)
    wide.conditions[255].update({64, 191, 255})
    assert open_test(wide, Marking({64}, set(), everyone), 255) == ((12, 191, 0), Blocking({191, 255}, set()))
    one = book_image(Book(1, 1024, [on_completion(0, SET, 1023)], [], []))
    assert worth(complete(one, [0], snapshot_of({0}), 0)[1]) == 1 + (1 << 1023)
    below = book_image(Book(1, 1023, [], [], []))
    assert complete(below, [], snapshot_of({0, 1023}), 0)[0] == (28, 0, 0) and complete(below, [], snapshot_of({0, 1022}), 0)[0] == GRANTED


def numbers_of(chart, marking):
    """A flat chart of up to 64 events and a marking as they were told when a set was one number of 64 bits."""
    sets = list(marking) + [table[e] for table in tables(chart) + (chart.roles,) for e in range(64)]
    assert not any(table[e] for table in tables(chart) + (chart.roles,) for e in range(64, MAX_EVENTS))
    return [chart.count] + [mark_bits(entry) for entry in sets]


EARLIER_SUM = 2254531763


def earlier_examples():
    """Charts of up to 64 events, good ones and bad ones, and their books: answers, flat charts, markings, books, orders and snapshots have the sum that
    this model gave for them when these were the most."""
    rng, told = random.Random(14), []
    for _ in range(300):
        count = rng.choice((1, 2, 5, 20, 64, 80))
        parents = [NONE if n == 0 or rng.random() < 0.4 else rng.randrange(n) for n in range(count)]
        nodes = [(parent, 0 if n in parents else rng.choice((4, 4, 6, 5, 0, 3)) + 256 * rng.choice((0, 0, 1, 8, 255))) for n, parent in enumerate(parents)]
        relations = [(rng.randrange(count), rng.randrange(count), rng.randrange(5)) for _ in range(rng.randrange(2 * count))]
        if rng.random() < 0.2:
            nodes[rng.randrange(count)] = (rng.randrange(count + 1), rng.randrange(12))
        if rng.random() < 0.1:
            relations.append((rng.randrange(count), count, 0))
        answer, chart, start = read_chart(chart_image(nodes, relations))
        assert answer[0] not in (2, 7)
        told.append((answer, numbers_of(chart, start)))
        if answer == GRANTED and rng.random() < 0.3:
            image, snapshot, stage = book_image(derived_book(chart)), matching(chart, start)[1], rng.randrange(chart.count)
            order = running_order(derived_book(chart), stage)
            completed, after = complete(image, order, snapshot, stage)
            told.append((image, order, worth(snapshot), completed, worth(after), execute(chart, start, stage, 0)[0], book_image(smaller_book(chart, start)[0])))
    assert zlib.adler32(repr(told).encode()) == EARLIER_SUM


def orders_agree():
    """Small random books without a loop, also over all rules, get one running order from both functions that make it."""
    rng = random.Random(1)
    for _ in range(500):
        rank = rng.sample(range(12), 12)
        rules = []
        for _ in range(rng.randrange(60)):
            one, two, target = sorted(rng.sample(range(12), 3), key=lambda mark: rank[mark])
            rules.append(rng.choice((on_completion(rng.randrange(2), SET, target), without_trigger(AS_WRITTEN, one, SET, target),
                                     Rule(BECOME_YES, NO_CONDITION, SET, 0, one, 0, target),
                                     Rule(COMPLETED, AS_WRITTEN, SET, 0, rng.randrange(2), one, target),
                                     Rule(BECOME_NO, NEGATED, SET, 0, one, two, target))))
        book = Book(2, 12, rules, [(mark, 1) for mark in range(12)], list(range(12)))
        for stage in (0, 1):
            order = running_order_of_long_book(book, stage)
            assert order == running_order_as_said(book, stage) and is_fit_order(book, stage, order)
            # going through all rules, as before the request, ends alike: those left out for a stage do not fire when it is completed
            snapshot, by_rank = [rng.random() < 0.5 for mark in range(MAX_MARKS)], sorted(range(len(rules)), key=lambda p: rank[rules[p].target])
            assert gone_through(book, order, snapshot, stage)[0] == gone_through(book, by_rank, snapshot, stage)[0]


def clashes_agree():
    """Small random books get one lowest clash from both functions that look for it."""
    rng, found = random.Random(2), 0
    for _ in range(2000):
        rules = [Rule(kind, sense, rng.random() < 0.5, 0, rng.randrange(3) if kind else 0, rng.randrange(2) if sense else 0, rng.randrange(2))
                 for kind, sense in [(rng.choice((0, 1, 1, 1, 2)), rng.choice((0, 1, 2, 1, 2))) for _ in range(rng.randrange(9))]]
        book = Book(3, 3, rules, [(0, 1)] * 2, [2])
        lowest = [min(pairs, default=None) for pairs in (clashes_as_said(book), clashes_of_long_book(book))]
        assert lowest[0] == lowest[1]
        found += lowest[0] is not None
    assert 300 < found < 1900


if __name__ == '__main__':
    if len(sys.argv) > 1:
        with open(sys.argv[-1], 'rb') as chart_file:
            sys.stdout.write((smaller_listing if sys.argv[1] == '--small' else listing)(chart_file.read()))
    else:
        settled_examples()
        role_examples()
        stage_examples()
        index_examples()
        list_examples()
        evaluated_examples()
        replay_examples()
        blocking_examples()
        back_examples()
        both_examples()
        mend_examples()
        smaller_examples()
        larger_examples()
        earlier_examples()
        orders_agree()
        clashes_agree()
        print('the settled examples hold')
