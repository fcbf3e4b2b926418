# Every refusal by each of its causes, what is just inside a limit, and the largest sizes: requests with the answer meant.
#
# Each generator yields (answer, body), or (answer, body, cause). The answer is what the cause aims at, (code, place, other) or BAD, or None where
# only the model knows; a request whose expected line says otherwise is a mistake here and stops the program. Of the requests that carry a flat chart,
# and are long, the stored selection has few; where a generator gives one code by several causes, the cause stands beside the request, so that each is among them.

import ozhimka as model
from chances import (EDGES, NO_ROLES, in_turn, random_flat, random_nodes, random_order, random_relations, random_snapshot, scattered, some,
                     sound_book)
from ozhimka import (AND, BECOME_NO, BECOME_YES, CLEAR, COMPLETED, CONDITION, EXCLUDE, GRANTED, INCLUDE, LISTING_READS, LISTING_ROOM, MAX_CONDITIONS,
                     MAX_EVENTS, MAX_LIST, MAX_MARKS, MAX_NODES, MAX_RELATIONS, MAX_RULES, MAX_WORDS, MILESTONE, NONE, NOT, OR, SET, Book, FlatChart,
                     Marking, Rule, book_image, bytes16, bytes32, chart_image, on_completion, snapshot_of, told_by_book, without_trigger)
from protocol import (BAD, FLAT_BYTES, MARKING_BYTES, MAX_BODY, MAX_NUMBERS, MAX_ROOM_BYTES, SNAPSHOT_BYTES, back_request, check_request,
                      complete_request, count_request, derive_request, execute_request, finished_request, index_request, indexed_request,
                      list_request, listing_request, matching_request, mend_request, open_request, read_request, replay_request, smaller_request,
                      strike_request)

FREE = (NONE, 4)
HUGE = 0xFFFFFFFF
EVERY_MARK = snapshot_of(range(MAX_MARKS))
EVERY_EVENT = frozenset(range(MAX_EVENTS))
LAST = MAX_EVENTS - 1  # the last event, or stage, of all
# events at both ends of each of a set's four words
WORD_ENDS = (0, 63, 64, 127, 128, 191, 192, 255)


def plain(code, place=0, other=0):
    return (code, place, other)


def with_number16(image, at, number):
    return image[:at] + bytes16(number) + image[at + 2:]


def with_number32(image, at, number):
    return image[:at] + bytes32(number) + image[at + 4:]


# ---- charts

def header_causes(rng):
    """Codes 1, 2 and 3."""
    image = model.PAPER_CHART
    for length in range(8):
        yield plain(1), read_request(image[:length])
        yield plain(1), read_request(rng.randbytes(length))
    for nodes, relations in ((0, 0), (0, 3), (513, 0), (513, 3), (65535, 0), (2, 16385), (2, 65535), (0, 16385), (32768, 0), (512, 16385), (513, 16384)):
        changed = with_number16(with_number16(image, 0, nodes), 2, relations)
        yield plain(2), read_request(changed)
        yield plain(2), read_request(changed[:8])
        exact = bytes16(nodes) + bytes16(relations) + bytes16(8) + bytes16((8 + 4 * nodes) % 65536)
        yield plain(2), read_request(exact + bytes(min(4 * nodes + 6 * relations, 1000)))
    for at, right in ((4, 8), (6, 16)):
        for wrong in (0, right - 1, right + 1, right + 4, right + 256, 65535):
            yield plain(3), read_request(with_number16(image, at, wrong))
    for wrong in (image[:8], image[:-1], image[:-6], image[:16], image + b'\0', image + image[-6:], image * 2):
        yield plain(3), read_request(wrong)
    # the counts and the length disagree
    for nodes, relations in ((1, 3), (3, 3), (2, 2), (2, 4), (128, 4096), (129, 3), (2, 4097), (512, 3), (2, 16384), (512, 16384)):
        changed = with_number16(with_number16(image, 0, nodes), 2, relations)
        yield plain(3), read_request(with_number16(changed, 6, 8 + 4 * nodes))


def node_causes(rng):
    """Codes 4 and 5; what would get a higher code stands beside them."""
    count = rng.randrange(4, 12)
    relations = [(count, 0, 9), (0, 0, INCLUDE), (0, 0, EXCLUDE)]
    for parent in (count, count + 1, 128, 512, 32768, 65534):
        n = rng.randrange(count)
        nodes = [FREE] * count
        nodes[n] = (parent, 4)
        yield plain(4, n), read_request(chart_image(nodes, relations))
    for flags in (8, 9, 15, 16, 32, 64, 128, 255, 256 + 8, 32768 + 128, 65535):  # the lower byte is judged, whatever the upper one
        n = rng.randrange(count)
        nodes = [FREE] * count
        nodes[n] = (NONE, flags)
        yield plain(4, n), read_request(chart_image(nodes, relations))
    for first in (0, 1, count - 2):
        nodes = [FREE] * first + [(count, 8)] + [(NONE, 8)] * (count - first - 1)
        yield plain(4, first), read_request(chart_image(nodes, relations))
    nodes = [(0, 7)] + [FREE] * (count - 2) + [(NONE, 8)]
    yield plain(4, count - 1), read_request(chart_image(nodes, relations))
    nodes = [(NONE, 256 * 255 + 7)] * (count - 1) + [(count, 256)]  # no number of the upper byte is a fault
    yield plain(4, count - 1), read_request(chart_image(nodes, relations))

    def loop_case(place, parents, flags=0):
        nodes = [FREE] * 9
        for n, parent in parents.items():
            nodes[n] = (parent, flags)
        return plain(5, place), read_request(chart_image(nodes, [(9, 9, 9)]))

    for n in range(0, 9, 2):
        yield loop_case(n, {n: n}, rng.randrange(8) + 256 * rng.choice((0, 1, 255)))  # a node that is its own parent
    yield loop_case(2, {2: 5, 5: 2})
    yield loop_case(3, {7: 3, 3: 8, 8: 7})
    yield loop_case(4, {0: 4, 4: 6, 6: 4})  # node 0 leads into the loop and is not on it
    yield loop_case(5, {0: 1, 1: 2, 2: 8, 8: 5, 5: 7, 7: 8})  # a chain that leads into a loop
    yield loop_case(8, {0: 1, 1: 2, 2: 3, 3: 4, 4: 8, 8: 8})
    yield loop_case(1, {1: 6, 6: 1, 4: 4})  # two loops
    yield loop_case(2, {0: 5, 3: 7, 7: 3, 5: 2, 2: 5})
    for count in (2, 3, 64, 127, 128, 129, 256, 257, 511, 512):
        row = list(range(count))
        rng.shuffle(row)
        parents = [0] * count
        for i, n in enumerate(row):
            parents[n] = row[i - 1]
        yield plain(5, 0), read_request(chart_image([(parent, 0) for parent in parents], []))


def group_causes(rng):
    """Codes 6, 7 and 8."""
    bad = [(600, 0, 0)]
    for flags in range(1, 8):
        yield plain(6, 1), read_request(chart_image([FREE, (NONE, flags), (1, 4), FREE], bad))
        yield plain(6, 1), read_request(chart_image([FREE, (NONE, 256 * rng.randrange(1, 256) + flags), (1, 4), FREE], bad))
    yield plain(6, 2), read_request(chart_image([(NONE, 256), (0, 512), (1, 256 + 1), (2, 4)], bad))  # groups with roles are none
    yield plain(6, 0), read_request(chart_image([(NONE, 1), (0, 2), (1, 4)], bad))
    yield plain(6, 1), read_request(chart_image([(NONE, 0), (0, 2), (1, 4)], []))
    yield plain(6, 2), read_request(chart_image([(2, 4), (3, 4), (NONE, 4), (NONE, 4)], []))
    yield plain(6, 300), read_request(chart_image([(300, 4)] * 300 + [(NONE, 4)], bad))  # before 7
    yield plain(6, 511), read_request(chart_image([(511, 4)] * 511 + [(NONE, 4)], bad))

    for count in (257, 258, 300, 384, 511, 512):
        yield plain(7, count), read_request(chart_image([FREE] * count, bad))
        yield plain(7, count), read_request(chart_image([(NONE, 256 * n % 65536 + 4) for n in range(count)], bad))
    for groups in (1, 2, 62, 255):
        nodes = [(NONE, 0)] * groups + [(n % groups, 4) for n in range(257)]
        yield plain(7, 257), read_request(chart_image(nodes, [(0, 1, INCLUDE), (0, 1, EXCLUDE)]))
        yield plain(8, 0), read_request(chart_image(nodes[:-1], bad))

    nodes = [(NONE, 0), (0, 4), (0, 6), FREE]
    fight = [(3, 1, INCLUDE), (3, 1, EXCLUDE)]
    for wrong in ((4, 0, 0), (65535, 0, 0), (0, 4, 0), (0, 65535, 0), (0, 0, 5), (0, 0, 65535), (0, 0, 256), (4, 4, 5)):
        yield plain(8, 0), read_request(chart_image(nodes, [wrong]))
        yield plain(8, 2), read_request(chart_image(nodes, fight + [wrong] + fight))
        yield plain(8, 1), read_request(chart_image(nodes, [(0, 0, 0), wrong, wrong]))
    yield plain(8, 5), read_request(chart_image([FREE], [(0, 0, 1)] * 5 + [(1, 0, 1)]))


def of_both(nodes, relations, *pairs):
    """A chart in which these pairs of events get both include and exclude, and no others do."""
    image = chart_image(nodes, relations)
    chart = model.read_chart(image)[1]
    assert [(e, f) for e in range(chart.count) for f in sorted(chart.includes[e] & chart.excludes[e])] == list(pairs)
    return GRANTED, read_request(image)


def both_causes(rng):
    """Include and exclude of one pair, directly and through groups, at each end: code 9 is never given any more."""
    nested = [(NONE, 0), (0, 4), (0, 4), FREE]  # events 0 and 1 are nodes 1 and 2 of group 0; event 2 is node 3
    yield of_both(nested, [(3, 0, INCLUDE), (3, 1, EXCLUDE)], (2, 0))  # P8
    yield of_both(nested, [(3, 2, INCLUDE), (3, 0, EXCLUDE)], (2, 1))
    yield of_both(nested, [(0, 3, INCLUDE), (1, 3, EXCLUDE)], (0, 2))
    yield of_both(nested, [(2, 3, EXCLUDE), (0, 3, INCLUDE)], (1, 2))
    yield of_both(nested, [(0, 0, INCLUDE), (0, 0, EXCLUDE)], (0, 0), (0, 1), (1, 0), (1, 1))
    yield of_both(nested, [(0, 2, INCLUDE), (1, 0, EXCLUDE)], (0, 1))
    yield of_both(nested, [(0, 0, EXCLUDE), (2, 2, INCLUDE)], (1, 1))
    yield of_both([FREE], [(0, 0, EXCLUDE), (0, 0, INCLUDE)], (0, 0))
    flat = [FREE] * 256
    pairs = [(5, 8), (5, 9), (7, 0), (63, 63), (63, 64), (64, 255), (128, 127), (255, 192), (255, 255)]
    yield of_both(flat, [(a, b, kind) for a, b in pairs for kind in (EXCLUDE, INCLUDE)], *pairs)
    deep = [(1, 4), (2, 0), (3, 0), (NONE, 0), FREE]  # node 0 in 1 in 2 in 3
    yield of_both(deep, [(3, 4, INCLUDE), (1, 4, EXCLUDE)], (0, 1))
    yield of_both(deep, [(4, 3, INCLUDE), (4, 0, EXCLUDE)], (1, 0))


def accepted_charts(rng):
    yield GRANTED, read_request(model.PAPER_CHART)
    for flags in range(8):
        yield GRANTED, read_request(chart_image([(NONE, flags)], []))
    nested = [(NONE, 0), (0, 4), (0, 4), FREE]
    yield GRANTED, read_request(chart_image(nested, [(0, 3, CONDITION)]))  # P7
    for kind in range(5):
        for a, b in ((0, 0), (0, 1), (1, 0), (0, 3), (3, 0), (3, 3), (1, 2)):
            yield GRANTED, read_request(chart_image(nested, [(a, b, kind)] * rng.randrange(1, 4)))
    # node 1 stands below node 2 though it comes first, a group without relations, groups of one
    yield GRANTED, read_request(chart_image([(2, 6), (2, 1), (3, 0), (NONE, 0), (5, 7), (NONE, 0)], [(3, 5, 2), (5, 3, 0)]))
    for depth in (2, 3, 64, 127, 128, 256, 510, 511):
        chain = [(n + 1, 0) for n in range(depth)] + [(NONE, 0)]
        chain[0] = (chain[0][0], rng.randrange(8))
        yield GRANTED, read_request(chart_image(chain, [(depth, 0, 1), (0, depth, 0), (depth // 2, depth // 2, 2)]))
    for count in (63, 64, 65, 66, 127, 128, 129, 192, 193, 255, 256):
        yield GRANTED, read_request(chart_image([FREE] * count, [(0, count - 1, 3), (count - 1, 0, 4), (count // 2, count - 1, count % 3)]))
    for count in (64, 70, 256):
        everyone = [(NONE, 0)] + [(0, rng.choice((4, 6))) for _ in range(count)]
        yield GRANTED, read_request(chart_image(everyone, [(0, 0, kind) for kind in ((0, 1, 2, 3) if count < 256 else (0, 4))]))
    everyone = [(n % 256 + 256, rng.choice((4, 6))) for n in range(256)] + [(NONE, 0)] * 256  # as many groups as events
    yield GRANTED, read_request(chart_image(everyone, [(n, (n * 7 + 64) % 512, n % 5) for n in range(512)]))


def word_charts(rng):
    """Relations of each kind from and to events at both ends of each word of a set; flags and roles at these events alone."""
    for count in (65, 129, 193, 256):
        ends = [e for e in WORD_ENDS if e < count] + [count - 1]
        nodes = [(NONE, 256 * (1 << n % 8) + 1 + n % 7 if n in ends else 0) for n in range(count)]
        for kind in range(5):
            yield GRANTED, read_request(chart_image(nodes, [(e, f, kind) for e in ends for f in rng.sample(ends, 2)]))
        for e in ends:
            yield GRANTED, read_request(chart_image(nodes, [(e, f, rng.randrange(5)) for f in ends]))


def charts_with_roles(rng):
    """Roles on events and on groups: an event has those of its whole chain. Charts with upper bits were refused with 4 once."""
    for flags in range(8):
        yield GRANTED, read_request(chart_image([(NONE, 256 * rng.choice((1, 2, 128, 255)) + flags)], []))
    for role in range(8):  # on the event, on the group, on both, on the group's other member
        bit = 256 << role
        for own, above, other in ((bit, 0, 0), (0, bit, 0), (bit, bit, 0), (0, 0, bit), (bit, 256 << (role + 3) % 8, 0)):
            yield GRANTED, read_request(chart_image([(NONE, above), (0, 4 + own), (0, 4 + other), FREE], [(0, 3, CONDITION)]))
    # three groups above node 0, two above node 4, none above node 5; each level names other roles, or the same, or none
    for levels in ((0, 0, 0, 0), (1, 2, 4, 8), (1, 0, 0, 0), (0, 1, 0, 0), (0, 0, 1, 0), (0, 0, 0, 1), (128, 0, 64, 0), (0, 3, 0, 6),
                   (255, 255, 255, 255), (1, 1, 1, 1), (0, 254, 255, 1)):
        own, near, middle, top = [256 * byte for byte in levels]
        nodes = [(1, 4 + own), (2, near), (3, middle), (NONE, top), (2, 6), FREE]
        yield GRANTED, read_request(chart_image(nodes, [(3, 5, CONDITION), (5, 2, INCLUDE)]))
        yield GRANTED, read_request(chart_image(nodes[:4], []))
    for depth in (8, 64, 127, 511):  # a long chain, with roles at its ends or all along it
        for at in ({depth: 1}, {0: 2}, {0: 2, depth: 4}, {n: 1 << n % 8 for n in range(depth + 1)}, {n: 16 for n in range(1, depth)}):
            nodes = [(n + 1 if n < depth else NONE, 256 * at.get(n, 0) + (4 if n == 0 else 0)) for n in range(depth + 1)]
            yield GRANTED, read_request(chart_image(nodes, []))
    for count in (64, 256):
        yield GRANTED, read_request(chart_image([(NONE, 256 * (n * 37 % 256) + 4) for n in range(count)], []))
    everyone = [(NONE, 256 * 32)] + [(0, 4 + 256 * (n % 4)) for n in range(70)]
    yield GRANTED, read_request(chart_image(everyone, [(0, 0, kind) for kind in (0, 1, 2, 4)]))
    yield plain(8, 0), read_request(chart_image(everyone, [(0, 71, CONDITION)]))  # a refused chart gives no roles
    yield GRANTED, read_request(chart_image(everyone, [(0, 0, INCLUDE), (0, 0, EXCLUDE)]))


# ---- flat charts and markings

def small_flat():
    """Four events: 0 is a condition of 3, 1 a milestone of 3; 3 has 2 as response, includes 1 and excludes 0."""
    chart = model.empty_chart(4)
    chart.conditions[3] |= {0, 2}
    chart.milestones[3] |= {1, 2}
    chart.responses[3].add(2)
    chart.includes[3].add(1)
    chart.excludes[3].add(0)
    return chart


def copied(chart, count=None):
    return FlatChart(chart.count if count is None else count, *[[set(entry) for entry in table] for table in chart[1:]])


def with_roles(chart, roles):
    """The chart with these roles, {event: roles}, and no others."""
    return chart._replace(roles=[set(roles.get(e, ())) for e in range(MAX_EVENTS)])


# an event count, and an event past it, in each word of a set
OUTSIDE = ((63, 63), (64, 64), (128, 128), (192, 192), (31, 100), (4, 255))
# an event count, an entry past it, and an event that is in it, in each word of a set
PAST = ((63, 63, 62), (65, 255, 64), (191, 192, 130), (255, 255, 254), (1, 1, 0))


def unfit_flats(rng):
    """Each way in which a flat chart is unfit, and some charts that are so."""
    yield 'count 0', [model.empty_chart(0), copied(small_flat(), 0)]
    yield 'count above', [copied(small_flat(), count) for count in (257, 256 + 4, 65536 + 4, HUGE)] + [model.empty_chart(257)]
    for table in range(1, 6):
        too_low = [copied(small_flat(), 3)] if table == 1 else []
        yield 'outside in %d' % table, [related(count, (table, rng.choice((0, count - 1)), f)) for count, f in OUTSIDE] + too_low
        yield 'past in %d' % table, [related(count, (table, e, f)) for count, e, f in PAST]
    # a role byte at the count, at the end or between, in turn; with roles below the count and without
    named = []
    for role in range(8):
        count = rng.choice((1, 4, 31, 63, 64, 128, 255))
        e, below = ((count, ()), (LAST, range(count)), (rng.randrange(count, MAX_EVENTS), rng.choice(((), range(count)))))[role % 3]
        named.append(with_roles(model.empty_chart(count), {**{f: range(8) for f in below}, e: {role}}))
    yield 'role past', named + [with_roles(small_flat(), {e: range(8) for e in range(MAX_EVENTS)})]


def in_turn_from(place, things):
    """All of them, another one first for each place."""
    first = place % len(things)
    return things[first:] + things[:first]


MARKING_CALLS = (count_request, finished_request, matching_request)


def unfit_causes(rng):
    """Code 14 by each cause in each call that gives it; it comes before 10 to 13, 15 and 32. The words of a set take turns as the calls do."""
    makers = (lambda c, m: execute_request(c, m, rng.choice((0, 3, 4, 64, 256, HUGE)), rng.choice((0, 7, 8, HUGE))),
              lambda c, m: open_request(c, m, rng.choice((0, 3, 4, 64, 256, HUGE))),
              lambda c, m: smaller_request(rng.choice((0, 31, MAX_ROOM_BYTES)), c, m)) + MARKING_CALLS
    makers += (lambda c, m: derive_request(rng.choice((0, 31, MAX_ROOM_BYTES)), c),)
    for turn, (cause, charts) in enumerate(unfit_flats(rng)):
        for place, maker in enumerate(makers):
            for chart in in_turn_from(place + turn, charts):
                fit = Marking({0}, {0}, {0}) if chart.count else model.empty_marking()  # so that the chart alone is unfit
                yield plain(14), maker(chart, fit), cause
    for part in range(3):
        for place, maker in enumerate(makers[:-1]):
            for marking, count in in_turn_from(place + part, unfit_markings(part)):
                yield plain(14), maker(small_flat() if count == 4 else model.empty_chart(count), marking), 'marking %d' % part


def unfit_markings(part):
    """Markings of which one set has an event past the count, in each word, and that count."""
    markings = []
    for count, e in OUTSIDE:
        marking = Marking({0}, {1}, {0, 1, 2, 3}) if count == 4 else model.empty_marking()
        marking[part].add(e)
        markings.append((marking, count))
    return markings


def step_causes(rng):
    """Codes 10 to 13 in their order, and what does not hold an event back: events that are open to everyone."""
    def by_anyone(chart, marking, event):
        return execute_request(chart, marking, event, rng.randrange(8))

    chart, everyone = small_flat(), {0, 1, 2, 3}
    for event in (4, 5, 63, 64, 255, 256, 256 + 1, 70000, 65536, 65536 + 1, 1 << 31, HUGE):
        yield plain(10), by_anyone(chart, Marking(set(), set(), everyone), event), 'past all' if event >= MAX_EVENTS else 'past the count'
    for count in (64, 65, 128, 255, 256):
        free, all_of_them = model.empty_chart(count), Marking(set(), set(), set(range(count)))
        yield plain(10), by_anyone(free, all_of_them, count), 'past %d' % count
        yield GRANTED, by_anyone(free, all_of_them, count - 1), 'last of %d' % count
    yield plain(11), by_anyone(chart, Marking(everyone, set(), {0, 1, 2}), 3)
    yield plain(11), by_anyone(chart, Marking(set(), everyone, {0, 1, 2}), 3)  # before 12 and 13
    yield plain(12, 0), by_anyone(chart, Marking(set(), set(), everyone), 3)
    yield plain(12, 2), by_anyone(chart, Marking({0}, {1, 2}, everyone), 3)  # before 13
    yield plain(12, 2), by_anyone(chart, Marking(set(), set(), {1, 2, 3}), 3)
    yield plain(13, 1), by_anyone(chart, Marking({0, 2}, {1, 2}, everyone), 3)
    yield plain(13, 2), by_anyone(chart, Marking({0, 2}, {0, 2, 3}, everyone), 3)
    yield plain(13, 2), by_anyone(chart, Marking({0, 2}, {1, 2}, {0, 2, 3}), 3)
    yield GRANTED, by_anyone(chart, Marking({0, 2}, {0, 3}, everyone), 3)
    yield GRANTED, by_anyone(chart, Marking(set(), {1}, {3}), 3)
    own = model.empty_chart(1)
    own.responses[0].add(0)
    yield GRANTED, by_anyone(own, Marking(set(), set(), {0}), 0)  # P4
    yield GRANTED, by_anyone(own, Marking({0}, {0}, {0}), 0)
    for table, answer in ((0, plain(12, 0)), (2, plain(13, 0)), (3, GRANTED), (4, GRANTED)):
        chart = model.empty_chart(1)
        chart[1 + table][0].add(0)
        yield answer, by_anyone(chart, Marking(set(), {0}, {0}), 0)
        yield GRANTED, by_anyone(chart, Marking({0}, set(), {0}), 0)
    free = model.empty_chart(2)
    free.conditions[1].add(0)
    yield GRANTED, by_anyone(free, Marking(set(), set(), {1}), 1)  # P5
    free = model.empty_chart(2)
    free.milestones[1].add(0)
    yield GRANTED, by_anyone(free, Marking(set(), {0}, {1}), 1)  # P6
    wide = model.empty_chart(256)
    wide.conditions[255] |= {40, 64, 254}
    wide.milestones[255] |= {41, 128, 255}
    for executed, pending, answer in (({40}, {255}, plain(12, 64)), ({40, 64}, {128}, plain(12, 254)), ({40, 64, 254}, {128, 255}, plain(13, 128)),
                                      ({40, 64, 254}, {0, 255}, plain(13, 255)), ({40, 64, 254}, {0}, GRANTED)):
        yield answer, by_anyone(wide, Marking(executed, pending, set(EVERY_EVENT)), 255), 'far off'


def word_causes(rng):
    """Each call on a chart of 256 events with one event at an end of each word of a set: what holds it back, and what it makes pending, includes and
    excludes, stand at other ends."""
    for place, e in enumerate(WORD_ENDS):
        f, g, h, i, j = [WORD_ENDS[(place + more) % 8] for more in (1, 2, 3, 5, 6)]
        chart = related(256, (CONDITIONS, e, f), (CONDITIONS, e, h), (MILESTONES, e, g), (MILESTONES, e, i), (RESPONSES, e, h), (RESPONSES, e, g),
                        (INCLUDES, e, i), (INCLUDES, e, e), (EXCLUDES, e, j), (EXCLUDES, e, i))
        chart = with_roles(chart, {e: {place}})
        everyone, word = set(EVERY_EVENT), 'word %d' % (e // 64)
        # conditions and milestones that are not included do not hold back
        held, due, ready = Marking({h}, {g, i}, everyone), Marking({f, h}, {i, e}, everyone), Marking({f}, {e, i, j}, everyone - {h, i})
        for marking, answer in ((held, plain(12, f)), (due, plain(13, i)), (ready, GRANTED), (Marking({f, h}, {e}, {e}), GRANTED),
                                (Marking(everyone, set(), everyone - {e}), plain(11))):
            yield answer, execute_request(chart, marking, e, place), word
            yield answer, open_request(chart, marking, e)
        yield plain(32), execute_request(chart, ready, e, (place + 1) % 8)
        for marking in (held, ready, Marking(set(), {e}, {e}), Marking(set(), everyone - {e}, {e})):
            yield GRANTED, rng.choice(MARKING_CALLS)(chart, marking)
        yield GRANTED, count_request(chart, Marking({f, h}, set(), {e})), word  # this one alone
        yield GRANTED, matching_request(chart, ready)
        yield GRANTED, finished_request(chart, Marking(set(), {e}, {e})), word
        yield GRANTED, replay_request(chart, ready, [(e, place), (e, place), (j, 0)])
        for pending, done in (({e}, True), (everyone - {e}, False)):  # what is pending counts where it is included
            yield GRANTED, replay_request(chart, Marking(set(), pending, {e}), []), '%s %s' % (word, done)
        yield plain(11, 2), strike_request(chart, ready, 0, [(e, place), (e, place), (j, 0)])
        needed = len(book_image(model.derived_book(chart)))
        yield GRANTED, derive_request(needed, chart)
        yield GRANTED, back_request(book_image(model.derived_book(chart)))
        yield of_smaller(chart, ready)
        yield of_smaller(chart, Marking(set(), {e}, everyone))


def held_back():
    """Eight events: 0, 2 and 5 are conditions of 7, and 1, 2 and 6 its milestones; 3 is its own condition and milestone; 4 is held by all."""
    chart = model.empty_chart(8)
    chart.conditions[7] |= {0, 2, 5}
    chart.milestones[7] |= {1, 2, 6}
    chart.conditions[3].add(3)
    chart.milestones[3].add(3)
    chart.conditions[4] |= set(range(8))
    chart.milestones[4] |= set(range(8))
    return chart


def wide_causes(rng):
    """Random charts of up to 256 events, in each call that takes one; their relations are so few that some marks of the smaller book go and some stay."""
    for count in (256, 200):
        chart, everyone = random_flat(rng, count, 0.004), set(range(count))
        marking = Marking(some(rng, everyone, 0.7), some(rng, everyone, 0.3), some(rng, everyone, 0.8))
        opened, of_count = model.open_events(chart, marking), 'of %d' % count
        for event in (opened[-1], rng.choice(opened), rng.choice(sorted(everyone - set(opened)))):
            role = min(chart.roles[event], default=0)
            answer = model.execute(chart, marking, event, role)[0]
            yield answer, execute_request(chart, marking, event, role), of_count
            yield answer, open_request(chart, marking, event), of_count
        for make in MARKING_CALLS:
            yield GRANTED, make(chart, marking), of_count
        record = [(e, min(chart.roles[e], default=0)) for e in rng.sample(opened, 8)]
        yield GRANTED, replay_request(chart, marking, record), of_count
        yield None, strike_request(chart, marking, 3, record), of_count
        book = model.derived_book(chart)
        yield GRANTED, derive_request(len(book_image(book)), chart), of_count
        yield GRANTED, back_request(book_image(book))
        yield of_smaller(chart, marking) + (of_count,)
        yield of_smaller(chart, Marking(set(), marking.pending, everyone)) + (of_count,)


def inclusion_causes(rng):
    """A pair in both tables of a flat chart: it is fit in every call, the step leaves the event included, and the book has the setting rule alone."""
    for e, f in ((0, 0), (0, 3), (3, 0), (2, 2), (63, 64), (128, 127), (255, 254), (254, 255)):
        chart = model.empty_chart(256) if e > 3 else small_flat()
        chart.includes[e].add(f)
        chart.excludes[e].add(f)
        everyone = set(range(chart.count))
        for included in (everyone, everyone - {f} | {e}):  # in before or out
            start = Marking({0, 2}, set(), set(included))
            assert f in model.execute(chart, start, e, 0)[1].included
            yield GRANTED, execute_request(chart, start, e, 0)
        book = model.derived_book(chart)
        assert [rule.effect for rule in book.rules if rule.trigger == 1 and (rule.number, rule.target) == (e, 2 * chart.count + f)] == [SET]
        yield GRANTED, derive_request(len(book_image(book)), chart)
        yield GRANTED, open_request(chart, start, e)
        yield GRANTED, rng.choice((count_request, finished_request))(chart, start)
        yield GRANTED, matching_request(chart, start)
        yield GRANTED, replay_request(chart, start, [(e, 0), (f, 0)])
        yield None, strike_request(chart, start, 0, [(f, 0), (e, 0)])
        yield GRANTED, back_request(book_image(book))


def blocking_causes(rng):
    """The open test by each of its codes, and both sets in every call that hands them on: whole with 12 and 13, empty with all others."""
    def all_calls(chart, marking, event, answer, conditions=(), milestones=()):
        blocks = (set(conditions), set(milestones))
        assert model.open_test(chart, marking, event) == (answer, blocks)
        yield answer, open_request(chart, marking, event)
        yield answer, execute_request(chart, marking, event, rng.randrange(8))
        if answer == GRANTED:
            return
        asked = (event, rng.randrange(8))
        assert model.replay(chart, marking, [asked])[2::3] == (answer[0], blocks)
        yield GRANTED, replay_request(chart, marking, [asked])
        place = rng.randrange(2)  # the step that fails stands before the struck one or behind it
        yield plain(answer[0], place), strike_request(chart, marking, 1 - place, [asked, asked])

    chart, everyone = held_back(), set(range(8))
    for event in (8, 64, 256, 256 + 7, 65536 + 7, 1 << 31, HUGE):
        yield plain(10), open_request(chart, Marking(set(), everyone, everyone), event)
    yield from all_calls(chart, Marking(set(), everyone, everyone), 8, plain(10))
    for marking in (Marking(set(), everyone, everyone - {7}), Marking(everyone, set(), everyone - {7}), model.empty_marking()):
        yield from all_calls(chart, marking, 7, plain(11))  # both sets empty, though conditions and milestones stand in the way
    # in the way: all, some, one; as conditions until they ran, as milestones while they are pending; not where they are not included
    for executed, pending, included, answer, conditions, milestones in (
            ((), everyone, everyone, plain(12, 0), {0, 2, 5}, {1, 2, 6}), ((), (), everyone, plain(12, 0), {0, 2, 5}, ()),
            ({0}, {6}, everyone, plain(12, 2), {2, 5}, {6}), ({0, 2}, {2, 5}, everyone, plain(12, 5), {5}, {2}),
            ({0, 2, 5}, everyone, everyone, plain(13, 1), (), {1, 2, 6}), (everyone, {0, 6, 7}, everyone, plain(13, 6), (), {6}),
            ((), everyone, {2, 7}, plain(12, 2), {2}, {2}), ((), everyone, {5, 6, 7}, plain(12, 5), {5}, {6}),
            ((), everyone, {1, 6, 7}, plain(13, 1), (), {1, 6}), ((), {1}, {1, 7}, plain(13, 1), (), {1}),
            ((), everyone, {3, 4, 7}, GRANTED, (), ()), ({0, 2, 5}, {0, 3, 5}, everyone, GRANTED, (), ())):
        yield from all_calls(chart, Marking(set(executed), set(pending), set(included)), 7, answer, conditions, milestones)
    for executed, pending, answer, conditions, milestones in (((), {3}, plain(12, 3), {3}, {3}), ({3}, {3}, plain(13, 3), (), {3}), ((), (), plain(12, 3), {3}, ())):
        yield from all_calls(chart, Marking(set(executed), set(pending), everyone), 3, answer, conditions, milestones)
    for _ in range(3):
        executed, pending = some(rng, everyone, 0.5), some(rng, everyone, 0.5)
        conditions, milestones = everyone - executed, pending
        answer = plain(12, min(conditions)) if conditions else plain(13, min(milestones)) if milestones else GRANTED
        yield from all_calls(chart, Marking(executed, pending, everyone), 4, answer, conditions, milestones)
    named = with_roles(chart, {7: {1, 2}})
    for role in (0, 8):  # nobody's role is asked for in the open test; a step by another role carries two empty sets
        for marking, answer in ((Marking(set(), everyone, everyone), plain(12, 0)), (Marking({0, 2, 5}, {1}, everyone), plain(13, 1))):
            yield plain(32), execute_request(named, marking, 7, role)
            yield GRANTED, replay_request(named, marking, [(7, role)])
            yield plain(32, 0), strike_request(named, marking, 1, [(7, role), (0, 0)])
            yield answer, open_request(named, marking, 7)
    for count in (63, 64, 129, 256):
        wide, others = model.empty_chart(count), set(range(count))
        wide.conditions[count - 1] |= others
        wide.milestones[count - 1] |= others
        yield from all_calls(wide, Marking(set(), others, others), count - 1, plain(12, 0), others, others)
        yield from all_calls(wide, Marking({0}, others - {5}, others - {1}), count - 1, plain(12, 2), others - {0, 1}, others - {1, 5})
        yield from all_calls(wide, Marking(others, others & {40, 62}, others), count - 1, plain(13, 40), (), {40, 62})
        yield from all_calls(wide, Marking(others, set(), others), count - 1, GRANTED)


def role_causes(rng):
    """Code 32 by each cause, behind 14 and 10 and before 11 to 13; what is granted by a role that is named, or by any of 0 to 7."""
    open_chart, everyone = small_flat(), {0, 1, 2, 3}
    ready, held, due = Marking({0, 2}, set(), everyone), Marking(set(), set(), everyone), Marking({0, 2}, {1, 2}, everyone)
    out = Marking(everyone, set(), {0, 1, 2})
    for roles in [{role} for role in range(8)] + [{0, 7}, {1, 2, 3}, set(range(8)), set(range(7)), set(range(1, 8)), set()]:
        chart = with_roles(open_chart, {3: roles, 2: set(range(8)) - roles})
        for role in range(8):
            permitted = not roles or role in roles
            cases = [(ready, GRANTED), (out, plain(11)), (held, plain(12, 0)), (due, plain(13, 1))]
            for marking, answer in cases if permitted and role in roles and len(roles) == 1 else rng.sample(cases, 1):
                yield answer if permitted else plain(32), execute_request(chart, marking, 3, role)
        yield plain(32), execute_request(chart, rng.choice((ready, out, held, due)), 3, rng.choice(NO_ROLES)), 'no role'
        yield plain(10), execute_request(chart, ready, rng.choice((4, 256, HUGE)), rng.choice((0, 7) + NO_ROLES))
        yield plain(14), execute_request(chart, Marking({4}, set(), everyone), 3, rng.choice((0, 7) + NO_ROLES))
    for role in NO_ROLES:  # open to everyone, and open to each of the eight: to nobody else
        for chart in (model.empty_chart(1), with_roles(model.empty_chart(1), {0: range(8)})):
            yield plain(32), execute_request(chart, Marking(set(), set(), {0}), 0, role), 'no role, %s' % ('all named' if chart.roles[0] else 'none named')
    last, everyone = with_roles(model.empty_chart(256), {255: {5}, 254: {6}, 64: {7}}), Marking(set(), set(), set(EVERY_EVENT))
    for event, role, answer in ((255, 5, GRANTED), (255, 6, plain(32)), (254, 6, GRANTED), (254, 5, plain(32)), (253, 5, GRANTED),
                                (64, 7, GRANTED), (64, 5, plain(32)), (63, 5, GRANTED), (0, 5, GRANTED)):
        yield answer, execute_request(last, everyone, event, role), 'another event'  # whose roles do not count
    for make in MARKING_CALLS:  # no other call asks for a role
        yield GRANTED, make(with_roles(open_chart, {e: {e} for e in range(4)}), ready)
        yield GRANTED, make(last, everyone)


def marking_causes(rng):
    """Counting, the finished test and the matching snapshot where they are granted."""
    def all_calls(chart, markings):
        return [(GRANTED, maker(chart, marking), 'words %d' % ((chart.count + 63) // 64)) for marking in markings for maker in MARKING_CALLS]

    for count in (1, 63, 64, 65, 128, 193, 255, 256):
        last, everyone, even = {count - 1}, set(range(count)), set(range(0, count, 2))
        free = (model.empty_marking(), Marking(set(), set(), everyone), Marking(everyone, everyone, everyone),
                Marking(everyone, everyone, set()), Marking(set(), last, last), Marking(everyone, set(), last),
                Marking(even, even, everyone), Marking(everyone - even, even, everyone - even))
        yield from all_calls(model.empty_chart(count), free if count == 256 else rng.sample(free, 2))
        # the last event holds all others back, as condition until it ran, as milestone while it is pending
        held = model.empty_chart(count)
        for e in everyone - last:
            held.conditions[e] |= last
            held.milestones[e] |= last
        held_markings = [Marking(executed, pending, everyone) for executed in (set(), last) for pending in (set(), last)]
        yield from all_calls(held, held_markings if count in (64, 256) else rng.sample(held_markings, 2))
    yield from all_calls(small_flat(), (
        model.empty_marking(), Marking({0, 2}, set(), {3}), Marking({0, 2}, set(), {1, 3}), Marking(set(), {0}, {1}),
        Marking(set(), {0}, {0, 1}), Marking({0, 1, 2}, {2}, {0, 1, 2, 3})))


def derive_causes(rng):
    """Room of every kind around what is needed."""
    own = model.empty_chart(1)
    own.responses[0].add(0)
    named = with_roles(small_flat(), {0: {0}, 3: range(8)})  # books carry no roles
    assert model.derived_book(named) == model.derived_book(small_flat())
    for chart in (model.empty_chart(1), own, small_flat(), named, model.read_chart(model.PAPER_CHART)[1], random_flat(rng, 9, 0.4), random_flat(rng, 70, 0.05)):
        needed = len(book_image(model.derived_book(chart)))
        for room in (0, 31, needed - 1):
            yield plain(15, needed), derive_request(room, chart)
        for room in (needed, needed + 1000):
            yield GRANTED, derive_request(room, chart)


# ---- books

def sound_small():
    """Three stages, eight marks, four rules, two conditions; it has no fault."""
    return Book(3, 8, [on_completion(0, SET, 3), on_completion(1, CLEAR, 3), without_trigger(1, 0, SET, 4),
                       Rule(BECOME_YES, 2, CLEAR, 0, 4, 1, 5)], [(0, 2), (2, 3)], [3, NOT, 3, 4, OR])


INDEX_OF_SMALL = model.index_image(sound_small())


def passing(book, stage=0):
    """The check of a book that has no fault, with room just enough for the stage's rules."""
    return GRANTED, check_request(len(model.counted(book, stage)), stage, book_image(book))


def stageless(book):
    """A book without stages passes for none, whatever its rules and its room."""
    assert book.stages == 0
    return plain(29), check_request(len(book.rules), 0, book_image(book))


def book_calls(rng, answer, image, rules):
    """The check, the completions, the building of an index and the reader of derived books give codes 20 to 26 alike."""
    yield answer, check_request(rng.choice((0, rules, rules + 3)), rng.choice((0, 1, 2, 64, 256, HUGE)), image)
    snapshot = random_snapshot(rng, rng.choice((8, MAX_MARKS)))
    order = [rng.randrange(rules + 2) for _ in range(rng.choice((0, rules, rules + 1)))]
    yield answer, complete_request(rng.choice((0, 1, 64, 256, HUGE)), snapshot, order, image)
    yield answer, index_request(rng.choice((0, 8, 100, 1000)), image)
    index = rng.choice((b'', INDEX_OF_SMALL, rng.randbytes(8)))
    yield answer, indexed_request(rng.choice((0, 1, 64, 256, HUGE)), snapshot, index, image)
    yield answer, list_request(snapshot, [rng.choice((0, 1, 64, 256, HUGE))] * rng.choice((0, 1, 3)), index, image)
    yield answer, back_request(image)


def of_text(rng, answer, words, marks):
    """One condition's text through both calls; a good one is also evaluated."""
    image = book_image(Book(1, marks + 1, [without_trigger(1, 0, SET, marks)], [(0, len(words))], words))
    if answer != GRANTED:
        yield from book_calls(rng, answer, image, 1)
    else:
        yield answer, check_request(1, 0, image)
        yield answer, complete_request(0, snapshot_of({0} | some(rng, range(marks), 0.5)), [0], image)


def book_header_causes(rng):
    """Codes 20, 21 and 22."""
    image = book_image(sound_small())
    for length in (0, 1, 4, 8, 16, 30, 31):
        yield from book_calls(rng, plain(20), image[:length], 4)
    for field, numbers in ((0, (257, 1024 + 1, 65536, HUGE, 9)), (1, (2, 0, 1025, 65536 + 8, HUGE)), (2, (131841, 131072 + 65536 + 4, HUGE)),
                           (3, (1025, 65536 + 2, HUGE)), (4, (655617, 1 << 20, HUGE))):
        for number in numbers:
            yield from book_calls(rng, plain(21), with_number32(image, 4 * field, number), 4)
            yield from book_calls(rng, plain(21), with_number32(image[:32], 4 * field, number), 4)
    for stages, marks in ((257, 257), (257, 1024), (1024, 1024), (256, 1025), (8, 1025), (256, 255)):  # too many stages, or marks, and nothing else wrong
        changed = with_number32(with_number32(image, 0, stages), 4, marks)
        yield from book_calls(rng, plain(21), changed, 4)
    for stages, marks in ((65, 65), (64, 257), (255, 256), (256, 256), (256, 1023), (256, 1024), (3, 1024)):
        for stage in (0, stages - 1):
            yield passing(sound_small()._replace(stages=stages, marks=marks), stage)
        yield plain(29), check_request(100, stages, book_image(sound_small()._replace(stages=stages, marks=marks)))
    for field, right in ((5, 32), (6, 72), (7, 88)):
        for number in (0, right - 1, right + 1, right + 65536, HUGE, right + (1 << 31)):
            yield from book_calls(rng, plain(22), with_number32(image, 4 * field, number), 4)
    for field, numbers in ((2, (0, 3, 5, 8384, 8385, 65536 + 4, 131840)), (3, (0, 1, 3, 256, 257, 1024)), (4, (0, 4, 6, 41024, 41025, 65536 + 5, 655616))):
        for number in numbers:
            yield from book_calls(rng, plain(22), with_number32(image, 4 * field, number), 4)
    for wrong in (image[:-1], image[:-2], image[:32], image + b'\0', image + b'\0\0'):
        yield from book_calls(rng, plain(22), wrong, 4)


def rule_causes(rng):
    """Code 23 in each of its ways; a bad condition beside it waits."""
    good = on_completion(0, SET, 3)
    wrong = [good._replace(**change) for change in (
        dict(trigger=4), dict(trigger=255), dict(sense=3), dict(sense=255), dict(effect=2), dict(effect=255), dict(zero=1),
        dict(zero=255), dict(number=3), dict(number=8), dict(number=256), dict(number=65535), dict(target=8),
        dict(target=256), dict(target=65535), dict(condition=1), dict(condition=256), dict(condition=65535),
        dict(sense=1, condition=2), dict(sense=2, condition=256), dict(sense=1, condition=65535),
        dict(trigger=0, number=1), dict(trigger=0, number=256), dict(trigger=0, number=65535),
        dict(trigger=2, number=8), dict(trigger=3, number=8), dict(trigger=2, number=256), dict(trigger=3, number=65535), dict(target=1024),
        dict(trigger=2, number=1024))]
    small = sound_small()
    for bad in wrong:
        place = rng.randrange(5)
        rules = small.rules[:place] + [bad] + rng.choice(([], small.rules[place:], small.rules[place:] + [rng.choice(wrong)]))
        conditions = rng.choice((small.conditions, [(0, 0), (9, 9)]))
        yield from book_calls(rng, plain(23, place), book_image(small._replace(rules=rules, conditions=conditions)), len(rules))
    # what just exists
    for edge in (good._replace(number=2), good._replace(target=7), Rule(2, 0, 1, 0, 7, 0, 6), Rule(3, 0, 1, 0, 7, 0, 6),
                 Rule(0, 1, 1, 0, 0, 1, 7)):
        yield passing(small._replace(rules=[edge]))
    none = Book(0, 0, [], [], [])
    for rule in (Rule(0, 0, 1, 0, 0, 0, 0), Rule(1, 0, 1, 0, 0, 0, 0), Rule(2, 0, 1, 0, 0, 0, 0), Rule(0, 1, 1, 0, 0, 0, 0)):
        yield from book_calls(rng, plain(23, 0), book_image(none._replace(rules=[rule])), 1)
        with_text = none._replace(rules=[rule], conditions=[(0, 1)], words=[0])
        yield from book_calls(rng, plain(23, 0), book_image(with_text), 1)
    for rule in (on_completion(0, SET, 0), without_trigger(1, 0, SET, 0)):
        yield from book_calls(rng, plain(23, 0), book_image(Book(0, 1, [rule], [], [])), 1)
    # the highest stage, mark and condition of all, and what would be the next
    most = Book(256, 1024, [], [(c, 1) for c in range(1024)], list(range(1023)) + [0])
    for rule, past in ((on_completion(255, SET, 3), dict(number=256)), (on_completion(255, SET, 1023), dict(target=1024)),
                       (Rule(BECOME_YES, 0, CLEAR, 0, 1023, 0, 6), dict(number=1024)), (Rule(BECOME_NO, 0, CLEAR, 0, 1023, 0, 6), dict(number=1024)),
                       (without_trigger(1, 1023, SET, 1023), dict(condition=1024))):
        yield passing(most._replace(rules=[rule]), 255)
        few = most._replace(rules=[rule, rule._replace(**past)])
        yield plain(23, 1), check_request(2, 0, book_image(few if rule.sense else few._replace(conditions=[], words=[])))


def condition_causes(rng):
    """Code 24 in each of its ways. Conditions that no rule uses are judged; words in no condition are not."""
    marks = 8
    long = [3] + [4, AND] * 20

    def case(answer, conditions, words):
        rules = rng.choice(([], [without_trigger(1, 0, SET, 6)]))
        return book_calls(rng, answer, book_image(Book(3, marks, rules, conditions, words)), len(rules))

    width = len(long)
    for span in ((0, 0), (width, 0), (HUGE, 0), (0, width + 1), (1, width), (width, 1), (width + 1, 1), (HUGE, 1), (HUGE, 2),
                 (HUGE, HUGE), (1, HUGE), (2, HUGE), (HUGE - 5, 7), (1 << 31, 1 << 31), ((1 << 31) + 1, 1 << 31),
                 (0, HUGE), (65536, 1), (0, 65536 + 1)):
        yield from case(plain(24, 0), [span], long)
        yield from case(plain(24, 1), [(0, 1), span, (0, 0)], long)
    for words in ([marks], [256], [1024], [65532], [3, marks, AND], [marks, NOT], [32768], [3, 65532, OR],
                  [AND], [OR], [NOT], [3, AND], [3, OR], [AND, 3], [NOT, 3], [3, 4, AND, OR], [3, NOT, AND], [OR, 3, 4],
                  [3, 4], [3, 4, 5, AND], [3, NOT, 4], [3, 3, NOT]):
        place = rng.randrange(3)
        good = [(len(words), 1)]
        yield from case(plain(24, place), good * place + [(0, len(words))] + good * rng.randrange(3), words + [0])
    for joins in ([[AND]], [[OR]], [[AND], [OR]], [[OR], [NOT, AND], [AND, NOT, NOT]]):
        for held, answer in ((16, GRANTED), (17, plain(24, 0)), (18, plain(24, 0)), (40, plain(24, 0))):
            words = [rng.randrange(marks) for _ in range(held)]
            for _ in range(held - 1):
                words += rng.choice(joins)
            yield from of_text(rng, answer, words, marks)
    sixteen = [0] * 16
    yield from of_text(rng, GRANTED, sixteen + [AND, 0] * 9 + [AND] * 15, marks)  # sixteen again and again
    yield from of_text(rng, plain(24, 0), sixteen + [NOT, 0, AND] + [AND] * 15, marks)
    # words that lie in no condition
    yield passing(Book(1, 1, [], [(1, 1)], [AND, 0, 60000, 65532]))
    yield stageless(Book(0, 0, [], [], [AND, 0, 60000, 65532]))
    yield from book_calls(rng, plain(24, 0), book_image(Book(0, 0, [], [(0, 1)], [0])), 0)
    # overlapping, nested, equal
    yield passing(Book(1, 5, [], [(0, 5), (0, 1), (1, 1), (1, 2), (0, 4), (0, 5)], [3, 4, NOT, OR, NOT]))
    for marks, word, answer in ((1024, 1023, GRANTED), (1024, 1024, plain(24, 0)), (1023, 1023, plain(24, 0)), (257, 256, GRANTED), (256, 256, plain(24, 0))):
        yield answer, check_request(0, 0, book_image(Book(1, marks, [], [(0, 3)], [0, word, OR])))
    every = Book(1, 1, [], [(c % 2, 1) for c in range(1024)], [0, 0])
    yield passing(every)
    for c in (0, 255, 256, 1023):
        conditions = every.conditions[:c] + [(0, 2)] + every.conditions[c + 1:]
        yield plain(24, c), check_request(0, 0, book_image(every._replace(conditions=conditions)))
    parts = Book(0, 5, [], [(0, 4), (0, 1), (1, 2), (2, 2)], [3, 4, NOT, OR])
    yield from book_calls(rng, plain(24, 3), book_image(parts), 0)


def of_used_marks(rules):
    """Rules whose condition m is to be mark m: the rules, conditions and words of a book that has a text for no other mark."""
    used = sorted({rule.condition for rule in rules if rule.sense})
    closed_up = [rule._replace(condition=used.index(rule.condition)) if rule.sense else rule for rule in rules]
    return closed_up, [(place, 1) for place in range(len(used))], used


def loop_causes(rng):
    """Code 25: through conditions and become triggers, of any length, with the lowest mark named."""
    def case(answer, stages, marks, rules, conditions=(), words=()):
        return book_calls(rng, answer, book_image(Book(stages, marks, rules, list(conditions), list(words))), len(rules))

    yield from case(plain(25, 0), 1, 1, [without_trigger(2, 0, SET, 0)], [(0, 1)], [0])  # P9
    for trigger in (BECOME_YES, BECOME_NO):
        for effect in (CLEAR, SET):
            yield from case(plain(25, 2), 1, 3, [Rule(trigger, 0, effect, 0, 2, 0, 2)])
            yield from case(plain(25, 1), 1, 3, [Rule(trigger, 0, effect, 0, 2, 0, 1), Rule(trigger, 0, effect, 0, 1, 0, 2)])
            chain = [Rule(trigger, 0, effect, 0, 2, 0, 1), Rule(trigger, 0, effect, 0, 1, 0, 0)]
            yield passing(Book(1, 3, chain, [], []))
    # a completion refers to nothing: no loop, though stage 0 is targeted
    yield passing(Book(1, 2, [on_completion(0, SET, 1), Rule(0, 1, SET, 0, 0, 0, 0)], [(0, 1)], [1]))
    yield passing(Book(1, 1, [on_completion(0, CLEAR, 0)], [], []))
    # rules that hang off the loop 4, 5: before it (0 to 4) and behind it (5 to 1)
    hanging = [Rule(2, 0, 1, 0, 0, 0, 4), Rule(2, 0, 1, 0, 5, 0, 1), Rule(2, 0, 1, 0, 4, 0, 5), Rule(3, 0, 1, 0, 5, 0, 4),
               Rule(3, 0, 1, 0, 1, 0, 2)]
    for _ in range(4):
        rng.shuffle(hanging)
        yield from case(plain(25, 4), 1, 8, hanging)
    yield from case(plain(25, 3), 1, 8, hanging + [Rule(2, 0, 1, 0, 7, 0, 3), Rule(2, 0, 1, 0, 3, 0, 7)])  # two loops
    # a loop through the last word of a text, also where the mark does not matter to its value
    yield from case(plain(25, 1), 1, 4, [without_trigger(1, 0, SET, 1)], [(0, 9)], [2, 2, NOT, OR, 3, OR, 1, OR, NOT])
    # the condition is there but no rule uses it; a rule with the same text through another record does
    yield passing(Book(1, 2, [Rule(0, 0, 1, 0, 0, 0, 1)], [(0, 1)], [1]))
    yield from case(plain(25, 1), 1, 2, [without_trigger(1, 1, SET, 1)], [(0, 1), (1, 1)], [0, 1])
    yield from case(plain(25, 1), 1, 2, [without_trigger(2, 1, CLEAR, 1)], [(0, 1), (0, 3)], [0, 1, AND])
    # code 25 comes before 26
    fighting = [on_completion(0, SET, 0), on_completion(0, CLEAR, 0)]
    yield from case(plain(25, 1), 1, 2, fighting + [Rule(2, 0, 1, 0, 1, 0, 1)])
    # rings of the highest marks, one rule after the other through triggers, through conditions, and through both by turns
    marks = range(MAX_MARKS)

    def through_trigger(mark, target):
        return Rule(rng.choice((BECOME_YES, BECOME_NO)), 0, SET, 0, mark, 0, target)

    def through_condition(mark, target):
        return Rule(rng.choice((0, COMPLETED)), rng.choice((1, 2)), SET, 0, 0, mark, target)

    for length in (1, 2, 3, 4, 5, 10, 64, 65, 129, 256, 1023, 1024):
        for ways in ((through_trigger,), (through_condition,), (through_trigger, through_condition)):
            ring = rng.sample(marks[-length:], length)
            rules = [ways[i % len(ways)](ring[i - 1], mark) for i, mark in enumerate(ring)]
            opened = [rule for rule in rules if rule.target != MAX_MARKS - 1]
            looping, lowest = Book(1, MAX_MARKS, *of_used_marks(rng.sample(rules, length))), plain(25, MAX_MARKS - length)
            if length < 200:
                yield from book_calls(rng, lowest, book_image(looping), length)
            else:
                yield lowest, check_request(0, 0, book_image(looping))
            yield passing(Book(1, MAX_MARKS, *of_used_marks(rng.sample(opened, length - 1))))
            if length < 100:  # rules that lead into the ring, and rules that it leads to, two deep
                hanging = [rng.choice(ways)(mark, target) for mark, target in (
                    (0, 5), (5, ring[0]), (6, ring[-1]), (ring[1 % length], 3), (ring[0], 1), (1, 2), (6, 7))]
                rules, opened = rules + hanging, opened + hanging
                yield from case(lowest, 1, MAX_MARKS, *of_used_marks(rng.sample(rules, len(rules))))
                yield passing(Book(1, MAX_MARKS, *of_used_marks(rng.sample(opened, len(opened)))))


def on_if(stage, condition, target, effect=SET, sense=1):
    """On the completion of a stage, under a condition."""
    return Rule(COMPLETED, sense, effect, 0, stage, condition, target)


def bare(rule):
    """The rule without its trigger."""
    return rule._replace(trigger=0, number=0)


def of_ten_marks(stages, rules):
    """A book of ten marks in which condition m is mark m."""
    return Book(stages, 10, rules, [(mark, 1) for mark in range(10)], list(range(10)))


def pass_for_all(rng, book):
    """The check and a completion of each stage, and the check of the one past the last."""
    for stage in range(book.stages):
        yield passing(book, stage)
        snapshot = snapshot_of(set(range(book.stages)) | some(rng, range(book.marks), 0.5))
        yield GRANTED, complete_request(stage, snapshot, model.running_order(book, stage), book_image(book))
    yield plain(29), check_request(10000, book.stages, book_image(book))


def loop_for_all(rng, mark, book):
    """25 and its place do not depend on the stage asked for, nor on whether there is such a stage."""
    image, rules = book_image(book), len(book.rules)
    for stage in list(range(book.stages)) + [book.stages, HUGE]:
        yield plain(25, mark), check_request(rng.choice((0, rules)), stage, image)
        order = rng.choice((model.counted(book, stage), list(range(rules))))
        yield plain(25, mark), complete_request(stage, snapshot_of(range(book.marks)), order, image)


def stage_loop_causes(rng):
    """Code 25 within one completion: which rules count for a stage."""
    # the request's own: A and B are stages 0 and 1, b and c marks 2 and 3
    a, b = on_if(0, 2, 3), on_if(1, 3, 2)
    yield from pass_for_all(rng, of_ten_marks(2, [a, b]))
    yield from pass_for_all(rng, of_ten_marks(2, [b, a]))
    for pair in ([bare(a), b], [a, bare(b)], [bare(a), bare(b)], [a, b._replace(number=0)], [a._replace(number=1), b]):
        yield from loop_for_all(rng, 2, of_ten_marks(2, pair))
        yield from loop_for_all(rng, 2, of_ten_marks(2, pair[::-1]))
    for kind in (BECOME_YES, BECOME_NO):  # a rule that waits for a mark counts for every stage too
        yield from loop_for_all(rng, 2, of_ten_marks(2, [a, Rule(kind, 0, SET, 0, 3, 0, 2)]))
        yield from loop_for_all(rng, 2, of_ten_marks(2, [a, Rule(kind, 1, SET, 0, 9, 3, 2)]))
        yield from pass_for_all(rng, of_ten_marks(2, [a, b, Rule(kind, 0, SET, 0, 3, 0, 4)]))
    # three stages around: no two of them meet in one completion; a rule that closes the circle in one of them does
    around = [on_if(0, 5, 6), on_if(1, 6, 7), on_if(2, 7, 5)]
    yield from pass_for_all(rng, of_ten_marks(3, around))
    for stage in range(3):
        closing = [rule._replace(number=stage) for rule in around]
        yield from loop_for_all(rng, 5, of_ten_marks(3, closing))
        yield from pass_for_all(rng, of_ten_marks(3, closing[:2] + [around[2]._replace(number=(stage + 1) % 3)]))
        yield from loop_for_all(rng, 5, of_ten_marks(3, rng.sample(around + closing, 6)))
    # a completion's own mark, and completions without a condition, which refer to nothing
    yield from loop_for_all(rng, 8, of_ten_marks(2, [on_if(1, 8, 8)]))
    without = [on_completion(0, SET, 2), on_completion(1, SET, 2), on_completion(1, SET, 3)]
    yield from pass_for_all(rng, of_ten_marks(2, [a] + without))


def looping_stage_causes(rng):
    """Code 25: the lowest mark over all stages, and loops in the last of 256 stages alone."""
    high, low = [on_if(0, 7, 8), on_if(0, 8, 7)], [on_if(3, 4, 5), on_if(3, 5, 4)]
    yield from loop_for_all(rng, 7, of_ten_marks(4, high))
    yield from loop_for_all(rng, 4, of_ten_marks(4, high + low))
    yield from loop_for_all(rng, 4, of_ten_marks(4, low + high))
    yield from loop_for_all(rng, 2, of_ten_marks(4, low + high + [Rule(BECOME_YES, 0, SET, 0, 2, 0, 2)]))
    yield from loop_for_all(rng, 4, of_ten_marks(4, low + [Rule(BECOME_YES, 0, SET, 0, 9, 0, 9)]))
    # rules that hang off: a mark of another stage's completion leads into the loop and is lower, but on none
    yield from loop_for_all(rng, 7, of_ten_marks(4, high + [on_if(1, 8, 6), on_if(0, 6, 5), on_if(2, 5, 7), on_if(0, 4, 7)]))
    ring = [on_if(255, m, m + 1) for m in range(8)]
    yield from pass_for_all(rng, of_ten_marks(10, [rule._replace(number=p) for p, rule in enumerate(ring + [on_if(0, 8, 0)])]))
    wide = of_ten_marks(256, ring + [on_if(255, 8, 0)])._replace(marks=1024)
    for stage in (0, 1, 63, 64, 254, 255, 256):
        yield plain(25, 0), check_request(9, stage, book_image(wide))
        yield passing(wide._replace(rules=ring + [on_if(254, 8, 0)]), min(stage, 255))


def whole_book_causes(rng):
    """Without stages there is no loop, and every check gives 29. Clashes stay over the whole book, whatever stage is asked for."""
    for trigger in (BECOME_YES, BECOME_NO):
        yield stageless(Book(0, 3, [Rule(trigger, 0, SET, 0, 2, 0, 2)], [], []))
    alone = Book(0, 1, [without_trigger(2, 0, SET, 0)], [(0, 1)], [0])
    yield stageless(alone)
    for order in ([], [0], [0, 0]):
        yield plain(29), complete_request(0, snapshot_of(()), order, book_image(alone))
    clash = Book(0, 1, [Rule(0, 0, SET, 0, 0, 0, 0), Rule(0, 0, CLEAR, 0, 0, 0, 0)], [], [])
    yield plain(26, 0, 1), check_request(0, 0, book_image(clash))
    for first, second in ((on_if(0, 5, 4), on_if(0, 6, 4, CLEAR)), (on_completion(0, SET, 4), bare(on_if(0, 6, 4, CLEAR)))):
        fight = book_image(of_ten_marks(2, [on_if(1, 3, 2), on_if(0, 2, 3), first, second]))
        for stage in (0, 1, 2):
            yield plain(26, 2, 3), check_request(0, stage, fight)
            yield plain(26, 2, 3), complete_request(stage, EVERY_MARK, [0], fight)


def clash_causes(rng):
    """Code 26: all pairs of triggers and senses, and the lowest pair."""
    def case(answer, rules, conditions=((0, 1), (1, 1), (0, 1)), words=(5, 6)):
        return book_calls(rng, answer, book_image(Book(4, 8, list(rules), list(conditions), list(words))), len(rules))

    triggers = ((0, 0), (1, 0), (1, 1), (2, 5), (2, 6), (3, 5), (3, 6))
    senses = ((0, 0), (1, 0), (2, 0), (1, 1), (2, 1), (1, 2), (2, 2))
    firsts = [(trigger, sense) for trigger in triggers for sense in senses]
    for (kind, number), (sense, condition) in firsts:
        one = Rule(kind, sense, SET, 0, number, condition, 4)
        opposite = ((one.trigger, one.number), (3 - one.sense, one.condition))
        for (kind, number), (sense, condition) in rng.sample(firsts, 4) + [opposite]:
            if sense > 2 or (sense == 0 and condition):
                continue
            two = Rule(kind, sense, CLEAR, 0, number, condition, 4)
            apart = (one.trigger == two.trigger == 1 and one.number != two.number) \
                or (one.condition == two.condition and {one.sense, two.sense} == {1, 2})
            pair = [one, two] if rng.random() < 0.5 else [two, one]
            if apart:
                yield passing(Book(4, 8, pair, [(0, 1), (1, 1), (0, 1)], [5, 6]))
            else:
                yield from case(plain(26, 0, 1), pair)
    yield passing(Book(2, 2, [on_completion(0, SET, 1), on_completion(1, CLEAR, 1)], [], []))  # P10
    both = Book(2, 2, [on_completion(0, SET, 1), on_completion(0, CLEAR, 1)], [], [])
    yield from book_calls(rng, plain(26, 0, 1), book_image(both), 2)
    # the same effect never clashes, nor do different targets
    yield passing(Book(1, 3, [on_completion(0, SET, 1)] * 2 + [on_completion(0, CLEAR, 2)], [], []))
    # the lowest first rule, then the lowest second
    quiet = [on_completion(1, SET, 7)]
    fight = [on_completion(0, SET, 4), on_completion(0, CLEAR, 4)]
    other = [on_completion(2, CLEAR, 3), without_trigger(0, 0, SET, 3)]
    yield from case(plain(26, 1, 3), quiet + [fight[0], other[0], fight[1], other[1]])
    yield from case(plain(26, 1, 4), quiet + [other[0], fight[0], fight[1], other[1]])
    yield from case(plain(26, 0, 2), [fight[0], fight[0], fight[1], fight[1]])
    yield from case(plain(26, 2, 3), quiet * 2 + [fight[1], fight[0], fight[0]])
    # in a row of completions of different stages the one that repeats a stage clashes
    row = [on_completion(0, SET, 4), on_completion(1, CLEAR, 4), on_completion(2, SET, 4), on_completion(3, CLEAR, 4)]
    yield passing(Book(4, 8, row, [], []))
    yield from case(plain(26, 2, 4), row + [on_completion(2, CLEAR, 4)])
    yield from case(plain(26, 1, 4), row + [on_completion(1, SET, 4)])
    yield from case(plain(26, 1, 4), row + [without_trigger(0, 0, SET, 4)])
    # the last mark, the last stages, the last conditions
    high = Book(256, 1024, [on_completion(e, e % 2, 1023) for e in range(256)], [(0, 1)] * 1024, [7])
    yield passing(high, 255)
    yield plain(26, 255, 256), check_request(0, 0, book_image(high._replace(rules=high.rules + [on_completion(255, CLEAR, 1023)])))
    for condition, answer in ((1023, GRANTED), (1022, plain(26, 0, 1)), (767, plain(26, 0, 1))):
        rules = [without_trigger(1, 1023, SET, 1023), without_trigger(2, condition, CLEAR, 1023)]
        yield answer, check_request(2, 255, book_image(high._replace(rules=rules)))


def order_causes(rng):
    """Codes 29, 27, 28 and 30 in their order, on a sound book. Rules 0, 2, 3 count for stage 0, rules 1, 2, 3 for 1, rules 2, 3 for 2."""
    book = sound_small()
    image, orders = book_image(book), ([0, 2, 3], [1, 2, 3], [2, 3])
    opened = snapshot_of(range(8))
    for stage, wrongs in ((0, ([], [0], [0, 2], [0, 2, 3, 3], [0, 2, 3, 4], [0, 2, 2], [0, 0, 3], [0, 2, 4], [0, 2, 65535], [256, 2, 3], [65536, 2, 3], [0, 65536 + 2, 3],
                               [0, 2, 131072 + 3], [1 << 31, 2, 3], [0, 2, HUGE],
                               [0, 3, 2], [2, 0, 3], [3, 2, 0],
                               [0, 1, 2, 3], [1, 0, 2, 3], [0, 2, 3, 1], [1, 2, 3], [2, 3], [0, 1, 2], [0, 2, 1], [0, 1, 3])),
                          (1, ([0, 1, 2, 3], [0, 2, 3], [2, 3], [1, 2, 0], [1, 3, 2], [1, 2, 3, 0], [1, 1, 2, 3])),
                          (2, ([0, 1, 2, 3], [0, 2, 3], [1, 2, 3], [2, 3, 0], [2, 1], [0, 1], [3, 2], [2], []))):
        for wrong in wrongs:
            yield plain(27), complete_request(stage, rng.choice((opened, EVERY_MARK, snapshot_of(()))), wrong, image)
        yield GRANTED, complete_request(stage, opened, orders[stage], image)
    for mark in (8, 9, 63, 64, 128, 254, 255, 256, 511, 512, 1022, 1023):
        snapshot = list(opened)
        snapshot[mark] = True
        stage = rng.randrange(3)
        snapshot[stage] = rng.random() < 0.5  # before 30
        yield plain(28), complete_request(stage, snapshot, orders[stage], image)
    for stage in (3, 4, 63, 64, 255, 256, 65536, 65536 + 1, 70000, 1 << 31, HUGE):
        for order in ([2, 3], [0, 1, 2, 3], []):  # before 27 and 28
            yield plain(29), complete_request(stage, rng.choice((opened, EVERY_MARK)), order, image)
        yield plain(29), complete_request(stage, snapshot_of(()), [2, 3], image)
    for stage in range(3):
        closed = snapshot_of(set(range(8)) - {stage})
        yield plain(30), complete_request(stage, closed, orders[stage], image)
    empty = book_image(Book(1, 1, [], [], []))
    yield GRANTED, complete_request(0, snapshot_of({0}), [], empty)  # P11
    yield plain(27), complete_request(0, snapshot_of({0}), [0], empty)
    pair = book_image(Book(2, 2, [on_completion(0, SET, 1), on_completion(1, CLEAR, 1)], [], []))
    yield plain(27), complete_request(0, snapshot_of({0}), [0, 0], pair)  # P12
    yield plain(27), complete_request(0, snapshot_of({0}), [0, 1], pair)
    yield GRANTED, complete_request(0, snapshot_of({0}), [0], pair)
    for book in (Book(0, 0, [], [], []), Book(0, 256, [], [], []), Book(0, 1023, [], [], []), Book(0, 1024, [], [], []),
                 Book(0, 3, [Rule(2, 0, 1, 0, 0, 0, 1)], [], [])):
        for order in (list(range(len(book.rules))), [0, 1]):
            yield plain(29), complete_request(0, rng.choice((snapshot_of(()), EVERY_MARK)), order, book_image(book))
        yield stageless(book)
    for stages, marks in ((64, 64), (64, 256), (65, 257), (255, 1024), (256, 256), (256, 1024), (1, 1023), (1, 1024), (1, 1)):
        image = book_image(Book(stages, marks, [], [], []))
        everyone = snapshot_of(range(marks))
        yield GRANTED, complete_request(stages - 1, everyone, [], image)
        yield plain(29), complete_request(stages, everyone, [], image)


def order_room_causes(rng):
    """Codes 29 and 31 of the check: room against what counts for the stage asked for, not against the whole book."""
    small, lone = sound_small(), Book(2, 8, [on_completion(1, SET, 3)] * 5, [], [])
    for book, stage in ((small, 0), (small, 2), (lone, 0), (lone, 1), (sound_book(rng, 3, rules=12), rng.randrange(3))):
        needed, image = len(model.counted(book, stage)), book_image(book)
        for room in range(needed):
            yield plain(31, needed), check_request(room, stage, image)
        for room in (needed, needed + 1, len(book.rules), 100):
            yield GRANTED, check_request(room, stage, image)
        for past in (book.stages, book.stages + 1, 64, 256, 256 + stage, 65536, 65536 + stage, 1 << 31, HUGE):
            yield plain(29), check_request(0, past, image)  # before 31
            yield plain(29), check_request(rng.choice((needed, 100)), past, image)
    empty = book_image(Book(1, 1, [], [], []))
    yield GRANTED, check_request(0, 0, empty)
    yield GRANTED, check_request(5, 0, empty)
    clash = [on_completion(0, SET, 1), on_completion(0, CLEAR, 1)]
    for stage in (0, 1, 2):  # before 29 and 31
        yield plain(26, 0, 1), check_request(0, stage, book_image(Book(2, 2, clash, [], [])))


def pair_causes(rng):
    """Two or more refusals at once: the one that comes first is given."""
    image = chart_image([FREE, (9, 8), FREE], [])  # 3 before 4
    for wrong in (with_number16(image, 4, 9), with_number16(image, 6, 16), image[:-1], image + b'\0'):
        yield plain(3), read_request(wrong)
    for count in (257, 510):  # 5 before 7
        yield plain(5, 0), read_request(chart_image([(1, 0), (0, 0)] + [FREE] * count, []))
        yield plain(5, count), read_request(chart_image([FREE] * count + [(count + 1, 0), (count, 0)], []))
    fight, bad = [(0, 1, INCLUDE), (0, 1, EXCLUDE)], [(0, 2, CONDITION)]  # 8 beside a pair that gets both
    yield plain(8, 0), read_request(chart_image([FREE] * 2, bad + fight))
    yield plain(8, 2), read_request(chart_image([FREE] * 2, fight + bad))

    image = book_image(sound_small()._replace(rules=[on_completion(3, SET, 3)]))  # 22 before 23
    for wrong in (with_number32(image, 20, 33), with_number32(image, 24, 43), with_number32(image, 28, 59), image[:-1],
                  image + b'\0'):
        yield from book_calls(rng, plain(22), wrong, 1)
    loop, clash = [Rule(BECOME_YES, 0, SET, 0, 2, 0, 2)], [on_completion(0, SET, 1), on_completion(0, CLEAR, 1)]
    own_clash = [Rule(BECOME_NO, 0, effect, 0, 2, 0, 2) for effect in (CLEAR, SET)]
    bad_rule, two_left = [on_completion(1, SET, 1)], [(0, 2)]
    for answer, rules, conditions in (
            (plain(23, 1), loop + bad_rule, two_left), (plain(23, 2), clash + bad_rule, two_left),
            (plain(23, 0), bad_rule + clash + loop, []),
            (plain(24, 0), loop, two_left), (plain(24, 0), clash, two_left), (plain(24, 0), loop + clash, two_left),
            (plain(25, 2), loop + clash, []), (plain(25, 2), clash + loop, []), (plain(25, 2), own_clash, [])):
        yield from book_calls(rng, answer, book_image(Book(1, 3, rules, conditions, [0, 0])), len(rules))
        for stage in (0, 1):  # before 29 and 31
            yield answer, check_request(0, stage, book_image(Book(1, 3, rules, conditions, [0, 0])))

    image, order, wrong_order = book_image(sound_small()), [0, 2, 3], [0, 3, 2]
    opened, closed = snapshot_of(range(8)), snapshot_of(())
    past, past_and_closed = snapshot_of(range(9)), snapshot_of({1023})
    for snapshot in (past, past_and_closed):
        yield plain(27), complete_request(0, snapshot, wrong_order, image)
        yield plain(28), complete_request(0, snapshot, order, image)
    yield plain(27), complete_request(0, closed, wrong_order, image)
    for stage in (3, 70000, HUGE):  # 29 before 27, 28 and 30
        for snapshot in (opened, closed, past, past_and_closed):
            for listed in (order, wrong_order, [2, 3], [0, 1, 2, 3]):
                yield plain(29), complete_request(stage, snapshot, listed, image)


# ---- the index

def indexed_books(rng):
    """Sound books whose indexes differ in kind: stages for which no rule counts, also the first and the last, all rules counting for each,
    no rule, no stage, a derived book."""
    chart = random_flat(rng, 7, 0.3)
    return (sound_small(), Book(4, 8, [on_completion(1, SET, 3), on_completion(1, SET, 5), on_completion(2, CLEAR, 3)], [], []),
            Book(3, 4, [without_trigger(0, 0, SET, 3), Rule(BECOME_NO, 0, SET, 0, 3, 0, 2)], [], []), Book(256, 1024, [], [], []),
            Book(1, 1, [], [], []), Book(0, 0, [], [], []), Book(0, 3, [Rule(BECOME_YES, 0, SET, 0, 1, 0, 2)], [], []),
            model.derived_book(chart), sound_book(rng, 5, 12, 30), scattered(rng, sound_book(rng, 5, 12, 30)),
            model.derived_book(model.read_chart(model.PAPER_CHART)[1]))


def index_room_causes(rng):
    """Code 35: room in bytes around what is needed; a refusal writes nothing, and what lies behind the index stays."""
    for book in indexed_books(rng):
        image, needed = book_image(book), len(model.index_image(book))
        narrow = len(model.index_image(book, 2))  # what 16 bits a rule would need
        for room in sorted({0, 1, 7, 8, needed // 2, needed - 8, needed - 4, needed - 2, needed - 1, narrow} & set(range(needed))):
            yield plain(35, needed), index_request(room, image)
        for room in (needed, needed + 1, needed + 2, 2 * needed, needed + 1000):
            yield GRANTED, index_request(room, image)
    for image, answer in ((book_image(sound_small())[:31], plain(20)), (book_image(sound_small()) + b'\0', plain(22)),
                          (book_image(Book(2, 2, [on_completion(0, SET, 1), on_completion(0, CLEAR, 1)], [], [])), plain(26, 0, 1))):
        for room in (0, 1000):  # before 35
            yield answer, index_request(room, image)


def any_stage(rng, book):
    """A stage and a snapshot in which it is open, of a book that has stages."""
    stage = rng.randrange(book.stages)
    return stage, snapshot_of({stage} | some(rng, range(book.marks), 0.5))


def unfit_indexes(rng, book):
    """What is not the book's index: one number changed, one byte more or less, offsets by other counts, orders of other stages."""
    index, stages = model.index_image(book), book.stages
    yield from (index[:-1], index + b'\0', index + bytes(2), index + bytes(4), index[:-2], index[:-4], index * 2, b'', index[:8 + 8 * stages - 1], index[1:])
    if len(index) > 8 + 8 * stages:  # with 16 bits a rule, its offsets so or as they are
        narrow = model.index_image(book, 2)
        yield from (narrow, narrow + bytes(len(index) - len(narrow)), index[:8 + 8 * stages] + narrow[8 + 8 * stages:])
    for at in range(0, 8 + 8 * stages, 4):
        number = model.number32(index, at)
        for wrong in rng.sample((number + 1, number + 2, number ^ 1, number + 65536, number + (1 << 24), number ^ (1 << 31), HUGE), 3):
            yield with_number32(index, at, wrong)
        if number:
            yield with_number32(index, at, rng.choice((number - 1, 0)))
    entries = [8 + 8 * stage for stage in range(stages)]
    for base in (8, 8 + 8 * stages):  # offsets from behind S and R, or from where the orders begin
        moved = index
        for at in entries:
            moved = with_number32(moved, at, model.number32(moved, at) - base)
        if stages:
            yield moved
    for at in entries:
        if model.number32(index, at + 4) == 0:  # a stage for which no rule counts, without the offset at which its order would begin
            yield with_number32(index, at, 0)
    for at in range(8 + 8 * stages, len(index), 4):
        yield with_number32(index, at, model.number32(index, at) ^ rng.choice((1, 2, 256, 32768, 65536, 1 << 24, 1 << 31)))
    for at in range(8 + 8 * stages, len(index) - 4, 4):
        one, two = model.number32(index, at), model.number32(index, at + 4)
        if one != two:
            yield with_number32(with_number32(index, at, two), at + 4, one)


def unfit_index_causes(rng):
    """Code 34, whichever stage is completed: an order of another stage counts too."""
    for book in indexed_books(rng):
        image = book_image(book)
        wrongs = list(unfit_indexes(rng, book))
        for index in wrongs if len(wrongs) < 60 else rng.sample(wrongs, 60):
            stage, snapshot = any_stage(rng, book) if book.stages else (0, snapshot_of(()))
            yield plain(34), indexed_request(stage, snapshot, index, image)
    # each stage completed beside each stage's order out of running order: rules 0 and 1 may come in any order
    free = Book(3, 5, [without_trigger(0, 0, SET, 3), without_trigger(0, 0, SET, 4)], [], [])
    for stage in range(3):
        for other in range(3):
            at = 32 + 8 * other
            turned_round = with_number32(with_number32(model.index_image(free), at, 1), at + 4, 0)
            yield plain(34), indexed_request(stage, snapshot_of(range(5)), turned_round, book_image(free))
    # an index of another book: of other stages, of rules in another order, of one rule less
    small = sound_small()
    for other in (small._replace(stages=2), small._replace(rules=small.rules[::-1]), small._replace(rules=small.rules[:-1]),
                  small._replace(rules=[small.rules[0]._replace(number=2)] + small.rules[1:]), Book(3, 8, [], [], [])):
        for one, two in ((small, other), (other, small)):
            stage, snapshot = any_stage(rng, one)
            yield plain(34), indexed_request(stage, snapshot, model.index_image(two), book_image(one))
    # another book with the same index
    quiet = Book(256, 1024, [], [], [])  # an index of 16 bits a rule that lists none is the book's
    assert model.index_image(quiet, 2) == model.index_image(quiet)
    yield GRANTED, indexed_request(255, snapshot_of({255}), model.index_image(quiet, 2), book_image(quiet))
    stageless_rule = Book(0, 1, [without_trigger(0, 0, SET, 0)], [], [])
    yield plain(29), indexed_request(0, snapshot_of(()), model.index_image(stageless_rule, 2), book_image(stageless_rule))
    turned_effect = small._replace(rules=[small.rules[0]._replace(effect=CLEAR)] + small.rules[1:])
    yield GRANTED, indexed_request(0, snapshot_of(range(8)), model.index_image(small), book_image(turned_effect))


def indexed_causes(rng):
    """Codes 34, 28, 29 and 30 in their order; where nothing is refused, each stage of each book."""
    small = sound_small()
    image, index = book_image(small), model.index_image(small)
    opened, closed = snapshot_of(range(8)), snapshot_of(())
    for mark in (8, 9, 63, 64, 128, 255, 256, 512, 1022, 1023):
        for stage in (0, 2, 3, HUGE):  # before 29 and 30
            for snapshot in (opened, closed):
                past = list(snapshot)
                past[mark] = True
                yield plain(28), indexed_request(stage, past, index, image)
                yield plain(34), indexed_request(stage, past, rng.choice((index[:-1], b'', index + b'\0')), image)
    for stage in (3, 4, 63, 64, 255, 256, 65536, 65536 + 1, 70000, 1 << 31, HUGE):
        for snapshot in (opened, closed):
            yield plain(29), indexed_request(stage, snapshot, index, image)
            yield plain(34), indexed_request(stage, snapshot, index[:-2], image)
    for stage in range(3):
        yield plain(30), indexed_request(stage, snapshot_of(set(range(8)) - {stage}), index, image)
        yield plain(34), indexed_request(stage, closed, index[:8], image)
    for book in indexed_books(rng):
        image, index = book_image(book), model.index_image(book)
        full = snapshot_of(range(book.marks))
        yield plain(29), indexed_request(book.stages, full, index, image)
        for stage in range(book.stages) if book.stages < 20 else (0, 63, 64, 128, 254, 255):
            assert model.complete_indexed(image, index, full, stage)[:2] == model.complete(image, model.running_order(book, stage), full, stage)
            yield GRANTED, indexed_request(stage, full, index, image)
            yield GRANTED, indexed_request(stage, snapshot_of({stage}), index, image)
        if book.marks < MAX_MARKS:
            yield plain(28), indexed_request(rng.choice((0, book.stages)), EVERY_MARK, index, image)


# ---- lists

def lasting():
    """Three stages that stay open, and a fourth that the second closes and the third opens. Mark 4 is set by the completion of 0 and cleared
    by that of 1; mark 5 is set where it became yes, mark 6 where it became no; stage 2 clears both."""
    rules = [on_completion(0, SET, 4), on_completion(1, CLEAR, 4), Rule(BECOME_YES, 0, SET, 0, 4, 0, 5), Rule(BECOME_NO, 0, SET, 0, 4, 0, 6),
             on_completion(1, CLEAR, 3), on_completion(2, SET, 3), Rule(BECOME_YES, 0, SET, 0, 3, 0, 7)]
    return Book(4, 8, rules, [], [])


def list_causes(rng):
    """Codes 29 and 30 within a list, with the place and the snapshot reached; what is granted whole."""
    book = lasting()
    image, index, opened = book_image(book), model.index_image(book), snapshot_of(range(4))
    for answer, stages in ((GRANTED, []), (GRANTED, [0]), (GRANTED, [3]), (GRANTED, [0, 1, 2]), (GRANTED, [0, 0, 0]), (GRANTED, [1, 2, 3]),
                           (GRANTED, [3, 1, 2, 3, 0]), (plain(30, 1), [1, 3]), (plain(30, 2), [0, 1, 3, 0]), (plain(30, 1), [1, 3, 9]),
                           (plain(30, 3), [1, 2, 1, 3, 2]), (plain(29, 0), [4]), (plain(29, 0), [HUGE, 0]), (plain(29, 1), [0, 4]),
                           (plain(29, 1), [1, 64, 3]), (plain(29, 2), [0, 1, 65536, 2]), (plain(29, 2), [0, 0, 256]),
                           (plain(29, 3), [0, 1, 2, 1 << 31]), (plain(29, 1), [2, 70000, 3])):
        granted, *reached = in_turn(image, index, opened, stages)
        assert model.complete_list(image, index, opened, stages) == (answer, granted, *reached) and granted == (answer[1] if answer[0] else len(stages))
        yield answer, list_request(opened, stages, index, image)
    closed = snapshot_of({3})
    yield plain(30, 0), list_request(snapshot_of(()), [0], index, image)
    yield plain(30, 1), list_request(closed, [3, 0, 3], index, image)
    yield plain(29, 0), list_request(snapshot_of(()), [4, 0], index, image)  # before 30
    # become yes and become no are judged against the start of each completion, not of the list: each mark below 8 at each start
    for marks in range(16):
        snapshot = snapshot_of(model.bits_of(15 + 16 * marks))
        for stages in ([0, 1], [1, 0], [0, 0], [1, 1], [0, 1, 0], [1, 0, 1], [1, 2, 1], [2, 1, 2]):
            yield GRANTED, list_request(snapshot, stages, index, image)


def list_order_causes(rng):
    """Codes 20 to 26, 34, 28 and 38 in their order, before the list and with none granted; the longest list, and one more."""
    book = lasting()
    image, index, opened = book_image(book), model.index_image(book), snapshot_of(range(4))
    above = snapshot_of({0, 1, 2, 3, 8, rng.choice((9, 255, 1023))})
    for stages in ([], [0], [9], [0, 3], [4] * (MAX_LIST + 1)):
        yield plain(28), list_request(above, stages, index, image)  # before 38, 29 and 30
        yield plain(34), list_request(rng.choice((above, opened)), stages, rng.choice((index[:-1], index + b'\0', b'')), image)
        yield plain(22), list_request(above, stages, index, image[:-1])
    for mark in (8, 9, 63, 64, 128, 255, 256, 512, 1022, 1023):
        yield plain(28), list_request(snapshot_of({0, 1, 2, 3, mark}), [0, 1], index, image)
    for wrong in rng.sample(list(unfit_indexes(rng, book)), 24):
        yield plain(34), list_request(opened, rng.choice(([], [0], [0, 1, 2])), wrong, image)
    yield GRANTED, list_request(opened, [rng.choice((0, 2)) for _ in range(MAX_LIST)], index, image)
    yield plain(29, 4095), list_request(opened, [2] * 4095 + [4], index, image)
    yield plain(30, 4095), list_request(snapshot_of(range(3)), [0] * 4095 + [3], index, image)
    yield plain(38, 4097), list_request(snapshot_of(()), [0] * 4097, index, image)  # before 30
    for length in (4097, 10000):
        yield plain(38, length), list_request(opened, [rng.choice((0, 4)) for _ in range(length)], index, image)  # before 29
    for none in (Book(0, 0, [], [], []), Book(0, 3, [Rule(BECOME_YES, 0, SET, 0, 1, 0, 2)], [], [])):
        for answer, stages in ((GRANTED, []), (plain(29, 0), [0]), (plain(38, MAX_LIST + 1), [0] * (MAX_LIST + 1))):
            yield answer, list_request(snapshot_of(range(none.marks)), stages, model.index_image(none), book_image(none))
    quiet = Book(256, 1024, [], [], [])
    for answer, stages in ((GRANTED, [255, 0, 64]), (plain(29, 1), [255, 256]), (plain(29, 0), [256 + 3])):
        yield answer, list_request(EVERY_MARK, stages, model.index_image(quiet), book_image(quiet))
    for book in indexed_books(rng):
        full = snapshot_of(range(book.marks))
        yield None, list_request(full, list(range(book.stages)), model.index_image(book), book_image(book))
        yield None, list_request(full, list(range(book.stages)) * 2, model.index_image(book), book_image(book))


def evaluated_causes(rng):
    """How many rules were evaluated: those of the stage's order, whether they fire or not; 0 for a refused completion, and for a list the
    sum over the granted ones."""
    def of_stage(book, stage, snapshot, evaluated, answer=GRANTED):
        image, index = book_image(book), model.index_image(book)
        assert model.complete_indexed(image, index, snapshot, stage)[2] == evaluated
        yield answer, indexed_request(stage, snapshot, index, image)

    def of_list(book, snapshot, stages, evaluated, answer=GRANTED):
        image, index = book_image(book), model.index_image(book)
        assert model.complete_list(image, index, snapshot, stages)[3] == evaluated
        yield answer, list_request(snapshot, stages, index, image)

    # stages 0 to 3 have three, none, one and two rules of their own; two rules ask, as written and negated, whether 0 and 1 are open
    own = [on_completion(stage, SET, 6) for stage in (0, 0, 0, 2, 3, 3)]
    both = [without_trigger(1, 0, SET, 7), without_trigger(2, 0, CLEAR, 7), Rule(BECOME_NO, 0, SET, 0, 6, 0, 5)]
    quiet, asking = Book(4, 8, own, [], []), Book(4, 8, own + both, [(0, 3)], [0, 1, AND])
    for stage, count in enumerate((3, 0, 1, 2)):
        for marks in ([stage], range(4), range(8)):  # whichever rules fire
            snapshot = snapshot_of(marks)
            yield from of_stage(quiet, stage, snapshot, count)
            yield from of_stage(asking, stage, snapshot, count + 3)
        for answer, marks, asked in ((plain(30), [], stage), (plain(29), range(4), 4 + stage), (plain(28), range(9), stage)):
            yield from of_stage(asking, asked, snapshot_of(marks), 0, answer)
    opened, three = snapshot_of(range(4)), snapshot_of(range(3))
    for stages, count in (([], 0), ([1], 0), ([0], 3), ([0, 1, 2, 3], 6), ([3, 3, 0], 7)):
        yield from of_list(quiet, opened, stages, count)
        yield from of_list(asking, opened, stages, count + 3 * len(stages))
        yield from of_list(asking, opened, stages + [4, 0], count + 3 * len(stages), plain(29, len(stages)))
        if 3 not in stages:  # a closed stage is not counted, nor what stands behind it
            yield from of_list(asking, three, stages + [3, 0], count + 3 * len(stages), plain(30, len(stages)))
        yield from of_list(asking, EVERY_MARK, stages, 0, plain(28))
    for n in (1, 3):  # a derived book's most: 4n + 1
        chart = model.empty_chart(n)
        for e in range(n):
            rng.choice((chart.includes, chart.excludes))[0].add(e)
            chart.responses[0].add(e)
        yield from of_stage(model.derived_book(chart), 0, snapshot_of({0}), 4 * n + 1)
    many = Book(2, 8, [rng.choice((on_completion(0, SET, 5), without_trigger(0, 0, SET, 4))) for _ in range(100)], [], [])
    snapshot, bare_rules = snapshot_of({0, 1}), sum(rule.trigger == 0 for rule in many.rules)
    yield from of_list(many, snapshot, [0] * 4096, 409600)
    yield from of_list(many, snapshot, [0, 1] * 2047 + [2], 2047 * (100 + bare_rules), plain(29, 4094))


def running_order_causes(rng):
    """Books written against their order, where the scan has to go back."""
    for length in (2, 3, 7, 20):
        chain = [Rule(BECOME_YES, 0, SET, 0, m, 0, m + 1) for m in range(length)]
        for rules in (chain, chain[::-1], rng.sample(chain, length), chain[::-1] * 2, rng.sample(chain * 3, 3 * length)):
            book = Book(1, length + 1, rules, [], [])
            yield GRANTED, check_request(len(rules), 0, book_image(book))
            snapshot = snapshot_of({0})
            yield GRANTED, complete_request(0, snapshot, model.running_order(book, 0), book_image(book))
            # every third rule counts for stage 1 alone: what it would hold up is not held up in stage 0
            gaps = [on_completion(1, SET, rule.target) if rule.target % 3 == 2 else rule for rule in rules]
            for stage in (0, 1):
                yield passing(Book(2, max(2, length + 1), gaps, [], []), stage)
    chain = [Rule(BECOME_YES, 0, SET, 0, m, 0, m + 1) for m in range(MAX_MARKS - 1)]
    for rules in (chain[::-1], rng.sample(chain, len(chain))):
        yield passing(Book(256, MAX_MARKS, rules, [], []), 255)
    for _ in range(6):
        book = sound_book(rng, stages=2, marks=14, rules=40)
        for stage in (0, 1):
            yield passing(book, stage)
            yield GRANTED, complete_request(stage, snapshot_of(range(14)), random_order(rng, book, stage), book_image(book))


def firing_causes(rng):
    """What fires: each trigger kind and sense on each value of its marks, also marks that change twice or not at all."""
    for kind in (BECOME_YES, BECOME_NO):
        for was in (False, True):
            for effect in (CLEAR, SET):
                # mark 1 is set or cleared on completion of 0; mark 2 tells whether it became yes or no
                rules = [on_completion(0, effect, 1), Rule(kind, 0, SET, 0, 1, 0, 2), Rule(kind, 0, CLEAR, 0, 1, 0, 3)]
                for rest in (False, True):
                    snapshot = snapshot_of({0} | ({1} if was else set()) | ({2, 3} if rest else set()))
                    yield GRANTED, complete_request(0, snapshot, [0, 1, 2], book_image(Book(1, 4, rules, [], [])))
    for sense in (1, 2):
        for values in range(8):
            a, b, c = [values >> i & 1 == 1 for i in range(3)]
            for words in ([1, 2, AND], [1, 2, OR], [1, NOT], [1, 2, AND, 3, OR], [1, 2, 3, OR, AND],
                          [1, NOT, 2, OR, 3, AND, NOT]):
                rules = [without_trigger(sense, 0, SET, 4), without_trigger(3 - sense, 0, CLEAR, 4)]
                book = Book(1, 6, rules, [(0, len(words))], words)
                snapshot = snapshot_of({0} | {mark for mark, yes in ((1, a), (2, b), (3, c)) if yes} | some(rng, (4, 5), 0.5))
                yield GRANTED, complete_request(0, snapshot, [0, 1], book_image(book))
    # another stage's completion does not fire; a completed stage does not close by itself
    book = Book(2, 4, [on_completion(1, SET, 2), on_completion(0, SET, 3)], [], [])
    for stage in (0, 1):
        yield GRANTED, complete_request(stage, snapshot_of({0, 1}), [1 - stage], book_image(book))
    # a closing rule for the completed stage itself, and a rule that reads a mark settled before it
    rules = [on_completion(0, CLEAR, 0), Rule(BECOME_NO, 0, SET, 0, 0, 0, 1), without_trigger(2, 0, SET, 2)]
    book = Book(1, 3, rules, [(0, 1)], [1])
    yield GRANTED, complete_request(0, snapshot_of({0}), [0, 1, 2], book_image(book))


def mark_end_causes(rng):
    """Marks at both ends of each word of a snapshot, as stages, triggers, targets and in texts: which of them fire, and what they set and clear."""
    for mark in EDGES:
        other = rng.choice([m for m in EDGES if m != mark])
        rules = [on_completion(0, SET, mark), Rule(BECOME_YES, 0, CLEAR, 0, mark, 0, other), without_trigger(1, 0, SET, 1), without_trigger(2, 0, CLEAR, 1)]
        book = book_image(Book(1, MAX_MARKS, rules, [(0, 3)], [mark, other, AND]))
        for marks in ({0}, {0, mark}, {0, other}, {0, 1, mark, other}, set(range(MAX_MARKS)) - {mark}, set(range(MAX_MARKS))):
            yield GRANTED, complete_request(0, snapshot_of(marks), [0, 1, 2, 3], book)
        yield plain(28), complete_request(0, snapshot_of({0, mark}), [], book_image(Book(1, mark, [], [], [])))
        yield GRANTED, complete_request(0, snapshot_of({0, mark}), [], book_image(Book(1, mark + 1, [], [], [])))
    every_stage = Book(256, 256, [on_completion(e, CLEAR, e) for e in range(256)], [], [])
    for e in WORD_ENDS:
        yield GRANTED, complete_request(e, snapshot_of(range(256)), [e], book_image(every_stage))
        yield plain(30), complete_request(e, snapshot_of(set(range(256)) - {e}), [e], book_image(every_stage))
        yield plain(27), complete_request(e, snapshot_of(range(256)), [e ^ 64], book_image(every_stage))
        yield GRANTED, list_request(snapshot_of(range(256)), [e, e ^ 1], model.index_image(every_stage), book_image(every_stage))


def bad_requests(rng):
    """Unknown operations and bodies too short for their fields; the program goes on."""
    chart, start = model.empty_chart(1), model.empty_marking()
    yield plain(20), back_request(b'')
    for length in (1, 5, 8):
        yield BAD, mend_request(0, 0, b'')[:length]
    yield plain(1), mend_request(0, 0, b'')
    for operation in (b'\x00', b'\x13', b'\x20', b'\xff'):
        yield BAD, operation
        yield BAD, operation + rng.randbytes(20)
    whole = (execute_request(chart, start, 0, 0), count_request(chart, start), finished_request(chart, start),
             matching_request(chart, start), derive_request(100, chart), open_request(chart, start, 0), smaller_request(100, chart, start))
    for body in whole:
        yield BAD, body[:-1]
        yield BAD, body[:1]
        yield BAD, body[:rng.randrange(2, len(body))]
    yield BAD, whole[0][:-4]  # without the role
    for body in whole:
        yield BAD, body[:-MAX_EVENTS]  # as long as it would be without role bytes
        yield BAD, body[:1 + 4 + 5 * 64 * 8 + 64 + 3 * 8 + 8]  # as long as it was when a set was one number
    yield BAD, check_request(0, 0, b'')[:-1]
    yield BAD, check_request(0, 0, b'')[:5]  # without the stage
    yield BAD, b'\x07'
    yield BAD, b'\x08'
    start = 9 + SNAPSHOT_BYTES  # where an order or an index begins
    for body in (complete_request(0, snapshot_of(()), [1, 2, 3], b''), indexed_request(0, snapshot_of(()), bytes(8), b'')):
        for length in (len(body) - 1, start, start - 1, start - 4, 41, 1):
            yield BAD, body[:length]
    yield BAD, complete_request(0, snapshot_of(()), [1, 2, 3], b'')[:start + 6]  # 16 bits each
    body = list_request(snapshot_of(()), [1, 2, 3], bytes(8), b'')
    start = 5 + SNAPSHOT_BYTES  # where the stages begin
    for length in (1, 37, start - 1, start, start + 3, start + 11, start + 12, start + 15, start + 16, len(body) - 1):
        yield BAD, body[:length]
    yield plain(20), list_request(snapshot_of(()), [], b'', b'')
    yield plain(20), body
    yield BAD, b'\x09'
    yield BAD, index_request(0, b'')[:-1]
    yield plain(20), index_request(0, b'')
    yield plain(20), indexed_request(0, snapshot_of(()), b'', b'')
    yield plain(20), indexed_request(0, snapshot_of(()), bytes(8), b'')


def request_limits(rng):
    """The longest rooms, what is just past them, lengths that the body has not, and bytes behind the fields, which are not read."""
    chart, start, image = model.empty_chart(1), Marking(set(), set(), {0}), book_image(sound_small())
    yield GRANTED, derive_request(MAX_ROOM_BYTES, chart)
    yield GRANTED, smaller_request(MAX_ROOM_BYTES, chart, start)
    yield GRANTED, check_request(MAX_NUMBERS, 0, image)
    for past in (1, 1 << 20, HUGE - MAX_ROOM_BYTES):
        yield BAD, derive_request(MAX_ROOM_BYTES + past, chart)
        yield BAD, smaller_request(MAX_ROOM_BYTES + past, chart, start)
        yield BAD, check_request(MAX_NUMBERS + past, 0, image)
        yield BAD, index_request(MAX_ROOM_BYTES + past, image)
        yield BAD, mend_request(MAX_ROOM_BYTES + past, 0, model.PAPER_CHART)
        yield BAD, mend_request(100, MAX_ROOM_BYTES + past, model.PAPER_CHART)
    yield GRANTED, index_request(MAX_ROOM_BYTES, image)
    yield GRANTED, mend_request(MAX_ROOM_BYTES, MAX_ROOM_BYTES, model.PAPER_CHART)
    whole, length_at = indexed_request(0, snapshot_of({0}), INDEX_OF_SMALL, image), 5 + SNAPSHOT_BYTES
    yield GRANTED, whole
    for length in (len(INDEX_OF_SMALL) + len(image) + 1, 1 << 31, HUGE):
        yield BAD, with_number32(whole, length_at, length)
    yield plain(20), with_number32(whole, length_at, len(INDEX_OF_SMALL) + len(image))  # the book taken for a part of the index
    whole, count_at = list_request(snapshot_of({0}), [0, 0], INDEX_OF_SMALL, image), 1 + SNAPSHOT_BYTES
    yield GRANTED, whole
    for length in (MAX_NUMBERS + 1, 1 << 30, (1 << 30) + 2, HUGE):
        yield BAD, with_number32(whole, count_at, length)
    for length in (len(INDEX_OF_SMALL) + len(image) + 1, 1 << 31, HUGE):
        yield BAD, with_number32(whole, count_at + 12, length)
    for length in (4, MAX_NUMBERS + 1, (1 << 30) + 3, HUGE):
        yield BAD, with_number32(complete_request(0, snapshot_of({0}), [0, 2, 3], b''), length_at, length)
    bodies = [make(chart, start) for make in (count_request, finished_request, matching_request)] \
        + [execute_request(chart, start, 0, 0), open_request(chart, start, 0), derive_request(200, chart), smaller_request(200, chart, start)]
    for body in bodies:
        for behind in (1, 100):
            yield GRANTED, body + rng.randbytes(behind)


def long_requests(rng):
    """The longest order, list and body, and one number more."""
    image = book_image(sound_small())
    order = [0] * MAX_NUMBERS
    yield plain(27), complete_request(0, snapshot_of({0}), order, image)
    yield BAD, complete_request(0, snapshot_of({0}), order + [0], image)
    yield plain(38, MAX_NUMBERS), list_request(snapshot_of({0}), order, INDEX_OF_SMALL, image)
    yield BAD, list_request(snapshot_of({0}), order + [0], INDEX_OF_SMALL, image)
    filling = MAX_BODY - len(indexed_request(0, snapshot_of(()), b'', image))
    yield plain(34), indexed_request(0, snapshot_of({0}), INDEX_OF_SMALL + bytes(filling - len(INDEX_OF_SMALL)), image)


# ---- records

ALWAYS = (0, 0)  # a step that is allowed wherever it stands


def recorded_flat():
    """Six events: 2 is a condition of 3 and includes 5, which excludes 2; 1 is a milestone of 4, which names role 2 and makes 1 pending."""
    chart = model.empty_chart(6)
    chart.conditions[3].add(2)
    chart.milestones[4].add(1)
    chart.responses[4].add(1)
    chart.includes[2].add(5)
    chart.excludes[5].add(2)
    return with_roles(chart, {4: {2}})


def recorded_start():
    return Marking(set(), {1}, {0, 1, 2, 3, 4})


# each code of a step, from the start marking on, by each of its causes
STOPS = ((10, (6, 0)), (10, (64, 0)), (10, (256, 0)), (10, (65536, 0)), (10, (HUGE, HUGE)), (32, (0, 8)), (32, (4, 3)), (32, (5, 256)), (32, (3, HUGE)),
         (11, (5, 0)), (12, (3, 7)), (13, (4, 2)))
# a step that the one before it makes allowed, and its code without that one; and one that it forbids, with its code
NEEDS = ((12, (2, 0), (3, 0)), (11, (2, 1), (5, 1)), (13, (1, 0), (4, 2)))
FORBIDS = ((11, [(2, 0), (5, 0), (2, 0)], 1), (13, [(1, 0), (4, 2), (4, 2)], 1))


def of_replay(chart, start, record, steps, code, done):
    """A replay that is granted, with how far it is meant to go, the code there, and whether it is finished there."""
    meant = (GRANTED, steps, code, done)
    answer, told, stopped, marking, finished, blocks = model.replay(chart, start, record)
    assert (answer, told, stopped, finished) == meant and (blocks != model.NOTHING) == (code in (12, 13)), (record, meant)
    return GRANTED, replay_request(chart, start, record), 'stops with %d' % code


def replay_causes(rng):
    """How far a record is allowed: whole or to a step of each code, at each place in it, finished or not; an empty record."""
    chart, start = recorded_flat(), recorded_start()
    paid = Marking(set(), set(), start.included)
    for marking, done in ((start, False), (paid, True)):
        yield of_replay(chart, marking, [], 0, 0, done)
        for count in (1, 2, 7):
            yield of_replay(chart, marking, [ALWAYS] * count, count, 0, done)
    for code, bad in STOPS:
        for before, behind in ((0, 0), (0, 3), (3, 0), (2, 2)):
            yield of_replay(chart, start, [ALWAYS] * before + [bad] + [ALWAYS] * behind, before, code, False)
        if code != 13:
            yield of_replay(chart, start, [(1, 0), bad, (4, 2)], 1, code, True)
        yield of_replay(chart, start, [(2, 0), bad, bad], *((3, 0) if bad in ((5, 0), (3, 7)) else (1, code)), False)
    for code, need, step in NEEDS:
        yield of_replay(chart, start, [need, step], 2, 0, False)
        yield of_replay(chart, start, [step, need], 0, code, False)
    for code, record, _ in FORBIDS:
        yield of_replay(chart, start, record, 2, code, False)
    yield of_replay(chart, start, [(1, 0), (4, 2)], 2, 0, False)  # the last step makes 1 pending again
    yield of_replay(chart, start, [(1, 0), (4, 2), (1, 3), (2, 0)], 4, 0, True)
    for count in (64, 256):
        wide = model.empty_chart(count)
        everyone = Marking(set(), set(), set(range(count)))
        yield of_replay(wide, everyone, [(e, e % 8) for e in range(count)], count, 0, True)
        yield of_replay(wide, everyone, [(e, e % 8) for e in range(count + 2)], count, 10, True)


def strike_causes(rng):
    """Codes 36 and those of a step, before the struck position and behind it; what is granted."""
    chart, start = recorded_flat(), recorded_start()
    for record in ([], [ALWAYS], [ALWAYS] * 3, [(6, 0)], [(3, 0), (2, 0)]):
        for position in (len(record), len(record) + 1, len(record) + 65536, 1 << 31, HUGE):
            yield plain(36), strike_request(chart, start, position, record)  # before any step
    for code, bad in STOPS:
        for before, behind in ((0, 1), (1, 1)):
            record = [ALWAYS] * before + [bad] + [ALWAYS] * behind
            for position in range(len(record)):
                yield plain(code, before) if position != before else GRANTED, strike_request(chart, start, position, record)
        yield plain(code, 1), strike_request(chart, start, 2, [ALWAYS, bad, bad])  # the first of two, and the second once it is struck
        yield plain(code, 2), strike_request(chart, start, 1, [ALWAYS, bad, bad])
    for code, need, step in NEEDS:
        record = [ALWAYS, need, step]
        for position, answer in ((0, GRANTED), (1, plain(code, 2)), (2, GRANTED)):
            yield answer, strike_request(chart, start, position, record)
        yield plain(code, 3), strike_request(chart, start, 1, [ALWAYS, need, ALWAYS, step])
        yield GRANTED, strike_request(chart, start, 0, [step, need, step])  # not judged where it is struck
    for code, record, struck in FORBIDS:
        for position in range(3):
            answer = strike_request(chart, start, position, record)
            yield (GRANTED, answer) if position in (struck, 2) else (None, answer)
    for position in (0, 1, 64, 255):
        yield GRANTED, strike_request(model.empty_chart(256), Marking(set(), set(), set(EVERY_EVENT)), position, [(e, 7) for e in range(256)])


def unfit_record_causes(rng):
    """Code 14 by chart and by marking in both calls, before 36 and before any step."""
    records = ([], [(0, 0)], [(0, 8), (HUGE, 0)])
    makers = (lambda c, m: replay_request(c, m, rng.choice(records)),
              lambda c, m: strike_request(c, m, rng.choice((0, 1, 2, HUGE)), rng.choice(records)))
    for turn, (cause, charts) in enumerate(unfit_flats(rng)):
        for place, maker in enumerate(makers):
            for chart in in_turn_from(place + turn + 2, charts):
                yield plain(14), maker(chart, Marking({0}, {0}, {0}) if chart.count else model.empty_marking()), cause
    for part in range(3):
        for place, maker in enumerate(makers):
            for marking, count in in_turn_from(place + part + 2, unfit_markings(part)):
                yield plain(14), maker(small_flat() if count == 4 else model.empty_chart(count), marking), 'marking %d' % part


def record_limits(rng):
    """The longest record, replayed whole and struck up to its last step; one step more; bodies that are cut short."""
    chart, start = recorded_flat(), recorded_start()
    longest = [ALWAYS] * MAX_NUMBERS
    yield GRANTED, replay_request(chart, start, longest)
    yield plain(12, MAX_NUMBERS - 1), strike_request(chart, start, 0, longest[:-1] + [(3, 0)])
    for make in (lambda record: replay_request(chart, start, record), lambda record: strike_request(chart, start, 0, record)):
        whole, empty = make([ALWAYS, ALWAYS]), make([])
        yield BAD, make(longest + [ALWAYS])
        yield BAD, with_number32(whole, len(empty) - 4, HUGE)
        yield BAD, with_number32(whole, len(empty) - 4, 3)
        yield GRANTED, whole + rng.randbytes(5)
        for body in (whole[:-1], whole[:-4], empty[:-1], empty[:-4], empty[:1 + FLAT_BYTES + MARKING_BYTES - 1], empty[:1]):
            yield BAD, body


# ---- reading a book back

def filed_flat():
    """Four events; 3 has two conditions and two milestones, 1 is its own response, and 0 and 3 include and exclude."""
    chart = small_flat()
    chart.responses[1] |= {0, 1}
    chart.responses[3].add(0)
    chart.includes[0] |= {0, 2}
    chart.excludes[0].add(3)
    chart.conditions[1].add(3)
    return chart


def with_rules(book, changed):
    """The book with some rules changed, {number: rule}."""
    return book._replace(rules=[changed.get(p, rule) for p, rule in enumerate(book.rules)])


def of_texts(book, texts, gap=()):
    """The book with these texts, one after another, with a gap before each."""
    conditions, words = [], []
    for words_of in texts:
        words += gap
        conditions.append((len(words), len(words_of)))
        words += words_of
    return book._replace(conditions=conditions, words=words)


def less_a_rule(book):
    """Each rule left out: without an inclusion, an exclusion or another event's response it is the book of another chart."""
    for p, rule in enumerate(book.rules):
        sort, f = divmod(rule.target, book.stages)
        other_chart = rule.trigger == COMPLETED and (sort == 2 or sort == 3 and rule.effect == CLEAR and f != rule.number)
        yield GRANTED if other_chart else plain(33), book._replace(rules=book.rules[:p] + book.rules[p + 1:])


def rules_astray(book):
    """Books of the same texts whose rules are not the deriver's, though nothing loops or clashes."""
    n, rules = book.stages, book.rules
    completions = [p for p, rule in enumerate(rules) if rule.trigger == COMPLETED]
    settling = len(completions)  # where the rules without a trigger begin
    for p in range(len(rules) - 1):  # two neighbours exchanged
        yield with_rules(book, {p: rules[p + 1], p + 1: rules[p]})
    for order in (rules[settling:] + rules[:settling], rules[:settling] + rules[settling::2] + rules[settling + 1::2], rules[1:] + rules[:1], rules[::-1]):
        yield book._replace(rules=order)
    for p, rule in enumerate(rules):
        yield book._replace(rules=rules[:p + 1] + rules[p:])  # twice
        sort, f = divmod(rule.target, n)
        if rule.trigger == COMPLETED and sort == 1:  # executed: cleared, another's, under a condition, without a trigger, of a mark
            yield with_rules(book, {p: rule._replace(effect=CLEAR)})
            yield with_rules(book, {p: rule._replace(target=n + (f + 1) % n)})
            yield with_rules(book, {p: rule._replace(sense=1, condition=0)})
            yield with_rules(book, {p: bare(rule)})
            yield with_rules(book, {p: rule._replace(trigger=BECOME_YES, number=0)})
    for e in range(n):  # settling the stage: both senses exchanged, a completion or a mark as trigger, two rules of one effect
        p = settling + 2 * e
        one, two = rules[p], rules[p + 1]
        yield with_rules(book, {p: one._replace(sense=2), p + 1: two._replace(sense=1)})
        yield with_rules(book, {p: one._replace(trigger=COMPLETED, number=e)})
        yield with_rules(book, {p + 1: two._replace(trigger=BECOME_NO, number=2 * n + e)})
        yield with_rules(book, {p + 1: two._replace(effect=SET)})
        yield with_rules(book, {p: one._replace(sense=0, condition=0), p + 1: one})


def texts_astray(book):
    """Books of the same rules whose texts are not the deriver's; event 3 has conditions 0 and 2 and milestones 1 and 2."""
    texts = [model.text(book, c) for c in range(book.stages)]
    own, clauses = texts[3][:1], [texts[3][at:at + 5] for at in range(1, 21, 5)]
    a, b, c, d = clauses
    wrongs = [own + x for x in (b + a + c + d, a + b + d + c, c + d + a + b, a + c + b + d, a + a + b + c + d, a + b + c + d + d, c + a + b + d)]
    wrongs += [a[:4] + b + c + d, a[:4], texts[3] + own + [AND], own * 2 + [AND] + a + b + c + d, texts[3] + [NOT, NOT],
               own + a[:4] + b[:4] + c[:4] + d[:4] + [AND] * 4]
    for at in range(1, 21):  # a word of a clause: the marks of another event or another sort, another operator
        word = texts[3][at]
        for other in {word + 1, word - 4, word + 4} & set(range(4, 16)) if word < 16 else {AND, OR} - {word}:
            changed = texts[3][:at] + [other] + texts[3][at + 1:]
            if model.is_good_text(changed, 16):
                wrongs.append(changed)
    for clause in ([a[2], a[0], NOT, OR, AND], [a[0], a[2], OR, AND], [a[0], NOT, a[2], AND, AND], [a[0], NOT, a[2], OR, OR], [a[0], NOT, a[2], NOT, OR, AND]):
        wrongs.append(own + clause + b + c + d)
    for wrong in wrongs:
        yield of_texts(book, texts[:3] + [wrong])
    for e in range(4):  # the stage's own mark: another's, one of another sort, negated
        for start in ([texts[e][0] ^ 1], [texts[e][0] - 4], [texts[e][0] + 4], [texts[e][0], NOT]):
            yield of_texts(book, texts[:e] + [start + texts[e][1:]] + texts[e + 1:])


def records_astray(book):
    """Counts and records that are not the deriver's, though all rules and texts are."""
    texts, last = [model.text(book, c) for c in range(book.stages)], len(book.words)
    for gap in ([0], [AND, NOT]):
        yield of_texts(book, texts, gap)
    shifted = [(start + (c > 1), count) for c, (start, count) in enumerate(book.conditions)]
    yield book._replace(conditions=shifted, words=book.words[:shifted[2][0] - 1] + [4] + book.words[shifted[2][0] - 1:])  # before text 2 alone
    yield book._replace(words=book.words + [0])
    for unused in ((0, 1), (last - 21, 21), (0, last)):
        if model.is_good_text(book.words[unused[0]:sum(unused)], book.marks):
            yield book._replace(conditions=book.conditions + [unused])
    yield book._replace(conditions=book.conditions + [(last, 1)], words=book.words + [4])
    renumbered = [rule._replace(condition=rule.condition + 1) if rule.sense else rule for rule in book.rules]
    yield book._replace(rules=renumbered, conditions=[(0, 1)] + book.conditions)
    turned = [rule._replace(condition=3 - rule.condition) if rule.sense else rule for rule in book.rules]
    yield book._replace(rules=turned, conditions=book.conditions[::-1])  # the records in another order, and the texts as they were
    yield of_texts(book._replace(rules=turned), texts[::-1])
    other = of_texts(book, [texts[1], texts[0]] + texts[2:])  # the texts in another order, and the records as they were
    yield other._replace(conditions=[other.conditions[1], other.conditions[0]] + other.conditions[2:])
    start = book.conditions[3][0]
    yield book._replace(conditions=[(start + 1, 1)] + book.conditions[1:])  # the same mark, out of the first clause of event 3
    yield book._replace(conditions=book.conditions[:3] + [(start, 1)])  # the clauses lie in no condition
    for stages, marks in ((4, 17), (4, 256), (4, 1024), (5, 16), (5, 20), (16, 16)):
        yield book._replace(stages=stages, marks=marks)


def back_causes(rng):
    """Derived books, and code 33 in each of its ways; codes 20 to 26 stand beside those of the check."""
    own = model.empty_chart(1)
    own.responses[0].add(0)
    for chart in (model.empty_chart(1), own, small_flat(), filed_flat(), with_roles(filed_flat(), {0: {0}, 3: range(8)}), model.read_chart(model.PAPER_CHART)[1],
                  model.empty_chart(64), model.empty_chart(65), model.empty_chart(255), model.empty_chart(256), random_flat(rng, 9, 0.4), random_flat(rng, 5, 1.0),
                  random_flat(rng, 70, 0.03), random_flat(rng, 130, 0.01)):
        image = book_image(model.derived_book(chart))
        assert model.read_back(image) == (GRANTED, told_by_book(chart))
        yield GRANTED, back_request(image)
    book = model.derived_book(filed_flat())
    for answer, other in less_a_rule(book):
        yield answer, back_request(book_image(other))
    for astray in (rules_astray, texts_astray, records_astray):
        for other in astray(book):
            yield plain(33), back_request(book_image(other))
    for other in (Book(0, 0, [], [], []), Book(0, 4, [], [], []), Book(0, 3, [Rule(BECOME_YES, 0, SET, 0, 1, 0, 2)], [], []), Book(1, 1, [], [], []),
                  Book(1, 4, [], [], []), Book(256, 1024, [], [], []), Book(1, 4, [], [(0, 1)], [2]), sound_small(), lasting(), sound_book(rng, 5, 12, 30)):
        yield plain(33), back_request(book_image(other))
    # a pair both included and excluded, an answered mark both cleared and set, a clearing rule with a record of its own: 26 comes first
    n, rules = 4, book.rules
    both = rules[:1] + [on_completion(0, CLEAR, 2 * n)] + rules[1:]
    answered = rules.index(on_completion(0, SET, 3 * n))
    twice = rules[:answered] + [on_completion(0, CLEAR, 3 * n)] + rules[answered:]
    apart = book._replace(rules=rules[:-1] + [rules[-1]._replace(condition=4)], conditions=book.conditions + book.conditions[-1:])
    for answer, other in ((plain(26, 0, 1), book._replace(rules=both)), (plain(26, answered, answered + 1), book._replace(rules=twice)),
                          (plain(26, len(rules) - 2, len(rules) - 1), apart)):
        yield answer, back_request(book_image(other))
    looping = [model.text(book, c) for c in range(3)] + [[2 * n + 3, 3, OR]]
    yield plain(25, 3), back_request(book_image(of_texts(book, looping)))


# ---- mending

def of_mend(nodes, relations, changes, room=0):
    """A mend that is granted, in rooms just enough and so much more, with the changes meant as (step, record)."""
    image = chart_image(nodes, relations)
    mended_nodes, mended_relations, listed = model.mended(image)
    assert [change[:2] for change in listed] == list(changes), (listed, changes)
    better = chart_image(mended_nodes, mended_relations)
    assert model.mended(better) == (mended_nodes, mended_relations, []) and model.read_chart(better)[0] == GRANTED
    return GRANTED, mend_request(len(better) + room, 10 * len(listed) + room, image)


def mended_causes(rng):
    """Every chart of the reader's causes is mended: codes 1 to 3 stay, 7 comes where so many events remain, and what the reader accepts comes
    out with the same bytes and an empty list."""
    for make in (header_causes, node_causes, group_causes, both_causes, accepted_charts, charts_with_roles):
        for answer, body in make(rng):
            image, code = body[1:], -1 if answer is None else answer[0]
            if code == 0:
                assert model.mend(image, image, b'') == (GRANTED, 0, image, b'')
                if rng.random() < 0.3:
                    yield GRANTED, mend_request(len(image), 0, image)
            else:
                yield answer if code in (1, 2, 3) else None, mend_request(len(image) + rng.choice((0, 1)), rng.choice((200, 2000)), image)


def mend_step_causes(rng):
    """Each step alone and beside the others: what is a fault and what is none."""
    count = 6
    for parent in (count, count + 1, 128, 512, 32768, 65534):  # step 1
        for n in (0, 3, 5):
            nodes = [FREE] * count
            nodes[n] = (parent, rng.choice((4, 256 * 255 + 7)))
            yield of_mend(nodes, [], [(1, n)])
    yield of_mend([(count, 4)] * count, [], [(1, n) for n in range(count)])
    for flags in (8, 16, 32, 64, 128, 248, 255, 9, 256 + 8, 65535, 65280 + 128):  # step 2
        for n in (0, 5):
            nodes = [(NONE, 256 * 255 + 7)] * count
            nodes[n] = (NONE, flags)
            yield of_mend(nodes, [], [(2, n)], rng.choice((0, 7)))
    yield of_mend([(NONE, 8)] * count, [], [(2, n) for n in range(count)])
    for flags in range(1, 8):  # step 4, roles staying
        yield of_mend([FREE, (NONE, flags), (1, 4)], [], [(4, 1)])
        yield of_mend([(2, flags), (2, 4), (NONE, 256 * rng.randrange(256) + flags)], [], [(4, 2)])
    for wrong in ((3, 0, 0), (65535, 0, 0), (0, 3, 0), (0, 65535, 1), (0, 0, 5), (0, 0, 65535), (1, 2, 256), (3, 3, 5)):  # step 5
        good = (rng.randrange(3), rng.randrange(3), rng.randrange(3))
        yield of_mend([FREE] * 3, [wrong], [(5, 0)])
        yield of_mend([FREE] * 3, [good, wrong, good, good], [(5, 1)])
        yield of_mend([FREE] * 3, [wrong, good, wrong, wrong, good, wrong], [(5, r) for r in (0, 2, 3, 5)], 1)
    yield of_mend([FREE] * 3, [(2, 2, 4), (0, 1, 0), (0, 1, 0)], [])
    # one node in several steps: a parent that is none and flags, flags and a loop, flags and a group, all that one node can have
    yield of_mend([(9, 255), FREE], [], [(1, 0), (2, 0)])
    yield of_mend([FREE, (1, 255)], [], [(2, 1), (3, 1)])
    yield of_mend([FREE, (NONE, 255), (1, 4)], [], [(2, 1), (4, 1)])
    yield of_mend([(1, 4), (1, 12)], [], [(2, 1), (3, 1), (4, 1)])
    yield of_mend([(1, 4), (9, 12)], [], [(1, 1), (2, 1), (4, 1)])
    yield of_mend([(1, 4), (NONE, 8)], [(2, 0, 0)], [(2, 1), (5, 0)])  # bits 8 to 128 of a group are no third change


def mend_loop_causes(rng):
    """Step 3: loops of each length, several, with chains that lead into them; groups that vanish where a loop is cut, and those that stay."""
    def cut(parents, at, flags=None, more=()):
        nodes = [(parent, (flags or {}).get(n, 0)) for n, parent in enumerate(parents)]
        return of_mend(nodes, [], [(3, n) for n in at] + list(more))

    for n in range(4):
        yield cut([n if m == n else NONE for m in range(4)], [n], {n: 256 * 5 + 7})  # its own parent: an event, with its flags
    yield cut([0, 1, 2, 3], [0, 1, 2, 3], {n: 7 for n in range(4)})
    # two around: the lower one loses its parent and stays the other's; the other has no child and keeps its flags
    yield cut([1, 0], [0], {0: 256, 1: 256 + 7})
    yield cut([1, 0], [0], {0: 256 + 7, 1: 7}, [(4, 0)])
    yield cut([1, 0, 1], [0], {0: 4, 1: 6, 2: 4}, [(4, 0), (4, 1)])  # with another child the other is still a group
    for length in (2, 3, 4, 5, 9):
        row = rng.sample(range(length + 2), length)
        parents = [NONE] * (length + 2)
        for i, n in enumerate(row):
            parents[n] = row[i - 1]
        lowest = min(row)
        last = row[row.index(lowest) - 1]  # the lowest one's parent until then: nobody's parent from then on
        flagged = {n: 7 for n in row}
        yield cut(parents, [lowest], flagged, [(4, n) for n in sorted(row) if n != last])
    # chains lead into the loop from nodes that are lower, and hang below it; the lowest on the loop is cut, not the lowest that meets it
    yield cut([4, 0, 3, 5, 5, 4, 2], [4], {n: 4 for n in range(7)}, [(4, n) for n in (0, 2, 3, 4, 5)])
    yield cut([1, 2, 3, 4, 4], [4])
    yield cut([1, 4, 4, 1, 2], [2])
    # two and three loops, side by side and one inside the other's numbers
    yield cut([5, 2, 1, 4, 3, 0], [0, 1, 3])
    yield cut([3, 1, 4, 0, 2, 5], [0, 1, 2, 5])
    yield cut([2, 3, 0, 1, 0, 1], [0, 1], {2: 1, 4: 7, 5: 7})
    # a parent that is none is no part of a loop, and cuts one
    yield of_mend([(1, 4), (9, 6), (3, 4), (2, 4)], [], [(1, 1), (3, 2), (4, 1), (4, 2)])
    for count in (2, 64, 65, 128, 256, 257, 512):
        row = rng.sample(range(count), count)
        parents = [0] * count
        for i, n in enumerate(row):
            parents[n] = row[i - 1]
        yield cut(parents, [0])
        pairs = [n ^ 1 for n in range(count // 2 * 2)]
        yield cut(pairs, range(0, count // 2 * 2, 2), {n: 4 for n in range(1, count, 2)})


def mend_room_causes(rng):
    """Codes 7 and 37, in their order, and both rooms around what is needed: a refusal writes nothing to either."""
    bad = [(600, 0, 0)] * 3
    for count in (65, 256, 257, 512):
        answer = GRANTED if count <= 256 else plain(7, count)
        for nodes in ([FREE] * count, [(600, 12)] * count, [(n, 4) for n in range(count)]):
            for relations in ([], bad):
                yield answer, mend_request(3000, 10 * (3 * count + 3), chart_image(nodes, relations))
            yield answer if answer[0] else plain(37, 8 + 4 * count, 10 * len(model.mended(chart_image(nodes, bad))[2])), \
                mend_request(rng.choice((0, 7)), rng.choice((0, 20000)), chart_image(nodes, bad))
    # a loop of two leaves one event more than it had, a loop of one too; a group with flags none
    pair, alone = [(257, 4), (256, 4)], [(256, 4)]
    for events, loop, answer in ((256, pair, plain(7, 257)), (255, [(256, 4), (255, 4)], GRANTED), (256, alone, plain(7, 257)), (255, [(255, 4)], GRANTED)):
        yield answer, mend_request(3000, 100, chart_image([FREE] * events + loop, bad))
    nodes = [(256, 4)] * 256 + [(NONE, 7)]
    yield GRANTED, mend_request(3000, 10, chart_image(nodes, []))
    damaged = [(9, 12), (2, 1), (1, 255)], [(0, 0, 0), (0, 3, 0), (1, 2, 4)]
    cases = (damaged, ([FREE], []), ([FREE] * 2, [(0, 0, 9)]), ([FREE], [(0, 0, 0)]), ([(0, 8)], [(0, 0, 0)] * 3 + [(0, 1, 0)] * 5))
    for nodes, relations in cases:
        image = chart_image(nodes, relations)
        better_nodes, better_relations, changes = model.mended(image)
        chart, listed = len(chart_image(better_nodes, better_relations)), 10 * len(changes)
        for one in {chart - 1, 0, chart // 2}:
            yield plain(37, chart, listed), mend_request(one, listed, image)
            yield plain(37, chart, listed), mend_request(one, listed + 100, image)
        for two in {listed - 1, 0, listed // 2, listed - 10} & set(range(listed)):
            yield plain(37, chart, listed), mend_request(chart, two, image)
            yield plain(37, chart, listed), mend_request(rng.choice((0, chart - 1, chart + 50)), two, image)
        for one, two in ((0, 0), (1, 10), (6, 0), (1000, 1000)):
            yield GRANTED, mend_request(chart + one, listed + two, image)
    for wrong, answer in ((model.PAPER_CHART[:7], plain(1)), (with_number16(model.PAPER_CHART, 0, 0), plain(2)), (model.PAPER_CHART + b'\0', plain(3)),
                          (chart_image([FREE] * 257, [])[:-1], plain(3))):  # before 7 and 37
        for rooms in ((0, 0), (1000, 1000)):
            yield answer, mend_request(*rooms, wrong)


def largest_mends(rng):
    """512 nodes and 16,384 relations: all of them bad, every second one, none; the longest list of all."""
    nodes = [(n ^ 1, 255) for n in range(MAX_NODES)]  # 512 entries of step 2, 256 of step 3, 256 of step 4
    for relations in ([(0, 512, 0)] * MAX_RELATIONS, [(r % 512, 511, 4 + r % 2) for r in range(MAX_RELATIONS)]):
        image = chart_image(nodes, relations)
        better_nodes, better_relations, changes = model.mended(image)
        chart, listed = len(chart_image(better_nodes, better_relations)), 10 * len(changes)
        yield GRANTED, mend_request(chart, listed, image)
        if not better_relations:
            assert listed == 174080
            yield plain(37, chart, listed), mend_request(chart, listed - 1, image)
    nodes, relations = largest_chart(rng)
    yield GRANTED, mend_request(100360, 0, chart_image(nodes, relations))


# ---- smaller books

def bytes_of_smaller(chart, start):
    return len(book_image(model.smaller_book(chart, start)[0]))


def of_smaller(chart, start, kept=None, more=0):
    """A smaller book that is granted, in room just enough and so much more, with the marks meant to stay."""
    table = model.smaller_book(chart, start)[1]
    assert kept is None or [mark for mark, number in enumerate(table) if number != model.NO_MARK] == sorted(kept), (table, kept)
    return GRANTED, smaller_request(bytes_of_smaller(chart, start) + more, chart, start)


def around_room(chart, start):
    """Room of every kind around what is needed; a byte less is refused and writes nothing."""
    needed = bytes_of_smaller(chart, start)
    for room in (0, 31, needed - 1):
        yield plain(15, needed), smaller_request(room, chart, start)
    for room in (needed, needed + 1000):
        yield GRANTED, smaller_request(room, chart, start)


def related(count, *pairs):
    """A chart of these relations: (table, e, f) puts f into entry e."""
    chart = model.empty_chart(count)
    for table, e, f in pairs:
        chart[table][e].add(f)
    return chart


CONDITIONS, RESPONSES, MILESTONES, INCLUDES, EXCLUDES = range(1, 6)  # places of a chart's tables


def smaller_room_causes(rng):
    """Code 15 and the room around what is needed: where nothing goes, some marks go, or everything does. Roles change nothing."""
    chart, start = model.read_chart(model.PAPER_CHART)[1:]
    named = with_roles(chart, {0: {0}, 1: range(8)})
    assert model.smaller_book(named, start) == model.smaller_book(chart, start)
    everyone = Marking(set(), set(), {0, 1, 2, 3})
    ring = related(3, *[(table, e, (e + 1) % 3) for table in (CONDITIONS, RESPONSES, EXCLUDES) for e in range(3)])
    for chart, start in ((chart, start), (named, start), (small_flat(), everyone), (small_flat(), Marking({0}, {3}, {0, 1})), (model.empty_chart(1), Marking(set(), set(), {0})),
                         (model.empty_chart(5), Marking(set(), {2}, {0, 1, 2, 4})), (ring, Marking(set(), set(), {0, 1, 2}))):
        yield from around_room(chart, start)
    assert book_image(model.smaller_book(ring, Marking(set(), set(), {0, 1, 2}))[0]) == book_image(model.derived_book(ring))
    for chart in (small_flat(), model.empty_chart(4)):  # unfit before short
        for part in range(3):
            beyond = Marking({0}, {1}, {0, 1})
            beyond[part].add(4)
            for room in (0, 100, 1000):
                yield plain(14), smaller_request(room, chart, beyond)


def mark_causes(rng):
    """What keeps each mark: being a condition, an include, an exclude or a response, of oneself or another; not starting included, starting
    pending; and nothing else: executed goes whatever the start marking says, and being a milestone, or having conditions, keeps nothing."""
    for n, e, f in ((1, 0, 0), (2, 0, 1), (5, 4, 2), (64, 63, 0), (256, 255, 64), (256, 63, 255)):
        everyone, stages = set(range(n)), set(range(n))
        for executed in (set(), {f}, everyone):
            start = Marking(executed, set(), everyone)
            yield of_smaller(model.empty_chart(n), start, stages)
            yield of_smaller(related(n, (CONDITIONS, e, f)), start, stages | {n + f}) + ('condition',)
            yield of_smaller(related(n, (MILESTONES, e, f)), start, stages) + ('milestone',)
        start = Marking(set(), set(), everyone)
        for table, first in ((RESPONSES, 3), (INCLUDES, 2), (EXCLUDES, 2)):
            yield of_smaller(related(n, (table, e, f)), start, stages | {first * n + f}) + ('table %d' % table,)
        yield of_smaller(related(n, (INCLUDES, e, f), (EXCLUDES, e, f)), start, stages | {2 * n + f})  # overruled, and it counts by its include
        yield of_smaller(model.empty_chart(n), Marking(set(), {f}, everyone), stages | {3 * n + f}) + ('pending',)
        yield of_smaller(model.empty_chart(n), Marking(set(), set(), everyone - {f}), stages | {2 * n + f}) + ('not included',)
        yield of_smaller(model.empty_chart(n), Marking(everyone, everyone, set()), stages | {k * n + e for k in (2, 3) for e in everyone})
        yield of_smaller(related(n, (RESPONSES, e, f), (EXCLUDES, e, f), (CONDITIONS, e, f)), Marking({f}, {f}, everyone - {f}),
                         stages | {k * n + f for k in (1, 2, 3)})


def clause_causes(rng):
    """Texts by what is left of them: the first clause or not, whole clauses, second halves, clauses that became yes, and nothing, at the first
    stage, at the last, between others, and at all of them."""
    def kept_words(chart, start, event):
        """The text of an event's condition, in the old marks; None if nothing is left."""
        book, table = model.smaller_book(chart, start)
        old = {number: mark for mark, number in enumerate(table) if number != model.NO_MARK}
        setting = next(rule for rule in book.rules if rule.trigger == 0 and rule.target == event)
        return [old.get(word, word) for word in model.text(book, setting.condition)] if setting.sense else None

    n, everyone = 3, {0, 1, 2}
    for own in (False, True):  # included 2 stays or goes
        for inside in (False, True):  # included 0 stays or goes
            for due in (False, True):  # answered 0 stays or goes
                start = Marking(set(), {0} if due else set(), everyone - ({2} if own else set()) - ({0} if inside else set()))
                condition = [2 * n, NOT, n, OR] if inside else [n]
                milestone = ([2 * n, NOT, 3 * n, OR] if inside else [3 * n]) if due else []
                for pairs, clauses in (([(CONDITIONS, 2, 0)], [condition]), ([(MILESTONES, 2, 0)], [milestone]),
                                       ([(CONDITIONS, 2, 0), (MILESTONES, 2, 0)], [condition, milestone]), ([], [])):
                    clauses = [clause for clause in [[2 * n + 2] if own else []] + clauses if clause]
                    words = [word for place, clause in enumerate(clauses) for word in clause + [AND] * (place > 0)]
                    assert kept_words(related(n, *pairs), start, 2) == (words or None)
                    yield of_smaller(related(n, *pairs), start, more=rng.choice((0, 7))) + ('clauses %d' % len(clauses),)
    for without in ({0}, {2}, {4}, {1, 3}, {0, 4}, {1, 2, 3}, {0, 1, 2, 3, 4}, set()):  # stages of whose text nothing is left
        chart, start = model.empty_chart(5), Marking(set(), set(), set(range(5)))
        for e in set(range(5)) - without:
            chart.conditions[e].add((e + 1) % 5)
        book = model.smaller_book(chart, start)[0]
        assert len(book.conditions) == 5 - len(without) and len([rule for rule in book.rules if rule.trigger == 0]) == 10 - len(without)
        yield of_smaller(chart, start)
    for e in (0, 3):  # several of each kind at one event, of which some lose a mark
        chart = related(8, *[(table, e, f) for table in (CONDITIONS, MILESTONES) for f in range(8)], (EXCLUDES, 0, 1), (INCLUDES, 3, 5), (RESPONSES, 2, 4))
        for start in (Marking(set(), set(), set(range(8))), Marking({1}, {3, 5, 7}, {0, 1, 2, 4, 5, 6}), Marking(set(), set(range(8)), set())):
            yield from around_room(chart, start)


def smaller_as_book_causes(rng):
    """The smaller book in the calls that take a book: it passes the check, is no derived book unless nothing went, and completes a stage as the
    full one does, with a stage that no rule clears, with a text without its first clause, and from a marking reached later."""
    chart, start = model.read_chart(model.PAPER_CHART)[1:]
    budget = related(4, (CONDITIONS, 1, 0), (RESPONSES, 0, 1), (MILESTONES, 2, 1), (EXCLUDES, 3, 2), (INCLUDES, 0, 3))
    for chart, start, stages in ((chart, start, [0, 1, 0]), (budget, Marking(set(), set(), {0, 1, 2, 3}), [2, 0, 1, 3, 2, 0]),
                                 (model.empty_chart(2), Marking(set(), set(), {0, 1}), [1, 0, 0])):
        book, table = model.smaller_book(chart, start)
        image, full = book_image(book), model.matching(chart, start)[1]
        yield GRANTED, smaller_request(len(image), chart, start)
        yield plain(33), back_request(image)
        for stage in range(chart.count):
            yield passing(book, stage)
        index, snapshot = model.index_of(image), model.through_table(table, full)
        yield GRANTED, index_request(len(index), image)
        yield None, list_request(snapshot, stages, index, image)
        for stage in stages:
            yield None, complete_request(stage, snapshot, model.running_order(book, stage), image)
            yield None, indexed_request(stage, snapshot, index, image)
            snapshot = model.complete_indexed(image, index, snapshot, stage)[1]


def largest_smaller(rng):
    """256 events: with every relation, so that nothing goes and the book has 2,631,712 bytes; with every relation of some kinds; and without any."""
    everyone = set(EVERY_EVENT)
    starts = (Marking(set(), set(), everyone), Marking(everyone, everyone, set()))
    for kinds in ((1,), (2, 5), (3, 4), ()):
        chart, start = with_tables(kinds), rng.choice(starts)
        needed = bytes_of_smaller(chart, start)
        yield plain(15, needed), smaller_request(needed - 1, chart, start)
        yield GRANTED, smaller_request(needed, chart, start)
    chart = with_tables((1, 2, 3, 5))
    assert bytes_of_smaller(chart, starts[0]) == 2631712
    yield plain(15, 2631712), smaller_request(rng.choice((LISTING_ROOM, 166432, 2631711)), chart, starts[0])
    yield GRANTED, smaller_request(2631712, chart, starts[0])


def with_tables(kinds):
    """256 events with every relation of these tables."""
    return related(256, *[(table, e, f) for table in kinds for e in range(256) for f in range(256)])


# ---- the largest sizes

def largest_chart(rng, groups=MAX_EVENTS, relations=MAX_RELATIONS):
    """So many groups in chains, as many events, and so many relations."""
    parents = [NONE if n % 8 == 0 else n - 1 for n in range(groups)] + [rng.randrange(groups) for _ in range(groups)]
    for n in range(7, groups, 8):  # the deepest group of each chain has a member
        parents[groups + n // 8] = n
    has_members = set(parents)
    flags = [0 if n in has_members else rng.choice((4, 6, 5)) for n in range(2 * groups)]
    nodes = [(parent, flags[n] + 256 * rng.choice((0, 1 << n % 8))) for n, parent in enumerate(parents)]
    return nodes, random_relations(rng, nodes, relations)


def largest_charts(rng):
    """512 nodes and 16,384 relations: 100,360 bytes."""
    nodes, relations = largest_chart(rng)
    image = chart_image(nodes, relations)
    assert len(image) == 100360
    yield GRANTED, read_request(image)
    yield plain(3), read_request(image + b'\0')
    yield plain(3), read_request(image[:LISTING_READS])
    yield plain(8, 16383), read_request(with_number16(image, len(image) - 2, 5))
    yield plain(4, 511), read_request(with_number16(image, 8 + 4 * 511 + 2, 8))
    nodes = random_nodes(rng, 512, 0.6)
    yield None, read_request(chart_image(nodes, random_relations(rng, nodes, 2400)))


def largest_derivings(rng):
    """256 events with every relation; include or exclude at random."""
    chart = random_flat(rng, 256, 1.0)
    for room in (0, LISTING_ROOM, 166432, 2631711):
        yield plain(15, 2631712), derive_request(room, chart)
    for room in (2631712, MAX_ROOM_BYTES):
        yield GRANTED, derive_request(room, chart)


def of_all_relations(rng, count):
    """A chart of so many events with every relation, its book, its image, and the snapshot where all are open and executed and none is pending."""
    chart, everyone = random_flat(rng, count, 1.0), set(range(count))
    chart.responses[5].discard(5)
    book = model.derived_book(chart)
    return book, book_image(book), model.matching(chart, Marking(everyone, set(), everyone))[1]


def largest_derived_book(rng):
    """256 events: 513 completion rules a stage, and 512 rules without a trigger."""
    book, image, snapshot = of_all_relations(rng, 256)
    assert (len(book.rules), len(book.words)) == (MAX_RULES, MAX_WORDS)
    yield passing(book, 5)
    stage = rng.randrange(256)
    order = model.running_order(book, stage)
    yield GRANTED, complete_request(stage, snapshot, order, image)
    yield plain(27), complete_request(255, snapshot, [p % 65536 for p in model.running_order(book, 255)], image)
    yield plain(31, 1025), check_request(1024, stage, image)


def largest_backs(rng):
    """The largest derived book read back, and with its last word changed."""
    book, image, snapshot = of_all_relations(rng, 256)
    yield GRANTED, back_request(image)
    yield plain(33), back_request(image[:-2] + bytes16(OR))


def larger_derived_book(rng, count=128):
    """Every call that takes a book, at a quarter of the largest size."""
    book, image, snapshot = of_all_relations(rng, count)
    index, stage = model.index_of(image), rng.randrange(64, count)
    yield GRANTED, back_request(image)
    yield GRANTED, indexed_request(stage, snapshot, index, image)
    yield GRANTED, index_request(len(index), image)
    yield GRANTED, list_request(snapshot, [stage], index, image)
    yield passing(book, stage)
    yield GRANTED, complete_request(stage, snapshot, model.running_order(book, stage), image)


def largest_indexes(rng):
    """The index of a derived book of 256 events is 1,051,656 bytes at most; the largest of all is 135,006,216, and no room of a request holds it."""
    book, image, snapshot = of_all_relations(rng, 256)
    index = model.index_of(image)
    assert len(index) == 1051656
    yield plain(35, 1051656), index_request(1051655, image)
    yield GRANTED, index_request(1051656, image)
    yield GRANTED, indexed_request(255, snapshot, index, image)
    yield plain(34), indexed_request(0, snapshot, with_number32(index, len(index) - 4, 131839 ^ 131072), image)
    everywhere = Book(256, 1024, [without_trigger(0, 0, SET, p % 1024) for p in range(MAX_RULES)], [], [])
    yield plain(35, 135006216), index_request(MAX_ROOM_BYTES, book_image(everywhere))


def spread_indexes(rng):
    """As many rules as a book may have, spread over 256 stages; and so many that a rule's number needs more than 16 bits."""
    spread = Book(256, 1024, [on_completion(p % 256, SET, p % 1024) for p in range(MAX_RULES)], [], [])
    image, index = book_image(spread), model.index_image(spread)
    yield GRANTED, indexed_request(255, snapshot_of(range(256)), index, image)
    yield plain(34), indexed_request(255, snapshot_of(range(256)), model.index_image(spread._replace(rules=spread.rules[::-1])), image)


def many_rules(rng):
    """Rules past 65,535: bad, looping, clashing, and in orders, where a number cut to 16 bits would name another rule, which sets another mark."""
    count = 65536 + 30
    rules = [on_completion(p % 256, SET, (300 if p < 65536 else 600) + p % 256) for p in range(count)]
    book = Book(256, 1024, rules, [], [])
    image, opened, order = book_image(book), snapshot_of(range(256)), model.counted(book, 3)
    index = model.index_of(image)
    assert model.complete(image, order, opened, 3) == (GRANTED, snapshot_of({*range(256), 303, 603}))
    yield GRANTED, complete_request(3, opened, order[::-1], image)
    yield GRANTED, indexed_request(3, opened, index, image)
    yield GRANTED, index_request(len(index), image)
    yield plain(26, 65536 + 9, count - 1), check_request(0, 0, book_image(with_rules(book, {
        65536 + 9: on_completion(7, SET, 999), count - 1: on_completion(7, CLEAR, 999)})))
    yield passing(book, 3)
    yield GRANTED, list_request(opened, [3, 4], index, image)
    narrow = model.run32([number % 65536 for number, in model.records(index, 8 + 8 * 256, len(index), 'I')])
    yield plain(34), indexed_request(3, opened, index[:8 + 8 * 256] + narrow, image)
    yield plain(27), complete_request(3, opened, order[:-1] + [order[-1] % 65536], image)
    bad = rules[0]._replace(zero=1)
    yield plain(23, 65536 + 7), check_request(count, 0, book_image(with_rules(book, {65536 + 7: bad, count - 1: bad})))
    yield plain(25, 1000), check_request(0, 0, book_image(with_rules(book, {
        65536 + 9: Rule(BECOME_NO, 0, SET, 0, 1000, 0, 1001), 77: Rule(BECOME_YES, 0, SET, 0, 1001, 0, 1000)})))


def largest_lists(rng):
    """256 completions of a derived book of 256 events in one call: no event has an exclude or a milestone, and all are executed."""
    chart = random_flat(rng, 256, 0.004)._replace(excludes=[set() for e in range(256)], milestones=[set() for e in range(256)])
    everyone, image = set(EVERY_EVENT), book_image(model.derived_book(chart))
    snapshot = model.matching(chart, Marking(everyone, set(), everyone))[1]
    stages = [rng.randrange(256) for _ in range(256)]
    yield GRANTED, list_request(snapshot, stages, model.index_of(image), image)
    yield plain(29, 255), list_request(snapshot, stages[1:] + [256], model.index_of(image), image)


def long_walks(rng):
    """Nine completions that evaluate 131,840 rules each, 1,186,560 together."""
    everything = Book(1, 1024, [without_trigger(0, 0, SET, p % 1024) for p in range(MAX_RULES)], [], [])
    image, index = book_image(everything), model.index_image(everything)
    yield GRANTED, list_request(EVERY_MARK, [0] * 9, index, image)


def largest_hand_made(rng):
    """256 stages, 1,024 marks, 131,840 rules, most of them more than once, 1,024 conditions, 655,616 words."""
    book = sound_book(rng, 256, 1024, 1500, 1024, longest=16)
    rules = book.rules + [rng.choice(book.rules) for _ in range(MAX_RULES - 1500)]
    book = book._replace(rules=rules, words=(book.words + [AND] * MAX_WORDS)[:MAX_WORDS])
    image = book_image(book)
    yield passing(book, 0)
    snapshot = snapshot_of(set(range(256)) | some(rng, range(1024), 0.5))
    yield GRANTED, complete_request(255, snapshot, model.running_order(book, 255), image)
    for field in range(5):  # one more than the most of each
        yield plain(21), check_request(0, 0, with_number32(image[:4000], 4 * field, model.number32(image, 4 * field) + 1))


def completions_with_conditions(rng):
    """256 stages and 131,840 rules, each on a completion and with a condition. Marks are ranked upwards in even stages and downwards in odd
    ones, so the whole book is one loop; then a rule of one stage goes the other way."""
    texts = [(mark, 1) for mark in range(1024)]

    def rule(p):
        one, two = sorted(rng.sample(range(1024), 2), reverse=p % 2 == 1)
        return on_if(p % 256, one, two, sense=rng.choice((1, 2)))

    rules = [on_if(0, 6, 7)] + [rule(p) for p in range(1, MAX_RULES)]
    book = Book(256, 1024, rules, texts, list(range(1024)))
    snapshot = snapshot_of(set(range(256)) | some(rng, range(1024), 0.5))
    yield passing(book, 0)
    yield GRANTED, complete_request(255, snapshot, model.running_order(book, 255), book_image(book))
    looping = book_image(book._replace(rules=rules[:-1] + [on_if(0, 7, 6)]))
    lowest = min(model.looping_targets(model.read_book(looping), 0))
    yield plain(25, lowest), check_request(MAX_RULES, 255, looping)


def wide_conditions(rng):
    """1,024 conditions that overlap; many rules on one target."""
    words = [0] + [rng.choice((1, 2)), AND] * 1023
    spans = [(0, 2 * i + 1) for i in range(MAX_CONDITIONS)]
    rng.shuffle(spans)
    yield passing(Book(1, 3, [], spans, words))
    setting = [on_completion(rng.randrange(256), SET, 1023) for _ in range(700)]
    yield passing(Book(256, 1024, setting, [], []), rng.randrange(256))
    against = setting + [without_trigger(0, 0, CLEAR, 1023)]
    yield plain(26, 0, 700), check_request(701, 0, book_image(Book(256, 1024, against, [], [])))
    yield plain(26, 699, 700), check_request(701, 0, book_image(
        Book(256, 1024, [rule._replace(number=rule.number % 255) for rule in setting[:-1]]
             + [on_completion(255, SET, 1023), on_completion(255, CLEAR, 1023)], [], [])))


def longest_text(rng):
    """One condition of 655,616 words."""
    words = [0] + [1, AND, 2, OR] * 163903 + [1, AND, NOT]
    yield GRANTED, check_request(0, 0, book_image(Book(1, 3, [], [(0, len(words))], words)))
    yield plain(24, 0), check_request(0, 0, book_image(Book(1, 3, [], [(0, len(words))], words[:-1] + [AND])))


# ---- the listing

def full_chart(pairs, kinds):
    """64 events that are all related to all by the first kind, and so many further pairs by the second."""
    nodes = [(NONE, 0)] + [(0, 4)] * 64
    further = [(1 + n // 64, 1 + n % 64, kinds[1]) for n in range(pairs)]
    return chart_image(nodes, [(0, 0, kinds[0])] + further)


def refused_listings(rng):
    """Images that are refused, with the line that each gives: every code of the reader, and the deriver's 15."""
    image = model.PAPER_CHART
    longest = chart_image(*largest_chart(rng, 64, 4096))  # of those that are read whole
    assert len(longest) == LISTING_READS - 1
    yield b'', (1, 0, 0)
    yield image[:7], (1, 0, 0)
    yield with_number16(image, 0, 513), (2, 0, 0)
    yield image + b'\0', (3, 0, 0)
    yield longest + b'\0', (3, 0, 0)  # 25,097 bytes
    yield longest + bytes(5000), (3, 0, 0)
    longer = chart_image([FREE] * 129, [(0, 0, 0)] * 4096)  # a good chart, and three bytes too long for the buffer
    assert len(longer) == LISTING_READS + 3 and model.read_chart(longer)[0] == GRANTED
    yield longer, (3, 0, 0)
    yield chart_image([FREE, FREE], [(0, 1, 0)] * 4181), (3, 0, 0)
    yield with_number16(longest, 2, 4097), (3, 0, 0)
    yield with_number16(longest, 2, 16385) + b'\0', (2, 0, 0)
    yield with_number16(longest, 8 + 4 * 127 + 2, 8), (4, 127, 0)
    yield chart_image([(NONE, 65535)], []), (4, 0, 0)
    yield chart_image([(1, 0), (2, 0), (1, 0), FREE], []), (5, 1, 0)
    yield chart_image([FREE, (NONE, 3), (1, 4), FREE], []), (6, 1, 0)
    yield chart_image([FREE, (NONE, 256 + 3), (1, 4), FREE], []), (6, 1, 0)
    yield chart_image([FREE] * 257, []), (7, 257, 0)
    yield chart_image([FREE] * 512, []), (7, 512, 0)
    yield with_number16(longest, len(longest) - 2, 5), (8, 4095, 0)
    everyone = [(NONE, 0)] + [(0, 4)] * 64
    yield chart_image(everyone, [(0, 0, kind) for kind in (0, 1, 2, 3)]), (15, 166432, 0)
    everyone = [(NONE, 0)] + [(0, 4)] * 256
    yield chart_image(everyone, [(0, 0, kind) for kind in (0, 1, 2, 3)]), (15, 2631712, 0)
    yield chart_image(everyone, [(0, 0, kind) for kind in (4,)]), (15, 668192, 0)
    yield full_chart(497, (CONDITION, MILESTONE)), (15, 49162, 0)


def listed_charts(rng):
    """Images that are listed: the paper's, some of 1 to 256 events, and books that fill 49,152 bytes."""
    yield model.PAPER_CHART
    nodes, relations = [(NONE, 0), (0, 4), (0, 6), FREE], [(0, 3, CONDITION), (3, 1, EXCLUDE)]
    named = [(parent, flags + 256 * (n * 80 + 1)) for n, (parent, flags) in enumerate(nodes)]
    assert model.listing(chart_image(named, relations)) == model.listing(chart_image(nodes, relations))  # books carry no roles
    yield chart_image(named, relations)
    yield chart_image([(NONE, 0), (0, 4), (0, 4), FREE], [(3, 0, INCLUDE), (3, 1, EXCLUDE)])  # P8
    yield chart_image([FREE] * 64, [(a, b, kind) for a, b in ((63, 63), (5, 12)) for kind in (EXCLUDE, INCLUDE)])
    yield chart_image([FREE] * 2, [(0, 1, 0)] * 4180)  # 25,096 bytes
    for count in (1, 2, 5, 10, 11, 30, 63, 64, 65, 128, 256):
        nodes = [(NONE, rng.choice((4, 6, 5, 0)))] * count
        yield chart_image(nodes, random_relations(rng, nodes, 4 * count))
        yield chart_image(nodes, [])
    for kinds in ((CONDITION, MILESTONE), (MILESTONE, INCLUDE), (INCLUDE, CONDITION), (EXCLUDE, MILESTONE)):
        yield full_chart(496, kinds)


def listing_causes(rng):
    for image, answer in refused_listings(rng):
        assert model.listing(image) == 'refused %d %d %d\n' % answer
        yield None, listing_request(image)
    for image in listed_charts(rng):
        assert model.listing(image).startswith('stages ')
        yield None, listing_request(image)


CAUSES = (header_causes, node_causes, group_causes, both_causes, accepted_charts, word_charts, charts_with_roles, unfit_causes, step_causes,
          word_causes, wide_causes, inclusion_causes, blocking_causes, role_causes, marking_causes, derive_causes, book_header_causes, rule_causes, condition_causes,
          loop_causes, stage_loop_causes, looping_stage_causes, whole_book_causes, clash_causes, order_causes, order_room_causes,
          pair_causes, index_room_causes, unfit_index_causes, indexed_causes, list_causes, list_order_causes, evaluated_causes,
          running_order_causes, firing_causes, mark_end_causes, bad_requests, request_limits, listing_causes, replay_causes, strike_causes,
          unfit_record_causes, back_causes, mended_causes, mend_step_causes, mend_loop_causes, mend_room_causes,
          smaller_room_causes, mark_causes, clause_causes, smaller_as_book_causes, wide_conditions)
LARGEST = (largest_charts, largest_mends, largest_derivings, largest_derived_book, largest_backs, larger_derived_book, largest_indexes, spread_indexes,
           many_rules, largest_lists, long_walks, largest_hand_made, completions_with_conditions, longest_text, long_requests, record_limits,
           largest_smaller)
