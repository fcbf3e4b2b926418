# A chart's text, as charts/draw and ./list read it: its lines, what is wrong with them, and its image. README.md has the syntax.

import os
from collections import namedtuple

from files import image_sort
from words import CHART_HEADER, FLAGS_BYTE, MAX_EVENTS, MAX_NODES, MAX_RELATIONS, MAX_ROLES, NODE_SIZE, NO_PARENT

FLAGS = {'executed': 1, 'pending': 2, 'included': 4}
KINDS = {'condition': 0, 'response': 1, 'milestone': 2, 'include': 3, 'exclude': 4}

# The longest text that is read, in bytes; comments and long names have room in it.
MAX_TEXT = 4194304
# How much of a name a message shows.
SHOWN = 40

Relation = namedtuple('Relation', 'line origin kind to')
Role = namedtuple('Role', 'line name number')


class Mistake(Exception):
    """What is wrong with a text, in words, with its line."""


class Node:
    """An event or a group, with the line that names it."""

    def __init__(self, sort, name, line):
        self.sort, self.name, self.line = sort, name, line
        self.group = None
        self.flags = 0
        self.roles = []  # names, as the line has them


class Drawing:
    """The roles and the nodes by name, and the relations, all in the order of their lines."""

    def __init__(self):
        self.roles = {}
        self.nodes = {}
        self.relations = []

    def events(self):
        """The events in the order of their numbers."""
        return [node for node in self.nodes.values() if node.sort == 'event']

    def above(self, node):
        """The node and the groups above it, from the inside outwards."""
        while node is not None:
            yield node
            node = self.nodes.get(node.group)

    def roles_of(self, node):
        """The roles that a node and the groups above it name, by number; none is open to everyone."""
        named = {name for above in self.above(node) for name in above.roles}
        return sorted((self.roles[name] for name in named), key=lambda role: role.number)


def text_path(path):
    """Where the text of a chart image stands."""
    return os.path.splitext(path)[0] + '.txt'


def mistake(line, text, *words):
    return Mistake('line %d: %s' % (line, text % tuple(map(shown, words))))


def shown(word):
    word = str(word)
    return word if len(word) <= SHOWN else word[:SHOWN - 2] + '..'


def read(data):
    """The drawing of a text's bytes. Its image is read with no other refusal than 5, which `judge` rules out."""
    drawing = Drawing()
    for number, line in enumerate(lines(data), 1):
        words = line.split('#')[0].split()
        for word in words:
            if not word.isprintable():
                raise mistake(number, 'a character here cannot be printed')
        if words:
            READERS.get(words[0], read_relation)(drawing, number, words)
    for check in (check_any, check_groups, check_roles, check_names):
        check(drawing)
    return drawing


def judge(drawing):
    """Hands the drawing back if its image is read without a refusal."""
    check_loops(drawing)
    return drawing


# ---- From bytes to lines

def lines(data):
    """The lines of a text. One that is too long is read as far as it may go, since an earlier line says better what is wrong."""
    if image_sort(data):
        raise Mistake('this is the image of a %s, not a text' % image_sort(data))
    if data.startswith(b'\xef\xbb\xbf'):
        raise mistake(1, 'the text begins with a byte order mark; save it as UTF-8 without one')
    if data[:2] in (b'\xff\xfe', b'\xfe\xff'):
        raise mistake(1, 'this is UTF-16; save the text as UTF-8')
    kept = data if len(data) <= MAX_TEXT else data[:data.rfind(b'\n') + 1]
    try:
        text = kept.decode('utf-8')
    except UnicodeDecodeError as fault:
        raise mistake(data.count(b'\n', 0, fault.start) + 1, 'this is not text in UTF-8') from None
    yield from text.replace('\r\n', '\n').replace('\r', '\n').split('\n')
    if len(kept) < len(data):
        raise mistake(data.count(b'\n') + 1, 'the text goes on past %s bytes, and no chart needs so many', format(MAX_TEXT, ','))


# ---- From lines to nodes and relations

def read_node(drawing, line, words):
    sort, name, rest = words[0], ''.join(words[1:2]), words[2:]
    if not name:
        raise mistake(line, 'a name is missing')
    if name in READERS:
        raise mistake(line, '%s begins a line and cannot be a name', name)
    if name in drawing.nodes:
        raise mistake(line, '%s is there already (line %s)', name, drawing.nodes[name].line)
    node = drawing.nodes[name] = Node(sort, name, line)
    while rest:
        rest = CLAUSES.get(rest[0], read_flag)(node, rest)
    check_room(line, name, 'node', len(drawing.nodes), MAX_NODES)
    if sort == 'event':
        check_room(line, name, 'event', len(drawing.events()), MAX_EVENTS)


def read_in(node, words):
    """`in GROUP`; hands back the words behind it, as every clause does."""
    if len(words) < 2:
        raise mistake(node.line, 'in which group is %s?', node.name)
    if node.group is not None:
        raise mistake(node.line, '%s is in %s already', node.name, node.group)
    node.group = words[1]
    return words[2:]


def read_by(node, words):
    """`by ROLE and ROLE ..`; whether there are such roles is seen when all lines are read, as with groups."""
    if node.roles:
        raise mistake(node.line, '%s is by %s already; write `and` between several roles', node.name, node.roles[0])
    at, joined = 0, 'by'
    while words[at:at + 1] == [joined]:
        name = ''.join(words[at + 1:at + 2])
        if not name or name in JOINING:
            raise mistake(node.line, 'a role is missing behind `%s`', joined)
        if name in node.roles:
            raise mistake(node.line, '%s is by %s twice', node.name, name)
        node.roles.append(name)
        check_room(node.line, name, 'role', len(node.roles), MAX_ROLES)
        at, joined = at + 2, 'and'
    if at < len(words) and words[at] not in JOINING:
        raise mistake(node.line, '%s stands behind the role %s: write `and` between several roles', words[at], name)
    return words[at:]


def read_flag(node, words):
    if words[0] not in FLAGS:
        raise mistake(node.line, '%s is none of executed, pending, included', words[0])
    if node.sort == 'group':
        raise mistake(node.line, 'the group %s cannot be %s, only its events can', node.name, words[0])
    node.flags |= FLAGS[words[0]]
    return words[1:]


def read_role(drawing, line, words):
    if len(words) != 3:
        raise mistake(line, 'expected role NAME NUMBER, as role intern 3')
    name, number = words[1:]
    if name in READERS or name in JOINING:
        raise mistake(line, '%s has a meaning of its own and cannot be the name of a role', name)
    if name in drawing.roles:
        raise mistake(line, 'the role %s is there already (line %s)', name, drawing.roles[name].line)
    check_room(line, name, 'role', len(drawing.roles) + 1, MAX_ROLES)
    if number not in map(str, range(MAX_ROLES)):
        raise mistake(line, '%s is no number of a role, which are 0 to %s', number, MAX_ROLES - 1)
    for other in drawing.roles.values():
        if other.number == int(number):
            raise mistake(line, 'the number %s is that of the role %s (line %s)', number, other.name, other.line)
    drawing.roles[name] = Role(line, name, int(number))


def read_relation(drawing, line, words):
    if len(words) != 3:
        raise mistake(line, 'expected event NAME, group NAME, role NAME NUMBER, or NAME %s NAME' % '|'.join(KINDS))
    if words[1] not in KINDS:
        raise mistake(line, '%s is none of ' + ', '.join(KINDS), words[1])
    drawing.relations.append(Relation(line, *words))
    check_room(line, ' '.join(map(shown, words)), 'relation', len(drawing.relations), MAX_RELATIONS)


def check_room(line, name, sort, count, limit):
    if count > limit:
        raise Mistake('line %d: %s is %s number %s, and a chart has at most %s' % (line, shown(name), sort, format(count, ','), format(limit, ',')))


# What begins a line, and what stands behind a node's name: the flags and these.
READERS = {'event': read_node, 'group': read_node, 'role': read_role}
CLAUSES = {'in': read_in, 'by': read_by}
# What cannot be the name of a role, since it stands behind one.
JOINING = {'and', *CLAUSES, *FLAGS}


# ---- What has to hold between the lines

def check_any(drawing):
    if not drawing.nodes:
        raise mistake(1, 'there is no event in the whole text')


def check_groups(drawing):
    """In the image a node is a group because others are in it, so the text must say the same."""
    filled = set()
    for node in drawing.nodes.values():
        group = drawing.nodes.get(node.group)
        if node.group is not None and group is None:
            raise mistake(node.line, 'there is no group %s', node.group)
        if group is not None and group.sort != 'group':
            raise mistake(node.line, '%s is an event (line %s), not a group', group.name, group.line)
        filled.add(node.group)
    for node in drawing.nodes.values():
        if node.sort == 'group' and node.name not in filled:
            raise mistake(node.line, 'nothing is in the group %s, so it would be an event', node.name)


def check_roles(drawing):
    for node in drawing.nodes.values():
        for name in node.roles:
            if name not in drawing.roles:
                raise mistake(node.line, 'there is no role %s', name)


def check_loops(drawing):
    for node in drawing.nodes.values():
        chain = []
        for above in drawing.above(node):
            if above in chain:
                break
            chain.append(above)
        else:
            continue
        if above is node:
            circle = ', '.join('%s is in %s (line %d)' % (shown(one.name), shown(one.group), one.line) for one in chain)
            raise Mistake('line %d: the groups go round: %s' % (node.line, circle))


def check_names(drawing):
    for relation in drawing.relations:
        for name in (relation.origin, relation.to):
            if name not in drawing.nodes:
                raise mistake(relation.line, 'there is no event or group %s', name)


# ---- The image

def image(drawing):
    place = {name: n for n, name in enumerate(drawing.nodes)}
    nodes, relations = drawing.nodes.values(), drawing.relations
    numbers = [len(nodes), len(relations), CHART_HEADER, CHART_HEADER + NODE_SIZE * len(nodes)]
    for node in nodes:
        roles = sum(1 << drawing.roles[name].number for name in node.roles)
        numbers += [NO_PARENT if node.group is None else place[node.group], node.flags + FLAGS_BYTE * roles]
    for relation in relations:
        numbers += [place[relation.origin], place[relation.to], KINDS[relation.kind]]
    return b''.join(one.to_bytes(2, 'little') for one in numbers)
