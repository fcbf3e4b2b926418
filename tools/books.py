# Rule books as images and as text: decoding, encoding, and the lines of the listing. books/README.md has the syntax of a text.

import re
import struct

from words import (
    AND, BOOK_HEADER, CONDITION_SIZE, LONGEST_BOOK, MAX_CONDITIONS, MAX_EVENTS, MAX_MARKS, MAX_RULES, MAX_STACK, MAX_WORDS, NOT, OR, RULE_SIZE,
    WORD_SIZE, looks_like_book, looks_like_chart, looks_like_text, number16, number32, plural)

TRIGGERS = ['', 'on', 'become yes', 'become no']
SENSES = ['', 'if', 'unless']
EFFECTS = ['clear', 'set']
OPERATORS = {AND: 'and', OR: 'or', NOT: 'not'}
WORD_OF = {name: word for word, name in OPERATORS.items()}
RESERVED = set('on become yes no if unless set clear and or not cond stage mark stages marks rules conditions words'.split())
COUNTS = ['stages', 'marks', 'rules', 'conditions', 'words']

# The longest text that is read, in bytes: far more than the longest book takes.
LONGEST_TEXT = 1 << 24
# How many digits a number may have, and how long a refusal of a line gets.
DIGITS, LONGEST_LINE = 40, 400


class Bad(Exception):
    """A refusal of an image, with its code and place, or of a text."""

    def __init__(self, line, code=0, place=0):
        super().__init__(line)
        self.code, self.place = code, place


class Rule:
    """A rule record's seven fields."""

    def __init__(self, kind, sense, effect, spare, number, condition, target):
        self.kind, self.sense, self.effect, self.spare = kind, sense, effect, spare
        self.number, self.condition, self.target = number, condition, target

    def record(self):
        return struct.pack('<4B3H', self.kind, self.sense, self.effect, self.spare, self.number, self.condition, self.target)


class Book:
    """Counts, rules, and conditions as (start, count) into the words."""

    def __init__(self, stages, marks, rules, conditions, words):
        self.stages, self.marks, self.rules, self.conditions, self.words = stages, marks, rules, conditions, words
        self.named = {}  # by condition, the marks in its text

    def text(self, c):
        start, count = self.conditions[c]
        return self.words[start:start + count]

    def counted(self, stage):
        """The rules that count for a stage: all but those that wait for another stage's completion."""
        return [i for i, rule in enumerate(self.rules) if rule.kind != 1 or rule.number == stage]

    def references(self, rule):
        """The marks that a rule refers to."""
        marks = {rule.number} if rule.kind > 1 else set()
        if rule.sense:
            if rule.condition not in self.named:
                self.named[rule.condition] = set(self.text(rule.condition)) - set(OPERATORS)
            marks |= self.named[rule.condition]
        return marks


class Names:
    """What stages, marks and conditions are called; a number without a name stands for itself."""

    def __init__(self, marks=(), conditions=()):
        self.marks, self.conditions = dict(marks), dict(conditions)

    def mark(self, m):
        return self.marks.get(m, str(m))

    def condition(self, c):
        return self.conditions.get(c, str(c))


# ---- the listing's lines

def rule_line(i, rule, names=Names()):
    words = ['%d' % i]
    if rule.kind:
        words += [TRIGGERS[rule.kind], names.mark(rule.number)]
    if rule.sense:
        words += [SENSES[rule.sense], names.condition(rule.condition)]
    return ' '.join(words + [EFFECTS[rule.effect], names.mark(rule.target)])


def text_words(text, names=Names()):
    return ' '.join(OPERATORS[word] if word in OPERATORS else names.mark(word) for word in text)


def condition_line(c, text, names=Names()):
    return 'cond %s: %s' % (names.condition(c), text_words(text, names))


def counts_line(counts):
    return ' '.join('%s %d' % pair for pair in zip(COUNTS, counts))


# ---- what is wrong with an image, in words

def bad_counts(s, m, r, q, w):
    return [words for bad, words in (
        (s > MAX_EVENTS, '%s, and at most %d are allowed' % (plural(s, 'stage'), MAX_EVENTS)),
        (m < s <= MAX_EVENTS, '%s and %s, and every stage is a mark' % (plural(s, 'stage'), plural(m, 'mark'))),
        (m > MAX_MARKS, '%s, and at most %s are allowed' % (plural(m, 'mark'), format(MAX_MARKS, ','))),
        (r > MAX_RULES, '%s, and at most %s are allowed' % (plural(r, 'rule'), format(MAX_RULES, ','))),
        (q > MAX_CONDITIONS, '%s, and at most %s are allowed' % (plural(q, 'condition'), format(MAX_CONDITIONS, ','))),
        (w > MAX_WORDS, '%s, and at most %s are allowed' % (plural(w, 'word'), format(MAX_WORDS, ','))),
    ) if bad]


def bad_layout(data, r, q, w):
    rules, conditions = BOOK_HEADER, BOOK_HEADER + RULE_SIZE * r
    words = conditions + CONDITION_SIZE * q
    wanted = words + WORD_SIZE * w
    said = ['the %s begin at byte %s, and the header says %s' % (sort, format(at, ','), format(number32(data, place), ','))
            for sort, place, at in (('rules', 20, rules), ('conditions', 24, conditions), ('words', 28, words)) if number32(data, place) != at]
    if len(data) != wanted:
        more = ' or more' if len(data) > LONGEST_BOOK else ''
        said.append('a book of these counts has %s, and this one has %s%s' % (plural(wanted, 'byte'), plural(len(data), 'byte'), more))
    return said


def numbered(n, sort):
    """The numbers that exist where there are n of a sort."""
    if n == 0:
        return 'the book has no %ss' % sort
    return 'the book has %s 0' % sort if n == 1 else 'the book has %ss 0 to %d' % (sort, n - 1)


def bad_fields(rule, s, m, q):
    """The fields of a rule record that do not fit a book of s stages, m marks and q conditions."""
    said = []
    if rule.kind >= len(TRIGGERS):
        said.append('its trigger kind is %d, and kinds are 0 to %d' % (rule.kind, len(TRIGGERS) - 1))
    if rule.sense >= len(SENSES):
        said.append('its sense is %d, and senses are 0 to %d' % (rule.sense, len(SENSES) - 1))
    if rule.effect >= len(EFFECTS):
        said.append('its effect is %d, and effects are 0 and 1' % rule.effect)
    if rule.spare:
        said.append('its fourth byte is %d, and has to be 0' % rule.spare)
    if rule.kind == 0 and rule.number:
        said.append('it has no trigger, and yet a trigger number, %d' % rule.number)
    if rule.kind == 1 and rule.number >= s:
        said.append('it waits for the completion of stage %d, and %s' % (rule.number, numbered(s, 'stage')))
    if rule.kind in (2, 3) and rule.number >= m:
        said.append('it waits for mark %d, and %s' % (rule.number, numbered(m, 'mark')))
    if rule.sense == 0 and rule.condition:
        said.append('it has no condition, and yet a condition number, %d' % rule.condition)
    if rule.sense in (1, 2) and rule.condition >= q:
        said.append('its condition is %d, and %s' % (rule.condition, numbered(q, 'condition')))
    if rule.target >= m:
        said.append('its target is mark %d, and %s' % (rule.target, numbered(m, 'mark')))
    return said


def bad_text(text, m):
    """What is wrong with a condition's words, or nothing."""
    depth = 0
    for at, word in enumerate(text):
        if word not in OPERATORS and word >= m:
            return 'word %d of its text is %d, which is no operator and no mark: %s' % (at, word, numbered(m, 'mark'))
        taken = 0 if word not in OPERATORS else 1 if word == NOT else 2
        if depth < taken:
            return '%s at word %d takes %s, and %s there' % (OPERATORS[word], at, plural(taken, 'value'), 'none is' if depth == 0 else 'only one is')
        depth += 1 - taken
        if depth > MAX_STACK:
            return 'at word %d its text holds %d values, and at most %d are allowed' % (at, depth, MAX_STACK)
    if depth != 1:
        return 'its text ends with %s, and should end with one' % plural(depth, 'value')
    return None


def bad_condition(book, c):
    start, count = book.conditions[c]
    if count == 0:
        return 'its text is empty'
    if start + count > len(book.words):
        return 'its text is %s from word %s on, and %s' % (
            plural(count, 'word'), format(start, ','), numbered(len(book.words), 'word'))
    return bad_text(book.text(c), book.marks)


# ---- images

def header_words(data):
    """What is wrong with an image's header, as (code, words): 20, 21 or 22, or (0, None)."""
    if len(data) < BOOK_HEADER:
        have = 'it has %s' % plural(len(data), 'byte') if data else 'it is empty'
        return 20, '%s, and a book has %d bytes or more' % (have, BOOK_HEADER)
    counts = struct.unpack_from('<5I', data)
    said = bad_counts(*counts)
    if said:
        more = len(said) - 1
        return 21, 'its header says %s%s' % (said[0], ' (and %s)' % plural(more, 'count').replace('count', 'more such count') if more else '')
    said = bad_layout(data, *counts[2:])
    if said:
        return 22, '; '.join(said)
    return 0, None


def header(data):
    """The five counts, or the refusal of an image with 20, 21 or 22."""
    code, said = header_words(data)
    if code:
        raise Bad(hint(data) or said, code)
    return struct.unpack_from('<5I', data)


def parts(data):
    """The book in an image whose header is right; its records may be bad."""
    s, m, r, q, w = header(data)
    rules = [Rule(*struct.unpack_from('<4B3H', data, BOOK_HEADER + RULE_SIZE * i)) for i in range(r)]
    at = BOOK_HEADER + RULE_SIZE * r
    conditions = [struct.unpack_from('<2I', data, at + CONDITION_SIZE * c) for c in range(q)]
    return Book(s, m, rules, conditions, list(struct.unpack_from('<%dH' % w, data, at + CONDITION_SIZE * q)))


def decoded(data):
    """The book in a well-formed image."""
    book = parts(data)
    for i, rule in enumerate(book.rules):
        said = bad_fields(rule, book.stages, book.marks, len(book.conditions))
        if said:
            raise Bad('rule %d is a bad record: %s' % (i, '; '.join(said)), 23, i)
    for c in range(len(book.conditions)):
        said = bad_condition(book, c)
        if said:
            raise Bad('condition %d is bad: %s' % (c, said), 24, c)
    return book


def image(book):
    r, q, w = len(book.rules), len(book.conditions), len(book.words)
    conditions = BOOK_HEADER + RULE_SIZE * r
    words = conditions + CONDITION_SIZE * q
    head = struct.pack('<8I', book.stages, book.marks, r, q, w, BOOK_HEADER, conditions, words)
    return b''.join([head] + [rule.record() for rule in book.rules] + [struct.pack('<2I', *c) for c in book.conditions]
                    + [struct.pack('<%dH' % w, *book.words)])


# ---- texts

NUMBER = re.compile('[0-9]+')
NAME = re.compile('[^0-9:#][^:#]*')


def as_number(word):
    """The number that a word writes, or None; a long one is larger than every number of a book."""
    if not NUMBER.fullmatch(word):
        return None
    return int(word) if len(word) <= DIGITS else 10 ** DIGITS


def text_lines(data):
    """A text's lines from 1, each as its words without the comment."""
    if not data.strip():
        raise Bad('it is empty')
    if looks_like_book(data) or looks_like_chart(data):
        raise Bad('it is an image, not a text' + ('; books/read prints it as one' if looks_like_book(data) else ' of a book, but of a chart'))
    if len(data) > LONGEST_TEXT:
        raise Bad('it is longer than %s bytes, which is all that is read' % format(LONGEST_TEXT, ','))
    try:
        text = data.decode()
    except UnicodeDecodeError as error:
        raise Bad('line %d: it is not UTF-8 text' % (data.count(b'\n', 0, error.start) + 1)) from None
    if text.startswith('\ufeff'):
        raise Bad('line 1: it begins with a byte order mark; save it as UTF-8 without one')
    for number, line in enumerate(text.split('\n'), 1):
        line = line.rstrip('\r')
        if not all(c.isprintable() or c == '\t' for c in line):
            raise Bad('line %d: it has a character that is no text' % number)
        # a colon ends a condition's name, with or without a space on either side
        words = line.split('#')[0].replace(':', ' : ').split()
        if words:
            yield number, words


def at_line(line, bad):
    """A refusal with its line; a word without end is cut out of the middle."""
    said = str(bad)
    if len(said) > LONGEST_LINE:
        said = '%s .. %s' % (said[:LONGEST_LINE // 2], said[-LONGEST_LINE // 2:])
    return Bad('line %d: %s' % (line, said))


class Text:
    """A book's text: the lines sorted, then names and numbers looked up."""

    def __init__(self, data):
        self.counts, self.counted = {}, 0
        self.declared = {'stage': [], 'mark': [], 'cond': []}
        self.lines_of = {}
        self.rules, self.texts = [], []
        for line, words in text_lines(data):
            try:
                self.take(line, words)
            except Bad as bad:
                raise at_line(line, bad) from None
        if not (self.counted or self.rules or self.texts or any(self.declared.values())):
            raise Bad('it has no line of a book')
        self.number_all()

    def take(self, line, words):
        if words[0] in COUNTS:
            self.take_counts(line, words)
        elif words[0] in ('stage', 'mark'):
            self.take_name(line, words[0], words[1:])
        elif words[0] == 'cond':
            self.take_condition(line, words)
        else:
            self.take_rule(line, words)

    def take_counts(self, line, words):
        if self.counted:
            raise Bad('the counts stand in line %d already' % self.counted)
        self.counted = line
        if len(words) % 2 or words[::2] != COUNTS[:len(words) // 2] or len(words) < 4:
            raise Bad('the counts read `stages S marks M`, or `%s`' % ' '.join('%s %s' % pair for pair in zip(COUNTS, 'SMRQW')))
        for sort, word in zip(words[::2], words[1::2]):
            if as_number(word) is None:
                raise Bad('%s is no number' % word)
            self.counts[sort] = as_number(word)

    def take_name(self, line, sort, words):
        if ':' in words:
            raise Bad('a name has no colon in it')
        if len(words) != 1:
            raise Bad('%s is followed by one name' % sort)
        name = words[0]
        if NUMBER.match(name):
            raise Bad('%s is no name: a name does not begin with a digit' % name)
        if name in RESERVED or not NAME.fullmatch(name):
            raise Bad('%s is no name: it means something else in a text' % name)
        space = 'cond' if sort == 'cond' else 'mark'
        if (space, name) in self.lines_of:
            raise Bad('%s is there already, in line %d' % (name, self.lines_of[space, name]))
        self.lines_of[space, name] = line
        self.declared[sort].append((line, name))

    def take_condition(self, line, words):
        if len(words) < 3 or words[2] != ':' or words[1] == ':':
            raise Bad('a condition reads `cond NAME: WORDS` or `cond %d: WORDS`' % len(self.texts))
        number = as_number(words[1])
        if number is None:
            self.take_name(line, 'cond', words[1:2])
        else:
            if number != len(self.texts):
                raise Bad('this is condition %d, not %s' % (len(self.texts), words[1]))
            self.declared['cond'].append((line, None))
        self.texts.append((line, words[3:]))
        if len(self.texts) > MAX_CONDITIONS:
            raise Bad('this is condition %d, and a book has at most %s' % (len(self.texts) - 1, plural(MAX_CONDITIONS, 'condition')))

    def take_rule(self, line, words):
        number = as_number(words[0])
        if number is not None:
            if number != len(self.rules):
                raise Bad('this is rule %d, not %s; the number may be left out' % (len(self.rules), words[0]))
            words = words[1:]
        self.rules.append((line, self.clauses(words)))
        if len(self.rules) > MAX_RULES:
            raise Bad('this is rule %d, and a book has at most %s' % (len(self.rules) - 1, plural(MAX_RULES, 'rule')))

    @staticmethod
    def clauses(words):
        """A rule's words as [(kind, trigger), (sense, condition), (effect, target)], the first two perhaps (0, None)."""
        found = []
        for sort, openings in (('trigger', TRIGGERS), ('condition', SENSES), ('effect', EFFECTS)):
            value = (0, None)
            for n, opening in enumerate(openings):
                take = opening.split()
                if take and words[:len(take)] == take:
                    if len(words) == len(take) or words[len(take)] in RESERVED:
                        raise Bad('`%s` is followed by a %s' % (opening, 'stage' if opening == 'on' else 'condition' if sort == 'condition' else 'mark'))
                    value, words = (n, words[len(take)]), words[len(take) + 1:]
                    break
            found.append(value)
        if found[2][1] is None:
            if words[:1] == ['become']:
                raise Bad('`become` is followed by yes or no, and a mark')
            raise Bad('%s; a rule reads [on STAGE | become yes MARK | become no MARK] [if COND | unless COND] set MARK | clear MARK'
                      % ('`%s` is not expected here' % words[0] if words else 'set or clear is missing'))
        if words:
            raise Bad('`%s` is too much: a rule ends with its mark' % words[0])
        return found

    def number_all(self):
        stages, marks = len(self.declared['stage']), len(self.declared['mark'])
        self.stages = self.counts.get('stages', stages)
        self.marks = self.counts.get('marks', self.stages + marks)
        self.conditions = len(self.texts)
        for sort, named, most in (('stage', stages, self.stages), ('mark', marks, max(self.marks - self.stages, 0))):
            if named > most:
                line, name = self.declared[sort][most]
                raise Bad('line %d: there is no %s left for %s: line %d says %s' % (
                    line, sort, name, self.counted, counts_line([self.stages, self.marks])))
        self.names = Names()
        self.numbers = {}
        for sort, base, space in (('stage', 0, 'mark'), ('mark', self.stages, 'mark'), ('cond', 0, 'cond')):
            for n, (line, name) in enumerate(self.declared[sort], base):
                if name is not None:
                    self.numbers[space, name] = n
                    (self.names.conditions if sort == 'cond' else self.names.marks)[n] = name
        said = bad_counts(self.stages, self.marks, 0, 0, 0)
        if said:
            raise Bad('line %d: the book has %s' % (self.counted or self.first_too_many(), '; '.join(said)))

    def first_too_many(self):
        """The line of the first stage or mark past the limits."""
        past = self.declared['stage'][MAX_EVENTS:] + self.declared['mark'][max(MAX_MARKS - self.stages, 0):]
        return min(line for line, name in past)

    def find(self, sort, word):
        """The number of a stage, mark or condition that a word names."""
        space, most = {'stage': ('mark', self.stages), 'mark': ('mark', self.marks), 'condition': ('cond', self.conditions)}[sort]
        number = as_number(word)
        if number is not None:
            if number >= most:
                raise Bad('there is no %s %s: %s' % (sort, word, numbered(most, sort)))
            return number
        if (space, word) in self.numbers:
            number = self.numbers[space, word]
            if number >= most:
                raise Bad('%s is a mark (line %d), not a stage' % (word, self.lines_of[space, word]))
            return number
        other = 'cond' if space == 'mark' else 'mark'
        if (other, word) in self.numbers:
            raise Bad('%s is a %s (line %d), not a %s' % (word, 'condition' if other == 'cond' else 'mark', self.lines_of[other, word], sort))
        raise Bad('there is no %s %s' % (sort, word))

    def rule(self, clauses):
        (kind, trigger), (sense, condition), (effect, target) = clauses
        return Rule(kind, sense, effect, 0,
                    self.find('stage' if kind == 1 else 'mark', trigger) if kind else 0,
                    self.find('condition', condition) if sense else 0,
                    self.find('mark', target))

    def words(self, words):
        text = [WORD_OF[word] if word in WORD_OF else self.find('mark', word) for word in words]
        said = bad_text(text, self.marks) if text else 'its text is empty'
        if said:
            raise Bad(said)
        return text

    def book(self):
        book = Book(self.stages, self.marks, [], [], [])
        for line, part, take in ([(line, part, self.take_book_rule) for line, part in self.rules]
                                 + [(line, part, self.take_book_text) for line, part in self.texts]):
            try:
                take(book, part)
            except Bad as bad:
                raise at_line(line, bad) from None
        for sort, n in zip(COUNTS[2:], (len(book.rules), len(book.conditions), len(book.words))):
            if self.counts.get(sort, n) != n:
                raise Bad('line %d: it says %s %d, and the text has %d' % (self.counted, sort, self.counts[sort], n))
        return book

    def take_book_rule(self, book, clauses):
        book.rules.append(self.rule(clauses))

    def take_book_text(self, book, words):
        text = self.words(words)
        book.conditions.append((len(book.words), len(text)))
        book.words += text
        if len(book.words) > MAX_WORDS:
            raise Bad('with this condition the book has %s, and at most %s are allowed' % (plural(len(book.words), 'word'), format(MAX_WORDS, ',')))


def written(data):
    """The book and the names of a text."""
    text = Text(data)
    return text.book(), text.names


def in_order(book):
    """Whether the texts follow each other without gaps or overlaps, as a text's book has them."""
    at = 0
    for start, count in book.conditions:
        if start != at:
            return False
        at += count
    return at == len(book.words)


def hint(data):
    """What an input is instead of a book, where one can tell."""
    if looks_like_chart(data):
        return 'it looks like a chart, not a book; ./list lists charts'
    if looks_like_text(data):
        return 'it looks like a text, not an image; books/write writes the image of a text'
    return None
