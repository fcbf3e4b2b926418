# What the scripts share: the words of every refusal, reading an input, building and running a program.

import os
import shutil
import stat
import subprocess
import sys

ROOT = os.path.dirname(os.path.dirname(os.path.abspath(__file__)))

# Exit statuses of every script.
PASSED, REFUSED, USAGE, COULD_NOT = 0, 1, 2, 3

# ---- limits and formats, under the names of crates/paper

MAX_NODES = 512
MAX_RELATIONS = 16384
MAX_EVENTS = 256
MAX_MARKS = 1024
MAX_RULES = 131840
MAX_CONDITIONS = 1024
MAX_WORDS = 655616
MAX_STACK = 16
MAX_ROLES = 8
MAX_LIST = 4096
CHART_HEADER = 8
NODE_SIZE = 4
RELATION_SIZE = 6
NO_PARENT = 65535
MAX_FLAGS = 7
KINDS = 5
FLAGS_BYTE = 256
CHANGE_SIZE = 10
MEND_PARENT = 1
MEND_FLAGS = 2
MEND_LOOP = 3
MEND_GROUP = 4
MEND_RELATION = 5
BOOK_HEADER = 32
RULE_SIZE = 10
CONDITION_SIZE = 8
WORD_SIZE = 2
INDEX_HEADER = 8
INDEX_STAGE = 8
INDEX_RULE = 4
AND = 65533
OR = 65534
NOT = 65535

# How many numbers of 64 bits a set of events takes.
SET_WORDS = MAX_EVENTS // 64

LONGEST_CHART = CHART_HEADER + NODE_SIZE * MAX_NODES + RELATION_SIZE * MAX_RELATIONS
LONGEST_BOOK = BOOK_HEADER + RULE_SIZE * MAX_RULES + CONDITION_SIZE * MAX_CONDITIONS + WORD_SIZE * MAX_WORDS

# ---- refusals: each code's name in crates/paper and its words. In braces stand the limits above, `place` and `other` as numbers, and what
# they are the number of: `node`, `relation`, `event`, `rule`, `condition`, `mark` of place, `other_rule` of other.

REFUSALS = {
    1: ('CHART_SHORT', 'the chart is too short to have a header, which takes {CHART_HEADER} bytes'),
    2: ('CHART_COUNT', 'the header has a count out of range: a chart has 1 to {MAX_NODES} nodes and up to {MAX_RELATIONS:,} relations'),
    3: ('CHART_LENGTH', "the header's offsets, or the length of the file, do not fit its counts"),
    4: ('BAD_NODE', '{node} is a bad record: its parent is no node of the chart, or the lower byte of its flags is above {MAX_FLAGS}'),
    5: ('PARENTS_LOOP', '{node} is on a loop of parents'),
    6: ('GROUP_FLAGS', '{node} is a group, since other nodes have it as parent, and a group has no flags but its roles'),
    7: ('MANY_EVENTS', 'the chart has {place} events, and at most {MAX_EVENTS} are allowed'),
    8: ('BAD_RELATION', '{relation} is a bad record: it names a node that is not there, or a kind that is none of 0 to 4'),
    9: ('INCLUDE_EXCLUDE', 'a code that is never given any more: an event may both include and exclude another, and inclusion wins'),
    10: ('NO_SUCH_EVENT', 'there is no such event'),
    11: ('NOT_INCLUDED', 'the event is not included'),
    12: ('CONDITION_WANTING', '{event} is a condition and has not been executed'),
    13: ('MILESTONE_WANTING', '{event} is a milestone and is pending'),
    14: ('UNFIT', 'the flattened chart or the marking is unfit'),
    15: ('BOOK_ROOM', 'the book takes {place:,} bytes, more than there is room for'),
    20: ('BOOK_SHORT', 'the book is too short to have a header, which takes {BOOK_HEADER} bytes'),
    21: ('BOOK_COUNT', 'the header has a count out of range: a book has up to {MAX_EVENTS} stages, as many marks or more but up to {MAX_MARKS:,}, '
         'up to {MAX_RULES:,} rules, {MAX_CONDITIONS:,} conditions and {MAX_WORDS:,} words'),
    22: ('BOOK_LENGTH', "the header's offsets, or the length of the file, do not fit its counts"),
    23: ('BAD_RULE', '{rule} is a bad record'),
    24: ('BAD_CONDITION', '{condition} is a bad record or has a bad text'),
    25: ('LOOP', '{mark} is on a loop: rules that wait for each other in a circle'),
    26: ('CLASH', '{rule} and {other_rule} clash: one sets a mark, the other clears it, and nothing keeps them apart'),
    27: ('ORDER_UNFIT', 'the order is unfit: it does not list each rule that counts for the stage once and no other, or a rule stands before one that it waits for'),
    28: ('MARK_ABOVE', 'the snapshot has a yes at a mark that the book does not have'),
    29: ('NO_SUCH_STAGE', 'there is no such stage'),
    30: ('STAGE_CLOSED', 'the stage is closed'),
    31: ('ORDER_ROOM', 'the order takes room for {place:,} numbers, more than there is'),
    32: ('NOT_PERMITTED', 'the event names other roles, or the role is none of 0 to 7'),
    33: ('NOT_DERIVED', 'the book is not a derived book: it is not what any chart gives'),
    34: ('INDEX_UNFIT', "the index is not this book's: it was made for another book, or has been altered"),
    35: ('INDEX_ROOM', 'the index takes {place:,} bytes, more than there is room for'),
    36: ('NO_SUCH_POSITION', 'there is no such position in the record'),
    37: ('MEND_ROOM', 'the mended chart takes {place:,} bytes and the list of changes {other:,}, and one of them has less room'),
    38: ('LONG_LIST', 'the list has {place:,} stages, and at most {MAX_LIST:,} are allowed'),
}


def words(code, place, other, node=None, relation=None, event=None, rule=None, condition=None, mark=None):
    """What a refusal says, as a sentence without a full stop. Each hook turns a number of its sort into text; without it the
    text is the sort and the number, as `node 3`."""
    if code not in REFUSALS:
        return 'refused with code %d, place %d, other %d' % (code, place, other)
    hooks = dict(node=node, relation=relation, event=event, rule=rule, condition=condition, mark=mark)
    said = {sort: hook or (lambda n, sort=sort: '%s %d' % (sort, n)) for sort, hook in hooks.items()}
    wanted = REFUSALS[code][1]
    fields = {name: value for name, value in globals().items() if name.isupper() and isinstance(value, int)}
    fields.update(place=place, other=other)
    for sort in said:
        for field, number in ((sort, place), ('other_' + sort, other)):
            if '{%s}' % field in wanted:
                fields[field] = said[sort](number)
    return wanted.format(**fields)


# ---- how a script ends

class Stop(Exception):
    """Ends a script with a line on standard error and this exit status."""

    def __init__(self, status, line):
        super().__init__(line)
        self.status = status


def settle_output():
    """A character that the terminal's encoding lacks is written as an escape; a standard output or error that is closed takes nothing."""
    if sys.stdout is None:
        sys.stdout = open(os.devnull, 'w')
    if sys.stderr is None:
        sys.stderr = open(os.devnull, 'w')
    sys.stdout.reconfigure(errors='backslashreplace')


def complain(what):
    """A line on standard error. Where that takes nothing, the exit status has to do."""
    try:
        print(printable(str(what)), file=sys.stderr, flush=True)
    except OSError:
        sys.stderr = open(os.devnull, 'w')


def end(main):
    """Runs main(words of the command line), which gives the exit status, and ends. No input ends in a traceback."""
    settle_output()
    try:
        status = main(sys.argv[1:])
        sys.stdout.flush()
    except Stop as stop:
        complain(stop)
        status = stop.status
    except BrokenPipeError:
        os.dup2(os.open(os.devnull, os.O_WRONLY), sys.stdout.fileno())
        status = COULD_NOT
    except (OSError, MemoryError) as error:
        what = getattr(error, 'filename', None) or 'standard output'
        complain('%s: %s' % (what, getattr(error, 'strerror', None) or 'out of memory'))
        status = COULD_NOT
    except KeyboardInterrupt:
        status = COULD_NOT
    sys.exit(status)


def printable(text):
    """The text with escapes for what a terminal should not get: control characters, and bytes of a file name that are no text."""
    return ''.join(c if c.isprintable() or c == '\n' else c.encode('unicode_escape', 'surrogatepass').decode() for c in text)


def file_name(path):
    """A file's name on one line, so that no name looks like an answer."""
    return printable(path).replace('\n', '\\n')


def plural(n, sort):
    return '%s %s%s' % (format(n, ','), sort, '' if n == 1 else 's')


# ---- reading an input

def read_input(path, limit):
    """The first bytes of a file, a pipe or a device: `limit` and one more, which shows a longer input for what it is."""
    try:
        with open(path, 'rb') as source:
            if stat.S_ISDIR(os.fstat(source.fileno()).st_mode):
                raise IsADirectoryError
            return source.read(limit + 1)
    except FileNotFoundError:
        raise Stop(USAGE, '%s: no such file' % (file_name(path) or "''")) from None
    except IsADirectoryError:
        raise Stop(USAGE, '%s is a directory, not a file' % file_name(path)) from None
    except PermissionError:
        raise Stop(USAGE, '%s may not be read' % file_name(path)) from None
    except (OSError, ValueError) as error:
        raise Stop(USAGE, '%s cannot be read: %s' % (file_name(path), getattr(error, 'strerror', None) or error)) from None


def looks_like_text(data):
    """Whether these are lines of text: UTF-8, with no zero byte and no other control characters than tabs and ends of lines."""
    try:
        text = data.decode()
    except UnicodeDecodeError:
        return False
    return bool(text) and all(c.isprintable() or c in '\t\r\n\ufeff' for c in text)


def number16(data, at):
    return int.from_bytes(data[at:at + 2], 'little')


def number32(data, at):
    return int.from_bytes(data[at:at + 4], 'little')


def sets_of(numbers):
    """The sets that `vectors` prints, each as SET_WORDS numbers of 64 bits, the lowest members first; each set as one number."""
    return [sum(word << 64 * i for i, word in enumerate(numbers[at:at + SET_WORDS])) for at in range(0, len(numbers), SET_WORDS)]


def looks_like_chart(data):
    """Whether the first bytes are a chart's header."""
    return len(data) >= CHART_HEADER and number16(data, 4) == CHART_HEADER and number16(data, 6) == CHART_HEADER + NODE_SIZE * number16(data, 0)


def looks_like_book(data):
    """Whether the first bytes are a book's header."""
    return len(data) >= BOOK_HEADER and number32(data, 20) == BOOK_HEADER and number32(data, 24) == BOOK_HEADER + RULE_SIZE * number32(data, 8)


# ---- building and running a program

def newer(program, name):
    """Whether a crate that the program is built from has changed since."""
    built = os.stat(program).st_mtime
    parts = {name}
    with open(os.path.join(ROOT, 'crates.txt')) as lines:
        for line in lines:
            crate, _, uses = line.partition(':')
            if crate.split()[:1] == [name]:
                parts.update(uses.split())
    for part in parts:
        for folder, below, files in os.walk(os.path.join(ROOT, 'crates', part)):
            below[:] = [inner for inner in below if inner not in ('must-fail', 'must-fail-more', 'out')]
            if any(os.lstat(os.path.join(folder, file)).st_mtime > built for file in files):
                return True
    return False


def program(name):
    """The path of a program, which is built first where it is not there or older than its crates: `rt run` builds it and runs it, here on no
    input."""
    crate = os.path.join(ROOT, 'crates', name)
    path = os.path.join(crate, 'out', name)
    if os.path.isfile(path) and not newer(path, name):
        return path
    if shutil.which('rt') is None:
        state = 'is older than its crates' if os.path.isfile(path) else 'is not built'
        raise Stop(COULD_NOT, '%s %s, and the command rt, which builds it, was not found' % (name, state))
    print('building %s, which takes some minutes the first time' % name, file=sys.stderr, flush=True)
    os.makedirs(os.path.join(ROOT, 'target'), exist_ok=True)  # the place for what is made by hand, as the READMEs do
    built = subprocess.run(['rt', 'run'], cwd=crate, stdin=subprocess.DEVNULL, stdout=subprocess.PIPE, stderr=subprocess.STDOUT)
    if built.returncode != 0 or not os.path.isfile(path):
        sys.stderr.write(built.stdout.decode(errors='replace'))
        raise Stop(COULD_NOT, '%s could not be built' % name)
    os.utime(path)
    return path


def command(path):
    """The words that run a program on this processor."""
    lines = '. "$1/tools/native.sh" && native_command "$2" && printf "%s\\0" "${native[@]}"'
    found = subprocess.run(['bash', '-c', lines, 'bash', ROOT, path], stdout=subprocess.PIPE)
    if found.returncode != 0:
        raise Stop(COULD_NOT, '%s cannot be run here' % path)
    return [os.fsdecode(word) for word in found.stdout.split(b'\0')[:-1]]


def run(name, data):
    """What a program writes on standard output when these bytes are its input."""
    path = program(name)
    ran = subprocess.run(command(path), input=data, stdout=subprocess.PIPE)
    if ran.returncode != 0:
        raise Stop(COULD_NOT, '%s did not end well' % path)
    return ran.stdout
