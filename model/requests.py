#!/usr/bin/env python3
# Makes requests of the program `vectors` with the lines that the model expects, and compares a program with them.
#
#   model/requests.py compare N SEED PROGRAM..   run the program on N requests and compare line by line
#   model/requests.py write DIR                  write DIR/stdin and DIR/stdout, a fixed selection
# (model/run and model/write call these.)

import itertools
import os
import random
import subprocess
import sys
import tempfile
from collections import Counter

import causes
import chances
from ozhimka import PAPER_CHART
from protocol import BAD, LISTING, MAX_BODY, WITH_CHART, answer_of, bytes32, framed, line_for, read_request

BATCH, BATCH_BYTES = 5000, 1 << 26  # requests that one run of the program gets, and bytes, but for its last request

BOOK_CODES = (20, 21, 22, 23, 24, 25, 26)
STEP_CODES = (10, 32, 11, 12, 13)
# of each operation with an answer: the codes that its call gives
CODES = {1: range(9), 2: (0, 14) + STEP_CODES, 3: (0, 14), 4: (0, 14), 5: (0, 14), 6: (0, 14, 15), 7: (0,) + BOOK_CODES + (29, 31),
         8: (0,) + BOOK_CODES + (29, 27, 28, 30), 9: (0,) + BOOK_CODES + (35,), 10: (0,) + BOOK_CODES + (34, 28, 29, 30),
         11: (0,) + BOOK_CODES + (34, 28, 38, 29, 30), 12: (0, 14), 13: (0, 14, 36) + STEP_CODES,
         14: (0, 14, 10, 11, 12, 13), 15: (0,) + BOOK_CODES + (33,),
         16: (0, 14, 15), 17: (0, 1, 2, 3, 7, 37)}


def expected(job):
    """Pairs (body, line) from (answer meant or None, body), behind which a cause may stand."""
    for meant, body, *cause in job:
        line = line_for(body)
        if meant is not None and answer_of(line) != meant:
            raise AssertionError('meant %s, got %s: %s' % (meant, line[:200], body[:1000].hex()))
        yield body, line


def unmeant(bodies):
    return [(None, body) for body in bodies]


def stream(seed):
    """Requests without end: rounds of every cause and then of many random families, in a new order each round."""
    rng = random.Random(seed)
    for number in itertools.count():
        first = list(causes.CAUSES + (causes.LARGEST if number % 4 == 0 else ()))
        rng.shuffle(first)
        for make in first:
            yield from expected(make(rng))
        families = list(chances.SMALL * 80 + chances.WIDE * 40 + ((chances.long_runs,) if number % 4 == 0 else ()))
        rng.shuffle(families)
        for make in families:
            yield from expected(unmeant(make(rng)))


def few_with_chart(job):
    """The requests, and of those that carry a flat chart, and so 41,220 bytes, the first by each call, answer's code and cause."""
    had = set()
    for meant, body, *cause in job:
        if body[0] in WITH_CHART:
            key = (body[0], meant if meant in (None, BAD) else meant[0], *cause)
            if key in had:
                continue
            had.add(key)
        yield meant, body


def short(job, longest=8000):
    return (request for request in job if len(request[1]) <= longest)


def selection():
    """The fixed selection: every cause, few of the largest size, runs of chart and book of which the book's side is kept, and some of each random family."""
    rng = random.Random('the stored requests')
    for make in causes.CAUSES:
        yield from expected(few_with_chart(make(rng)))
    for make, kept in ((causes.largest_charts, 2), (causes.largest_mends, 1), (causes.largest_derivings, 9), (causes.largest_derived_book, 1),
                       (lambda rng: causes.larger_derived_book(rng, 96), 1), (causes.many_rules, 4), (causes.largest_smaller, 9)):
        yield from expected(itertools.islice(few_with_chart(make(rng)), kept))
    for make in chances.SMALL:
        for _ in range(30):
            yield from expected(short(unmeant(make(rng))))
    for _ in range(8):
        yield from expected(short(unmeant(chances.side_by_side(rng, longest=12))))
        yield from expected(short(unmeant(chances.smallers(rng))))
    for make in (chances.steps, chances.derivings, chances.damaged_flats, chances.records, chances.smallers):
        yield from expected(few_with_chart(unmeant(make(rng))))


def all_codes(pairs):
    """Stops the program unless every call gives, among these requests, each of its codes and no other."""
    given = {(body[0], int(line.split()[1])) for body, line in pairs if line != BAD and body[0] != LISTING}
    meant = {(operation, code) for operation, codes in CODES.items() for code in codes}
    if given != meant:
        raise AssertionError('operation and code: missing %s, not meant %s' % (sorted(meant - given), sorted(given - meant)))


MORE = framed(b'\x00')  # a request that is never reached
NO_LENGTH = (bytes32(0) + MORE, [BAD])  # stands at the end of the stored requests
# what ends a run of the program, and the lines it gets: no length at all, a bad one, a body or a length that is cut short
ENDINGS = ((b'', []), NO_LENGTH, (framed(b'\x01' * (MAX_BODY + 1)) + MORE, [BAD]), (bytes32(0xFFFFFFFF) + MORE, [BAD]),
           (bytes32(1), [BAD]), (bytes32(10) + bytes(9), [BAD]), (bytes32(MAX_BODY) + bytes(MAX_BODY - 1), [BAD]),
           (b'\x01', []), (b'\x01\0', []), (b'\x01\0\0', []))


def written(program, data):
    """The lines that the program prints for these bytes, and its status."""
    with tempfile.TemporaryFile() as given:
        given.write(data)
        given.seek(0)
        ran = subprocess.run(program, stdin=given, stdout=subprocess.PIPE, check=False)
    lines = ran.stdout.decode('ascii', 'replace').split('\n')
    return lines[:-1] if lines[-1] == '' else lines, ran.returncode


def report(agreed, want, has, request, status):
    os.makedirs('target', exist_ok=True)
    with open('target/difference', 'wb') as kept:
        kept.write(request)
    print('request %d differs; %d agreed before it' % (agreed, agreed))
    print('expected: %s' % want)
    print('printed:  %s' % has)
    print('request (%d bytes with its length, whole in target/difference): %s%s'
          % (len(request), request[:4096].hex(), ' ..' if len(request) > 4096 else ''))
    if status != 0:
        print('the program ended with status %d' % status)


def agrees(program, batch, end, end_lines, before=0):
    """Whether the program prints the lines of a batch and of the ending behind it; the first difference is reported."""
    requests = [framed(body) for body, line in batch] + [end]
    got, status = written(program, b''.join(requests))
    wanted = [line for body, line in batch] + end_lines
    for i, (want, has) in enumerate(itertools.zip_longest(wanted, got, fillvalue='(nothing)')):
        if want != has:
            report(before + i, want, has, requests[min(i, len(batch))], status)
            return False
    if status != 0 and not end_lines:
        print('the lines agree, but the program ended with status %d' % status)
        return False
    return True


def next_batch(requests):
    batch, length = [], 0
    for body, line in itertools.islice(requests, BATCH):
        batch.append((body, line))
        length += len(body)
        if length > BATCH_BYTES:
            break
    return batch


def compare(count, seed, program):
    first = list(expected(unmeant([read_request(PAPER_CHART)])))
    if not all(agrees(program, first, *ending) for ending in ENDINGS):
        return 1
    requests = itertools.islice(stream(seed), count)
    agreed, codes = 0, Counter()
    while agreed < count:
        batch = next_batch(requests)
        if not agrees(program, batch, *ENDINGS[0], agreed):
            return 1
        agreed += len(batch)
        codes.update(line if line == BAD else 'listing' if body[0] == LISTING else line.split()[1] for body, line in batch)
    print('%d requests of seed %d agree' % (agreed, seed))
    print('answers by code: ' + ', '.join('%s: %d' % (code, codes[code])
                                         for code in sorted(codes, key=lambda code: (len(code), code))))
    return 0


def write(folder):
    os.makedirs(folder, exist_ok=True)
    pairs = list(selection())
    all_codes(pairs)
    with open(os.path.join(folder, 'stdin'), 'wb') as requests:
        requests.write(b''.join(framed(body) for body, line in pairs) + NO_LENGTH[0])
    with open(os.path.join(folder, 'stdout'), 'w') as lines:
        lines.write(''.join(line + '\n' for line in [line for body, line in pairs] + NO_LENGTH[1]))
    sizes = [os.path.getsize(os.path.join(folder, name)) for name in ('stdin', 'stdout')]
    print('%d requests, %d bytes; their lines, %d bytes' % (len(pairs), *sizes))


def main(words):
    if len(words) >= 4 and words[0] == 'compare' and words[1].isdigit() and words[2].isdigit():
        return compare(int(words[1]), int(words[2]), words[3:])
    if len(words) == 2 and words[0] == 'write':
        write(words[1])
        return 0
    print('usage: model/requests.py compare N SEED PROGRAM.. | write DIR', file=sys.stderr)
    return 2


if __name__ == '__main__':
    sys.exit(main(sys.argv[1:]))
