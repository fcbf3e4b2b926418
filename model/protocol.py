# The requests of the program `vectors`: how each is written as bytes, and the line that the model expects for it.

import functools
import struct
import zlib

import ozhimka as model
from ozhimka import MAX_EVENTS, MAX_MARKS, bytes32, run16, run32

FILL = 165  # the byte that room is filled with before a call
SET_WORDS = MAX_EVENTS // 64  # a set is so many 64-bit numbers
SET_BYTES = 8 * SET_WORDS
TABLES_BYTES = 5 * MAX_EVENTS * SET_BYTES
FLAT_BYTES = 4 + TABLES_BYTES + MAX_EVENTS
MARKING_BYTES = 3 * SET_BYTES
SNAPSHOT_BYTES = MAX_MARKS // 8
MAX_BODY = 8388608
MAX_ROOM_BYTES = 4000000
MAX_NUMBERS = 200000  # of an order, of room for one, of a list, and steps of a record
BAD = 'bad request'
LISTING = 18  # the operation that lists a chart's book
WITH_CHART = (2, 3, 4, 5, 6, 12, 13, 14, 16)  # the operations whose requests carry a flat chart


# ---- writing requests

EMPTY_SET = bytes(SET_BYTES)


def set_bytes(members):
    return model.mark_bits(members).to_bytes(SET_BYTES, 'little') if members else EMPTY_SET


def flat_bytes(chart):
    sets = b''.join(set_bytes(entry) for table in model.tables(chart) for entry in table)
    return bytes32(chart.count) + sets + bytes(model.mark_bits(entry) for entry in chart.roles)


def marking_bytes(marking):
    return b''.join(set_bytes(entry) for entry in marking)


def snapshot_bytes(snapshot):
    return model.worth(snapshot).to_bytes(SNAPSHOT_BYTES, 'little')


def read_request(image):
    return b'\x01' + image


def execute_request(chart, marking, event, role):
    return b'\x02' + flat_bytes(chart) + marking_bytes(marking) + bytes32(event) + bytes32(role)


def count_request(chart, marking):
    return b'\x03' + flat_bytes(chart) + marking_bytes(marking)


def finished_request(chart, marking):
    return b'\x04' + flat_bytes(chart) + marking_bytes(marking)


def matching_request(chart, marking):
    return b'\x05' + flat_bytes(chart) + marking_bytes(marking)


def derive_request(room, chart):
    return b'\x06' + bytes32(room) + flat_bytes(chart)


def check_request(room, stage, image):
    return b'\x07' + bytes32(room) + bytes32(stage) + image


def complete_request(stage, snapshot, order, image):
    return b'\x08' + bytes32(stage) + snapshot_bytes(snapshot) + bytes32(len(order)) + run32(order) + image


def index_request(room, image):
    return b'\x09' + bytes32(room) + image


def indexed_request(stage, snapshot, index, image):
    return b'\x0a' + bytes32(stage) + snapshot_bytes(snapshot) + bytes32(len(index)) + index + image


def list_request(snapshot, stages, index, image):
    return b'\x0b' + snapshot_bytes(snapshot) + bytes32(len(stages)) + run32(stages) + bytes32(len(index)) + index + image


def record_bytes(record):
    return bytes32(len(record)) + run32([number for step in record for number in step])


def replay_request(chart, marking, record):
    return b'\x0c' + flat_bytes(chart) + marking_bytes(marking) + record_bytes(record)


def strike_request(chart, marking, position, record):
    return b'\x0d' + flat_bytes(chart) + marking_bytes(marking) + bytes32(position) + record_bytes(record)


def open_request(chart, marking, event):
    return b'\x0e' + flat_bytes(chart) + marking_bytes(marking) + bytes32(event)


def back_request(image):
    return b'\x0f' + image


def smaller_request(room, chart, marking):
    return b'\x10' + bytes32(room) + flat_bytes(chart) + marking_bytes(marking)


def mend_request(chart_room, list_room, image):
    return b'\x11' + bytes32(chart_room) + bytes32(list_room) + image


def listing_request(image):
    return bytes([LISTING]) + image


def framed(body):
    return bytes32(len(body)) + body


# ---- the expected line

def members(number):
    """The set that a number stands for."""
    return {e for e, digit in enumerate(bin(number)[:1:-1]) if digit == '1'} if number else set()


def set_words(entry):
    """A set as it is printed: its 64-bit numbers, the lowest events first."""
    number = model.mark_bits(entry)
    return [number >> 64 * i & 0xFFFFFFFFFFFFFFFF for i in range(SET_WORDS)]


def words_of_sets(sets):
    return [word for entry in sets for word in set_words(entry)]


def sets_at(body, at, count):
    return [members(int.from_bytes(body[i:i + SET_BYTES], 'little')) for i in range(at, at + count * SET_BYTES, SET_BYTES)]


@functools.lru_cache(maxsize=4)
def flat_from(image):
    sets = sets_at(image, 4, 5 * MAX_EVENTS)
    roles = [members(byte) for byte in image[4 + TABLES_BYTES:]]
    return model.FlatChart(model.number32(image, 0), *[sets[i:i + MAX_EVENTS] for i in range(0, 5 * MAX_EVENTS, MAX_EVENTS)], roles)


def flat_at(body, at):
    return flat_from(body[at:at + FLAT_BYTES])


def marking_at(body, at):
    return model.Marking(*sets_at(body, at, 3))


def line(name, answer, values):
    return ' '.join([name] + [str(number) for number in list(answer) + list(values)])


def snapshot_words(snapshot):
    return list(struct.unpack('<%dQ' % (SNAPSHOT_BYTES // 8), snapshot_bytes(snapshot)))


def line_for(body):
    """The line that `vectors` prints for a request's body."""
    operation = body[0]
    if operation == 1:
        return read_line(body)
    if operation in (2, 3, 4, 5, 14):
        needed = 1 + FLAT_BYTES + MARKING_BYTES + {2: 8, 14: 4}.get(operation, 0)
        return chart_line(operation, body) if len(body) >= needed else BAD
    if operation == 6:
        return derive_line(body) if len(body) >= 5 + FLAT_BYTES else BAD
    if operation == 7:
        return check_line(body) if len(body) >= 9 else BAD
    if operation == 8:
        return complete_line(body) if len(body) >= 9 + SNAPSHOT_BYTES else BAD
    if operation == 9:
        return index_line(body) if len(body) >= 5 else BAD
    if operation == 10:
        return indexed_line(body) if len(body) >= 9 + SNAPSHOT_BYTES else BAD
    if operation == 11:
        return list_line(body) if len(body) >= 5 + SNAPSHOT_BYTES else BAD
    if operation in (12, 13):
        record = record_at(body, 1 + FLAT_BYTES + MARKING_BYTES + (4 if operation == 13 else 0))
        return BAD if record is None else record_line(operation, body, record)
    if operation == 15:
        return back_line(body)
    if operation == 16:
        return smaller_line(body) if len(body) >= 5 + FLAT_BYTES + MARKING_BYTES else BAD
    if operation == 17:
        return mend_line(body) if len(body) >= 9 else BAD
    if operation == LISTING:
        return listing_line(body)
    return BAD


def read_line(body):
    answer, chart, start = model.read_chart(body[1:])
    values = [chart.count] + words_of_sets(start)
    for e in range(chart.count):
        values += words_of_sets(table[e] for table in model.tables(chart)) + [model.mark_bits(chart.roles[e])]
    return line('read', answer, values)


def chart_line(operation, body):
    chart = flat_at(body, 1)
    marking = marking_at(body, 1 + FLAT_BYTES)
    if operation == 2:
        event, role = [model.number32(body, 1 + FLAT_BYTES + MARKING_BYTES + at) for at in (0, 4)]
        answer, after, blocks = model.execute(chart, marking, event, role)
        return line('execute', answer, words_of_sets(after + blocks))
    if operation == 3:
        answer, count, lowest = model.count_open(chart, marking)
        return line('count', answer, [count, lowest])
    if operation == 4:
        answer, yes = model.finished(chart, marking)
        return line('finished', answer, ['yes' if yes else 'no'])
    if operation == 14:
        answer, blocks = model.open_test(chart, marking, model.number32(body, 1 + FLAT_BYTES + MARKING_BYTES))
        return line('open', answer, words_of_sets(blocks))
    answer, snapshot = model.matching(chart, marking)
    return line('matching', answer, snapshot_words(snapshot))


def derive_line(body):
    length = model.number32(body, 1)
    if length > MAX_ROOM_BYTES:
        return BAD
    answer, room = model.derive(flat_at(body, 5), bytes([FILL]) * length)
    return line('derive', answer, [zlib.adler32(room)])


def check_line(body):
    count, stage = model.number32(body, 1), model.number32(body, 5)
    if count > MAX_NUMBERS:
        return BAD
    answer, room = model.check_book(body[9:], stage, [model.number32(bytes([FILL]) * 4, 0)] * count)
    return line('check', answer, [zlib.adler32(run32(room))])


def snapshot_at(body, at):
    return model.snapshot_of(members(int.from_bytes(body[at:at + SNAPSHOT_BYTES], 'little')))


def numbers_at(body, at, count):
    return list(struct.unpack_from('<%dI' % count, body, at))


def complete_line(body):
    stage, snapshot, count = model.number32(body, 1), snapshot_at(body, 5), model.number32(body, 5 + SNAPSHOT_BYTES)
    at = 9 + SNAPSHOT_BYTES  # where the order begins
    if count > MAX_NUMBERS or len(body) < at + 4 * count:
        return BAD
    answer, after = model.complete(body[at + 4 * count:], numbers_at(body, at, count), snapshot, stage)
    return line('complete', answer, snapshot_words(after))


def index_line(body):
    length = model.number32(body, 1)
    if length > MAX_ROOM_BYTES:
        return BAD
    answer, room = model.build_index(body[5:], bytes([FILL]) * length)
    return line('index', answer, [zlib.adler32(room)])


def indexed_line(body):
    stage, snapshot, length = model.number32(body, 1), snapshot_at(body, 5), model.number32(body, 5 + SNAPSHOT_BYTES)
    at = 9 + SNAPSHOT_BYTES  # where the index begins
    if len(body) < at + length:
        return BAD
    answer, after, evaluated = model.complete_indexed(body[at + length:], body[at:at + length], snapshot, stage)
    return line('indexed', answer, snapshot_words(after) + [evaluated])


def list_line(body):
    snapshot, count = snapshot_at(body, 1), model.number32(body, 1 + SNAPSHOT_BYTES)
    at = 9 + SNAPSHOT_BYTES + 4 * count  # where the index begins
    if count > MAX_NUMBERS or len(body) < at or len(body) - at < model.number32(body, at - 4):
        return BAD
    stages, end = numbers_at(body, 5 + SNAPSHOT_BYTES, count), at + model.number32(body, at - 4)
    answer, granted, after, evaluated = model.complete_list(body[end:], body[at:end], snapshot, stages)
    return line('list', answer, [granted] + snapshot_words(after) + [evaluated])


def record_at(body, at):
    """The record that begins there; None if it is too long or cut short."""
    if len(body) < at + 4 or model.number32(body, at) > MAX_NUMBERS or len(body) < at + 4 + 8 * model.number32(body, at):
        return None
    return model.records(body, at + 4, at + 4 + 8 * model.number32(body, at), 'II')


def record_line(operation, body, record):
    chart, start = flat_at(body, 1), marking_at(body, 1 + FLAT_BYTES)
    if operation == 12:
        answer, steps, code, marking, yes, blocks = model.replay(chart, start, record)
        return line('replay', answer, [steps, code] + words_of_sets(marking) + ['yes' if yes else 'no'] + words_of_sets(blocks))
    answer, marking, blocks = model.strike(chart, start, model.number32(body, 1 + FLAT_BYTES + MARKING_BYTES), record)
    return line('strike', answer, words_of_sets(marking + blocks))


def back_line(body):
    answer, chart = model.read_back(body[1:])
    return line('back', answer, [chart.count] + words_of_sets(table[e] for e in range(chart.count) for table in model.tables(chart)))


def smaller_line(body):
    length = model.number32(body, 1)
    if length > MAX_ROOM_BYTES:
        return BAD
    answer, room, table = model.derive_smaller(flat_at(body, 5), marking_at(body, 5 + FLAT_BYTES), bytes([FILL]) * length)
    return line('smaller', answer, [zlib.adler32(room), zlib.adler32(run16(table))])


def mend_line(body):
    lengths = [model.number32(body, at) for at in (1, 5)]
    if max(lengths) > MAX_ROOM_BYTES:
        return BAD
    answer, entries, *rooms = model.mend(body[9:], *[bytes([FILL]) * length for length in lengths])
    return line('mend', answer, [entries] + [zlib.adler32(room) for room in rooms])


def listing_line(body):
    text = model.listing(body[1:]).encode('ascii')
    return 'listing %d %d' % (len(text), zlib.adler32(text))


def answer_of(text):
    """Code, place and other of a line; BAD of a bad request."""
    return BAD if text == BAD else tuple(int(number) for number in text.split()[1:4])
