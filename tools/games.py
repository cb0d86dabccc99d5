"""Game files: their rules, drafts of files that may be wrong, and the writing of a sheet of cases.

The decoder, the encoder and the exchange are written from the rules alone and share nothing with the library.
"""
import os
import sys

MAX_STATES = 512
MAX_MOVES = 4096
REACH, STAY = 1, 2
HEAD, STATE, MOVE = 1, 2, 3
INITIAL, TARGET = 1, 2
ACCEPTED = 'accepted'


# ---- The rules: a decoder and an exchange ----

class Refused(Exception):
    def __init__(self, number):
        super().__init__(number)
        self.number = number


def number_at(file, at):
    return file[at] + 256 * file[at + 1]


def record_body(file, at, length, kind):
    """The body of the record that begins at `at` and is due to have this length and kind."""
    if len(file) - at < 4:
        raise Refused(2)
    if number_at(file, at) != length or number_at(file, at + 2) != kind:
        raise Refused(3)
    end = at + 2 + length
    if len(file) < end:
        raise Refused(2)
    return file[at + 4:end]


def decode(file):
    """The game as a dictionary; `Refused` with the number of the first fault met."""
    body = record_body(file, 0, 8, HEAD)
    states, moves, objective = (number_at(body, at) for at in (0, 2, 4))
    if not 1 <= states <= MAX_STATES or not 1 <= moves <= MAX_MOVES or objective not in (REACH, STAY):
        raise Refused(4)
    at = 10
    turns, marks, blocks = [], [], []
    for state in range(states):
        body = record_body(file, at, 6, STATE)
        turn, mark, block = body[0], body[1], number_at(body, 2)
        blocks.append(block)
        if turn not in (1, 2) or mark > 3 or block > state or blocks[block] != block:
            raise Refused(5)
        turns.append(turn)
        marks.append(mark)
        at += 8
    pairs = []
    for _ in range(moves):
        body = record_body(file, at, 6, MOVE)
        pair = number_at(body, 0), number_at(body, 2)
        if max(pair) >= states or (pairs and pair <= pairs[-1]):
            raise Refused(6)
        pairs.append(pair)
        at += 8
    if at < len(file):
        raise Refused(7)
    if not any(mark & INITIAL for mark in marks):
        raise Refused(8)
    if {start for start, _ in pairs} != set(range(states)):
        raise Refused(9)
    for bit, number in ((INITIAL, 10), (TARGET, 11)):
        for block in set(blocks):
            if len({marks[state] & bit for state in range(states) if blocks[state] == block}) > 1:
                raise Refused(number)
    return {'objective': objective, 'turns': turns, 'marks': marks, 'blocks': blocks, 'moves': pairs}


def answer(file):
    try:
        decode(file)
    except Refused as refused:
        return refused.number
    return ACCEPTED


def encode(game):
    """The file of a game that a decoder accepts."""
    parts = [record(HEAD, *two(len(game['turns'])), *two(len(game['moves'])), *two(game['objective']))]
    for turn, mark, block in zip(game['turns'], game['marks'], game['blocks']):
        parts.append(record(STATE, turn, mark, *two(block)))
    for start, end in game['moves']:
        parts.append(record(MOVE, *two(start), *two(end)))
    return b''.join(parts)


def exchanged(game):
    """Each turn flipped, the other states as target, reach for stay and stay for reach; all else kept."""
    return dict(game,
                objective=STAY if game['objective'] == REACH else REACH,
                turns=[1 if turn == 2 else 2 for turn in game['turns']],
                marks=[(mark & INITIAL) | (0 if mark & TARGET else TARGET) for mark in game['marks']])


# ---- Drafts: files that may be wrong ----

def two(number):
    return number % 256, number // 256


def record(kind, *body):
    return bytes((*two(2 + len(body)), *two(kind), *body))


class Draft:
    """A file still in parts: a head, state records, move records, and what is done to them at the end."""

    def __init__(self, states, moves, objective=REACH):
        self.states = [list(state) for state in states]
        self.moves = [list(move) for move in moves]
        self.head = [len(states), len(moves), objective]
        self.lengths, self.kinds = {}, {}
        self.tail = b''
        self.size = None

    def index(self, place):
        """The number of a record: `('state', 2)` is the third state's."""
        sort, number = place
        return {'head': 0, 'state': 1, 'move': 1 + len(self.states)}[sort] + number

    def bytes(self):
        parts = [record(HEAD, *two(self.head[0]), *two(self.head[1]), *two(self.head[2]))]
        parts += [record(STATE, turn, mark, *two(block)) for turn, mark, block in self.states]
        parts += [record(MOVE, *two(start), *two(end)) for start, end in self.moves]
        for at, length in self.lengths.items():
            parts[at] = bytes(two(length)) + parts[at][2:]
        for at, kind in self.kinds.items():
            parts[at] = parts[at][:2] + bytes(two(kind)) + parts[at][4:]
        return (b''.join(parts) + self.tail)[:self.size]


M_STATES = [(1, 1, 0), (2, 0, 1), (2, 0, 1), (1, 2, 3), (1, 0, 4)]
M_MOVES = [(0, 1), (0, 2), (1, 3), (2, 3), (2, 4), (3, 3), (4, 4)]


def m():
    return Draft(M_STATES, M_MOVES)


def three():
    """Three states in a ring with a spare move each, everything a block of its own: room for faults that M has no place for."""
    return Draft([(1, 1, 0), (2, 0, 1), (1, 2, 2)], [(0, 0), (0, 1), (1, 1), (1, 2), (2, 0), (2, 2)])


def one(mark, objective=REACH, turn=1):
    return Draft([(turn, mark, 0)], [(0, 0)], objective)


def p8():
    return Draft([(1, 1, 0), (1, 1, 0), (1, 2, 2), (1, 0, 3)], [(0, 2), (1, 3), (2, 2), (3, 3)])


def p9():
    return Draft([(1, 1, 0), (1, 0, 1), (2, 0, 1), (1, 2, 3), (1, 0, 4)], [(0, 1), (1, 3), (2, 4), (3, 3), (4, 4)])


def loops(states, objective=REACH):
    """A game whose states only move to themselves."""
    return Draft(states, [(state, state) for state in range(len(states))], objective)


# ---- Changes of a draft ----

def kind(place, value):
    def change(draft):
        draft.kinds[draft.index(place)] = value
    return change


def length(place, value):
    def change(draft):
        draft.lengths[draft.index(place)] = value
    return change


def head(field, value):
    def change(draft):
        draft.head[{'states': 0, 'moves': 1, 'objective': 2}[field]] = value
    return change


def state(number, field, value):
    def change(draft):
        draft.states[number][{'turn': 0, 'marks': 1, 'block': 2}[field]] = value
    return change


def move(number, start, end):
    def change(draft):
        draft.moves[number] = [start, end]
    return change


def without(*numbers):
    """Leaves moves out, and announces as many fewer."""
    def change(draft):
        draft.moves = [pair for number, pair in enumerate(draft.moves) if number not in numbers]
        draft.head[1] = len(draft.moves)
    return change


def tail(data):
    def change(draft):
        draft.tail += data
    return change


def cut(size):
    """Keeps this many bytes; a number below 0 counts what is dropped at the end."""
    def change(draft):
        draft.size = size
    return change


def after(place, count):
    """Keeps this many bytes of the record at this place, and nothing behind them."""
    def change(draft):
        at = draft.index(place)
        draft.size = (0 if at == 0 else 10 + 8 * (at - 1)) + count
    return change


# ---- Writing a sheet ----

def write_sheet(crate, sheet, printed):
    """Writes what a sheet program reads and what it must print; with `--check`, only compares."""
    folder = os.path.join(os.path.dirname(os.path.abspath(__file__)), '..', 'crates', crate)
    for name, text in (('stdin', sheet), ('stdout', printed)):
        path = os.path.join(folder, name)
        if '--check' in sys.argv:
            if open(path, encoding='ascii').read() != text:
                sys.exit(f'{name} is not what the cases give: run {sys.argv[0]}')
        else:
            with open(path, 'w', encoding='ascii') as out:
                out.write(text)
