#!/usr/bin/env python3
"""Writes the sheet of cases for the decoder and the exchange, and what the program over it must print.

  python3 tools/case_sheet.py             writes crates/case_sheet/stdin and crates/case_sheet/stdout
  python3 tools/case_sheet.py --check     writes nothing, and fails where the two files are not what it would write
  python3 tools/case_sheet.py --summary   prints how many rows there are for each answer

The decoder and the exchange, in games.py, are written from the rules alone and share nothing with the library. Nearly every case
names its answer as the rules give it, and the decoder is held to that before anything is written. The sheet has a line for each
case: its name, a colon, a space, the file's bytes as hexadecimal digits. Files near the limits are too long for the sheet: the
program builds those itself, and this one builds them again in its own way.
"""
import sys
from collections import Counter

from games import (ACCEPTED, INITIAL, M_MOVES, M_STATES, MOVE, STATE, STAY, TARGET, Draft, Refused, after, answer, cut,
                   decode, encode, exchanged, head, kind, length, loops, m, move, one, p8, p9, record, state, tail, three,
                   without, write_sheet)

MAX_SHEET = 200_000
HEX_UP_TO = 512


# ---- What the program prints of a file ----

def check_sums(data):
    plain = weighted = 0
    for byte in data:
        plain = (plain + byte) % 65521
        weighted = (weighted + plain) % 65521
    return f'sums {plain} {weighted}'


def report(name, file):
    try:
        game = decode(file)
    except Refused as refused:
        number = refused.number
        return f'{name}: REFUSED {number}; exchange REFUSED {number}, untouched; into no room REFUSED {number}, untouched\n'
    out = encode(exchanged(game))
    assert encode(game) == file and len(out) == len(file) and encode(exchanged(decode(out))) == file, name
    shown = out.hex() if len(out) <= HEX_UP_TO else check_sums(out)
    return (f'{name}: accepted, {len(game["turns"])} states, {len(game["moves"])} moves; exchange {len(out)} {shown}; '
            f'again {len(out)}, same, rest untouched; one short REFUSED 1, untouched; longer {len(out)}, same, rest untouched\n')


# ---- The cases ----

CASES = []


def case(name, draft, expected, *changes):
    if isinstance(draft, Draft):
        for change in changes:
            change(draft)
        draft = draft.bytes()
    assert expected in (None, answer(draft)), f'{name}: {expected} stated, {answer(draft)} decoded'
    CASES.append((name, draft))


def accepted_cases():
    case('M', m(), ACCEPTED)
    case('M without 0 to 1', m(), ACCEPTED, without(0))
    case('M exchanged', Draft([(2, 3, 0), (1, 2, 1), (1, 2, 1), (2, 0, 3), (2, 2, 4)], M_MOVES, STAY), ACCEPTED)
    assert CASES[-1][1] == encode(exchanged(decode(m().bytes())))
    case('P5, one state, start and target, reach', one(3), ACCEPTED)
    case('P6, one state, start and no target, reach', one(1), ACCEPTED)
    case('P7, one state, start and target, stay', one(3, STAY), ACCEPTED)
    case('P6 with stay', one(1, STAY), ACCEPTED)
    case('P8, two starts in one block', p8(), ACCEPTED)
    case('P9, a block of both sides', p9(), ACCEPTED)
    case('M with stay', m(), ACCEPTED, head('objective', 2))
    case('P8 with stay', p8(), ACCEPTED, head('objective', 2))
    case('P9 with stay', p9(), ACCEPTED, head('objective', 2))
    case('one state of side 2, reach', one(3, turn=2), ACCEPTED)
    case('one state of side 2, stay', one(1, STAY, turn=2), ACCEPTED)
    case('three states in a ring', three(), ACCEPTED)
    case('empty target', m(), ACCEPTED, state(3, 'marks', 0))
    case('empty target, stay', m(), ACCEPTED, state(3, 'marks', 0), head('objective', 2))
    case('everything target', loops([(1, 3, 0), (2, 2, 1), (1, 2, 2)]), ACCEPTED)
    case('everything target, one block each side of the starts', loops([(1, 3, 0), (2, 2, 1), (1, 2, 1)]), ACCEPTED)
    case('every state a start', loops([(1, 1, 0), (2, 3, 1), (1, 1, 0)]), ACCEPTED)
    case('every state a start, stay', loops([(1, 1, 0), (2, 3, 1), (1, 1, 0)], STAY), ACCEPTED)
    case('one block of everything, starts and no target', loops([(1, 1, 0), (2, 1, 0), (1, 1, 0), (2, 1, 0)]), ACCEPTED)
    case('one block of everything, starts and target', loops([(2, 3, 0), (2, 3, 0), (1, 3, 0)], STAY), ACCEPTED)
    case('all four marks', loops([(1, 0, 0), (1, 1, 1), (2, 2, 2), (2, 3, 3)]), ACCEPTED)
    case('the last state is the only start', loops([(1, 0, 0), (2, 2, 1), (1, 1, 2)]), ACCEPTED)
    case('two blocks that take turns', loops([(1, 1, 0), (2, 2, 1), (1, 1, 0), (1, 2, 1), (2, 1, 0)]), ACCEPTED)
    case('blocks of two, two and one', loops([(1, 3, 0), (1, 3, 0), (2, 0, 2), (1, 0, 2), (2, 2, 4)]), ACCEPTED)
    case('a block whose lowest member is the last but one', loops([(1, 1, 0), (1, 2, 1), (2, 0, 2), (1, 0, 2)]), ACCEPTED)
    case('every move there is among four states', Draft([(1, 1, 0), (2, 0, 1), (1, 0, 1), (2, 2, 3)],
                                                        [(start, end) for start in range(4) for end in range(4)]), ACCEPTED)
    case('all moves to the last state', Draft([(1, 1, 0), (2, 0, 1), (1, 2, 2)], [(0, 2), (1, 2), (2, 2)]), ACCEPTED)
    case('all moves to the first state', Draft([(2, 1, 0), (2, 0, 1), (2, 2, 2)], [(0, 0), (1, 0), (2, 0)], STAY), ACCEPTED)
    case('thirty states in two blocks', Draft([(1 + s % 2, 1 if s < 10 else 2, 0 if s < 10 else 10) for s in range(30)],
                                                                     [(s, (7 * s + 3) % 30) for s in range(30)]), ACCEPTED)


def scope_cases():
    """The cases that the rules name themselves, but for those at the limits."""
    case('P10, empty file', b'', 2)
    case('P10, a good head alone', m(), 2, cut(10))
    case('state 0 with block 1', m(), 5, state(0, 'block', 1))
    case('state 3 with block 2 while state 2 has block 1', m(), 5, state(3, 'block', 2))
    case('a pair repeated', m(), 6, move(4, 2, 3))
    case('a bad turn and bytes at the end', m(), 5, state(1, 'turn', 3), tail(b'\0'))
    case('no start and a moveless state', m(), 8, state(0, 'marks', 0), without(6))
    case('faults 10 and 11 together', loops([(1, 3, 0), (1, 0, 0)]), 10)


def head_cases():
    for value in (0, 2, 6, 7, 9, 10, 264, 2048, 65535):
        case(f'head with length {value}', m(), 3, length(('head', 0), value))
    for value in (0, 2, 3, 4, 256, 257, 65535):
        case(f'head with kind {value}', m(), 3, kind(('head', 0), value))
    case('a state where the head is due', m().bytes()[10:], 3)
    case('a move where the head is due', m().bytes()[50:], 3)
    case('a second head where a state is due', m().bytes()[:10] + m().bytes(), 3)
    for value, expected in ((0, 4), (513, 4), (514, 4), (1024, 4), (1280, 4), (32768, 4), (65535, 4),
                            (4, 3), (6, 3), (256, 3), (261, 3), (512, 3)):
        case(f'M that announces {value} states', m(), expected, head('states', value))
    for value, expected in ((0, 4), (4097, 4), (4098, 4), (8192, 4), (65535, 4),
                            (1, 7), (6, 7), (8, 2), (256, 2), (263, 2), (1792, 2), (4096, 2)):
        case(f'M that announces {value} moves', m(), expected, head('moves', value))
    for value in (0, 3, 4, 255, 256, 257, 258, 512, 513, 65535):
        case(f'M with objective {value}', m(), 4, head('objective', value))
    case('no states and no moves', m(), 4, head('states', 0), head('moves', 0))
    case('too many states and too many moves', m(), 4, head('states', 513), head('moves', 4097))
    case('all three numbers of the head wrong', m(), 4, head('states', 0), head('moves', 0), head('objective', 0))


def record_cases():
    """Length and kind, for every kind of record at its first, a middle and its last place."""
    for sort, numbers, own in (('state', (0, 2, 4), STATE), ('move', (0, 3, 6), MOVE)):
        for place, number in zip(('first', 'middle', 'last'), numbers):
            here = sort, number
            for value in (0, 5, 7, 8, 262, 1536, 65535):
                case(f'{place} {sort} with length {value}', m(), 3, length(here, value))
            for value in (0, 1, 5 - own, 4, own + 256, own * 256, 65535):
                case(f'{place} {sort} with kind {value}', m(), 3, kind(here, value))
            case(f'{place} {sort} with length and kind of a head', m(), 3, length(here, 8), kind(here, 1))
            case(f'file ends before the {place} {sort}', m(), 2, after(here, 0))
            case(f'{place} {sort} cut to three bytes', m(), 2, after(here, 3))
            case(f'{place} {sort} cut to length and kind', m(), 2, after(here, 4))
            case(f'{place} {sort} cut by its last byte', m(), 2, after(here, 7))
            case(f'{place} {sort} with a wrong length, cut to three bytes', m(), 2, length(here, 7), after(here, 3))
            case(f'{place} {sort} with a wrong kind, cut to three bytes', m(), 2, kind(here, 4), after(here, 3))
            case(f'{place} {sort} with a wrong length, cut to length and kind', m(), 3, length(here, 7), after(here, 4))
            case(f'{place} {sort} with a wrong kind, cut to length and kind', m(), 3, kind(here, 4), after(here, 4))
            case(f'{place} {sort} with a wrong kind, cut by its last byte', m(), 3, kind(here, 4), after(here, 7))
    case('head with a wrong length, cut to three bytes', m(), 2, length(('head', 0), 7), cut(3))
    case('head with a wrong length, cut to length and kind', m(), 3, length(('head', 0), 7), cut(4))
    case('head with a wrong kind, cut to length and kind', m(), 3, kind(('head', 0), 2), cut(4))
    case('head with a wrong kind, cut by its last byte', m(), 3, kind(('head', 0), 2), cut(9))


def state_cases():
    for place, number in (('first', 0), ('middle', 2), ('last', 4)):
        for value in (0, 3, 4, 128, 255):
            case(f'{place} state with turn {value}', m(), 5, state(number, 'turn', value))
        for value in (1, 2):
            case(f'{place} state with turn {value}', m(), ACCEPTED, state(number, 'turn', value))
        for value in (4, 5, 7, 128, 255):
            case(f'{place} state with marks {value}', m(), 5, state(number, 'marks', value))
        own = M_STATES[number][2]
        for value in sorted({number + 1, own + 256, 256 * (own + 1), 512, 65535}):
            case(f'{place} state with block {value}', m(), 5, state(number, 'block', value))
    for value, expected in ((0, ACCEPTED), (1, ACCEPTED), (2, ACCEPTED), (3, ACCEPTED), (4, 5), (255, 5)):
        case(f'last state with marks {value} in a game of loops', loops([(1, 1, 0), (2, 2, 1), (1, value, 2)]), expected)
    case('state 2 with its own block, between two of another', loops([(1, 1, 0), (2, 0, 1), (1, 0, 2), (1, 0, 1)]), ACCEPTED)
    case('state 2 with block 1 while state 1 has block 0', loops([(1, 1, 0), (2, 1, 0), (1, 1, 1)]), 5)
    case('state 3 with block 1 while state 1 has block 0', loops([(1, 1, 0), (2, 1, 0), (1, 1, 0), (1, 1, 1)]), 5)
    case('last state with the block of a state that names the first', loops([(1, 1, 0), (2, 1, 0), (1, 2, 2), (1, 1, 1)]), 5)
    case('a chain of blocks, each naming the state before', loops([(1, 1, 0), (2, 1, 0), (1, 1, 1), (1, 1, 2)]), 5)
    case('state 4 with block 3, which is another and stands alone', m(), 11, state(4, 'block', 3))
    case('state 4 with block 0, the start', m(), 10, state(4, 'block', 0))
    case('state 4 with block 1, like 1 and 2', m(), ACCEPTED, state(4, 'block', 1))
    case('state 4 with block 2, whose own block is 1', m(), 5, state(4, 'block', 2))
    case('turn and marks of a state traded', m(), 5, state(1, 'turn', 0), state(1, 'marks', 2))
    case('block 2 written with its high byte first', loops([(1, 1, 0), (2, 0, 1), (1, 0, 2), (1, 0, 512)]), 5)


def move_cases():
    for place, number in (('first', 0), ('middle', 3), ('last', 6)):
        start, end = M_MOVES[number]
        case(f'{place} move from a state that is not there', m(), 6, move(number, 5, end))
        case(f'{place} move to a state that is not there', m(), 6, move(number, start, 5))
        case(f'{place} move from and to a state that is not there', m(), 6, move(number, 5, 5))
        case(f'{place} move from {start + 256}', m(), 6, move(number, start + 256, end))
        case(f'{place} move to {end + 256}', m(), 6, move(number, start, end + 256))
        case(f'{place} move from 65535', m(), 6, move(number, 65535, end))
        case(f'{place} move to 65535', m(), 6, move(number, start, 65535))
    for number in (1, 4, 6):
        case(f'move {number} repeats the one before', m(), 6, move(number, *M_MOVES[number - 1]))
    case('first pair again at the end', m(), 6, move(6, 0, 1))
    case('from descends at the second move', three(), 6, move(0, 1, 1), move(1, 0, 1))
    case('from descends in the middle', m(), 6, move(4, 1, 4))
    case('from descends at the last move', m(), 6, move(6, 2, 4))
    case('from descends while to ascends', three(), 6, move(3, 0, 2))
    case('to descends under one from, first two moves', m(), 6, move(0, 0, 2), move(1, 0, 1))
    case('to descends under one from, middle', m(), 6, move(3, 2, 4), move(4, 2, 3))
    case('to descends under one from, last two moves', three(), 6, move(4, 2, 2), move(5, 2, 0))
    case('to descends while from ascends', three(), ACCEPTED, move(3, 1, 2), move(4, 2, 0))
    case('to stays while from ascends', three(), ACCEPTED, move(2, 1, 1), move(3, 1, 2), move(4, 2, 1))
    case('moves in descending order', Draft([(1, 1, 0), (2, 0, 1), (1, 2, 2)], [(2, 2), (1, 1), (0, 0)]), 6)
    case('moves in the order of to, then from', Draft([(1, 1, 0), (2, 2, 1)], [(0, 0), (1, 0), (0, 1), (1, 1)]), 6)


def whole_file_cases():
    case('one zero byte at the end', m(), 7, tail(b'\0'))
    case('one byte 255 at the end', m(), 7, tail(b'\xff'))
    case('three bytes at the end', m(), 7, tail(b'\6\0\3'))
    case('one move record more than announced', m(), 7, tail(record(MOVE, 4, 0, 4, 0)))
    case('one state record at the end', m(), 7, tail(record(STATE, 1, 0, 0, 0)))
    case('a whole second file at the end', m(), 7, tail(m().bytes()))
    case('one byte after one state and one move', one(3), 7, tail(b'\0'))
    case('M with no mark but the target', m(), 8, state(0, 'marks', 0))
    case('M with no mark at all', m(), 8, state(0, 'marks', 0), state(3, 'marks', 0))
    case('one state, target and no start', one(2), 8)
    case('one state, neither start nor target', one(0), 8)
    case('first state without a move', three(), 9, without(0, 1))
    case('middle state without a move', three(), 9, without(2, 3))
    case('last state without a move', three(), 9, without(4, 5))
    case('two states without a move', m(), 9, without(5, 6))
    case('only the first state has moves', three(), 9, without(2, 3, 4, 5))
    case('a state that is only moved to', Draft([(1, 1, 0), (2, 2, 1)], [(0, 0), (0, 1)]), 9)
    for number, bit, what in ((10, INITIAL, 'start'), (11, TARGET, 'target')):
        spare = 0 if number == 10 else INITIAL
        yes, no = spare | bit, spare
        case(f'block whose first member alone is {what}', loops([(1, yes, 0), (1, no, 0)]), number)
        case(f'block whose second member alone is {what}', loops([(1, no, 0), (1, yes, 0)]), number)
        case(f'block whose middle member alone is {what}', loops([(1, no, 0), (2, yes, 0), (1, no, 0)]), number)
        case(f'block whose middle member alone is not {what}', loops([(1, yes, 0), (2, no, 0), (1, yes, 0)]), number)
        case(f'block whose last member alone is {what}', loops([(1, no, 0), (2, no, 0), (1, yes, 0)]), number)
        case(f'last block is mixed, {what} and others', loops([(1, yes, 0), (1, no, 1), (1, no, 2), (2, yes, 2)]), number)
        case(f'middle block is mixed, {what} and others', loops([(1, yes, 0), (1, no, 1), (1, yes, 1), (2, yes, 3)]), number)
        case(f'mixed block of far members, {what} and others', loops([(1, yes, 0), (1, no, 1), (2, no, 2), (1, no, 0)]), number)
        case(f'every block is mixed, {what} and others', loops([(1, yes, 0), (1, no, 0), (2, no, 2), (1, yes, 2)]), number)
    case('one block of everything in M', m(), 10, *(state(number, 'block', 0) for number in range(5)))


def order_base():
    """A good file with a place for each fault of the pairs: 0 is the start; 1 is alone, where 9 is made; 2 and 3 are a block, where
    10 is made; 4 and 5 are a block, where 11 is made."""
    return Draft([(1, 1, 0), (2, 0, 1), (1, 1, 2), (2, 1, 2), (1, 2, 4), (2, 2, 4)],
                 [(0, 0), (0, 1), (1, 1), (2, 2), (3, 3), (4, 4), (5, 5)])


def nobody_starts(draft):
    for fields in draft.states:
        fields[1] &= TARGET


# One change for each refusal, laid over that base. 2, 3 and 6 all change the last move, where length, kind and cut come before the
# fields; the other changes leave each other's places alone.
FAULTS = [
    (2, 'the last byte cut off', cut(-1)),
    (3, 'a wrong kind in the last move', kind(('move', 6), 4)),
    (4, 'objective 3', head('objective', 3)),
    (5, 'turn 0 in the last state', state(5, 'turn', 0)),
    (6, 'the last move to a state that is not there', move(6, 5, 6)),
    (7, 'a byte at the end', tail(b'\0')),
    (8, 'no start', nobody_starts),
    (9, 'state 1 without a move', move(2, 2, 1)),
    (10, 'a block of a start and another', state(3, 'marks', 0)),
    (11, 'a block of a target and another', state(5, 'marks', 0)),
]

# The pairs of which the second is met first, since it stands in an earlier record, or, with 2 and 3, is tested earlier in the same.
LATER_WINS = {(2, 3), (2, 4), (2, 5), (3, 4), (3, 5)}
# The pairs that no file has together: a cut file has nothing after its end, and without a start no block has one.
NEVER = {(2, 7), (8, 10)}


def order_cases():
    case('the base of the pairs', order_base(), ACCEPTED)
    for number, words, change in FAULTS:
        case(f'only {words}', order_base(), number, change)
    for at, (low, low_words, low_change) in enumerate(FAULTS):
        for high, high_words, high_change in FAULTS[at + 1:]:
            if (low, high) in NEVER:
                continue
            first = high if (low, high) in LATER_WINS else low
            case(f'{low} and {high}, {low_words} and {high_words}', order_base(), first, low_change, high_change)
    case('7, 9, 10 and 11 together', order_base(), 7, *(change for number, _, change in FAULTS if number in (7, 9, 10, 11)))
    case('9, 10 and 11 together', order_base(), 9, *(change for number, _, change in FAULTS if number in (9, 10, 11)))
    case('8, 9 and 11 together', order_base(), 8, *(change for number, _, change in FAULTS if number in (8, 9, 11)))
    case('everything that can be wrong at once', order_base(), 4, *(change for number, _, change in FAULTS if number != 2))
    case('11 in a lower block than 10', loops([(1, 2, 0), (1, 0, 0), (1, 1, 2), (2, 0, 2)]), 10)
    case('10 and 11 in two members of one block', loops([(1, 1, 0), (1, 2, 0)]), 10)


def first_record_cases():
    """The first faulty record decides, whatever the numbers."""
    case('bad turn in state 1, wrong kind in state 2', m(), 5, state(1, 'turn', 0), kind(('state', 2), 3))
    case('wrong kind in state 1, bad turn in state 2', m(), 3, kind(('state', 1), 3), state(2, 'turn', 0))
    case('bad turn and wrong kind in one state', m(), 3, state(1, 'turn', 0), kind(('state', 1), 3))
    case('bad turn and wrong length in one state', m(), 3, state(1, 'turn', 0), length(('state', 1), 5))
    case('bad turn in state 1, wrong length in a move', m(), 5, state(1, 'turn', 0), length(('move', 3), 7))
    case('bad marks in state 1, bad turn in state 3', m(), 5, state(1, 'marks', 4), state(3, 'turn', 0))
    case('bad turn, bad marks and bad block in one state', m(), 5, state(1, 'turn', 0), state(1, 'marks', 9), state(1, 'block', 9))
    case('bad turn in state 1, file ends after state 1', m(), 5, state(1, 'turn', 0), after(('state', 1), 8))
    case('bad turn in state 1, file ends inside state 1', m(), 2, state(1, 'turn', 0), after(('state', 1), 6))
    case('bad turn in state 1, file ends inside state 2', m(), 5, state(1, 'turn', 0), after(('state', 2), 3))
    case('bad turn in state 4, file ends inside state 2', m(), 2, state(4, 'turn', 0), after(('state', 2), 3))
    case('bad block in the last state, file ends there', m(), 5, state(4, 'block', 5), after(('state', 4), 8))
    case('wrong kind in state 1, file ends inside state 3', m(), 3, kind(('state', 1), 3), after(('state', 3), 5))
    case('wrong kind in state 3, file ends inside state 1', m(), 2, kind(('state', 3), 3), after(('state', 1), 5))
    case('first move leads nowhere, wrong kind in the second', m(), 6, move(0, 0, 5), kind(('move', 1), 2))
    case('wrong kind in the first move, second leads nowhere', m(), 3, kind(('move', 0), 2), move(1, 0, 5))
    case('wrong kind in a move that leads nowhere', m(), 3, kind(('move', 2), 2), move(2, 1, 5))
    case('wrong length in a move that leads nowhere', m(), 3, length(('move', 2), 8), move(2, 1, 5))
    case('first move leads nowhere, file ends after it', m(), 6, move(0, 0, 5), after(('move', 0), 8))
    case('first move leads nowhere, file ends inside it', m(), 2, move(0, 0, 5), after(('move', 0), 7))
    case('move from nowhere, file ends before its to', m(), 2, move(3, 9, 9), after(('move', 3), 6))
    case('first move leads nowhere, last move cut', m(), 6, move(0, 0, 5), cut(-1))
    case('last move repeats and is cut', m(), 2, move(6, 3, 3), cut(-1))
    case('first move leads nowhere, bad turn in the last state', m(), 5, move(0, 0, 5), state(4, 'turn', 0))
    case('first move leads nowhere, wrong kind in the last state', m(), 3, move(0, 0, 5), kind(('state', 4), 3))
    case('second move repeats the first, third leads nowhere', m(), 6, move(1, 0, 1), move(2, 1, 5))
    case('no states, file ends after the head', m(), 4, head('states', 0), cut(10))
    case('no states, head cut by its last byte', m(), 2, head('states', 0), cut(9))
    case('no states, head with a wrong kind', m(), 3, head('states', 0), kind(('head', 0), 2))
    case('no states, head with a wrong length', m(), 3, head('states', 0), length(('head', 0), 9))
    case('too many moves, wrong kind in the first state', m(), 4, head('moves', 4097), kind(('state', 0), 3))
    case('too many moves, bad turn in the first state', m(), 4, head('moves', 4097), state(0, 'turn', 0))
    case('too many states, first move leads nowhere', m(), 4, head('states', 513), move(0, 0, 5))
    case('one move too few announced, and the first leads nowhere', m(), 6, head('moves', 6), move(0, 0, 5))
    case('one move too many announced, and no start', m(), 2, head('moves', 8), state(0, 'marks', 0))
    case('one state too few announced, and no start', m(), 3, head('states', 4), state(0, 'marks', 0))
    case('one state too many announced, and bad marks in the last', m(), 5, head('states', 6), state(4, 'marks', 4))
    case('the two last records traded for a state and a move', m(), 3, kind(('state', 4), 3), kind(('move', 0), 2))


def cut_cases():
    for name, file in (('M', m().bytes()), ('P7', one(3, STAY).bytes())):
        for size in range(len(file)):
            case(f'{name} cut to {size} bytes', file[:size], 2)


def raised_cases():
    """Each byte of M in turn, one higher: the decoder above alone says what that gives."""
    file = m().bytes()
    for at in range(len(file)):
        case(f'M with byte {at} one higher', file[:at] + bytes([file[at] + 1]) + file[at + 1:], None)


# ---- Files at the limits, which the program builds ----

def long_file(states, moves):
    """Each state its own block, turns alternating, the first state initial, the last one target; the moves shared out evenly, each
    state's to 0, 1, 2 and so on. A state has a move as long as they last."""
    share = max(1, moves // states)
    pairs = [(start, end) for start in range(max(states, moves)) for end in range(share)][:moves]
    marks = [(INITIAL if number == 0 else 0) + (TARGET if number == states - 1 else 0) for number in range(states)]
    return Draft([(1 + number % 2, mark, number) for number, mark in enumerate(marks)], pairs).bytes()


def changed(file, at, *values):
    return file[:at] + bytes(values) + file[at + len(values):]


def limit_cases():
    largest = long_file(512, 4096)
    assert len(largest) == 36_874
    last_state = 10 + 8 * 511
    yield 'one state, one move', long_file(1, 1), ACCEPTED
    yield '512 states, 512 moves', long_file(512, 512), ACCEPTED
    yield '512 states, 511 moves', long_file(512, 511), 9
    yield '513 states, 513 moves', long_file(513, 513), 4
    yield '64 states, 4096 moves', long_file(64, 4096), ACCEPTED
    yield '241 states, 4097 moves', long_file(241, 4097), 4
    yield '512 states, 4096 moves', largest, ACCEPTED
    yield 'largest file cut by one byte', largest[:-1], 2
    yield 'largest file and one byte more', largest + b'\0', 7
    yield 'largest file, wrong kind in the last move', changed(largest, 36_868, 2), 3
    yield 'largest file, turn 3 in the last state', changed(largest, last_state + 4, 3), 5
    yield 'largest file, block 512 in the last state', changed(largest, last_state + 6, 0, 2), 5
    yield 'largest file, block 255 in the last state', changed(largest, last_state + 6, 255, 0), 11
    yield 'largest file, block 510 in the last state', changed(largest, last_state + 6, 254, 1), 11
    yield 'largest file, last move to 512', changed(largest, 36_872, 0, 2), 6
    yield 'largest file, last move repeats the one before', changed(largest, 36_872, 6), 6
    yield 'largest file, last move to 511', changed(largest, 36_872, 255, 1), ACCEPTED
    yield 'largest file, no start', changed(largest, 15, 0), 8


# ---- Writing ----

def build():
    for group in (accepted_cases, scope_cases, head_cases, record_cases, state_cases, move_cases, whole_file_cases, order_cases,
                  first_record_cases, cut_cases, raised_cases):
        group()
    names = [name for name, _ in CASES]
    assert len(set(names)) == len(names), [name for name, count in Counter(names).items() if count > 1]
    assert not any(':' in name or '\n' in name or not name.isascii() for name in names)
    sheet = ''.join(f'{name}: {file.hex()}\n' for name, file in CASES)
    assert len(sheet) <= MAX_SHEET, len(sheet)
    printed = ''.join(report(name, file) for name, file in CASES)
    for name, file, expected in limit_cases():
        assert answer(file) == expected, (name, answer(file))
        printed += report(name, file)
    return sheet, printed


def main():
    sheet, printed = build()
    if '--summary' in sys.argv:
        counts = Counter(answer(file) for _, file in CASES)
        print(f'{len(CASES)} rows, {len(sheet)} bytes; printed {len(printed)} bytes, {printed.count(chr(10))} lines')
        for key in sorted(counts, key=str):
            print(key, counts[key])
        return
    write_sheet('case_sheet', sheet, printed)


if __name__ == '__main__':
    main()
