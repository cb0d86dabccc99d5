#!/usr/bin/env python3
"""Writes the sheet of cases for the solver, and what the program over it must print.

  python3 tools/solve_sheet.py              writes crates/solve_sheet/stdin and crates/solve_sheet/stdout
  python3 tools/solve_sheet.py --check      writes nothing, and fails where the two files are not what it would write
  python3 tools/solve_sheet.py --summary    prints how many rows there are for each verdict
  python3 tools/solve_sheet.py --random N   runs the built program over N random games, and compares

The solver is that of solving.py. Before anything is written each case is solved again without blocks, its plan is followed through
all plays, and it is held against its exchange. The sheet has a line for each case: its name, a colon, and, each after a space, the
allowance, the places of the three lent rows (marks, blocks, moves), and the file's bytes as hexadecimal digits.
"""
import os
import subprocess
import sys
from collections import Counter

import solving
from games import (INITIAL, MAX_STATES, REACH, STAY, TARGET, Draft, Refused, cut, decode, encode, exchanged, head, kind, m, move,
                   one, p8, p9, state, tail, without, write_sheet)

MAX_SHEET = 200_000
MAX_PRINTED = 300_000
FOLDER = os.path.dirname(os.path.abspath(__file__))
ENOUGH = 511
ROWS = (600, 600, 600)


# ---- The cases ----

CASES = []


def case(name, draft, allowance=ENOUGH, *, rows=ROWS, stated=None):
    """A case. What is stated of it is the whole answer, with a slash between lines and without the heading."""
    file = draft.bytes() if isinstance(draft, Draft) else draft
    CASES.append((name, file, allowance, rows))
    if stated is not None:
        found = [line for line in answer(solving, file, allowance, rows) if line != 'state mark block move']
        assert ' / '.join(found) == stated, f'{name}: {" / ".join(found)}'


def answer(solver, file, allowance, rows):
    """The lines that the solver and these rows give."""
    try:
        if min(rows) < MAX_STATES:
            raise Refused(1)
        return solver.shown(solver.solve(decode(file), allowance))
    except Refused as refused:
        return [f'REFUSED {refused.number}']


def both(name, draft, allowance=ENOUGH, *, stated=None):
    """A case, and the exchanged game with the same allowance unless it is a case already."""
    case(name, draft, allowance, stated=stated)
    other = encode(exchanged(decode(draft.bytes())))
    if (other, allowance, ROWS) not in [row[1:] for row in CASES]:
        case(f'{name}, exchanged', other, allowance)


def needed(draft):
    """The splits that are made when the allowance is no limit."""
    return solving.solve(decode(draft.bytes()), ENOUGH).splits


def border(draft):
    """The border blocks of the first round, ascending."""
    game = decode(draft.bytes())
    return sorted(solving.Round(solving.Board(game), solving.starting_blocks(game)).border())


def drawn(sides, starts, target, blocks, moves, objective=REACH):
    """A draft from a drawing: a digit for each state's side; the initial states and the target; the blocks of more than one
    member; the moves. As in `drawn('12211', '0', '3', '1,2', '0>1,2 1>3 2>3,4 3>3 4>4')`, which is M."""
    marks = [0 for _ in sides]
    for bit, chosen in ((INITIAL, starts), (TARGET, target)):
        for number in numbers(chosen):
            marks[number] |= bit
    block = list(range(len(sides)))
    for members in blocks.split():
        for number in numbers(members):
            block[number] = min(numbers(members))
    pairs = [(int(start), end) for start, ends in (group.split('>') for group in moves.split()) for end in numbers(ends)]
    return Draft([(int(side), marks[number], block[number]) for number, side in enumerate(sides)], sorted(pairs), objective)


def numbers(text):
    return [int(number) for number in text.split(',') if number]


def other_objective(draft):
    head('objective', STAY if draft.head[2] == REACH else REACH)(draft)
    return draft


def p3():
    draft = m()
    without(0)(draft)
    return draft


def p4():
    return drawn('21122', '0', '0,1,2,4', '1,2', '0>1,2 1>3 2>3,4 3>3 4>4', STAY)


TABLE = [
    ('P1, M', m, ENOUGH, 'YES 0 1 / 0 sure 0 1 / 1 sure 1 - / 2 never 2 - / 3 sure 3 - / 4 never 4 -'),
    ('P2, M with no split allowed', m, 0, 'OPEN - 0 / 0 open 0 - / 1 open 1 - / 2 open 1 - / 3 sure 3 - / 4 never 4 -'),
    ('P3, M without 0 to 1', p3, ENOUGH, 'NO - 1 / 0 never 0 - / 1 sure 1 - / 2 never 2 4 / 3 sure 3 - / 4 never 4 -'),
    ('P4, M exchanged', p4, ENOUGH, 'NO - 1 / 0 never 0 1 / 1 never 1 - / 2 sure 2 - / 3 never 3 - / 4 sure 4 -'),
    ('P5, one state, start and target, reach', lambda: one(3), ENOUGH, 'YES 0 0 / 0 sure 0 -'),
    ('P6, one state, start and no target, reach', lambda: one(1), ENOUGH, 'NO - 0 / 0 never 0 -'),
    ('P7, one state, start and target, stay', lambda: one(3, STAY), ENOUGH, 'YES 0 0 / 0 sure 0 0'),
    ('P8, two starts in one block', p8, ENOUGH, 'YES 0 1 / 0 sure 0 2 / 1 never 1 - / 2 sure 2 - / 3 never 3 -'),
    ('P9, a block of both sides', p9, ENOUGH, 'YES 0 1 / 0 sure 0 1 / 1 sure 1 3 / 2 never 2 - / 3 sure 3 - / 4 never 4 -'),
]


def table_cases():
    for name, draft, allowance, stated in TABLE:
        case(name, draft(), allowance, stated=stated)
    assert drawn('12211', '0', '3', '1,2', '0>1,2 1>3 2>3,4 3>3 4>4').bytes() == m().bytes()
    assert p4().bytes() == encode(exchanged(decode(m().bytes())))
    case('P10, empty file', b'', stated='REFUSED 2')
    case('P10, a good head alone', m().bytes()[:10], stated='REFUSED 2')
    for name, draft, allowance, _ in TABLE:
        case(f'{name.split(",")[0]} with the other objective', other_objective(draft()), allowance)
    for name, draft, allowance, _ in TABLE:
        for game, words in ((draft(), ''), (other_objective(draft()), ' with the other objective')):
            case(f'{name.split(",")[0]}{words}, exchanged', encode(exchanged(decode(game.bytes()))), allowance)
    for allowance in (0, 1, 2, 65535):
        case(f'M, allowance {allowance}', m(), allowance)
        case(f'M exchanged, allowance {allowance}', p4(), allowance)
    for allowance in (0, 1):
        case(f'M without 0 to 1, allowance {allowance}', p3(), allowance)
        case(f'P8, allowance {allowance}', p8(), allowance)
        case(f'P9, allowance {allowance}', p9(), allowance)
    case('one state of side 2, start and target, reach', one(3, turn=2), stated='YES 0 0 / 0 sure 0 -')
    case('one state of side 2, start and target, stay', one(3, STAY, turn=2), stated='YES 0 0 / 0 sure 0 -')
    case('one state of side 2, start and no target, reach', one(1, turn=2), stated='NO - 0 / 0 never 0 0')
    case('one state of side 2, start and no target, stay', one(1, STAY, turn=2), stated='NO - 0 / 0 never 0 -')


def target_cases():
    """No target and nothing but target, everything initial, one block of everything."""
    moves = '0>1,2 1>0,3 2>2,3 3>0'
    for sides, whose in (('1111', 'side 1'), ('2222', 'side 2'), ('1221', 'both sides')):
        for target, words in (('', 'no target'), ('0,1,2,3', 'all target')):
            for objective, aim in ((REACH, 'reach'), (STAY, 'stay')):
                both(f'{words}, {aim}, {whose}', drawn(sides, '0', target, '1,2,3', moves, objective))
                draft = drawn(sides, '0,1,2,3', target, '0,1,2,3', moves, objective)
                both(f'{words}, {aim}, {whose}, all states start in one block', draft, 0)
    for objective, aim in ((REACH, 'reach'), (STAY, 'stay')):
        both(f'all states start, each a block, {aim}', drawn('1212', '0,1,2,3', '2', '', moves, objective))
        both(f'all states start, two blocks, {aim}', drawn('1212', '0,1,2,3', '2', '0,1,3', moves, objective))
        both(f'all states start, two blocks, no split allowed, {aim}', drawn('1212', '0,1,2,3', '2', '0,1,3', moves, objective), 0)


def start_cases():
    moves = '0>4 1>5 2>3 3>3 4>4 5>3'
    both('three starts, the last one sure at once', drawn('111111', '0,1,2', '3', '4,5', moves),
         stated='YES 2 0 / 0 open 0 - / 1 open 1 - / 2 sure 2 3 / 3 sure 3 - / 4 open 4 - / 5 open 4 -')
    both('three starts in one block, the last one sure', drawn('111111', '0,1,2', '3', '0,1,2 4,5', moves),
         stated='YES 2 1 / 0 open 0 - / 1 open 0 - / 2 sure 2 3 / 3 sure 3 - / 4 open 4 - / 5 open 4 -')
    both('two starts, the second sure after a split', drawn('111111', '0,1', '3', '4,5', moves),
         stated='YES 1 1 / 0 never 0 - / 1 sure 1 5 / 2 sure 2 3 / 3 sure 3 - / 4 never 4 - / 5 sure 5 3')
    both('two starts in one block, the second sure after two splits', drawn('111111', '0,1', '3', '0,1 4,5', moves))
    both('two starts in two blocks, both sure in the same pass', drawn('1111', '1,2', '0', '', '0>0 1>0,3 2>0,1 3>3'))
    both('two sure starts, the lower one in a later pass', drawn('1111', '0,2', '3', '', '0>1 1>3 2>3 3>3'))
    both('a start in the target and one that is not', drawn('2122', '0,3', '3', '1,2', '0>1,2 1>3 2>0 3>0'))
    both('starts all never, their plan goes on', drawn('2212', '0,1', '3', '0,1', '0>1,3 1>0,3 2>3 3>3'))
    both('one start never, one open till the second split',
         drawn('1211111', '0,1', '6', '2,3 4,5', '0>0 1>2,4 2>6 3>0 4>6 5>0 6>6'))
    both('several blocks of starts on both sides',
         drawn('12121212', '0,1,2,3', '7', '0,1 2,3 4,5,6', '0>4 1>5 2>6 3>4,5 4>4 5>7 6>7 7>0'))
    both('starts inside the target for stay', drawn('121212', '0,1,2', '0,1,2,3', '0,1,2', '0>1,4 1>2,3 2>0,5 3>3 4>4 5>0', STAY))


def mixed_cases():
    """Blocks of both sides, and states of side 2 with some moves, but not all, into the set."""
    both('a block of both sides with equal moves', drawn('112211', '0', '4', '1,2', '0>1 1>4,5 2>4,5 3>4 4>4 5>5'))
    both('a block of both sides, wholly sure', drawn('112211', '0', '4', '1,2', '0>1 1>4,5 2>3,4 3>4 4>4 5>5'))
    both('a block of both sides, its side 2 member inside', drawn('112211', '0', '4', '1,2', '0>1,2 1>5 2>3,4 3>4 4>4 5>5'))
    both('a block of three, side 2 in the middle', drawn('1121111', '0', '4', '1,2,3', '0>1,2,3 1>5 2>4 3>4,6 4>4 5>5 6>4'))
    both('side 2 with two of three moves into the target', drawn('2211111', '0', '3,4', '1,2', '0>1 1>3,4,5 2>3 3>3 4>4 5>5 6>6'))
    both('side 2 with all three moves into the target', drawn('2211111', '0', '3,4,5', '1,2', '0>1 1>3,4,5 2>6 3>3 4>4 5>5 6>6'))
    both('side 2 with all moves into what is sure in different passes',
         drawn('1221111', '0', '6', '1,2', '0>1 1>3,5 2>3,4 3>4 4>6 5>3 6>6'))
    both('side 2 with a move back to the start', drawn('12111', '0', '3', '1,2', '0>1,2 1>0,3 2>3 3>3 4>4'))
    both('side 2 that may wait for ever', drawn('12211', '0', '3', '1,2', '0>1,2 1>1,3 2>2,3 3>3 4>4'))
    both('side 2 that stays inside by all moves', drawn('2121', '0', '0,1,2', '1,2', '0>1,2 1>0 2>0,1 3>3', STAY))
    both('side 2 that leaves by one of three moves', drawn('212121', '0', '0,1,2,4', '1,2', '0>1,2 1>0 2>0,1,3 3>3 4>4 5>5', STAY))
    draft = drawn('12212', '0', '4', '1,2,3', '0>1,2 1>0,2 2>1 3>0,4 4>4')
    both('a block open for one member alone', draft, 0,
         stated='OPEN - 0 / 0 open 0 - / 1 open 1 - / 2 open 1 - / 3 open 1 - / 4 sure 4 -')
    both('a block open for one member alone, split', draft,
         stated='NO - 1 / 0 never 0 - / 1 never 1 0 / 2 never 1 1 / 3 sure 3 - / 4 sure 4 -')


def chain(states):
    """0 is the start and the last state the target; each state moves to the next; all between are one block. Every split takes
    one state off that block, from the end on."""
    pairs = [(number, number + 1) for number in range(states - 1)] + [(states - 1, states - 1)]
    return Draft(chain_states(states, lambda number: 1, lambda number: 1), pairs)


def chain_states(states, side, block):
    """States of which the first is initial and the last is target; the others have this side and block."""
    return [(1, INITIAL, 0), *((side(number), 0, block(number)) for number in range(1, states - 1)), (1, TARGET, states - 1)]


def ladder(states, width):
    """As a chain, of both sides in turn: side 1 may also go back by one, and side 2 may skip one. The states between are in
    `width` blocks, every `width`th in one."""
    pairs = []
    for number in range(states - 1):
        others = {number + 1, max(0, number - 1) if number % 2 == 0 else min(states - 1, number + 2)}
        pairs += [(number, end) for end in sorted(others)]
    pairs.append((states - 1, states - 1))
    return Draft(chain_states(states, lambda number: 1 + number % 2, lambda number: (number - 1) % width + 1), pairs)


def detour(states):
    """As a chain, but the start only moves to the last of the block, which moves to itself: all the others have to be split off
    before that is known."""
    dead = states - 2
    pairs = [(0, dead)] + [(number, number + 1 + (number + 1 == dead)) for number in range(1, dead)]
    return Draft(chain_states(states, lambda number: 1, lambda number: 1), pairs + [(dead, dead), (states - 1, states - 1)])


def split_cases():
    """Games that need many splits, with every allowance up to one more than that number, or with some."""
    assert [needed(draft) for draft in (chain(12), chain(40), chain(60))] == [9, 37, 57]
    for allowance in range(11):
        both(f'chain of 12, allowance {allowance}', chain(12), allowance)
    for allowance in (0, 1, 7, 8, 9):
        both(f'detour of 12, allowance {allowance}', detour(12), allowance)
    for allowance in range(needed(ladder(12, 2)) + 2):
        both(f'ladder of 12 in two blocks, allowance {allowance}', ladder(12, 2), allowance)
    for allowance in (0, 1, 2, 5, 10, 20, 30, 35, 36, 37, 38):
        case(f'chain of 40, allowance {allowance}', chain(40), allowance)
    for allowance in (0, needed(ladder(40, 1))):
        both(f'ladder of 40 in one block, allowance {allowance}', ladder(40, 1), allowance)
    for allowance in (0, 56, 57, 58):
        case(f'chain of 60, allowance {allowance}', chain(60), allowance)
    both('ladder of 60 in four blocks', ladder(60, 4))
    both('detour of 60', detour(60))


def border_cases():
    """Which block is split, and against what."""
    moves = '0>1 1>8 2>7 3>3 4>4 5>8 6>7 7>7 8>8'
    draft = drawn('111111111', '0', '7', '1,6 2,5', moves)
    assert border(draft) == [1, 2]
    both('two border blocks, the higher one holds the lower border state', draft, stated='NO - 1 / 0 never 0 - / 1 never 1 - / '
         '2 open 2 - / 3 never 3 - / 4 never 4 - / 5 open 2 - / 6 sure 6 - / 7 sure 7 - / 8 never 8 -')
    both('two border blocks, no split allowed', drawn('111111111', '0', '7', '1,6 2,5', moves), 0)
    both('two border blocks, the start behind the higher one', drawn('111111111', '0', '7', '1,6 2,5', moves.replace('0>1', '0>5')))
    both('two border blocks, the start behind the higher one, one split',
         drawn('111111111', '0', '7', '1,6 2,5', moves.replace('0>1', '0>5')), 1)
    draft = drawn('1' * 12, '0', '10', '1,9 2,8 3,7', '0>7 1>11 2>11 3>10 4>4 5>5 6>6 7>11 8>10 9>10 10>10 11>11')
    assert border(draft) == [1, 2, 3]
    for allowance in range(4):
        both(f'three border blocks, border states in falling order, allowance {allowance}', draft, allowance)
    draft = drawn('1' * 9, '0', '8', '1,2 3,4', '0>1 1>3 2>6 3>8 4>6 5>5 6>6 7>7 8>8')
    assert border(draft) == [3]
    both('a lower open block next to what is only possible', draft, 1)
    both('a lower open block next to what is only possible, to the end', draft)
    draft = drawn('1' * 9, '0', '8', '2,3 4,5', '0>2,4 1>8 2>1 3>7 4>8 5>7 6>6 7>7 8>8')
    assert border(draft) == [2, 4]
    both('a sure block below the border block', draft, 1, stated='YES 0 1 / 0 sure 0 2 / 1 sure 1 8 / 2 sure 2 1 / 3 never 3 - / '
         '4 open 4 - / 5 open 4 - / 6 never 6 - / 7 never 7 - / 8 sure 8 -')
    both('a border block of many, every second member inside',
         drawn('1' * 10, '0', '9', '1,2,3,4,5,6,7', '0>7 1>9 2>8 3>9 4>8 5>9 6>8 7>9 8>8 9>9'))
    both('a border block of many, its lowest member outside',
         drawn('1' * 10, '0', '9', '1,2,3,4,5,6,7', '0>6 1>8 2>9 3>9 4>8 5>8 6>8 7>9 8>8 9>9'))
    both('a block split four times, the part outside each time',
         drawn('1' * 9, '0', '8', '1,2,3,4,5,6', '0>6 1>8 2>1 3>2 4>4 5>5 6>3 7>7 8>8'))
    both('a block split again after another one was',
         drawn('1' * 10, '0', '9', '1,2,3,4 5,6', '0>3 1>5 2>6 3>7 4>9 5>9 6>8 7>7 8>8 9>9'))
    both('a border block of side 2',
         drawn('1222111', '0', '5', '1,2,3', '0>1,2,3 1>4,5 2>4,6 3>5,6 4>5 5>5 6>6'))
    draft = drawn('2122112211', '0', '0,1,2,3,4,5,6,7', '1,2 3,4 5,6', '0>1,3 1>5,7 2>2,8 3>5 4>4,6 5>8,9 6>6 7>7 8>8 9>9', STAY)
    for allowance in range(needed(draft) + 1):
        both(f'stay in several blocks of both sides, allowance {allowance}', draft, allowance)
    draft = drawn('1212', '0', '0,1,2', '1,2', '0>1,2 1>3 2>0,1 3>3', STAY)
    both('stay, a border block that meets what is lost', draft, 0)
    both('stay, a border block that meets what is lost, split', draft)


def plan_cases():
    """Which move is shown: the pass must fall in a hunt, the mark must hold in keeping, and the lowest number is taken."""
    both('two sure states that can pass the play to each other', drawn('1111', '0', '3', '', '0>1,2 1>0,3 2>2,3 3>3'),
         stated='YES 0 0 / 0 sure 0 1 / 1 sure 1 3 / 2 sure 2 3 / 3 sure 3 -')
    both('two sure states of one pass that can pass the play to each other', drawn('1111', '0', '2', '', '0>1,2 1>0,2 2>2 3>3'),
         stated='YES 0 0 / 0 sure 0 2 / 1 sure 1 2 / 2 sure 2 - / 3 never 3 -')
    both('four sure states of one pass, each with moves to the lower ones',
         drawn('111112', '0', '5', '1,2', '0>3,5 1>0,2,5 2>0,5 3>0,1,2,4,5 4>0,1,2,3,5 5>5'))
    both('members of one sure block that can pass the play to each other', drawn('1111', '0', '3', '1,2', '0>1 1>2,3 2>1,3 3>3'),
         stated='YES 0 0 / 0 sure 0 1 / 1 sure 1 3 / 2 sure 1 3 / 3 sure 3 -')
    both('a sure state that can stand still', drawn('111', '0', '2', '', '0>0,1 1>0,1,2 2>2'),
         stated='YES 0 0 / 0 sure 0 1 / 1 sure 1 2 / 2 sure 2 -')
    both('a lower successor of side 2 in the same pass', drawn('1212', '0', '3', '', '0>1,2 1>2,3 2>0,3 3>3'))
    both('three target states to choose from', drawn('11111', '0', '2,3,4', '2,3', '0>1,2,3,4 1>3,4 2>0 3>1 4>4'),
         stated='YES 0 0 / 0 sure 0 2 / 1 sure 1 3 / 2 sure 2 - / 3 sure 2 - / 4 sure 4 -')
    draft = drawn('1111111', '0', '6', '1,2', '0>1 1>3,6 2>3 3>5 4>4 5>6 6>6')
    both('a lower number of a later pass before a higher one of the first', draft,
         stated='YES 0 0 / 0 sure 0 1 / 1 sure 1 3 / 2 sure 1 3 / 3 sure 3 5 / 4 never 4 - / 5 sure 5 6 / 6 sure 6 -')
    draft = drawn('1111111', '0', '2', '4,5', '0>4 1>2 2>2 3>1 4>1,3 5>3 6>6')
    both('a lower number of an earlier pass, though not of the one just before', draft,
         stated='YES 0 0 / 0 sure 0 4 / 1 sure 1 2 / 2 sure 2 - / 3 sure 3 1 / 4 sure 4 1 / 5 sure 4 3 / 6 never 6 -')
    both('a block that waits for its side 2 member', drawn('1121111', '0', '6', '1,2', '0>1 1>2,3,5,6 2>3,4 3>5 4>3 5>6 6>6'))
    draft = drawn('1111111', '0', '5', '1,2 3,4', '0>1,3,5 1>5 2>6 3>5 4>6 5>5 6>6')
    both('a sure start with open states below', draft, 0)
    draft = drawn('111111', '0', '0,1,2,3', '1,2', '0>1,3 1>1 2>4 3>0,3 4>4 5>5', STAY)
    both('stay, an open successor below a sure one', draft,
         stated='YES 0 0 / 0 sure 0 3 / 1 open 1 - / 2 open 1 - / 3 sure 3 0 / 4 never 4 - / 5 never 5 -')
    both('stay, the lowest sure successor of several', drawn('1121', '0', '0,1,2', '', '0>0,1,2 1>1,2,3 2>0,1 3>3', STAY),
         stated='YES 0 0 / 0 sure 0 0 / 1 sure 1 1 / 2 sure 2 - / 3 never 3 -')
    both('a never state of side 2 with an open successor below',
         drawn('2111211', '0', '6', '1,2', '0>1,4 1>6 2>5 3>3 4>3,5 5>5 6>6'),
         stated='NO - 0 / 0 never 0 4 / 1 open 1 - / 2 open 1 - / 3 never 3 - / 4 never 4 3 / 5 never 5 - / 6 sure 6 -')
    both('a never state of side 2 that can stand still', drawn('2211', '0', '3', '', '0>0,1 1>0,1,2,3 2>2 3>3'),
         stated='NO - 0 / 0 never 0 0 / 1 never 1 0 / 2 never 2 - / 3 sure 3 -')
    both('stay lost, two states of side 2 that can pass the play to each other',
         drawn('2221', '0', '0,1,2', '', '0>1,2 1>0,3 2>2,3 3>3', STAY),
         stated='NO - 0 / 0 never 0 1 / 1 never 1 3 / 2 never 2 3 / 3 never 3 -')
    both('stay lost in several passes, side 1 in between',
         drawn('212121', '0', '0,1,2,3,4', '2,4', '0>1,2 1>0,2 2>1,3 3>4 4>5 5>5', STAY))
    both('a start in the target, and a target state has no move shown', drawn('111', '0', '0', '1,2', '0>1 1>0 2>2'),
         stated='YES 0 0 / 0 sure 0 - / 1 open 1 - / 2 open 1 -')
    both('stay lost at the start, which shows no move', drawn('212', '0', '1', '', '0>1,2 1>1 2>2', STAY),
         stated='NO - 0 / 0 never 0 - / 1 sure 1 - / 2 never 2 -')


# ---- Pseudo-random games ----

class Dice:
    def __init__(self, seed):
        self.value = seed

    def below(self, limit):
        self.value = (self.value * 6364136223846793005 + 1442695040888963407) % 2 ** 64
        return (self.value >> 33) % limit


def random_game(dice, fewest, most, starts, openness):
    """A draft whose blocks are precise: a state joins a block of states with its own marks, or, once in `openness`, a new one."""
    count = fewest + dice.below(most - fewest + 1)
    initial = {dice.below(count) for _ in range(starts)}
    threshold = 1 + dice.below(3)
    states, places = [], {}
    for number in range(count):
        mark = (INITIAL if number in initial else 0) | (TARGET if dice.below(5) < threshold else 0)
        blocks = places.setdefault(mark, [])
        if not blocks or dice.below(openness) == 0:
            blocks.append(number)
        states.append((1 + dice.below(2), mark, blocks[dice.below(len(blocks))] if blocks[-1] != number else number))
    pairs = sorted({(start, dice.below(count)) for start in range(count) for _ in range(1 + dice.below(3))})
    return Draft(states, pairs, REACH + dice.below(2))


def random_cases():
    dice = Dice(20260117)
    for number in range(40):
        draft = random_game(dice, 3, 12, 1 + dice.below(3), 4)
        case(f'random game {number}', draft)
        if needed(draft):
            allowance = dice.below(needed(draft))
            case(f'random game {number}, allowance {allowance}', draft, allowance)
    number = 40
    while number < 52:
        draft = random_game(dice, 8, 14, 1, 8)
        if needed(draft) > 2:
            allowance = dice.below(needed(draft))
            case(f'random game {number}', draft)
            case(f'random game {number}, allowance {allowance}', draft, allowance)
            number += 1


# ---- Rows, refusals and the largest number of states ----

def row_cases():
    for places in (0, 1, 511):
        for at, which in enumerate(('marks', 'blocks', 'moves')):
            rows = tuple(places if number == at else 600 for number in range(3))
            case(f'M, row of {which} with {places} places', m(), rows=rows, stated='REFUSED 1')
    case('M, all rows with no place', m(), rows=(0, 0, 0), stated='REFUSED 1')
    case('M, all rows with 511 places', m(), rows=(511, 511, 511), stated='REFUSED 1')
    case('M, only one row with 512 places', m(), rows=(511, 512, 511), stated='REFUSED 1')
    case('M, all rows with 512 places', m(), rows=(512, 512, 512), stated=TABLE[0][3])
    case('M, all rows with 513 places', m(), rows=(513, 513, 513), stated=TABLE[0][3])
    case('M, rows with 512, 513 and 600 places', m(), rows=(512, 513, 600), stated=TABLE[0][3])
    case('M, no split allowed, all rows with 512 places', m(), 0, rows=(512, 512, 512), stated=TABLE[1][3])
    for at, which in enumerate(('marks', 'blocks', 'moves')):
        rows = tuple(511 if number == at else 512 for number in range(3))
        case(f'empty file, row of {which} with 511 places', b'', rows=rows, stated='REFUSED 1')
        case(f'no start, row of {which} with 511 places', refused(8), rows=rows, stated='REFUSED 1')
    case('empty file, all rows with 512 places', b'', rows=(512, 512, 512), stated='REFUSED 2')


REFUSALS = [
    (2, cut(-1)), (3, kind(('move', 6), 4)), (4, head('objective', 3)), (5, state(4, 'turn', 0)), (6, move(6, 4, 5)),
    (7, tail(b'\0')), (8, state(0, 'marks', 0)), (9, without(6)), (10, state(1, 'marks', 1)), (11, state(1, 'marks', 2)),
]


def refused(number):
    """M with the change that is refused with this number."""
    draft = m()
    dict(REFUSALS)[number](draft)
    return draft


def refusal_cases():
    for number, _ in REFUSALS:
        case(f'M changed to be refused with {number}', refused(number), stated=f'REFUSED {number}')
        case(f'M changed to be refused with {number}, no split allowed, rows with 512 places', refused(number), 0,
             rows=(512, 512, 512), stated=f'REFUSED {number}')


def largest_cases():
    """512 states: rows of 512 places are then written to the last."""
    pairs = [(number, number // 2) for number in range(512)]
    marks = [TARGET if number == 0 else INITIAL if number == 511 else 0 for number in range(512)]
    states = [(1 + number // 8 % 2, mark, number if mark else 1) for number, mark in enumerate(marks)]
    case('512 states halved down to the target', Draft(states, pairs), rows=(512, 512, 512))


# ---- Writing ----

def build():
    for group in (table_cases, target_cases, start_cases, mixed_cases, split_cases, border_cases, plan_cases, random_cases,
                  row_cases, refusal_cases, largest_cases):
        group()
    names = [name for name, *_ in CASES]
    assert len(set(names)) == len(names), [name for name, count in Counter(names).items() if count > 1]
    assert not any(':' in name or '\n' in name or not name.isascii() for name in names)


def texts(cases):
    """The sheet of these cases, and what the program must print of it. Each answer is cross-checked."""
    sheet, printed = [], []
    for name, file, allowance, rows in cases:
        lines = answer(solving, file, allowance, rows)
        if not lines[0].startswith('REFUSED'):
            game = decode(file)
            solving.cross_check(game, allowance, solving.solve(game, allowance))
        sheet.append(f'{name}: {allowance} {" ".join(str(places) for places in rows)} {file.hex()}\n')
        printed += [name, *lines, 'rest untouched']
    sheet, printed = ''.join(sheet), '\n'.join(printed) + '\n'
    assert len(sheet) <= MAX_SHEET and len(printed) <= MAX_PRINTED, (len(sheet), len(printed))
    return sheet, printed


def print_summary(sheet, printed):
    print(f'{len(CASES)} rows, {len(sheet)} bytes; printed {len(printed)} bytes, {printed.count(chr(10))} lines')
    counts = Counter(answer(solving, *row)[0].split()[0] for _, *row in CASES)
    for verdict in sorted(counts):
        print(verdict, counts[verdict])


def compare_random(count):
    """Runs the built program over this many random games, two hundred at a time."""
    program = [os.path.join(FOLDER, 'run_x86_64'), os.path.join(FOLDER, '..', 'crates', 'solve_sheet', 'out', 'solve_sheet')]
    dice = Dice(count)
    for first in range(0, count, 200):
        cases = []
        for number in range(first, min(first + 200, count)):
            draft = random_game(dice, 2, 20, 1 + dice.below(3), 2 + dice.below(12))
            cases.append((f'random game {number}', draft.bytes(), (ENOUGH, dice.below(8))[dice.below(2)], ROWS))
        sheet, printed = texts(cases)
        found = subprocess.run(program, input=sheet, capture_output=True, text=True, check=True).stdout
        for case_found, case_due in zip(found.split('rest untouched\n'), printed.split('rest untouched\n'), strict=True):
            if case_found != case_due:
                sys.exit(f'the program printed\n{case_found}and the solver here\n{case_due}of a line of this sheet\n{sheet}')
    print(f'{count} random games, no difference')


def main():
    if '--random' in sys.argv:
        return compare_random(int(sys.argv[sys.argv.index('--random') + 1]))
    build()
    sheet, printed = texts(CASES)
    if '--summary' in sys.argv:
        return print_summary(sheet, printed)
    write_sheet('solve_sheet', sheet, printed)


if __name__ == '__main__':
    main()
