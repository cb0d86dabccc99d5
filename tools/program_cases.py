#!/usr/bin/env python3
"""Writes game files for the printing program, and the text that it must print of each.

  python3 tools/program_cases.py FOLDER     writes FOLDER/NAME.game and FOLDER/NAME.text for each case

The text comes from the decoder of games.py and the solver of solving.py. The program allows 511 splits, reads at most 65,536 bytes,
and takes a file that is longer for what those bytes say.
"""
import os
import sys

import solve_sheet
import solving
from games import INITIAL, TARGET, Draft, m, p8
from solve_sheet import ENOUGH, ROWS, chain, drawn, other_objective, p3, p4, refused

MOST_READ = 65_536


def twins():
    """512 states, and 255 blocks of two, each of which has to be split: of the two, the lower leads to the target and the higher stands
    still. Side 2 begins, and may go to any of the lower ones."""
    last = 511
    lower, higher = range(1, 256), range(256, last)
    states = [(2, INITIAL, 0), *((1, 0, number) for number in lower), *((1, 0, number - 255) for number in higher), (1, TARGET, last)]
    moves = [*((0, number) for number in lower), *((number, last) for number in lower), *((number, number) for number in higher)]
    return Draft(states, [*moves, (last, last)])


def cases():
    """Names, files, and words that the text must have, so that no case is empty of what it is there for."""
    yield 'm', m().bytes(), ['YES 0 1']
    yield 'without', p3().bytes(), ['NO - 1']
    yield 'exchanged', p4().bytes(), ['NO - 1']
    yield 'starts', p8().bytes(), ['YES 0 1']
    yield 'open', drawn('11111', '0', '3', '1,2', '0>3 1>3 2>4 3>3 4>4').bytes(), ['1 open 1 -', '2 open 1 -']
    yield 'members', drawn('111111', '0', '5', '1,2,3', '0>1,2 1>5 2>5 3>5 4>4 5>5').bytes(), ['3 sure 1 5']
    yield 'stay', other_objective(m()).bytes(), ['NO - 0']
    yield 'ten', chain(12).bytes(), ['YES 0 9', '10 sure 10 11']
    yield 'hundred', chain(120).bytes(), ['YES 0 117', '100 sure 100 101']
    yield 'twins', twins().bytes(), ['YES 0 255', '255 sure 255 511', '510 never 510 -']
    for number in range(2, 12):
        yield f'refused{number}', refused(number).bytes(), [f'REFUSED {number}']
    yield 'empty', b'', ['REFUSED 2']
    for size in (MOST_READ - 1, MOST_READ, MOST_READ + 1, 3 * MOST_READ):
        yield f'bytes{size}', twins().bytes() + bytes(size - len(twins().bytes())), ['REFUSED 7']


def text(file):
    return '\n'.join(solve_sheet.answer(solving, file[:MOST_READ], ENOUGH, ROWS)) + '\n'


def main():
    folder = sys.argv[1]
    for name, file, words in cases():
        printed = text(file)
        missing = [line for line in words if line not in printed.splitlines()]
        assert not missing, f'{name}: the text has no line {missing}'
        with open(os.path.join(folder, f'{name}.game'), 'wb') as out:
            out.write(file)
        with open(os.path.join(folder, f'{name}.text'), 'w', encoding='ascii') as out:
            out.write(printed)


if __name__ == '__main__':
    main()
