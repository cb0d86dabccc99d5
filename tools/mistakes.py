#!/usr/bin/env python3
"""Puts one mistake at a time into the solver of solving.py, and sees that the sheet of cases tells it.

  python3 tools/mistakes.py     prints for each mistake how many rows come out otherwise, and fails where none does
"""
import inspect
import sys

import solve_sheet
import solving

HUNTED = 'min(end for end in board.after[state] if numbers[end] in earlier)'
KEPT = 'min(end for end in board.after[state] if numbers[end] in mine)'
OWN_PASSES = 'self.sure_passes if board.reach else self.possible_passes'
SPLIT = '''
        members = blocks.pop(min(self.border()))
        known = self.known()
        for part in (members & known, members - known):
            blocks[min(part)] = part
'''
SPLIT_ALL = '''
        known = self.known()
        for number in self.border():
            members = blocks.pop(number)
            for part in (members & known, members - known):
                blocks[min(part)] = part
'''
ADDED = '''
        added = [number for number, members in blocks.items() if number not in passes and test(members, found)]
'''
ADDED_AT_ONCE = '''
        added, there = [], set(passes)
        for number, members in sorted(blocks.items()):
            if number not in there and test(members, forced_step(board, 1, states_of(blocks, there))):
                added.append(number)
                there.add(number)
'''
REMOVED = '''
        removed = [number for number, members in blocks.items()
                   if number not in passes and not (members <= board.target and test(members, found))]
'''
REMOVED_AT_ONCE = '''
        removed, there = [], set(blocks) - set(passes)
        for number, members in sorted(blocks.items()):
            found = forced_step(board, 1, states_of(blocks, there))
            if number in there and not (members <= board.target and test(members, found)):
                removed.append(number)
                there.remove(number)
'''
STOP = '''
        if verdict != 'OPEN' or splits == allowance:
'''
STOP_FIRST = '''
        if splits == allowance:
            return Solution('OPEN', None, splits, last.marks(), last.numbers(), last.plan('OPEN'))
        if verdict != 'OPEN':
'''

# What the mistake is, the function that it stands in, what is right there, and what is wrong.
MISTAKES = [
    # Sure, possible and the forced-step set.
    ('a block is sure if one member is', 'wholly_inside', 'members <= found', 'bool(members & found)'),
    ('a block is possible only if all members are', 'meeting', 'bool(members & found)', 'members <= found'),
    ('side 2 by some move', 'forced_step', 'any(into) if board.turns[state] == side else all(into)', 'any(into)'),
    ('side 1 by all moves', 'forced_step', 'any(into) if board.turns[state] == side else all(into)', 'all(into)'),
    ('stay that does not ask for the target', 'dropping', '(members <= board.target and test(members, found))',
     'test(members, found)'),
    # Passes.
    ('one block enters in a pass', 'entering', 'for number in added', 'for number in added[:1]'),
    ('one block drops out in a pass', 'dropping', 'for number in removed', 'for number in removed[:1]'),
    ('a pass that sees what it has just added', 'entering', ADDED, ADDED_AT_ONCE),
    ('a pass that sees what it has just removed', 'dropping', REMOVED, REMOVED_AT_ONCE),
    # The verdict and the allowance.
    ('YES only if every start is sure', 'Round.verdict', 'if sure_starts:', 'if sure_starts == self.board.initial:'),
    ('NO as soon as one start is never', 'Round.verdict', 'not self.board.initial & states_of(self.blocks, self.possible)',
     'self.board.initial - states_of(self.blocks, self.possible)'),
    ('the highest sure start is named', 'Round.verdict', 'min(sure_starts)', 'max(sure_starts)'),
    ('the lowest start is named, sure or not', 'Round.verdict', 'min(sure_starts)', 'min(self.board.initial)'),
    ('one split more than allowed', 'solve', 'splits == allowance', 'splits > allowance'),
    ('OPEN at the end of the allowance whatever the verdict', 'solve', STOP, STOP_FIRST),
    ('blocks handed back as they were at the start', 'solve', 'last.numbers(), last.plan', 'list(game["blocks"]), last.plan'),
    # The border and the split.
    ('reach border against possible', 'Round.known', 'self.sure', 'self.possible'),
    ('stay border against all that is not sure', 'Round.known', 'self.never', 'self.blocks.keys() - self.sure'),
    ('stay border by side 1', 'Round.known', 'forced_step(self.board, 2', 'forced_step(self.board, 1'),
    ('stay border as for reach', 'Round.known', 'if self.board.reach:', 'if True:'),
    ('the highest border block', 'Round.split', 'min(self.border())', 'max(self.border())'),
    ('the block of the lowest border state', 'Round.split', 'min(self.border())',
     'self.numbers()[min(self.known() & states_of(self.blocks, self.border()))]'),
    ('every border block at once', 'Round.split', SPLIT, SPLIT_ALL),
    ('one border state alone is split off', 'Round.split', 'known = self.known()', 'known = {min(members & self.known())}'),
    ('the part outside keeps the number', 'Round.split', 'blocks[min(part)] = part',
     'blocks[min(members) if part == members - known else max(part)] = part'),
    # The plan.
    ('hunt by mark alone', 'Round.planned', 'entered < passes[numbers[state]]', 'True'),
    ('hunt within the same pass', 'Round.planned', 'entered < passes[numbers[state]]', 'entered <= passes[numbers[state]]'),
    ('hunt by the earliest pass', 'Round.planned', HUNTED, HUNTED.replace('(end', '((passes[numbers[end]], end)') + '[1]'),
    ('hunt by the pass just before', 'Round.planned', HUNTED, HUNTED.replace('(end', '((-passes[numbers[end]], end)') + '[1]'),
    ('hunt by the highest successor', 'Round.planned', HUNTED, HUNTED.replace('min(', 'max(')),
    ('reach hunted by the passes of possible', 'Round.planned', OWN_PASSES, 'self.possible_passes'),
    ('stay hunted by the passes of sure', 'Round.planned', OWN_PASSES, 'self.sure_passes'),
    ('keep to the highest successor', 'Round.planned', KEPT, KEPT.replace('min(', 'max(')),
    ('keep to open successors too', 'Round.planned', KEPT,
     KEPT.replace('mine', '(self.possible if verdict == "YES" else self.blocks.keys() - self.sure)')),
    ('a move shown where the hunt is over', 'Round.planned', '== board.reach:\n            return NO_MOVE',
     '== board.reach:\n            return board.after[state][0]'),
    ('moves shown for the other side too', 'Round.planned', 'board.turns[state] != side or ', ''),
    ('a plan shown for OPEN', 'Round.plan', "if verdict == 'OPEN':", "if verdict == 'OPEN' and not self.sure:"),
]


def mistaken(place, right, wrong):
    """solving.py with a mistake in one of its functions."""
    function = solving
    for name in place.split('.'):
        function = getattr(function, name)
    text = inspect.getsource(function)
    source = inspect.getsource(solving)
    assert source.count(text) == 1 and text.count(right) == 1, (place, right)
    module = type(solving)('mistaken')
    exec(compile(source.replace(text, text.replace(right, wrong)), 'mistaken', 'exec'), module.__dict__)
    return module


def told(solver, file, allowance, rows):
    """The answer of a solver that may fail."""
    try:
        return solve_sheet.answer(solver, file, allowance, rows)
    except (ValueError, KeyError) as failure:
        return [type(failure).__name__]


def main():
    solve_sheet.build()
    small = [row for row in solve_sheet.CASES if len(row[1]) < 800]
    right = [solve_sheet.answer(solving, *row[1:]) for row in small]
    for words, *change in MISTAKES:
        solver = mistaken(*change)
        names = [row[0] for row, answer in zip(small, right) if told(solver, *row[1:]) != answer]
        if not names:
            sys.exit(f'no row tells this mistake: {words}')
        print(f'{words}: {len(names)} rows, first: {names[0]}')


if __name__ == '__main__':
    main()
