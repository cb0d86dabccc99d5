"""Two solvers for games, written from the rules alone; they share nothing with the library, and with each other only `Board`.

`solve` works over blocks, round by round, and gives all that is handed back. `winners` knows no blocks. `cross_check` holds the one
against the other, follows every plan through all plays, and holds each game against its exchange.
"""
from collections import namedtuple

from games import INITIAL, MAX_STATES, REACH, TARGET, exchanged

NEVER, OPEN, SURE = 0, 1, 2
NO_MOVE = 65535
WORDS = {NEVER: 'never', OPEN: 'open', SURE: 'sure'}

Solution = namedtuple('Solution', 'verdict start splits marks blocks moves')


class Board:
    """A game as sets: the target, the initial states, and the states after each state in ascending order."""

    def __init__(self, game):
        self.reach = game['objective'] == REACH
        self.turns = game['turns']
        self.states = range(len(self.turns))
        self.initial = {state for state in self.states if game['marks'][state] & INITIAL}
        self.target = {state for state in self.states if game['marks'][state] & TARGET}
        self.after = [[] for _ in self.states]
        for start, end in game['moves']:
            self.after[start].append(end)


# ---- The solver over blocks ----

def forced_step(board, side, inside):
    """The states of this side with some move into the set, and the states of the other side with all moves into it."""
    forced = set()
    for state in board.states:
        into = [end in inside for end in board.after[state]]
        if any(into) if board.turns[state] == side else all(into):
            forced.add(state)
    return forced


def wholly_inside(members, found):
    return members <= found


def meeting(members, found):
    return bool(members & found)


def states_of(blocks, numbers):
    return {state for number in numbers for state in blocks[number]}


def entering(board, blocks, test):
    """Reach: the pass in which each block enters. Pass 1 is the target; then every block for which the test holds enters."""
    passes = {number: 1 for number, members in blocks.items() if members <= board.target}
    last = 1
    while True:
        found = forced_step(board, 1, states_of(blocks, passes))
        added = [number for number, members in blocks.items() if number not in passes and test(members, found)]
        if not added:
            return passes
        last += 1
        passes.update((number, last) for number in added)


def dropping(board, blocks, test):
    """Stay: the pass in which each block drops out. A block is kept if it lies in the target and the test holds."""
    passes = {}
    last = 0
    while True:
        found = forced_step(board, 1, states_of(blocks, blocks.keys() - passes.keys()))
        removed = [number for number, members in blocks.items()
                   if number not in passes and not (members <= board.target and test(members, found))]
        if not removed:
            return passes
        last += 1
        passes.update((number, last) for number in removed)


class Round:
    """One round: `blocks` takes a block's number to its members; `sure`, `possible` and `never` are sets of block numbers."""

    def __init__(self, board, blocks):
        self.board = board
        self.blocks = blocks
        if board.reach:
            self.sure_passes = entering(board, blocks, wholly_inside)
            self.possible_passes = entering(board, blocks, meeting)
            self.sure = set(self.sure_passes)
            self.possible = set(self.possible_passes)
        else:
            self.sure_passes = dropping(board, blocks, wholly_inside)
            self.possible_passes = dropping(board, blocks, meeting)
            self.sure = blocks.keys() - self.sure_passes.keys()
            self.possible = blocks.keys() - self.possible_passes.keys()
        self.never = blocks.keys() - self.possible

    def verdict(self):
        """The verdict without regard to the allowance, and the named start."""
        if not self.board.initial & states_of(self.blocks, self.possible):
            return 'NO', None
        sure_starts = self.board.initial & states_of(self.blocks, self.sure)
        if sure_starts:
            return 'YES', min(sure_starts)
        return 'OPEN', None

    def known(self):
        """The set against which the border is judged."""
        if self.board.reach:
            return forced_step(self.board, 1, states_of(self.blocks, self.sure))
        return forced_step(self.board, 2, states_of(self.blocks, self.never))

    def border(self):
        known = self.known()
        return {number for number in self.possible - self.sure if self.blocks[number] & known}

    def split(self):
        """The blocks after the lowest-numbered border block is split."""
        blocks = dict(self.blocks)
        members = blocks.pop(min(self.border()))
        known = self.known()
        for part in (members & known, members - known):
            blocks[min(part)] = part
        return blocks

    def marks(self):
        return [SURE if number in self.sure else OPEN if number in self.possible else NEVER for number in self.numbers()]

    def numbers(self):
        """The number of each state's block."""
        row = [None for _ in self.board.states]
        for number, members in self.blocks.items():
            for state in members:
                row[state] = number
        return row

    def plan(self, verdict):
        if verdict == 'OPEN':
            return [NO_MOVE for _ in self.board.states]
        numbers = self.numbers()
        return [self.planned(verdict, state, numbers) for state in self.board.states]

    def planned(self, verdict, state, numbers):
        """The move of one state: the lowest-numbered successor of those that the verdict and the objective allow."""
        board = self.board
        side, mine = (1, self.sure) if verdict == 'YES' else (2, self.never)
        if board.turns[state] != side or numbers[state] not in mine:
            return NO_MOVE
        if board.reach == (verdict == 'NO'):
            return min(end for end in board.after[state] if numbers[end] in mine)
        if (state in board.target) == board.reach:
            return NO_MOVE
        passes = self.sure_passes if board.reach else self.possible_passes
        earlier = {number for number, entered in passes.items() if entered < passes[numbers[state]]}
        return min(end for end in board.after[state] if numbers[end] in earlier)


def starting_blocks(game):
    blocks = {}
    for state, number in enumerate(game['blocks']):
        blocks.setdefault(number, set()).add(state)
    return blocks


def solve(game, allowance):
    """All that is handed back for an accepted game."""
    board = Board(game)
    blocks = starting_blocks(game)
    splits = 0
    while True:
        last = Round(board, blocks)
        verdict, start = last.verdict()
        if verdict != 'OPEN' or splits == allowance:
            return Solution(verdict, start, splits, last.marks(), last.numbers(), last.plan(verdict))
        blocks = last.split()
        splits += 1


def shown(solution):
    """The lines of the printing program."""
    lines = [f'{solution.verdict} {"-" if solution.start is None else solution.start} {solution.splits}', 'state mark block move']
    for state, (mark, block, move) in enumerate(zip(solution.marks, solution.blocks, solution.moves)):
        lines.append(f'{state} {WORDS[mark]} {block} {"-" if move == NO_MOVE else move}')
    return lines


# ---- The solver without blocks ----

def reaching(board):
    """The states from which side 1 can force the play into the target: backwards from there, move by move. A state of side 2 is
    won once none of its moves is left that avoids what is won."""
    before = [[] for _ in board.states]
    for state in board.states:
        for end in board.after[state]:
            before[end].append(state)
    left = [1 if board.turns[state] == 1 else len(board.after[state]) for state in board.states]
    won = set(board.target)
    waiting = sorted(won)
    while waiting:
        for state in before[waiting.pop()]:
            left[state] -= 1
            if left[state] <= 0 and state not in won:
                won.add(state)
                waiting.append(state)
    return won


def staying(board):
    """The states from which side 1 can keep the play in the target for as many moves as there are states, and so for ever."""
    can = set(board.target)
    for _ in board.states:
        can = {state for state in can
               if (any(end in can for end in board.after[state]) if board.turns[state] == 1
                   else all(end in can for end in board.after[state]))}
    return can


def winners(game):
    board = Board(game)
    return reaching(board) if board.reach else staying(board)


# ---- The one against the other ----

def plays_won(board, verdict, plan, start):
    """Whether every play from the start in which the winner follows the plan is won: a meeting within states minus 1 moves, or
    else nothing but the states to be kept to."""
    winner = 1 if verdict == 'YES' else 2
    others = set(board.states) - board.target
    hunting = board.reach == (verdict == 'YES')
    prey = board.target if board.reach else others

    def following(states):
        ends = set()
        for state in states:
            if board.turns[state] == winner:
                assert plan[state] in board.after[state], state
                ends.add(plan[state])
            else:
                ends.update(board.after[state])
        return ends

    if hunting:
        going = {start} - prey
        for _ in range(len(board.states) - 1):
            going = following(going) - prey
        return not going
    seen, fresh = set(), {start}
    while fresh:
        seen |= fresh
        fresh = following(fresh) - seen
    return not seen & prey


def check_against_winners(game, solution):
    """The marks and the verdict are true of the game without blocks, and the plan wins from every state that it speaks for."""
    board = Board(game)
    won = winners(game)
    for state, mark in enumerate(solution.marks):
        assert mark == OPEN or (mark == SURE) == (state in won), state
    if solution.verdict == 'OPEN':
        assert solution.start is None and set(solution.moves) == {NO_MOVE}
        return
    assert (solution.verdict == 'YES') == bool(won & board.initial)
    if solution.verdict == 'YES':
        assert solution.start in won & board.initial
    mine = SURE if solution.verdict == 'YES' else NEVER
    for state, mark in enumerate(solution.marks):
        if mark == mine:
            assert plays_won(board, solution.verdict, solution.moves, state), state


def check_against_allowance(game, allowance, solution):
    """Splits are the blocks gained; OPEN comes only at the end of the allowance, which is short of what the run needs."""
    first = len(set(game['blocks']))
    states = len(game['blocks'])
    assert solution.splits == len(set(solution.blocks)) - first <= min(allowance, states - first)
    needed = solve(game, MAX_STATES)
    assert needed.verdict != 'OPEN'
    if allowance < needed.splits:
        assert (solution.verdict, solution.splits) == ('OPEN', allowance)
    else:
        assert solution == needed


def check_against_exchange(game, allowance, solution):
    """The exchanged game is won where this one is not. With a single start its run is this run, the marks and verdicts traded."""
    other = exchanged(game)
    assert winners(other) == set(range(len(game['turns']))) - winners(game)
    mirror = solve(other, allowance)
    check_against_winners(other, mirror)
    if len(Board(game).initial) > 1:
        return
    traded = {'YES': 'NO', 'NO': 'YES', 'OPEN': 'OPEN'}
    assert mirror.verdict == traded[solution.verdict]
    assert (mirror.splits, mirror.blocks, mirror.moves) == (solution.splits, solution.blocks, solution.moves)
    assert mirror.marks == [SURE - mark for mark in solution.marks]


def cross_check(game, allowance, solution):
    check_against_winners(game, solution)
    check_against_allowance(game, allowance, solution)
    check_against_exchange(game, allowance, solution)
