#!/usr/bin/env -S python3 -I
"""A run and its calls, refusals 14 to 18 among them, of document 01, a second time, for tests.

The rules here are document 01's, and no code is shared with the crates; but this was not written
blind: the definitions and the code of the crate goals were known. Sides are asked of places.py,
refusals of a table of sheets.py. Verdicts and traces are held to another method, which
knows neither places nor rows: derivatives of the effects by letters. What the program try_calls must
print is made here and never taken from the program.

    runs.py named INPUT EXPECTED               the named vectors
    runs.py more INPUT EXPECTED                more of them: refusals, forged rows and records
    runs.py large INPUT EXPECTED               more of them, large tables and many rows
    runs.py sides INPUT EXPECTED               more of them: sides that no table made, and refusal 24
    runs.py random SEED COUNT INPUT EXPECTED   COUNT random records, the same for the same SEED
    runs.py forged SEED COUNT INPUT EXPECTED   the same with sides that no table made
    runs.py verdicts SEED COUNT                no vectors: COUNT random pairs, run to the verdict

With `rows` before the other words every call is made on a table of rows and not on columns; what must
be printed is the same.

A record is a line of the letter g and hexadecimal digits (numbers big-endian, white space ignored): the
sides, what is lent, and the calls, which are made one after the other on the same columns and the same run record.

    LL RR NNNN 0000MMMM lent(16) places(8) sets(8) parents(8) letters(8) nodes calls

L and R are the sides' s, N and M their numbers of nodes; then how many rows are lent, and how long
each column is. Each call is four numbers of eight digits:

    00000000 0 0 0                  start
    01000000 BUDGET(16) 0           run
    0200LLLL 0 0 0                  trace, into a buffer of L bytes, each ee beforehand
    03OO0000 SETTLED USED 0         no call: forges the record, OO being the outcome
    04PPIIII SET(16) QQQQXXXX       no call: forges row I, with place, set, parent and letter
    05000000 FROM TO 0              no call: the rows from FROM on, below TO, become what the row before is
    06000000 LENT(16) 0             no call: from here on so many rows are lent
    07000000 FROM TO 0              no call: shows the rows from FROM on, below TO
    0bFF0SJJ VALUE(16) 0            no call: forges number F of the left (S = 0) or the right side: s, count,
                                    accepting places, or present mask, absent mask or follow set of place J
    0cNN000S 0 0 0                  no call: forges why there are no sides: number N, naming left, right or both

Start, run and trace are made on the columns; with 08, 09 and 0a for 00, 01 and 02 they are made on a
table of rows, which has what is lent in every column and no more than 65,536 rows.

A row that nothing wrote is place ee, set eeeeeeeeeeeeeeee, parent and letter eeee; the record is all
zeros. A line that begins with '#' names what follows; the program prints it as it is.
"""
import sys

if not __debug__:  # it checks itself by assertions
    sys.exit('tests/runs.py: python3 leaves assertions out (-O or PYTHONOPTIMIZE), so nothing would be checked')

import functools
import os
import random

sys.dont_write_bytecode, sys.pycache_prefix = True, os.devnull  # a test run leaves nothing behind, and takes nothing that was left
sys.path.insert(0, os.path.dirname(os.path.realpath(__file__)))  # isolated, python3 does not look there by itself
import places
import sheets
from places import ANY, D, M, NOT_D, NOT_M, Side
from sheets import choice, empty, instant, nil, node, repetition, sequence

LONGEST_RECORD, LONGEST_COLUMN, LONGEST_TRACE = 8192, 65540, 512  # what the program takes: digits, rows, letters
MOST_ROOM = 65535
EVERY = 2 ** 64 - 1  # as large as a budget, or what is lent, can be

# ---- the sides of a comparison


class Refused(Exception):
    """Which side, and the number."""


class Comparison:
    def __init__(self, s, left, right):
        self.s, self.left, self.right = s, Side(s, left), Side(s, right)
        self.m, self.k = len(self.left.instants), len(self.right.instants)
        self.matching = [(self.left.matching(x), self.right.matching(x)) for x in range(2 ** s)]

    def is_bad(self, place, right_places):
        """The left place accepts and no member of the set does."""
        return place in self.left.accepts and not right_places & self.right.accepts

    def goals_after(self, place, right_places):
        """Each letter and the goal that it leads to: letters ascending, then left followers ascending."""
        spread = set().union(*[self.right.follow[j] for j in right_places])
        for letter, (on_left, on_right) in enumerate(self.matching):
            for j in sorted(self.left.follow[place] & on_left):
                yield letter, j, spread & on_right


@functools.lru_cache(16)
def accepted(s, left, right):
    return Comparison(s, left, right)


def comparison(ls, left, rs, right):
    """The refusals of the left, then those of the right, each naming the side, then 14."""
    for side, s, nodes in ('left', ls, left), ('right', rs, right):
        number = sheets.refusal_of_nodes(s, nodes)
        if number:
            raise Refused(side, number)
    if ls != rs:
        raise Refused('both', 14)
    return accepted(ls, tuple(left), tuple(right))


# ---- sides that no table made. A call may be handed both sides by value, and anybody can make such a value: it is
# refused by why there are no sides, if that says so; else left 24, right 24, 14; and else used as its numbers say.

NUMBERS = 's', 'count', 'accepts', 'present', 'absent', 'follow'  # of a side, in the order in which a record names them
BY_PLACE = NUMBERS[3:]  # 64 of each


class Numbers:
    """A side by its numbers; at first the side of nothing."""

    def __init__(self, side=None):
        self.s = self.count = self.accepts = 0
        self.present, self.absent, self.follow = [0] * 64, [0] * 64, [0] * 64
        if side:
            self.s, self.count, self.accepts = side.s, len(side.instants), number_of(side.accepts)
            for j, (present, absent) in side.instants.items():
                self.present[j], self.absent[j] = number_of(present), number_of(absent)
            for j, members in side.follow.items():
                self.follow[j] = number_of(members)

    def clauses_of_24(self):
        """Each clause of 24 that applies, by its words."""
        above = [j for j in range(64) if j > self.count]
        clauses = {
            's is above 8': self.s > 8,
            'the instant count is above 63': self.count > 63,
            'the accepting set names a place above that count': any(self.accepts & 2 ** j for j in above),
            'a follow set names 0': any(members & 1 for members in self.follow),
            'a follow set names a place above it': any(members & 2 ** j for members in self.follow for j in above),
        }
        return {clause for clause, applies in clauses.items() if applies}

    def matching(self, letter):
        """A letter has no signal of number s or above: one named present never matches, one named absent never hinders."""
        return {j for j in range(1, self.count + 1) if self.present[j] & ~letter == 0 and self.absent[j] & letter == 0}


class ByNumbers(Comparison):
    def __init__(self, left, right):
        self.s, self.m, self.k = left.s, left.count, right.count
        self.matching = [(left.matching(x), right.matching(x)) for x in range(2 ** self.s)]
        self.left, self.right = Places(left), Places(right)


class Places:
    """The accepting places and follow sets of a side's numbers, as sets."""

    def __init__(self, numbers):
        self.accepts, self.follow = places_in(numbers.accepts), [places_in(members) for members in numbers.follow]


class Asked:
    """Both sides by value as they are made of two tables, or why there are none and two sides of nothing."""

    def __init__(self, sides):
        try:
            c = comparison(*sides)
            self.why, self.left, self.right = None, Numbers(c.left), Numbers(c.right)
        except Refused as refused:
            self.why, self.left, self.right = refused.args, Numbers(), Numbers()

    def judged(self):
        if self.why:
            raise Refused(*self.why)
        for name, side in ('left', self.left), ('right', self.right):
            if side.clauses_of_24():
                raise Refused(name, 24)
        if self.left.s != self.right.s:
            raise Refused('both', 14)
        return ByNumbers(self.left, self.right)


def judged(sides):
    return sides.judged() if isinstance(sides, Asked) else comparison(*sides)


# ---- rows and the run record


def places_in(number):
    return {j for j in range(64) if number & 2 ** j}


def number_of(right_places):
    return sum(2 ** j for j in right_places)


UNWRITTEN = (0xEE, 0xEEEEEEEEEEEEEEEE, 0xEEEE, 0xEEEE)
ROW_0 = (0, number_of({0}), 0, 0)


class Rows:
    """Four columns, which may differ in length: place, set, parent, letter."""

    def __init__(self, lengths):
        self.columns = [[x] * n for x, n in zip(UNWRITTEN, lengths)]

    def __getitem__(self, i):
        return tuple(column[i] if i < len(column) else None for column in self.columns)

    def __setitem__(self, i, row):
        for column, x in zip(self.columns, row):
            if i < len(column):
                column[i] = x

    def used(self, n):
        """The first n rows, each with its number."""
        return zip(range(n), *self.columns)

    def room(self, lent):
        return min(lent, MOST_ROOM, *[len(column) for column in self.columns])


class Run:
    def __init__(self, settled=0, used=0, outcome=0):
        self.settled, self.used, self.outcome = settled, used, outcome

    def state(self):
        return self.settled, self.used, self.outcome


def clauses_of_16(c, rows, room, run):
    """Each clause of refusal 16 that applies, by its words."""
    others = list(rows.used(min(run.used, room)))[1:]
    clauses = {
        'used is 0': run.used == 0,
        'used is above room': run.used > room,
        'settled is above used': run.settled > run.used,
        'outcome is above 3': run.outcome > 3,
        'settled = used with outcome 0': run.settled == run.used and run.outcome == 0,
        'settled = used with outcome 2': run.settled == run.used and run.outcome == 2,
        'settled = used with outcome 3': run.settled == run.used and run.outcome == 3,
        'settled below used with 1': run.settled < run.used and run.outcome == 1,
        "row 0 isn't as start wrote it": rows[0] != ROW_0,
        'place 0': any(place == 0 for _, place, *_ in others),
        'place above m': any(place > c.m for _, place, *_ in others),
        'set bit 0': any(right & 1 for _, _, right, *_ in others),
        'a bit above k': any(right >= 2 ** (c.k + 1) for _, _, right, *_ in others),
        'a parent not below it': any(parent >= i for i, _, _, parent, _ in others),
        'a letter of 2^s or more': any(letter >= 2 ** c.s for *_, letter in others),
    }
    return {clause for clause, applies in clauses.items() if applies}


# ---- the three calls


def start(sides, lent, rows, run):
    judged(sides)
    if rows.room(lent) == 0:
        raise Refused('both', 15)
    rows[0] = ROW_0
    run.settled, run.used, run.outcome = 0, 1, 0
    return run.state()


def possible(sides, lent, rows, run):
    c = judged(sides)
    if clauses_of_16(c, rows, rows.room(lent), run):
        raise Refused('both', 16)
    return c


def run_steps(sides, lent, rows, run, budget):
    c, room = possible(sides, lent, rows, run), rows.room(lent)
    known = {(place, right) for _, place, right, *_ in rows.used(run.used)}
    while budget > 0 and run.outcome in (0, 3):
        step(c, rows, room, run, known)
        budget -= 1
        if run.outcome == 3:
            break
    return run.state()


def step(c, rows, room, run, known):
    """`known` has the goals of the used rows."""
    r = run.settled
    place, right = rows[r][0], places_in(rows[r][1])
    if c.is_bad(place, right):
        run.outcome = 2
        return
    for letter, j, right_then in c.goals_after(place, right):
        goal = (j, number_of(right_then))
        if goal not in known:
            if run.used == room:
                run.outcome = 3
                return
            rows[run.used] = (*goal, r, letter)
            run.used += 1
            known.add(goal)
    run.settled += 1
    run.outcome = 1 if run.settled == run.used else 0


def letters_to(rows, r):
    """The letters from row 0 to row r."""
    letters = []
    while r > 0:
        _, _, parent, letter = rows[r]
        letters.insert(0, letter)
        r = parent
    return letters


def trace(sides, lent, rows, run, out):
    possible(sides, lent, rows, run)
    if run.outcome != 2:
        raise Refused('both', 17)
    letters = letters_to(rows, run.settled)
    if len(out) < len(letters):
        raise Refused('both', 18)
    out[:len(letters)] = letters
    return letters


# ---- the verdict by another method. An effect is a tree with letters at its leaves, in a form that is
# the same for effects that differ in the order or number of a choice's parts, in nil or in empty: so
# an effect has finitely many derivatives, and looking at all pairs of them ends.

NIL, EMPTY = ('nil',), ('empty',)


def any_of(parts):
    flat = set()
    for part in parts:
        flat |= part[1] if part[0] == 'choice' else {part} - {NIL}
    return ('choice', frozenset(flat)) if len(flat) > 1 else flat.pop() if flat else NIL


def then(x, y):
    if NIL in (x, y):
        return NIL
    if x == EMPTY:
        return y
    if x[0] == 'choice':
        return any_of([then(part, y) for part in x[1]])
    if x[0] == 'sequence':
        return then(x[1], then(x[2], y))
    return x if y == EMPTY else ('sequence', x, y)


def again(x):
    return EMPTY if x in (NIL, EMPTY) else x if x[0] == 'repetition' else ('repetition', x)


def effect_of(s, tree):
    """The effect of a tree of places.py; it has the letters of the instants and not their places."""
    kind, *parts = tree
    if kind == 'instant':
        letters = frozenset(places.letters_of(s, parts[1:]))
        return ('letter', letters) if letters else NIL
    effects = [effect_of(s, part) for part in parts]
    return {'nil': lambda: NIL, 'empty': lambda: EMPTY, 'choice': lambda x, y: any_of([x, y]), 'sequence': then,
            'repetition': again}[kind](*effects)


def nullable(x):
    """The empty trace is one of its traces."""
    kind, *parts = x
    return (kind in ('empty', 'repetition') or kind == 'choice' and any(map(nullable, parts[0]))
            or kind == 'sequence' and all(map(nullable, parts)))


@functools.lru_cache(100000)
def derivative(x, letter):
    """Its traces that begin with the letter, without it."""
    kind, *parts = x
    if kind == 'letter':
        return EMPTY if letter in parts[0] else NIL
    if kind == 'choice':
        return any_of([derivative(part, letter) for part in parts[0]])
    if kind == 'sequence':
        first = then(derivative(parts[0], letter), parts[1])
        return any_of([first, derivative(parts[1], letter)]) if nullable(parts[0]) else first
    if kind == 'repetition':
        return then(derivative(parts[0], letter), x)
    return NIL


def is_trace(x, word):
    for letter in word:
        x = derivative(x, letter)
    return nullable(x)


@functools.lru_cache(16)
def shortest_trace_of_left_alone(s, left, right):
    """One of the left's shortest traces that the right doesn't have, or None if there is none. Letters
    that lead each side to the same derivative are one."""
    pairs = [(left, right, ())]
    seen = {(left, right)}
    for x, y, word in pairs:  # grows on the way
        if nullable(x) and not nullable(y):
            return word
        for letter in range(2 ** s):
            pair = derivative(x, letter), derivative(y, letter)
            if pair not in seen and pair[0] != NIL:
                seen.add(pair)
                pairs.append((*pair, word + (letter,)))
    return None


def hold_to_derivatives(c, rows, run):
    """A run that started by start and came to a verdict has the verdict that derivatives have. Rows
    stand in the order of their traces' length, so the trace is as short as any."""
    if run.outcome not in (1, 2):
        return
    left, right = effect_of(c.s, c.left.tree), effect_of(c.s, c.right.tree)
    shortest = shortest_trace_of_left_alone(c.s, left, right)
    assert run.outcome == (1 if shortest is None else 2), (c.left.tree, c.right.tree)
    if run.outcome == 2:
        word = tuple(letters_to(rows, run.settled))
        assert is_trace(left, word) and not is_trace(right, word), (c.left.tree, c.right.tree, word)
        assert len(word) == len(shortest), (c.left.tree, c.right.tree, word, shortest)


# ---- records and what must be printed for them


class Record:
    """A record of the program, and the lines that must come of it. `lengths` is one number for all
    four columns, or four. A call's `expect` is what document 01 asks for, where a vector names it: the
    run's state, the letters of a trace, or a refusal, (side, number), or the number if the side is both."""

    def __init__(self, vectors, sides, lengths, lent=EVERY):
        lengths = [lengths] * 4 if isinstance(lengths, int) else lengths
        ls, left, rs, right = self.sides = sides
        assert max(lengths) <= LONGEST_COLUMN and max(len(left), len(right)) <= sheets.LONGEST_TABLE
        self.vectors, self.lent, self.rows, self.state = vectors, lent, Rows(lengths), Run()
        self.on_rows = vectors.on_rows
        self.by_start = False  # no row or state forged since the last start
        self.given = '%02x%02x%04x %08x %016x ' % (ls, rs, len(left), len(right), lent)
        self.given += ''.join('%08x' % x for x in [*lengths, *left, *right])
        self.printed = []

    def save(self):
        assert len(''.join(self.given.split())) <= LONGEST_RECORD
        self.vectors.ask(self.given)
        self.vectors.expected += self.printed

    def no_call(self, head, *numbers):
        self.given += ' ' + head + ''.join('%08x' % x for x in numbers).ljust(24, '0')
        return self

    def by(self, columns_or_rows):
        self.on_rows = columns_or_rows == 'rows' or self.vectors.on_rows
        return self

    def head(self, kind):
        return '%02x' % (kind + 8 if self.on_rows else kind)

    def call(self, name, expect, function, *more):
        """The words for what the call answers by the rules above."""
        try:
            answer = function(self.sides, self.lent, self.rows, self.state, *more)
            words = 'settled %d used %d outcome %d' % answer if answer == self.state.state() else 'length %d' % len(answer)
        except Refused as refused:
            answer = refused.args
            words = 'refused %s %d' % answer
            self.vectors.seen.add((name, answer[1]))
        expect = ('both', expect) if isinstance(expect, int) else expect
        assert expect in (None, answer), (name, self.given, expect, answer)
        return '%s %s' % (name, words)

    def start(self, expect=None):
        self.no_call(self.head(0) + '000000')
        self.printed.append(self.call('start', expect, start))
        self.by_start = not isinstance(self.sides, Asked) and (self.by_start or 'refused' not in self.printed[-1])
        return self

    def run(self, budget, expect=None):
        self.no_call(self.head(1) + '000000', budget // 2 ** 32, budget % 2 ** 32)
        self.printed.append(self.call('run', expect, run_steps, budget))
        if self.by_start and 'refused' not in self.printed[-1]:
            hold_to_derivatives(comparison(*self.sides), self.rows, self.state)
        return self

    def trace(self, length, expect=None):
        assert length <= LONGEST_TRACE
        self.no_call(self.head(2) + '00%04x' % length)
        out = bytearray(b'\xee' * length)
        self.printed.append(self.call('trace', expect, trace, out) + ' out' + ''.join(' %02x' % byte for byte in out))
        return self

    def forge(self, settled, used, outcome):
        self.by_start, self.state = False, Run(settled, used, outcome)
        return self.no_call('03%02x0000' % outcome, settled, used)

    def forge_row(self, i, place, right, parent, letter):
        """`right` is a set of places, or its number."""
        right = right if isinstance(right, int) else number_of(right)
        self.by_start, self.rows[i] = False, (place, right, parent, letter)
        return self.no_call('04%02x%04x' % (place, i), right // 2 ** 32, right % 2 ** 32, parent * 65536 + letter)

    def forge_more_rows(self, start, end):
        self.by_start = False
        for column in self.rows.columns:
            column[start:end] = column[start - 1:start] * len(column[start:end])
        return self.no_call('05000000', start, end)

    def forged_sides(self):
        self.by_start = False
        if not isinstance(self.sides, Asked):
            self.sides = Asked(self.sides)
        return self.sides

    def forge_side(self, name, number, value, place=0):
        side = getattr(self.forged_sides(), name)
        if number in BY_PLACE:
            getattr(side, number)[place] = value
        else:
            setattr(side, number, value)
        head = '0b%02x%02x%02x' % (NUMBERS.index(number), name == 'right', place)
        return self.no_call(head, value // 2 ** 32, value % 2 ** 32)

    def forge_why(self, side, number):
        """Number 0 is no refusal, whichever side it names."""
        self.forged_sides().why = (side, number) if number else None
        return self.no_call('0c%02x%04x' % (number, ('left', 'right', 'both').index(side) + 1))

    def lend(self, lent):
        self.lent = lent
        return self.no_call('06000000', lent // 2 ** 32, lent % 2 ** 32)

    def show(self, start, end):
        for i in range(start, end):
            row = zip(('%d', '%016x', '%d', '%d'), self.rows[i])
            self.printed.append('row %d: ' % i + ' '.join('-' if x is None else form % x for form, x in row))
        return self.no_call('07000000', start, end)


class Vectors(sheets.Vectors):
    letter = 'g'
    on_rows = False  # every call is made on a table of rows

    def __init__(self):
        super().__init__()
        self.clauses = set()  # of refusals 16 and 24, that a vector forged

    def record(self, sides, lengths, lent=EVERY):
        return Record(self, sides, lengths, lent)

    def pair(self, pair, lengths, lent=EVERY):
        """A pair is s, the left and the right, or one of document 01's by its name."""
        s, left, right = PAIRS.get(pair, pair) if isinstance(pair, str) else pair
        return self.record((s, left, s, right), lengths, lent)

    def started(self, pair, lengths, lent=EVERY):
        return self.pair(pair, lengths, lent).start(STARTED)


# ---- the named vectors. D is signal 0, M signal 1; a bar is written ~

# What document 01 says of C1 to C12: settled, used and outcome, and the trace.
INCLUDED, REFUTED, NO_ROOM = 1, 2, 3
VERDICTS = {
    'C1': ((1, 1, INCLUDED), None),
    'C2': ((0, 1, REFUTED), []),
    'C3': ((1, 1, INCLUDED), None),
    'C4': ((2, 2, INCLUDED), None),
    'C5': ((1, 3, REFUTED), [0]),
    'C6': ((3, 3, INCLUDED), None),
    'C7': ((1, 1, INCLUDED), None),
    'C8': ((3, 3, INCLUDED), None),
    'C9': ((2, 3, REFUTED), [1, 0]),
    'C10': ((0, 1, REFUTED), []),
    'C11': ((3, 3, INCLUDED), None),
    'C12': ((2, 2, INCLUDED), None),
}
# Their rows after row 0, worked out by hand: place, set, parent, letter.
ROWS = {
    'C4': [(1, {1}, 0, 1)],
    'C5': [(1, set(), 0, 0), (1, {1}, 0, 1)],
    'C6': [(1, {2}, 0, 0), (1, {1}, 0, 1)],
    'C8': [(1, {1}, 0, 1), (1, {2}, 1, 1)],
    'C9': [(1, {1}, 0, 1), (2, set(), 1, 0)],
    'C11': [(1, {1}, 0, 0), (2, {1}, 1, 0)],
    'C12': [(1, set(), 0, 1)],
}
PAIRS = {name: (s, left, right) for name, s, left, right, _ in places.COMPARISONS}
STARTED = (0, 1, 0)


def has_rows(r, rows):
    """Row 0 and these, and nothing is written beyond them."""
    rows = [ROW_0, *[(place, number_of(right), parent, letter) for place, right, parent, letter in rows], UNWRITTEN]
    assert [r.rows[i] for i in range(len(rows))] == rows, r.given


def comparisons(v):
    for name, (state, word) in VERDICTS.items():
        used = state[1]
        v.title(name)
        r = v.started(name, 6).run(100, state).trace(3, 17 if word is None else word).show(0, used + 1)
        has_rows(r, ROWS.get(name, []))
        r.save()
        v.title('%s: room %d is exactly enough' % (name, used))
        v.started(name, 4, lent=used).run(100, state).show(0, 4).save()
        if used > 1:  # the first row that has no room is found while its parent is looked at
            v.title('%s: room %d is one short' % (name, used - 1))
            parent = ROWS[name][-1][2]
            v.started(name, used - 1).run(100, (parent, used - 1, NO_ROOM)).show(0, used).save()
    v.title('C5r: C5, room 2')
    v.started('C5', 4, lent=2).run(100, (0, 2, NO_ROOM)).trace(3, 17).show(0, 4).save()


def budgets(v):
    v.title('C9 in budgets of one')
    (v.started('C9', 5).run(1, (1, 2, 0)).show(0, 5).run(1, (2, 3, 0)).show(0, 5).trace(2, 17)
     .run(1, (2, 3, REFUTED)).trace(2, [1, 0]).save())
    v.title('C9: budget 2 settles two rows, the third step refutes')
    v.started('C9', 5).run(2, (2, 3, 0)).run(1, (2, 3, REFUTED)).save()
    v.title('C8 in budgets of one: included with the last row')
    v.started('C8', 5).run(1, (1, 2, 0)).run(1, (2, 3, 0)).run(1, (3, 3, INCLUDED)).run(1, (3, 3, INCLUDED)).show(0, 5).save()
    v.title('C8: as large a budget as there is')
    v.started('C8', 5).run(EVERY, (3, 3, INCLUDED)).save()
    v.title('budgets of 2^32 and 2^63 are not 0')
    v.started('C8', 5).run(2 ** 32, (3, 3, INCLUDED)).start(STARTED).run(2 ** 63, (3, 3, INCLUDED)).save()
    v.title('a run started again: the other rows stay')
    v.started('C5', 5).run(9, (1, 3, REFUTED)).start(STARTED).show(0, 5).run(1, (1, 3, 0)).start(STARTED).run(
        9, (1, 3, REFUTED)).save()


def nothing_changes(v):
    v.title('budget 0 changes nothing: open, then refuted, included, no room')
    for name, room, state in ('C5', 3, (1, 3, REFUTED)), ('C6', 3, (3, 3, INCLUDED)), ('C5', 2, (0, 2, NO_ROOM)):
        v.started(name, 4, lent=room).run(0, STARTED).run(9, state).run(0, state).show(0, 4).save()
    v.title('included or refuted: a further budget changes nothing')
    for name in 'C1', 'C6', 'C2', 'C5':
        state, _ = VERDICTS[name]
        v.started(name, 4).run(9, state).run(1, state).run(EVERY, state).show(0, 4).save()
    v.title('included, forged: row 0 would be bad, and no step looks')
    v.started('C2', 2).forge(1, 1, INCLUDED).run(5, (1, 1, INCLUDED)).save()
    v.title('refuted, forged: row 0 is not bad, and no step looks')
    v.started('C1', 2).forge(0, 1, REFUTED).run(5, (0, 1, REFUTED)).trace(1, []).save()


def no_room(v):
    v.title('no room: each call tries row r again, and goes on once more rows are lent')
    (v.started('C5', 5, lent=1).run(9, (0, 1, NO_ROOM)).run(1, (0, 1, NO_ROOM)).lend(2).run(0, (0, 1, NO_ROOM))
     .run(1, (0, 2, NO_ROOM)).show(0, 5).lend(3).run(1, (1, 3, 0)).show(0, 5).run(1, (1, 3, REFUTED)).save())
    v.title('no room at a later row')
    v.started('C8', 5, lent=2).run(9, (1, 2, NO_ROOM)).lend(5).run(9, (3, 3, INCLUDED)).show(0, 5).save()
    v.title('no room, forged: the row has room enough, or it is bad')
    v.started('C1', 1).forge(0, 1, NO_ROOM).run(1, (1, 1, INCLUDED)).save()
    v.started('C2', 1).forge(0, 1, NO_ROOM).run(1, (0, 1, REFUTED)).save()
    v.title('no row is free, but every goal is known: the row is settled')
    v.started((1, [D, repetition(0)], [D, repetition(0)]), 2).run(9, (2, 2, INCLUDED)).save()


def order(v):
    v.title('letters ascending, for each the left followers ascending')
    r = v.started((1, [ANY, ANY, choice(1, 0)], [D, NOT_D, choice(0, 1)]), 6).run(1, (1, 5, 0)).show(0, 6)
    has_rows(r, [(1, {2}, 0, 0), (2, {2}, 0, 0), (1, {1}, 0, 1), (2, {1}, 0, 1)])
    r.run(9, (5, 5, INCLUDED)).save()
    v.title('a goal that two rows lead to has the first as its parent')
    r = v.started((1, [D, NOT_D, choice(0, 1), ANY, sequence(2, 3)], [ANY, ANY, sequence(0, 1)]), 6)
    r.run(99, (4, 4, INCLUDED)).show(0, 6)
    has_rows(r, [(2, {1}, 0, 0), (1, {1}, 0, 1), (3, {2}, 1, 0)])
    r.save()
    v.title('a place with two sets, a set with two places')
    r = v.started((1, [ANY, D, sequence(0, 1), NOT_D, choice(2, 3)], [D, repetition(0), ANY, choice(1, 2)]), 7)
    r.run(99, (4, 6, REFUTED)).trace(2, [0, 1]).show(0, 7)
    has_rows(r, [(1, {2}, 0, 0), (3, {2}, 0, 0), (1, {1, 2}, 0, 1), (2, set(), 1, 1), (2, {1}, 3, 1)])
    r.save()
    v.title('a goal that leads to itself')
    r = v.started((0, [ANY, repetition(0)], [ANY, repetition(0)]), 4).run(99, (2, 2, INCLUDED)).show(0, 4)
    has_rows(r, [(1, {1}, 0, 0)])
    r.save()


def lent_rows(v):
    for i, word in enumerate(['places', 'sets', 'parents', 'letters']):
        v.title('%s is the shortest column, and is the room; then it has no row' % word)
        v.started('C6', [2 if j == i else 4 + j for j in range(4)]).run(9, (0, 2, NO_ROOM)).show(0, 8).save()
        v.record((1, [ANY], 1, [ANY]), [0 if j == i else 3 for j in range(4)]).start(15).run(9, 16).show(0, 3).save()
    v.title('more rows lent than the columns have')
    v.started('C6', [5, 3, 4, 6], lent=4).run(9, (3, 3, INCLUDED)).show(0, 6).save()


def tables_of_rows(v):
    """A table may be another in each call, as long as it begins with the used rows."""
    v.title('on rows: a table that grows from call to call')
    (v.pair('C9', 7, lent=1).by('rows').start(STARTED).run(9, (0, 1, NO_ROOM)).show(0, 7).lend(2).run(9, (1, 2, NO_ROOM)).show(0, 7)
     .lend(7).run(9, (2, 3, REFUTED)).trace(4, [1, 0]).show(0, 7).save())
    v.title('on rows: a table that has more rows than are used, then exactly those, then one less')
    (v.pair('C6', 8).by('rows').start(STARTED).run(1, (1, 3, 0)).lend(3).run(1, (2, 3, 0))
     .show(0, 8).lend(2).run(1, 16).lend(3).run(1, (3, 3, INCLUDED)).show(0, 8).save())
    v.title('on rows: a table of no rows')
    v.record((1, [D], 1, [D]), 3, lent=0).by('rows').start(15).run(1, 16).trace(1, 16).show(0, 3).save()
    v.title('on rows: 65,536 rows lent, the last of which is beyond the room')
    v.record((1, [ANY], 1, [D]), 65536).by('rows').start(STARTED).run(9, (1, 3, REFUTED)).trace(1, [0]).show(0, 4).show(65534, 65536).save()
    v.title('on columns and on rows by turns')
    (v.started('C9', 5).by('rows').run(1, (1, 2, 0)).by('columns').run(1, (2, 3, 0)).by('rows').run(1, (2, 3, REFUTED))
     .by('columns').trace(2, [1, 0]).by('rows').trace(2, [1, 0]).start(STARTED).by('columns').run(9, (2, 3, REFUTED)).show(0, 5).save())
    v.title('on rows: a refused start, run and trace leave the rows and the record, and the run goes on')
    (v.pair('C9', 5).by('rows').start(STARTED).run(1, (1, 2, 0)).lend(1).run(5, 16).trace(2, 16).lend(0).start(15).show(0, 5)
     .lend(5).run(9, (2, 3, REFUTED)).lend(0).start(15).lend(5).trace(2, [1, 0]).show(0, 5).save())


def traces(v):
    for name, word in ('C5', [0]), ('C9', [1, 0]), ('C2', []), ('C10', []):
        v.title('%s: a trace buffer exact, longer, one short; the trace changes nothing else' % name)
        n = len(word)
        r = v.started(name, 4).run(9).trace(n, word).trace(n + 1, word).trace(n + 5, word)
        if n:
            r.trace(n - 1, 18)
        r.show(0, 4).run(9).trace(n, word).save()
    v.title('letters of 8 signals: the bytes 80 and 7f')
    v.started((8, [instant(128, 127), instant(127, 128), sequence(0, 1)], [nil()]), 4).run(9, (2, 3, REFUTED)).trace(
        3, [128, 127]).save()
    v.title('refuted, forged: the trace leads to the row that the record names')
    r = v.started((2, [ANY, repetition(0)], [ANY, repetition(0)]), 8)
    for i, (parent, letter) in enumerate([(0, 3), (0, 1), (1, 2), (3, 0), (2, 1)], 1):
        r.forge_row(i, 1, {1}, parent, letter)
    for settled, word in (5, [1, 1]), (4, [3, 2, 0]), (1, [3]), (0, []):
        r.forge(settled, 6, REFUTED).trace(4, word)
    r.show(0, 8).save()


def named():
    v = Vectors()
    for section in (comparisons, budgets, nothing_changes, no_room, order, lent_rows, tables_of_rows, traces):
        section(v)
    v.title('a call that is none')
    r = v.started('C1', 1).no_call('0d000000').no_call('0200%04x' % (LONGEST_TRACE + 1))
    r.printed += ['bad call'] * 2
    r.run(1, (1, 1, INCLUDED)).save()
    v.title('a record that says more than it has ends the run')
    v.ask('00000001 00000001 0000000000000001 00000001000000010000000100000001 00010000')
    v.input.append(v.input[1])
    v.expected.append('bad record')
    return v


# ---- more named vectors: each refusal, and each clause of 16

# s = 1, m = 2 and k = 3
FORGED = (1, [ANY, D, choice(0, 1), repetition(2)], 1, [ANY, repetition(0), D, NOT_D, choice(2, 3), sequence(1, 4)])
ROW = (1, {1, 3}, 0, 0)
TWO = [(1, ROW), (2, (2, {1, 2}, 1, 1))]


def forged(v, title, clauses, state=STARTED, rows=(), sides=FORGED, length=6, lent=EVERY):
    """Start, then a state and rows as given: run and trace refuse with 16 by these clauses and no
    other, or accept if there is none."""
    v.title(title)
    r = v.record(sides, length, lent).start(STARTED)
    for i, row in rows:
        r.forge_row(i, *row)
    r.forge(*state)
    assert clauses_of_16(comparison(*r.sides), r.rows, r.rows.room(lent), r.state) == set(clauses), title
    v.clauses |= set(clauses)
    if clauses:
        r.run(0, 16).run(9, 16).trace(2, 16)
    else:
        r.run(0, state).trace(2).run(9)
    r.show(0, length if rows else 1).save()


def states_impossible(v):
    for title, state in [('open', (2, 3, 0)), ('included', (3, 3, 1)), ('refuted', (1, 3, 2)), ('no room', (1, 3, 3))]:
        forged(v, 'possible: %s' % title, [], state, TWO)
    forged(v, 'possible: used is room', [], (2, 3, 0), TWO, lent=3)
    forged(v, 'used is 0', ['used is 0'], (0, 0, 1))
    forged(v, 'used is 0, as before a start', ['used is 0', 'settled = used with outcome 0'], (0, 0, 0))
    forged(v, 'used is above what is lent', ['used is above room'], (2, 3, 0), TWO, lent=2)
    forged(v, 'used is above what the columns have', ['used is above room'], (2, 3, 0), TWO, length=2)
    for used in 65536, 65537, 2 ** 32 - 1:
        forged(v, 'used is %d' % used, ['used is above room'], (0, used, 0), length=1)
    for state in (4, 3, 0), (4, 3, 1), (4, 3, 2), (2 ** 32 - 1, 3, 3):
        forged(v, 'settled is above used, outcome %d' % state[2], ['settled is above used'], state, TWO)
    for state in (1, 3, 4), (1, 3, 5), (1, 3, 128), (1, 3, 255), (3, 3, 4):
        forged(v, 'outcome is %d' % state[2], ['outcome is above 3'], state, TWO)
    for outcome in 0, 2, 3:
        clause = 'settled = used with outcome %d' % outcome
        forged(v, clause, [clause], (3, 3, outcome), TWO)
    for state in (2, 3, 1), (0, 3, 1):
        forged(v, 'settled %d below used with 1' % state[0], ['settled below used with 1'], state, TWO)


def rows_impossible(v):
    for title, row in [
            ('place 1', (1, {0}, 0, 0)), ('no right place', (0, set(), 0, 0)), ('right place 1', (0, {1}, 0, 0)),
            ('right places 0 and 1', (0, {0, 1}, 0, 0)), ('right places 0 and 63', (0, {0, 63}, 0, 0)),
            ('parent 1', (0, {0}, 1, 0)), ('letter 1', (0, {0}, 0, 1))]:
        forged(v, 'row 0 has %s' % title, ["row 0 isn't as start wrote it"], rows=[(0, row)])
    for title, clause, row in [
            ('place m', None, (2, {1}, 0, 0)),
            ('no right place', None, (1, set(), 0, 0)),
            ('all right places', None, (1, {1, 2, 3}, 0, 0)),
            ('the row before it as its parent', None, (1, {1}, 1, 0)),
            ('letter 2^s - 1', None, (1, {1}, 1, 1)),
            ('place 0', 'place 0', (0, {1}, 0, 0)),
            ('place m + 1', 'place above m', (3, {1}, 0, 0)),
            ('place 255', 'place above m', (255, {1}, 0, 0)),
            ('set bit 0', 'set bit 0', (1, {0, 1}, 0, 0)),
            ('set bit 0 alone', 'set bit 0', (1, {0}, 0, 0)),
            ('set bit k + 1', 'a bit above k', (1, {1, 4}, 0, 0)),
            ('set bit 32', 'a bit above k', (1, {32}, 0, 0)),
            ('set bit 63', 'a bit above k', (1, {2, 63}, 0, 0)),
            ('itself as its parent', 'a parent not below it', (1, {1}, 2, 0)),
            ('the next row as its parent', 'a parent not below it', (1, {1}, 3, 0)),
            ('parent 65535', 'a parent not below it', (1, {1}, 65535, 0)),
            ('letter 2^s', 'a letter of 2^s or more', (1, {1}, 1, 2)),
            ('letter 256', 'a letter of 2^s or more', (1, {1}, 1, 256)),
            ('letter 65535', 'a letter of 2^s or more', (1, {1}, 1, 65535))]:
        rows = [(1, ROW), (2, row), (3, ROW)]
        forged(v, '%s in a middle row' % title, [clause] if clause else [], (1, 4, 0), rows)
        if clause:
            forged(v, '%s in the last row, which is settled' % title, [clause], (3, 3, 1), rows[:2])
            forged(v, '%s in the first row that isn\'t used' % title, [], (1, 2, 0), rows[:2])
    forged(v, 'every clause of a row but one', ['place 0', 'set bit 0', 'a bit above k', 'a parent not below it',
                                                'a letter of 2^s or more'], (1, 3, 0), [(1, ROW), (2, (0, {0, 4}, 2, 2))])
    for title, clause, row, sides in [
            ('set bit 1 with k = 0', 'a bit above k', (1, {1}, 0, 0), (1, [D], 1, [nil()])),
            ('no right place with k = 0', None, (1, set(), 0, 0), (1, [D], 1, [nil()])),
            ('place 1 with m = 0', 'place above m', (1, {1}, 0, 0), (1, [nil()], 1, [D])),
            ('letter 1 with s = 0', 'a letter of 2^s or more', (1, {1}, 0, 1), (0, [ANY], 0, [ANY])),
            ('letter 255 with s = 8', None, (1, {1}, 0, 255), (8, [ANY], 8, [ANY])),
            ('letter 256 with s = 8', 'a letter of 2^s or more', (1, {1}, 0, 256), (8, [ANY], 8, [ANY]))]:
        forged(v, title, [clause] if clause else [], (1, 2, 0), [(1, row)], sides)


def refused(v, title, ls, left, rs, right, refusal):
    """All three calls refuse, whatever the record and the rows are, and change nothing. At first 16
    applies too, then only the sides' refusal, then, with no row lent, 15 and 16."""
    v.title('%s: %s %d' % (title, *refusal))
    r = v.record((ls, left, rs, right), 2).start(refusal).run(5, refusal).trace(1, refusal).forge_row(0, *ROW_0)
    r.forge(0, 1, REFUTED).run(5, refusal).trace(0, refusal).lend(0).start(refusal).run(5, refusal).show(0, 2).save()


def sides_refused(v):
    faults = [(9, [D], 2), (255, [D], 2), (1, [], 3), (1, [node(6)], 7), (1, [M], 8), (1, [repetition(0)], 9),
              (1, [D, sequence(0, 0)], 10), (1, [D, D], 11)]
    for s, nodes, number in faults:
        refused(v, 'the left alone', s, nodes, 1, [D], ('left', number))
        refused(v, 'the right alone', 1, [D], s, nodes, ('right', number))
        refused(v, 'with 2 on the right', s, nodes, 9, [D], ('left', number))
        refused(v, 'with 11 on the right', s, nodes, 1, [D, D], ('left', number))
    refused(v, 's = 2 on the left, 8 on the right', 2, [D], 1, [M], ('right', 8))
    refused(v, '8 on the left, s = 2 on the right', 1, [M], 2, [D], ('left', 8))
    refused(v, 's = 0 and s = 9', 0, [ANY], 9, [ANY], ('right', 2))
    for ls, rs in (0, 1), (1, 0), (8, 0), (7, 8):
        refused(v, 's = %d and s = %d' % (ls, rs), ls, [ANY], rs, [ANY], ('both', 14))


def two_of_both(v):
    v.title('15, whatever the record is; 16 for the other calls')
    for length, lent in (0, EVERY), (3, 0), ([0, 1, 1, 1], 1), ([1, 1, 1, 0], 1):
        v.record((1, [D], 1, [D]), length, lent).forge(9, 9, 9).start(15).run(1, 16).trace(1, 16).show(0, 3).save()
    v.title('16 is never given by start')
    v.record((1, [D], 1, [D]), 3).forge(9, 9, 9).forge_row(0, 9, EVERY, 9, 9).start(STARTED).show(0, 3).save()
    v.title('16 before 17 and 18')
    r = v.started('C9', 4)
    for state in (3, 3, 0), (9, 1, 1), (0, 1, 7), (1, 1, 2):
        r.forge(*state).trace(0, 16)
    r.save()
    v.title('17 before 18: open, included, no room; then 18')
    (v.started('C9', 4).run(2, (2, 3, 0)).trace(0, 17).trace(9, 17).forge(3, 3, INCLUDED).trace(0, 17)
     .forge(2, 3, NO_ROOM).trace(0, 17).forge(2, 3, REFUTED).trace(0, 18).trace(1, 18).trace(2, [1, 0]).show(0, 4).save())


# s = 1, {D} . {} against {D}* . {}; included, by 4 goals
BY_VALUE = (1, [D, ANY, sequence(0, 1)], 1, [D, repetition(0), ANY, sequence(1, 2)])


def forged_side(v, title, clauses, *numbers):
    """A side of BY_VALUE with these numbers forged, the left and then the right. For these clauses and no other all calls refuse by 24,
    naming the side, in the middle of a run, and once the numbers are as they were the run goes on: its rows and record are untouched. With
    no clause none refuses for its sides."""
    for name in 'left', 'right':
        v.title('%s, %s' % (title, name))
        r = v.record(BY_VALUE, 9).start(STARTED).run(1)
        state, side, was = r.state.state(), getattr(r.forged_sides(), name), []
        for number, value, *place in numbers:
            was.append((number, getattr(side, number)[place[0]] if place else getattr(side, number), *place))
            r.forge_side(name, number, value, *place)
        assert side.clauses_of_24() == set(clauses), title
        v.clauses |= set(clauses)
        if clauses:
            r.start((name, 24)).run(9, (name, 24)).trace(1, (name, 24))
            for number, *rest in reversed(was):
                r.forge_side(name, number, *rest)
            r.run(0, state).show(0, 9).run(9).save()
        else:
            r.run(9).trace(3).show(0, 9).start(STARTED).run(1).run(9).save()


def sides_impossible(v):
    """Refusal 24, clause by clause and at its bounds."""
    k = 2  # instants on either side
    forged_side(v, 'possible: as the table made it', [])
    forged_side(v, 's is 9', ['s is above 8'], ('s', 9))
    forged_side(v, 's is 255', ['s is above 8'], ('s', 255))
    forged_side(v, 'possible: the count is 63', [], ('count', 63))
    forged_side(v, 'the count is 64', ['the instant count is above 63'], ('count', 64))
    forged_side(v, 'the count is 255', ['the instant count is above 63'], ('count', 255))
    forged_side(v, 'possible: every place accepts', [], ('accepts', 2 ** (k + 1) - 1))
    for j in k + 1, 32, 63:
        forged_side(v, 'place %d accepts' % j, ['the accepting set names a place above that count'], ('accepts', 2 ** j))
    for i in 0, 1, 31, 62, 63:
        for j in k + 1, 63:
            forged_side(v, 'place %d follows place %d' % (j, i), ['a follow set names a place above it'], ('follow', 2 ** j, i))
        forged_side(v, 'the start follows place %d' % i, ['a follow set names 0'], ('follow', 1, i))
    forged_side(v, 'possible: every place follows every place', [], *[('follow', 2 ** (k + 1) - 2, j) for j in range(64)])
    forged_side(v, 'the count is 1: what accepts and follows is above it',
                ['the accepting set names a place above that count', 'a follow set names a place above it'], ('count', 1))


def masks_of_any_kind(v):
    """24 says nothing of masks. A letter has no signal of number s or above."""
    for number, words in ('present', 'never matches'), ('absent', 'never hinders'):
        for signal in 1, 8, 15:
            forged_side(v, 'place 1 names signal %d %s, which %s' % (signal, number, words), [], (number, 2 ** signal + 1, 1))
    forged_side(v, 'masks of no place', [], *[(number, 65535, j) for number in ('present', 'absent') for j in (0, 3, 63)])
    v.title('a present signal that no letter has: the left has no trace, and is included in nil')
    v.pair((1, [D], [nil()]), 4).forge_side('left', 'present', 3, 1).start(STARTED).run(9, (1, 1, INCLUDED)).show(0, 3).save()
    v.title('an absent signal that no letter has: as if it were not named')
    (v.pair((1, [D], [D]), 4).forge_side('left', 'absent', 65534, 1).start(STARTED).run(9, (2, 2, INCLUDED))
     .show(0, 3).save())


def at_the_bounds(v):
    v.title('s is 8 on both sides: one letter in two has D')
    r = v.pair((1, [D], [D]), 4).forge_side('left', 's', 8).forge_side('right', 's', 8)
    r.start(STARTED).run(9, (2, 2, INCLUDED)).show(0, 4).save()
    for accepts, state in (2 ** 63, (2, 2, INCLUDED)), (2 ** 62, (1, 2, REFUTED)):
        v.title('a right side of 63 instants, of which the last is {D} and follows the start; place %d accepts' % (accepts.bit_length() - 1))
        r = v.pair((1, [D], [D]), 4).forge_side('right', 'count', 63).forge_side('right', 'present', 1, 63)
        r.forge_side('right', 'follow', 2 ** 63, 0).forge_side('right', 'accepts', accepts)
        r.start(STARTED).run(9, state).trace(2).show(0, 4).save()


def order_of_24(v):
    v.title('24 of the left before 24 of the right, before 14, before 15 and 16')
    (v.record(BY_VALUE, 3, lent=0).forge_side('right', 's', 9).start(('right', 24)).run(1, ('right', 24)).trace(0, ('right', 24))
     .forge_side('left', 'count', 64).start(('left', 24)).run(1, ('left', 24)).trace(0, ('left', 24)).show(0, 3).save())
    v.title('14 before 15 and 16')
    v.record(BY_VALUE, 3, lent=0).forge_side('left', 's', 2).start(14).run(1, 14).trace(0, 14).show(0, 3).save()
    v.title('why there are no sides comes before 24 and 14, whatever its number, and 0 is none')
    r = v.record(BY_VALUE, 3).forge_side('left', 's', 9)
    for side, number in ('right', 7), ('both', 14), ('left', 1), ('both', 255):
        r.forge_why(side, number).start((side, number)).run(1, (side, number)).trace(0, (side, number))
    r.forge_why('left', 0).start(('left', 24)).forge_side('left', 's', 1).start(STARTED).run(9).show(0, 3).save()
    v.title('refused tables make two sides of nothing: with no reason why, these are compared')
    for sides in (1, [M], 1, [D]), (1, [D], 1, [M]), (1, [D], 2, [D]), (9, [D], 9, [D]):
        v.record(sides, 3).forge_why('both', 0).start(STARTED).run(9, (1, 1, INCLUDED)).show(0, 3).save()


def by_value():
    v = Vectors()
    for section in (sides_impossible, masks_of_any_kind, at_the_bounds, order_of_24):
        section(v)
    assert len(v.clauses) == 5
    for name in 'start', 'run', 'trace':
        assert {(name, 24), (name, 14)} <= v.seen, name
    return v


def more():
    v = Vectors()
    for section in (states_impossible, rows_impossible, two_of_both, sides_refused):
        section(v)
    assert len(v.clauses) == 15
    of_sides = {2, 3, 7, 8, 9, 10, 11, 14}
    for name, own in ('start', {15}), ('run', {16}), ('trace', {16, 17, 18}):
        assert {number for word, number in v.seen if word == name} == of_sides | own, name
    return v


# ---- tables made of tables


def joined(operator, x, y):
    """The sequence or choice of two tables."""
    def moved(number):
        kind, *_ = sheets.fields(number)
        children = [child + len(x) for child in sheets.children(number)]
        return node(kind, *children) if children else number
    nodes = [*x, *map(moved, y)]
    return nodes + [operator(len(x) - 1, len(nodes) - 1)]


def repeated(x):
    return [*x, repetition(len(x) - 1)]


def line(n):
    """n times {}, one after the other."""
    return functools.reduce(functools.partial(joined, sequence), [[ANY]] * n)


def not_times(n):
    """Every number of letters that n doesn't divide."""
    one_or_none = [ANY, empty(), choice(0, 1)]
    rest = functools.reduce(functools.partial(joined, sequence), [one_or_none] * (n - 2), [ANY])
    return joined(sequence, rest, repeated(line(n)))


# ---- large tables and many rows. They stand apart, since the interpreter is slow


def long_traces(v):
    v.title('63 instants against 62, and against 63')
    (v.started((0, line(63), line(62)), 70).run(30, (30, 31, 0)).run(EVERY, (63, 64, REFUTED))
     .trace(62, 18).trace(63, [0] * 63).trace(64, [0] * 63).show(0, 66).save())
    v.started((0, line(63), line(63)), 64).run(EVERY, (64, 64, INCLUDED)).save()
    v.title('{}* against empty and each number that 7, 8 or 9 doesn\'t divide: the first that all divide is 504')
    right = functools.reduce(functools.partial(joined, choice), [not_times(n) for n in (7, 8, 9)], [empty()])
    (v.started((0, [ANY, repetition(0)], right), 510).run(500, (500, 501, 0)).run(500, (504, 505, REFUTED))
     .trace(503, 18).trace(504, [0] * 504).trace(512, [0] * 504).show(500, 507).save())


def many_letters(v):
    v.title('s = 8 and 63 instants a side')
    each = places.choices(63)
    v.started((8, each, each), 300).run(1).run(EVERY).show(0, 300).save()
    v.title('as many rows as m = 1 and s = 8 can have: 1 + 1 * 2^8; and one less')
    right = functools.reduce(functools.partial(joined, choice), [[instant(2 ** i, 0)] for i in range(8)], [ANY])
    v.started((8, [ANY], right), 258, lent=257).run(1, (1, 257, 0)).run(EVERY, (257, 257, INCLUDED)).show(0, 258).save()
    v.started((8, [ANY], right), 258, lent=256).run(1, (0, 256, NO_ROOM)).show(254, 258).save()


def most_room(v):
    """Rows beyond 65,535 are never touched, and no record may use them."""

    def filled(used, lengths=LONGEST_COLUMN, lent=EVERY):
        """Row 0 and rows of place 1 and set {1}, all settled but the last, which leads to a new goal."""
        r = v.started((0, line(3), [ANY, repetition(0)]), lengths, lent).forge_row(1, 1, {1}, 0, 0)
        return r.forge_more_rows(2, used).forge(used - 1, used, 0)

    v.title('65,534 rows used, 65,540 lent: the new goal takes the last row there can be')
    filled(65534).run(1, (65534, 65535, 0)).show(65532, 65540).run(1, (65534, 65535, NO_ROOM)).show(65532, 65540).save()
    v.title('65,535 rows used: no room, though more rows are lent')
    filled(65535).run(5, (65534, 65535, NO_ROOM)).show(65532, 65540).save()
    v.title('65,536 rows used: above room, though more rows are lent')
    (filled(65536).run(5, 16).forge(65535, 65536, REFUTED).trace(5, 16).forge(65534, 65535, REFUTED).trace(5, [0])
     .show(65532, 65540).save())
    v.title('65,535 rows used, and so many lent; then one less is lent')
    filled(65535, lent=65535).run(5, (65534, 65535, NO_ROOM)).lend(65534).run(5, 16).save()
    v.title('65,535 rows used, of columns one of which has no more')
    filled(65535, [65535, 65540, 65536, 65540]).run(5, (65534, 65535, NO_ROOM)).show(65532, 65540).save()
    v.title('more than 65,535 rows lent to start')
    for lent in 65535, 65536, 65537, 2 ** 32, 2 ** 32 + 1, EVERY:
        v.started('C5', 65537, lent).run(5, (1, 3, REFUTED)).show(0, 5).save()


def sides_of_63_and_more(v):
    full, many = places.choices(63), places.choices(64)
    for title, clause, row, k in [
            ('place 63 and set bits 1 to 63', None, (63, range(1, 64), 0, 0), 63),
            ('place 64 with m = 63', 'place above m', (64, range(1, 64), 0, 0), 63),
            ('set bit 0 with k = 63', 'set bit 0', (63, range(64), 0, 0), 63),
            ('set bit 63 with k = 62', 'a bit above k', (63, {63}, 0, 0), 62)]:
        forged(v, title, [clause] if clause else [], (1, 2, 0), [(1, row)], (6, full, 6, places.choices(k)))
    for s, nodes, number in (6, many, 12), (6, sheets.chain(256), 3):
        refused(v, 'the left alone', s, nodes, 6, [ANY], ('left', number))
        refused(v, 'the right alone', 6, [ANY], s, nodes, ('right', number))
        refused(v, 'with 2 on the right', s, nodes, 9, [ANY], ('left', number))
    refused(v, '12 on the right, and s differs', 5, [ANY], 6, many, ('right', 12))


def large():
    v = Vectors()
    for section in (long_traces, many_letters, most_room, sides_of_63_and_more):
        section(v)
    # It stands here, since the named vectors end with another record that ends the run.
    v.title('a record whose letter is none of the program\'s ends the run, though all else of it is good')
    good = v.input[1]
    v.input += ['x' + good[1:], good]
    v.expected.append('bad record')
    return v


# ---- random pairs and records


def small_table(pick, s):
    return places.few_instants(pick, sheets.random_table(pick, s, pick.randint(1, pick.choice([4, 8, 14]))))


def weaker(pick, nodes):
    """The table with instants that name fewer signals: it has every trace that it had."""
    def fewer(number):
        kind, a, b = sheets.fields(number)
        if kind != 2:
            return number
        return instant(a & pick.choice([a, pick.randrange(256)]), b & pick.choice([b, pick.randrange(256)]))
    return [fewer(x) for x in nodes]


def random_pair(pick):
    """s and two tables. Tables made apart are seldom included, so most right sides are made of the
    left: with fewer signals named, or beside another effect, or repeated, or with a leaf changed. Some
    are then exchanged, and mostly refuted."""
    s = 8 if pick.random() < 0.03 else pick.choice([0, 1, 1, 2, 2, 3, 4])
    left = small_table(pick, s)
    how = pick.randrange(8)
    if how == 0:
        return s, left, small_table(pick, s)
    right = weaker(pick, left)
    if how in (1, 2):
        parts = [right, small_table(pick, s)]
        pick.shuffle(parts)
        right = joined(choice, *parts)
    if how in (3, 4):
        right = repeated(joined(choice, small_table(pick, s), right))
    if how in (5, 6):
        left = joined(pick.choice([sequence, choice]), left, small_table(pick, s))
        if pick.random() < 0.5:
            left = repeated(left)
        right = weaker(pick, left)
    if pick.random() < 0.4:
        i = pick.choice([j for j, x in enumerate(right) if not sheets.children(x)])
        right[i] = pick.choice([nil(), empty(), instant(pick.randrange(2 ** s), pick.randrange(2 ** s))])
    return (s, right, left) if pick.random() < 0.4 else (s, left, right)


def random_budget(pick):
    return pick.choice([0, 1, 1, 2, 3, pick.randint(4, 40), EVERY])


def run_to_the_end(pick, r):
    """Random budgets up to a verdict; where there is no room, sometimes more is lent."""
    for _ in range(14):
        if r.state.outcome in (1, 2):
            break
        r.run(random_budget(pick))
        if r.state.outcome == 3:
            if pick.random() < 0.3:
                break
            r.lend(r.lent + pick.choice([0, 1, 2, 60]))
    else:
        r.run(EVERY)
    length = len(letters_to(r.rows, r.state.settled)) if r.state.outcome == 2 else 0
    if r.state.outcome == 2 or pick.random() < 0.2:
        r.trace(max(0, min(LONGEST_TRACE, length + pick.choice([0, 0, 1, 4, -1]))))
    if pick.random() < 0.2:
        r.run(random_budget(pick))


def random_row(pick, r):
    """A row that is impossible by at most one clause, mostly."""
    run, (s, left, _, right) = r.state, r.sides
    m, k = (len([x for x in nodes if sheets.is_instant(x)]) for nodes in (left, right))
    i = pick.randint(0, max(1, min(run.used, 60000)))
    place, members = pick.randint(1, max(m, 1)), {j for j in range(1, k + 1) if pick.random() < 0.5}
    parent, letter = pick.randrange(max(i, 1)), pick.randrange(2 ** min(s, 8))
    how = pick.randrange(16)
    if how == 0:
        place = pick.choice([0, m + 1, pick.randrange(256)])
    elif how == 1:
        members = members | {pick.choice([0, k + 1, 63]) % 64}
    elif how == 2:
        parent = pick.choice([i, i + 1, pick.randrange(65536)])
    elif how == 3:
        letter = pick.choice([2 ** min(s, 8), pick.randrange(65536)])
    return i, place % 256, members, parent, letter


def random_state(pick, run):
    """A record that is impossible by at most one clause, mostly."""
    settled, used, outcome = run.settled, run.used, run.outcome
    how = pick.randrange(6)
    if how == 0:
        settled = pick.randint(0, used + 1)
    elif how == 1:
        settled, outcome = pick.randint(0, used), pick.choice([0, 2, 3])
    elif how == 2:
        used = max(0, used + pick.choice([-1, -1, 1, 2]))
    elif how == 3:
        outcome = pick.choice([0, 1, 2, 3, 4, 255])
    elif how == 4:
        settled, outcome = used, pick.choice([1, 1, 1, 0, 2, 3])
    else:
        settled, used = pick.randrange(2 ** 32), pick.choice([used, pick.randrange(2 ** 32)])
    return settled, used, outcome


def random_record(pick, v):
    s, left, right = random_pair(pick)
    ls = rs = s
    if pick.random() < 0.12:
        left = sheets.damaged(pick, left, s)
    if pick.random() < 0.12:
        right = sheets.damaged(pick, right, s)
    if pick.random() < 0.05:
        ls = pick.randint(0, 9)
    if pick.random() < 0.05:
        rs = pick.randint(0, 9)
    rows = pick.choice([1, 2, 3, 4, 6, 10, 100, 100, 300, 300, 300])
    lengths = [rows] * 4 if pick.random() < 0.7 else [rows + pick.choice([0, 0, 1, 2, -1]) for _ in range(4)]
    lent = pick.choice([EVERY, rows, rows + 1, pick.randint(0, rows)])
    r = v.record((ls, left, rs, right), lengths, lent)
    if pick.random() < 0.95:
        r.start()
    if r.state.used and pick.random() < 0.9:
        run_to_the_end(pick, r)
    if pick.random() < 0.4:
        for _ in range(pick.randint(1, 3)):
            if pick.random() < 0.5:
                r.forge_row(*random_row(pick, r))
            if pick.random() < 0.5:
                r.forge(*random_state(pick, r.state))
            if pick.random() < 0.7:
                r.run(random_budget(pick))
            else:
                r.trace(pick.choice([0, 1, 2, 9]))
    r.show(0, min(max(lengths), min(r.state.used, 300) + 2))
    r.save()


def random_number(pick, side):
    """A number of a side, that is mostly possible: its name, its value and its place."""
    number = pick.choice(['s', 'count', 'accepts', *2 * ['present', 'absent'], *3 * ['follow']])
    some = sum(2 ** j for j in range(side.count + 1) if pick.random() < 0.5)
    stray = 2 ** pick.randrange(64) if pick.random() < 0.04 else 0
    value = {
        's': pick.choice([side.s, side.s, side.s, pick.randint(0, 9)]),
        'count': min(255, max(0, side.count + pick.choice([0, 1, 1, 2, -1, 60]))),
        'accepts': some | stray,
        'follow': some & ~1 | stray,
    }.get(number, pick.choice([pick.randrange(2 ** side.s), pick.randrange(2 ** 16)]))
    return number, value, pick.choice([pick.randint(0, side.count), pick.randrange(64)]) if number in BY_PLACE else 0


def random_forged(pick, v):
    """Sides of two tables with some numbers forged, run to an end."""
    s, left, right = random_pair(pick)
    rows = pick.choice([2, 3, 4, 10, 100, 300])
    r = v.record((s, left, s, right), rows)
    for _ in range(pick.randint(1, 6)):
        name = pick.choice(['left', 'right'])
        r.forge_side(name, *random_number(pick, getattr(r.forged_sides(), name)))
    r.start()
    for budget in pick.randint(0, 3), EVERY:
        r.run(budget)
    r.trace(pick.choice([0, 3, 40])).show(0, min(rows, r.state.used + 2)).save()
    return r.state.outcome


def random_forged_vectors(seed, count):
    pick, v = random.Random(seed), Vectors()
    v.title('%d random records of forged sides, of seed %d' % (count, seed))
    ended = [random_forged(pick, v) for _ in range(count)]
    for outcome, part in (INCLUDED, 10), (REFUTED, 10), (NO_ROOM, 50):  # a fair part of each, or the sides are of no use
        assert part * ended.count(outcome) > count, (outcome, ended.count(outcome))
    assert ('run', 24) in v.seen and ('run', 14) in v.seen
    return v


def random_vectors(seed, count):
    pick, v = random.Random(seed), Vectors()
    v.title('%d random records of seed %d' % (count, seed))
    for _ in range(count):
        random_record(pick, v)
    return v


def verdicts(seed, count):
    """Random pairs, run to the verdict in one go and held to derivatives."""
    pick, reached = random.Random(seed), []
    for _ in range(count):
        s, left, right = random_pair(pick)
        sides, rows, run = (s, left, s, right), Rows([3000] * 4), Run(0, 0, 0)
        start(sides, EVERY, rows, run)
        run_steps(sides, EVERY, rows, run, EVERY)
        hold_to_derivatives(comparison(*sides), rows, run)
        reached.append(run.outcome)
    for outcome in 1, 2:  # a fair part of each, or the pairs are of no use
        assert 4 * reached.count(outcome) > count, (outcome, reached.count(outcome))
    print(len(reached), 'pairs have the verdict of derivatives')


def main(words):
    if words[:1] == ['rows']:
        Vectors.on_rows, words = True, words[1:]
    makers = {'named': named, 'more': more, 'large': large, 'sides': by_value}
    by_seed = {'random': random_vectors, 'forged': random_forged_vectors}
    if len(words) == 3 and words[0] in makers:
        makers[words[0]]().save(*words[1:])
    elif len(words) == 5 and words[0] in by_seed:
        by_seed[words[0]](int(words[1]), int(words[2])).save(*words[3:])
    elif len(words) == 3 and words[0] == 'verdicts':
        verdicts(int(words[1]), int(words[2]))
    else:
        sys.exit(__doc__)


if __name__ == '__main__':
    main(sys.argv[1:])
