#!/usr/bin/env -S python3 -I
"""Places, first, last and follow sets of document 01, a second time, for tests.

The rules here are document 01's, and no code is shared with the crates: a node table
becomes a tree, and a set of places is a set of numbers, gathered from the tree. Whether a table is
refused is asked of sheets.py. What the program try_calls must print is made here and never taken
from the program.

    places.py named INPUT EXPECTED               the named vectors
    places.py large INPUT EXPECTED               more of them, large tables
    places.py random SEED COUNT INPUT EXPECTED   COUNT random tables, the same for the same SEED
    places.py traces SEED COUNT                  no vectors: COUNT small random tables, whose places
                                                 must take the traces that "Meaning" says

A record is a line of the letter p and hexadecimal digits (numbers big-endian, white space ignored):

    00 SS NNNN nodes   the side of s and N nodes, or the refusal and the side beside it, all zeros
    01 SS NNNN nodes   for each letter, ascending, the set of that side's places that match it

Bit j of a set is place j. A line that begins with '#' names what follows; the program prints it as
it is.
"""
import sys

if not __debug__:  # it checks itself by assertions
    sys.exit('tests/places.py: python3 leaves assertions out (-O or PYTHONOPTIMIZE), so nothing would be checked')

import itertools
import os
import random

sys.dont_write_bytecode, sys.pycache_prefix = True, os.devnull  # a test run leaves nothing behind, and takes nothing that was left
sys.path.insert(0, os.path.dirname(os.path.realpath(__file__)))  # isolated, python3 does not look there by itself
import sheets
from sheets import KINDS, choice, empty, instant, nil, node, repetition, sequence

# ---- the tree: (kind, ..), an instant with its place, its present and its absent signals


def signals(mask):
    return {i for i in range(8) if mask & 2 ** i}


def tree_of(nodes):
    """The tree of an accepted table; the root is the last node."""
    place = {}
    for i, x in enumerate(nodes):
        if sheets.is_instant(x):
            place[i] = len(place) + 1

    def tree(i):
        kind, a, b = sheets.fields(nodes[i])
        if i in place:
            return 'instant', place[i], signals(a), signals(b)
        return (KINDS[kind], *[tree(child) for child in sheets.children(nodes[i])])

    return tree(len(nodes) - 1)


def instants(tree):
    """Each place of the tree, with its present and its absent signals."""
    if tree[0] == 'instant':
        return {tree[1]: tree[2:]}
    return {j: masks for part in tree[1:] for j, masks in instants(part).items()}


def matches(masks, letter):
    """The letter has all present signals and no absent one."""
    present, absent = masks
    return present <= signals(letter) and not absent & signals(letter)


# ---- the published table, and what follows what


def has_empty(tree):
    kind, *parts = tree
    if kind == 'sequence':
        return all(has_empty(part) for part in parts)
    if kind == 'choice':
        return any(has_empty(part) for part in parts)
    return kind in ('empty', 'repetition')


def ends(tree, of_sequence):
    """The places at one end of the tree. Of a sequence, `of_sequence` puts the part of that end first."""
    kind, *parts = tree
    if kind == 'instant':
        return {tree[1]}
    if kind == 'sequence':
        near, far = of_sequence(parts)
        return ends(near, of_sequence) | (ends(far, of_sequence) if has_empty(near) else set())
    return set().union(*[ends(part, of_sequence) for part in parts if kind in ('choice', 'repetition')])


def first(tree): return ends(tree, lambda parts: parts)
def last(tree): return ends(tree, lambda parts: parts[::-1])


def follow_pairs(tree):
    """Each pair (j, k) of places such that k may follow j."""
    kind, *parts = tree
    if kind == 'instant':
        return set()
    pairs = set().union(*[follow_pairs(part) for part in parts])
    if kind == 'sequence':
        pairs |= set(itertools.product(last(parts[0]), first(parts[1])))
    if kind == 'repetition':
        pairs |= set(itertools.product(last(parts[0]), first(parts[0])))
    return pairs


class Side:
    def __init__(self, s, nodes):
        self.s, self.tree = s, tree_of(nodes)
        self.instants = instants(self.tree)
        self.follow = {j: set() for j in [0, *self.instants]}
        self.follow[0] = first(self.tree)
        for j, k in follow_pairs(self.tree):
            self.follow[j].add(k)
        self.accepts = last(self.tree) | ({0} if has_empty(self.tree) else set())

    def matching(self, letter):
        return {j for j, masks in self.instants.items() if matches(masks, letter)}

    def takes(self, word, match):
        """Whether the word leads from place 0 to a place that accepts. A letter x leads to a place j
        if match(j, x)."""
        here = {0}
        for x in word:
            here = {k for j in here for k in self.follow[j] if match(k, x)}
        return bool(here & self.accepts)


# ---- the same by "Meaning": is this list of letters a trace of the tree?


def letters_of(s, masks):
    """An instant's one-letter traces: each signal has what its marks leave, and the letters are all
    ways to choose."""
    present, absent = masks
    left = [{0, 1} - ({0} if i in present else set()) - ({1} if i in absent else set()) for i in range(s)]
    return {sum(x * 2 ** i for i, x in enumerate(chosen)) for chosen in itertools.product(*left)}


def is_trace(tree, word, match):
    kind, *parts = tree
    splits = [(word[:k], word[k:]) for k in range(len(word) + 1)]
    if kind == 'empty':
        return word == ()
    if kind == 'instant':
        return len(word) == 1 and match(tree[1], word[0])
    if kind == 'sequence':
        return any(is_trace(parts[0], x, match) and is_trace(parts[1], y, match) for x, y in splits)
    if kind == 'choice':
        return any(is_trace(part, word, match) for part in parts)
    if kind == 'repetition':  # a trace of the body that is empty adds nothing
        return word == () or any(is_trace(parts[0], x, match) and is_trace(tree, y, match) for x, y in splits if x)
    return False


def words(letters):
    """All lists of up to three letters, shortest first."""
    return [word for length in range(4) for word in itertools.product(letters, repeat=length)]


def agree(side):
    """Places take exactly the traces. Once over the letters, and once over the places themselves, each
    instant having a letter of its own, so that one place can't stand in for another."""
    matching = [side.matching(x) for x in range(2 ** side.s)]
    letters = {j: letters_of(side.s, masks) for j, masks in side.instants.items()}
    for word in words(range(2 ** side.s)):
        assert (side.takes(word, lambda j, x: j in matching[x])
                == is_trace(side.tree, word, lambda j, x: x in letters[j])), (side.tree, word)
    for word in words(side.instants):
        assert side.takes(word, int.__eq__) == is_trace(side.tree, word, int.__eq__), (side.tree, word)


# ---- records and what must be printed for them


def set_of(places):
    return '%016x' % sum(2 ** j for j in places)


def mask_of(named):
    return '%04x' % sum(2 ** i for i in named)


def side_lines(side):
    lines = ['s %d places %d empty %d accepts %s first %s' % (
        side.s, len(side.instants), 0 in side.accepts, set_of(side.accepts), set_of(side.follow[0]))]
    for j, (present, absent) in sorted(side.instants.items()):
        lines.append('place %d present %s absent %s follow %s' % (
            j, mask_of(present), mask_of(absent), set_of(side.follow[j])))
    return lines + ['rest %s' % set_of([])]


def refused_lines(refusal):
    """Nil over no signals has a side of zeros."""
    return ['refused %d' % refusal] + side_lines(Side(0, [nil()]))


def matching_line(side):
    return 'matching' + ''.join(' ' + set_of(side.matching(x)) for x in range(2 ** side.s))


class Vectors(sheets.Vectors):
    letter = 'p'

    def table(self, s, nodes, letters=True, expect=None):
        """The side of a table and, unless letters is False, the places that match each letter. A named
        vector says by `expect` which refusal document 01 asks for, 0 for none."""
        assert len(nodes) <= sheets.LONGEST_TABLE
        refusal = sheets.refusal_of_nodes(s, nodes)
        assert expect in (None, refusal), (s, nodes, expect, refusal)
        side = None if refusal else Side(s, nodes)
        self.seen.add(refusal)
        given = '%02x %04x' % (s, len(nodes)) + sheets.hex_numbers(nodes)
        self.ask('00 ' + given)
        self.expected += refused_lines(refusal) if refusal else side_lines(side)
        if letters:
            self.ask('01 ' + given)
            self.expected.append('matching refused %d' % refusal if refusal else matching_line(side))

    def refused(self, title, s, nodes, refusal):
        self.title('%s: refusal %d' % (title, refusal))
        self.table(s, nodes, expect=refusal)

    def accepted(self, title, s, nodes, letters=True):
        self.title(title)
        self.table(s, nodes, letters, expect=0)

    def side(self, title, s, nodes, has_empty, first, last, follow):
        """A table whose sets are named by hand: `follow` has what follows each place from 1 on."""
        side = Side(s, nodes)
        assert side.accepts == last | ({0} if has_empty else set()), title
        assert side.follow == {0: first, **dict(enumerate(follow, 1))}, title
        agree(side)
        self.accepted(title, s, nodes)


# ---- the named vectors. D is signal 0, M signal 1; a bar is written ~

D, M, NOT_D, NOT_M, ANY = instant(1, 0), instant(2, 0), instant(0, 1), instant(0, 2), instant(0, 0)


def each_operator(v):
    none = set()
    v.side('nil', 0, [nil()], False, none, none, [])
    v.side('empty', 0, [empty()], True, none, none, [])
    v.side('{D}', 2, [D], False, {1}, {1}, [none])
    v.side('{~M}', 2, [NOT_M], False, {1}, {1}, [none])
    v.side('{D, ~M}', 2, [instant(1, 2)], False, {1}, {1}, [none])
    v.side('{}', 2, [ANY], False, {1}, {1}, [none])
    v.side('{D, ~D}, which no letter matches', 1, [instant(1, 1)], False, {1}, {1}, [none])
    v.side('{D}.{M}', 2, [D, M, sequence(0, 1)], False, {1}, {2}, [{2}, none])
    v.side('{D} or {M}', 2, [D, M, choice(0, 1)], False, {1, 2}, {1, 2}, [none, none])
    v.side('{D}*', 1, [D, repetition(0)], True, {1}, {1}, [{1}])


def with_empty_parts(v):
    none = set()
    v.side('e.{D}', 1, [empty(), D, sequence(0, 1)], False, {1}, {1}, [none])
    v.side('{D}.e', 1, [D, empty(), sequence(0, 1)], False, {1}, {1}, [none])
    v.side('e.e', 0, [empty(), empty(), sequence(0, 1)], True, none, none, [])
    v.side('e or e', 0, [empty(), empty(), choice(0, 1)], True, none, none, [])
    v.side('e or nil', 0, [empty(), nil(), choice(0, 1)], True, none, none, [])
    v.side('nil or e', 0, [nil(), empty(), choice(0, 1)], True, none, none, [])
    v.side('nil or nil', 0, [nil(), nil(), choice(0, 1)], False, none, none, [])
    v.side('nil.e', 0, [nil(), empty(), sequence(0, 1)], False, none, none, [])
    v.side('nil*', 0, [nil(), repetition(0)], True, none, none, [])
    v.side('e*', 0, [empty(), repetition(0)], True, none, none, [])
    v.side('{D}*.{M}*', 2, [D, repetition(0), M, repetition(2), sequence(1, 3)],
           True, {1, 2}, {1, 2}, [{1, 2}, {2}])
    v.side('{D}*.{M}', 2, [D, repetition(0), M, sequence(1, 2)], False, {1, 2}, {2}, [{1, 2}, none])
    v.side('{D}.{M}*', 2, [D, M, repetition(1), sequence(0, 2)], False, {1}, {1, 2}, [{2}, {2}])
    v.side('({D} or e).(e or {M})', 2, [D, empty(), choice(0, 1), empty(), M, choice(3, 4), sequence(2, 5)],
           True, {1, 2}, {1, 2}, [{2}, none])
    v.side('nil.{D}: the first set is empty, the last is not', 1, [nil(), D, sequence(0, 1)], False, none, {1}, [none])
    v.side('{D}.nil: the last set is empty, the first is not', 1, [D, nil(), sequence(0, 1)], False, {1}, none, [none])
    v.side('{D}.e.{M}', 2, [D, empty(), M, sequence(0, 1), sequence(3, 2)], False, {1}, {2}, [{2}, none])
    v.side('{D}.nil.{M}: nothing follows {D}', 2, [D, nil(), M, sequence(0, 1), sequence(3, 2)],
           False, {1}, {2}, [none, none])


def nested(v):
    none = set()
    v.side('{D}**', 1, [D, repetition(0), repetition(1)], True, {1}, {1}, [{1}])
    v.side('({D}.{M})*', 2, [D, M, sequence(0, 1), repetition(2)], True, {1}, {2}, [{2}, {1}])
    v.side('({D} or {M})*', 2, [D, M, choice(0, 1), repetition(2)], True, {1, 2}, {1, 2}, [{1, 2}, {1, 2}])
    v.side('({D}*.{M}*)*', 2, [D, repetition(0), M, repetition(2), sequence(1, 3), repetition(4)],
           True, {1, 2}, {1, 2}, [{1, 2}, {1, 2}])
    v.side('({D}*.{M})*', 2, [D, repetition(0), M, sequence(1, 2), repetition(3)],
           True, {1, 2}, {2}, [{1, 2}, {1, 2}])
    v.side('{}.({D}.{M} or {~D})*', 2, [ANY, D, M, sequence(1, 2), NOT_D, choice(3, 4), repetition(5), sequence(0, 6)],
           False, {1}, {1, 3, 4}, [{2, 4}, {3}, {2, 4}, {2, 4}])
    v.side('(({D} or e).{M})*.{}', 2, [D, empty(), choice(0, 1), M, sequence(2, 3), repetition(4), ANY, sequence(5, 6)],
           False, {1, 2, 3}, {3}, [{2}, {1, 2, 3}, none])


def unusual_order(v):
    """Places are numbered by node, not by where they stand in the text of the effect."""
    none = set()
    v.side('{M}.{D}, {D} being the lower node', 2, [D, M, sequence(1, 0)], False, {2}, {1}, [none, {1}])
    v.side('{M} or {D}, {D} being the lower node', 2, [D, M, choice(1, 0)], False, {1, 2}, {1, 2}, [none, none])
    v.side('{}.{M}.{D}, from the last node to the first', 2, [D, M, ANY, sequence(1, 0), sequence(2, 3)],
           False, {3}, {1}, [none, {1}, {2}])
    v.side('({M}.{D})*.({~D}.{~M}), the parts interleaved', 2,
           [D, NOT_M, M, NOT_D, sequence(2, 0), sequence(3, 1), repetition(4), sequence(6, 5)],
           False, {3, 4}, {2}, [{3, 4}, none, {1}, {2}])
    v.side('{D}, a repetition above it, then {M}, which comes first', 2, [D, repetition(0), M, sequence(2, 1)],
           False, {2}, {1, 2}, [{1}, {1}])


# C1 to C12: s, left, right, and a trace where document 01 has it refuted
COMPARISONS = [
    ('C1', 0, [empty()], [empty()], None),
    ('C2', 0, [empty()], [nil()], ()),
    ('C3', 0, [nil()], [empty()], None),
    ('C4', 1, [D], [ANY], None),
    ('C5', 1, [ANY], [D], (0,)),
    ('C6', 1, [ANY], [D, NOT_D, choice(0, 1)], None),
    ('C7', 1, [instant(1, 1)], [nil()], None),
    ('C8', 1, [D, repetition(0)], [D, D, repetition(1), sequence(0, 2), empty(), choice(3, 4)], None),
    ('C9', 2, [D, NOT_M, sequence(0, 1)], [D, M, sequence(0, 1), NOT_D, choice(2, 3), repetition(4)], (1, 0)),
    ('C10', 0, [ANY, repetition(0)], [ANY], ()),
    ('C11', 0, [ANY, ANY, sequence(0, 1)], [ANY, repetition(0)], None),
    ('C12', 1, [D, nil(), sequence(0, 1)], [nil()], None),
]


def comparisons(v):
    for name, s, left, right, trace in COMPARISONS:
        sides = [Side(s, left), Side(s, right)]
        taken = [[word for word in words(range(2 ** s)) if side.takes(word, lambda j, x: j in side.matching(x))]
                 for side in sides]
        # As far as three letters go, the tables are those of the comparison.
        assert next((word for word in taken[0] if word not in taken[1]), None) == trace, name
        for side, nodes, word in zip(sides, (left, right), ('left', 'right')):
            agree(side)
            v.accepted('%s, %s' % (name, word), s, nodes)


def signals_and_letters(v):
    for s in range(5):
        v.accepted('s = %d: each signal present, each absent, and both' % s, s, sheets.comb(
            [instant(2 ** i, 0) for i in range(s)] + [instant(0, 2 ** i) for i in range(s)] +
            [instant(2 ** i, 2 ** i) for i in range(s)] + [ANY]))
    v.accepted('s = 8: signal 7 and all others', 8, sheets.comb([instant(128, 127), instant(127, 128), instant(255, 0)]))


def refusals(v):
    one = [D]
    v.refused('s = 9', 9, one, 2)
    v.refused('s = 255', 255, one, 2)
    v.refused('s = 9 and no node', 9, [], 2)
    v.refused('no node', 1, [], 3)
    v.refused('kind 6', 0, [node(6)], 7)
    v.refused('the number of a node and bit 19', 1, [2 ** 19 + D], 7)
    v.refused('nil with a field, under a repetition', 0, [node(0, 1), repetition(0)], 7)
    v.refused('signal 1 with s = 1', 1, [D, M, choice(0, 1)], 8)
    v.refused('signal 0 absent with s = 0', 0, [NOT_D], 8)
    v.refused('a repetition of itself', 0, [repetition(0)], 9)
    v.refused('a sequence with a part above it', 1, [D, sequence(0, 2), D], 9)
    v.refused('one part twice', 1, [D, sequence(0, 0)], 10)
    v.refused('a part claimed already', 1, [D, repetition(0), sequence(0, 1)], 10)
    v.refused('an instant that is nobody\'s child', 1, [D, D], 11)
    v.refused('a sequence that is nobody\'s child', 2, [D, M, sequence(0, 1), empty()], 11)


def chain_of_sequences(n, right_to_left=False):
    """n instants, one after the other; node order and the effect's order agree, or are opposite."""
    nodes = [instant(j % 256, 0) for j in range(n)]
    for j in range(1, n):
        before = 0 if j == 1 else len(nodes) - 1
        nodes.append(sequence(j, before) if right_to_left else sequence(before, j))
    return nodes


def choices(n):
    nodes = [instant(0, j % 256) for j in range(n)]
    for j in range(1, n):
        nodes.append(choice(0 if j == 1 else len(nodes) - 1, j))
    return nodes


def all_optional(n):
    """n instants one after the other, each under a repetition: every place follows every lower one."""
    nodes, root = [], None
    for _ in range(n):
        nodes += [ANY, repetition(len(nodes))]
        if root is not None:
            nodes.append(sequence(root, len(nodes) - 1))
        root = len(nodes) - 1
    return nodes


def deepest():
    return [D] + [repetition(i) for i in range(254)]


def limits(v):
    v.accepted('63 instants in a chain of sequences', 6, chain_of_sequences(63))
    v.accepted('63 instants in choices, repeated', 6, choices(63) + [repetition(124)])
    v.refused('64 instants', 6, chain_of_sequences(64), 12)
    v.accepted('N = 255, as deep as can be: {D} under 254 repetitions', 1, deepest(), False)


def named_large(v):
    """They stand apart, since the interpreter is slow."""
    v.accepted('the letters of {D} under 254 repetitions', 1, deepest())
    v.accepted('62 instants in a chain of sequences', 6, chain_of_sequences(62))
    v.accepted('63 instants in a chain of sequences, the last node first', 6, chain_of_sequences(63, True))
    v.accepted('63 instants in choices', 6, choices(63))
    v.accepted('63 instants, each optional', 0, all_optional(63))
    v.accepted('the same, repeated', 0, all_optional(63) + [repetition(187)])
    v.accepted('N = 255, 63 instants and other leaves', 8, sheets.FULL)
    v.accepted('N = 255, 63 instants in a chain under 130 repetitions', 6,
               chain_of_sequences(63) + [repetition(i) for i in range(124, 254)])
    v.accepted('s = 8, 63 instants, every letter', 8, chain_of_sequences(63))
    v.refused('64 instants in choices', 6, choices(64), 12)
    v.refused('256 nodes', 0, sheets.chain(256), 3)
    v.refused('300 nodes', 0, sheets.chain(300), 3)
    v.refused('the last of 255 nodes names itself', 0, sheets.chain(254) + [repetition(254)], 9)


def named():
    v = Vectors()
    for section in (each_operator, with_empty_parts, nested, unusual_order, comparisons, signals_and_letters,
                    refusals, limits):
        section(v)
    assert v.seen == {0, 2, 3, *range(7, 13)}
    return v


def large():
    v = Vectors()
    named_large(v)
    # It stands here, since after the named vectors the program is asked those of goals.
    v.title('a record that says more than it has ends the run')
    v.ask('00 01 0002 00020100')
    v.ask('00 00 0001 00010000')
    v.expected.append('bad record')
    return v


# ---- random tables


def few_instants(pick, nodes):
    """The table with all instants but 63 made empty, by chance: it is sound if it was."""
    at = [i for i, x in enumerate(nodes) if sheets.is_instant(x)]
    surplus = pick.sample(at, max(0, len(at) - 63))
    return [empty() if i in surplus else x for i, x in enumerate(nodes)]


def random_table(pick, v):
    s = pick.randint(0, 8)
    n = 255 if pick.random() < 0.04 else pick.randint(1, pick.choice([5, 15, 40]))
    nodes = few_instants(pick, sheets.random_table(pick, s, n))
    if pick.random() < 0.2:
        nodes = sheets.damaged(pick, nodes, s)
    v.table(s, nodes, s <= 4 or pick.random() < 0.1)


def random_vectors(seed, count):
    pick, v = random.Random(seed), Vectors()
    v.title('%d random tables of seed %d' % (count, seed))
    for _ in range(count):
        random_table(pick, v)
    return v


def traces(seed, count):
    assert count > 0, 'nothing is looked at'
    pick = random.Random(seed)
    for _ in range(count):
        s = pick.randint(0, 2)
        agree(Side(s, sheets.random_table(pick, s, pick.randint(1, 12))))
    print(count, 'tables take the traces of their meaning')


def main(words):
    if len(words) == 3 and words[0] == 'named':
        named().save(*words[1:])
    elif len(words) == 3 and words[0] == 'large':
        large().save(*words[1:])
    elif len(words) == 5 and words[0] == 'random':
        random_vectors(int(words[1]), int(words[2])).save(*words[3:])
    elif len(words) == 3 and words[0] == 'traces':
        traces(int(words[1]), int(words[2]))
    else:
        sys.exit(__doc__)


if __name__ == '__main__':
    main(sys.argv[1:])
