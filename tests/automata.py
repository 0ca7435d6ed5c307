#!/usr/bin/env -S python3 -I
"""What the inspection program must print for an input, worked out a second way, and compared with what it prints.
Written from document 01 alone, without sight of the program that it judges or of the other tests.

    automata.py expect                        an input on stdin; stdout: what the program must print
    automata.py named PROGRAM..               named inputs, each fed to the command PROGRAM.. and compared
    automata.py random SEED COUNT PROGRAM..   the same with COUNT random inputs, always the same for one SEED

Part 1 reads and refuses sheets. Part 2 finds the verdict by a search over pairs of state sets of two Thompson
automata. Part 3 finds outcome, settled, used and trace by the document's rows. Part 4 holds 2 and 3 together;
these two share the node table and matches(), nothing else. The rest makes inputs and compares.
"""
import sys

if not __debug__:  # it checks itself by assertions
    sys.exit('tests/automata.py: python3 leaves assertions out (-O or PYTHONOPTIMIZE), so nothing would be checked')

import functools, random, subprocess
from collections import Counter, namedtuple

NIL, EMPTY, INSTANT, SEQUENCE, CHOICE, REPETITION = range(6)
ROOM, READ_AT_MOST = 1024, 1217
SEARCH_LIMIT = 200_000  # pairs times letters that differ in effect; a tenth at no room, where it is only counted

def children(node):
    """The children of a node: numbers in a node table, subtrees in the trees made further down."""
    kind, a, b = node
    return {SEQUENCE: (a, b), CHOICE: (a, b), REPETITION: (a,)}.get(kind, ())

def matches(instant, letter):
    _, present, absent = instant
    return letter & present == present and letter & absent == 0

# ---- 1. Sheets and refusals ----
def sheet_length(count):
    return (12 + 19 * count + 7) // 8

def header(sheet):
    """s and N, taking bytes that are missing as 0."""
    number = int.from_bytes(sheet[:2].ljust(2, b"\0"), "big")
    return number >> 12, number >> 4 & 255

def nodes_of(sheet):
    whole, start = int.from_bytes(sheet, "big"), 8 * len(sheet) - 12
    numbers = [whole >> start - 19 * i & 0x7FFFF for i in range(1, header(sheet)[1] + 1)]
    return [(number >> 16, number >> 8 & 255, number & 255) for number in numbers]

def checks(sheet):
    """Each refusal number with whether it applies, in the order in which they are given."""
    s, count = header(sheet)
    yield 1, len(sheet) < 2
    yield 2, s > 8
    yield 3, count == 0
    yield 4, len(sheet) != sheet_length(count)
    yield 5, int.from_bytes(sheet, "big") % 2 ** (8 * len(sheet) - 12 - 19 * count)
    nodes, somebodys = nodes_of(sheet), set()
    for number, node in enumerate(nodes):
        kind, a, b = node
        own = children(node)
        yield 7, kind > 5 or {NIL: a | b, EMPTY: a | b, REPETITION: b}.get(kind, 0)
        yield 8, kind == INSTANT and (a | b) >> s
        yield 9, any(child >= number for child in own)
        yield 10, somebodys & set(own) or len(set(own)) < len(own)
        somebodys.update(own)
    yield 11, somebodys != set(range(count - 1))
    yield 12, [kind for kind, _, _ in nodes].count(INSTANT) > 63

def read_input(data):
    """(s, left nodes, right nodes), or the refusal as text: its side and number."""
    length = sheet_length(header(data)[1])  # never cuts into the header, so its refusals come out as they are
    sheets = data[:length], data[length:READ_AT_MOST]
    for side, sheet in zip(("left", "right"), sheets):
        for number, applies in checks(sheet):
            if applies:
                return f"{side} {number}"
    (left_s, _), (right_s, _) = map(header, sheets)
    return "both 14" if left_s != right_s else (left_s, *map(nodes_of, sheets))

# ---- 2. The verdict by automata ----
class Automaton:
    """Thompson's automaton: node i is entered at state 2i and left at state 2i + 1. It is made deterministic on
    the fly; a set of states is a number with bit q for state q."""
    def __init__(self, nodes):
        self.moves = [[] for _ in range(2 * len(nodes))]
        for number, (kind, a, b) in enumerate(nodes):
            enter, leave, enter1, leave1, enter2, leave2 = (2 * i + end for i in (number, a, b) for end in (0, 1))
            for origin, target in {
                    EMPTY: [(enter, leave)],
                    SEQUENCE: [(enter, enter1), (leave1, enter2), (leave2, leave)],
                    CHOICE: [(enter, enter1), (enter, enter2), (leave1, leave), (leave2, leave)],
                    REPETITION: [(enter, enter1), (enter, leave), (leave1, enter1), (leave1, leave)]}.get(kind, []):
                self.moves[origin].append(target)
        self.instants = [(1 << 2 * number, node, self.closure(2 * number + 1))
                         for number, node in enumerate(nodes) if node[0] == INSTANT]
        self.start, self.final = self.closure(2 * len(nodes) - 2), 1 << 2 * len(nodes) - 1

    def closure(self, state):
        found, waiting = 1 << state, [state]
        while waiting:
            for target in self.moves[waiting.pop()]:
                if not found >> target & 1:
                    found |= 1 << target
                    waiting.append(target)
        return found

    def after(self, states, letters):
        """The sets of states reached from this one by each of the letters."""
        active = [(instant, reached) for enter, instant, reached in self.instants if states & enter]
        return [functools.reduce(int.__or__, (reached for instant, reached in active if matches(instant, letter)), 0)
                for letter in letters]

    def has_trace(self, trace):
        states = self.start
        for letter in trace:
            states, = self.after(states, [letter])
        return bool(states & self.final)

def search(s, left, right, limit):
    """The verdict, and if it is refuted a shortest trace of the left that the right lacks."""
    letters = {tuple(matches(i, letter) for side in (left, right) for _, i, _ in side.instants): letter
               for letter in reversed(range(2 ** s))}.values()  # the lowest of those with the same effect
    origins = {(left.start, right.start): None}
    waiting = list(origins)
    for pair in waiting:  # grows while it is gone through: breadth first
        if pair[0] & left.final and not pair[1] & right.final:
            trace = []
            while origins[pair]:
                pair, letter = origins[pair]
                trace.insert(0, letter)
            return "refuted", trace
        if len(origins) * len(letters) > limit:
            return "undecided", None
        for letter, *sets in zip(letters, left.after(pair[0], letters), right.after(pair[1], letters)):
            following = tuple(sets)
            if following[0] and following not in origins:
                origins[following] = pair, letter
                waiting.append(following)
    return "included", None

# ---- 3. The rows ----
Run = namedtuple("Run", "outcome settled used trace")

def places_of(nodes):
    """The followers of each place, the accepting places, the instant of each place; index 0 is the start."""
    none = frozenset()
    facts, followers, instants = [], [none], [None]
    for node in nodes:
        new = frozenset({len(instants)})
        (empty1, first1, last1), (empty2, first2, last2), *_ = (
            *(facts[child] for child in children(node)), (False, none, none), (False, none, none))
        facts.append({  # the document's table: has empty, first, last
            NIL: (False, none, none),
            EMPTY: (True, none, none),
            INSTANT: (False, new, new),
            SEQUENCE: (empty1 and empty2, first1 | first2 if empty1 else first1, last2 | last1 if empty2 else last2),
            CHOICE: (empty1 or empty2, first1 | first2, last1 | last2),
            REPETITION: (True, first1, last1),
        }[node[0]])
        if node[0] == INSTANT:
            instants.append(node)
            followers.append(none)
        for place in last1:
            followers[place] |= {SEQUENCE: first2, REPETITION: first1}.get(node[0], none)
    empty, followers[0], last = facts[-1]
    return followers, last | {0} if empty else last, instants

def run_rows(s, left, right, room=ROOM):
    left_followers, left_accepting, left_instants = places_of(left)
    right_followers, right_accepting, right_instants = places_of(right)
    left_matching, right_matching = (  # for each letter the places whose instant matches it
        [{place for place in range(1, len(instants)) if matches(instants[place], letter)} for letter in range(2 ** s)]
        for instants in (left_instants, right_instants))
    rows = [(0, frozenset({0}))]
    traces = {rows[0]: ()}  # a row's is its parent's and its letter
    for settled, (place, members) in enumerate(rows):  # rows are added at the end meanwhile
        if place in left_accepting and not members & right_accepting:
            return Run("refuted", settled, len(rows), traces[place, members])
        ahead = frozenset().union(*(right_followers[member] for member in members))
        for letter in range(2 ** s):
            for follower in sorted(left_followers[place] & left_matching[letter]):
                goal = follower, ahead & right_matching[letter]
                if goal not in traces:
                    if len(rows) == room:
                        return Run("no room", settled, len(rows), None)
                    rows.append(goal)
                    traces[goal] = *traces[place, members], letter
    return Run("included", len(rows), len(rows), None)

# ---- 4. Both held together ----
def judge(data):
    """What the program must print, the outcome or refusal, and the verdict of the search."""
    sides = read_input(data)
    if isinstance(sides, str):
        return f"refused {sides}\n".encode(), sides, None
    s, left, right = sides
    automata = Automaton(left), Automaton(right)
    run = run_rows(s, left, right)
    verdict, shortest = search(s, *automata, SEARCH_LIMIT // 10 if run.outcome == "no room" else SEARCH_LIMIT)
    shown = f"rows: {run}, search: {verdict} {shortest}, input {data.hex()}"
    assert run.outcome == "no room" or verdict in (run.outcome, "undecided"), shown
    lines = f"{run.outcome}\nsettled {run.settled} of {run.used} rows\n"
    if run.outcome == "refuted":
        assert automata[0].has_trace(run.trace) and not automata[1].has_trace(run.trace), shown
        assert verdict == "undecided" or len(run.trace) == len(shortest), shown
        lines += "".join(["trace", *(f" {letter:02x}" for letter in run.trace), "\n"])
    return lines.encode(), run.outcome, verdict

# ---- Trees, and the tables and sheets made of them. A tree is a node with subtrees in place of node numbers. ----
FREE, D, NOT_D, NOTHING, NO_LETTER = (INSTANT, 0, 0), (INSTANT, 1, 0), (INSTANT, 0, 1), (NIL, 0, 0), (EMPTY, 0, 0)

def repeat(body):
    return REPETITION, body, 0

def chain(part, count):
    return functools.reduce(lambda tree, _: (SEQUENCE, part, tree), range(count - 1), part) if count else NO_LETTER

def size(tree):
    return 1 + sum(size(child) for child in children(tree))

def table(tree, pick=lambda waiting: -1):
    """The node table; pick chooses which waiting node, its parent numbered, gets the next lower number."""
    nodes, waiting = [None] * size(tree), [(tree, [0, 0], 1)]
    for number in reversed(range(len(nodes))):
        subtree, parent, field = waiting.pop(pick(waiting))
        parent[field] = number
        nodes[number] = list(subtree)
        waiting += [(child, nodes[number], at) for at, child in enumerate(children(subtree), 1)]
    return nodes

def sheet(s, nodes, filling="0"):
    bits = f"{s:04b}{len(nodes):08b}" + "".join(f"{kind:03b}{a:08b}{b:08b}" for kind, a, b in nodes)
    bits = bits.ljust(8 * sheet_length(len(nodes)), filling)
    return bytes(int(bits[at:at + 8], 2) for at in range(0, len(bits), 8))

def both(s, left, right):
    return sheet(s, table(left)) + sheet(s, table(right))

def not_multiples(step, periods):
    """Every count of steps but the common multiples of the periods; 0 is in."""
    tree = NO_LETTER
    for period in periods:
        less = (SEQUENCE, step, chain((CHOICE, NO_LETTER, step), period - 2))
        tree = (CHOICE, tree, (SEQUENCE, repeat(chain(step, period)), less))
    return tree

def recalls(mark, after):
    """Traces with the mark just before their last `after` letters: 2^(after + 1) sets of places."""
    return SEQUENCE, repeat(FREE), (SEQUENCE, mark, chain(FREE, after))

def without_end(body):
    """Repetition that no trace completes: it has rows, and none of them is bad."""
    return SEQUENCE, repeat(body), NOTHING

# ---- Random inputs ----
def random_tree(rng, s, leaves, other=0.12):
    """A tree with so many leaves; as often as `other` says a leaf is nil or empty, else an instant."""
    if rng.random() < 0.2:
        return repeat(random_tree(rng, s, leaves, other))
    if leaves > 1:
        first = rng.randrange(1, leaves)
        return rng.choice((SEQUENCE, CHOICE)), *(random_tree(rng, s, part, other) for part in (first, leaves - first))
    if rng.random() < other:
        return rng.choice((NOTHING, NO_LETTER, NO_LETTER))
    named, contradictory = rng.getrandbits(s) & rng.choice((-1, rng.getrandbits(s))), rng.random() < 0.04
    present = named & rng.getrandbits(s)
    return INSTANT, present, named if contradictory else named & ~present

def somewhere(rng, tree, kinds, change):
    """The tree with the change made at a node of these kinds, if one is met on a random way down."""
    own = children(tree)
    if not own or tree[0] in kinds and rng.random() < 0.3:
        return change(tree) if tree[0] in kinds else tree
    field = rng.randrange(1, len(own) + 1)
    return *tree[:field], somewhere(rng, tree[field], kinds, change), *tree[field + 1:]

def two_more(rng, tree):
    return rng.choice(((SEQUENCE, NO_LETTER, tree), (SEQUENCE, tree, NO_LETTER), (CHOICE, NOTHING, tree),
                       (CHOICE, tree, NOTHING), repeat(repeat(tree))))

def fits(tree):
    kinds = [kind for kind, _, _ in table(tree)]
    return len(kinds) <= 255 and kinds.count(INSTANT) <= 63

def related(rng, s, tree):
    """Another side for this one: a few changes that keep its traces, add some or lose some."""
    bit = 1 << rng.randrange(s) if s else 0
    changes = (
        ((INSTANT,), lambda old: (INSTANT, old[1] ^ bit, old[2])),
        ((INSTANT,), lambda old: (INSTANT, old[1], old[2] ^ bit)),
        ((INSTANT,), lambda old: (CHOICE, (INSTANT, old[1] | bit, old[2]), (INSTANT, old[1], old[2] | bit))),
        ((SEQUENCE, CHOICE), lambda old: rng.choice((old[1], old[2], (old[0], old[2], old[1])))),
        ((REPETITION,), lambda old: rng.choice((old[1], (CHOICE, NO_LETTER, (SEQUENCE, old[1], old))))),
        (range(6), lambda old: rng.choice((repeat(old), two_more(rng, old), (CHOICE, old, random_tree(rng, s, 2))))))
    for kinds, change in rng.choices(changes, k=rng.choice((0, 1, 1, 1, 2, 3))):
        changed = somewhere(rng, tree, kinds, change)
        tree = changed if fits(changed) else tree
    return tree

def random_pair(rng):
    """s and two trees."""
    s = rng.choice((0, 1, 1, 1, 2, 2, 2, 3, 3, 4, 5, 6, 7, 8, 8))
    match rng.choices(("related", "apart", "full", "cycles", "crowded"), (62, 18, 5, 9, 6))[0]:
        case "related":
            tree = random_tree(rng, s, rng.choice((1, 2, 3, 4, 5, 6, 7, 9) + (12, 20, 40) * (s < 4)))
            return s, *rng.sample((tree, related(rng, s, tree)), 2)
        case "apart":
            return s, *(random_tree(rng, s, rng.choice((1, 1, 2, 4, 8))) for _ in range(2))
        case "full":  # exactly 63 instants or exactly 255 nodes or both
            tree = random_tree(rng, s, rng.choice((3, 20, 63, 63)), 0)
            tree = tree if size(tree) % 2 else repeat(tree)
            for _ in range(rng.choice(((255 - size(tree)) // 2, rng.randrange(20)))):
                tree = somewhere(rng, tree, range(6), lambda old: two_more(rng, old))
            return s, tree, related(rng, s, tree)
        case "cycles":  # long traces, and as many rows as the common multiple of the cycles
            step = INSTANT, rng.getrandbits(s), 0
            left = chain(step, rng.choice((1, 1, 1, 1, 2, 3, 31, 33, rng.randrange(1, 64))))
            periods = rng.choice(((3, 4), (5, 7), (3, 11), (3, 5, 7), (4, 5, 9), (5, 7, 8), (7, 8, 9), (9, 10, 11)))
            return s, rng.choice((repeat, repeat, without_end))(left), rng.choice((
                repeat(chain(FREE, rng.choice((1, 2, 31, 32, rng.randrange(1, 64))))),
                not_multiples(rng.choice((step, FREE)), periods)))
        case "crowded":  # many rows, or many pairs of state sets
            after = rng.randrange(2, 11)
            right = recalls(rng.choice((D, NOT_D)), after)
            return rng.choice((1, 1, 1, 2, 3, 4)), *rng.choice((
                (without_end(FREE), right), (repeat(FREE), (CHOICE, right, repeat(FREE))),
                (recalls(D, rng.randrange(1, after + 1)), right), (right, related(rng, 1, right)),
                (recalls(D, rng.randrange(2, 16)), (SEQUENCE, FREE, repeat(FREE))),
                (without_end(chain(FREE, rng.randrange(29, 35))), repeat(chain(FREE, rng.randrange(29, 35))))))

def damaged_side(rng, s, nodes):
    number = rng.randrange(len(nodes))
    parent = rng.choice([i for i, node in enumerate(nodes) if children(node)] or [number])
    near = rng.choice((max(parent - 1, 0), parent, min(parent + 1, 255), 255, rng.randrange(parent + 1)))
    (kind, a, b), (its_kind, *fields) = nodes[parent], nodes[number]
    changes = rng.choice((
        {parent: (kind, near, b)}, {parent: (kind, a, near)},
        {parent: (NIL, 0, 0)}, {parent: (REPETITION, a, 0)},  # a child becomes nobody's
        {number: (rng.randrange(8), *fields)}, {number: (its_kind, *rng.choices((0, 1, 128, number), k=2))},
        {number: nodes[parent], parent: nodes[number]}))
    return rng.choices((
        (s, [changes.get(i, node) for i, node in enumerate(nodes)]),
        (rng.choice((min(s + 1, 8), 8, rng.randrange(16))), nodes),
        (s, table(chain(FREE, rng.choice((64, 64, 65, 128)))))), (8, 2, 1))[0]

def damaged_sheet(rng, data):
    bit = rng.choice((0, rng.randrange(8 * len(data)), 8 * len(data) - 1 - rng.randrange(12)))  # 0 is the last
    flipped = (int.from_bytes(data, "big") ^ 1 << bit).to_bytes(len(data), "big")
    no_node, cut = sheet(data[0] >> 4, []) + data[2:], data[:rng.choice((0, 1, 2, 3, -1))]
    return rng.choice((flipped, flipped, flipped, no_node, cut, data + bytes(rng.choice((1, 2, 19))),
                       data + rng.randbytes(rng.choice((1, 1300)))))

def random_input(rng):
    s, *trees = random_pair(rng)
    orders = lambda waiting: -1, lambda waiting: 0, lambda waiting: rng.randrange(len(waiting))
    sides = [(s, table(tree if fits(tree) else FREE, rng.choice(orders))) for tree in trees]
    fate = rng.choices(("valid", "nodes", "sheet", "cut", "noise"), (53, 26, 12, 7, 2))[0]
    for which in rng.choices((0, 1), k=rng.choice((1, 1, 2, 3)) if fate == "nodes" else 0):
        sides[which] = damaged_side(rng, *sides[which])
    sheets = [sheet(*side) for side in sides]
    for which in rng.choices((0, 1), k=1 if fate == "sheet" else 0):
        sheets[which] = damaged_sheet(rng, sheets[which])
    data, length = sheets[0] + sheets[1], len(sheets[0])
    ends = 0, 1, 2, 3, length - 1, length, length + 1, len(data) - 1, rng.randrange(len(data))
    noise = rng.randbytes(rng.choice((0, 1, 2, 4, 8, rng.randrange(1400))))
    return {"cut": data[:rng.choice(ends)], "noise": noise}.get(fate, data)

# ---- Named inputs: name, input and how the output must begin ----
def comparisons():
    for room, run in (2, Run("no room", 0, 2, None)), (3, Run("refuted", 1, 3, (0,))):
        assert run_rows(1, table(FREE), table(D), room) == run, f"C5 with room {room}"
    m, not_m = (INSTANT, 2, 0), (INSTANT, 0, 2)
    for number, (s, left, right, outcome, settled, trace) in enumerate((
            (0, NO_LETTER, NO_LETTER, "included", "1 of 1", ""),
            (0, NO_LETTER, NOTHING, "refuted", "0 of 1", "trace\n"),
            (0, NOTHING, NO_LETTER, "included", "1 of 1", ""), (1, D, FREE, "included", "2 of 2", ""),
            (1, FREE, D, "refuted", "1 of 3", "trace 00\n"), (1, FREE, (CHOICE, D, NOT_D), "included", "3 of 3", ""),
            (1, (INSTANT, 1, 1), NOTHING, "included", "1 of 1", ""),
            (1, repeat(D), (CHOICE, (SEQUENCE, D, repeat(D)), NO_LETTER), "included", "3 of 3", ""),
            (2, (SEQUENCE, D, not_m), repeat((CHOICE, (SEQUENCE, D, m), NOT_D)), "refuted", "2 of 3", "trace 01 00\n"),
            (0, repeat(FREE), FREE, "refuted", "0 of 1", "trace\n"),
            (0, (SEQUENCE, FREE, FREE), repeat(FREE), "included", "3 of 3", ""),
            (1, (SEQUENCE, D, NOTHING), NOTHING, "included", "2 of 2", "")), 1):
        yield f"C{number}", both(s, left, right), f"{outcome}\nsettled {settled} rows\n{trace}"

def edges():
    yield "worked input", bytes.fromhex("1014000010140200"), "refuted\nsettled 1 of 3 rows\ntrace 00\n"
    yield "empty, empty", bytes.fromhex("0012000000120000"), "included\nsettled 1 of 1 rows\n"
    yield "63 instants", both(0, chain(FREE, 63), chain(FREE, 63)), "included\nsettled 64 of 64 rows\n"
    yield "s = 8", both(8, (INSTANT, 0xAB, 0x54), NOTHING), "refuted\nsettled 1 of 2 rows\ntrace ab\n"
    yield "all rows", both(3, without_end(chain(D, 33)), repeat(chain(FREE, 31))), "included\nsettled 1024 of 1024"
    yield "one row too many", both(1, without_end(FREE), recalls(D, 9)), "no room\n"
    # m = 1 and k = 10: 1 + m * 2^k is 1,025, the least with which there can be no room.
    yield "one goal too many", both(2, without_end(FREE), (SEQUENCE, repeat((INSTANT, 2, 0)), (SEQUENCE, D, chain(FREE, 8)))), (
        "no room\nsettled 512 of 1024 rows\n")
    yield "long trace", both(0, repeat(chain(FREE, 31)), not_multiples(FREE, (3, 11))), (
        "refuted\nsettled 1023 of 1024 rows\ntrace" + 1023 * " 00" + "\n")
    largest = both(0, chain(NO_LETTER, 128), chain(NO_LETTER, 128))
    for more in 0, 1, 2, 70_000:
        yield f"{1216 + more} bytes", largest + bytes(more), "refused right 4\n" if more else "included\n"
    yield "s differs", sheet(1, [D]) + sheet(2, [D]), "refused both 14\n"
    yield "right before both", sheet(1, [D]) + sheet(2, [D, D]), "refused right 11\n"
    yield "left before right", sheet(1, [D, D]) + b"\x90", "refused left 11\n"

def refusals():
    """Every refusal on each side, most for each cause, and last sheets with two faults."""
    good = sheet(1, [D])
    for number, bad in (1, b""), (1, b"\x10"), (2, sheet(9, [FREE])), (2, sheet(15, [])), (3, sheet(8, [])), (
            4, good[:-1]), (4, good[:2]), (5, sheet(1, [D], "1")), (5, sheet(1, [(7, 0, 0)], "1")), *(
            (number, sheet(1, nodes)) for number, *nodes in (
                (7, (6, 0, 0)), (7, (7, 0, 0)), (7, (NIL, 1, 0)), (7, (NIL, 0, 1)), (7, (EMPTY, 1, 0)),
                (7, (EMPTY, 0, 1)), (7, D, (REPETITION, 0, 1)), (8, (INSTANT, 2, 0)), (8, (INSTANT, 0, 128)),
                (9, (REPETITION, 0, 0)), (9, D, (SEQUENCE, 0, 1)), (9, D, (CHOICE, 2, 0)), (10, D, (SEQUENCE, 0, 0)),
                (10, D, (CHOICE, 0, 0)), (10, D, (REPETITION, 0, 0), (CHOICE, 1, 0)), (11, D, D),
                (11, D, D, (REPETITION, 1, 0)), (12, *table(chain(FREE, 64))), (12, *table(chain(FREE, 128))),
                (9, D, (SEQUENCE, 0, 1), (7, 0, 0)), (10, D, (SEQUENCE, 0, 0), (INSTANT, 2, 0)),
                (7, D, (REPETITION, 1, 1)), (9, D, (SEQUENCE, 1, 1)), (8, D, (INSTANT, 2, 0)), (11, *[D] * 65))):
        yield f"left {number}", bad + (b"" if number in (1, 4) else good), f"refused left {number}\n"
        yield f"right {number}", good + bad, f"refused right {number}\n"

# ---- Comparison ----
def run_program(program, data):
    try:
        done = subprocess.run(program, input=data, capture_output=True, timeout=60)
    except (OSError, subprocess.TimeoutExpired) as failure:
        return failure
    return done.stdout if done.returncode == 0 else f"{done.stdout}, status {done.returncode}, {done.stderr[-300:]}"

def compare(cases, program, most_shown):
    """The exit status: 0 exactly if there are cases, the program prints for each what it must, and the search decided enough."""
    tally, searched, differ = Counter(), Counter(), 0
    for name, data, beginning in cases:
        expected, outcome, verdict = judge(data)
        assert expected.startswith(beginning.encode()), f"{name}: {expected}, stated {beginning}, input {data.hex()}"
        tally[outcome] += 1
        searched[outcome == "no room", verdict] += 1
        printed = run_program(program, data)
        differ += printed != expected
        if printed != expected and differ <= most_shown:
            print(f"{name} differs: input {data.hex()}, expected {expected}, printed {printed}")
    refused = [f"{side} {number}" for side in ("left", "right", "both") for number in range(1, 15)]
    each = ", ".join(f"{key}: {tally[key]}" for key in refused if tally[key])
    no_room = ", ".join(f"{searched[True, verdict]} {verdict}" for verdict in ("included", "refuted", "undecided"))
    print(f"{tally.total()} inputs: {tally['included']} included, {tally['refuted']} refuted,",
          f"{tally['no room']} no room (search: {no_room}), {sum(tally[key] for key in refused)} refused ({each});",
          f"{searched[False, 'undecided']} undecided by the search; {differ} differ")
    # Rows alone would decide what the search does not: more than one in a hundred of those is a failure too. So is no input at all.
    return 1 if differ or not tally or 100 * searched[False, "undecided"] > tally.total() else 0

if __name__ == "__main__":
    match sys.argv[1:]:
        case ["expect"]:
            sys.stdout.buffer.write(judge(sys.stdin.buffer.read())[0])
        case ["named", *program] if program:
            sys.exit(compare((*comparisons(), *edges(), *refusals()), program, 1000))
        case ["random", seed, count, *program] if program:
            rng = random.Random(seed)
            sys.exit(compare(((f"random {i}", random_input(rng), "") for i in range(int(count))), program, 5))
        case _:
            sys.exit(__doc__)
