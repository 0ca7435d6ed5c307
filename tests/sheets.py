#!/usr/bin/env -S python3 -I
"""The effect sheet and refusals 1 to 13 of document 01, a second time, for tests.

Everything here is written from document 01 alone and shares nothing with the crates: a sheet is a
text of '0' and '1', and a refusal is looked for by its sentence, over the whole table at once. What
the program try_calls must print is made here and never taken from the program.

    sheets.py named INPUT EXPECTED               the named vectors
    sheets.py large INPUT EXPECTED               more of them, faults in large tables
    sheets.py random SEED COUNT INPUT EXPECTED   COUNT random records, the same for the same SEED

A record is a line of the letter s and hexadecimal digits (numbers big-endian, white space ignored):

    00 LLLL TTTT sheet     read a sheet of L bytes into a table lent with T entries
    01 SS NNNN OOOO nodes  write s and N nodes to an output lent with O bytes
    02 SS NNNN nodes       check s and N nodes
    03 XXXXXXXX            decode a node's number, and number the node again
    04 KK AAAA BBBB        number the node of kind K with a and b

A line that begins with '#' names what follows; the program prints it as it is. Entry k of a lent
table is c0de0000 + k beforehand, and each byte of a lent output is ee.
"""
import sys

if not __debug__:  # it checks itself by assertions
    sys.exit('tests/sheets.py: python3 leaves assertions out (-O or PYTHONOPTIMIZE), so nothing would be checked')

import random

INPUT_ROOM = 65535  # the program reads 131,072 bytes, since the named vectors of all three makers are one input
LONGEST_SHEET, LONGEST_TABLE = 700, 300  # what a record of the program may ask for

# ---- nodes: kind 3 bits, a 8 bits, b 8 bits

KINDS = ['nil', 'empty', 'instant', 'sequence', 'choice', 'repetition']


def node(kind, a=0, b=0):
    return int(format(kind, '03b') + format(a, '08b') + format(b, '08b'), 2)


def nil(): return node(0)
def empty(): return node(1)
def instant(present, absent): return node(2, present, absent)
def sequence(a, b): return node(3, a, b)
def choice(a, b): return node(4, a, b)
def repetition(a): return node(5, a)


def fields(number):
    """Kind, a and b of the number's lowest 19 bits."""
    bits = format(number, '032b')[-19:]
    return int(bits[:3], 2), int(bits[3:11], 2), int(bits[11:], 2)


def is_instant(number):
    return fields(number)[0] == 2


def children(number):
    kind, a, b = fields(number)
    return [a, b] if kind in (3, 4) else [a] if kind == 5 else []


# ---- refusals, each by its sentence


def is_7(number):
    """Kind 6 or 7, a field that must be 0 isn't, or the number is 2^19 or more."""
    kind, a, b = fields(number)
    must_be_0 = {0: [a, b], 1: [a, b], 5: [b]}.get(kind, [])
    return kind >= 6 or any(must_be_0) or number >= 2 ** 19


def is_8(s, number):
    """An instant names a signal of number s or above."""
    kind, present, absent = fields(number)
    named = {i for i in range(8) for mask in (present, absent) if mask & 2 ** i}
    return kind == 2 and any(i >= s for i in named)


def is_9(nodes, i):
    """A child isn't below its own node."""
    return any(child >= i for child in children(nodes[i]))


def is_10(nodes, i):
    """A child is already a lower node's child, or a = b in a sequence or choice."""
    own = children(nodes[i])
    of_lower_nodes = {child for lower in nodes[:i] for child in children(lower)}
    return any(child in of_lower_nodes for child in own) or len(set(own)) < len(own)


def refusal_of_nodes(s, nodes):
    """2, 3 and 7 to 12, as a writer or a comparer gives them; 0 where none applies."""
    if s > 8:
        return 2
    if len(nodes) == 0 or len(nodes) > 255:
        return 3
    # Pairs compare by the node first: among 7 to 10 the lowest node decides.
    faults = [(i, 7) for i, x in enumerate(nodes) if is_7(x)]
    faults += [(i, 8) for i, x in enumerate(nodes) if is_8(s, x)]
    faults += [(i, 9) for i in range(len(nodes)) if is_9(nodes, i)]
    faults += [(i, 10) for i in range(len(nodes)) if is_10(nodes, i)]
    if faults:
        return min(faults)[1]
    all_children = {child for x in nodes for child in children(x)}
    if any(i not in all_children for i in range(len(nodes) - 1)):
        return 11
    if len([x for x in nodes if is_instant(x)]) > 63:
        return 12
    return 0


# ---- the sheet


def sheet_of(s, nodes, filling=''):
    """The sheet of s and the nodes, sound or not; filling bits other than 0 can be given."""
    bits = format(s, '04b') + format(len(nodes), '08b') + ''.join(format(x, '019b') for x in nodes)
    bits += filling
    bits += '0' * (-len(bits) % 8)
    return bytes(int(bits[i:i + 8], 2) for i in range(0, len(bits), 8))


def sheet_length(n):
    """ceil((12 + 19 N) / 8)"""
    return -(-(12 + 19 * n) // 8)


def read(sheet, table):
    """(refusal, s, N, the table afterwards)"""
    bits = ''.join(format(byte, '08b') for byte in sheet)
    if len(sheet) < 2:
        return 1, 0, 0, table
    s, n = int(bits[:4], 2), int(bits[4:12], 2)
    nodes = [int(bits[12 + 19 * k:][:19] or '0', 2) for k in range(n)]
    if s > 8:
        return 2, 0, 0, table
    if n == 0:
        return 3, 0, 0, table
    if len(sheet) != sheet_length(n):
        return 4, 0, 0, table
    if '1' in bits[12 + 19 * n:]:
        return 5, 0, 0, table
    if len(table) < n:
        return 6, 0, 0, table
    refusal = refusal_of_nodes(s, nodes)
    if refusal:
        return refusal, 0, 0, table
    return 0, s, n, nodes + table[n:]


def write(s, nodes, out):
    """(refusal, the sheet's length, the output afterwards)"""
    refusal = refusal_of_nodes(s, nodes)
    if refusal:
        return refusal, 0, out
    sheet = sheet_of(s, nodes)
    if len(out) < len(sheet):
        return 13, 0, out
    return 0, len(sheet), sheet + out[len(sheet):]


# ---- records and what must be printed for them


def hex_numbers(numbers):
    return ''.join(' %08x' % x for x in numbers)


class Vectors:
    letter = 's'  # says to the program whose a record is

    def __init__(self):
        self.input, self.expected, self.seen = [], [], set()

    def title(self, text):
        self.input.append('# ' + text)
        self.expected.append('# ' + text)

    def ask(self, given):
        self.input.append(self.letter + given)

    def record(self, what, given, printed, refusal, expect):
        """A named vector says by `expect` which refusal document 01 asks for, 0 for none, and the
        rules above must agree. A random one has no such second opinion: expect is None."""
        if expect is not None and expect != refusal:
            sys.exit('sheets.py: %s %s: named %s, but by the rules %s' % (what, given, expect, refusal))
        self.seen.add((what, refusal))
        self.ask(given)
        self.expected.append(what + ' ' + printed)

    def read(self, sheet, lent, expect=None):
        assert len(sheet) <= LONGEST_SHEET and lent <= LONGEST_TABLE
        before = [0xC0DE0000 + k for k in range(lent)]
        refusal, s, n, after = read(sheet, before)
        answer = 'refused %d' % refusal if refusal else 'accepted %d %d' % (s, n)
        given = '00 %04x %04x %s' % (len(sheet), lent, sheet.hex())
        self.record('read', given.rstrip(), answer + ' table' + hex_numbers(after), refusal, expect)

    def write(self, s, nodes, lent, expect=None):
        assert len(nodes) <= LONGEST_TABLE and lent <= LONGEST_SHEET
        refusal, length, after = write(s, nodes, b'\xee' * lent)
        answer = 'refused %d' % refusal if refusal else 'accepted %d' % length
        out = ''.join(' %02x' % byte for byte in after)
        given = '01 %02x %04x %04x' % (s, len(nodes), lent) + hex_numbers(nodes)
        self.record('write', given, answer + ' out' + out, refusal, expect)

    def check(self, s, nodes, expect=None):
        assert len(nodes) <= LONGEST_TABLE
        refusal = refusal_of_nodes(s, nodes)
        instants = len([x for x in nodes if is_instant(x)])
        answer = 'refused %d' % refusal if refusal else 'accepted %d' % instants
        given = '02 %02x %04x' % (s, len(nodes)) + hex_numbers(nodes)
        self.record('check', given, answer, refusal, expect)

    def decode(self, number, expect=None):
        refusal = 7 if is_7(number) else 0
        kind, a, b = fields(number)
        answer = 'none' if refusal else '%d %d %d number %08x' % (kind, a, b, number)
        self.record('decode', '03 %08x' % number, answer, refusal, expect)

    def number(self, kind, a, b, expect=None):
        """A node has a number where its fields fit their 8 bits."""
        refusal = 7 if max(a, b) > 255 else 0
        answer = 'none' if refusal else '%08x' % node(kind, a, b)
        self.record('number', '04 %02x %04x %04x' % (kind, a, b), answer, refusal, expect)

    def all_three(self, title, s, nodes, expect):
        """Reader, writer and check on one table; all that is lent has room for one more."""
        self.title('%s: %s' % (title, 'refusal %d' % expect if expect else 'accepted'))
        if s < 16 and len(nodes) < 256 and all(x < 2 ** 19 for x in nodes):
            self.read(sheet_of(s, nodes), len(nodes) + 1, expect)
        self.write(s, nodes, sheet_length(len(nodes)) + 1, expect)
        self.check(s, nodes, expect)

    def save(self, input_file, expected_file):
        text = '\n'.join(self.input) + '\n'
        if len(text) > INPUT_ROOM:
            sys.exit('sheets.py: %d bytes of input, and a maker has room for %d' % (len(text), INPUT_ROOM))
        with open(input_file, 'w') as f:
            f.write(text)
        with open(expected_file, 'w') as f:
            f.write('\n'.join(self.expected) + '\n')


# ---- tables for the named vectors


def chain(n):
    """Empty under n - 1 repetitions: a sound table of n nodes."""
    return [empty()] + [repetition(i) for i in range(n - 1)]


def comb(leaves):
    """The leaves, joined from the left by sequences and choices in turn: a sound table."""
    nodes, root = list(leaves), 0
    for i in range(1, len(leaves)):
        nodes.append(sequence(root, i) if i % 2 else choice(i, root))
        root = len(nodes) - 1
    return nodes


FULL = comb([instant(i, 255 - i) for i in range(63)] + [nil(), empty()] * 32 + [nil()])  # N = 255


# ---- the named vectors


def accepted(v):
    v.title('the three sheets of document 01')
    for s, x, sheet in [(0, empty(), '00120000'), (1, instant(1, 0), '10140200'), (1, instant(0, 0), '10140000')]:
        assert sheet_of(s, [x]).hex() == sheet
        v.read(bytes.fromhex(sheet), 1, 0)
        v.write(s, [x], 4, 0)
        v.check(s, [x], 0)
    for n in range(1, 10):
        v.title('N = %d: %d bytes, all lent exactly' % (n, sheet_length(n)))
        v.read(sheet_of(3, chain(n)), n, 0)
        v.write(3, chain(n), sheet_length(n), 0)
    v.title('what lies beyond the result stays')
    small = [instant(1, 2), instant(0, 3), sequence(1, 0)]
    v.read(sheet_of(2, small), 6, 0)
    v.write(2, small, 14, 0)
    for s in range(9):
        v.all_three('s = %d, the signals below it named, in one mask and in both' % s, s,
                    [instant(2 ** s - 1, 0), instant(0, 2 ** s - 1), choice(0, 1), instant(2 ** s - 1, 2 ** s - 1),
                     sequence(3, 2), repetition(4)], 0)
    v.all_three('nil alone', 0, [nil()], 0)


def lengths_and_lent(v):
    """Refusals 1 to 6 and 13: the sheet's length, its header and filling, and what is lent."""
    sound = [instant(1, 0), repetition(0)]  # 50 bits in 7 bytes
    sheet = sheet_of(1, sound)
    v.title('1: sheet under 2 bytes; with any other fault it is still 1')
    for short in ['', '10', '90', 'ff', '00']:
        v.read(bytes.fromhex(short), 2, 1)
        v.read(bytes.fromhex(short), 0, 1)
    v.title('2: s above 8')
    for s in range(9, 16):
        v.read(sheet_of(s, sound), 2, 2)
    for s in [9, 10, 16, 17, 128, 255]:
        v.write(s, sound, 7, 2)
        v.check(s, sound, 2)
    v.title('2 before 3, 4, 5, 6, 7, 8, 13')
    v.read(sheet_of(9, []), 2, 2)
    v.read(sheet_of(9, sound)[:6], 2, 2)
    v.read(sheet_of(9, sound, '1'), 2, 2)
    v.read(sheet_of(9, sound), 1, 2)
    v.read(sheet_of(9, [node(6)]), 1, 2)
    v.write(9, [], 7, 2)
    v.write(9, [node(7)], 7, 2)
    v.write(9, sound, 6, 2)
    v.check(9, [], 2)
    v.title('3: no node')
    v.read(sheet_of(0, []), 2, 3)
    v.read(sheet_of(8, []), 0, 3)
    v.write(0, [], 700, 3)
    v.check(0, [], 3)
    v.title('3 before 4 and 5')
    v.read(bytes.fromhex('000000'), 2, 3)
    v.read(bytes.fromhex('0001'), 2, 3)
    v.read(bytes.fromhex('000f00'), 2, 3)
    v.title('4: the sheet is too short or too long')
    for length in range(2, 7):
        v.read(sheet[:length], 2, 4)
    v.read(sheet + b'\0', 2, 4)
    v.read(sheet + b'\0' * 600, 2, 4)
    v.read(sheet_of(0, chain(4)) + b'\0', 4, 4)
    v.title('4 before 5, 6, 7')
    v.read(sheet_of(1, sound, '1') + b'\0', 2, 4)
    v.read(sheet + b'\x80', 2, 4)
    v.read(sheet[:6], 1, 4)
    v.read(sheet_of(1, [node(6)]) + b'\0', 1, 4)
    v.title('5: each filling bit, for each number of them')
    for n in range(1, 9):
        fill = 8 * sheet_length(n) - (12 + 19 * n)
        for k in range(fill):
            v.read(sheet_of(0, chain(n), '0' * k + '1'), n, 5)
    v.title('5 before 6, 7, 8')
    v.read(sheet_of(1, sound, '1'), 1, 5)
    v.read(sheet_of(1, [node(6)], '1'), 1, 5)
    v.read(sheet_of(1, [instant(2, 0)], '1'), 1, 5)
    v.title('6: the table is lent one entry short, or none; exactly N is enough')
    v.read(sheet, 1, 6)
    v.read(sheet, 0, 6)
    v.read(sheet, 2, 0)
    v.title('6 before 7, 8, 9, 10, 11')
    v.read(sheet_of(0, [node(7)]), 0, 6)
    v.read(sheet_of(0, [instant(1, 0)]), 0, 6)
    v.read(sheet_of(0, [repetition(0)]), 0, 6)
    v.read(sheet_of(0, [nil(), sequence(0, 0)]), 1, 6)
    v.read(sheet_of(0, [nil(), nil()]), 1, 6)
    v.title('13: an output one byte short, or empty; exact is enough')
    for n in range(1, 10):
        v.write(0, chain(n), sheet_length(n) - 1, 13)
    v.write(0, chain(1), 0, 13)
    v.write(0, chain(1), 4, 0)
    v.title('each of 7 to 11 before 13')
    v.write(0, [node(7)], 3, 7)
    v.write(0, [instant(1, 0)], 3, 8)
    v.write(0, [repetition(0)], 3, 9)
    v.write(0, [nil(), sequence(0, 0)], 0, 10)
    v.write(0, [nil(), nil()], 0, 11)


def one_fault(v):
    """Refusals 7 to 11, a single fault in the table."""
    for kind in (6, 7):
        for a, b in [(0, 0), (255, 255)]:
            v.all_three('kind %d' % kind, 0, [node(kind, a, b)], 7)
    for kind in (0, 1):
        for a, b in [(1, 0), (0, 1), (128, 0), (0, 128)]:
            v.all_three('%s with a = %d, b = %d' % (KINDS[kind], a, b), 0, [node(kind, a, b)], 7)
    for b in (1, 128):
        v.all_three('repetition with b = %d' % b, 0, [nil(), node(5, 0, b)], 7)
    for bit in range(19, 32):
        v.all_three('the number %08x of a sound node and bit %d' % (2 ** bit + empty(), bit), 0, [2 ** bit + empty()], 7)
    for s in range(8):
        for i in range(s, 8):
            v.title('s = %d, signal %d named present, then absent, then both' % (s, i))
            v.read(sheet_of(s, [instant(2 ** i, 0)]), 1, 8)
            v.write(s, [instant(0, 2 ** i)], 4, 8)
            v.check(s, [instant(2 ** i, 2 ** i)], 8)
    v.all_three('a sound signal beside one of number s', 3, [instant(7, 8)], 8)
    v.all_three('a repetition of itself, no other node', 0, [repetition(0)], 9)
    v.all_three('a repetition of itself', 0, [nil(), repetition(1)], 9)
    v.all_three('a repetition of a node above', 0, [nil(), repetition(2), sequence(0, 1)], 9)
    v.all_three('a repetition of a node beyond the table', 0, [nil(), repetition(255)], 9)
    for join, word in [(sequence, 'sequence'), (choice, 'choice')]:
        v.all_three(word + ' whose a is itself', 0, [nil(), nil(), join(2, 1)], 9)
        v.all_three(word + ' whose b is itself', 0, [nil(), nil(), join(0, 2)], 9)
        v.all_three(word + ' whose a is above', 0, [nil(), join(2, 0), nil()], 9)
        v.all_three(word + ' whose b is above', 0, [nil(), join(0, 2), nil()], 9)
        v.all_three(word + ' with a = b', 0, [nil(), join(0, 0)], 10)
        v.all_three(word + ' with a above b', 0, [nil(), nil(), join(1, 0)], 0)
        v.all_three(word + ' whose a is claimed already', 0, [nil(), repetition(0), join(0, 1)], 10)
        v.all_three(word + ' whose b is claimed already', 0, [nil(), repetition(0), join(1, 0)], 10)
        v.all_three(word + ' whose b is the b of a lower one', 0, [nil(), nil(), join(0, 1), join(2, 1)], 10)
    v.all_three('a repetition whose child is claimed already', 0, [nil(), repetition(0), repetition(0)], 10)
    v.all_three('an instant whose masks look like children', 8, [instant(0, 0), instant(0, 0), instant(0, 1), comb([nil()] * 2)[2],
                                                               sequence(2, 3)], 0)
    v.all_three('node 0 is nobody\'s child', 0, [nil(), nil()], 11)
    v.all_three('a middle node is nobody\'s child', 0, [nil(), nil(), repetition(0)], 11)
    v.all_three('the last but one is nobody\'s child', 0, [nil(), repetition(0), empty()], 11)
    v.all_three('a whole subtree is nobody\'s child', 0, [nil(), repetition(0), empty(), repetition(2)], 11)


def two_faults(v):
    """The lowest number that applies; among 7 to 10 the lowest node first."""
    bad_7, bad_8 = node(6), instant(1, 0)  # with s = 0
    v.all_three('one node, 7 and 8: 2^19 and an instant with signal s', 0, [2 ** 19 + bad_8], 7)
    v.all_three('one node, 7 and 9: repetition of itself with b = 1', 0, [nil(), node(5, 1, 1)], 7)
    v.all_three('one node, 7 and 10: repetition of a claimed child with b = 1', 0, [nil(), repetition(0), node(5, 0, 1)], 7)
    v.all_three('one node, 9 and 10: a = b = itself', 0, [nil(), sequence(1, 1)], 9)
    v.all_three('one node, 9 and 10: a claimed, b itself', 0, [nil(), repetition(0), choice(0, 2)], 9)
    v.all_three('one node, 9 and 10: a itself, b claimed', 0, [nil(), repetition(0), choice(2, 0)], 9)
    v.all_three('node 0 has 7, node 1 has 8', 0, [bad_7, bad_8], 7)
    v.all_three('node 0 has 8, node 1 has 7', 0, [bad_8, bad_7], 8)
    v.all_three('node 0 has 7, node 1 has 9', 0, [bad_7, repetition(1)], 7)
    v.all_three('node 0 has 9, node 1 has 7', 0, [repetition(0), bad_7], 9)
    v.all_three('node 1 has 7, node 2 has 10', 0, [nil(), bad_7, sequence(0, 0)], 7)
    v.all_three('node 1 has 10, node 2 has 7', 0, [nil(), sequence(0, 0), bad_7], 10)
    v.all_three('node 0 has 8, node 1 has 9', 0, [bad_8, repetition(1)], 8)
    v.all_three('node 0 has 9, node 1 has 8', 0, [repetition(0), bad_8], 9)
    v.all_three('node 1 has 8, node 2 has 10', 0, [nil(), bad_8, sequence(0, 0)], 8)
    v.all_three('node 1 has 10, node 2 has 8', 0, [nil(), sequence(0, 0), bad_8], 10)
    v.all_three('node 1 has 9, node 2 has 10', 0, [nil(), repetition(2), choice(0, 0)], 9)
    v.all_three('node 1 has 10, node 2 has 9', 0, [nil(), choice(0, 0), repetition(2)], 10)
    v.all_three('7 before 11', 0, [nil(), nil(), bad_7], 7)
    v.all_three('8 before 11', 0, [nil(), nil(), bad_8], 8)
    v.all_three('9 before 11', 0, [nil(), nil(), repetition(2)], 9)
    v.all_three('10 before 11', 0, [nil(), nil(), sequence(1, 1)], 10)


def single_nodes(v):
    v.title('a node by itself: decoded, then numbered again')
    for kind in range(8):
        for a, b in [(0, 0), (0, 1), (1, 0), (128, 0), (0, 128), (255, 0), (0, 255), (254, 255), (255, 255)]:
            sound = kind < 6 and not (kind < 2 and a + b) and not (kind == 5 and b)
            v.decode(node(kind, a, b), 0 if sound else 7)
    for bit in range(19, 32):
        v.decode(2 ** bit, 7)
        v.decode(2 ** bit + instant(1, 2), 7)
    v.decode(2 ** 32 - 1, 7)
    v.title('a node has a number where its fields fit 8 bits')
    v.number(0, 0, 0, 0)
    v.number(1, 0, 0, 0)
    for kind in (2, 3, 4):
        for a, b in [(0, 0), (1, 2), (255, 255)]:
            v.number(kind, a, b, 0)
        for a, b in [(256, 0), (0, 256), (65535, 0), (0, 65535), (256, 256), (65535, 65535)]:
            v.number(kind, a, b, 7)
    for a in (0, 255):
        v.number(5, a, 0, 0)
    for a in (256, 257, 65535):
        v.number(5, a, 0, 7)


def limits(v):
    """The largest tables, and the first beyond them."""
    v.title('N = 255: 608 bytes, 63 instants and 65 other leaves')
    assert len(FULL) == 255 and len(sheet_of(8, FULL)) == 608
    v.read(sheet_of(8, FULL), 255, 0)
    v.write(8, FULL, 608, 0)
    v.title('3: 256 nodes for the writer, though each is sound')
    v.write(0, chain(255) + [repetition(254)], 700, 3)
    v.all_three('63 instants', 0, comb([instant(0, 0)] * 63), 0)
    v.all_three('64 instants', 0, comb([instant(0, 0)] * 64), 12)


def large(v):
    """Faults in large tables. They stand apart, since the interpreter is slow."""
    v.title('63 instants in 255 nodes')
    v.check(8, FULL, 0)
    v.title('3: 256 nodes before 7, 8, 12 and 13')
    v.check(0, chain(255) + [repetition(254)], 3)
    v.check(0, [node(7)] * 256, 3)
    v.write(0, [instant(1, 0)] * 256, 0, 3)
    v.title('4, 5, 6, 13 at N = 255')
    v.read(sheet_of(0, chain(255))[:607], 255, 4)
    v.read(sheet_of(0, chain(255)) + b'\0', 255, 4)
    for k in range(7):
        v.read(sheet_of(0, chain(255), '0' * k + '1'), 255, 5)
    v.read(sheet_of(0, chain(255)), 254, 6)
    v.read(sheet_of(0, chain(255)), 256, 0)
    v.write(8, FULL, 607, 13)
    v.write(8, FULL, 609, 0)
    v.title('far more lent than is needed')
    v.read(sheet_of(1, [instant(1, 0)]), 300, 0)
    v.write(1, [instant(1, 0)], 700, 0)
    v.title('the last of 255 nodes has 7, 8, 9, 10')
    for last, refusal in [(node(6), 7), (instant(1, 0), 8), (repetition(254), 9), (repetition(0), 10)]:
        v.read(sheet_of(0, chain(254) + [last]), 255, refusal)
    many = comb([instant(0, 0)] * 64)  # 127 nodes
    v.title('128 instants')
    v.read(sheet_of(1, comb([instant(1, 0)] * 128)), 255, 12)
    v.title('6 before 12, and 12 before 13')
    v.read(sheet_of(0, many), 126, 6)
    v.write(0, many, sheet_length(127) - 1, 12)
    v.title('7, 8, 9, 10 and 11 before 12')
    for last, refusal in [(node(6), 7), (instant(1, 0), 8), (repetition(127), 9), (repetition(0), 10), (instant(0, 0), 11)]:
        v.read(sheet_of(0, many + [last]), 128, refusal)
    v.all_three('11 before 12, each instant alone', 0, [instant(0, 0)] * 64, 11)


def named():
    v = Vectors()
    for section in (accepted, lengths_and_lent, one_fault, two_faults, single_nodes, limits):
        section(v)
    for what, numbers in [('read', range(13)), ('write', [0, 2, 3, *range(7, 14)]), ('check', [0, 2, 3, *range(7, 13)])]:
        assert {n for w, n in v.seen if w == what} == set(numbers), what
    return v


def named_large():
    v = Vectors()
    large(v)
    # It stands here, since after the named vectors the program is asked those of places and goals.
    v.title('a record that says more than it has ends the run')
    v.ask('00 0004 0001 001200')
    v.ask('03 00000000')
    v.expected.append('bad record')
    return v


# ---- random vectors


def random_table(pick, s, n):
    """A sound table of n nodes, unless chance puts in more than 63 instants. `free` has the nodes
    that are nobody's child yet: what is left to come must be able to join them into one."""
    nodes, free = [], []
    for i in range(n):
        left = n - i - 1
        can = []
        if len(free) <= left:
            can += ['leaf'] * 3
        if free and len(free) - 1 <= left:
            can += ['repetition']
        if len(free) >= 2:
            can += ['join'] * 2
        what = pick.choice(can)
        if what == 'leaf':
            masks = [pick.randrange(2 ** s), pick.randrange(2 ** s)]
            nodes.append(pick.choice([nil(), empty()] + [instant(*masks)] * 3))
        else:
            taken = [free.pop(pick.randrange(len(free))) for _ in range(1 if what == 'repetition' else 2)]
            nodes.append(repetition(*taken) if what == 'repetition' else pick.choice([sequence, choice])(*taken))
        free.append(i)
    return nodes


def damaged(pick, nodes, s):
    """The table with one or two faults, or none by chance."""
    nodes = list(nodes)
    for _ in range(pick.choice([1, 1, 2])):
        i = pick.randrange(len(nodes))
        kind, a, b = fields(nodes[i])
        how = pick.randrange(6)
        if how == 0:
            nodes[i] ^= 2 ** pick.randrange(19)
        elif how == 1:
            nodes[i] = node(pick.randrange(8), pick.choice([0, a]), pick.choice([0, b]))
        elif how == 2:
            nodes[i] = node(pick.choice([3, 4, 5]), pick.randrange(i + 1), pick.choice([0, pick.randrange(i + 2)]))
        elif how == 3:
            nodes[i] = instant(pick.randrange(256), pick.randrange(2 ** s))
        elif how == 4:
            nodes[i] = nodes[pick.randrange(len(nodes))]
        else:
            nodes.insert(i, pick.choice([nil(), empty(), instant(0, 0)]))
            nodes = nodes[:255]
    return nodes


def random_size(pick):
    return pick.choice([pick.randint(1, 6)] * 6 + [pick.randint(7, 30)] * 3 + [pick.randint(31, 255)])


def random_record(pick, v):
    s = pick.randint(0, 8)
    nodes = random_table(pick, s, random_size(pick))
    if pick.random() < 0.5:
        nodes = damaged(pick, nodes, s)
    if pick.random() < 0.1:
        s = pick.randint(0, 15)
    what = pick.choice(['read', 'read', 'write', 'write', 'check', 'decode', 'number'])
    if what == 'read':
        sheet = sheet_of(s, nodes)
        harm = pick.randrange(12)
        if harm == 0:
            sheet = sheet[:pick.randint(0, len(sheet))]
        elif harm == 1:
            sheet += bytes(pick.randrange(256) for _ in range(pick.randint(1, 3)))
        elif harm == 2:
            flipped = bytearray(sheet)
            flipped[pick.choice([0, 1, -1, pick.randrange(len(sheet))])] ^= 2 ** pick.randrange(8)
            sheet = bytes(flipped)
        lent = len(nodes) + pick.choice([0, 0, 0, 1, 3, -1])
        v.read(sheet, lent)
    elif what == 'write':
        if pick.random() < 0.1:
            nodes[pick.randrange(len(nodes))] ^= 2 ** pick.randrange(32)
        if pick.random() < 0.05:
            nodes = []
        v.write(s, nodes, max(0, sheet_length(len(nodes)) + pick.choice([0, 0, 0, 1, 5, -1])))
    elif what == 'check':
        v.check(s, nodes)
    elif what == 'decode':
        v.decode(pick.choice([pick.choice(nodes), pick.randrange(2 ** 19), pick.randrange(2 ** 20), pick.randrange(2 ** 32)]))
    else:
        kind = pick.randrange(6)
        a, b = (pick.choice([pick.randrange(256), pick.randrange(300), pick.randrange(65536)]) for _ in range(2))
        v.number(kind, a if kind > 1 else 0, b if 1 < kind < 5 else 0)


def random_vectors(seed, count):
    pick, v = random.Random(seed), Vectors()
    v.title('%d random records of seed %d' % (count, seed))
    for _ in range(count):
        random_record(pick, v)
    return v


def main(words):
    if len(words) == 3 and words[0] == 'named':
        named().save(*words[1:])
    elif len(words) == 3 and words[0] == 'large':
        named_large().save(*words[1:])
    elif len(words) == 5 and words[0] == 'random':
        random_vectors(int(words[1]), int(words[2])).save(*words[3:])
    else:
        sys.exit(__doc__)


if __name__ == '__main__':
    main(sys.argv[1:])
