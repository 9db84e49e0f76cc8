"""What the tools share: numbers from words, and the two files and the height of documents 01 and 02.

Nothing of this is proved. The proved readers, writers and heights are the library's (include/curlewtable.h);
tests/tools/run compares these with them.
"""
import argparse
import decimal
import re
import struct

LIMIT = 4_000_000_000       # "in range" is -LIMIT to LIMIT micrometres
MOST_POINTS = 65_535
MOST_COARSE_CELLS = 16
MOST_CELLS = 512
MOST_LEVEL = 5
MOST_CONFIDENCE = 255
FINEST_UNIT = 16            # positions of a finest cell

WORDS = {9: 'record incomplete', 10: 'wrong mark', 11: 'field not allowed', 12: 'bytes after the end'}


class Fault(Exception):
    """A fault of the input, with the words to print."""


class Refused(Fault):
    """A file that the library's reader refuses too, with the same number and byte."""

    def __init__(self, number, byte):
        super().__init__(f'byte {byte}: {WORDS[number]} (refusal {number})')
        self.number, self.byte = number, byte


def in_range(value):
    return -LIMIT <= value <= LIMIT


# ---- numbers from words

# Plain decimals, with an exponent of two digits at most and 40 characters in all: 400 digits then hold every sum and
# product of the tools exactly. Were one rounded after all, the trap would end the run.
NUMBER = re.compile(r'[+-]?([0-9]+(\.[0-9]*)?|\.[0-9]+)([eE][+-]?[0-9]{1,2})?')
LONGEST = 40
MICROMETRE = decimal.Decimal('0.000001')
FARTHEST = 100_000_000      # metres: beyond every map grid
decimal.setcontext(decimal.Context(prec=400, traps=[decimal.Inexact, decimal.InvalidOperation]))


def decimal_of(word):
    """The exact value of a word, or None where it is not a number."""
    word = word.strip()
    if len(word) > LONGEST or not NUMBER.fullmatch(word):
        return None
    return decimal.Decimal(word)


def nearest(value, unit):
    """value / unit to the nearest whole number, halves up: the floor of (2 value + unit) / 2 unit."""
    doubled, unit = 2 * value + unit, 2 * unit
    whole = doubled // unit         # decimal cuts toward zero
    return int(whole) - (1 if doubled < whole * unit else 0)


def micrometres(value):
    return nearest(value, MICROMETRE)


def number(word):
    """An option's number; argparse prints the fault."""
    value = decimal_of(word)
    if value is None:
        raise argparse.ArgumentTypeError(f'not a number: {word}')
    if abs(value) > FARTHEST:
        raise argparse.ArgumentTypeError(f'more than {FARTHEST}: {word}')
    return value


def length(word):
    value = number(word)
    if value < MICROMETRE:
        raise argparse.ArgumentTypeError(f'under a micrometre: {word}')
    return value


def whole_number(low, high):
    def checked(word):
        if not re.fullmatch('[0-9]{1,9}', word) or not low <= int(word) <= high:
            raise argparse.ArgumentTypeError(f'not a whole number from {low} to {high}: {word}')
        return int(word)
    return checked


# ---- the two files

def record(data, start, mark, layout):
    """The fields of the record at start: its length is looked at before its mark, as document 01 has it."""
    size = struct.calcsize(layout)
    if len(data) - start < size:
        raise Refused(9, start)
    if data[start:start + 2] != mark:
        raise Refused(10, start)
    return struct.unpack_from(layout, data, start)[1:]


def allow(condition, byte):
    if not condition:
        raise Refused(11, byte)


# the two kinds of point records, by their marks: PQ has the point's confidence as a last byte
POINT_LAYOUTS = {b'PT': '<2sHHq', b'PQ': '<2sHHqB'}


def point_kind(data):
    """The first record sets the kind; one with neither mark is refused as PT."""
    return b'PQ' if data[8:10] == b'PQ' else b'PT'


def read_points(data):
    """m0, n0, h and the list of (x, y, z, q) of a point file. A PT point has q 1."""
    m0, n0, h, zero, count = record(data, 0, b'PH', '<2sBBBBH')
    allow(1 <= m0 <= MOST_COARSE_CELLS, 2)
    allow(1 <= n0 <= MOST_COARSE_CELLS, 3)
    allow(h <= MOST_LEVEL, 4)
    allow(zero == 0, 5)
    points, start, kind = [], 8, point_kind(data)
    layout = POINT_LAYOUTS[kind]
    for _ in range(count):
        x, y, z, *last = record(data, start, kind, layout)
        q = last[0] if last else 1
        allow(x <= FINEST_UNIT * (m0 << h), start + 2)
        allow(y <= FINEST_UNIT * (n0 << h), start + 4)
        allow(in_range(z), start + 6)
        allow(q > 0, start + 14)
        points.append((x, y, z, q))
        start += struct.calcsize(layout)
    if len(data) > start:
        raise Refused(12, start)
    return m0, n0, h, points


def write_points(m0, n0, h, points):
    """A point file of PQ records. The caller has held every field to its bounds."""
    records = [struct.pack('<2sBBBBH', b'PH', m0, n0, h, 0, len(points))]
    records += [struct.pack(POINT_LAYOUTS[b'PQ'], b'PQ', *point) for point in points]
    return b''.join(records)


def read_lattice(data):
    """m, n and the rows of control values of a lattice file, row 0 first."""
    m, n = record(data, 0, b'LH', '<2sHH')
    allow(1 <= m <= MOST_CELLS, 2)
    allow(1 <= n <= MOST_CELLS, 4)
    rows, start = [], 6
    for due in range(n + 3):
        number, *values = record(data, start, b'LR', f'<2sH{m + 3}q')
        allow(number == due, start + 2)
        for column, value in enumerate(values):
            allow(in_range(value), start + 4 + 8 * column)
        rows.append(values)
        start += 4 + 8 * (m + 3)
    closing, = record(data, start, b'LE', '<2sH')
    allow(closing == n + 3, start + 2)
    if len(data) > start + 4:
        raise Refused(12, start + 4)
    return m, n, rows


# ---- heights

def near(v, d):
    """The nearest whole number to v/d, an exact half going to the even one; divmod has the floor."""
    whole, rest = divmod(v, d)
    return whole + (2 * rest + whole % 2 > d)       # an odd floor is left from a half on, an even one past it


def place(position, cells, unit):
    """The cell of a position along one axis, and the four numerators over 6U³ there."""
    cell = min(position // unit, cells - 1)     # the far edge belongs to the last cell
    a, u = position - cell * unit, unit
    return cell, ((u - a)**3,
                  3 * a**3 - 6 * a * a * u + 4 * u**3,
                  -3 * a**3 + 3 * a * a * u + 3 * a * u * u + u**3,
                  a**3)


def heights(m, n, unit, rows, xs, ys):
    """The heights in micrometres at every x of xs, a list for each y of ys.

    Document 01's two steps: near of each row's x sum, then near of the y sum of those. The first step does not
    depend on y, so it is taken once for each row of control values.
    """
    divisor = 6 * unit**3
    across = [place(x, m, unit) for x in xs]
    taken = [[near(b[0] * row[c] + b[1] * row[c + 1] + b[2] * row[c + 2] + b[3] * row[c + 3], divisor)
              for c, b in across] for row in rows]
    answer = []
    for y in ys:
        c, (b0, b1, b2, b3) = place(y, n, unit)
        answer.append([near(b0 * r0 + b1 * r1 + b2 * r2 + b3 * r3, divisor)
                       for r0, r1, r2, r3 in zip(*taken[c:c + 4])])
    return answer
