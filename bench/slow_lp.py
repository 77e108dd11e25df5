"""Linear programs as files, read and solved plainly and slowly, written from docs/lp.md alone.

`read` gives a linear program or raises `Refused`; `solve` follows Bland's rule over fractions to its end; `answer` gives
what `koat lp` prints of a file's bytes, with its status.
"""

from fractions import Fraction
from math import comb

NUMBER_LIMIT = 2**31 - 1
SIZE_LIMIT = 64
BASES_LIMIT = 2**32
BYTE_LIMIT = 4 * 2**20
KINDS = ["syntax", "number too large", "limit"]


class Refused(Exception):
    """The kind of a refusal, as its place in KINDS, and its position."""

    def __init__(self, kind, at):
        super().__init__(f"{KINDS[kind]} at {at}")
        self.kind, self.at = kind, at


class Program:
    """A linear program: rows of numbers, right sides, and two lists of costs."""

    def __init__(self, columns, first, second, rows, right):
        self.columns, self.first, self.second = columns, first, second
        self.rows, self.right = rows, right


class Reading:
    """Reads a file from front to back."""

    def __init__(self, text):
        self.text, self.at = text, 0

    def byte(self):
        return self.text[self.at:self.at + 1]

    def syntax(self):
        raise Refused(0, self.at)

    def word(self, word):
        for byte in word.encode():
            if self.byte() != bytes([byte]):
                self.syntax()
            self.at += 1

    def number(self, signed, against):
        """A number; `against` gives the kinds of refusals of a number as far as it has been read."""
        begins, sign = self.at, 1
        if signed and self.byte() == b"-":
            self.at, sign = self.at + 1, -1
            if self.byte() == b"0":
                self.syntax()
        if not self.byte().isdigit():
            self.syntax()
        value, kinds = 0, []
        while True:
            value = value * 10 + int(self.byte())
            kinds += against(sign * value)
            self.at += 1
            if value == 0 or not self.byte().isdigit():
                break
        if kinds:
            raise Refused(min(kinds), begins)
        return sign * value

    def costs(self, columns):
        found = []
        while self.byte() == b" " and len(found) < columns:
            self.at += 1
            found.append(self.number(False, too_large))
        if len(found) < columns:
            self.syntax()
        self.word("\n")
        return found

    def row(self, columns):
        found = []
        self.word(" ")
        while self.byte() != b"=" and len(found) < columns:
            found.append(self.number(True, too_large))
            self.word(" ")
        if len(found) < columns:
            self.syntax()
        self.word("= ")
        right = self.number(True, too_large)
        self.word("\n")
        return found, right

    def program(self):
        self.word("koat-lp 1\ncols ")
        columns = self.number(True, out_of_size)
        self.word("\nfirst")
        first = self.costs(columns)
        self.word("second")
        second = self.costs(columns)
        rows, right = [], []
        while self.byte() == b"r":
            if len(rows) == SIZE_LIMIT:
                raise Refused(2, self.at)
            self.word("row")
            numbers, side = self.row(columns)
            rows.append(numbers)
            right.append(side)
        self.word("end\n")
        if self.at < len(self.text):
            self.syntax()
        return Program(columns, first, second, rows, right)


def too_large(value):
    return [1] if abs(value) > NUMBER_LIMIT else []


def out_of_size(value):
    return too_large(value) + ([] if 1 <= value <= SIZE_LIMIT else [2])


def read(text):
    """The linear program of a text."""
    return Reading(text).program()


class Tableau:
    """The rows and the three cost rows of a linear program, over fractions, with the right sides as the last column."""

    def __init__(self, program):
        count, columns = len(program.rows), program.columns
        self.count, self.columns = count, columns
        self.signs = [-1 if side < 0 else 1 for side in program.right]
        self.rows = []
        for row in range(count):
            artificial = [int(other == row) for other in range(count)]
            numbers = [self.signs[row] * number for number in program.rows[row]]
            right = self.signs[row] * program.right[row]
            self.rows.append([Fraction(number) for number in [*numbers, *artificial, right]])
        sums = [-sum((row[column] for row in self.rows), Fraction(0)) for column in range(columns)]
        zeros = [Fraction(0)] * count
        self.costs = [sums + zeros, [Fraction(cost) for cost in program.first] + zeros,
                      [Fraction(cost) for cost in program.second] + zeros]
        self.basis = [columns + row for row in range(count)]

    def is_in_range(self):
        numbers = [number for line in [*self.rows, *self.costs] for number in line]
        return all(abs(number.numerator) < 2**31 and number.denominator < 2**31 for number in numbers)

    def is_infeasible(self):
        if any(number < 0 for number in self.costs[0][:self.columns]):
            return False
        return any(basic >= self.columns and row[-1] > 0 for basic, row in zip(self.basis, self.rows))

    def entering(self):
        """The least column of the first cost row that makes one negative and has zeros above it."""
        for number, line in enumerate(self.costs):
            for column in range(self.columns):
                if line[column] < 0 and not any(above[column] for above in self.costs[:number]):
                    return column
        return None

    def leaving(self, column):
        """The row with the least quotient, and of several that with the least basic column."""
        found = [(row[-1] / row[column], self.basis[number], number)
                 for number, row in enumerate(self.rows) if row[column] > 0]
        return min(found)[2]

    def pivot(self, row, column):
        taken = self.rows[row]
        self.rows[row] = taken = [number / taken[column] for number in taken]
        for number, line in enumerate(self.rows):
            if number != row and line[column]:
                self.rows[number] = [a - line[column] * b for a, b in zip(line, taken)]
        self.costs = [[a - line[column] * b for a, b in zip(line, taken)] if line[column] else line
                      for line in self.costs]
        self.basis[row] = column

    def values(self):
        found = [Fraction(0)] * self.columns
        for basic, row in zip(self.basis, self.rows):
            if basic < self.columns:
                found[basic] = row[-1]
        return found

    def dual(self):
        return [sign * (1 - self.costs[0][self.columns + row]) for row, sign in enumerate(self.signs)]


def lines(letter, values):
    return "".join(f"{letter}{number} = {value}\n" for number, value in enumerate(values))


def solve(program):
    """The status and the text of the answer to a linear program."""
    if comb(program.columns + len(program.rows), len(program.rows)) >= BASES_LIMIT:
        return 1, "too many bases\n"
    tableau, pivots = Tableau(program), 0
    while True:
        if not tableau.is_in_range():
            return 1, f"range at pivot {pivots}\n"
        if tableau.is_infeasible():
            return 0, f"infeasible after {pivots} pivots\n" + lines("y", tableau.dual())
        column = tableau.entering()
        if column is None:
            return 0, f"optimal after {pivots} pivots\n" + lines("x", tableau.values())
        tableau.pivot(tableau.leaving(column), column)
        pivots += 1


def answer(text):
    """The status and the text with which `koat lp` answers a file's bytes."""
    if len(text) > BYTE_LIMIT:
        return 6, "program refused: too long\n"
    try:
        return solve(read(text))
    except Refused as refused:
        return 6, f"program refused at {refused.at}: {['Syntax', 'NumberTooLarge', 'Limit'][refused.kind]}\n"
