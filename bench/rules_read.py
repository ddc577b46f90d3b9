"""The rules of PatGen once more, for the files that it reads: what each means, or how it is refused.

It shares no code with the program. A sign is a character by its number, so strings of signs stand in the order of signs. This module,
rules_run and rules_call are what bench/hostile and bench/large_rows compare the program with.
"""

import re

LIMIT = 2**26
TABLE_LIMIT = 2**28
SIGNS_MAX = 2001
LETTERS_OF_A_WORD, SIGNS_OF_A_PATTERN = 100, 32
EDGE = "\x01"
USUAL_MARKS = b".-*?"

NAMES = {
    101: "TranslateTooLong", 102: "BadMinima", 103: "BadMark", 104: "BadSpelling", 105: "SpellingClash", 106: "TooManyLetters",
    201: "BadNumber", 202: "OutOfRange", 203: "Missing", 204: "Extra", 205: "ParametersTooLong",
    301: "PatternCharacter", 302: "PatternTooLong", 303: "PatternsTooLong",
    401: "DictionaryCharacter", 402: "WordTooLong", 403: "DictionaryTooLong", 404: "BadWeight",
    601: "TableTooLong", 602: "BadTable", 603: "OtherTable",
}

# What a byte of a line begins: a sign by its number, spellings of more bytes as a list, or one of these.
BAD, END, DIGIT, BRACE, ERROR, MISSED, FOUND, UNSURE = 0, -1, -2, -3, -4, -5, -6, -7


class Refused(Exception):
    """A file is refused: the number, the line and the column."""

    def __init__(self, number, line=0, column=0):
        super().__init__(number, line, column)
        self.number, self.line, self.column = number, line, column


def lines_of(data):
    """The lines of a file, without their ends."""
    pieces = data.split(b"\n")
    if not pieces[-1]:
        pieces.pop()
    return [piece[:-1] if piece[-1:] == b"\r" else piece for piece in pieces]


def minimum(pair):
    """The value of a pair of columns, or none where it is no minimum."""
    if not re.fullmatch(rb"[0-9][0-9]|[0-9] | [0-9]", pair):
        return None
    return int(pair) or None


def head_of(line):
    """The minima and the marks of the first line of a translate file."""
    head = line[:8].ljust(8)
    left, right = head[:2], head[2:4]
    minima = [minimum(left), minimum(right)]
    if left == right == b"  ":
        minima = [2, 3]
    for column, value in zip((1, 3), minima):
        if value is None:
            raise Refused(102, 1, column)
    marks = b""
    for column, usual in enumerate(USUAL_MARKS, 4):
        mark = head[column] if head[column] != 32 else usual
        if mark in b"0123456789\t\r{" or mark in marks:
            raise Refused(103, 1, column + 1)
        marks += bytes([mark])
    return (*minima, marks)


class Spellings:
    """The spellings of the letters so far, and the strings that begin them."""

    def __init__(self, marks):
        self.letters, self.signs, self.beginnings = [], {}, set()
        self.has_form = re.compile(rb"[^0-9.{ \t\r%s][^ \t\r]{0,7}" % re.escape(marks), re.DOTALL)

    def add_line(self, line, number):
        """Adds a letter line."""
        line = line.rstrip(b" ")
        if not line:
            return
        pieces = line[1:].split(line[:1])
        pieces = pieces[:pieces.index(b"")] if b"" in pieces else pieces
        if not pieces:
            return
        if len(self.letters) == SIGNS_MAX - 1:
            raise Refused(106, number, 1)
        self.letters.append(pieces[0])
        column = 2
        for piece in pieces:
            self.add(piece, len(self.letters) + 1, number, column)
            column += len(piece) + 1

    def add(self, piece, sign, number, column):
        """Adds a spelling of a letter."""
        if not self.has_form.fullmatch(piece):
            raise Refused(104, number, column)
        if self.signs.get(piece, sign) != sign or piece in self.beginnings:
            raise Refused(105, number, column)
        shorter = [piece[:end] for end in range(1, len(piece))]
        if any(it in self.signs for it in shorter):
            raise Refused(105, number, column)
        self.signs[piece] = sign
        self.beginnings.update(shorter)


class Table:
    """A translate file: minima, marks, first spellings by sign, and what each byte of a line begins."""

    def __init__(self, left, right, marks, letters, signs):
        self.left, self.right, self.marks = left, right, marks
        self.first = [b"", b".", *letters]
        self.count = len(letters) + 1
        self.in_words = self.begun_by(signs, {b"{"[0]: BRACE, **dict(zip(marks, (ERROR, MISSED, FOUND, UNSURE)))})
        self.in_patterns = self.begun_by(signs, {b"."[0]: 1})

    @staticmethod
    def begun_by(signs, others):
        """What each byte begins."""
        kinds = [BAD] * 256
        kinds[9] = kinds[32] = END
        kinds[48:58] = [DIGIT] * 10
        for byte, kind in others.items():
            kinds[byte] = kind
        for spelling, sign in signs.items():
            if len(spelling) == 1:
                kinds[spelling[0]] = sign
            else:
                kinds[spelling[0]] = [*(kinds[spelling[0]] or ()), (spelling, sign)]
        return kinds

    def reach(self, signs):
        """The positions in reach of a word. There is none where it takes no part."""
        takes_part = len(signs) - 2 >= self.left + self.right
        return range(self.left + 1, len(signs) - self.right) if takes_part else range(0)

    def takes_part(self, signs):
        return len(signs) - 2 >= self.left + self.right


def table_of(data):
    """The table of a translate file."""
    if len(data) > LIMIT:
        raise Refused(101)
    if not data:
        pairs = [(bytes([at]), bytes([at - 32])) for at in range(97, 123)]
        signs = {spelling: sign for sign, pair in enumerate(pairs, 2) for spelling in pair}
        return Table(2, 3, USUAL_MARKS, [small for small, _ in pairs], signs)
    lines = lines_of(data)
    left, right, marks = head_of(lines[0])
    spellings = Spellings(marks)
    for number, line in enumerate(lines[1:], 2):
        spellings.add_line(line, number)
    return Table(left, right, marks, spellings.letters, spellings.signs)


def params_of(data):
    """The parameters: the first level, the last one, and five numbers for each that is run."""
    if len(data) > LIMIT:
        raise Refused(205)
    items = re.findall(rb"[^ \t\r\n]+", data)

    def number(at, least, most):
        if at >= len(items):
            raise Refused(203, at + 1)
        if not re.fullmatch(rb"[0-9]+", items[at]):
            raise Refused(201, at + 1)
        digits = items[at].lstrip(b"0") or b"0"
        if len(digits) > 7 or not least <= int(digits) <= most:
            raise Refused(202, at + 1)
        return int(digits)

    start, finish = number(0, 1, 9), number(1, 1, 9)
    levels, at = [], 2
    for _ in range(start, finish + 1):
        first = number(at, 1, 15)
        levels.append((first, number(at + 1, first, 15), *(number(at + i, 1, 10**6) for i in (2, 3, 4))))
        at += 5
    if items[at:at + 1] and items[at] in (b"y", b"Y", b"n", b"N"):
        at += 1
    if len(items) > at:
        raise Refused(204, at + 1)
    return start, finish, levels


def spelled(kind, line, at):
    """The sign and the length of the spelling of several bytes that begins here, or 0 and 0."""
    for spelling, sign in kind:
        if line.startswith(spelling, at):
            return sign, len(spelling)
    return 0, 0


class Patterns:
    """A map from a string and a dot to a value, by strings."""

    def __init__(self, entries=()):
        self.strings, self.longest = {}, 0
        for string, dot, value in entries:
            self.raise_to(string, dot, value)

    def raise_to(self, string, dot, value):
        dots = self.strings.setdefault(string, {})
        if value > dots.get(dot, 0):
            dots[dot] = value
        if len(string) > self.longest:
            self.longest = len(string)

    def entries(self):
        """The entries in the order of signs and dots."""
        return [(string, dot, self.strings[string][dot]) for string in sorted(self.strings) for dot in sorted(self.strings[string])]

    def bearing(self, signs):
        """What bears on a word: position, string, dot and value."""
        strings, longest, end = self.strings, self.longest, len(signs)
        return [(at + dot, signs[at:to], dot, value)
                for at in range(end) for to in range(at + 1, min(end, at + longest) + 1) if signs[at:to] in strings
                for dot, value in strings[signs[at:to]].items()]

    def values(self, signs):
        """The value of each position of a word."""
        values = [0] * (len(signs) + 1)
        for at, _, _, value in self.bearing(signs):
            if value > values[at]:
                values[at] = value
        return values


def patterns_of(table, data):
    """The map of a pattern file."""
    if len(data) > LIMIT:
        raise Refused(303)
    patterns = Patterns()
    for number, line in enumerate(lines_of(data), 1):
        string, digits = pattern_line(table.in_patterns, line, number)
        for dot, digit in digits.items() if string else ():
            if digit:
                patterns.raise_to(string, dot, digit)
    return patterns


def pattern_line(kinds, line, number):
    """The signs of a line, and the last digit at each dot."""
    string, digits, at, end = "", {}, 0, len(line)
    while at < end:
        kind, length = kinds[line[at]], 1
        if kind == END:
            break
        if kind == DIGIT:
            digits[len(string)] = line[at] - 48
        else:
            if isinstance(kind, list):
                kind, length = spelled(kind, line, at)
            if kind == BAD:
                raise Refused(301, number, at + 1)
            if len(string) == SIGNS_OF_A_PATTERN:
                raise Refused(302, number, at + 1)
            string += chr(kind)
        at += length
    return string, digits


class Word:
    """A word: its signs with the edges, its weight, and by position the last mark and the last number."""

    __slots__ = ("signs", "weight", "marks", "numbers")

    def __init__(self, signs, weight, marks, numbers):
        self.signs, self.weight, self.marks, self.numbers = signs, weight, marks, numbers


BRACED = re.compile(rb"\{([0-9]{1,4})\}")


def words_of(table, data):
    """The words of a dictionary."""
    if len(data) > LIMIT:
        raise Refused(403)
    words, weight = [], 1
    for number, line in enumerate(lines_of(data), 1):
        word = word_of(table.in_words, line, number, weight)
        weight = word.weight
        if len(word.signs) > 2:
            words.append(word)
    return words


def word_of(kinds, line, number, weight):
    """The word of a line, behind a line of this word weight."""
    signs, marks, numbers, at, end = [], {}, {}, 0, len(line)
    while at < end:
        kind, length, value = kinds[line[at]], 1, None
        if kind.__class__ is list:
            kind, length = spelled(kind, line, at)
        if kind > 0:
            if len(signs) == LETTERS_OF_A_WORD:
                raise Refused(402, number, at + 1)
            signs.append(chr(kind))
        elif kind == END:
            break
        elif kind == DIGIT:
            value = line[at] - 48
        elif kind == BRACE:
            found = BRACED.match(line, at)
            value, length = (int(found[1]), len(found[0])) if found else (0, 0)
            if not value:
                raise Refused(404, number, at + 1)
        elif kind == BAD:
            raise Refused(401, number, at + 1)
        else:
            marks[len(signs) + 1] = kind
        if value is not None and signs:
            numbers[len(signs) + 1] = value
        elif value is not None:
            weight = value
        at += length
    last = len(signs) + 1
    marks = {at: mark for at, mark in marks.items() if 1 < at < last}
    numbers = {at: number for at, number in numbers.items() if at < last}
    return Word(EDGE + "".join(signs) + EDGE, weight, marks, numbers)
