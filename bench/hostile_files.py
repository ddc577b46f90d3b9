"""The files that bench/hostile draws: right, nearly right and damaged ones of each format."""

import os
import struct

from rules_cells import packed
from rules_read import LIMIT, Patterns, Refused, patterns_of, table_of, words_of

EXAMPLES = os.path.join(os.path.dirname(os.path.dirname(os.path.realpath(__file__))), "examples")
REAL = ("garden.dic", "garden.pat", "garden.par", "garden.report", "garden.list", "tex/garten.dic", "tex/garten.tra", "tex/garten.pat",
        "tex/garten.par", "sweep/greedy.par", "sweep/three.par", "esperanto/words.dic", "esperanto/all.par")
LINES_OF_REAL = 30

ALPHABETS = [
    [b"a", b"b"], [b"a", b"b", b"c"], [b"a", b"b", b"c"], [b"a", b"b", b"c", b"d", b"e"], [b"%c" % it for it in range(97, 123)],
    ["ä".encode(), b"b", "ß".encode(), b"o"], [it.encode() for it in "абвгд"], [b'\\"a', b"b", b"c", b'\\"o'], [b"\xe4", b"\xdf", b"b", b"u"],
    [b"aa", b"ab", b"ba", b"bb", b"c"], [b"a1", b"a2", b"b.", b"c{"], [b"}", b"!", b"\x01", b"\x7f"], [b"abcdefgh", b"abcdefgi", b"x"],
    [bytes([it]) for it in (128, 192, 250, 251, 254, 255, 65)], [it.encode() for it in ("o", "é", "e\u0301", "\U0001f600", "漢")],
]
MARKS = b".-*?=~+#&|/:;,\xb7\x80\xff\x00}_"
PAIRS = [b" 1", b" 1", b" 1", b"1 ", b"01", b" 2", b" 2", b"2 ", b"03", b" 3", b"10", b"99"]
WRONG_PAIRS = [b"0 ", b" 0", b"00", b"x ", b"\t1", b"1\t", b"-1", b"  ", b"1\r", b"a1", b"\xc2\xa01", b"\x001"]
DELIMITERS = [b" ", b" ", b" ", b" ", b"\t", b"/", b"x", b"\r", b"0", b".", b"\xff"]
ODD_BYTES = [b"\r", b"\t", b" ", b"\x00", b"\x0b", b"\xe4", b"\xdf", b"\xff", b"\xc3", b"{", b"}", b"-", b".", b"0", b"9", b"z", b"Z", b"\xc2\xad", b"\xef\xbb\xbf",
             b"{12}", b"{0}", b"{10000}", b"\n", b"\r\n", b"\n\n", b"99999999999999999999", b"\\patterns{", b"%", b"\xe2\x80\x90"]
BRACES = [b"{0}", b"{00012}", b"{10000}", b"{0000}", b"{", b"{}", b"{12", b"{12345}", b"{-1}", b"{1 2}", b"{ 1}", b"{a}", b"{1{2}}", b"{9999", b"{00000}"]
RIGHT_BRACES = [b"{1}", b"{0012}", b"{9999}", b"{10}", b"{250}", b"{7}"]
NUMBERS = [b"0", b"10", b"16", b"1000001", b"99999999999999999999", b"0" * 40, b"4294967297", b"18446744073709551617", b"-1"]
WRONG_NUMBERS = [b"x", b"+1", b"1x", b"y", b"1.0", b"0x1", b"\xb2", b"\x0b1", b"1,", b"n", b"-"]


def real_files():
    """The files of examples, each as its lines."""
    found = {}
    for name in REAL:
        with open(os.path.join(EXAMPLES, name), "rb") as file:
            found.setdefault(name.rpartition(".")[2], []).append(file.read().splitlines(True))
    return found


REAL_FILES = real_files()


class DrawnFiles:
    """Files by these draws. The table is that of the last translate file that is accepted. Real files are those of the examples, and large
    ones have words and letters enough for families of many signs past the first 255 cells."""

    def __init__(self, draws):
        self.random = draws
        self.table, self.is_real, self.is_large = None, self.is_one_of(12), self.is_one_of(40)
        self.is_long = self.is_one_of(30)

    def one(self, them):
        return them[int(self.random.random() * len(them))]

    def is_one_of(self, count):
        """Whether one of so many chances comes."""
        return self.random.random() * count < 1

    def up_to(self, most):
        """A number from 0 to the most."""
        return int(self.random.random() * (most + 1))

    # The translate file.

    def translate(self):
        """A translate file, which is the table of the other files where it is accepted."""
        if self.is_large:
            text = self.one([b"", b"".join(self.one(REAL_FILES["tra"])), b" 1 1\n" + b"".join(b" %c\n" % it for it in range(192, 255))])
        elif self.is_real or self.is_one_of(8):
            text = self.one([b"", b"", b"", b"".join(self.one(REAL_FILES["tra"])), b" 1 1\r\n a\n b\n", b"\n"][:3 if self.is_real else 6])
        else:
            text = self.drawn_translate()
        text = self.maybe_damaged(text)
        try:
            self.table = table_of(text)
        except (Refused, TypeError):
            self.table = self.table or table_of(b" 1 1\n a\n b\n c\n")
        return text

    def drawn_translate(self):
        left = right = b"  "
        if not self.is_one_of(8):
            left, right = self.one(PAIRS), self.one(PAIRS)
        if self.is_one_of(60):
            left = self.one(WRONG_PAIRS)
        if self.is_one_of(60):
            right = self.one(WRONG_PAIRS)
        marks = bytes(self.random.sample(MARKS, 4)) if self.is_one_of(5) else self.one([b"", b"", b"", b"    ", b".-*?", b".-=?", b"  ="])
        if self.is_one_of(30):
            marks = marks[:self.up_to(3)].ljust(self.up_to(3)) + self.one([b"1", b"\t", b"\r", b"{", b"?", b"-", b"."])
        letters = self.one(ALPHABETS) if not self.is_one_of(80) else []
        end = self.one([b"\n", b"\n", b"\n", b"\r\n"])
        head = left + right + marks
        if self.is_one_of(10):
            head = head.ljust(8) + self.one([b"behind", b"\t", b"\xff"])
        lines = [head.rstrip(b" ") if self.is_one_of(3) else head]
        if self.is_one_of(400):
            count = self.one([250, 251, 255, 1999, 2000, 2001, 2001, 2002])
            lines += [b" %c%c%c" % (97 + at // 676, 97 + at // 26 % 26, 97 + at % 26) for at in range(count)]
        else:
            lines += [self.letter_line(letter, letters) for letter in letters]
        text = end.join(lines)
        return text if self.is_one_of(8) else text + end

    def letter_line(self, letter, letters):
        delimiter = self.one(DELIMITERS) if self.is_one_of(8) else b" "
        pieces = [letter]
        if len(letter) == 1 and letter.isalpha() and self.is_one_of(2):
            pieces.append(letter.upper())
        if self.is_one_of(150):
            pieces.append(self.one([letter, *letters, letter + b"x", b"q" * 8, b"q" * 9, b"1x", b".x", b"{x", b"-x", b"*", b"?x", b"x\ty", b"x\ry", b"\xff" * 8]))
        line = delimiter + delimiter.join(pieces)
        if self.is_one_of(25):
            line += self.one([delimiter, delimiter, delimiter * 2 + b"zz", b"  ", b"  ", delimiter + delimiter, b" \t" if self.is_one_of(4) else b""])
        if self.is_one_of(100):
            line = self.one([b"", b" ", b"  " + letter, delimiter, b"\t", letter]) + b"\n" + line
        return line

    # The dictionary.

    def spellings(self):
        """The first spellings of the table, and a few bytes where there is none."""
        return self.table.first[2:40] or [b"a", b"b"]

    def dictionary(self):
        if self.is_real or self.is_one_of(60):
            lines = self.one(REAL_FILES["dic"])
            at = self.up_to(len(lines) - 1)
            return self.maybe_damaged(b"".join(lines[at:at + self.up_to(LINES_OF_REAL)]))
        count = self.one([0, 1, 2, 3, 5, 8, 8, 12, 12, 20, 30, 60])
        if self.is_large:
            count = self.one([100, 250])
        parts = self.parts(3 + count // 3)
        missed, found, error, unsure = (self.table.marks[at:at + 1] for at in (1, 2, 0, 3))
        joints = [missed] * 10 + [found, unsure, error, b"", b"", missed + b"3", b"2", unsure + b"0", missed + self.one(RIGHT_BRACES), b"0" + missed, missed + error]
        end = self.one([b"\n", b"\n", b"\n", b"\r\n"])
        text = b"".join(self.word(parts, joints) + end for _ in range(count))
        return self.maybe_damaged(text[:-len(end)] if self.is_one_of(10) else text)

    def parts(self, count):
        """Parts of words."""
        letters = self.spellings()
        return [b"".join(self.random.choices(letters, k=1 + self.up_to(self.one([1, 1, 2, 4])))) for _ in range(count)]

    def word(self, parts, joints):
        its = self.random.choices(parts, k=1 + self.up_to(self.one([1, 2, 2, 3, 5])))
        line = its[0]
        for part in its[1:]:
            line += self.one(joints) + part
        if self.is_one_of(12):
            line = self.one([b"3", b"5", b"0", b"12", b"{250}", b"{9999}", b"1", self.table.marks[1:2] + b"3"]) + line
        if self.is_one_of(12):
            line += self.one([b" x?", b"\t{", b" ", self.table.marks[1:2], b"7", b"{12}", b" 12"])
        if self.is_large:
            return line
        if self.is_long and self.is_one_of(3):
            line = (its[0] * 60)[:self.one([30, 31, 32, 33, 40, 60])] + line
        if self.is_one_of(150):
            line = self.one([b"3", b" 3", b"", b"{44}", self.table.marks, its[0] * 101, (its[0] * 101)[:100], self.one(self.spellings()) * self.one([99, 100, 101, 102])])
        if self.is_one_of(800):
            line += self.one(BRACES) + its[0]
        if self.is_one_of(800):
            at = self.up_to(len(line))
            line = line[:at] + self.one(ODD_BYTES) + line[at:]
        return line

    # The patterns.

    def patterns(self, dictionary=b""):
        if self.is_one_of(3 if self.is_real else 60):
            return self.maybe_damaged(b"".join(self.one(REAL_FILES["pat"])))
        count = self.one([0, 0, 1, 2, 4, 8, 8, 15, 30])
        words = self.patterned(dictionary) if count else ()
        text = b"".join(self.pattern(*self.one(words)) + b"\n" for _ in range(count))
        return self.maybe_damaged(text)

    def patterned(self, dictionary):
        """The signs of the words of the dictionary with the places of their marks, or some signs of its own."""
        try:
            words = words_of(self.table, dictionary)
        except Refused:
            words = ()
        drawn = "".join(chr(1 + self.up_to(self.table.count - 1)) for _ in range(4))
        return [(word.signs, list(word.marks)) for word in words] or [(drawn, [])]

    def pattern(self, signs, places):
        """A line with a piece of a word, which often breaks the word where it has a mark."""
        length = min(len(signs), self.one([1, 2, 2, 2, 3, 3, 4, 5, 9]))
        place = self.one(places) if places and not self.is_one_of(3) else self.up_to(len(signs))
        at = max(0, min(len(signs) - length, place - self.up_to(length)))
        items = [self.table.first[ord(sign)] for sign in signs[at:at + length]]
        digit = self.one([b"1", b"1", b"1", b"3", b"2", b"4", b"5", b"9", b"0", b"10", b"01", b"31"])
        items.insert(min(length, place - at), digit)
        for _ in range(self.one([0, 0, 0, 1, 2])):
            items.insert(self.up_to(len(items)), self.one([b"1", b"2", b"2", b"3", b"4", b"5", b"8", b"9", b"0"]))
        line = b"".join(items)
        if self.is_one_of(70):
            line = self.one([b"", b"1", b".", b".1.", b" " + line, line + b" x{", line + b"\t1", line + b"\r", b"." * 32 + b"2", b"1" * 50 + line,
                             b"1" + (self.one(self.spellings()) + b"1") * self.one([31, 32, 33, 34])])
        if self.is_one_of(800):
            at = self.up_to(len(line))
            line = line[:at] + self.one(ODD_BYTES) + line[at:]
        return line

    # The parameters.

    def params(self):
        if self.is_one_of(2 if self.is_real else 30):
            return self.maybe_damaged(b"".join(self.one(REAL_FILES["par"])))
        first = self.one([1, 1, 1, 1, 2, 3, 8])
        last = first + self.one([-1, 0, 0, 1, 1, 1, 2, 2]) if not self.is_one_of(100) else 9
        items = [max(1, first), max(1, min(9, last))]
        if items[0] == 1 and last < first:
            items[0] = 2
        for _ in range(items[0], items[1] + 1):
            shortest = self.one([1, 1, 2, 2, 2, 3, 4])
            longest = min(15, shortest + self.one([0, 0, 1, 1, 2, 3]) if not self.is_one_of(60) else 15)
            items += [shortest, longest, *(self.one([1, 1, 1, 2, 3, 10, 1000000]) for _ in range(2)), self.one([1, 1, 1, 2, 3, 5, 20, 1000000])]
        return self.maybe_damaged(self.params_text([b"%d" % it for it in items]))

    def params_text(self, items):
        if self.is_one_of(20):
            items.append(self.one([b"y", b"Y", b"n", b"N", b"y y", b"x", b"1"]))
        if self.is_one_of(25):
            items[self.up_to(len(items) - 1)] = self.one([*NUMBERS, *WRONG_NUMBERS])
        if self.is_one_of(60):
            items[self.up_to(len(items) - 1):] = []
        if self.is_one_of(20):
            items = [b"0" * self.up_to(30) + item for item in items]
        return self.one([b" ", b" ", b" ", b"\n", b"\r\n", b"\t ", b" \r"]).join(items) + self.one([b"\n", b"\n", b"", b" \n\n"])

    # The packed table.

    def packed_table(self, patterns):
        """A packed table: that of patterns, a drawn one, or a damaged one."""
        if self.is_one_of(4):
            text = self.drawn_table()
        else:
            try:
                text = packed(self.table.count, patterns_of(self.table, patterns))
            except (Refused, TypeError):
                text = packed(self.table.count, Patterns())
        if self.is_one_of(5):
            text = self.damaged_table(text)
        return text

    def drawn_table(self):
        """A well-formed table whose cells and records lead anywhere. For long words each string has a cell."""
        signs = self.table.count if not self.is_one_of(3) else self.one([1, 2, 3, 27, 28])
        cells, records = signs + 1 + (signs if self.is_long else self.up_to(20)), self.up_to(40 if self.is_long else 12)
        text = [b"PGT1", struct.pack(">III", signs, cells, records), bytes(10)]
        for at in range(1, cells):
            sign = at if at <= signs else at - signs if self.is_long else self.up_to(signs)
            child = signs if self.is_long else self.up_to(cells - 1)
            text.append(struct.pack(">HII", sign, child, self.up_to(records)) if sign else bytes(10))
        for at in range(1, records + 1):
            text.append(struct.pack(">BBI", 1 + self.up_to(8), self.up_to(self.one([2, 4, 32])), self.up_to(at - 1)))
        return b"".join(text)

    def damaged_table(self, text):
        """A table with one number changed, just inside its bounds or just outside, or cut."""
        signs, cells, records = struct.unpack_from(">III", text, 4)
        kind, cell, record = self.up_to(7), 16 + 10 * self.up_to(cells - 1), 16 + 10 * cells + 6 * self.up_to(max(0, records - 1))
        if kind == 0:
            return self.put(text, 4 * self.up_to(3), ">I", self.one([0, 1, 2, 5, 27, 2001, 2002, 2**31, 2**32 - 1, signs - 1, signs + 1, cells, cells + 1, records + 1]))
        if kind == 1:
            at = self.up_to(len(text) - 1)
            return self.one([text[:at], text + b"\0", text[:-6], text + bytes(6), b"", text[:15], b"PGT2" + text[4:], text[1:], text + bytes(10)])
        if kind == 2:
            return self.put(text, cell, ">H", self.one([0, 1, signs, signs + 1]))
        if kind == 3:
            return self.put(text, self.one([16, cell, cell]) + 2, ">I", self.one([0, 1, cells - 1, cells, 2**32 - 1]))
        if kind == 4:
            return self.put(text, self.one([16, cell, cell]) + 6, ">I", self.one([0, 1, records, records + 1, 2**32 - 1]))
        if kind == 5 and records:
            return self.put(text, record, ">B", self.one([0, 1, 9, 10, 255]))
        if kind == 6 and records:
            return self.put(text, record + 1, ">B", self.one([0, 31, 32, 33, 255]))
        if kind == 7 and records:
            number = (record - 16 - 10 * cells) // 6 + 1
            return self.put(text, record + 2, ">I", self.one([0, number - 1, number, number + 1, 2**32 - 1]))
        return self.put(text, self.up_to(len(text) - 1), ">B", self.up_to(255))

    @staticmethod
    def put(text, at, form, number):
        """A text with a number put at a place."""
        its = struct.pack(form, number)
        return text[:at] + its + text[at + len(its):]

    # Damage.

    def maybe_damaged(self, text):
        """A text, and sometimes a damaged one."""
        if self.is_one_of(100 if self.is_large else 20):
            for _ in range(1 + self.up_to(self.one([0, 0, 2]))):
                text = self.damaged(text)
        elif self.is_one_of(20000):
            text = self.one([LIMIT, LIMIT + 1])
        return text

    def damaged(self, text):
        if isinstance(text, int):
            return text
        lines, kind, at = text.split(b"\n"), self.up_to(11), self.up_to(len(text))
        line = self.up_to(len(lines) - 1)
        if kind == 0:
            return text[:at] + bytes([text[at] ^ 1 << self.up_to(7)]) + text[at + 1:] if at < len(text) else text
        if kind == 1:
            return b"\n".join(lines[:line + 1] + lines[line:])
        if kind == 2:
            return b"\n".join(lines[:line] + lines[line + 1:])
        if kind == 3:
            return text.replace(b"\n", b"\r\n")
        if kind == 4:
            return text.rstrip(b"\n")
        if kind == 5:
            return b"\xef\xbb\xbf" + text
        if kind == 6:
            return text[:at] + self.one(ODD_BYTES) + text[at:]
        if kind == 7:
            return text[:at]
        if kind == 8:
            return text.decode(errors="replace").encode(self.one(["latin-1", "utf-16", "cp1251"]), errors="ignore")
        if kind == 9:
            return text[:at] + text[at + 1:]
        if kind == 10:
            return b"\n".join(lines[:line] + lines[line + 1:] + [lines[line]])
        return text[:at] + bytes([self.up_to(255)]) + text[at + 1:]
