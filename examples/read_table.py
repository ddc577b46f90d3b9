#!/usr/bin/env -S python3 -B
"""Hyphenates words by a packed table of patterns, and prints the value of each of their positions. An odd value is a break.

    read_table.py TABLE TRANSLATE WORD..

TRANSLATE is the translate file that the table was packed with, or /dev/null for the letters a to z. The position of a value is the
number of signs before it, the edge of the word counted too. As a module it has `Hyphenator`.
"""
import os
import re
import struct
import sys

sys.path.append(os.path.join(os.path.dirname(os.path.realpath(__file__)), "..", "tools"))
import hyphenation  # noqa: E402

HEAD, CELL, RECORD = struct.Struct(">4sIII"), struct.Struct(">HII"), struct.Struct(">BBI")


def read(data):
    """The cells (sign, base of the child family, head of the list) and the records (value, dot, next) of a table."""
    mark, signs, cells, records = HEAD.unpack(data[: HEAD.size].ljust(HEAD.size))
    behind = HEAD.size + CELL.size * cells
    if mark != b"PGT1" or len(data) != behind + RECORD.size * records:
        raise ValueError("this is no packed table")
    table = list(CELL.iter_unpack(data[HEAD.size : behind])), list(RECORD.iter_unpack(data[behind:]))
    if not is_sound(signs, *table):
        raise ValueError("this packed table is damaged")
    return table


def is_sound(signs, cells, records):
    """Whether a table keeps the rules of docs/FORMATS.md."""
    return (
        1 <= signs <= 2001
        and signs < len(cells)
        and [cell[0] for cell in cells[: signs + 1]] == list(range(signs + 1))
        and all(sign <= signs and base < len(cells) and head <= len(records) for sign, base, head in cells)
        and all(sign or not (base or head) for sign, base, head in cells)
        and all(1 <= value <= 9 and dot <= 32 and next_one < number for number, (value, dot, next_one) in enumerate(records, 1))
    )


def values(table, signs):
    """The value of each position of a word with these signs, its edges included."""
    cells, records = table
    found = [0] * len(signs)
    for start in range(len(signs)):
        base = 0
        for stop in range(start, min(len(signs), start + 32)):
            at = base + signs[stop]
            if at >= len(cells) or cells[at][0] != signs[stop]:
                break
            _sign, base, head = cells[at]
            while head:
                value, dot, head = records[head - 1]
                if dot <= stop + 1 - start and start + dot < len(signs):
                    found[start + dot] = max(found[start + dot], value)
            if base == 0:
                break
    return found


class Hyphenator:
    """Hyphenates words by the bytes of a packed table and of its translate file.

    A word that has something else than letters of the translate file has no breaks.
    """

    def __init__(self, table, translate):
        self.cells_and_records, self.letters = read(table), hyphenation.Table(translate)
        self.spelling = re.compile(b"|".join(map(re.escape, self.letters.signs)))

    def spellings(self, word):
        """The letters of a word as they are spelled in it, or none where something in it is no letter."""
        found = self.spelling.findall(word.encode())
        return found if b"".join(found) == word.encode() else []

    def values(self, word):
        """The value of each position of a word, its edges included."""
        return values(self.cells_and_records, [1, *(self.letters.signs[it] for it in self.spellings(word)), 1])

    def pieces(self, word):
        """The pieces of a word between its breaks."""
        spellings, found, pieces = self.spellings(word), self.values(word), [b""]
        for letters, spelling in enumerate(spellings):
            if found[letters + 1] % 2 and self.letters.left <= letters <= len(spellings) - self.letters.right:
                pieces.append(b"")
            pieces[-1] += spelling
        return [piece.decode() for piece in pieces] if spellings else [word]


def main():
    words = hyphenation.parser(__doc__)
    words.add_argument("table", metavar="TABLE")
    words.add_argument("translate", metavar="TRANSLATE")
    words.add_argument("words", metavar="WORD", nargs="+")
    given = words.parse_args()
    try:
        hyphenator = Hyphenator(hyphenation.read_bytes(given.table), hyphenation.read_bytes(given.translate))
    except ValueError as wrong:
        raise hyphenation.Trouble(f"{given.table}: {wrong}") from None
    for word in given.words:
        print("-".join(hyphenator.pieces(word)), *hyphenator.values(word))
    return 0


if __name__ == "__main__":
    hyphenation.start(main)
