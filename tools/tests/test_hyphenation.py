"""Tests of tools/hyphenation.py: the files as docs/RULES.md has them, and which pattern wins at a position."""

import os
import sys
import unittest

sys.dont_write_bytecode = True
sys.path.insert(0, os.path.join(os.path.dirname(os.path.abspath(__file__)), ".."))
import hyphenation


class Tables(unittest.TestCase):
    def test_heads(self):
        for head, wanted in ((b"", (2, 3, b".-*?")), (b" 1 2", (1, 2, b".-*?")), (b"1012=~ !", (10, 12, b"=~*!")), (b"   4", (2, 4, b".-*?"))):
            table = hyphenation.Table(head + b"\n a\n" if head else b"")
            self.assertEqual((table.left, table.right, table.error + table.missed + table.found + table.unsure), wanted)
        self.assertEqual(hyphenation.Table(b"").letters[0::25], [[b"a", b"A"], [b"z", b"Z"]])

    def test_letters(self):
        table = hyphenation.Table(" 1 1\n ä Ä \n/ch/CH//comment\n\n b  B\n".encode())
        self.assertEqual(table.letters, [["ä".encode(), "Ä".encode()], [b"ch", b"CH"], [b"b"]])
        self.assertEqual([table.first(sign) for sign in range(1, 4)], [b".", "ä".encode(), b"ch"])
        for line in (" 1 1\n 1\n", " 1 1\n abcdefghi\n", " 1 1\n {\n", "a A\n", "\ufeff 1 1\n a\n"):
            with self.assertRaises(hyphenation.Trouble):
                hyphenation.Table(line.encode())


class Words(unittest.TestCase):
    table = hyphenation.Table(b"")

    def words(self, text):
        return list(hyphenation.words_of(self.table, text, "d"))

    def test_marks_and_weights(self):
        first, second, third = self.words(b"{12}Ga-r3d?e{10}n rest\r\nw*at.er\n\n")
        self.assertEqual((first.letters(self.table), first.weight, first.sets_weight, first.weights, first.marks), (b"garden", 12, True, {3: 3, 5: 10}, {2: b"-", 4: b"?"}))
        self.assertEqual((second.weight, second.sets_weight, second.hyphens(self.table), second.at(self.table, b".")), (12, False, {1}, {3}))
        self.assertEqual((bool(first), bool(third)), (True, False))
        self.assertEqual((first.alone(), first.plain(self.table), first.text()), (b"{12}{12}Ga-r3d?e{10}n rest", b"ga-rd?en", b"{12}Ga-r3d?e{10}n"))
        self.assertEqual(first.line_with(self.table, {3}, {1: 9, 2: 10}), b"g9a{10}r-d?en")

    def test_what_takes_part(self):
        for text, takes_part, reach in ((b"abcd", False, []), (b"abcde", True, [2]), (b"abcdefg", True, [2, 3, 4])):
            word = self.words(text)[0]
            self.assertEqual((word.takes_part(self.table), list(word.reach(self.table))), (takes_part, reach))

    def test_what_is_refused(self):
        for text, where in ((b"ab\na+b\n", "d line 2 column 2: '\\+b' begins with no letter"), ("\ufeffab".encode(), "d begins with a byte order mark")):
            with self.assertRaisesRegex(hyphenation.Trouble, where):
                self.words(text)


class Patterns(unittest.TestCase):
    table = hyphenation.Table(b"")

    def test_entries(self):
        entries = hyphenation.entries_of(self.table, b".a1b more\n2a0b3\na1B\n.a2b.\n", "p")
        a, b = 2, 3
        self.assertEqual(entries, {((1, a, b), 2): 1, ((a, b), 0): 2, ((a, b), 2): 3, ((a, b), 1): 1, ((1, a, b, 1), 2): 2})
        self.assertEqual(hyphenation.entries_of(self.table, b"1ab\n3ab\n2ab\n", "p"), {((a, b), 0): 3})
        self.assertEqual(hyphenation.pattern_file(self.table, entries), b".a1b\n.a2b.\n2a1b3\n")

    def test_what_bears_on_a_position(self):
        entries = hyphenation.entries_of(self.table, b"a1b\n.a2b\n3ab\nb1a\n", "p")
        word = next(hyphenation.words_of(self.table, b"abab", "d"))
        bearing = hyphenation.Matcher(entries).bearing(word)
        values = {at: [value for value, _, _ in them] for at, them in bearing.items()}
        self.assertEqual(values, {0: [3], 1: [2, 1], 2: [3, 1], 3: [1]})


if __name__ == "__main__":
    unittest.main()
