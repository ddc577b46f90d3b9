"""Tests of tools/libhyphen against a search like that of libhyphen, and against plain patterns. bench/libhyphen asks the library itself."""

import ctypes
import json
import os
import random
import sys
import unittest
import unittest.mock

sys.dont_write_bytecode = True
sys.path.insert(0, os.path.join(os.path.dirname(os.path.abspath(__file__)), ".."))
import hyphenation
import libhyphen_dic
from case import Case

Trouble = hyphenation.Trouble


def has_library():
    """Whether libhyphen is installed."""
    try:
        return bool(ctypes.CDLL("libhyphen.so.0"))
    except OSError:
        return False


def table_of(*lines):
    return hyphenation.Table("".join(line + "\n" for line in lines).encode())


def dic_of(table, patterns, exceptions="", encoding="UTF-8"):
    entries = hyphenation.entries_of(table, patterns.encode(), "patterns")
    return libhyphen_dic.dic_of(table, entries, libhyphen_dic.exceptions_of(table, exceptions.encode(), "exceptions"), encoding)


def searched(content, codec, word):
    """Where libhyphen breaks a word. As README.hyphen of libhyphen tells it, a state is the longest end of what was read that begins a
    pattern, and gives its own digits alone."""
    lines = content.decode(codec).split("\n")
    left, right = int(lines[1].split()[1]), int(lines[2].split()[1])
    digits = {"".join(it for it in line if not it.isdigit()): line for line in lines[4:] if line}
    states = {text[:length] for text in digits for length in range(len(text) + 1)}
    signs, state, values = f".{word}.", "", [0] * (len(word) + 3)
    for at, sign in enumerate(signs, 1):
        state = next(text for text in ((state + sign)[begin:] for begin in range(at + 1)) if text in states)
        place = at - len(state)
        for character in digits.get(state, ""):
            if character.isdigit():
                values[place] = max(values[place], int(character))
            else:
                place += 1
    return {at for at in range(left, len(word) - right + 1) if values[at + 1] % 2}


class Libhyphen(unittest.TestCase):
    def test_breaks_are_those_of_the_patterns(self):
        draw = random.Random(69)
        table = table_of(" 1 2", " a A", " ä", " '")
        for _ in range(300):
            letters = lambda least, most: "".join(draw.choice("aä'") for _ in range(draw.randint(least, most)))
            text = lambda: draw.choice(("", ".")) + letters(1, 4) + draw.choice(("", "."))
            patterns = "".join("".join(it + draw.choice(("", "", "1", "2", "3")) for it in text()) + "\n" for _ in range(8))
            content = dic_of(table, patterns)
            entries = hyphenation.entries_of(table, patterns.encode(), "patterns")
            matcher = hyphenation.Matcher(entries)
            back = libhyphen_dic.Dic(content, "dic")
            self.assertEqual((back.minima, back.incomplete()), ([1, 2], 0))
            again = hyphenation.Matcher(back.entries(table))
            for word in [letters(1, 9) for _ in range(20)]:
                signs = libhyphen_dic.word_of(table.signs[it.encode()] for it in word)
                odd = lambda them: {at for at in signs.reach(table) if at in them and them[at][0][0] % 2}
                wanted = odd(matcher.bearing(signs))
                self.assertEqual(searched(content, "utf-8", word), wanted, (patterns, word))
                self.assertEqual(odd(again.bearing(signs)), wanted, (patterns, word))

    def test_a_small_file(self):
        self.assertEqual(dic_of(table_of(" 2 3", " a A", " b B"), "1ab\nb2\n.a1a\n"),
                         b"UTF-8\nLEFTHYPHENMIN 2\nRIGHTHYPHENMIN 3\nNEXTLEVEL\n.a1a\n1ab2\nb2\n")

    def test_exceptions(self):
        table = table_of(" 1 1", " a A", " b B")
        content = dic_of(table, "a1b\nb2a3\n", "aba-b\nA-B\n")
        self.assertEqual(content.split(b"\n")[4:-1], [b".a1b", b".ab2a3", b".aba1b", b".a2bab.", b"a1b", b"b2a3"])
        self.assertEqual(searched(content, "utf-8", "abab"), {3})
        with self.assertRaisesRegex(Trouble, "aba has no hyphen where a pattern has the digit 9"):
            dic_of(table, "b9a\n", "a-ba\n")

    def test_spellings_in_small_letters(self):
        content = dic_of(table_of(" 1 1", " a A", " ' ’"), "a1'\n")
        self.assertEqual(content.split(b"\n")[4:-1], [b"a1'", "a1’".encode()])

    def test_encodings(self):
        table = table_of(" 1 1", " a", " ž Ž")
        self.assertEqual(dic_of(table, "a1ž\n", encoding="ISO8859-2").split(b"\n"),
                         [b"ISO8859-2", b"LEFTHYPHENMIN 1", b"RIGHTHYPHENMIN 1", b"NEXTLEVEL", b"a1\xbe", b""])
        for encoding, why in (("ISO8859-1", "has no ž"), ("utf-16", "'utf-16'"), ("shift_jis", "'shift_jis'"), ("cp037", "'cp037'"), ("x", "'x'")):
            with self.assertRaisesRegex(Trouble, why):
                dic_of(table, "a1ž\n", encoding=encoding)

    def test_what_is_refused(self):
        for letter, why in (("ch", "ch has 2 characters"), ("/", "'/' is refused"), ("\ufb03", "counts it as two")):
            with self.assertRaisesRegex(Trouble, why):
                dic_of(table_of(" 1 1", " a", " " + letter), "a1a\n")
        with self.assertRaisesRegex(Trouble, "99 bytes"):
            dic_of(table_of(" 1 1", " ก"), "ก" * 32 + "321\n" + "1ก" * 6 + "ก" * 25 + "\n")

    def test_without_the_library(self):
        with unittest.mock.patch("ctypes.CDLL", side_effect=OSError), self.assertRaisesRegex(Trouble, "apt-get install libhyphen0"):
            libhyphen_dic.Library(b"UTF-8\n")

    def test_lines_like_comments_and_options(self):
        table = table_of(" 1 1", " %", " #", *(f" {it}" for it in "LEVNXT"))
        content = dic_of(table, "%1L\n#1L\nNEXTLEVEL1\n")
        self.assertEqual([line for line in content.split(b"\n")[4:-1] if line.startswith(b"0")], [b"0#1L", b"0%1L", b"0NEXTLEVEL1"])
        back = libhyphen_dic.Dic(content, "dic")
        self.assertEqual(set(back.patterns), {"#L", "%L", "NEXTLEVEL"})


class Back(unittest.TestCase):
    def read(self, *lines):
        return libhyphen_dic.Dic("".join(line + "\n" for line in lines).encode("latin-1"), "dic")

    def test_the_last_of_equal_lines_counts(self):
        dic = self.read("ISO8859-1", "% a comment", "# one/more", "LEFTHYPHENMIN 3", "ä1b c", "2äb0", "", "RIGHTHYPHENMIN x")
        self.assertEqual((dic.patterns, dic.minima, dic.has_next_level), ({"#": {}, "äb": {0: 2}}, [3, 2], False))
        self.assertEqual(dic.translate(), " 3 2.-*?\n b B\n ä Ä\n".encode())
        self.assertEqual(self.read("UTF-8", "LEFTHYPHENMIN 0", "RIGHTHYPHENMIN\t+4x", "COMPOUNDLEFTHYPHENMIN 5").minima, [2, 4])

    def test_what_is_not_completed(self):
        self.assertEqual(self.read("UTF-8", "1ab", "1b").incomplete(), 1)
        self.assertEqual(self.read("UTF-8", "NEXTLEVEL", "1a1b", "1b").incomplete(), 0)

    def test_what_is_refused(self):
        for lines, why in ((("UTF-8", "a1", "NEXTLEVEL"), "line 2: a pattern stands before NEXTLEVEL"),
                           (("UTF-8", "NOHYPHEN -", "NEXTLEVEL"), "line 2: NOHYPHEN stands"),
                           (("UTF-8", "f1f/ff=f,1,2"), "line 2: f1f/ff=f,1,2 changes the spelling"),
                           (("UTF-8", "%" + "a" * 98 + "b1"), "line 2 has 101 bytes"),
                           (("UTF-8", "a" * 32 + "1b"), "more than 32 letters"), (("UTF-8", "{1"), "the letter {"),
                           (("UTF-8", "\xe4"), "line 2 is not in the encoding"), (("Morse",), "'Morse'"), ((), "''")):
            with self.assertRaisesRegex(Trouble, why):
                self.read(*lines)


class LibhyphenScript(Case):
    def setUp(self):
        super().setUp()
        self.put("p", "1b\nab2c\n")
        self.put("t", " 1 1\n a A\n b B\n c C\n d D\n")

    def test_a_file_is_made(self):
        self.prints("UTF-8\nLEFTHYPHENMIN 1\nRIGHTHYPHENMIN 1\nNEXTLEVEL\na1b\nab2c\n1b\n", "libhyphen", "p", "t")
        for words in (["p"], ["--back", "p", "t"], ["--back", "p", "p", "t", "--exceptions", "e"]):
            self.assertEqual(self.run_script("libhyphen", *words)[:2], (2, ""))

    def test_a_file_is_read_back(self):
        self.put("dic", "UTF-8\nLEFTHYPHENMIN 1\nRIGHTHYPHENMIN 1\n1b\nab2c\n")
        said = self.prints("", "libhyphen", "--back", "dic", "patterns", "translate")
        self.assertEqual(said, "libhyphen: dic is not completed: 1 of its patterns lack digits, so libhyphen may break words in another way than they say\n"
                         "libhyphen: dic has no NEXTLEVEL, so libhyphen breaks words with an apostrophe or a hyphen by a level of its own\n")
        self.assertEqual((self.read("patterns"), self.read("translate")), (b"ab2c\n1b\n", b" 1 1.-*?\n a A\n b B\n c C\n"))
        self.put("dic", self.run_script("libhyphen", "p", "t")[1])
        self.assertEqual(self.prints("", "libhyphen", "--back", "dic", "patterns", "translate"), "")
        self.assertEqual(self.read("patterns"), b"ab2c\n1b\n")

    @unittest.skipUnless(has_library(), "libhyphen0 is not installed")
    def test_the_breaks_of_the_library(self):
        self.put("l", "abd\nabcd\ndab\n")
        self.put("e", "d-abc-d\n")
        self.assertEqual(self.run_script("libhyphen", "p", "t", "--check", "l")[::2], (0, "libhyphen: 3 words, 0 differ\n"))
        self.put("l", "abd\ndabcd\n")
        self.put("t", " 2 1\n a A\n b B\n c C\n d D\n")
        self.assertEqual(self.run_script("libhyphen", "p", "t", "--exceptions", "e", "--check", "l")[::2], (0, "libhyphen: 2 words, 0 differ\n"))
        # Without the digits that the search needs, the beginning `ab` of a pattern hides `1b`.
        self.put("dic", "UTF-8\nLEFTHYPHENMIN 1\nRIGHTHYPHENMIN 1\nNEXTLEVEL\n1b\nab2c\n")
        status, _, said = self.run_script("libhyphen", "--back", "dic", "patterns", "translate", "--check", self.put("l", "cba\nabc\n"))
        self.assertEqual((status, said.splitlines()[1:]), (1, ["libhyphen: abc, and has to be a-bc", "libhyphen: 2 words, 1 differ"]))
        status, _, said = self.run_script("libhyphen", "--back", "dic", "patterns", "translate", "--check", "l", "--json")
        self.assertEqual((status, json.loads(said.splitlines()[1])), (1, {"words": 2, "differ": 1, "differing": [{"wanted": "a-bc", "found": "abc"}]}))


if __name__ == "__main__":
    unittest.main()
