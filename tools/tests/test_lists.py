"""Tests of what works on word lists and hyphenated lists: check-list, carry, diff, pattmp and suspects."""

import shutil
import subprocess
import unittest

from case import NO, PROGRAM, Case


class CheckList(Case):
    def test_weights(self):
        self.put("d", "9gar-den\nbot-tle\nlat5-ti2ce\n")
        self.prints("1 set the word weight, which holds for the words behind them too\n    line 1: 9gar-den\n"
                    "2 positions have a weight of their own\n    line 3: lat5-ti2ce\n", "check-list", "d", NO)

    def test_no_hyphen(self):
        self.prints("2 words, and none of them has a hyphen\n    line 1: garden, where a hyphen is written -\n", "check-list", self.put("d", "garden\nbottle\n"), NO, status=1)

    def test_words_behind_a_blank(self):
        self.put("d", "gar-den bot-tle\nwa-ter  was: wat-er\n")
        self.prints("1 have words behind a blank, which are not read\n    line 1: gar-den bot-tle\n"
                    "1 have more behind a blank, which is not read\n    line 2: wa-ter  was: wat-er\n", "check-list", "d", NO, status=1)

    def test_byte_order_mark(self):
        self.refuses(r"d begins with a byte order mark, which sed -i '1s/^\xEF\xBB\xBF//' d takes out", "check-list", self.put("d", "\ufeffgar-den\n"), NO)

    def test_kinds(self):
        self.put("d", " la-ter\n-gar-den\nwa-ter-\nbot--tle\nc-ityhall\n")
        self.prints("1 begin with a blank, so they are no words\n    line 1:  la-ter\n"
                    "1 have two marks side by side, of which the last counts\n    line 4: bot--tle\n"
                    "2 have a mark before the first letter or behind the last one, without effect\n    line 2: -gar-den\n    line 3: wa-ter-\n"
                    "1 have a hyphen out of reach of the minima, which is ignored\n    line 5: c-ityhall\n", "check-list", "d", NO, status=1)

    def test_equal_words(self):
        self.put("d", "gar?den\nwa-ter\ngarden\nwa-ter\n")
        self.prints("1 stand there again with other hyphens\n    line 3: garden, which is line 1: gar?den\n"
                    "1 stand there again with the same hyphens\n    line 4: wa-ter, which is line 2: wa-ter\n", "check-list", "d", NO, status=1)

    def test_three_lines_or_all(self):
        self.put("d", "of\nto\nin\nat\nwa-ter\n")
        title, lines = "4 are too short for the minima, and take no part\n", [f"    line {at}: {it}\n" for at, it in enumerate(("of", "to", "in", "at"), 1)]
        self.prints(title + "".join(lines[:3]), "check-list", "d", NO)
        self.prints(title + "".join(lines), "check-list", "d", NO, "--all")


class Carry(Case):
    def test_capitals_stay(self):
        self.put("d", "In-gelas\n")
        self.put("marked", "in-ge-las\n")
        self.prints("In-ge-las\n", "carry", "d", "marked", NO)

    def test_line_ends_stay(self):
        self.put("d", "of\r\ngard-en  the green one\r\nwa-ter\nbot-tle\r\n")
        self.put("marked", "gar*den\nbott*le\nwin*ter\n")
        self.prints("of\r\ngar-den  the green one\r\nwa-ter\nbott-le\r\nwin-ter\r\n", "carry", "d", "marked", NO)

    def test_a_word_that_is_there_more_often(self):
        self.put("d", "re-cord\nrec-ord\n")
        self.put("marked", "re-cord\n")
        said = self.prints("re-cord\nrec-ord\n", "carry", "d", "marked", NO)
        self.assertIn("carry: line 2: rec-ord is there more often than in the marked list, and stays as it is\n", said)

    def test_weights_stay(self):
        self.put("d", "3gar-den\nwa-ter\n2bot-tle\n")
        self.put("marked", "gard-en\n3wa-ter\n2bot-tle\n")
        self.prints("gard-en\n3wa-ter\n2bot-tle\n", "carry", "d", "marked", NO)

    def test_equal_words_in_their_order(self):
        self.put("d", "re-cord\nrec-ord\n")
        self.put("marked", "rec-ord\nre-cord\n")
        self.prints("rec-ord\nre-cord\n", "carry", "d", "marked", NO)

    def test_dont_care_positions(self):
        self.put("d", "gar-den\n")
        self.put("marked", "gar?den\n")
        self.prints("gar?den\n", "carry", "d", "marked", NO)

    def test_names(self):
        alone = [f"gard{it}n" for it in "abcdefghijklmnopqrstuv"]
        self.put("d", "".join(it + "\n" for it in alone))
        self.put("marked", "win-ter\nap-ple\n")
        said = self.prints("".join(it + "\n" for it in (*alone, "win-ter", "ap-ple")), "carry", "d", "marked", NO, "--names")
        self.assertEqual(said, f"carry: 0 changed\ncarry: 2 new: winter apple\ncarry: 22 not in the marked list: {' '.join(alone[:20])} and 2 more\n")


class Diff(Case):
    def test_patterns_with_a_hyphen(self):
        self.put("a", "8-7\n1ba\n")
        self.put("b", "8-5\n1ba\n")
        self.prints("- -7\n+ -5\ndigits: 3 in A, 3 in B; 0 in A alone, 0 in B alone, 1 with another value\n", "diff", "patterns", "a", "b", NO, status=1)

    def test_words(self):
        self.put("a", "gar-den\nre?cord\nap-ple\n")
        self.put("b", "gard-en\nre-cord\nwin-ter\n")
        self.prints("gar-den  gard-en\nre?cord  re-cord\n- ap-ple\n+ win-ter\n2 of 2 words differ\nhyphens: 1 in A alone, 2 in B alone\n"
                    "don't-care positions: 1 in A alone, 0 in B alone\nwords: 1 in A alone, 1 in B alone\n", "diff", "words", "a", "b", NO, status=1)
        self.put("b", "gar-den\nre?cord\nap-ple\nwin-ter\n")
        self.assertEqual(self.run_script("diff", "words", "a", "b", NO)[0], 1)
        self.assertEqual(self.run_script("diff", "words", "a", "a", NO)[0], 0)

    def test_lists(self):
        self.put("a", "gar.d*en\nwa-ter\n")
        self.put("b", "gar-d*en\nwa*ter\n")
        self.prints("gar.d*en  gar-d*en\nwa-ter  wa*ter\n2 of 2 words differ\nbreaks: 1 in A alone, 1 in B alone\n", "diff", "lists", "a", "b", NO, status=1)

    def test_patterns(self):
        self.put("a", "1ba\n2t\n")
        self.put("b", "3ba\n1\u00df\u00e4\n")
        self.prints("- 1ba\n+ 3ba\n- 2t\n+ 1\u00df\u00e4\ndigits: 2 in A, 2 in B; 1 in A alone, 1 in B alone, 1 with another value\n",
                    "diff", "patterns", "a", "b", NO, status=1)
        self.put("a", "1t\n")
        self.put("b", "1t\n2te\n")
        self.put("d", "wa-ter\nmat-ura\n")
        self.prints("+ 2te\ndigits: 1 in A, 2 in B; 0 in A alone, 1 in B alone, 0 with another value\nwa*ter  wa-ter\n1 of 2 words differ\n"
                    "breaks: 1 in A alone, 0 in B alone\n", "diff", "patterns", "a", "b", NO, "d", status=1)


class Pattmp(Case):
    def test_words_that_take_no_part(self):
        dic, pat, tra = (self.put(*it) for it in (("d", "of\nc-ity\n3gar-den x\nx.a\n\n1la-ter\nwa8t-er\n"), ("p", "1ga\n1t\n"), ("t", "")))
        self.put("par", "2 1\n")
        subprocess.run([PROGRAM, "generate", dic, pat, "o", tra, "par", "r", "--pattmp", "l"], cwd=self.folder, check=True, stdout=subprocess.DEVNULL)
        self.prints("of\nc-ity\n3gar-den\nxa\n1la*ter\nwa.8t-er\n", "pattmp", dic, "l", tra)
        self.prints("of\ncity\n3garden\nxa\n1la-ter\nwa-8ter\n", "pattmp", "--dictionary", dic, "l", tra)
        self.refuses("is not of", "pattmp", "l", dic, tra)
        self.refuses("it has more words", "pattmp", self.put("less", "of\ngar-den\n"), "l", tra)

    @unittest.skipUnless(shutil.which("patgen"), "patgen is not installed")
    def test_patgen_writes_the_same(self):
        letters = "".join(f" {chr(it)} \n" for it in range(97, 123))
        dic, tra, par = (self.put(*it) for it in (("d", "of\na-ga\nc-ity\n3gar-den\nx.a\n2la-ter\nt*o\nfoo8b-a\nwa-ter\n"), ("t", f" 2 3\n{letters}"), ("par", "1 1\n2 3 1 1 1\n")))
        subprocess.run(["patgen", dic, NO, "theirs", tra], cwd=self.folder, check=True, input=b"1 1\n2 3\n1 1 1\ny\n", stdout=subprocess.DEVNULL)
        subprocess.run([PROGRAM, "generate", dic, NO, "o", tra, par, "r", "--pattmp", "l"], cwd=self.folder, check=True, stdout=subprocess.DEVNULL)
        self.prints(self.read("pattmp.1").decode(), "pattmp", dic, "l", tra)

    def test_another_list(self):
        self.put("d", "gar-den\nwa-ter\n")
        self.refuses("l is not of d: line 2, wa-ter, is not next there", "pattmp", "d", self.put("l", "gar*den\nla*ter\n"), NO)
        self.refuses("l is not of d: line 2, wa-ter, is not next there", "pattmp", "d", self.put("l", "gar*den\n"), NO)
        self.refuses("l is not of d: it has more words", "pattmp", "d", self.put("l", "gar*den\nwa*ter\nla*ter\n"), NO)


class Suspects(Case):
    def test_the_surest_come_first(self):
        """The program makes no patterns here, so the counts can be made by hand. 1t bears on ba|tok, de|tul, ax|tul, ix|tan and ox|tum: it wins
        in the first two and is right, and is wrong in the others, where x2t wins. So go|tum has 3/1 x 3/4, and lu|das has 2/1 x 2/1."""
        self.put("d", "ba-tok\ngotum\nde-tul\nl-udas\naxtul\nso-ram\nixtan\nsorim\noxtum\nsorem\nmu-dol\n")
        self.put("p", "1t\n1d\nx2t\n")
        self.put("par", "2 1\n")
        self.prints("    1:0        1:0    line 4: l-u.das  +lu|das 1d\n    2:0        2:3    line 2: go.tum  +go|tum 1t\n"
                    "    0:0        0:0    line 6: so-ram  -so|ram o0r\n", "suspects", "d", "p", NO, "par", "2", "--draft", "draft")
        self.assertEqual(self.read("draft"), b"l-u-das  line 4: l-udas\ngo-tum  line 2: gotum\nsoram  line 6: so-ram\n")

    def test_words_are_left_out_with_their_weights(self):
        """1t has 3 + 1 + 1 in the words beside go|tum, and in those beside the others 1 + 1 - 1. It is chosen where that is the threshold."""
        self.put("d", "3ba-tok\n1de-tul\nfy-tan\ngotum\nhu-tel\nki-tos\n")
        missed = "".join(f"    0:0        0:0    line {at}: {it}  -{it.replace('-', '|')} {it[1]}0t\n"
                         for at, it in ((1, "ba-tok"), (3, "fy-tan"), (5, "hu-tel")))
        self.put("par", "1 1\n1 1 1 1 5\n")
        self.prints("    3:0        3:0    line 4: go.tum  +go|tum 1t\n" + missed, "suspects", "d", NO, NO, "par", "2", "--draft", "draft")
        self.assertEqual(self.read("draft"), b"1go-tum  line 4: gotum\n3batok  line 1: 3ba-tok\n1fytan  line 3: fy-tan\n1hutel  line 5: hu-tel\n")
        self.put("par", "1 1\n1 1 1 1 6\n")
        self.assertNotIn("gotum", self.run_script("suspects", "d", NO, NO, "par", "2")[1].replace(".", ""))


if __name__ == "__main__":
    unittest.main()
