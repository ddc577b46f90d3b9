"""Tests of the scripts: what they print of small files, and what they refuse.

What needs make, LuaTeX, Debian's patgen or the patterns of hyph-utf8 is left out where these are not installed.
"""

import glob
import hashlib
import json
import os
import shutil
import signal
import subprocess
import time
import unittest
import xml.etree.ElementTree

from case import EXAMPLES, HYPH_UTF8, NO, PROGRAM, TOOLS, Case


class Letters(Case):
    def test_a_draft_leaves_out_what_is_no_letter(self):
        self.put("d", "\ufeffca-fe\nbot=tle\nso\u00adfa\nTop’s\ne\u0302\n")
        said = self.prints(" 2 3\n a A\n b B\n c C\n e E\n f F\n l L\n o O\n p P\n s S\n t T\n \u0302\n", "letters", "d", "--draft", status=1)
        for line in ("U+FEFF ZERO WIDTH NO-BREAK SPACE is no letter, and is left out; first in line 1: <FEFF>ca-fe; a byte order mark: sed -i",
                     "U+003D EQUALS SIGN is no letter, and is left out; first in line 2: bot=tle; if it marks hyphens, write = into column 6",
                     "U+00AD SOFT HYPHEN is no letter, and is left out; first in line 3: so<00AD>fa; if it marks hyphens, put - in its place",
                     "U+2019 RIGHT SINGLE QUOTATION MARK is no letter, and is left out; first in line 4: Top’s; if it is a letter"):
            self.assertIn(line, said)

    def test_a_hyphen_that_is_a_letter(self):
        self.put("p", "8-7\n1b'a\n.a2c\n")
        said = self.prints(" 2 3.=*?\n '\n -\n a A\n b B\n c C\n", "letters", "p", "--draft")
        self.assertIn("p is taken for patterns", said)
        self.put("head", " 2 3.=*?\n")
        self.put("d", "a-b=ba\nca=ba\n")
        self.prints(" 2 3.=*?\n -\n a A\n b B\n c C\n", "letters", "d", "head", "--draft")

    def test_lists_are_no_patterns(self):
        for name in ("garden.dic", "tex/garten.dic", "esperanto/words.dic", "garden.list"):
            self.assertNotIn("patterns", self.run_script("letters", self.example(name))[2])
        self.put("weighted", "9gar-den\n5wa-ter\n{20}bot-tle\n")
        self.assertNotIn("patterns", self.run_script("letters", "weighted")[2])

    def test_a_tex_file_is_refused(self):
        self.put("hyph.tex", "% \\patterns below\n\\patterns{\n1ba 8-7\n}\n")
        for words in (["--draft"], []):
            self.refuses("hyph.tex is a TeX file, since it has \\patterns: untex hyph.tex takes its patterns out", "letters", "hyph.tex", *words)
        self.refuses("since it has \\input", "letters", self.put("nb.tex", "\\input hyph-no.tex\n"), "--draft")

    def test_dotless_and_dotted_i(self):
        """Turkish has the letters i İ and ı I. No draft can know that, and none says that it does."""
        self.put("d", "Iş-ık\ni-yi\nİz-mir\n")
        drafted = " 2 3\n i I\n k K\n m M\n r R\n y Y\n z Z\n İ\n ı\n ş Ş\n"
        said = self.prints(drafted, "letters", "d", "--draft", status=1)
        self.assertEqual(said, "letters: the draft has ` i I`, ` İ`, ` ı`: set these lines by hand; where i and İ are a pair, "
                         "and ı and I, as in Turkish, they are ` i İ` and ` ı I`\n")
        self.put("t", drafted.replace(" i I", " i İ").replace(" İ\n ı", " ı I"))
        self.assertEqual(self.prints(self.read("t").decode(), "letters", "d", "t", "--draft"), "")
        self.assertEqual(self.prints("", "letters", "d", "t"), "")
        self.put("t", drafted.replace(" i I", " i İ").replace(" İ\n ı", " ı"))
        self.assertIn("the draft has ` i İ I`, ` ı`", self.prints(self.read("t").decode().replace("i İ", "i İ I"), "letters", "d", "t", "--draft", status=1))
        self.put("d", "kız\nki-şi\n")
        self.prints(" 2 3\n i\n k\n z\n ı\n ş\n", "letters", "d", self.put("t", " 2 3\n i\n k\n z\n ı\n ş\n"), "--draft")

    def test_the_dot_that_small_letters_get(self):
        self.put("d", "İz-mir\n".lower() + "ė\n")
        said = self.prints(" 2 3\n e E\n i I\n m M\n r R\n z Z\n ̇\n", "letters", "d", "--draft", status=1)
        self.assertIn("letters: U+0069 LATIN SMALL LETTER I and U+0307 COMBINING DOT ABOVE is no letter, and is left out; first in line 1: i̇z-mir; "
                      "some programs make it of İ in small letters: write i in its place\n", said)
        self.put("t", " 2 3\n e E\n i I\n m M\n r R\n z Z\n ̇\n")
        said = self.prints("       1 i̇  first in line 1: i̇z-mir  (U+0069 LATIN SMALL LETTER I and U+0307 COMBINING DOT ABOVE)\n", "letters", "d", "t", status=1)
        self.assertNotIn("i̇ is 2 code points", said)
        self.put("p", "1i̇z\n1m\n")
        self.prints(" 2 3\n i I\n m M\n z Z\n", "letters", "p", "--draft", status=1)

    def test_what_is_taken_for_patterns(self):
        """Nine of ten lines with a digit, and less than one of ten with a hyphen."""
        for digits, hyphens, are_patterns in ((9, 0, True), (8, 0, False), (9, 1, False)):
            self.put("f", "".join(f"{'3' * (at < digits)}ab{'-' * (at < hyphens)}c\n" for at in range(10)))
            self.assertEqual("f is taken for patterns" in self.run_script("letters", "f", "--draft")[2], are_patterns)

    def test_counts_and_forms(self):
        self.put("d", "a-ba\nab\n")
        self.prints("       3 a  first in line 1: a-ba  (U+0061 LATIN SMALL LETTER A)\n       2 b  first in line 1: a-ba  (U+0062 LATIN SMALL LETTER B)\n",
                    "letters", "d", status=1)
        self.prints("       2 b  first in line 1: a-ba  (U+0062 LATIN SMALL LETTER B)\n", "letters", "d", self.put("t", " 1 1\n a\n"), status=1)
        self.put("d", "Stra-\u00dfe\n \u0138a\nna more\na\u0308\n")
        said = self.prints(" 1 2\n a A\n e E\n n N\n r R\n s S\n t T\n \u00df \u1e9e\n \u0308\n", "letters", "d", "--draft", "--minima", "1", "2")
        self.assertEqual(said, "letters: a\u0308 is 2 code points, 1 times, first in line 4: U+0061 LATIN SMALL LETTER A and U+0308 COMBINING DIAERESIS; "
                         "one code point where the list is put into NFC, U+00E4 LATIN SMALL LETTER A WITH DIAERESIS\n"
                         "letters: 1 lines begin with a blank, so they are no words; the first is line 2\n"
                         "letters: 1 lines have more behind a blank, which is not read; the first is line 3\n")
        self.put("t", " 2 3\n" + "".join(f" {it}\n" for it in "aenrstS\u00df\u0308"))
        self.assertNotIn("blank", self.prints("", "letters", "d", "t"))

    def test_files_that_are_no_utf_8(self):
        self.refuses("d line 2 column 1 is not UTF-8. Another encoding is turned into it by iconv -f latin1 -t utf-8, or whichever it is; "
                     "if other lines are UTF-8 already, convert this line alone\n", "letters", self.put("d", b"b\xc3\xa4r\n\xe4rz-te\n"))
        self.put("d", "ab-ba\n")
        self.refuses("t is not UTF-8", "letters", "d", self.put("t", b" 2 3\n \xe4\n"))


class Orders(Case):
    def test_patterns_and_translate_exchanged(self):
        pat, tra, dic, par = (self.example(f"tex/garten.{it}") for it in ("pat", "tra", "dic", "par"))
        for words in (["language", tra, pat], ["language", dic, tra], ["language", pat, par], ["why", tra, pat, "garten"], ["why", tra, NO, "gar"],
                      ["diff", "patterns", tra, pat, pat], ["diff", "patterns", pat, tra, NO], ["check-list", tra, dic], ["letters", tra, dic],
                      ["carry", dic, tra, dic], ["verify", pat, dic, tra, NO, par], ["hyphenate-text", tra, pat], ["hyphenate-text", tra, NO],
                      ["suspects", dic, tra, NO, par, "4"], ["pattmp", tra, dic, dic]):
            with self.subTest(words):
                status, printed, said = self.run_script(*words)
                self.assertEqual((status, printed), (2, ""), said)
                self.assertNotIn("Traceback", said)
        self.refuses("garten.pat stands where TRANSLATE is due", "language", tra, pat)
        self.refuses("garten.tra stands where PATTERNS is due", "language", tra, NO)
        tex = self.put("hyph.tex", self.run_script("language", pat, tra)[1])
        for words in (["language", tex, tra], ["why", tex, tra, "garten"], ["diff", "patterns", pat, tex, tra], ["hyphenate-text", tex, tra], ["libhyphen", tex, tra]):
            self.refuses("hyph.tex is a TeX file, since it has \\patterns: untex hyph.tex takes its patterns out", *words)

    @unittest.skipUnless(shutil.which("luatex"), "LuaTeX is not installed")
    def test_hyphenate(self):
        pat, tra, dic = (self.example(f"tex/garten.{it}") for it in ("pat", "tra", "dic"))
        self.refuses("garten.tra stands where PATTERNS is due", "hyphenate", dic, tra, NO)
        self.refuses("garten.pat stands where TRANSLATE is due", "hyphenate", dic, NO, pat)
        status, printed, said = self.run_script("hyphenate", "--differ", dic, pat, tra)
        self.assertEqual((status, printed.splitlines()[-1]), (0, "54 words, 0 broken in another way than the hyphenated list says"), said)

    def test_language(self):
        self.put("p", "1ba  more\r\n")
        self.put("t", "1 2\n a A\n b\n")
        self.prints("\\lefthyphenmin=1 \\righthyphenmin=2\n\\ifnum0\\ifx\\directlua\\undefined\\else1\\fi\\ifx\\XeTeXversion\\undefined\\else1\\fi>0\n"
                    "\\lccode`\\a=`\\a\n\\lccode`\\A=`\\a\n\\lccode`\\b=`\\b\n\\fi\n\\patterns{\n1ba\n}\n", "language", "p", "t")
        self.put("t", "1 2\n a A\n b\n ch CH\n")
        status, printed, said = self.run_script("language", "p", "t")
        self.assertEqual((status, said), (1, "language: TeX has no letter of several characters: ch\nlanguage: TeX has no letter of several characters: CH\n"))
        self.assertNotIn("ch", printed)
        self.put("t", "")
        printed = self.run_script("language", self.put("p", "1te\n"), "t")[1]
        self.assertTrue(printed.startswith("\\lefthyphenmin=2 \\righthyphenmin=3\n"))
        self.assertTrue(printed.endswith("\\lccode`\\z=`\\z\n\\lccode`\\Z=`\\z\n\\fi\n\\patterns{\n1te\n}\n"))


class Why(Case):
    def test_a_word_that_is_no_utf_8(self):
        self.refuses("begins with no letter of the table", "why", self.example("garden.pat"), NO, os.fsdecode(b"g\xe4rten"))
        self.put("p", b"1t\xe4\n")
        self.put("t", b" 1 1\n \xe4\n t\n")
        self.prints("\udce4.t\udce4\n  \udce4|t\udce4  1  error         1t\udce4\n", "why", "p", "t", os.fsdecode(b"\xe4t\xe4"))


    def test_what_each_position_comes_to(self):
        self.put("p", "1t\nx2t\n")
        self.prints("wa*ter\n  wa|ter  1  found         1t\nax-tel\n  ax|tel  2  missed        x2t 1t\nsoram\nma.ture\n  ma|ture  1  error         1t\n"
                    "soret\n  sore|t  1  out of reach  1t\n", "why", "p", NO, "wa-ter", "ax-tel", "soram", "mature", "soret")

    def test_words_of_a_list(self):
        self.put("p", "1t\n")
        self.put("l", "wa*ter\nma.tura\nso-ram\nl-udas\n")
        self.prints("ma.tura\n  ma|tura  1  error         1t\n", "why", "p", NO, "--wrong", "l")
        self.prints("so-ram\n  so|ram  0  missed        no pattern\n", "why", "p", NO, "--missed", "l")
        self.prints("l-udas\n  l|udas  0  out of reach  no pattern\n", "why", "p", NO, "l-udas")
        self.put("l", "l-udas\n")
        for option, what in (("--wrong", "an error"), ("--missed", "a missed hyphen")):
            self.assertEqual(self.prints("", "why", "p", NO, option, "l"), f"why: no word of l has {what}\n")
        for words in ([], ["wa-ter", "--wrong", "l"], ["--wrong", "l", "--missed", "l"]):
            self.refuses("words, --wrong LIST or --missed LIST: one of them", "why", "p", NO, *words)

    def test_a_program_that_finds_other_breaks(self):
        self.environment["PATGEN"] = self.imitate("other", f'"{PROGRAM}" "$@" || exit', "for list; do :; done", "sed -i 's/wa[*]ter/wat*er/' \"$list\"")
        self.refuses("the program has wat*er for wa*ter", "why", self.put("p", "1t\n"), NO, "wa-ter")


class Untex(Case):
    def test_encodings(self):
        """Of the T1 encoding of fonts ff is sz, e4 an a with dots, and 80 an A with a breve; of Latin-1 e4 is that a."""
        self.put("hyph.tex", b"\\patterns{.a1\xff ^^e42b \x801a}")
        self.prints(".a1\u00df\n\u00e42b\n\u01021a\n", "untex", "hyph.tex", "--t1")
        self.put("hyph.tex", b"\\message{100\\% of all}\\patterns{\xe41b} % \\patterns{1c}")
        self.prints("\u00e41b\n", "untex", "hyph.tex", "--encoding", "latin1")
        self.refuses("--encoding or --t1 names another encoding", "untex", "hyph.tex")

    def test_commands_and_inputs(self):
        self.put("hyph.tex", "\\def\\one{1x}\\def\\adj#1{#1a. #1e.}\n\\edef\\nom#1{\\adj{#1} #1o.}\n\\input other\n\\patterns{\\nom{1b}\n \\one a % c\n}")
        self.put("other.tex", "\\patterns{.a1b}\\hyphenation{ta-ble}")
        self.prints(".a1b\n1ba.\n1be.\n1bo.\n1xa\n", "untex", "hyph.tex")
        self.prints("ta-ble\n", "untex", "hyph.tex", "--exceptions")
        for loop in ("\\def\\loop{\\loop}\\patterns{\\loop}", "\\def\\loop#1{\\loop{#1}}\\patterns{\\loop{a}}"):
            self.put("hyph.tex", loop)
            self.refuses("is no word of plain characters", "untex", "hyph.tex")
        self.refuses("there is no", "untex", self.put("hyph.tex", "\\input hyph\n\\input conv\n"))

    @unittest.skipUnless(os.path.isdir(HYPH_UTF8), "hyph-utf8 is not installed")
    def test_the_files_of_hyph_utf8(self):
        for path in sorted(glob.glob(f"{HYPH_UTF8}/tex/hyph-*.tex")):
            status, printed, said = self.run_script("untex", path)
            self.assertEqual((status, said), (0, ""), path)
            plain = f"{HYPH_UTF8}/txt/{os.path.basename(path)[:-4]}.pat.txt"
            if os.path.exists(plain):
                with open(plain, encoding="utf-8") as file:
                    # The TeX files have the other apostrophe in a file of its own.
                    self.assertEqual({it for it in printed.split() if "’" not in it}, {it for it in file.read().split() if "’" not in it}, path)


class Sweeps(Case):
    def test_what_a_file_of_numbers_comes_to(self):
        """The numbers are given here, so the rates and the bars can be made by hand."""
        rows = [dict(zip(("set", "cost", "good", "bad", "missed"), it)) for it in ((1, 30, 6, 1, 2), (2, 20, 4, 8, 4), (3, 20, 0, 0, 0))]
        self.put("s", json.dumps({"rows": rows, "winner": 2}))
        names = [self.put(it, it) for it in ("a&b.par", "two.par", "none.par")]
        self.put("s.sums", "".join(f"{hashlib.sha256(self.read(it)).hexdigest()}  {it}\n" for it in ("s", *names)))
        self.prints("file      cost  good  bad  missed  good %   bad %\n"
                    "two.par     20     4    8       4   50.00  100.00  winner\n"
                    "none.par    20     0    0       0\n"
                    "a&b.par     30     6    1       2   75.00   12.50\n", "sweep-table", "s", "--svg", "svg")
        drawn = xml.etree.ElementTree.fromstring(self.read("svg"))
        boxes = [(it.get("width"), it.get("height"), it.get("fill")) for it in drawn if it.tag.endswith("rect")][3:]
        red, grey = "#c0392b", "#8a8a8a"
        self.assertEqual(boxes, [(width, "14.0", colour) for width, colour in
                                 (("480.0", red), ("240.0", grey), ("0.0", red), ("0.0", grey), ("60.0", red), ("120.0", grey))])
        self.assertIn("a&b.par: cost 30, 6 good", [it.text for it in drawn])

    def test_the_table_knows_which_file_is_which(self):
        names = [self.example(it) for it in ("garden.par", "sweep/greedy.par", "sweep/three.par")]
        wanted = ("file        cost  good  bad  missed  good %  bad %\n"
                  "three.par     12    29    1       9   76.32   2.63  winner\n"
                  "garden.par    16    25    1      13   65.79   2.63\n"
                  "greedy.par    43    34   13       4   89.47  34.21\n")
        self.prints(wanted, "sweep", self.example("garden.dic"), NO, "s", NO, "4", "3", "1", *names)
        subprocess.run(["sha256sum", "--quiet", "-c", "s.sums"], cwd=self.folder, check=True)
        self.prints(wanted, "sweep-table", "s")
        self.prints(wanted, "sweep-table", "s", *reversed(names), "--svg", "svg")
        self.assertIn(b"three.par: cost 12", self.read("svg"))
        self.refuses("the sweep was of a file garden.par that is not among these", "sweep-table", "s", *names[1:])
        self.refuses("all.par was no file of the sweep", "sweep-table", "s", *names, self.example("esperanto/all.par"))
        self.put("greedy.par", "1 1\n2 3 1 1 1\n")
        self.refuses("greedy.par that is not among these, or has changed since then", "sweep-table", "s")
        self.refuses("was of a file greedy.par", "sweep-table", "s", *names)
        self.put("s", self.read("s").replace(b"12", b"13"))
        self.refuses("s is another one than that of s.sums", "sweep-table", "s")
        os.remove(self.path("s.sums"))
        self.refuses("s.sums is missing", "sweep-table", "s")

    def test_a_sweep_that_fails(self):
        self.put("s.sums", "old\n")
        self.assertEqual(self.run_script("sweep", self.example("garden.dic"), NO, "s", NO, "4", "3", "1", "missing.par")[:2], (2, ""))
        self.assertEqual(self.run_script("sweep", "garden.dic")[:2], (2, ""))
        self.assertFalse(os.path.exists(self.path("s.sums")))
        self.refuses("usage: sweep DICT PATTERNS OUT", "sweep", "garden.dic", NO, "s", NO, "4", "3", "1")


class Verify(Case):
    def test_another_order(self):
        self.put("p", b"\n".join(sorted(self.read(self.example("garden.pat")).split(), reverse=True)) + b"\n")
        words = [self.example("garden.dic"), NO, NO, self.example("garden.par")]
        self.prints("no: line 1 is t1t and has to be ar1\nThe digits are the same.\n", "verify", "p", *words, status=1)
        self.prints("yes: the same digits in another order\n", "verify", "--any-order", "p", *words)
        self.prints("yes: 14 patterns\n", "verify", "--any-order", "garden.pat", *words)
        self.put("p", self.read("p").replace(b"1ke", b"3ke"))
        self.prints("no: line 1 is t1t and has to be ar1\n1 of 14 digits are not the same.\n", "verify", "--any-order", "p", *words, status=1)


    def test_lines_that_differ(self):
        words = [self.example("garden.dic"), NO, NO, self.example("garden.par")]
        lines = self.read(self.example("garden.pat")).decode().splitlines(keepends=True)
        self.prints("no: line 14 is missing, and has to be t1t\n1 of 14 digits are not the same.\n", "verify", self.put("p", "".join(lines[:-1])), *words, status=1)
        self.prints("no: line 15 is z1z, and no line has to be there\n1 of 14 digits are not the same.\n", "verify", self.put("p", "".join(lines) + "z1z\n"), *words, status=1)
        self.prints("no: line 1 is 1\u00e4 and has to be ar1\nIts digits are not compared: the published file line 1 column 2: '\u00e4' begins with no letter "
                    "of the table.\n", "verify", self.put("p", "1\u00e4\n"), *words, status=1)
        self.prints("yes: 14 patterns\n", "verify", self.put("p", "\\patterns{ % a TeX file\n" + "".join(lines) + "}\n"), *words)
        self.refuses("p could not be read as a TeX file", "verify", self.put("p", "\\patterns{\\x}\n"), *words)

    def test_pruned_patterns(self):
        words = [self.example("garden.dic"), NO, NO, self.example("garden.par")]
        subprocess.run([PROGRAM, "prune", words[0], self.example("garden.pat"), "pruned", NO, "r"], cwd=self.folder, check=True, stdout=subprocess.DEVNULL)
        self.prints("yes: 9 patterns\n", "verify", "--pruned", "pruned", *words)
        self.assertEqual(self.run_script("verify", "pruned", *words)[0], 1)
        self.assertEqual(self.run_script("verify", "--pruned", "garden.pat", *words)[0], 1)


class HyphenateText(Case):
    def test_which_words_stay(self):
        pat = self.put("p", "1t\n")
        self.prints("wa-ter atex\n", "hyphenate-text", pat, NO, "--sign", "-", given=b"water atex\n")
        self.assertEqual(self.prints("a" * 100 + "\n", "hyphenate-text", pat, NO, given=b"a" * 100 + b"\n"), "")
        self.assertIn("1 words", self.prints("a" * 101 + "\n", "hyphenate-text", pat, NO, given=b"a" * 101 + b"\n"))
        self.assertIn("the first is water\u0301\n", self.prints("water\u0301 wa\u00adter1\n", "hyphenate-text", pat, NO, given="water\u0301 water1\n".encode()))
        self.assertIn("12 words stay as they are for a letter that TRANSLATE lacks, or for their length; the first is b\u00e9\n",
                      self.run_script("hyphenate-text", pat, NO, given=("b\u00e9 " + "a\u00e9 " * 11).encode())[2])
        self.put("e", "wate-r\nwater-s\nwat-er-y\n")
        self.prints("water waters wat-ery\n", "hyphenate-text", pat, NO, "--exceptions", "e", "--sign", "-", given=b"water waters watery\n")

    def test_a_text(self):
        pat = self.example("garden.pat")
        text = "Harvesters: HARVESTER, harvester (caf\u00e9harvester) forest\u00adry!\nof harvest-harvest\r\n"
        said = self.prints("Har-vesters: HAR-VESTER, har-vester (caf\u00e9harvester) forest\u00adry!\nof harvest-harvest\r\n",
                           "hyphenate-text", pat, NO, "--sign", "-", given=text.encode())
        self.assertEqual(said, "hyphenate-text: 1 words stay as they are for a letter that TRANSLATE lacks, or for their length; the first is caf\u00e9harvester\n"
                         "hyphenate-text: 1 words have the sign already, and stay as they are; the first is harvest-harvest\n")
        self.put("exceptions", "har-vest-ers\nh-arvest\n")
        text = "Harvesters, harvester, \xe4 harvest " + "a" * 101 + "\n"
        self.prints("Har\u00advest\u00aders, har\u00advester, \xe4 harvest " + "a" * 101 + "\n",
                    "hyphenate-text", pat, NO, "--exceptions", "exceptions", given=text.encode())
        self.prints("", "hyphenate-text", pat, NO)
        self.refuses("the sign may be no letter", "hyphenate-text", pat, NO, "--sign", "a")
        self.assertEqual(self.prints("har\u00advest for\u00adestry\n", "hyphenate-text", pat, NO, given="harvest for\u00adestry\n".encode()), "")
        self.assertEqual(self.prints("a - har\\-vest -- har\\-ves\\-ter\n", "hyphenate-text", pat, NO, "--sign", "\\-", given=b"a - harvest -- har\\-ves\\-ter\n"),
                         "hyphenate-text: 1 words have the sign already, and stay as they are; the first is har\\-ves\\-ter\n")
        self.assertEqual(self.prints("a - b -- c\n", "hyphenate-text", pat, NO, "--sign", "-", given=b"a - b -- c\n"), "")
        self.prints("\udce4 har-vest\udcff\n", "hyphenate-text", pat, NO, "--sign", "-", given=b"\xe4 harvest\xff\n")


class Signals(Case):
    """A script that a signal stops ends by it, says nothing of Python, and leaves no folder."""

    def stopped(self, number, *words):
        """Stops a script while its program waits. The signal goes to all of its processes, as on a terminal."""
        self.put("waits", f"#!/bin/sh\n: >{self.path('began')}\nexec sleep 60\n")
        os.chmod(self.path("waits"), 0o755)
        # In the background of a shell some signals are ignored, also by what is started there.
        heed = lambda: [signal.signal(it, signal.SIG_DFL) for it in (signal.SIGHUP, signal.SIGINT, signal.SIGTERM)]
        started = subprocess.Popen(words, cwd=self.folder, env=dict(self.environment, PATGEN=self.path("waits")), start_new_session=True,
                                   stdin=subprocess.DEVNULL, stdout=subprocess.PIPE, stderr=subprocess.PIPE, preexec_fn=heed)
        until = time.monotonic() + 60
        while not os.path.exists(self.path("began")) and time.monotonic() < until:
            time.sleep(0.02)
        os.killpg(started.pid, number)
        said = started.communicate(timeout=60)[1].decode()
        self.assertIn(started.returncode, (-number, 128 + number))
        self.assertNotIn("Traceback", said)
        self.assertEqual(os.listdir(self.path("tmp")), [])
        os.remove(self.path("began"))

    def test_python_scripts(self):
        dic, par, pat = (self.example(it) for it in ("garden.dic", "garden.par", "garden.pat"))
        for number in (signal.SIGINT, signal.SIGTERM, signal.SIGHUP):
            self.stopped(number, f"{TOOLS}/suspects", dic, NO, NO, par, "4")
            self.stopped(number, f"{TOOLS}/why", pat, NO, "harvest")

    def test_examples(self):
        for number in (signal.SIGINT, signal.SIGTERM):
            self.stopped(number, f"{EXAMPLES}/check")

    @unittest.skipUnless(shutil.which("luatex"), "LuaTeX is not installed")
    def test_hyphenate(self):
        for number in (signal.SIGINT, signal.SIGTERM):
            self.stopped(number, f"{TOOLS}/hyphenate", os.path.join(EXAMPLES, "garden.dic"), NO, NO, os.path.join(EXAMPLES, "garden.par"))


class Audits(Case):
    @unittest.skipUnless(shutil.which("make"), "make is not installed")
    def test_it_judges_what_is_there(self):
        shutil.copytree(os.path.join(EXAMPLES, "esperanto"), self.path("e"))
        self.put("e/esperanto.tra", self.run_script("letters", "e/words.dic", "--draft", "--minima", "2", "2")[1])
        make = lambda *words: subprocess.run(["make", "-s", "-C", self.path("e"), *words], env=self.environment, stdout=subprocess.PIPE,
                                             stderr=subprocess.PIPE, check=False)
        self.assertNotEqual(make("audit").returncode, 0)
        self.assertEqual(make().returncode, 0)
        state = lambda: {name: (os.stat(self.path(f"e/{name}")).st_mtime_ns, self.read(f"e/{name}")) for name in os.listdir(self.path("e"))}
        for name, is_right in ((None, True), ("level2.list", False), ("words.dic", False), ("hyph-esperanto.tex", False)):
            kept = self.read(f"e/{name}") if name else b""
            if name:
                self.put(f"e/{name}", kept + b"ba-na-no\n")
            os.utime(self.path("e/words.dic"))
            before, done = state(), make("audit")
            self.assertEqual((done.returncode == 0, state()), (is_right, before), done.stderr)
            if name:
                self.put(f"e/{name}", kept)


    @unittest.skipUnless("4.3" in subprocess.getoutput("make --version"), "GNU make 4.3 is not installed")
    def test_what_make_deletes(self):
        """As FROM-PATGEN says of .DELETE_ON_ERROR: where a file is refused, the old list and report go, and the old patterns stay."""
        words = "my.dic /dev/null my.pat /dev/null my.par my.report --pattmp my.list"
        self.put("makefile", f".DELETE_ON_ERROR:\nmy.pat my.report my.list &: my.dic\n\t{PROGRAM} generate {words}\n")
        self.put("my.dic", self.read(self.example("garden.dic")))
        self.put("my.par", self.read(self.example("garden.par")))
        make = lambda: subprocess.run(["make"], cwd=self.folder, env=self.environment, stdout=subprocess.DEVNULL, stderr=subprocess.DEVNULL, check=False)
        self.assertEqual(make().returncode, 0)
        old = self.read("my.pat")
        self.put("my.dic", "gar+den\n")
        os.utime(self.path("my.dic"), (time.time() + 60,) * 2)
        self.assertEqual(make().returncode, 2)
        self.assertEqual((os.path.exists(self.path("my.list")), os.path.exists(self.path("my.report")), self.read("my.pat")), (False, False, old))


class Tools(Case):
    def test_every_script_has_help_and_is_listed(self):
        status, printed, _ = self.run_script("tools", "--help")
        listed = [line.split()[0] for line in printed.splitlines()[1:]]
        self.assertEqual((status, listed), (0, sorted(it for it in os.listdir(TOOLS) if "." not in it and it not in ("tests", "tools"))))
        for name in listed:
            self.assertEqual(self.run_script("tools", name, "--help")[0], 0, name)
        self.assertEqual(self.run_script("tools", "letters", "missing")[0], 2)
        self.assertIn("    verify          Says whether a published pattern file is what a list, a table and parameters give.\n", printed)
        self.assertIn("    untex           Takes patterns out of a TeX file, as a pattern file, or exceptions, as a word list.\n", printed)
        self.prints("2 words, and none of them has a hyphen\n    line 1: garden, where a hyphen is written -\n", "tools", "check-list",
                    self.put("d", "garden\nbottle\n"), NO, status=1)
        for words in ([], ["tools"], ["tests"], ["hyphenation.py"], ["../patgen"]):
            self.refuses("lists the scripts", "tools", *words)


if __name__ == "__main__":
    unittest.main()
