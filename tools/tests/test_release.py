"""Tests of `release`, `check-release` and `changed`: what is written, and what is refused, with its place."""

import json
import os
import re
import subprocess
import sys
import tempfile
import unittest
import unittest.mock

from case import PROGRAM, TOOLS

FACTS = "name: Trial\ntag: xx\nlicence: yes: \"free\"\n  for all\nauthor: A. Person <a@b.c>\n"
TABLE = " 1 1.~*?\n a A\n b B\n '\n -\n"
PATTERNS = "a1b\n2'a\n1-b\n"


class Folder(unittest.TestCase):
    """A folder with the files of a small language."""

    def setUp(self):
        made = tempfile.TemporaryDirectory()
        self.addCleanup(made.cleanup)
        self.folder = made.name
        self.write("facts", FACTS)
        self.write("tra", TABLE)
        self.write("pat", PATTERNS)

    def place(self, name):
        return os.path.join(self.folder, name)

    def write(self, name, text):
        with open(self.place(name), "w", encoding="utf-8", newline="") as file:
            file.write(text)

    def read(self, name):
        with open(self.place(name), encoding="utf-8") as file:
            return file.read()

    def call(self, script, *words):
        done = subprocess.run([sys.executable, "-B", os.path.join(TOOLS, script), *words], cwd=self.folder, stdin=subprocess.DEVNULL,
                              stdout=subprocess.PIPE, stderr=subprocess.PIPE, universal_newlines=True, check=False)
        return done.returncode, done.stdout, done.stderr

    def release(self, *words):
        return self.call("release", "facts", "pat", "tra", *words, "--out", "out")


class Release(Folder):
    def test_files(self):
        self.assertEqual(self.release()[0], 0)
        self.assertEqual(self.read("out/hyph-xx.pat.txt"), "a1b\n2'a\n2’a\n1-b\n")
        self.assertIn("2’a", self.read("out/hyph-quote-xx.tex"))
        self.assertEqual(self.read("out/hyph-xx.chr.txt"), "aA\nbB\n'\n-\n")
        self.assertIn("\\patterns{\na1b\n2'a\n1-b\n}\n", self.read("out/hyph-xx.tex"))
        loader = self.read("out/loadhyph-xx.tex")
        self.assertIn('\\lccode"0027="0027\n\\lccode"002D="002D\n', loader)
        self.assertIn("\\input hyph-quote-xx.tex", loader)
        self.assertEqual(self.read("out/lines.def"), "\\addlanguage{trial}{loadhyph-xx.tex}{}{1}{1}\n")
        self.assertIn("lefthyphenmin = 1,", self.read("out/lines.dat.lua"))

    def test_head_is_quoted(self):
        self.release()
        head = self.read("out/hyph-xx.tex")
        self.assertIn('%     tag: "xx"\n', head)
        self.assertIn('%     text: |-\n%         yes: "free"\n%         for all\n', head)
        self.assertIn('%     name: "A. Person"\n%     contact: "a@b.c"\n', head)

    def test_exceptions(self):
        self.write("hyp", "ab-ba\n")
        self.write("tra", " 1 1\n a A\n b B\n '\n")
        self.write("pat", "a1b\n")
        self.assertEqual(self.release("hyp")[0], 0)
        self.assertEqual(self.read("out/hyph-xx.hyp.txt"), "ab-ba\n")
        self.assertIn("\\hyphenation{\nab-ba\n}\n", self.read("out/hyph-xx.tex"))
        self.write("tra", " 2 1\n a A\n \u00e4\n b B\n")
        self.write("facts", FACTS + "minima: 2 3\n")
        self.write("hyp", "\u00e4-b-b-a-b-a  a note\n\nab-abba\na-ba\n")
        self.assertEqual(self.release("hyp")[2], "release: 2 exceptions have a hyphen out of reach of the minima 2 and 3, which is left out; "
                         "the first is \u00e4-b-b-a-b-a\n")
        self.assertIn("\\hyphenation{\n\u00e4b-b-aba\nab-abba\naba\n}\n", self.read("out/hyph-xx.tex"))
        self.assertEqual(self.read("out/hyph-xx.hyp.txt"), "\u00e4b-b-aba\nab-abba\naba\n")

    def test_manifest_names_all(self):
        self.release()
        manifest = json.loads(self.read("out/manifest.json"))
        self.assertEqual([it["role"] for it in manifest["inputs"]], ["facts", "patterns", "translate"])
        program = self.place("program")
        self.write("program", "#!/bin/sh\n[ \"$*\" = --version ] && echo one && echo two\n")
        os.chmod(program, 0o755)
        with unittest.mock.patch.dict(os.environ, PATGEN=program):
            self.release()
        self.assertEqual(json.loads(self.read("out/manifest.json"))["program"], ["one", "two"])
        self.assertEqual({it["name"] for it in manifest["outputs"]}, set(os.listdir(self.place("out"))) - {"manifest.json"})

    def test_refused(self):
        for name, text, said in (("facts", FACTS + "colour: red\n", "facts line 6"), ("facts", FACTS.replace("tag: xx", "tag: X X"), "facts line 2"),
                                 ("facts", FACTS.replace("name: Trial\n", ""), "no line `name"), ("facts", FACTS + "minima: 0 1\n", "minima below"),
                                 ("facts", FACTS + "encoding: t9\n", "facts line 6"),
                                 ("facts", FACTS + "level: a b\n", "is not `level: PARAMS START PATTERNS [REPORT [LIST]]`"),
                                 ("facts", FACTS + "level: a b c d e f\n", "is not `level: PARAMS START PATTERNS [REPORT [LIST]]`"), ("pat", "a1c\n", "pat line 1 column 3"), ("pat", "", "no pattern"),
                                 ("tra", TABLE + " ss\n", "several characters")):
            with self.subTest(said):
                before = self.read(name)
                self.write(name, text)
                status, _, error = self.release()
                self.assertEqual((status, said in error), (2, True), error)
                self.write(name, before)

    def test_no_file_for_libhyphen(self):
        self.write("tra", " 1 1\n a A\n b B\n \ufb03\n")
        self.write("pat", "a1b\n")
        os.mkdir(self.place("out"))
        self.write("out/old", "")
        status, said, error = self.release()
        self.assertEqual((status, said), (0, "1 patterns, 0 exceptions, 10 files in out\n"), error)
        self.assertEqual(error, "release: no file for libhyphen: the letter \ufb03 is refused: libhyphen counts it as two for the left minimum\n"
                         "release: out/old is not made by this release\n")
        self.assertEqual(self.release()[0], 0)

    def test_other_minima_and_names(self):
        self.write("facts", FACTS + "minima: 1 3\nsynonym: trialish\nsynonym: essay\n")
        self.assertEqual(self.release()[0], 0)
        self.assertEqual(self.read("out/lines.def"), "".join(f"\\addlanguage{{{it}}}{{loadhyph-xx.tex}}{{}}{{1}}{{3}}\n" for it in ("trial", "trialish", "essay")))
        self.assertEqual(self.read("out/lines.dat"), "trial loadhyph-xx.tex\n=trialish\n=essay\n")
        self.assertIn("%     generation:\n%         left: 1\n%         right: 1\n%     typesetting:\n%         left: 1\n%         right: 3\n", self.read("out/hyph-xx.tex"))
        self.write("tra", TABLE.replace(" 1 1", " 1 2"))
        for minima in ("1 1", "0 2"):
            self.write("facts", FACTS + f"minima: {minima}\n")
            self.assertIn("minima below the translate file's 1 and 2", self.release()[2])

    def test_lower_cases(self):
        """TeX needs those of letters that Unicode has none for, and of spellings that are no capital; A it knows."""
        self.write("tra", " 1 1\n a A \u00e0\n b B x\n \u02bc\n")
        self.write("pat", "a1b\n")
        self.release()
        found = [it.strip() for it in self.read("out/loadhyph-xx.tex").split("\n") if "\\lccode" in it]
        self.assertEqual(found, ['\\lccode"0078="0062', '\\lccode"00E0="0061'])


class Checked(Folder):
    """A release that is looked at. These tests need the program."""

    def setUp(self):
        super().setUp()
        self.write("facts", FACTS + "list: dic\n")
        self.write("tra", " 1 1\n a A\n b B\n")
        self.write("pat", "a1b\n")
        self.write("dic", "a-ba-b\nba-ba\n")
        self.release()
        os.rename(self.place("out"), self.place("release"))

    def judged(self, *words):
        status, said, error = self.call("check-release", ".", "--json", *words)
        self.assertIn(status, (0, 1), error)
        return [(it["check"], it["file"], it["line"]) for it in json.loads(said)["findings"]]

    def level(self, *words):
        """Runs a level of the list, and tells of it in the facts."""
        self.write("par", "1 1\n1 1 1 1 1\n")
        done = subprocess.run([PROGRAM, "generate", "dic", "/dev/null", "one", "tra", "par", "report", "--pattmp", "marked"], cwd=self.folder,
                              stdout=subprocess.DEVNULL, check=True)
        self.assertEqual(done.returncode, 0)
        self.write("facts", FACTS + f"list: dic\nlevel: par /dev/null one {' '.join(words)}\n")
        self.write("pat", self.read("one"))
        self.call("release", "facts", "pat", "tra", "--out", "release")

    def test_levels(self):
        for words in ((), ("report",), ("report", "marked")):
            self.level(*words)
            self.assertEqual(self.judged(), [], words)
        for name, text, found in (("report", "", ("levels", "report", 1)), ("marked", "a*ba*b\n", ("levels", "marked", 2)),
                                  ("one", "b1a\n", ("levels", "one", 1)), ("pat", "b1a\n", ("levels", "pat", 1))):
            before = self.read(name)
            self.write(name, text)
            self.assertIn(found, self.judged())
            self.write(name, before)
        self.write("dic", "a-ba-b\nba-ba\nbb-ab\n")
        self.assertIn(("levels", "dic", 3), self.judged())
        self.write("facts", FACTS + "list: dic\npruned: yes\nlevel: par /dev/null one\n")
        self.write("pat", "b1a\n")
        self.assertNotIn(("levels", "pat", 1), self.judged())

    def test_exceptions_of_the_list(self):
        self.write("facts", FACTS + "list: dic\ndouble: a-bab ab-ab\n")
        self.write("dic", "a-bab\nab-ab\nba-ba\n")
        for text, found in (("ab-ab\nb-ab\n", []), ("aba-b\n", [("exceptions", "hyp", 1)]), ("bb-a\nb-aba\n", [("exceptions", "hyp", 2)]),
                            ("ba-ba\nABa-b  a note\n", [("exceptions", "hyp", 2)])):
            self.write("hyp", text)
            self.call("release", "facts", "pat", "tra", "hyp", "--out", "release")
            self.assertEqual(self.judged(), found, text)

    def test_clean(self):
        self.assertEqual(self.judged(), [])

    def test_findings(self):
        for name, text, found in (("dic", "a-ba-b\nBa-ba\n", ("list", "dic", 2)), ("dic", "a-ba-b\nba-ba3\n", ("list", "dic", 2)),
                                  ("dic", "a-ba-b\r\n", ("lines", "dic", 1)), ("dic", "a-ba-b\nab-ab\n", ("list", "dic", 2)),
                                  ("dic", "a-ba-b\nca-b\n", ("list", "dic", 2)), ("pat", "a3b\n", ("release", "release/hyph-xx.pat.txt", 1)),
                                  ("release/lines.dat", "other\n", ("release", "release/lines.dat", 1)),
                                  ("release/lines.def", "", ("manifest", "release/lines.def", None))):
            with self.subTest(f"{name}: {text}"):
                before = self.read(name)
                self.write(name, text)
                self.assertIn(found, self.judged())
                self.write(name, before)

    def test_forms_that_are_allowed(self):
        self.write("dic", "a-ba-b\nab-ab\n")
        self.write("facts", FACTS + "list: dic\ndouble: a-ba-b ab-ab\n")
        self.call("release", "facts", "pat", "tra", "--out", "release")
        self.assertEqual(self.judged(), [])

    def test_against(self):
        old = self.place("old")
        os.mkdir(old)
        for name in ("facts", "tra", "pat", "dic"):
            os.rename(self.place(name), os.path.join(old, name))
        os.rename(self.place("release"), os.path.join(old, "release"))
        for name, text in (("facts", FACTS + "list: dic\n"), ("tra", " 1 1\n a A\n b B\n"), ("pat", "a1b\nb1a\n"), ("dic", "a-ba-b\nbb-aa\n")):
            self.write(name, text)
        self.call("release", "facts", "pat", "tra", "--out", "release")
        self.assertIn(("against", "pat", None), self.judged("--against", "old"))
        change = json.loads(self.call("changed", "old", ".", "--json")[1])
        self.assertEqual(change["words"], {"new": ["bb-aa"], "lost": ["ba-ba"], "marked otherwise": []})
        self.assertEqual(change["patterns"], {"new": ["b1a"], "gone": [], "other digit": []})
        self.assertEqual(change["breaks"], {"words": [["a-ba-b", "a-b-a-b"]], "new": 1, "gone": 0})
        self.assertEqual(change["errors"], {"old": 0, "new": 1})
        self.assertNotIn("against", [it[0] for it in self.judged("--against", ".")])

    def trial(self, name, dic, pat, table=" 1 1\n a A\n b B\n <\n"):
        """A folder with a list and patterns, and its release."""
        os.mkdir(self.place(name))
        for part, text in (("facts", FACTS + "list: dic\n"), ("tra", table), ("pat", pat), ("dic", dic)):
            self.write(f"{name}/{part}", text)
        self.assertEqual(self.call("release", *(f"{name}/{it}" for it in ("facts", "pat", "tra")), "--out", f"{name}/release")[0], 0)

    def test_what_changed(self):
        """By a1b and b1a the list aba, a-bab, b-aab breaks as a-b-a, a-b-a-b, b-aa-b; by a3b as a-ba, a-ba-b, baa-b."""
        self.trial("old", "aba\na-bab\nab-ab\nb-aab\na<-b\n", "a1b\nb1a\nb<2a\n", " 1 1\n a A\n b B\n <\n")
        self.trial("new", "aba\na-bab\nba-ab\na-b<\n", "a3b\nb<1a\n")
        change = json.loads(self.call("changed", "old", "new", "--json")[1])
        self.assertEqual(change["words"], {"new": ["a-b<"], "lost": ["a<-b"], "marked otherwise": [["b-aab", "ba-ab"]]})
        self.assertEqual(change["patterns"], {"new": [], "gone": ["b1a"], "other digit": ["a3b", "b<1a"]})
        self.assertEqual(change["breaks"], {"words": [["a-b-a", "a-ba"], ["a-b-a-b", "a-ba-b"], ["b-aa-b", "baa-b"]], "new": 0, "gone": 3})
        # Errors: old a|b|a 2, a|b|a|b 2, b|aa|b 1; new a|ba 1, a|ba|b 1, baa|b 1, a|b< 0. Missed: old a<|b; new ba|ab.
        self.assertEqual((change["errors"], change["missed"]), ({"old": 5, "new": 3}, {"old": 1, "new": 1}))
        self.trial("out", "a-bab\n", "a1b\n", " 2 1\n a A\n b B\n")  # the hyphen is out of reach, and the break is aba|b
        self.assertIn("errors: 1 before, 1 now; missed: 0 before, 0 now\n", self.call("changed", "out", "out")[1])
        shown = self.call("changed", "old", "new")[1]
        self.assertIn("words with other hyphens:\n    b-aab -> ba-ab\n", shown)
        self.assertTrue(shown.startswith("words: 1 new, 1 lost, 1 marked otherwise\npatterns: 0 new, 1 gone, 2 other digit\n"
                                         "words of both lists that break otherwise: 3, with 0 new breaks and 3 gone\n"
                                         "errors: 5 before, 3 now; missed: 1 before, 1 now\n"), shown)
        page = self.call("changed", "old", "new", "--html")[1]
        self.assertIn("<li>a&lt;-b</li>", page)
        texts = re.findall(r"<text [^>]*>([^<]*)</text>", page)
        self.assertEqual(texts, ["new words", "1", "lost words", "1", "words with other hyphens", "1", "new patterns", "0", "patterns that are gone", "1",
                                 "patterns with another digit", "2", "words that break otherwise", "3", "errors before", "5", "errors now", "3",
                                 "missed before", "1", "missed now", "1"])

    def test_twenty_of_each_kind(self):
        words = [f"{number:05b}".replace("0", "a").replace("1", "b") for number in range(23)]
        self.trial("old", "bbbb\n", "a1b\n")
        self.trial("new", "bbbb\n" + "".join(it + "\n" for it in words), "a1b\n")
        title = "new words:\n"
        self.assertIn(title + "".join(f"    {it}\n" for it in words[:20]) + "    3 more\n", self.call("changed", "old", "new")[1])
        self.assertIn(title + "".join(f"    {it}\n" for it in words), self.call("changed", "old", "new", "--all")[1])


if __name__ == "__main__":
    unittest.main()
