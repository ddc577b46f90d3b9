"""Tests of tools/from_patgen: what patgen 2.4 takes for an answer, and what it asks again."""

import shutil
import subprocess
import unittest

from case import NO, PROGRAM, Case


class FromPatgen(Case):
    def fails(self, why, answers, *words):
        status, printed, said = self.run_script("from_patgen", *words, given=answers.encode())
        self.assertEqual((status, printed), (1, ""), said)
        self.assertIn(why, said)

    def test_answers(self):
        said = self.prints("1 2\n2 4 1 2 20\n3 4 2 1 8\ny\n", "from_patgen", given=b"1 2\r\n2\n4 of level 1\n1 2 20\n3 4\n2 1 8\nYes\n")
        self.assertEqual(said, "from_patgen: line 3: ` of level 1` is dropped\n")
        self.prints("2 1\nn\n", "from_patgen", given=b"2 1\nwhatever\n")
        self.prints("1 1\n2 3 1 2 3\nn\n", "from_patgen", self.put("answers", "1 1\n2 3\n1 2 3\n"))

    def test_what_patgen_asks_again(self):
        again = "the numbers are out of range, and patgen asks again\n"
        for answers in ("0 1\n1 1\n2 4\n1 2 3\n", "1 10\n1 1\n2 4\n1 2 3\n", "1 1\n5 4\n2 4\n1 2 3\n", "1 1\n2 16\n2 4\n1 2 3\n", "1 1\n2 4\n1 0 3\n1 2 3\n"):
            self.assertIn(again, self.prints("1 1\n2 4 1 2 3\ny\n", "from_patgen", given=(answers + "y\n").encode()))

    @unittest.skipUnless(shutil.which("patgen"), "patgen is not installed")
    def test_the_patterns_are_those_of_patgen(self):
        dic, tra = self.example("garden.dic"), self.put("t", "")
        answers = "0 2\n1\n2\nlevel 1\n4 2\n1 4 letters\n1 2\n2\n2 3\n1 1 1\ny\n"
        subprocess.run(["patgen", dic, NO, "theirs", tra], cwd=self.folder, input=answers.encode(), stdout=subprocess.DEVNULL,
                       stderr=subprocess.DEVNULL, check=True)
        self.put("par", self.run_script("from_patgen", given=answers.encode())[1])
        subprocess.run([PROGRAM, "generate", dic, NO, "ours", tra, "par", "r"], cwd=self.folder, stdout=subprocess.DEVNULL, check=True)
        self.assertEqual(self.read("ours"), self.read("theirs"))
        self.assertEqual(self.read("par"), b"1 2\n1 4 1 2 2\n2 3 1 1 1\ny\n")

    def test_a_record_of_the_dialogue(self):
        record = ("This is PATGEN\nleft_hyphen_min, right_hyphen_min: 2 3\nhyph_start, hyph_finish: 1 2\npat_start, pat_finish: 2 4\n"
                  "good weight, bad weight, threshold: 1 2 30\b \b\b \b2\nprocessing dictionary\npat_start, pat_finish: 9 8\n"
                  "Specify 1<=pat_start<=pat_finish<=15 !\npat_start, pat_finish: 2 5\ngood weight, bad weight, threshold: 1 1 1\n"
                  "hyphenate word list? n\n")
        said = self.prints("1 2\n2 4 1 2 2\n2 5 1 1 1\nn\n", "from_patgen", given=record.encode())
        self.assertIn("the minima 2 and 3 belong into the first four columns of TRANSLATE\n", said)
        self.fails("line 4: patgen asks `good weight, bad weight, threshold:`, and the answer to `pat_start, pat_finish:` is missing",
                   "hyph_start, hyph_finish: 1 1\npat_start, pat_finish:\nprocessing\ngood weight, bad weight, threshold: 1 2 3\n")

    def test_minima(self):
        answers = "2 3\n1 1\n2 4\n1 2 2\ny\n"
        self.assertIn("the minima 2 and 3", self.prints("1 1\n2 4 1 2 2\ny\n", "from_patgen", "--minima", given=answers.encode()))
        for minima in ("2 3", "2 3   left and right", "2 3left"):
            self.fails(f"the answers begin like minima, `{minima}`. If patgen asked for them, give --minima", answers.replace("2 3", minima))
        one, two = "1 1\n2 4 1 2 2\ny\n", "1 2\n2 4 1 2 2\n2 5 1 1 1\ny\n"
        for given, wanted in (("1 1 one level\n2 4 letters\n1 2 2 weights\ny\n", one), ("1 1\n2 4\n1 2\n2 0\ny\n", one), ("1 1 9\n2 4\n1 2\n2 3 4\ny\n", one),
                              ("1 2\n2 4\n1 2 2\n2 5 1\n1 1 1\ny\n", two)):
            self.assertNotIn("minima", self.prints(wanted, "from_patgen", given=given.encode()))
        self.fails("the answers end before that to `hyph_start, hyph_finish:`\n", "2 14\n", "--minima")
        self.fails("the answers end before that to `left_hyphen_min, right_hyphen_min:`\n", "2 15\n", "--minima")

    def test_what_is_refused(self):
        self.fails("level 1: 1000001 is greater than 1,000,000", "1 1\n2 4\n1 1 1000001\ny\n")
        self.prints("1 1\n2 4 1 1 1000000\ny\n", "from_patgen", given=b"1 1\n2 4\n1 1 1000000\ny\n")
        self.fails("the answers end before that to `good weight, bad weight, threshold:` of level 2", "1 2\n2 4\n1 2 3\n2 5\n")
        self.fails("line 5: more answers follow", "1 1\n2 4\n1 2 3\ny\n2 2\n")
        self.fails("line 2 has a control character", "1 1\n2 \x014\n1 2 3\n")
        for words in (["--maxima"], ["a", "b"]):
            self.refuses("usage: from_patgen", "from_patgen", *words)
        self.refuses("from_patgen: missing cannot be read", "from_patgen", "missing")


if __name__ == "__main__":
    unittest.main()
