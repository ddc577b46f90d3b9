"""Tests of tools/hyphenate and tools/breaks.lua: by LuaTeX, where it is installed, and by a program that stands in for it."""

import os
import shutil
import unittest

from case import NO, PROGRAM, Case

ROW = "{:28}{:28}{}\n"


class Hyphenate(Case):
    def test_what_is_shown(self):
        self.imitate("kpsewhich", "exit 0")
        self.imitate("luatex", "cp hyph.tex \"$HYPH\"", "cp \"$WRITTEN\" \"$TABLE\"")
        self.environment.update(WRITTEN=self.path("written"), HYPH=self.path("hyph"))
        rows = ["a-b DIFFERS\n", "bc same\n", "2 words, 1 broken in another way than the hyphenated list says\n"]
        self.put("written", "".join(rows))
        pat, tra, dic, par = (self.example(f"tex/garten.{it}") for it in ("pat", "tra", "dic", "par"))
        for words, audits in ((["--differ", dic, pat, tra], []), ([dic, NO, tra, par], ["yes"])):
            status, printed, said = self.run_script("hyphenate", *words)
            shown = [it.rstrip("\n") for it in rows if "--differ" not in words or "same" not in it]
            self.assertEqual((status, printed.splitlines()[2:]), (1, [*audits, *shown]), said)
            self.assertEqual(self.read("hyph").decode(), self.run_script("language", pat, tra)[1])
        self.put("written", rows[-1].replace("1 broken", "0 broken"))
        self.assertEqual(self.run_script("hyphenate", dic, pat, tra)[0], 0)
        self.put("written", "")
        self.assertEqual(self.run_script("hyphenate", dic, pat, tra)[0], 2)
        self.refuses("Loads patterns into LuaTeX", "hyphenate", dic, pat)
        self.assertEqual(os.listdir(self.path("tmp")), [])

    @unittest.skipUnless(shutil.which("luatex"), "LuaTeX is not installed")
    def test_more_words_than_one_call_takes(self):
        words = [f"{number:09b}".replace("0", "a").replace("1", "b") for number in range(512)]
        self.put("d", "{12}" + "".join(it + "\n" for it in words))
        self.put("p", "b1a\n")
        self.put("t", " 1 1\n a A\n b B\n")
        status, printed, said = self.run_script("hyphenate", "d", "p", "t")
        rows = printed.splitlines()[2:]
        self.assertEqual((status, len(rows), rows[-1]), (0, 513, "512 words, 0 broken in another way than the hyphenated list says"), said)
        self.assertEqual(rows[0], ROW.format("a" * 9, "{12}" + "a" * 9, "same").rstrip("\n"))
        self.assertEqual(rows[10], ROW.format("aaaaab-ab-a", "aaaaab.ab.a", "same").rstrip("\n"))

    @unittest.skipUnless(shutil.which("luatex"), "LuaTeX is not installed")
    def test_words_that_differ(self):
        self.environment["PATGEN"] = self.imitate("other", f'"{PROGRAM}" "$@" || exit', "for list; do :; done", "sed -i 's/ab[*]ba/a*bba/' \"$list\"")
        self.put("d", "ab-ba\nba-bb\n")
        self.put("p", "b1b\n")
        self.put("t", " 1 1\n a A\n b B\n")
        status, printed, said = self.run_script("hyphenate", "--differ", "d", "p", "t")
        rows = ROW.format("ab-ba", "a*bba", "DIFFERS") + "2 words, 1 broken in another way than the hyphenated list says\n"
        self.assertEqual((status, printed.split("\n", 2)[2]), (1, rows), said)


if __name__ == "__main__":
    unittest.main()
