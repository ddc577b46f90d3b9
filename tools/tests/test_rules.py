"""Tries the rules that bench/hostile states once more, on the tables of calls of patgen_rows and beside the definitions."""

import os
import random
import re
import sys
import unittest

sys.path.insert(0, os.path.join(os.path.dirname(os.path.dirname(os.path.dirname(os.path.realpath(__file__)))), "bench"))
import rules_read
import rules_rows
import rules_run

TABLES = ("worked", "refusals", "limits", "usage", "audits", "tables", "prune", "sweep", "examples", "failures")
TIMES = 2000


class Tables(unittest.TestCase):
    """The calls of the tables."""

    def test_rows(self):
        tried = 0
        for table in TABLES:
            for row in rules_rows.rows_of(table, TIMES):
                with self.subTest(table=table, row=row.title):
                    for words, _, wrong in row.answers():
                        tried += 1
                        self.assertEqual((words, wrong), (words, []))
        self.assertGreater(tried, 350)


class ByDefinition:
    """A run by the definitions, each sum over the whole list anew: the entries, the records of passes, and the families."""

    def __init__(self, table, words, start, params):
        self.table, self.words, self.entries, self.hopeless = table, words, {entry[:2]: entry[2] for entry in start.entries()}, set()
        self.records, self.families = [], {"": (0, set(range(1, table.count + 1)))}
        for string, _ in sorted(self.entries):
            self.enter(string)
        first, last, levels = params
        for level, numbers in zip(range(first, last + 1), levels):
            self.hopeless = set()
            for length in range(numbers[0], numbers[1] + 1):
                for dot in rules_run.dots_of(length):
                    self.do_pass(level, length, dot, *numbers[2:])
            self.end_level()

    def value(self, signs, at):
        return max((value for (string, dot), value in self.entries.items()
                    if at >= dot and at - dot + len(string) <= len(signs) and signs[at - dot:at - dot + len(string)] == string), default=0)

    def is_covered(self, window, dot, level):
        return any(self.entries.get((string, dot - begin), 0) >= level or (string, dot - begin) in self.hopeless
                   for begin in range(len(window)) for end in range(begin + 1, len(window) + 1) for string in [window[begin:end]])

    def counted(self, level, length, dot):
        """The windows at counted positions, each with its weight and whether it is good."""
        for word in self.words:
            for at in self.table.reach(word.signs):
                mark, window = word.marks.get(at), word.signs[max(0, at - dot):at - dot + length]
                is_hyphen, is_odd = mark in (rules_read.MISSED, rules_read.FOUND), self.value(word.signs, at) % 2 == 1
                if mark != rules_read.UNSURE and is_odd == (level % 2 == 0) and at >= dot and len(window) == length:
                    yield window, word.numbers.get(at, word.weight), is_hyphen == (level % 2 == 1)

    def do_pass(self, level, length, dot, good_wt, bad_wt, thresh):
        counted = [it for it in self.counted(level, length, dot) if not self.is_covered(it[0], dot, level)]
        chosen, hopeless, sums = [], [], [0, 0]
        for window in sorted({it[0] for it in counted}):
            good = sum(weight for it, weight, is_good in counted if it == window and is_good)
            bad = sum(weight for it, weight, is_good in counted if it == window and not is_good)
            if good * good_wt < thresh:
                hopeless.append(window)
            elif good * good_wt >= thresh + bad * bad_wt:
                chosen.append(window)
                sums = [sums[0] + good, sums[1] + bad]
        for window in sorted(chosen + hopeless):
            self.enter(window)
        self.entries.update({(window, dot): max(level, self.entries.get((window, dot), 0)) for window in chosen})
        self.hopeless |= {(window, dot) for window in hopeless}
        if counted:
            self.records.append((level, length, dot, len({it[0] for it in counted}), len(chosen), len(hopeless), *sums, *self.laid()))

    def cells(self, other=None):
        return {base + sign for prefix, (base, signs) in self.families.items() if prefix != other for sign in signs}

    def laid(self):
        return len(self.cells()), max(self.cells())

    def enter(self, string):
        for end in range(1, len(string)):
            prefix, sign = string[:end], ord(string[end])
            base, signs = self.families.get(prefix, (None, set()))
            if sign in signs:
                continue
            signs = signs | {sign}
            others = self.cells(prefix)
            if base is None or base + sign in others:
                bases = {it for other, (it, _) in self.families.items() if other != prefix}
                base = max(1, max(others) - max(255, self.table.count)) if len(signs) > 4 else 1
                while base in bases or any(base + it in others for it in signs):
                    base += 1
            self.families[prefix] = base, signs

    def end_level(self):
        kept = {string[:end] for string, _ in self.entries for end in range(1, len(string) + 1)}
        its = {prefix: (base, {sign for sign in signs if prefix == "" or prefix + chr(sign) in kept}) for prefix, (base, signs) in self.families.items()}
        self.families = {prefix: family for prefix, family in its.items() if family[1]}


def drawn(draws):
    """A table, words, starting patterns and parameters."""
    letters = draws.choice(("ab", "abc", "abcdefgh"))
    table = rules_read.table_of(b" 1 1\n" + b"".join(b" %c\n" % letter for letter in letters.encode()))
    pieces = [*letters * 3, "-", "-", "*", "?", ".", "0", "2", "{31}"]
    words = rules_read.words_of(table, "\n".join("".join(draws.choices(pieces, k=draws.randrange(2, 14))) for _ in range(9)).encode())
    patterns = ["".join(draws.choices([*letters, "."], k=draws.randrange(1, 4))) + str(draws.randrange(4)) for _ in range(draws.choice((0, 0, 5)))]
    first = draws.randrange(1, 3)
    levels = []
    for _ in range(draws.randrange(1, 4)):
        shortest = draws.randrange(1, 4)
        levels.append((shortest, draws.randrange(shortest, 6), draws.randrange(1, 4), draws.randrange(1, 4), draws.randrange(1, 9)))
    return table, words, rules_read.patterns_of(table, "\n".join(patterns).encode()), (first, first + len(levels) - 1, levels)


class Definitions(unittest.TestCase):
    """The runs beside the definitions."""

    def test_runs(self):
        draws = random.Random(7)
        for number in range(40):
            its = drawn(draws)
            with self.subTest(number=number):
                run, slow = rules_run.Run(*its), ByDefinition(*its)
                self.assertEqual({entry[:2]: entry[2] for entry in run.patterns.entries()}, slow.entries)
                passes = [line for line in run.report if line.startswith("pass")]
                cells = [line for line in run.cells if line.startswith("pass")]
                records = []
                for line, laid in zip(passes, cells, strict=True):
                    numbers = list(map(int, re.findall("[0-9]+", line)))
                    records.append((*numbers[:3], *numbers[6:9], *numbers[10:], *map(int, re.findall("[0-9]+", laid)[3:])))
                self.assertEqual(records, slow.records)
                self.assertEqual(run.totals, rules_run.totals_by(its[0], its[1], run.patterns.values))


if __name__ == "__main__":
    unittest.main()
