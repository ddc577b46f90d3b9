"""What bench/languages does with one word list: its files, and the runs of both programs over them."""

import functools
import hashlib
import json
import os
import re
import time

from language_lists import Patterns, kept_marked, kept_words, plain_words
from program import measured, put_files

FIVE = "1 5\n2 3 1 2 20\n3 4 2 1 8\n4 5 1 4 7\n5 6 3 2 1\n6 8 1 10000 4\n"
EIGHT = "1 8\n1 3 2 3 1\n2 4 1 5 1\n3 5 1 6 1\n4 6 1 7 1\n5 12 1 8 1\n6 12 1 9 1\n7 12 1 9 1\n8 12 1 9 1\n"
THREE = "1 3\n2 4 1 2 3\n3 5 1 2 2\n4 6 1 5 2\n"
NO_LEVEL = "2 1\n"

# The parameter files of the sweep, in its order.
SETS = {"five": FIVE, "eight": EIGHT, "three": THREE}
SWEEP = ["4", "3", "1"]  # folds, and what an error and a missed hyphen cost

# The rounds: each list goes through one before the next one begins, since the first tells most.
ROUNDS = FIRST, SECOND, THIRD = ("patterns", "audits", "sweeps")


class Stopped(Exception):
    """A program ended in another way than it should: its words."""


class Runs:
    """The runs over one word list, whose results are kept in a file of its folder."""

    def __init__(self, words, packages, options):
        self.words, self.packages, self.options = words, packages, options
        self.folder = os.path.join(options.folder, words.key)
        os.makedirs(self.folder, exist_ok=True)
        self.results = read_results(self.folder)

    def steps(self):
        """The steps in their order: the round of each, its name, and what it does."""
        yield FIRST, "words", self.make_files
        for name in ("five", "eight"):
            yield FIRST, f"patgen {name}", functools.partial(self.theirs, name)
            if not self.options.patgen:
                yield FIRST, name, functools.partial(self.made, name)
        if not self.options.patgen:
            yield FIRST, "published", self.count_published
            if not self.words.by_hand:
                yield FIRST, "prune", self.prune
            for name in ("five", "eight"):
                yield SECOND, f"audit {name}", functools.partial(self.audited, name)
            yield THIRD, "sweep", self.sweep

    def do(self, which, tell):
        """Does each step of a round that has no result yet, and makes the files once more where they are gone."""
        if self.is_done():
            return
        steps = [(name, step) for its, name, step in self.steps() if its == which and name not in self.results]
        if steps and steps[0][0] != "words" and not self.has_files():
            steps.insert(0, ("words", self.make_files))
        for name, step in steps:
            began = time.time()
            try:
                self.results[name] = step()
            except Stopped as stopped:
                self.results[name] = {"stopped": str(stopped)}
            self.keep()
            tell(f"{self.words.key}: {name}, {time.time() - began:.0f} s")
        if self.is_done() and not self.options.patgen:
            for name in set(os.listdir(self.folder)) - {"results.json"}:
                os.remove(self.path(name))

    def is_done(self):
        return all(name in self.results for _, name, _ in self.steps())

    def has_files(self):
        return all(os.path.exists(os.path.join(self.folder, name)) for name in ("translate", "published", "whole", "words"))

    def keep(self):
        """Writes the results, by a new file that takes the place of the old one."""
        put_files(self.folder, {"results.new": json.dumps(self.results, indent=1).encode()})
        os.replace(os.path.join(self.folder, "results.new"), os.path.join(self.folder, "results.json"))

    def path(self, name):
        return os.path.join(self.folder, name)

    def read(self, name):
        with open(self.path(name), encoding="utf-8") as file:
            return file.read()

    def ours(self, *words):
        """Runs PatGen: what it printed, its seconds and its memory."""
        status, printed, seconds, memory = measured([self.options.program, *words], self.folder, self.options.patience)
        if status is None:
            raise Stopped(f"{words[0]} took more than {self.options.patience} s")
        if status not in (0, 1):
            raise Stopped(f"status {status}, {printed.decode(errors='replace').strip()}")
        return printed.decode().strip(), {"seconds": round(seconds, 2), "memory": memory}

    def make_files(self):
        """Writes the files that the runs take: published patterns, translate file, all words, and so many of them with their hyphens
        marked."""
        began = time.process_time()
        patterns, path = Patterns(self.packages, self.words.tag), self.packages.find(self.words.path)
        if self.words.by_hand:
            kept, left_out, lacking = kept_marked(self.words.read(path), patterns)
        else:
            kept, left_out, lacking = kept_words(plain_words(path), patterns, self.words.tag)
        mark, chosen = patterns.missed_mark(), part_of(kept, 0 if self.words.is_whole else self.options.most)
        marked = [word.replace("-", mark) if self.words.by_hand else mark.join(patterns.pieces(word)) for word in chosen]
        whole = [] if self.words.by_hand else kept
        put_files(self.folder, {"translate": patterns.translate().encode(), "published": text_of_lines(patterns.lines),
                                "whole": text_of_lines(whole), "words": text_of_lines(marked), "none": b""})
        return {"letters": len(patterns.letters), "minima": patterns.minima, "lines": len(patterns.lines), "entries": patterns.entries(),
                "whole": len(kept), "left_out": left_out, "lacking": lacking, "words": len(marked), "hyphens": sum(word.count(mark) for word in marked),
                "seconds": round(time.process_time() - began, 2)}

    def count_published(self):
        """What the published patterns find of the hyphens. It is all of them where they were marked by these patterns."""
        put_files(self.folder, {"params": NO_LEVEL.encode()})
        printed, cost = self.ours("generate", "words", "published", "out", "translate", "params", "report")
        return {**totals_of(printed), **cost}

    def prune(self):
        """How many entries of the published patterns no word of the whole list needs."""
        printed, cost = self.ours("prune", "whole", "published", "out", "translate", "report")
        rounds, removed, kept = map(int, re.match(r"done: (\d+) rounds, (\d+) removed, (\d+) kept", printed).groups())
        return {"rounds": rounds, "removed": removed, "kept": kept, **cost}

    def made(self, name):
        """Makes patterns by one of the sets."""
        put_files(self.folder, {name: SETS[name].encode()})
        printed, cost = self.ours("generate", "words", "none", f"{name}.pat", "translate", name, f"{name}.report")
        return {**totals_of(printed), **cost, "levels": levels_of(self.read(f"{name}.report")), "file": self.digest(f"{name}.pat")}

    def audited(self, name):
        """Audits what was made by one of the sets."""
        answer, cost = self.ours("audit", "words", "none", f"{name}.pat", "translate", name, f"{name}.report")
        return {"answer": answer, **cost}

    def digest(self, name):
        """What stands for the bytes of a file."""
        with open(self.path(name), "rb") as file:
            return hashlib.sha256(file.read()).hexdigest()

    def theirs(self, name):
        """Runs Debian's patgen by one of the sets: its seconds and memory, and its words where it stopped. At the end of its input it
        asks for ever, so what it may write is limited."""
        numbers = SETS[name].split()
        answers = [" ".join(numbers[:2])]
        for at in range(2, len(numbers), 5):
            answers += [" ".join(numbers[at:at + 2]), " ".join(numbers[at + 2:at + 5])]
        put_files(self.folder, {"answers": "".join(line + "\n" for line in [*answers, "n"]).encode()})
        command = "ulimit -f 1000000; exec patgen words none theirs translate <answers >log 2>errors"
        status, _, seconds, memory = measured(["sh", "-c", command], self.folder, self.options.patience)
        cost = {"seconds": round(seconds, 2), "memory": memory}
        if status == 0:
            return {**cost, "file": self.digest("theirs")}
        if status is None:
            return {**cost, "stopped": f"it was ended after {self.options.patience} s"}
        return {**cost, "stopped": in_one_line(self.read("errors")) or f"status {status}"}

    def sweep(self):
        """Which of the parameter files is best on words that are left out."""
        swept = part_of(self.read("words").splitlines(), self.options.swept)
        put_files(self.folder, {"swept": text_of_lines(swept), **{name: text.encode() for name, text in SETS.items()}})
        printed, cost = self.ours("sweep", "swept", "none", "out", "translate", *SWEEP, *SETS)
        winner = int(re.match(r"winner: set (\d+), cost", printed).group(1))
        rows = json.loads(self.read("out"))["rows"]
        return {"words": len(swept), "winner": list(SETS)[winner - 1], "costs": {name: row["cost"] for name, row in zip(SETS, rows)},
                "rows": {name: row for name, row in zip(SETS, rows)}, **cost}


def part_of(words, most):
    """All words, or every second, third and so on where they are more than so many; 0 takes all."""
    return words[:: -(-len(words) // most) or 1] if most else words


def text_of_lines(lines):
    return "".join(line + "\n" for line in lines).encode()


def read_results(folder):
    """The results that are kept in a folder."""
    path = os.path.join(folder, "results.json")
    if not os.path.exists(path):
        return {}
    with open(path, encoding="utf-8") as file:
        return json.load(file)


def totals_of(printed):
    """The numbers of the line `done`."""
    numbers = re.match(r"done: (\d+) patterns, (\d+) good, (\d+) bad, (\d+) missed", printed).groups()
    return dict(zip(("patterns", "good", "bad", "missed"), map(int, numbers)))


def levels_of(report):
    """For each level the patterns that it chose and the totals after it."""
    found = re.findall(r"^level \d+: (\d+) chosen, (\d+) good, (\d+) bad, (\d+) missed", report, re.MULTILINE)
    return [list(map(int, numbers)) for numbers in found]


def in_one_line(text):
    """A text with one blank in place of each run of blanks and line ends."""
    return " ".join(text.split())
