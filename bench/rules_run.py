"""The rules of PatGen once more, for what it makes: the selection, its texts, prune and sweep.

The selection keeps for each position its value and the dots at which a window of the present length is covered. A covered window lies
in the windows of one sign more to either side, so these dots follow from length to length. It skips no pass.
"""

import json

from rules_cells import laid_out, records_of
from rules_read import FOUND, MISSED, UNSURE, Patterns


class Place:
    """A position in reach of a word: its hyphen, care, weight and value, what bears on it from the start, and the covered dots."""

    __slots__ = ("signs", "at", "hyphen", "cares", "weight", "value", "covered", "bearing")

    def __init__(self, word, at):
        mark = word.marks.get(at)
        self.signs, self.at, self.hyphen, self.cares = word.signs, at, mark in (MISSED, FOUND), mark != UNSURE
        self.weight = word.numbers.get(at, word.weight)
        self.value, self.covered, self.bearing = 0, 0, ()


def places_of(table, words, patterns):
    """The places of each word."""
    found = []
    for word in words:
        places = [Place(word, at) for at in table.reach(word.signs)]
        if places and patterns.strings:
            begin_places(places, patterns.bearing(word.signs))
        found.append(places)
    return found


def begin_places(places, bearing):
    """Gives places what bears on them."""
    first = places[0].at
    for at, string, dot, value in bearing:
        if first <= at < first + len(places):
            place = places[at - first]
            place.bearing = (*place.bearing, (len(string), dot, value))
            place.value = max(place.value, value)


def totals_of(places):
    """Good, bad and missed."""
    totals = [0, 0, 0]
    for place in places:
        if place.cares and (place.hyphen or place.value % 2):
            totals[2 if place.value % 2 == 0 else 0 if place.hyphen else 1] += place.weight
    return totals


def dots_of(length):
    """The dots of a length, in their order."""
    dots, middle = [length // 2], length // 2
    for i in range(1, length + 1):
        near = (middle - i, middle + i) if length % 2 == 0 else (middle + i, middle - i)
        dots += [dot for dot in near if 0 <= dot <= length]
    return dots


DOTS = [dots_of(length) for length in range(16)]


class Run:
    """The run of `generate`: patterns, lines of the report and of the cells file, totals, and the passes that are not skippable."""

    def __init__(self, table, words, start, params, has_layout=True):
        self.patterns, self.report, self.cells, self.begun = Patterns(start.entries()), [], [], 0
        self.places = places_of(table, words, start)
        self.all_places = [place for places in self.places for place in places]
        self.totals = totals_of(self.all_places)
        self.layout = laid_out(table.count, start) if has_layout else None
        self.cells.append(f"start: {self.laid()}, {self.tails()} tails")
        first, last, levels = params
        largest = max((value for _, _, value in start.entries()), default=0)
        if levels and largest >= first:
            self.report.append(f"warning: starting value {largest} is not below level {first}")
        for level, numbers in zip(range(first, last + 1), levels):
            self.run_level(level, *numbers)
        self.report += total_lines(self.totals)

    def laid(self):
        return f"{self.layout.taken()} taken, top {self.layout.top()}" if self.layout else ""

    def tails(self):
        return len(records_of(self.patterns)) if self.layout else 0

    def run_level(self, level, first, last, good_wt, bad_wt, thresh):
        closed, chosen = set(), 0
        covering = self.begin_level(level)
        still = self.all_places
        for length in range(1, last + 1):
            still = self.lengthened(still, length, covering)
            for dot in DOTS[length] if length >= first else ():
                if not ((length - 1, dot) in closed or (length - 1, dot - 1) in closed):
                    self.begun += 1
                its, left = self.run_pass(still, level, length, dot, good_wt, bad_wt, thresh)
                chosen += its
                if not left:
                    closed.add((length, dot))
        if self.layout:
            self.layout.end_level(self.patterns)
        good, bad, missed = self.totals
        self.report.append(f"level {level}: {chosen} chosen, {good} good, {bad} bad, {missed} missed")
        self.cells.append(f"level {level}: {self.laid()}, {self.tails()} tails")

    def begin_level(self, level):
        """What covers from the start: for a length and a place its dots. Patterns that the run chose before have lower values."""
        covering = {}
        for number, place in enumerate(self.all_places):
            place.covered = 0
            for length, dot, value in place.bearing:
                if value >= level:
                    covering.setdefault(length, []).append((number, 1 << dot))
        return covering

    def lengthened(self, still, length, covering):
        """Goes on to windows of this length, and leaves out places whose windows are all covered."""
        every = (2 << length) - 1
        for place in still:
            place.covered |= place.covered << 1
        for number, dot in covering.get(length, ()):
            self.all_places[number].covered |= dot
        return [place for place in still if place.covered & every != every and len(place.signs) >= length]

    def run_pass(self, still, level, length, dot, good_wt, bad_wt, thresh):
        """Does a pass, and says how many windows are chosen and left."""
        bit, windows = 1 << dot, {}
        for place in still:
            if not place.covered & bit and place.at >= dot:
                window = place.signs[place.at - dot:place.at - dot + length]
                if len(window) == length:
                    windows.setdefault(window, []).append(place)
        before, candidates, chosen, hopeless, sums = tuple(self.totals), 0, [], [], [0, 0]
        for window, places in windows.items():
            counted = [place for place in places if place.cares and (place.value ^ level) & 1]
            if counted:
                candidates += 1
                good = sum(place.weight for place in counted if place.hyphen == (level % 2 == 1))
                bad = sum(place.weight for place in counted) - good
                if good * good_wt < thresh:
                    hopeless.append(window)
                elif good * good_wt >= thresh + bad * bad_wt:
                    chosen.append(window)
                    sums[0], sums[1] = sums[0] + good, sums[1] + bad
        if candidates:
            self.enter(windows, chosen, hopeless, level, dot)
            left = candidates - len(chosen) - len(hopeless)
            self.report.append(f"pass {level} {length} {dot}: {before[0]} good, {before[1]} bad, {before[2]} missed; {candidates} candidates, "
                               f"{len(chosen)} chosen, {len(hopeless)} hopeless, {left} left; {sums[0]} good, {sums[1]} bad")
            self.cells.append(f"pass {level} {length} {dot}: {self.laid()}")
        return len(chosen), candidates - len(chosen) - len(hopeless)

    def enter(self, windows, chosen, hopeless, level, dot):
        """Enters what a pass decided."""
        if self.layout:
            for window in sorted(chosen + hopeless):
                self.layout.enter(window)
        for window in chosen:
            self.patterns.raise_to(window, dot, level)
            for place in windows[window]:
                self.raise_value(place, level)
        for window in chosen + hopeless:
            for place in windows[window]:
                place.covered |= 1 << dot

    def raise_value(self, place, level):
        if place.value < level:
            if place.cares and (place.value ^ level) & 1:
                turned = 1 if level % 2 else -1
                if place.hyphen:
                    self.totals[0] += turned * place.weight
                    self.totals[2] -= turned * place.weight
                else:
                    self.totals[1] += turned * place.weight
            place.value = level

    def done(self):
        """The two printed lines."""
        good, bad, missed = self.totals
        return [f"done: {len(self.patterns.strings)} patterns, {good} good, {bad} bad, {missed} missed",
                f"work: {self.begun} passes, {self.laid()}, {self.tails()} tails"]


def total_lines(totals):
    """The totals, and the rates where there are some."""
    good, bad, missed = totals
    lines = [f"total: {good} good, {bad} bad, {missed} missed"]
    if good + missed:
        shares = [10000 * part // (good + missed) for part in totals]
        lines.append("rate: " + ", ".join(f"{it // 100}.{it % 100:02} % {name}" for it, name in zip(shares, ("good", "bad", "missed"))))
    return lines


def text_of(lines):
    """A text of these lines."""
    return "".join(line + "\n" for line in lines).encode()


def pattern_line_of(table, string, dots):
    """The line of a string with its values by dots."""
    digit = lambda dot: b"%d" % dots[dot] if dot in dots else b""
    return b"".join(digit(dot) + table.first[ord(sign)] for dot, sign in enumerate(string)) + digit(len(string))


def pattern_text(table, patterns):
    return b"".join(pattern_line_of(table, string, patterns.strings[string]) + b"\n" for string in sorted(patterns.strings))


def number(weight):
    return b"%d" % weight if weight < 10 else b"{%d}" % weight


def list_text(table, words, places):
    """The hyphenated list."""
    text, before = b"", 1
    for word, its in zip(words, places):
        if table.takes_part(word.signs):
            values = {place.at: place.value for place in its}
            text += (number(word.weight) if word.weight != before else b"") + list_line(table, word, values) + b"\n"
            before = word.weight
    return text


def list_line(table, word, values):
    """A word with the marks of its positions, by the values in reach."""
    line = b""
    for at in range(2, len(word.signs)):
        line += table.first[ord(word.signs[at - 1])]
        if at < len(word.signs) - 1:
            mark, odd = word.marks.get(at), values.get(at, 0) % 2 == 1
            if mark == UNSURE:
                line += table.marks[3:]
            elif mark in (MISSED, FOUND):
                line += table.marks[2:3] if odd else table.marks[1:2]
            elif odd:
                line += table.marks[:1]
            weight = word.numbers.get(at, word.weight)
            line += number(weight) if weight != word.weight else b""
    return line


def totals_by(table, words, values):
    """Good, bad and missed where a function gives the values of a word."""
    totals = [0, 0, 0]
    for word in words:
        reach = table.reach(word.signs)
        if reach:
            of_word = values(word.signs)
            places = [Place(word, at) for at in reach]
            for place in places:
                place.value = of_word[place.at]
            totals = [a + b for a, b in zip(totals, totals_of(places))]
    return totals


def prune(table, words, patterns):
    """The patterns that stay, their needs in order, each a word and a position, and the number of rounds."""
    sites, at_entry = [], {}
    for number_of_word, word in enumerate(words, 1):
        reach = table.reach(word.signs)
        its = {at: {} for at in reach}
        for at, string, dot, value in patterns.bearing(word.signs) if reach else ():
            if at in its:
                its[at][string, dot] = value
        for at in reach:
            for entry in its[at]:
                at_entry.setdefault(entry, []).append(len(sites))
            sites.append((number_of_word, at, its[at]))
    odd = [max(its.values(), default=0) % 2 for _, _, its in sites]

    def turned(entry):
        """The first site whose oddness is another without the entry, or none."""
        for i in at_entry.get(entry, ()):
            if max((value for it, value in sites[i][2].items() if it != entry), default=0) % 2 != odd[i]:
                return sites[i][:2]
        return None

    kept, rounds, removed = patterns.entries(), 0, True
    while removed:
        rounds, removed, before = rounds + 1, False, kept
        kept = []
        for string, dot, value in before:
            if turned((string, dot)):
                kept.append((string, dot, value))
            else:
                removed = True
                for i in at_entry.get((string, dot), ()):
                    del sites[i][2][string, dot]
                at_entry.pop((string, dot), None)
    return Patterns(kept), [turned(entry[:2]) for entry in kept], rounds


def sweep(table, words, start, sets, folds, bad_cost, missed_cost):
    """The file of `sweep`, and the printed line."""
    rows = []
    for number_of_set, params in enumerate(sets, 1):
        totals = [0, 0, 0]
        for fold in range(folds):
            rest = [word for i, word in enumerate(words) if i % folds != fold]
            run = Run(table, rest, start, params, has_layout=False)
            totals = [a + b for a, b in zip(totals, totals_by(table, words[fold::folds], run.patterns.values))]
        cost = bad_cost * totals[1] + missed_cost * totals[2]
        rows.append({"bad": totals[1], "cost": cost, "good": totals[0], "missed": totals[2], "set": number_of_set})
    best = min(rows, key=lambda row: (row["cost"], row["set"]))
    text = json.dumps({"folds": folds, "rows": rows, "winner": best["set"]}, separators=(",", ":"), sort_keys=True)
    return text, f"winner: set {best['set']}, cost {best['cost']}"


def drawing(state):
    """A function that draws the numbers of `sample`, from this state on."""

    def draw(most):
        nonlocal state
        state = (1103515245 * state + 12345) % 2**31
        return state // 65536 % most

    return draw


def sample_lines(seed, count):
    """The dictionary of `sample`."""
    draw = drawing(seed)

    def syllable():
        text = "bdfgklmnprst"[draw(12)] + "aeiou"[draw(5)]
        return text + ("nrs"[draw(3)] if draw(4) == 0 else "")

    return ["-".join([syllable() for _ in range(2 + draw(3))]) for _ in range(count)]


SAMPLE_PARAMS = 1, 2, [(1, 3, 1, 2, 20), (2, 4, 2, 1, 8)]
