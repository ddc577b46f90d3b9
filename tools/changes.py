"""What changed between two folders of patterns: what `changed` and `check-release --against` share."""

import collections
import json
import os

import hyphenation
import releases


class Folder:
    """A repository of patterns: its facts, its release and the files that the manifest names."""

    def __init__(self, path):
        self.facts = releases.Facts(os.path.join(path, "facts"))
        self.release = self.facts.place(self.facts.one.get("release", "release"))
        manifest = os.path.join(self.release, releases.MANIFEST)
        try:
            self.manifest = json.loads(hyphenation.read_bytes(manifest))
            self.named = {it["role"]: self.facts.place(it["name"]) for it in self.manifest["inputs"]}
            self.patterns, self.translate = self.named["patterns"], self.named["translate"]
        except (ValueError, KeyError, TypeError):
            raise hyphenation.Trouble(f"{manifest}: it is no manifest of `release`") from None
        if "list" not in self.facts.one:
            raise hyphenation.Trouble(f"{self.facts.path}: there is no line `list: ..`")
        self.list = self.facts.place(self.facts.one["list"])

    def table(self):
        return hyphenation.table_of(self.translate)

    def words(self, table):
        """The words of the list, the first of equal ones, by their letters."""
        found = {}
        for word in hyphenation.words_of(table, hyphenation.read_bytes(self.list), self.list):
            if word:
                found.setdefault(word.letters(table), word)
        return found

    def entries(self, table):
        """The entries of the patterns, as texts of letters with the place of the digit."""
        entries = hyphenation.entries_of(table, hyphenation.read_bytes(self.patterns), self.patterns)
        return {(b"".join(map(table.first, signs)), dot): (value, signs) for (signs, dot), value in entries.items()}

    def breaks(self, table, words):
        """Where these words break by the patterns, by their letters, and how many of their hyphens are errors and missed."""
        lines = b"".join(word.plain(table) + b"\n" for word in words.values())
        broken, counts = {}, collections.Counter()
        for word in hyphenation.words_of(table, b"\n".join(hyphenation.hyphenated(lines, self.patterns, self.translate)), "the list"):
            broken[word.letters(table)] = word.at(table, table.found, table.error)
            counts["errors"] += len(word.at(table, table.error))
            counts["missed"] += len(word.at(table, table.missed) & set(word.reach(table)))
        return broken, counts


def shown(text):
    return text.decode(errors="replace")


def with_breaks(table, word, places):
    """A word with hyphens at these places."""
    return shown(b"".join(table.first(sign) + (b"-" if at in places else b"") for at, sign in enumerate(word.signs, 1)))


def written(table, entries, keys):
    """Entries as patterns, in the order of their letters."""
    return [shown(hyphenation.written(table, entries[key][1], {key[1]: entries[key][0]})) for key in sorted(keys)]


def between(old, new):
    """What changed: words, patterns, breaks of the words that both lists have, errors and missed hyphens of each on its own list."""
    table, before = new.table(), old.table()
    words, older = new.words(table), old.words(before)
    entries, earlier = new.entries(table), old.entries(before)
    both = {letters: words[letters] for letters in words if letters in older}
    broken, counts = new.breaks(table, words)
    was, counted = old.breaks(before, older)
    pairs = [(word, was.get(letters, set()), broken.get(letters, set())) for letters, word in both.items()]
    differ = [(word, one, other) for word, one, other in pairs if one != other]
    is_marked = lambda word, first: word.hyphens(table) != first.hyphens(before)
    return {
        "words": {
            "new": [shown(word.plain(table)) for letters, word in words.items() if letters not in older],
            "lost": [shown(word.plain(before)) for letters, word in older.items() if letters not in words],
            "marked otherwise": [[shown(older[it].plain(before)), shown(both[it].plain(table))] for it in both if is_marked(both[it], older[it])],
        },
        "patterns": {
            "new": written(table, entries, set(entries) - set(earlier)),
            "gone": written(before, earlier, set(earlier) - set(entries)),
            "other digit": written(table, entries, [key for key in entries if key in earlier and entries[key][0] != earlier[key][0]]),
        },
        "breaks": {
            "words": [[with_breaks(table, word, one), with_breaks(table, word, other)] for word, one, other in differ],
            "new": sum(len(other - one) for _, one, other in differ),
            "gone": sum(len(one - other) for _, one, other in differ),
        },
        "errors": {"old": counted["errors"], "new": counts["errors"]},
        "missed": {"old": counted["missed"], "new": counts["missed"]},
    }


def summary(change):
    """The change as a few lines."""
    count = lambda part: ", ".join(f"{len(change[part][kind])} {kind}" for kind in change[part])
    breaks = change["breaks"]
    yield f"words: {count('words')}"
    yield f"patterns: {count('patterns')}"
    yield f"words of both lists that break otherwise: {len(breaks['words'])}, with {breaks['new']} new breaks and {breaks['gone']} gone"
    yield "; ".join(f"{kind}: {change[kind]['old']} before, {change[kind]['new']} now" for kind in ("errors", "missed"))
