"""The rules of PatGen once more, for whole calls: arguments, the order of reading and writing, printed lines and statuses."""

import re

from rules_cells import Packed, packed
from rules_read import LIMIT, NAMES, TABLE_LIMIT, Patterns, Refused, params_of, patterns_of, table_of, words_of
from rules_run import (
    SAMPLE_PARAMS, Run, list_text, pattern_line_of, pattern_text, prune, sample_lines, sweep, text_of, total_lines, totals_by)

DONE, NO, USAGE, REFUSED, FAULT, NO_WORDS = 0, 1, 2, 3, 4, 6
LINK_NAMES = 40
NAME_LENGTH = 255


class Fault(Exception):
    """A file could not be read or written."""

    def __init__(self, deed, name):
        super().__init__(deed, name)
        self.deed, self.name = deed, name


class Disk:
    """A folder: files by the number of their bytes, so that two names may be one file, folders, and symbolic links.

    The names are such as stand in the folder itself, with ./ in front or not, /dev/null or /dev/full. A file of zeros alone may stand as
    the number of its bytes."""

    def __init__(self, files, folders=(), links=(), twins=()):
        self.contents, self.files, self.touched = [], {}, set()
        for name, content in files.items():
            self.put(name, content)
        self.folders, self.links = set(folders), dict(links)
        for name, twin in dict(twins).items():
            self.files[name] = self.files[twin]

    def put(self, name, content):
        self.files[name] = len(self.contents)
        self.contents.append(content)

    def place(self, name):
        """The name in the folder that a name leads to, or none where it leads nowhere."""
        for _ in range(LINK_NAMES + 1):
            while name.startswith(b"./"):
                name = name[1:].lstrip(b"/")
            if b"/" in name or len(name) > NAME_LENGTH or name in (b"", b".", b".."):
                return None
            if name not in self.links:
                return name
            name = self.links[name]
        return None

    def read(self, name, limit):
        """The bytes of a file, or one more than the limit where it is longer."""
        if name == b"/dev/null":
            return b""
        if name == b"/dev/full":
            return bytes(limit + 1)
        place = self.place(name)
        if place not in self.files:
            raise Fault("reading", name)
        self.touched.add(self.files[place])
        content = self.contents[self.files[place]]
        return bytes(min(content, limit + 1)) if isinstance(content, int) else content[:limit + 1]

    def write(self, name, content):
        if name == b"/dev/null" or (name == b"/dev/full" and not content):
            return
        place = self.place(name)
        if place is None or place in self.folders or self.files.get(place) in self.touched:
            raise Fault("writing", name)
        self.put(place, content)
        self.touched.add(self.files[place])

    def held(self):
        """What each name of a file holds."""
        return {name: self.contents[file] for name, file in self.files.items()}


NAMES_OF = {
    b"generate": ("dict", "patterns", "out", "translate", "params", "report"),
    b"audit": ("dict", "patterns", "out", "translate", "params", "report"),
    b"sample": ("n", "count"),
    b"pack": ("patterns", "translate", "out"),
    b"totals": ("dict", "translate", "table"),
    b"prune": ("dict", "patterns", "out", "translate", "report"),
    b"sweep": ("dict", "patterns", "out", "translate", "folds", "bad", "missed"),
}
NUMBERS_OF = {
    b"sample": {"n": (10, 0, 2147483647), "count": (10, 0, 100000)},
    b"sweep": {"folds": (2, 2, 10), "bad": (4, 1, 1000), "missed": (4, 1, 1000)},
}
OPTIONS_OF = {b"generate": (b"--pattmp", b"--cells"), b"audit": (b"--pattmp",)}
OUTPUTS_OF = {b"generate": ("out", "report", "--pattmp", "--cells"), b"pack": ("out",), b"prune": ("out", "report"), b"sweep": ("out",)}
SETS_MOST = 16


def is_name(word):
    return word != b"" and not word.startswith(b"--")


def number_of(word, digits, least, most):
    """The number of an argument, or none."""
    if not re.fullmatch(rb"[0-9]{1,%d}" % digits, word) or not least <= int(word) <= most:
        return None
    return int(word)


def command_of(words):
    """The names, numbers and options of a command by their words in the table above, or none where the arguments are no command."""
    names = NAMES_OF.get(words[0]) if words else None
    if names is None or len(words) <= len(names):
        return None
    command, given, rest = words[0], dict(zip(names, words[1:])), words[1 + len(names):]
    numbers = NUMBERS_OF.get(command, {})
    for name, bounds in numbers.items():
        given[name] = number_of(given[name], *bounds)
        if given[name] is None:
            return None
    sets = []
    if command == b"sweep":
        sets, rest = rest, []
        if not 1 <= len(sets) <= SETS_MOST:
            return None
    while rest:
        if rest[0] not in OPTIONS_OF.get(command, ()) or rest[0].decode() in given or len(rest) < 2:
            return None
        given[rest[0].decode()] = rest[1]
        rest = rest[2:]
    are_names = [word for name, word in given.items() if name not in numbers] + sets
    outputs = [given[name] for name in OUTPUTS_OF.get(command, ()) if name in given]
    if not all(map(is_name, are_names)) or any(are_names.count(name) > 1 for name in outputs):
        return None
    return command, {**given, "sets": sets}


class Call:
    """A command on the files of a disk."""

    def __init__(self, command, given, disk):
        self.command, self.given, self.disk = command, given, disk
        self.table = self.words = self.patterns = None

    def read(self, name, file, parse, limit=LIMIT):
        """Reads a file and what it means. A refusal is told with the word for the file."""
        content = self.disk.read(name, limit)
        try:
            return parse(content)
        except Refused as refused:
            refused.file = file
            raise

    def read_table(self):
        self.table = self.read(self.given["translate"], "translate", table_of)

    def read_params(self):
        return self.read(self.given["params"], "parameters", params_of)

    def read_patterns(self):
        self.patterns = self.read(self.given["patterns"], "patterns", lambda data: patterns_of(self.table, data))

    def read_words(self):
        self.words = self.read(self.given["dict"], "dictionary", lambda data: words_of(self.table, data))

    def lines(self):
        """Does the command, and gives the status and the printed lines as bytes."""
        return getattr(self, self.command.decode())()

    def write(self, **texts):
        """Writes texts by the words for their names, in their order, those that are asked for."""
        for word, text in texts.items():
            word = word.replace("option_", "--")
            if word in self.given:
                self.disk.write(self.given[word], text)

    def run(self, has_layout):
        self.read_table()
        params = self.read_params()
        self.read_patterns()
        self.read_words()
        return Run(self.table, self.words, self.patterns, params, has_layout)

    def texts(self, run):
        """The pattern file, the list and the report of a run."""
        return pattern_text(self.table, run.patterns), list_text(self.table, self.words, run.places), text_of(run.report)

    def generate(self):
        run = self.run(True)
        out, marked, report = self.texts(run)
        self.write(out=out, option_pattmp=marked, option_cells=text_of(run.cells), report=report)
        return DONE, text_of(run.done())

    def audit(self):
        out, marked, report = self.texts(self.run(False))
        for word, called, wanted in (("out", b"patterns", out), ("--pattmp", b"pattmp", marked), ("report", b"report", report)):
            if word in self.given:
                line = false_line(self.disk.read(self.given[word], len(wanted) + 256), wanted)
                if line:
                    return NO, b"no: %s line %s\n" % (called, line)
        return DONE, b"yes\n"

    def sample(self):
        table = table_of(b"")
        words = words_of(table, text_of(sample_lines(self.given["n"], self.given["count"])))
        run = Run(table, words, Patterns(), SAMPLE_PARAMS, False)
        return DONE, text_of([line for line in run.report if not line.startswith("pass")] + run.done()[:1])

    def pack(self):
        self.read_table()
        self.read_patterns()
        text = packed(self.table.count, self.patterns)
        if text is None:
            raise_table(601)
        self.write(out=text)
        return DONE, b"packed: %d patterns, %d bytes\n" % (len(self.patterns.strings), len(text))

    def totals(self):
        self.read_table()
        self.read_words()
        data = self.disk.read(self.given["table"], TABLE_LIMIT)
        if len(data) > TABLE_LIMIT:
            raise_table(601)
        table = Packed(data)
        if not table.is_right:
            raise_table(602)
        if table.signs != self.table.count:
            raise_table(603)
        return DONE, text_of(total_lines(totals_by(self.table, self.words, table.values)))

    def prune(self):
        self.read_table()
        self.read_patterns()
        self.read_words()
        kept, needs, rounds = prune(self.table, self.words, self.patterns)
        entries = kept.entries()
        report = b"".join(b"keep %s: word %d after %d letters\n" % (pattern_line_of(self.table, string, {dot: value}), word, at - 1)
                          for (string, dot, value), (word, at) in zip(entries, needs))
        removed = len(self.patterns.entries()) - len(entries)
        self.write(out=pattern_text(self.table, kept), report=report + b"rounds: %d, removed %d, kept %d\n" % (rounds, removed, len(entries)))
        return DONE, b"done: %d rounds, %d removed, %d kept\n" % (rounds, removed, len(entries))

    def sweep(self):
        self.read_table()
        sets = [self.read(name, f"set {number}", params_of) for number, name in enumerate(self.given["sets"], 1)]
        self.read_patterns()
        self.read_words()
        text, line = sweep(self.table, self.words, self.patterns, sets, self.given["folds"], self.given["bad"], self.given["missed"])
        self.write(out=text_of([text]))
        return DONE, text_of([line])


def raise_table(number):
    refused = Refused(number)
    refused.file = "table"
    raise refused


def false_line(given, wanted):
    """The number of the first false line and how it is found, or none."""
    found, due = cut(given), cut(wanted)
    for number, line in enumerate(found, 1):
        if number > len(due) or line != due[number - 1]:
            break
    else:
        return b"%d is missing" % (len(found) + 1) if len(found) < len(due) else None
    bare = line[:-1] if line.endswith(b"\n") else line
    if len(bare) > 200:
        return b"%d begins %s" % (number, bare[:200])
    return b"%d found %s%s" % (number, bare, b"" if line.endswith(b"\n") else b" and the file ends")


def cut(text):
    """The lines of a text with their ends."""
    pieces = text.split(b"\n")
    return [piece + b"\n" for piece in pieces[:-1]] + ([pieces[-1]] if pieces[-1] else [])


def refused_line(refused):
    line = f"refused: {refused.file} {refused.number} {NAMES[refused.number]}"
    if refused.line and refused.number < 300 and refused.number > 200:
        line += f" item {refused.line}"
    elif refused.line:
        line += f" line {refused.line} column {refused.column}"
    return text_of([line])


def outcome(words, disk):
    """The status and the printed bytes of a call with these arguments, which changes the disk."""
    try:
        b"\0".join(words).decode()
    except UnicodeDecodeError:
        return NO_WORDS, b""
    command = command_of(words)
    if command is None:
        return USAGE, b"usage: patgen COMMAND NAMES [OPTIONS]\n"
    try:
        return Call(*command, disk).lines()
    except Refused as refused:
        return REFUSED, refused_line(refused)
    except Fault as fault:
        return FAULT, b"fault: %s %s\n" % (fault.deed.encode(), fault.name)
