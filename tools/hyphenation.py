"""What the scripts of this folder share: the program, and the files that it reads and writes.

All texts are bytes, as they are for the program. The rules of the files are those of docs/RULES.md. What the program would refuse is
refused here too, by its own line where the program is run, and by one of these scripts where it is not.
"""

import argparse
import os
import re
import shutil
import signal
import subprocess
import sys
import tempfile

HERE = os.path.dirname(os.path.realpath(__file__))
BYTE_ORDER_MARK = b"\xef\xbb\xbf"
# What `check-list` calls a fault.
LIST_FAULTS = ("begin with a blank, so they are no words", "have words behind a blank, which are not read",
               "have two marks side by side, of which the last counts",
               "have a mark before the first letter or behind the last one, without effect", "stand there again with other hyphens",
               "words, and none of them has a hyphen")


class Trouble(Exception):
    """Why a script cannot go on."""


class Stopped(BaseException):
    """A signal that ends the script, after its folders are removed."""


def stop(number, _):
    """Ends the script by a signal."""
    raise Stopped(number)


def start(main):
    """Runs the function `main`, and ends with the status that it gives, with 2 where there is trouble, or by the signal that stops it."""
    for number in (signal.SIGHUP, signal.SIGINT, signal.SIGTERM):
        if signal.getsignal(number) != signal.SIG_IGN:
            signal.signal(number, stop)
    sys.stdout.reconfigure(encoding="utf-8", errors="surrogateescape")
    try:
        status = main()
        sys.stdout.flush()
    except BrokenPipeError:
        os.dup2(os.open(os.devnull, os.O_WRONLY), 1)
        status = 2
    except (Trouble, OSError) as trouble:
        status = 2
        why = f"{trouble.filename or 'a file'}: {trouble.strerror}" if isinstance(trouble, OSError) else trouble
        print(f"{os.path.basename(sys.argv[0])}: {why}", file=sys.stderr)
    except Stopped as stopped:
        signal.signal(stopped.args[0], signal.SIG_DFL)
        os.kill(os.getpid(), stopped.args[0])
    sys.exit(status)


def parser(text):
    """A parser of the script's words, whose help is this text."""
    return argparse.ArgumentParser(description=text, formatter_class=argparse.RawDescriptionHelpFormatter)


def program():
    """The program's path: that of PATGEN, or else the script `patgen` beside this folder, in a checkout as where it is installed."""
    given = os.environ.get("PATGEN") or os.path.join(HERE, "..", "patgen")
    found = shutil.which(given)
    if not found:
        raise Trouble(f"{given} is no program. PATGEN=/path/to/patgen names it")
    return os.path.abspath(found)


def asked(*words):
    """Runs the program with these words, and gives its status and what it printed."""
    try:
        done = subprocess.run([program(), *words], stdin=subprocess.DEVNULL, stdout=subprocess.PIPE, check=False)
    except Stopped:
        print(end="\n" if sys.stderr.isatty() else "", file=sys.stderr)  # behind the line that says how far the program is
        raise
    return done.returncode, done.stdout.decode(errors="replace").strip()


def run(*words):
    """Runs the program with these words, and gives the lines that it printed. Any status but 0 is trouble."""
    status, printed = asked(*words)
    if status:
        raise Trouble(f"{words[0]} ended with status {status}: {printed}")
    return printed.split("\n")


def read_bytes(path):
    """All bytes of a file."""
    with open(path, "rb") as file:
        return file.read()


def write_bytes(path, content):
    """Makes a file of these bytes."""
    with open(path, "wb") as file:
        file.write(content)


def show(*texts):
    """Prints texts of bytes as one line."""
    sys.stdout.buffer.write(b"".join(texts) + b"\n")


def lines_of(data):
    """The lines of a file, without their ends."""
    pieces = data.split(b"\n")
    if not pieces[-1]:
        pieces.pop()
    return [piece[:-1] if piece.endswith(b"\r") else piece for piece in pieces]


def without_byte_order_mark(data, name):
    """What a file has, which may not begin with a byte order mark."""
    if data.startswith(BYTE_ORDER_MARK):
        raise Trouble(f"{name} begins with a byte order mark, which sed -i '1s/^\\xEF\\xBB\\xBF//' {name} takes out")
    return data


def refuse_tex(data, name):
    """Refuses a TeX file."""
    found = re.search(rb"^[^%\n]*(\\(?:patterns|hyphenation|input|endinput)\b)", data, re.M)
    if found:
        raise Trouble(f"{name} is a TeX file, since it has {found[1].decode()}: untex {name} takes its patterns out")


class Table:
    """The letters of a translate file, its minima and its marks. A letter is a number from 2 on, and 1 is the edge of a word."""

    def __init__(self, data, name="the translate file"):
        lines = lines_of(without_byte_order_mark(data, name))
        head = (lines[0] if lines else b"").ljust(8)
        if not re.fullmatch(b"[0-9 ]{4}", head[:4]):
            raise Trouble(f"{name} stands where TRANSLATE is due, and begins with {head[:4].decode(errors='replace')!r} in place of two minima")
        self.left, self.right = (int(head[at : at + 2].replace(b" ", b"") or usual) for at, usual in ((0, 2), (2, 3)))
        self.error, self.missed, self.found, self.unsure = (
            head[at : at + 1] if head[at : at + 1] != b" " else usual for at, usual in zip(range(4, 8), (b".", b"-", b"*", b"?"))
        )
        letters = [letter_line(line) for line in lines[1:]] if lines else [[b"%c" % at, b"%c" % (at - 32)] for at in range(97, 123)]
        self.letters = [spellings for spellings in letters if spellings]
        self.marks = self.error + self.missed + self.found + self.unsure
        self.refuse_spellings(name)
        self.begin()

    def begin(self):
        """Finds the signs of the spellings, and the expressions for the items of words and of patterns."""
        self.signs = {spelling: sign for sign, spellings in enumerate(self.letters, 2) for spelling in spellings}
        known = b"|".join(re.escape(spelling) for spelling in self.signs) or b"(?!)"
        self.word_item = re.compile(b"(%s)|([0-9])|\\{([0-9]{1,4})\\}|([%s])" % (known, re.escape(self.marks)))
        self.pattern_item = re.compile(b"(%s|\\.)|([0-9])" % known)

    def add_letters(self, patterns):
        """Makes each character of UTF-8 a letter that patterns have and the table lacks."""
        others = set(self.pattern_item.sub(b"", patterns).decode(errors="ignore")) - set(" \t\r\n")
        self.letters += [[other.encode()] for other in sorted(others)]
        self.begin()

    def refuse_spellings(self, name):
        """Refuses a spelling that no letter may have, as in a file of another kind."""
        is_right = re.compile(b"[^0-9.{%s][^ \t\r]{0,7}" % re.escape(self.marks))
        for spelling in (spelling for spellings in self.letters for spelling in spellings):
            if not is_right.fullmatch(spelling):
                raise Trouble(f"{name} stands where TRANSLATE is due, and {spelling.decode(errors='replace')!r} can be no letter there")

    def first(self, sign):
        """How a sign is written."""
        return b"." if sign == 1 else self.letters[sign - 2][0]

    def items(self, item, line, where):
        """The items of a line, up to its first blank or TAB: for each what the groups of the expression `item` found."""
        at, end = 0, re.search(b"[ \t]|$", line).start()
        while at < end:
            found = item.match(line, at, end)
            if not found:
                raise Trouble(f"{where} column {at + 1}: {line[at:].decode(errors='replace')!r} begins with no letter of the table")
            yield found.groups()
            at = found.end()


def table_of(path):
    """The table of a translate file."""
    return Table(read_bytes(path), path)


def letter_line(line):
    """The spellings of a line of a translate file."""
    line = line.rstrip(b" ")
    pieces = line[1:].split(line[:1]) if len(line) > 1 else []
    return pieces[: pieces.index(b"")] if b"" in pieces else pieces


def drafted(letters, left, right):
    """A translate file of these letters, each with its capital if that is one character and no letter itself."""
    marks = ""
    for usual in ".-*?":
        marks += next(mark for mark in usual + "=~+#&" if mark not in letters and mark not in marks)
    used = set(letters)
    rows = []
    for letter in sorted(letters):
        capital = letter.upper()
        rows.append(f" {letter} {capital}" if len(capital) == 1 and capital not in used else f" {letter}")
        used.add(capital)
    return "".join(row + "\n" for row in [f"{left:2}{right:2}{marks}", *rows]).encode()


def number(value):
    """A weight, as a digit or in braces."""
    return b"%d" % value if value < 10 else b"{%d}" % value


class Word:
    """A word of a dictionary: its signs without the edges, and by the number of letters before them its marks and weights. A line
    without letters is one without signs, and counts as false."""

    def __init__(self, number, line, weight):
        self.number, self.line, self.weight = number, line, weight
        self.signs, self.marks, self.weights = [], {}, {}
        self.sets_weight = False

    def __bool__(self):
        return bool(self.signs)

    def text(self):
        """The line up to its first blank or TAB."""
        return re.split(b"[ \t]", self.line)[0]

    def at(self, table, *marks):
        """Where the word has one of these marks of a table, as numbers of letters before them."""
        return {at for at, mark in self.marks.items() if mark in marks and at < len(self.signs)}

    def hyphens(self, table):
        """Where the word has a hyphen."""
        return self.at(table, table.missed, table.found)

    def letters(self, table):
        """The word without marks, in the first spellings."""
        return b"".join(table.first(sign) for sign in self.signs)

    def alone(self):
        """The word as a line that means the same behind any other line."""
        return number(self.weight) + self.line

    def plain(self, table):
        """The word as a line of a dictionary, with hyphens and don't-care positions, but without weights."""
        return self.line_with(table, self.hyphens(table), {})

    def spelled(self, table):
        """The letters of the word as its line spells them, capitals among them."""
        return [spelling for spelling, *_ in table.items(table.word_item, self.line, "the word") if spelling]

    def line_with(self, table, hyphens, weights, letters=None):
        """The word as a line of a dictionary, with these hyphens and weights of places, and with its don't-care positions. The letters
        are the first spellings, or those that are given."""
        letters = letters or [table.first(sign) for sign in self.signs]
        unsure = self.at(table, table.unsure)
        mark = lambda at: table.missed if at in hyphens else table.unsure if at in unsure else b""
        weight = lambda at: number(weights[at]) if at in weights else b""
        return b"".join(letter + mark(at) + weight(at) for at, letter in enumerate(letters, 1))

    def own_weights(self):
        """The weights of places that differ from the word's."""
        return {at: weight for at, weight in self.weights.items() if at < len(self.signs) and weight != self.weight}

    def behind(self, weight, text):
        """A text of this word as a line behind one whose word weight is the one given."""
        return (number(self.weight) if self.weight != weight else b"") + text

    def takes_part(self, table):
        """Whether the word is long enough for the minima."""
        return len(self.signs) >= table.left + table.right

    def reach(self, table):
        """The positions that the minima allow."""
        return range(table.left, len(self.signs) - table.right + 1)


def words_of(table, data, name):
    """The words of a dictionary file, line by line."""
    weight = 1
    for number, line in enumerate(lines_of(without_byte_order_mark(data, name)), 1):
        word = Word(number, line, weight)
        for spelling, digit, braced, mark in table.items(table.word_item, line, f"{name} line {number}"):
            at, value = len(word.signs), digit or braced
            if spelling:
                word.signs.append(table.signs[spelling])
            elif mark and at:
                word.marks[at] = mark
            elif value and at:
                word.weights[at] = int(value)
            elif value:
                word.weight, word.sets_weight = int(value), True
        weight = word.weight
        yield word


def entries_of(table, data, name):
    """The patterns of a pattern file as a map: from signs and the number of signs before a digit to the digit."""
    entries = {}
    refuse_tex(data, name)
    for number, line in enumerate(lines_of(without_byte_order_mark(data, name)), 1):
        signs, digits = [], {}
        for spelling, digit in table.items(table.pattern_item, line, f"{name} line {number}"):
            if spelling:
                signs.append(1 if spelling == b"." else table.signs[spelling])
            else:
                digits[len(signs)] = int(digit)
        for dot, digit in digits.items() if signs else ():
            key = (tuple(signs), dot)
            if digit:
                entries[key] = max(digit, entries.get(key, 0))
    if data.strip() and not entries:
        raise Trouble(f"{name} stands where PATTERNS is due, and has no pattern")
    return entries


def written(table, signs, digits):
    """A line of a pattern file: the signs, with these digits by the number of signs before them."""
    digit = lambda dot: b"%d" % digits[dot] if dot in digits else b""
    return b"".join(digit(dot) + table.first(sign) for dot, sign in enumerate(signs)) + digit(len(signs))


def pattern_file(table, entries):
    """The pattern file of entries, with its lines in the order of the program."""
    digits = {}
    for (signs, dot), value in entries.items():
        digits.setdefault(signs, {})[dot] = value
    return b"".join(written(table, signs, digits[signs]) + b"\n" for signs in sorted(digits))


class Matcher:
    """Finds which entries bear on the positions of a word."""

    def __init__(self, entries):
        self.by_signs = {}
        for (signs, dot), value in entries.items():
            self.by_signs.setdefault(signs, []).append((dot, value))
        self.lengths = sorted({len(signs) for signs in self.by_signs})

    def bearing(self, word):
        """For each position of the word that an entry bears on: the entries as (value, signs, dot), the greatest value first."""
        signs = (1, *word.signs, 1)
        found = {}
        for begin in range(len(signs)):
            for length in self.lengths:
                window = signs[begin : begin + length]
                for dot, value in self.by_signs.get(window, ()) if len(window) == length else ():
                    found.setdefault(begin + dot - 1, []).append((value, window, dot))
        return {at: sorted(them, key=lambda it: (-it[0], len(it[1]), it[1], it[2])) for at, them in found.items()}


def hyphenated(words, patterns, translate):
    """The lines of the hyphenated list that the program writes for a dictionary, given as bytes, by the patterns of a file."""
    with tempfile.TemporaryDirectory() as folder:
        place = lambda name: os.path.join(folder, name)
        write_bytes(place("words"), words)
        write_bytes(place("params"), b"2 1\n")  # no level is run
        run("generate", place("words"), patterns, place("out"), translate, place("params"), place("report"), "--pattmp", place("list"))
        return lines_of(read_bytes(place("list")))
