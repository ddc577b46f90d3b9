"""The file that libhyphen reads, a .dic: made of patterns and a translate file, read back, and tried with the library itself.

libhyphen is what LibreOffice hyphenates by. Its search finds at each letter of a word only the longest pattern that ends
there. So each pattern, and each beginning of one, needs the digits of all patterns that it ends with. substrings.pl, which comes with
libhyphen, completes patterns in this way, and `completed` does too.
"""

import codecs
import ctypes
import itertools
import os
import re
import tempfile

import hyphenation
from hyphenation import Trouble

LINE = 98  # bytes: libhyphen cuts a longer line in two
SIGNS = 32  # of a pattern of the program
PATTERNS = 500000  # as many are written at most
LIGATURES = "\ufb03\ufb04"  # libhyphen counts one letter more for each that a word begins with
OPTION = re.compile(r"(LEFTHYPHENMIN|RIGHTHYPHENMIN|COMPOUNDLEFTHYPHENMIN|COMPOUNDRIGHTHYPHENMIN|NOHYPHEN|NEXTLEVEL)(.*)")


def encoding_of(name):
    """The name of an encoding as libhyphen has it, and as Python has it."""
    try:
        codec = codecs.lookup(re.sub("^microsoft-", "", name, flags=re.IGNORECASE)).name
        plain = bytes(range(33, 127))
        is_known = plain.decode(codec).encode("ascii") == plain and len(name) <= 18 and (codec == "utf-8" or one_byte_each(codec))
    except (LookupError, UnicodeError):
        is_known = False
    if not is_known:
        raise Trouble(f"the encoding {name!r} is not UTF-8, and none with one byte for each letter that is known here")
    return ("UTF-8" if codec == "utf-8" else name), codec


def one_byte_each(codec):
    """Whether an encoding has one byte for each letter: then no two bytes are one."""
    return all(len(bytes((at, at)).decode(codec, errors="replace")) == 2 for at in range(33, 256))


def spellings_of(table):
    """For each sign of a table the letters that libhyphen meets. It knows no capitals: its callers give it small letters. So these are
    the spellings in small letters, or the first one where all are capitals."""
    found = {1: ["."]}
    for sign, spellings in enumerate(table.letters, 2):
        try:
            texts = [spelling.decode() for spelling in spellings]
        except UnicodeDecodeError:
            raise Trouble(f"the letter {spellings[0]!r} of the translate file is not UTF-8") from None
        found[sign] = [text for text in texts if text == text.lower()] or texts[:1]
    return found


def refuse_letters(spelled):
    """Refuses what a pattern of libhyphen cannot have, or what it counts otherwise."""
    for text in (text for texts in spelled.values() for text in texts):
        if len(text) > 1:
            raise Trouble(f"the letter {text} has {len(text)} characters. libhyphen counts each of them for the minima")
        if text in LIGATURES:
            raise Trouble(f"the letter {text} is refused: libhyphen counts it as two for the left minimum")
        if text == "/" or text <= " ":
            raise Trouble(f"the letter {text!r} is refused: a pattern of libhyphen cannot have it")


def texts_of(table, entries):
    """Patterns as a map from texts to their digits, these by the number of characters before them. A pattern with several spellings is
    there in each of them. What no word has is left out: an edge inside a pattern, and a digit outside of the word."""
    spelled, found = spellings_of(table), {}
    refuse_letters(spelled)
    for (signs, dot), value in entries.items():
        is_outside = (signs[0] == 1 and dot == 0) or (signs[-1] == 1 and dot == len(signs))
        if 1 in signs[1:-1] or set(signs) == {1} or is_outside:
            continue
        for characters in itertools.product(*(spelled[sign] for sign in signs)):
            digits = found.setdefault("".join(characters), {})
            digits[dot] = max(value, digits.get(dot, 0))
        if len(found) > PATTERNS:
            raise Trouble(f"there are more than {PATTERNS} patterns, each counted in all its spellings")
    return found


def completed(patterns):
    """Patterns with the digits that libhyphen's search needs: each beginning of a pattern, and each whole one, with its own digits and
    those of all patterns that it ends with."""
    known = {text[:length] for text in patterns for length in range(1, len(text) + 1)}
    found = {}
    for text in sorted(known, key=len):
        digits = dict(patterns.get(text, ()))
        begin = next((begin for begin in range(1, len(text)) if text[begin:] in known), len(text))
        for dot, value in found.get(text[begin:], {}).items():
            digits[begin + dot] = max(value, digits.get(begin + dot, 0))
        found[text] = digits
    return {text: digits for text, digits in found.items() if digits}


def without_implied(patterns):
    """Patterns without the digits that a pattern inside of them has too."""
    found = {}
    for text, digits in patterns.items():
        inside = {}
        for begin, end in itertools.combinations(range(len(text) + 1), 2):
            for dot, value in patterns.get(text[begin:end], {}).items() if end - begin < len(text) else ():
                inside[begin + dot] = max(value, inside.get(begin + dot, 0))
        own = {dot: value for dot, value in digits.items() if value > inside.get(dot, 0)}
        if own:
            found[text] = own
    return found


def line_of(text, digits, codec):
    """A line of a .dic. A digit 0 keeps it from being read as a comment or an option."""
    line = "".join(f"{digits.get(dot, '')}{character}" for dot, character in enumerate(text)) + str(digits.get(len(text), ""))
    try:
        content = ("0" if line[0] in "%#" or OPTION.match(line) else "").encode() + line.encode(codec)
    except UnicodeEncodeError as wrong:
        raise Trouble(f"the pattern {line}: the encoding {codec} has no {line[wrong.start]}") from None
    if len(content) > LINE:
        raise Trouble(f"the pattern {line} has {len(content)} bytes, and libhyphen reads at most {LINE}")
    return content


def exceptions_of(table, data, name):
    """The words of a file of exceptions, one in a line as `ta-ble`, as a map from their signs to the numbers of letters before hyphens."""
    found = {}
    for number, line in enumerate(hyphenation.lines_of(data), 1):
        signs, hyphens = [], set()
        for piece in re.split(b"[ \t]", line)[0].split(b"-"):
            hyphens.add(len(signs))
            for spelling, digit in table.items(table.pattern_item, piece, f"{name} line {number}"):
                if digit or spelling == b".":
                    raise Trouble(f"{name} line {number}: {line.decode(errors='replace')} is no exception")
                signs.append(table.signs[spelling])
        if signs:
            found[tuple(signs)] = hyphens - {0, len(signs)}
    return found


def word_of(signs):
    """A word of these signs, without marks."""
    word = hyphenation.Word(0, b"", 1)
    word.signs = list(signs)
    return word


def with_exceptions(table, entries, exceptions):
    """Patterns, and with them one for each exception that they break otherwise: the whole word, with digits where they are wrong."""
    matcher, found = hyphenation.Matcher(entries), dict(entries)
    for signs, hyphens in exceptions.items():
        word = word_of(signs)
        bearing = matcher.bearing(word)
        values = {at: bearing[at][0][0] if at in bearing else 0 for at in word.reach(table)}
        wrong = {at: value + 1 for at, value in values.items() if value % 2 != (at in hyphens)}
        if 10 in wrong.values():
            raise Trouble(f"the exception {word.letters(table).decode(errors='replace')} has no hyphen where a pattern has the digit 9, "
                          "and no digit is greater")
        found.update({((1, *signs, 1), at + 1): value for at, value in wrong.items()})
    return found


def dic_of(table, entries, exceptions, encoding):
    """The bytes of a .dic. Without its line NEXTLEVEL libhyphen would break words with an apostrophe or a hyphen by a level of its own."""
    name, codec = encoding_of(encoding)
    patterns = completed(texts_of(table, with_exceptions(table, entries, exceptions)))
    head = [name, f"LEFTHYPHENMIN {table.left}", f"RIGHTHYPHENMIN {table.right}", "NEXTLEVEL"]
    lines = [line.encode() for line in head] + [line_of(text, digits, codec) for text, digits in sorted(patterns.items())]
    return b"".join(line + b"\n" for line in lines)


class Dic:
    """What libhyphen reads of a .dic: its encoding, minima, whether it has NEXTLEVEL, and its patterns with their digits. Of two lines
    for the same letters the last counts. Two levels, NOHYPHEN and other spellings at a break are refused."""

    def __init__(self, data, name):
        lines = hyphenation.lines_of(data)
        _, self.codec = encoding_of(lines[0].decode(errors="replace") if lines else "")
        self.minima, self.has_next_level, self.patterns, first, forbids = [2, 2], False, {}, None, None
        for number, content in enumerate(lines[1:], 2):
            where = f"{name} line {number}"
            line = self.text_of(content, where)
            option = OPTION.match(line)
            if option and option.group(1) == "NEXTLEVEL":
                if self.has_next_level:
                    break
                self.has_next_level = True
                if first or forbids:
                    raise Trouble(f"{first or forbids} before NEXTLEVEL: a file of two levels, which patterns alone cannot say")
            elif option and not self.has_next_level:
                self.take(option.group(1), option.group(2))
                forbids = f"{where}: NOHYPHEN stands" if option.group(1) == "NOHYPHEN" else forbids
            elif not option and self.add(line, where):
                first = first or f"{where}: a pattern stands"

    def text_of(self, content, where):
        """A line as text: nothing of a comment."""
        ends = [content[at:] for at in range(LINE + 1, len(content), LINE + 1)]
        if content.startswith(b"%") and not any(re.match(b"[^\0- ]*[0-9]", end) for end in ends):
            return ""
        if ends:
            raise Trouble(f"{where} has {len(content)} bytes. libhyphen reads {LINE + 1} at a time, and takes the rest for another pattern")
        try:
            return content.decode(self.codec)
        except UnicodeDecodeError:
            raise Trouble(f"{where} is not in the encoding that the first line names") from None

    def take(self, option, value):
        """Takes a minimum. As in libhyphen, nothing that is a number above 0 means 2."""
        found = re.match(r"[ \t]*\+?([0-9]+)", value)
        if option in ("LEFTHYPHENMIN", "RIGHTHYPHENMIN"):
            self.minima[option == "RIGHTHYPHENMIN"] = int(found.group(1)) or 2 if found else 2

    def add(self, line, where):
        """Adds a pattern, and says whether it has a digit. Without one a line does nothing, such as a comment with #."""
        text, digits = "", {}
        for character in re.split("[\0- /]", line)[0]:
            if character in "0123456789":
                digits[len(text)] = int(character)
            else:
                text += character
        digits = {dot: digit for dot, digit in digits.items() if digit}
        if "/" in line and digits:
            raise Trouble(f"{where}: {line} changes the spelling at a break, which patterns cannot say")
        if ("{" in text or len(text) > SIGNS) and digits:
            raise Trouble(f"{where}: {line} has the letter {{ or more than {SIGNS} letters, which no pattern of the program has")
        if text:
            self.patterns[text] = digits
        return bool(text and digits)

    def incomplete(self):
        """How many of the patterns that its search needs lack digits of those that they end with."""
        return sum(self.patterns.get(text) != digits for text, digits in completed(self.patterns).items())

    def translate(self):
        """The translate file of its minima and of the letters of those patterns that have digits."""
        letters = set("".join(text for text, digits in self.patterns.items() if digits)) - {"."}
        if max(self.minima) > 99:
            raise Trouble(f"the minimum {max(self.minima)} is more than a translate file can have, which is 99")
        return hyphenation.drafted(letters, *self.minima)

    def entries(self, table):
        """Its patterns under this table, without the digits that the completion added."""
        sign = lambda character: 1 if character == "." else table.signs[character.encode()]
        return {(tuple(map(sign, text)), dot): value for text, digits in without_implied(self.patterns).items() for dot, value in digits.items()}


class Library:
    """libhyphen.so itself, with a .dic, which it reads from a file."""

    def __init__(self, content):
        try:
            self.hyphen = ctypes.CDLL("libhyphen.so.0")
        except OSError:
            raise Trouble("libhyphen.so.0 is not installed. On Debian: apt-get install libhyphen0") from None
        self.hyphen.hnj_hyphen_load.restype = ctypes.c_void_p
        _, self.codec = encoding_of(content.split(b"\n")[0].decode(errors="replace").strip())
        with tempfile.TemporaryDirectory() as folder:
            path = os.path.join(folder, "dic")
            hyphenation.write_bytes(path, content)
            self.dic = ctypes.c_void_p(self.hyphen.hnj_hyphen_load(path.encode()))

    def breaks(self, text):
        """Where it breaks a word, as numbers of letters before the breaks."""
        word = text.encode(self.codec)
        found, unused = ctypes.create_string_buffer(len(word) + 5), [ctypes.c_void_p() for _ in range(3)]
        if self.hyphen.hnj_hyphen_hyphenate2(self.dic, word, len(word), found, None, *map(ctypes.byref, unused)):
            raise Trouble(f"libhyphen does not take the word {text}")
        return {at for at in range(1, len(text)) if found.raw[at - 1] % 2}


def program_breaks(table, words, patterns, translate):
    """Where the program breaks words by the patterns of a file."""
    lines = iter(hyphenation.hyphenated(b"".join(word.letters(table) + b"\n" for word in words), patterns, translate))
    taken = [next(lines) if word.takes_part(table) else b"" for word in words]
    marked = hyphenation.words_of(table, b"".join(line + b"\n" for line in taken), "the hyphenated list")
    return [word.at(table, table.error, table.found) for word in marked]


def compared(table, words, wanted, breaks):
    """The words that a client breaks in another way than is wanted: each with its pieces as they are wanted, and as they are. `breaks`
    says where the client breaks a text."""
    spelled, differing = spellings_of(table), []
    for word, places in zip(words, wanted):
        text = "".join(spelled[sign][0] for sign in word.signs)
        found = breaks(text)
        if found != places:
            pieces = lambda them: "".join(letter + "-" * (at in them) for at, letter in enumerate(text, 1))
            differing.append({"wanted": pieces(places), "found": pieces(found)})
    return differing
