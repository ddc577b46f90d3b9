"""What `release`, `check-release` and `changed` share: the file of facts, and the files of a release.

The file of facts says what the files of a release need beside the patterns, a line `KEY: TEXT` each. A line that begins with a blank
goes on with the text before it, and one that begins with # says nothing. docs/RELEASE.md lists the keys.
"""

import hashlib
import json
import os
import re
import subprocess
import unicodedata

import hyphenation
import libhyphen_dic

ONE = ("name", "tag", "babelname", "minima", "encoding", "licence", "source", "version", "copyright", "list", "release", "pruned", "weights",
       "capitals")
MANY = ("author", "change", "synonym", "level", "double")
MUST = ("name", "tag", "licence", "author")
MANIFEST = "manifest.json"
# The encodings for which TeX Live has macros that read UTF-8.
ENCODINGS = "ascii ec il2 il3 l7x lmc lth qx t2a t8m none".split()
APOSTROPHE, CURLY = b"'", "’".encode()


class Facts:
    """A file of facts."""

    def __init__(self, path):
        self.path = path
        self.folder = os.path.dirname(os.path.abspath(path))
        self.one, self.many, self.lines = {}, {key: [] for key in MANY}, {}
        key = None
        for number, line in enumerate(hyphenation.lines_of(hyphenation.read_bytes(path)), 1):
            try:
                text = line.decode()
            except UnicodeDecodeError:
                raise hyphenation.Trouble(f"{path} line {number}: it is not in UTF-8") from None
            if text.startswith("#"):
                continue
            if text[:1].isspace() and text.strip():
                self.go_on(key, number, text.strip())
            elif text.strip():
                key = self.begin(number, text)
            elif key:
                self.go_on(key, number, "")
        for need in MUST:
            if not self.one.get(need) and not self.many.get(need):
                raise hyphenation.Trouble(f"{path}: there is no line `{need}: ..`")
        if not re.fullmatch(r"[a-z]{2,3}(-[a-z0-9]+)*", self.one["tag"]):
            raise hyphenation.Trouble(f"{path} line {self.lines['tag']}: a tag is as in hyph-utf8, such as `de-1996`, in small letters")
        if self.encoding not in ENCODINGS:
            raise hyphenation.Trouble(f"{path} line {self.lines['encoding']}: the encoding is one of {', '.join(ENCODINGS)}")

    def begin(self, number, text):
        """Takes a line with a key, and gives the key."""
        found = re.fullmatch(r"([a-z]+):\s*(.*?)\s*", text)
        key = found and found[1]
        if key not in ONE and key not in MANY:
            raise hyphenation.Trouble(f"{self.path} line {number}: a line is `KEY: TEXT`, with one of the keys {', '.join((*ONE, *MANY))}")
        if key in MANY:
            self.many[key].append(found[2])
        elif key in self.one:
            raise hyphenation.Trouble(f"{self.path} line {number}: {key} stands there twice")
        else:
            self.one[key] = found[2]
        self.lines.setdefault(key, number)
        return key

    def go_on(self, key, number, text):
        """Takes a line that goes on with a text."""
        if not key:
            raise hyphenation.Trouble(f"{self.path} line {number}: it goes on with no line before it")
        if key in MANY:
            self.many[key][-1] += "\n" + text
        else:
            self.one[key] += "\n" + text

    @property
    def encoding(self):
        return self.one.get("encoding", "none")

    @property
    def babelname(self):
        return self.one.get("babelname") or re.sub(r"[^a-z]", "", self.one["name"].lower())

    def text(self, key):
        """The text of a key that stands there at most once, without empty lines at its end."""
        return self.one.get(key, "").rstrip("\n")

    def texts(self, key):
        return [text.rstrip("\n") for text in self.many[key]]

    def is_yes(self, key):
        return self.one.get(key, "no") == "yes"

    def place(self, name):
        """The path of a file that the facts name."""
        return name if os.path.isabs(name) else os.path.join(self.folder, name)

    def minima(self, table):
        """The minima for typesetting. They may be greater than those of the table."""
        given = self.one.get("minima", f"{table.left} {table.right}").split()
        if len(given) != 2 or not all(it.isdigit() for it in given):
            raise hyphenation.Trouble(f"{self.path} line {self.lines['minima']}: the minima are two numbers, such as `2 3`")
        left, right = map(int, given)
        if left < table.left or right < table.right:
            raise hyphenation.Trouble(f"{self.path} line {self.lines['minima']}: minima below the translate file's {table.left} and {table.right} "
                                      "would break words where no pattern was tried")
        return left, right

    def levels(self):
        """The runs that made the patterns, each as (parameters, start, patterns, report or none, list or none)."""
        for text in self.many["level"]:
            names = text.split()
            if not 3 <= len(names) <= 5:
                raise hyphenation.Trouble(f"{self.path}: `level: {text}` is not `level: PARAMS START PATTERNS [REPORT [LIST]]`")
            yield (*map(self.place, names), *[None] * (5 - len(names)))

    def doubles(self):
        """For each word that may stand in the list in several forms, these forms."""
        return [set(text.split()) for text in self.many["double"]]


def sum_of(path):
    """The SHA-256 of a file."""
    return hashlib.sha256(hyphenation.read_bytes(path)).hexdigest()


def curly(text):
    """A text with the other apostrophe."""
    return text.replace(APOSTROPHE, CURLY)


class Release:
    """The files of a release: patterns and exceptions under a table, with the facts of their language."""

    def __init__(self, facts, patterns, translate, exceptions=None):
        self.without = None  # why there is no file for libhyphen
        self.facts, self.names = facts, {"patterns": patterns, "translate": translate, "exceptions": exceptions}
        self.table = hyphenation.table_of(translate)
        self.minima = facts.minima(self.table)
        self.entries = hyphenation.entries_of(self.table, hyphenation.read_bytes(patterns), patterns)
        if not self.entries:
            raise hyphenation.Trouble(f"{patterns}: there is no pattern")
        self.letters = [[it.decode() for it in spellings] for spellings in self.table.letters]
        for spelling in (it for spellings in self.letters for it in spellings):
            if len(spelling) > 1:
                raise hyphenation.Trouble(f"{translate}: TeX has no letter of several characters, as {spelling}")
        self.patterns = [line for line in hyphenation.lines_of(hyphenation.read_bytes(patterns)) if line]
        words = hyphenation.read_bytes(exceptions) if exceptions else b""
        self.hyphens = libhyphen_dic.exceptions_of(self.table, words, exceptions)
        given = [line.split()[0] for line in hyphenation.lines_of(words) if line.strip()]
        self.exceptions = list(map(self.in_reach, given))
        self.out_of_reach = [word for word, kept in zip(given, self.exceptions) if word != kept]  # exceptions that lose a hyphen
        self.has_curly = any(APOSTROPHE in line for line in self.patterns) and not any(CURLY in line for line in self.patterns)

    def in_reach(self, word):
        """An exception without the hyphens that the minima forbid. LuaTeX would break at them all the same."""
        pieces, at = word.decode().split("-"), 0
        last, kept = sum(map(len, pieces)) - self.minima[1], ""
        for piece in pieces[:-1]:
            at += len(piece)
            kept += piece + "-" * (self.minima[0] <= at <= last)
        return (kept + pieces[-1]).encode()

    def doubled(self, lines):
        """Lines, and behind each one with an apostrophe the same one with the other apostrophe."""
        return [it for line in lines for it in ([line, curly(line)] if self.has_curly and APOSTROPHE in line else [line])]

    def head(self):
        """What a file for TeX says of itself: YAML behind `% `."""
        facts, quoted = self.facts, lambda text: json.dumps(text, ensure_ascii=False)
        block = lambda text, blanks: [" " * blanks + line if line else "" for line in text.split("\n")]
        lines = [f"title: {quoted('Hyphenation patterns for ' + facts.text('name'))}"]
        lines += [f"copyright: {quoted(facts.text('copyright'))}"] if facts.text("copyright") else []
        lines += ["language:", f"    name: {quoted(facts.text('name'))}", f"    tag: {quoted(facts.text('tag'))}"]
        lines += [f"version: {quoted(facts.text('version'))}"] if facts.text("version") else []
        lines.append("authors:")
        for author in facts.texts("author"):
            name, contact = re.fullmatch(r"([^<]*?)\s*(?:<(.*)>)?\s*", author).groups()
            lines += ["  -", f"    name: {quoted(name)}"] + ([f"    contact: {quoted(contact)}"] if contact else [])
        lines += ["licence:", "    text: |-", *block(facts.text("licence"), 8), "hyphenmins:"]
        for title, (left, right) in (("generation", (self.table.left, self.table.right)), ("typesetting", self.minima)):
            lines += [f"    {title}:", f"        left: {left}", f"        right: {right}"]
        lines += [f"source: {quoted(facts.text('source'))}"] if facts.text("source") else []
        lines += ["changes:", *(f"    - {quoted(it)}" for it in facts.texts("change"))] if facts.texts("change") else []
        lines += ["texlive:", f"    encoding: {facts.encoding}", f"    babelname: {facts.babelname}",
                  f"    message: {quoted(self.title())}"]
        return [f"% {line}".rstrip() for line in lines]

    def title(self):
        return f"{self.facts.text('name')} hyphenation patterns"

    def tex(self):
        """The file of patterns and exceptions for TeX."""
        lines = [*(line.encode() for line in self.head()), b"\\patterns{", *self.patterns, b"}"]
        return lines + ([b"\\hyphenation{", *self.exceptions, b"}"] if self.exceptions else [])

    def quote(self):
        """The patterns with the other apostrophe, for a TeX that reads UTF-8."""
        lines = [curly(line) for line in self.patterns if APOSTROPHE in line]
        return [b"\\bgroup", b"\\lccode`\\\xe2\x80\x99=`\\\xe2\x80\x99", b"\\patterns{", *lines, b"}", b"\\egroup"]

    def lower_cases(self):
        """Settings of lower cases that no format has: of letters that are none in Unicode, and of spellings that are no capital."""
        first = [(first, first) for first, *_ in self.letters if unicodedata.category(first)[0] not in "LM"]
        return first + [(spelling, first) for first, *others in self.letters for spelling in others if spelling.lower() != first]

    def loader(self):
        """The file that TeX reads while a format is made."""
        tag, title, encoding = self.facts.text("tag"), self.title(), self.facts.encoding
        code = lambda pair: f'    \\lccode"{ord(pair[0]):04X}="{ord(pair[1]):04X}'
        ascii_codes = [code(pair)[4:] for pair in self.lower_cases() if max(pair) < "\x80"]
        others = [code(pair) for pair in self.lower_cases() if max(pair) >= "\x80"]
        eight = [f"    \\message{{No {title} - only for Unicode engines}}"] if encoding == "none" else [
            f"    \\message{{{encoding.upper()} {title}}}", *([] if encoding == "ascii" else [f"    \\input conv-utf8-{encoding}.tex"]),
            f"    \\input hyph-{tag}.tex"]
        return [line.encode() for line in (
            "\\begingroup", *ascii_codes, "% pTeX gets no patterns.", "\\ifx\\kanjiskip\\undefined",
            "% A TeX that reads UTF-8 takes the letter Tau for one argument, and any other takes its two bytes for two.",
            "\\def\\testengine#1#2!{\\def\\secondarg{#2}}\\testengine Τ!\\relax", "\\ifx\\secondarg\\empty",
            f"    \\message{{UTF-8 {title}}}", *others, f"    \\input hyph-{tag}.tex",
            *([f"    \\input hyph-quote-{tag}.tex"] if self.has_curly else []), "\\else", *eight, "\\fi\\else",
            f"    \\message{{No {title} in pTeX}}", "\\fi", "\\endgroup")]

    def lua(self):
        """The entry of language.dat.lua."""
        tag, (left, right) = self.facts.text("tag"), self.minima
        synonyms = ", ".join(f"'{it}'" for it in self.facts.texts("synonym"))
        return [line.encode() for line in (
            f"  ['{self.facts.babelname}'] = {{", f"    loader = 'loadhyph-{tag}.tex',", f"    lefthyphenmin = {left},",
            f"    righthyphenmin = {right},", f"    synonyms = {{ {synonyms} }},", f"    patterns = 'hyph-{tag}.pat.txt',",
            f"    hyphenation = '{f'hyph-{tag}.hyp.txt' if self.exceptions else ''}',", "  },")]

    def files(self):
        """The files, by their names, each as its bytes. The manifest is not among them."""
        tag, (left, right), facts = self.facts.text("tag"), self.minima, self.facts
        found = {
            f"hyph-{tag}.tex": self.tex(),
            f"hyph-{tag}.pat.txt": self.doubled(self.patterns),
            f"hyph-{tag}.hyp.txt": self.doubled(self.exceptions),
            f"hyph-{tag}.chr.txt": ["".join(spellings).encode() for spellings in self.letters],
            f"hyph-{tag}.lic.txt": [line.encode() for line in (*self.head(),)],
            f"loadhyph-{tag}.tex": self.loader(),
            "lines.dat": [f"{facts.babelname} loadhyph-{tag}.tex".encode(), *(f"={it}".encode() for it in facts.texts("synonym"))],
            "lines.def": [f"\\addlanguage{{{it}}}{{loadhyph-{tag}.tex}}{{}}{{{left}}}{{{right}}}".encode()
                          for it in (facts.babelname, *facts.texts("synonym"))],
            "lines.dat.lua": self.lua(),
        }
        if self.has_curly:
            found[f"hyph-quote-{tag}.tex"] = self.quote()
        made = {name: b"".join(line + b"\n" for line in lines) for name, lines in found.items()}
        try:
            made[f"hyph_{tag.replace('-', '_')}.dic"] = libhyphen_dic.dic_of(self.table, self.entries, self.hyphens, "UTF-8")
        except hyphenation.Trouble as trouble:
            self.without = str(trouble)
        return made

    def inputs(self):
        """What the release was made from, as (role, path): the facts, the files of this call, and those that the facts name."""
        facts = self.facts
        named = [("facts", facts.path), *((role, path) for role, path in self.names.items() if path)]
        named += [("list", facts.place(facts.one["list"]))] if "list" in facts.one else []
        for params, start, patterns, *_ in facts.levels():
            named += [("parameters", params), ("start", start), ("level", patterns)]
        return list(dict.fromkeys((role, path) for role, path in named if not os.path.abspath(path) == os.devnull))

    def manifest(self, program):
        """The manifest: the program's version, the sums of the inputs and of the outputs."""
        name = lambda path: os.path.relpath(path, self.facts.folder)
        listed = [{"role": role, "name": name(path), "sha256": sum_of(path)} for role, path in self.inputs()]
        outputs = [{"name": it, "sha256": hashlib.sha256(text).hexdigest()} for it, text in sorted(self.files().items())]
        text = json.dumps({"program": program, "inputs": listed, "outputs": outputs}, indent=1, ensure_ascii=False)
        return (text + "\n").encode()


def version():
    """What the script `patgen` says of itself, line by line. The program alone says nothing of this."""
    done = subprocess.run([hyphenation.program(), "--version"], stdin=subprocess.DEVNULL, stdout=subprocess.PIPE, stderr=subprocess.DEVNULL, check=False)
    return [] if done.returncode else done.stdout.decode(errors="replace").split("\n")[:-1]
