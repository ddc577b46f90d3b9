"""The tables of calls of patgen_rows, as crates/patgen_rows/data/FORMAT describes them, done by the rules that stand in rules_call."""

import itertools
import os
import re
import string

import rules_call
from rules_run import drawing, sample_lines, text_of

DATA = os.path.join(os.path.dirname(os.path.dirname(os.path.realpath(__file__))), "crates", "patgen_rows", "data")
STATUSES = {"Done": 0, "Yes": 0, "No": 1, "Usage": 2, "Refused": 3, "Fault": 4}
CONTENTS = ("content", "file", "after", "begins", "prints", "prints beginning", "prints ending")
IGNORED = ("calls", "puts")
PIECE = re.compile(rb"(>|\+|=|bytes|sample|letters|words|joined|cells|[0-9]+ times)( |$)")
STATEMENT = re.compile(rb"([a-z ]+?)( [A-Z-][^ :]*|):( |$)")
ESCAPES = {b"\\": b"\\", b"r": b"\r", b"t": b"\t", b"s": b" "}


def meant(text):
    """The bytes that a text of a table means."""
    return re.sub(rb"\\(x[0-9a-f]{2}|.)", lambda found: ESCAPES.get(found[1]) or bytes([int(found[1][1:], 16)]), text)


def spellings(count, length, letters):
    """So many spellings of this length over the first letters."""
    its = itertools.product((string.ascii_lowercase + string.ascii_uppercase)[:letters], repeat=length)
    return ["".join(spelled) for spelled in itertools.islice(its, count)]


def drawn_words(seed, count, letters, length, first):
    """Drawn words over these letters. A hyphen stands where the numbers of two letters add up to a multiple of three."""
    draw, names, lines = drawing(seed), spellings(letters, length, first), []
    for _ in range(count):
        numbers = [draw(letters) for _ in range(2 + draw(7))]
        joints = ["-" if (one + other) % 3 == 0 else "" for one, other in zip(numbers, numbers[1:])]
        lines.append(names[numbers[0]] + "".join(joint + names[at] for joint, at in zip(joints, numbers[1:])))
    return lines


def piece(text, contents):
    """The bytes of a piece, where contents are known by their names."""
    word, _, rest = text.partition(b" ")
    if word in (b">", b"+"):
        return meant(rest) + (b"\n" if word == b">" else b"")
    if word == b"=":
        return contents[rest.decode()]
    if word.isdigit():
        return piece(rest.partition(b" ")[2], contents) * int(word)
    if word == b"joined":
        first, second = (contents[name].decode().split(" ") for name in rest.decode().split())
        return "".join(f"{one}-{other}\r\n" for one in first for other in second).encode()
    numbers = list(map(int, rest.split()))
    if word == b"bytes":
        return bytes(numbers)
    if word == b"cells":
        return b"".join(at.to_bytes(2, "big") + bytes(8) for at in range(numbers[0] + 1))
    lines = {b"sample": sample_lines, b"words": drawn_words, b"letters": lambda *its: [" " + spelled for spelled in spellings(*its)]}
    return text_of(lines[word](*numbers))


def statements(table):
    """The statements of a table: the keyword, the name or what stands behind it, and the pieces."""
    found = []
    with open(os.path.join(DATA, table + ".rows"), "rb") as file:
        lines = [line for line in file.read().split(b"\n") if line and not line.startswith(b"#")]
    for line in lines:
        begun = None if PIECE.match(line) else STATEMENT.match(line)
        if not begun:
            found[-1][2].append(line)
            continue
        keyword, rest = begun[1].decode(), line[begun.end():]
        has_content = keyword in CONTENTS
        found.append((keyword, begun[2].decode().strip() if has_content else rest.decode(), [rest] if has_content and rest else []))
    return found


class Row:
    """A row: its files, and its calls with what is wanted of each. It is left out where it wants what only the program can show."""

    def __init__(self, title, files):
        self.title, self.files, self.calls, self.is_left_out = title, dict(files), [], False

    def add(self, keyword, what, content):
        wanted = self.calls[-1][2] if self.calls else None
        if keyword == "missing":
            del self.files[what]
        elif keyword in ("call", "also", "then"):
            wanted = dict(wanted) if keyword == "also" else {"after": {}, "begins": {}, "any": ()}
            self.calls.append((keyword, [b"" if word == "''" else word.encode() for word in what.split(" ") if word], wanted))
        elif keyword == "status":
            wanted["status"] = STATUSES.get(what)
        elif keyword in ("after", "begins"):
            wanted[keyword] = {**wanted[keyword], what: content}
        elif keyword == "any":
            wanted["any"] = (*wanted["any"], *what.split(" "))
        elif keyword in ("prints", "prints beginning", "prints ending"):
            wanted[keyword] = content
        elif keyword in ("same", "prints end of"):
            wanted[keyword] = (*wanted.get(keyword, ()), what.split(" "))
        elif keyword not in IGNORED and keyword != "prints anything":
            self.is_left_out = True

    def answers(self):
        """For each call: its arguments, what it prints by the rules, and what is wanted otherwise."""
        disk = None
        for keyword, words, wanted in self.calls:
            before = disk.held() if keyword == "then" else {name.encode(): content for name, content in self.files.items()}
            disk = rules_call.Disk(before)
            status, printed = rules_call.outcome(words, disk)
            yield words, printed, differing(wanted, status, printed, before, disk.held())


def differing(wanted, status, printed, before, after):
    """What a row wants otherwise of a call."""
    after = {name.decode(): content for name, content in after.items()}
    due = {**{name.decode(): content for name, content in before.items()}, **wanted["after"]}
    free = {*wanted["any"], *wanted["begins"], *(name for names in wanted.get("same", ()) for name in names)}
    found = [f"{name} holds {after.get(name)!r}" for name in due if after.get(name) != due[name] and name not in free]
    found += [f"{name} holds {after[name]!r}" for name, content in wanted["begins"].items() if not after[name].startswith(content)]
    found += [f"{one} and {other} differ" for one, other in wanted.get("same", ()) if after[one] != after[other]]
    found += [f"{names[0]} ends otherwise" for names in wanted.get("prints end of", ()) if not printed or not after[names[0]].endswith(printed)]
    if status != wanted["status"]:
        found.append(f"status {status}")
    is_right = (printed == wanted.get("prints", printed) and printed.startswith(wanted.get("prints beginning", b""))
                and printed.endswith(wanted.get("prints ending", b"")))
    return found if is_right else [*found, f"printed {printed!r}"]


def content_of(pieces, contents, times):
    """The bytes of pieces, or none where one stands more often than so many times."""
    for it in pieces:
        word, _, rest = it.partition(b" ")
        if word.isdigit() and int(word) > times or word == b"=" and contents[rest.decode()] is None:
            return None
    return b"".join(piece(it, contents) for it in pieces)


def rows_of(table, times=2**30):
    """The rows of a table that have calls and want nothing that only the program can show, without those that have a piece more often
    than so many times."""
    contents, files, rows = {}, {}, []
    for keyword, what, pieces in statements(table):
        content = content_of(pieces, contents, times)
        if keyword == "row":
            rows.append(Row(what, files))
        elif keyword == "content":
            contents[what] = content
        elif content is None:
            rows[-1].is_left_out = True
        elif keyword == "file":
            (rows[-1].files if rows else files)[what] = content
        else:
            rows[-1].add(keyword, what, content)
    return [row for row in rows if row.calls and not row.is_left_out]
