"""What bench/hostile draws by the number of a call: its arguments, its files, and what stands in their way."""

import random

import rules_call
from hostile_files import DrawnFiles
from rules_read import TABLE_LIMIT, Refused, params_of

COMMANDS = [b"generate", b"audit", b"sample", b"pack", b"totals", b"prune", b"sweep"]
SHARES = [30, 20, 3, 11, 13, 13, 10]


class Draw(DrawnFiles):
    """The arguments and files of a call."""

    def __init__(self, number):
        super().__init__(random.Random(number))
        self.files, self.folders, self.links, self.twins = {}, [], {}, {}
        self.words = self.call()

    def call(self):
        """The arguments, and the files that they name."""
        command = self.random.choices(COMMANDS, SHARES)[0]
        if command == b"sample":
            words = [command, b"%d" % self.up_to(self.one([9, 2**31 - 1])), b"%d" % self.one([0, 1, 2, 3, 5, 8, 13, 30])]
        else:
            words = self.with_files(command)
            if self.is_one_of(8):
                self.trouble(words)
        return self.odd_words(words) if self.is_one_of(12) else words

    def with_files(self, command):
        self.files[b"T"] = self.translate()
        dictionary = self.dictionary() if command != b"pack" else b"" if self.is_one_of(2) else self.dictionary()
        self.files[b"P"] = self.patterns(dictionary if isinstance(dictionary, bytes) else b"")
        if command == b"pack":
            return [command, b"P", b"T", b"B"]
        self.files[b"D"] = dictionary
        if command == b"totals":
            self.files[b"B"] = self.packed_table(self.files.pop(b"P"))
            if self.is_one_of(1000):
                self.files[b"B"] = self.one([TABLE_LIMIT, TABLE_LIMIT + 1])
            return [command, b"D", b"T", b"B"]
        if command == b"sweep":
            return self.sweep_words()
        if self.is_one_of(2) and command != b"audit":
            self.files.update({name: self.one([b"x", b"old\n" * 9]) for name in (b"O", b"R", b"M")})
        if command == b"prune":
            return [command, b"D", b"P", b"O", b"T", b"R"]
        self.files[b"A"] = self.params()
        words = [command, b"D", b"P", b"O", b"T", b"A", b"R"]
        if self.is_one_of(2):
            words += [b"--pattmp", b"M"]
        if command == b"audit":
            self.given_texts()
        elif self.is_one_of(3):
            words += [b"--cells", b"C"]
            if self.is_one_of(3):
                words[7:] = words[-2:] + words[7:-2]
        return words

    def sweep_words(self):
        """The arguments of `sweep`, and its parameter files."""
        count = self.one([1, 1, 2, 2, 3, 4]) if not self.is_one_of(100) else self.one([16, 17])
        names = [b"A%d" % number for number in range(1, count + 1)]
        self.files.update({name: self.params() for name in names})
        numbers = [self.one([b"2", b"2", b"3", b"3", b"5", b"02", b"10"]), self.one([b"1", b"3", b"1000", b"0007"]), self.one([b"1", b"2", b"999"])]
        if self.is_one_of(30):
            numbers[self.up_to(2)] = self.one([b"002", b"0", b"1", b"11", b"00001", b"1001", b"1000", b"10"])
        return [b"sweep", b"D", b"P", b"O", b"T", *numbers, *names]

    def given_texts(self):
        """The files that `audit` compares: those of the rules, and sometimes damaged ones."""
        disk = rules_call.Disk(self.files)
        status, _ = rules_call.outcome([b"generate", b"D", b"P", b"O", b"T", b"A", b"R", b"--pattmp", b"M"], disk)
        held = disk.held() if status == 0 else {b"O": b"a1b\n", b"M": b"", b"R": b"x"}
        for name in (b"O", b"M", b"R"):
            text = held[name]
            if self.is_one_of(8):
                text = self.damaged(text)
            if self.is_one_of(20):
                text += self.one([b"\n", b"z" * 300, b"z" * 200 + b"\n", b"z" * 201, b"\xff" * 250 + b"\n", b"a1b\n", b" ", text, text * 9])
            self.files[name] = text

    # What stands in the way, and arguments that are none.

    def trouble(self, words):
        """Takes a file away, or puts a folder, a link or a second name in its place."""
        kind = self.up_to(7)
        names = [name for name in words[1:] if name in self.files]
        name = self.one(names or [b"T"])
        place = self.up_to(len(words) - 2) + 1
        if kind == 0:
            self.files.pop(name, None)
        elif kind == 1:
            name = self.one([it for it in words[1:] if len(it) < 3 and not it.isdigit()])
            self.files.pop(name, None)
            self.folders.append(name)
        elif kind == 2:
            words[place] = b"./" * self.one([1, 1, 2, 50]) + words[place] if not words[place].startswith(b"--") else words[place]
        elif kind == 3:
            self.links[b"link"] = self.one([name, b"none", b"link", b"./" + name, b"link2"])
            self.links[b"link2"] = self.one([name, b"O", b"R"])
            words[place] = b"link"
        elif kind == 4:
            self.twins[b"twin"] = name
            words[place] = b"twin"
        elif kind == 5:
            words[place] = self.one([b"none/O", b"T/x", b"x/", b"n" * 255, b"n" * 256, b"/dev/null", b"/dev/null", b"/dev/full" if self.is_one_of(20) else b"/dev/null", b".", b"-", b"-x"])
        elif kind == 6:
            words[place] = self.one(["ä", "a b", "a\nb", "\x1b[31m", "\u202e", "x" * 120, "D", "O", "P"]).encode()
        else:
            words[place] = words[self.up_to(len(words) - 2) + 1]
        if any(twin not in self.files for twin in self.twins.values()):
            self.twins.clear()

    def odd_words(self, words):
        """Arguments with one left out, put in, changed or moved."""
        words, kind, at = list(words), self.up_to(6), self.up_to(len(words) - 1)
        if kind == 0:
            del words[at]
        elif kind == 1:
            words.insert(at, self.one([b"", b"x", b"--pattmp", b"--cells", b"--help", b"--", b"-", b"O", b"1"]))
        elif kind == 2:
            words[at] = self.one([b"", b"--x", b"--pattmp", b"--cells", b"generate", b"-x", b"0", b"1", b"00000000001", b"0000000001", b"2147483648", b"100001", b"\xff",
                                  b"+1", b"1x", "\u0661".encode(), b"11", b"1001", b"Sweep", b"99999999999999999999"])
        elif kind == 3:
            words += self.one([[b"--pattmp"], [b"--pattmp", b"M2"], [b"--cells", b"C2"], [b"--cells", b"C2", b"--pattmp", b"M2"], [b"--pattmp", b"D"], [b"x"], [b""],
                               [b"--pattmp", b"--cells"], [b"--pattmp=M"], [b"--cells", b"O"]])
        elif kind == 4:
            other = self.up_to(len(words) - 1)
            words[at], words[other] = words[other], words[at]
        elif kind == 5:
            words = words[:at]
        else:
            words[at] = self.one([b"sample", b"pack", b"totals", b"prune", b"audit", b"help", b"--version", words[at].upper(), words[-1]])
        return words


def passes_of(content):
    """How many passes a parameter file asks for, where it is one."""
    try:
        return sum(longest * (longest + 3) // 2 - (shortest - 1) * (shortest + 2) // 2 for shortest, longest, *_ in params_of(content)[2])
    except (Refused, TypeError):
        return 0


def size_of(draw):
    """What the time of a call may grow with: the bytes of its files, and those of the dictionary for each pass that is asked for."""
    lengths = {name: content if isinstance(content, int) else len(content) for name, content in draw.files.items()}
    passes = sum(passes_of(content) for name, content in draw.files.items() if name.startswith(b"A"))
    folds = int(draw.words[5]) if draw.words[:1] == [b"sweep"] and draw.words[5:6] and draw.words[5].isdigit() else 1
    again = lengths.get(b"P", 0) if draw.words[:1] == [b"prune"] else 0
    return sum(lengths.values()) + lengths.get(b"D", 0) * (passes * folds + again)
