"""The rules of PatGen once more, for the cells of patterns: where they lie, and the packed tables that have them."""

import struct

from rules_read import SIGNS_MAX, TABLE_LIMIT


class Layout:
    """Families by their prefixes, each a base and signs. Used cells and bases are the bits of a number."""

    def __init__(self, count):
        self.gap = max(255, count)
        self.families, self.known = {}, set(map(chr, range(1, count + 1)))
        self.used, self.bases = (1 << count + 1) - 2, 1

    def top(self):
        return self.used.bit_length() - 1

    def taken(self):
        return bin(self.used).count("1")

    def enter(self, string):
        for end in range(1, len(string)):
            if string[:end + 1] not in self.known:
                self.known.add(string[:end + 1])
                self.add(string[:end], ord(string[end]))

    def add(self, prefix, sign):
        """Adds a sign to the family of a prefix."""
        base, signs = self.families.get(prefix, (0, []))
        if base and not self.used >> base + sign & 1:
            self.used |= 1 << base + sign
            signs.append(sign)
            return
        if base:
            self.bases ^= 1 << base
            self.used ^= sum(1 << base + it for it in signs)
        signs.append(sign)
        blocked = self.bases
        for it in signs:
            blocked |= self.used >> it
        low = max(1, self.top() - self.gap) if len(signs) > 4 else 1
        free = ~blocked >> low
        base = low + (free & -free).bit_length() - 1
        self.bases |= 1 << base
        self.used |= sum(1 << base + it for it in signs)
        self.families[prefix] = base, signs

    def end_level(self, patterns):
        """Takes the cells of strings that begin no string of the patterns."""
        kept = {string[:end] for string in patterns.strings for end in range(1, len(string) + 1)}
        for prefix, (base, signs) in list(self.families.items()):
            for sign in [it for it in signs if prefix + chr(it) not in kept]:
                self.used ^= 1 << base + sign
                self.known.remove(prefix + chr(sign))
                signs.remove(sign)
            if not signs:
                self.bases ^= 1 << base
                del self.families[prefix]


def laid_out(count, patterns):
    """The layout of patterns that are entered one after the other."""
    layout = Layout(count)
    for string in sorted(patterns.strings):
        layout.enter(string)
    return layout


def outputs(patterns, string):
    """The list of a string: its dots and values."""
    return tuple(sorted(patterns.strings[string].items()))


def records_of(patterns):
    """The different ends of the lists, numbered as they are first met, the shortest of a list first."""
    records = {}
    for string in sorted(patterns.strings):
        dots = outputs(patterns, string)
        for i in range(len(dots) - 1, -1, -1):
            records.setdefault(dots[i:], len(records) + 1)
    return records


def packed(count, patterns):
    """The packed table, or none where it is too long."""
    layout, records = laid_out(count, patterns), records_of(patterns)
    cells = [bytes(10)] * (layout.top() + 1)
    if 16 + 10 * len(cells) + 6 * len(records) > TABLE_LIMIT:
        return None
    for prefix, (base, signs) in {"": (0, range(1, count + 1)), **layout.families}.items():
        for sign in signs:
            string = prefix + chr(sign)
            head = records[outputs(patterns, string)] if string in patterns.strings else 0
            cells[base + sign] = struct.pack(">HII", sign, layout.families.get(string, (0,))[0], head)
    text = [b"PGT1", struct.pack(">III", count, len(cells), len(records)), *cells]
    for dots in records:
        text.append(struct.pack(">BBI", dots[0][1], dots[0][0], records.get(dots[1:], 0)))
    return b"".join(text)


class Packed:
    """A packed table file, or one that is not well formed."""

    def __init__(self, data):
        self.is_right = len(data) >= 16 and data[:4] == b"PGT1"
        if not self.is_right:
            return
        self.signs, cells, records = struct.unpack_from(">III", data, 4)
        self.is_right = len(data) == 16 + 10 * cells + 6 * records and 1 <= self.signs <= SIGNS_MAX and cells > self.signs
        if not self.is_right:
            return
        self.cells = list(struct.iter_unpack(">HII", data[16:16 + 10 * cells]))
        self.records = [(0, 0, 0), *struct.iter_unpack(">BBI", data[16 + 10 * cells:])]
        self.is_right = (
            self.cells[0] == (0, 0, 0)
            and all(self.cells[sign][0] == sign for sign in range(1, self.signs + 1))
            and all((sign or (child, head) == (0, 0)) and sign <= self.signs and child < cells and head <= records
                    for sign, child, head in self.cells)
            and all(1 <= value <= 9 and dot <= 32 and behind < at for at, (value, dot, behind) in enumerate(self.records) if at))

    def values(self, signs):
        """The value of each position of a word."""
        values = [0] * (len(signs) + 1)
        for begin in range(len(signs)):
            base = 0
            for end in range(begin + 1, min(len(signs), begin + 32) + 1):
                cell = base + ord(signs[end - 1])
                if cell >= len(self.cells) or self.cells[cell][0] != ord(signs[end - 1]):
                    break
                _, base, head = self.cells[cell]
                while head:
                    value, dot, head = self.records[head]
                    if dot <= end - begin:
                        values[begin + dot] = max(values[begin + dot], value)
                if not base:
                    break
        return values
