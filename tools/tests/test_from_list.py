"""Tests of tools/from_list. bench/old_lists compares it with what the makefile of spell-norwegian makes of its list."""

import gzip
import os
import subprocess
import tempfile
import unittest

TOOL = os.path.join(os.path.dirname(os.path.dirname(os.path.abspath(__file__))), "from_list")


def made(lines, *words):
    """What the script prints on standard output and standard error for a list on standard input."""
    content = lines if isinstance(lines, bytes) else "".join(line + "\n" for line in lines).encode()
    done = subprocess.run([TOOL, *words], input=content, stdout=subprocess.PIPE, stderr=subprocess.PIPE, check=True)
    return done.stdout.decode().split("\n")[:-1], done.stderr.decode().split("\n")[:-1]


class FromList(unittest.TestCase):
    def test_fields_and_marks(self):
        lines = ["# a comment", "Abbau;Ab<bau # x", "Tal;-2-;Thal;Tal", "Zucker;Zu{ck/k-k}er", "Weg;-2-;Weg", "Wachstube;Wach[s=/=s]tu-be", "A4;A4"]
        found, said = made(lines, "--separator", ";", "--fields", "2,4", "--remove", " #.*")
        self.assertEqual(found, ["Ab-bau", "Tal", "Zucker"])
        self.assertEqual(said, ["from_list: 3 words", "from_list: 1 lines have no word in the fields, and are left out; the first is line 5",
                                "from_list: 1 lines have [..], which can be read in two ways, and are left out; the first is line 6",
                                "from_list: 1 lines have 4, which is no letter in a dictionary, and are left out; the first is line 7",
                                "from_list: 1 marks <"])

    def test_a_dictionary_for_each_kind_of_mark(self):
        lines = ['bar-ne--hage---as-si-stent 20', 'spi"sslede * 3 B', "b-?il"]
        with tempfile.TemporaryDirectory() as folder:
            name = os.path.join(folder, "list")
            found, said = made(lines, "--each", name, "--dont-care=-?", "--frequency")
            self.assertEqual((found, len(said)), ([], 4))
            contents = []
            for at in (1, 2, 3):
                with open(f"{name}.{at}.dic", encoding="ascii") as file:
                    contents.append(file.read().split())
        self.assertEqual(contents, [["2bar-nehageas-si-stent", "1spisslede", "b?il"], ["2barne-hageassistent", "1spisslede", "b?il"],
                                    ["2barnehage-assistent", "1spisslede", "b?il"]])

    def test_weights(self):
        lines = ["a 9", "b * 10 B", "c", "d 123456789012"]
        self.assertEqual(made(lines, "--frequency")[0], ["a", "2b", "1c", "9d"])
        self.assertEqual(made(lines, "--frequency", "--steps", "1,2,3,4,5,6,7,8,9,10")[0], ["{10}a", "{11}b", "1c", "{11}d"])
        self.assertEqual(made(lines)[0], ["a", "b", "c", "d"])

    def test_lines_that_are_left_out(self):
        found, said = made(["a4", "gar=den", "b4", "wa-ter  the #old one", "ap[p-ple"], "--skip", "#old", "--marks", "-")
        self.assertEqual(found, ["gar=den"])
        self.assertEqual(said, ["from_list: 1 words", "from_list: 2 lines have 4, which is no letter in a dictionary, and are left out; the first is line 1",
                                "from_list: 1 lines have [..], which can be read in two ways, and are left out; the first is line 5"])

    def test_packed_and_in_another_encoding(self):
        packed = gzip.compress("gär=ten\n".encode("latin-1"))
        self.assertEqual(made(packed, "--encoding", "latin1")[0], ["gär-ten"])


if __name__ == "__main__":
    unittest.main()
