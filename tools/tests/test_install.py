"""Tests of `install`, in a checkout of the scripts and pages with a program that stands in for the built one."""

import os
import shutil
import subprocess
import unittest

from case import EXAMPLES, TOOLS, Case

HOME = os.path.dirname(TOOLS)


@unittest.skipUnless(os.path.exists(os.path.join(HOME, "install")), "it is not part of an installation")
class Install(Case):
    def setUp(self):
        super().setUp()
        os.mkdir(self.path("home"))
        for name in ("install", "VERSION", "README.md", "CONTRIBUTING.md"):
            shutil.copy(os.path.join(HOME, name), self.path("home"))
        shutil.copytree(TOOLS, self.path("home/tools"), ignore=shutil.ignore_patterns("__pycache__"))
        shutil.copytree(os.path.join(HOME, "docs"), self.path("home/docs"))
        shutil.copytree(os.path.join(EXAMPLES, "tex"), self.path("home/examples/tex"))
        os.mkdir(self.path("home/out"))
        for name in ("patgen", "patgen.sum", "patgen.toolchain"):
            self.put(f"home/out/{name}", name)
        shutil.copy(self.imitate("patgen", "echo version 0; echo commit 0123abc"), self.path("home/patgen"))
        self.environment.pop("PATGEN")

    def install(self, *words, status=0):
        """Calls install. It gives what stands on standard error."""
        done = self.run_script(self.path("home/install"), *words)
        self.assertEqual(done[0], status, done[2])
        return done[2]

    def files(self, below="p"):
        """The files and folders below a folder, with what the links lead to."""
        found = {}
        for folder, folders, files in os.walk(self.path(below)):
            for name in (*folders, *files):
                path = os.path.join(folder, name)
                found[os.path.relpath(path, self.path(below))] = os.readlink(path) if os.path.islink(path) else os.path.isdir(path)
        return found

    def test_what_is_installed(self):
        self.install("p")
        found = self.files()
        self.assertEqual((found["bin/patgen-proved"], found["bin/patgen-proved-tools"]), ("../share/patgen/patgen", "../share/patgen/tools/tools"))
        self.assertEqual({it for it in found if it.startswith("bin/")}, {"bin/patgen-proved", "bin/patgen-proved-tools"})
        pages = {f"docs/{it}" for it in os.listdir(self.path("home/docs")) if it.endswith((".md", ".svg"))}
        wanted = {"share/man/man1/patgen-proved.1", "share/patgen/installed", "share/patgen/build/commit", "share/patgen/patgen", "share/patgen/VERSION",
                  *(f"share/patgen/out/{it}" for it in ("patgen", "patgen.sum", "patgen.toolchain")), "bin/patgen-proved", "bin/patgen-proved-tools",
                  *(f"share/doc/patgen-proved/{it}" for it in ("README.md", "CONTRIBUTING.md", *pages)),
                  *(f"share/patgen/examples/tex/{it}" for it in os.listdir(self.path("home/examples/tex"))),
                  *(f"share/patgen/tools/{it}" for it in os.listdir(TOOLS) if it not in ("tests", "__pycache__"))}
        self.assertEqual({it for it, kind in found.items() if kind is not True}, wanted)
        self.assertEqual(self.read("p/share/patgen/build/commit"), b"0123abc\n")
        done = subprocess.run([self.path("p/bin/patgen-proved-tools"), "check-list", self.put("d", "gar-den\n"), "/dev/null"], cwd=self.folder, check=False)
        self.assertEqual(done.returncode, 0)

    def test_another_name(self):
        self.install("p", "--name", "hy-phen")
        self.assertEqual(self.files()["bin/hy-phen"], "../share/patgen/patgen")
        page = self.read("p/share/man/man1/hy-phen.1").decode()
        wanted = self.read("home/docs/patgen.1").decode().replace("PATGEN\\-PROVED", "HY\\-PHEN").replace("patgen\\-proved", "hy\\-phen").replace("patgen-proved", "hy-phen")
        self.assertEqual(page, wanted)
        self.install("p")
        self.assertEqual({it for it in self.files() if "hy-phen" in it}, set())
        for name in ("", "-x", ".x", "a b", "a/b"):
            self.assertIn("a name has letters", self.install("q", "--name", name, status=1))
        self.assertFalse(os.path.exists(self.path("q")))

    def test_removing(self):
        os.mkdir(self.path("p"))
        before = self.files()
        self.install("p/q/r")
        self.install("p/q/r")
        self.install("--remove", "p/q/r")
        self.assertEqual(self.files(), before)
        self.assertIn("nothing is installed under", self.install("--remove", "p", status=1))
        self.install("p")
        self.put("p/bin/other", "")
        os.mkdir(self.path("p/share/patgen/tools/__pycache__"))
        self.put("p/share/patgen/tools/__pycache__/x.pyc", "")
        self.install("--remove", "p")
        self.assertEqual(self.files(), {"bin": True, "bin/other": False})

    def test_files_of_others(self):
        os.makedirs(self.path("p/bin"))
        self.put("p/bin/patgen-proved-tools", "other")
        before = self.files()
        self.assertIn("patgen-proved-tools is there already, and was not installed by this script. --name gives another name", self.install("p", status=1))
        self.assertEqual(self.files(), before)
        os.remove(self.path("p/bin/patgen-proved-tools"))
        os.makedirs(self.path("p/share/patgen/tools"))
        self.put("p/share/patgen/tools/why", "other")
        before = self.files()
        self.assertIn("why is there already, and was not installed by this script", self.install("p", status=1))
        self.assertEqual((self.files(), self.read("p/share/patgen/tools/why")), (before, b"other"))

    def test_arguments(self):
        for words in ([], ["p", "q"], ["p", "--name"], ["--remove"], ["--remove", "p", "q"], ["-x"], [""], ["--archive", "-x"], ["--remove", "-x"]):
            self.assertIn("usage: install PREFIX", self.install(*words, status=2))
        self.assertIn("an archive is made in a checkout", self.install("--archive", "a", status=1))
        os.chmod(self.imitate("patgen", "exit 6"), 0o755)
        shutil.copy(self.path("bin/patgen"), self.path("home/patgen"))
        self.install("p", status=1)
        self.assertFalse(os.path.exists(self.path("p")))


if __name__ == "__main__":
    unittest.main()
