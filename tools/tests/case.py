"""What the tests share: the scripts and the examples, and a test that runs a script in a folder of its own."""

import os
import shutil
import subprocess
import tempfile
import unittest

TOOLS = os.path.dirname(os.path.dirname(os.path.realpath(__file__)))
EXAMPLES = os.path.join(os.path.dirname(TOOLS), "examples")
PROGRAM = os.path.abspath(os.environ.get("PATGEN") or os.path.join(os.path.dirname(TOOLS), "patgen"))
HYPH_UTF8 = "/usr/share/texlive/texmf-dist/tex/generic/hyph-utf8/patterns"
NO = "/dev/null"


class Case(unittest.TestCase):
    """A test in a folder of its own."""

    def setUp(self):
        made = tempfile.TemporaryDirectory()
        self.addCleanup(made.cleanup)
        self.folder = os.path.realpath(made.name)
        os.mkdir(self.path("tmp"))
        self.environment = dict(os.environ, PATGEN=PROGRAM, TOOLS=TOOLS, TMPDIR=self.path("tmp"), LC_ALL="C.UTF-8")
        self.environment.pop("MAKEFLAGS", None)

    def path(self, name):
        """A file of the folder."""
        return os.path.join(self.folder, name)

    def put(self, name, content):
        """Makes a file."""
        with open(self.path(name), "wb") as file:
            file.write(content if isinstance(content, bytes) else content.encode())
        return name

    def read(self, name):
        """The bytes of a file."""
        with open(self.path(name), "rb") as file:
            return file.read()

    def run_script(self, script, *words, given=b""):
        """Runs a script of the folder above: its status, standard output and standard error."""
        whole = [script if os.path.isabs(script) else os.path.join(TOOLS, script), *words]
        done = subprocess.run(whole, cwd=self.folder, env=self.environment, input=given, stdout=subprocess.PIPE, stderr=subprocess.PIPE, check=False)
        return done.returncode, done.stdout.decode(errors="surrogateescape"), done.stderr.decode(errors="surrogateescape")

    def prints(self, text, script, *words, status=0, given=b""):
        """Whether a script prints this text, with this status."""
        found = self.run_script(script, *words, given=given)
        self.assertEqual((found[0], found[1]), (status, text), found[2])
        return found[2]

    def refuses(self, why, script, *words, given=b""):
        """Whether a script prints nothing, says why, and has the status 2."""
        status, printed, said = self.run_script(script, *words, given=given)
        self.assertEqual((status, printed), (2, ""), said)
        self.assertIn(why, said)
        self.assertNotIn("Traceback", said)

    def example(self, name):
        """A copy of a file of the examples."""
        return shutil.copy(os.path.join(EXAMPLES, name), self.folder) and os.path.basename(name)

    def imitate(self, name, *lines):
        """Makes a program of shell lines in the folder `bin`, which is the first one in which programs are sought."""
        os.makedirs(self.path("bin"), exist_ok=True)
        self.put(f"bin/{name}", "#!/bin/sh\n" + "".join(line + "\n" for line in lines))
        os.chmod(self.path(f"bin/{name}"), 0o755)
        if not self.environment["PATH"].startswith(self.path("bin")):
            self.environment["PATH"] = self.path("bin") + ":" + self.environment["PATH"]
        return self.path(f"bin/{name}")
