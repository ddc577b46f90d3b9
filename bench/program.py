"""What the scripts of this folder share: the built program, and folders with files."""

import os
import re
import signal
import subprocess
import sys

TIME = "/usr/bin/time"
HERE = os.path.dirname(os.path.dirname(os.path.abspath(__file__)))


def program():
    """The program's path: that of PATGEN, or the one of this checkout, which is built first where it has to be."""
    given = os.environ.get("PATGEN")
    if given:
        return os.path.abspath(given)
    if subprocess.run([os.path.join(HERE, "patgen"), "--build"], stdin=subprocess.DEVNULL, check=False).returncode:
        sys.exit("bench: the program isn't built")
    return os.path.join(HERE, "out", "patgen")


def put_files(folder, files):
    """Writes the files, a map from names to bytes, into the folder."""
    for name, content in files.items():
        with open(os.path.join(folder, name), "wb") as file:
            file.write(content)


def files_of(folder):
    """The regular files of a folder: a map from names to bytes."""
    found = {}
    for entry in os.scandir(folder):
        if entry.is_file(follow_symlinks=False):
            with open(entry.path, "rb") as file:
                found[entry.name] = file.read()
    return found


def lines(*texts):
    """A text of these lines."""
    return "".join(text + "\n" for text in texts).encode()


def example(checkout):
    """README's example: its commands, and what it says that they print."""
    with open(os.path.join(checkout, "README.md"), encoding="utf-8") as file:
        blocks = re.search(r"((?:    .*\n)+)\nIt prints\n\n((?:    .*\n)+)", file.read())
    if not blocks:
        sys.exit("bench: README has no example")
    return [re.sub(r"(?m)^    ", "", it) for it in blocks.groups()]


def measured(words, folder, seconds=None):
    """Runs the words in the folder under GNU time: the status (none where it took longer), what was printed, processor seconds, and
    the greatest memory in MB."""
    if not os.access(TIME, os.X_OK):
        sys.exit("bench: GNU time is not installed. On Debian: apt-get install time")
    cost = os.path.join(folder, "cost")
    timed = [TIME, "-q", "-o", cost, "-f", "%U %S %M", *words]
    with subprocess.Popen(timed, cwd=folder, stdin=subprocess.DEVNULL, stdout=subprocess.PIPE, stderr=subprocess.DEVNULL,
                          start_new_session=True) as started:
        try:
            printed, _ = started.communicate(timeout=seconds)
        except subprocess.TimeoutExpired:
            os.killpg(started.pid, signal.SIGKILL)
            return None, b"", float(seconds), 0.0
        except KeyboardInterrupt:  # it is in a session of its own, so it isn't stopped by the terminal
            os.killpg(started.pid, signal.SIGKILL)
            raise
    with open(cost, encoding="ascii") as file:
        user, system, memory = map(float, file.read().split())
    return started.returncode, printed, user + system, memory / 1000
