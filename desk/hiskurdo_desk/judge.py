"""Asks index about run folders, many at once."""
import os
import re
import shutil
import subprocess
import tempfile

from . import STATES, Trouble

FIELDS = 10
MOST = 4096  # bytes of a name that index shows
CONTROLS = re.compile(rb"\xc2[\x80-\x9f]|[\x00-\x1f\x7f]")
NO_ROOM = "no room for temporary files"


def find(given, launcher):
    """Where index is: as given, or by HISKURDO_INDEX, or beside the launcher, or built in the clone, or on PATH."""
    named = given or os.environ.get("HISKURDO_INDEX")
    if named:
        found = shutil.which(os.path.join(os.curdir, named)) or shutil.which(named)
        if not found:
            raise Trouble(f"{named}: there is no such program")
        return found
    beside = os.path.join(launcher, "hiskurdo-index"), os.path.join(launcher, "..", "target", "bin", "index")
    found = next(filter(None, map(shutil.which, beside)), None) or shutil.which("hiskurdo-index")
    if not found:
        raise Trouble("index is not found: build it (link/programs), or say where it is by --index or HISKURDO_INDEX")
    return found


class Judge:
    """index at work on a batch of folders. It reads and writes files, so it never waits for this process."""

    def __init__(self, index):
        self.index, self.process, self.folders = index, None, []
        self.asked, self.out, self.err = (tempfile.TemporaryFile(buffering=0) for _ in range(3))

    def start(self, folders):
        """Starts index on these folders."""
        self.folders = folders
        for file in (self.asked, self.out, self.err):
            file.seek(0)
            file.truncate()
        asked = b"\0".join(folders) + b"\0"
        if self.asked.write(asked) != len(asked):
            raise Trouble(NO_ROOM)
        self.asked.seek(0)
        try:
            self.process = subprocess.Popen([self.index, "-0"], stdin=self.asked, stdout=self.out, stderr=self.err)
        except OSError as e:
            raise Trouble(f"{self.index}: {e.strerror}") from None

    def answer(self):
        """Waits for index. The folders; a row for each, its line feed included; what index said of files that it could not
        read."""
        status = self.process.wait()
        self.out.seek(0)
        self.err.seek(0)
        rows = [row + b"\n" for row in self.out.read().split(b"\n")]
        if status or rows.pop() != b"\n" or len(rows) != len(self.folders):
            raise Trouble(f"{self.index} gave {len(rows)} rows for {len(self.folders)} folders, with status {status}: "
                          f"it is broken, of another version than this command, or there is {NO_ROOM}")
        for path, row in zip(self.folders, rows):
            if not row.startswith(path + b"\t") and not row.startswith(shown(path) + b"\t"):
                raise Trouble(f"{self.index} gave a row of another folder than {os.fsdecode(path)}: {row!r}")
        return self.folders, rows, self.err.read()

    def stop(self):
        if self.process:
            self.process.kill()
            self.process.wait()


def shown(path):
    """A path as index shows it. It begins with a slash, so no mark stands first."""
    return CONTROLS.sub(lambda found: b"?" * len(found[0]), path[:MOST])


def columns(path, row, now):
    """What the catalogue keeps of one row: the folder's path, the ten fields (None where empty), the row itself, the time.
    Bytes that are no UTF-8 are replaced in the fields; the row is as index gave it."""
    try:
        folder, run, state, step, steps, what, failed, board, line, words = row[:-1].decode("utf-8", "replace").split("\t")
    except ValueError:
        raise Trouble(f"index gave a row of {row.count(9) + 1} fields, not {FIELDS}: {row!r}") from None
    if state not in STATES:
        raise Trouble(f"index gave a row with the unknown state {state!r}: {row!r}")
    return (path, folder, run or None, state, step or None, steps or None, what or None, failed or None, board or None, line,
            words, row, now)
