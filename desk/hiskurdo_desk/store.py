"""The catalogue, one SQLite file: its schema, how it is opened, how a scan is put into it. docs/DESK.md documents it."""
import contextlib
import os
import sqlite3
import stat
import struct
import time

from . import Trouble

APPLICATION, VERSION = 0x48736B72, 1  # "Hskr"
MAGIC = b"SQLite format 3\0"
HOT = bytes.fromhex("d9d505f920a163d7")  # how SQLite's journal begins once pages are written; before that with zeros
BESIDE = {"-journal": (HOT, bytes(8)), "-wal": (b"\x37\x7f\x06\x82", b"\x37\x7f\x06\x83")}
AT_ONCE, SOON, LATE = 0.5, 10, 60  # seconds to wait for others: as a scan begins, as a reader or with a note, as a scan ends
COLUMNS = "path, folder, run, state, step, steps, what, failed, board, line, words, row"
TABLES = """
CREATE TABLE scan (id INTEGER PRIMARY KEY, began TEXT NOT NULL, ended TEXT NOT NULL, roots TEXT NOT NULL,
                   runs INTEGER NOT NULL, vanished INTEGER NOT NULL);
CREATE TABLE run (id INTEGER PRIMARY KEY, path BLOB NOT NULL UNIQUE, folder TEXT NOT NULL, run TEXT, state TEXT NOT NULL,
                  step INTEGER, steps INTEGER, what TEXT, failed INTEGER, board TEXT, line TEXT NOT NULL, words TEXT NOT NULL,
                  row BLOB NOT NULL, first_seen TEXT NOT NULL, changed TEXT NOT NULL, last_seen TEXT NOT NULL, vanished TEXT);
CREATE TABLE change (id INTEGER PRIMARY KEY, run_id INTEGER NOT NULL REFERENCES run, at TEXT NOT NULL, before BLOB, after BLOB);
CREATE INDEX change_run ON change (run_id);
CREATE TABLE note (path BLOB PRIMARY KEY, text TEXT NOT NULL, written TEXT NOT NULL);
CREATE TABLE place (path BLOB PRIMARY KEY, target BLOB NOT NULL);
CREATE VIEW runs AS
    SELECT run.id, run.path, folder, run, state, step, steps, what, failed, board, line, words,
           first_seen, changed, last_seen, vanished, note.text AS note, note.written AS note_written
    FROM run LEFT JOIN note ON note.path = run.path ORDER BY run.path;
"""
FRESH = """
CREATE TEMP TABLE fresh (path BLOB NOT NULL, folder TEXT, run TEXT, state TEXT, step INTEGER, steps INTEGER, what TEXT,
                         failed INTEGER, board TEXT, line TEXT, words TEXT, row BLOB, now TEXT);
"""
# Stores rows that are new, or other than the stored ones. `now` is when this scan began.
STORE = f"""INSERT INTO main.run ({COLUMNS}, first_seen, changed, last_seen) %s
    ON CONFLICT (path) DO UPDATE SET folder = excluded.folder, run = excluded.run, state = excluded.state, step = excluded.step,
        steps = excluded.steps, what = excluded.what, failed = excluded.failed, board = excluded.board, line = excluded.line,
        words = excluded.words, row = excluded.row, changed = excluded.changed, last_seen = excluded.last_seen, vanished = NULL"""
VALUES = "VALUES (?1, ?2, ?3, ?4, ?5, ?6, ?7, ?8, ?9, ?10, ?11, ?12, ?13"
MERGE = f"""
INSERT INTO change (run_id, at, before, after)
    SELECT r.id, :now, CASE WHEN r.vanished IS NULL THEN r.row END, f.row FROM fresh AS f JOIN run AS r ON r.path = f.path;
{STORE % f"SELECT {COLUMNS}, now, now, now FROM fresh WHERE true ORDER BY path"};
"""
END = """
INSERT INTO change (run_id, at, before, after) SELECT id, :now, NULL, row FROM run WHERE id > :known ORDER BY id;
UPDATE run SET last_seen = :now WHERE id <= :known AND last_seen <> :now AND is_seen(id);
CREATE TEMP TABLE gone AS SELECT id FROM run WHERE id <= :known AND vanished IS NULL AND NOT is_seen(id) AND is_gone(path);
INSERT INTO change (run_id, at, before, after) SELECT id, :now, row, NULL FROM run WHERE id IN (SELECT id FROM gone) ORDER BY id;
UPDATE run SET vanished = :now, changed = :now WHERE id IN (SELECT id FROM gone);
"""


def now():
    """The time, as the catalogue keeps it: UTC, whole seconds."""
    return time.strftime("%Y-%m-%dT%H:%M:%SZ", time.gmtime())


@contextlib.contextmanager
def told(path):
    """Says an error of SQLite in words."""
    try:
        yield
    except sqlite3.Error as e:
        words = {5: f"{path} is being written by another scan or program: nothing was changed; try again when it has ended",
                 8: f"{path} cannot be written: nothing was changed",
                 10: f"{path}: reading or writing failed ({e}): nothing was changed",
                 11: f"{path} is damaged ({e}): nothing was changed",
                 13: f"no room on the disk of {path} or of temporary files: nothing was changed",
                 14: f"{path} cannot be opened",
                 26: f"{path} is no catalogue of hiskurdo: it is no database"}
        raise Trouble(words.get(getattr(e, "sqlite_errorcode", 0) & 255, f"{path}: {e}")) from None


def head(path, count):
    """A file's first bytes and its length; None where there is no file. What is no regular file is not opened."""
    try:
        mode = os.stat(path).st_mode
        if not stat.S_ISREG(mode) and not stat.S_ISDIR(mode):
            raise Trouble(f"{path} is no regular file")
        with open(path, "rb") as file:
            return file.read(count), os.fstat(file.fileno()).st_size
    except FileNotFoundError:
        return None, 0
    except OSError as e:
        raise Trouble(f"{path}: {e.strerror}") from None


def looked_at(path):
    """Looks at the file's header before SQLite opens it, so that another program's file is never touched. False where there is
    nothing yet."""
    header, length = head(path, 100)
    real = os.path.realpath(path)
    beside = {end: head(real + end, 8)[0] for end in BESIDE}
    log = beside["-journal"]  # where it is there, a writer was cut off or is at work: SQLite knows what to do
    torn = log == HOT and header and (not header.strip(b"\0") or len(header) < 100 and header.startswith(MAGIC))
    if header and not torn:
        checked_header(path, header, length, log is not None)
    for end, begins in BESIDE.items():
        if beside[end] and not beside[end].startswith(begins):
            raise Trouble(f"{real}{end} is no log of SQLite, which would delete it: nothing was changed")
    return bool(header) or header is not None and log is not None


def checked_header(path, header, length, cut):
    if len(header) < 100 or not header.startswith(MAGIC):
        raise Trouble(f"{path} is no catalogue of hiskurdo: it is no database")
    counter, pages, version, application, valid = struct.unpack_from(">24xII28xI4xI20xI", header)
    known(path, application, version)
    size = struct.unpack_from(">H", header, 16)[0]
    if not cut and counter == valid and pages * (65536 if size == 1 else size) > length:
        raise Trouble(f"{path} is cut short: it should have {pages * size} bytes and has {length}")


def known(path, application, version):
    if application != APPLICATION or version < 1:
        raise Trouble(f"{path} is no catalogue of hiskurdo: it is a database of another program")
    if version > VERSION:
        raise Trouble(f"{path} has the schema {version}, which this version of hiskurdo does not know: it knows {VERSION}")


def connected(path, mode, wait):
    """Every byte of the name is written in hex, since the name is a part of a URI."""
    name = "".join(f"%{byte:02x}" for byte in os.fsencode(os.path.abspath(path)))
    catalogue = sqlite3.connect(f"file:{name}?mode={mode}", uri=True, isolation_level=None, timeout=wait)
    catalogue.row_factory = sqlite3.Row
    return catalogue


def is_empty(catalogue):
    return not catalogue.execute("SELECT count(*) FROM sqlite_master").fetchone()[0]


def checked(catalogue, path):
    known(path, *(catalogue.execute(f"PRAGMA {name}").fetchone()[0] for name in ("application_id", "user_version")))


@contextlib.contextmanager
def opened(path):
    """The catalogue, for reading, or for a change of notes within `whole`."""
    lacking = Trouble(f"no catalogue at {path}: run hiskurdo scan ROOT first")
    if not looked_at(path):
        raise lacking
    with told(path), contextlib.closing(connected(path, "rw", SOON)) as catalogue:
        if is_empty(catalogue):
            raise lacking
        checked(catalogue, path)
        yield catalogue


@contextlib.contextmanager
def whole(catalogue):
    """One transaction: all of it is kept, or nothing."""
    catalogue.execute("BEGIN IMMEDIATE")
    try:
        yield
        catalogue.execute("COMMIT")
    finally:
        if catalogue.in_transaction:
            catalogue.execute("ROLLBACK")


@contextlib.contextmanager
def scanning(path):
    """A new scan's place in the catalogue, within one transaction; the catalogue is made where there is none."""
    looked_at(path)
    for place in (path, os.path.dirname(os.path.realpath(path))):
        if os.path.exists(place) and not os.access(place, os.W_OK):
            raise Trouble(f"{path} cannot be written: nothing was changed")
    with told(path), contextlib.closing(connected(path, "rwc", AT_ONCE)) as catalogue:
        catalogue.execute("PRAGMA temp_store = FILE")
        with whole(catalogue):
            if is_empty(catalogue):
                made(catalogue)
            checked(catalogue, path)
            catalogue.execute(f"PRAGMA busy_timeout = {LATE * 1000}")
            yield Stored(catalogue)


def made(catalogue):
    for part in TABLES.split(";\n"):
        catalogue.execute(part)
    catalogue.execute(f"PRAGMA application_id = {APPLICATION}")
    catalogue.execute(f"PRAGMA user_version = {VERSION}")


class Stored:
    """What is stored, and what a scan puts there. Rows that differ from the stored ones wait in a temporary table on the disk
    until the end, so that others can read meanwhile. A catalogue without runs has no readers: there they are stored at once."""

    def __init__(self, catalogue):
        self.catalogue, self.now = catalogue, now()
        self.known = catalogue.execute("SELECT coalesce(max(id), 0) FROM run").fetchone()[0]
        self.seen = bytearray(self.known + 1)  # by a run's id: was it seen?
        catalogue.execute(FRESH)
        self.put = f"INSERT INTO fresh {VALUES})" if self.known else STORE % f"{VALUES}, ?13, ?13)"

    def differing(self, folders, rows):
        """Those folders, with their rows, that are not stored as they are now. The others are noted as seen."""
        if not self.known:
            yield from zip(folders, rows)
            return
        asked = ", ".join("?" * len(folders))
        stored = self.catalogue.execute(f"SELECT path, id, row, vanished FROM run WHERE path IN ({asked})", folders)
        stored.row_factory = None
        stored = {path: rest for path, *rest in stored}
        for path, row in zip(folders, rows):
            number, before, vanished = stored.get(path, (0, None, None))
            self.seen[number] = 1
            if before != row or vanished:
                yield path, row

    def keep(self, rows):
        self.catalogue.executemany(self.put, rows)

    def end(self, is_gone):
        """Puts all of the scan into the catalogue. `is_gone(path)` says of a run that was not seen whether it has vanished.
        How many runs have changed, new ones among them, and how many have vanished."""
        last = self.catalogue.execute("SELECT coalesce(max(id), 0) FROM change").fetchone()[0]
        self.catalogue.create_function("is_gone", 1, is_gone)
        self.catalogue.create_function("is_seen", 1, self.seen.__getitem__)
        for part in (MERGE + END if self.known else END).split(";\n"):
            self.catalogue.execute(part, {"now": self.now, "known": self.known})
        gone = self.catalogue.execute("SELECT count(*) FROM gone").fetchone()[0]
        return self.catalogue.execute("SELECT count(*) FROM change WHERE id > ?", (last,)).fetchone()[0] - gone, gone
