"""The command line: what is asked, and with which exit status it ends."""
import argparse
import contextlib
import os
import re
import shutil
import signal
import stat
import sys
import tempfile
import time

from . import STATES, Trouble, VERSION, store, tables

PAGE = b"<!DOCTYPE html>"  # how a page begins
STATUS = "exit status: 0; 1 where a run is refused (scan) or a line is not taken over (import-notes); 2 on an error"


def moment(text):
    """A date, or a full time in UTC, as the catalogue keeps times."""
    for form, end in (("%Y-%m-%d", "T00:00:00Z"), ("%Y-%m-%dT%H:%M:%SZ", "")):
        try:
            time.strptime(text, form)
        except ValueError:
            continue
        if re.fullmatch(r"\d{4}-\d\d-\d\d(T\d\d:\d\d:\d\dZ)?", text, re.ASCII):
            return text + end
    raise argparse.ArgumentTypeError(f"{text!r} is no date: give YYYY-MM-DD, or a time in UTC as 2026-11-18T02:35:00Z")


def named(text):
    """A name of a file or a folder. An empty one would mean the current folder."""
    if not text:
        raise argparse.ArgumentTypeError("the name is empty")
    return text


class Parser(argparse.ArgumentParser):
    """A parser whose errors do nothing to a terminal, whatever the arguments are."""

    def error(self, message):
        super().error(tables.harmless(message))


def parser():
    common = Parser(add_help=False)
    common.add_argument("--db", metavar="FILE", type=named, default=os.environ.get("HISKURDO_DB") or "hiskurdo.db",
                        help="the catalogue, an SQLite file (else HISKURDO_DB, else hiskurdo.db)")
    top = Parser(prog="hiskurdo", epilog=STATUS,
                 description="Keeps a catalogue of sequencing runs: which may be resumed, and at which step.")
    top.add_argument("--version", action="version", version=f"hiskurdo {VERSION}")
    commands = top.add_subparsers(dest="command", metavar="COMMAND", required=True)

    def command(name, words):
        return commands.add_parser(name, parents=[common], help=words, description=words[0].upper() + words[1:] + ".")

    one = command("scan", "find the run folders beneath ROOT, judge them and store the answers")
    one.add_argument("roots", metavar="ROOT", nargs="+")
    one.add_argument("--index", metavar="PATH", help="the program index (else HISKURDO_INDEX, else the one installed or built)")
    one.add_argument("--page", metavar="OUT.html", type=named, help="write the page too, after the scan")
    one = command("list", "list the runs")
    which = one.add_mutually_exclusive_group()
    which.add_argument("--state", choices=(*STATES, "vanished"), help="only those in this state")
    which.add_argument("--refused", dest="state", action="store_const", const="refused", help="only those that are refused")
    which.add_argument("--all", action="store_true", help="vanished ones too")
    one.add_argument("--changed-since", metavar="DATE", type=moment, help="only those whose answer changed since then (UTC)")
    one.add_argument("--csv", action="store_true", help="as CSV, every column, for a spreadsheet")
    one = command("history", "each time a run's answer changed, from what to what")
    one.add_argument("folder", metavar="FOLDER", type=named)
    one = command("note", "write the note of a run; an empty TEXT takes it away")
    one.add_argument("folder", metavar="FOLDER", type=named)
    one.add_argument("text", metavar="TEXT", help="one that begins with - is given after --, as in: note FOLDER -- -late")
    one = command("import-notes", "take notes over from a spreadsheet: columns folder or run, and text or note")
    one.add_argument("file", metavar="FILE.csv")
    one.add_argument("--replace", action="store_true", help="overwrite notes that are there")
    one = command("page", "write the catalogue as one page for a browser")
    one.add_argument("out", metavar="OUT.html", type=named)
    return top


def scan(asked, launcher):
    from . import judge, scan as scans
    if asked.page:
        page_place(asked.db, asked.page)
    status = scans.scan(asked.db, asked.roots, judge.find(asked.index, launcher))
    try:
        if asked.page:
            write_page(asked.db, asked.page)
    except KeyboardInterrupt:
        print("hiskurdo: broken off; the scan is stored, the page is not written", file=sys.stderr)
        return 130
    return status


@contextlib.contextmanager
def output():
    """Around what writes to standard output: tells an error as one of it."""
    try:
        yield
    except OSError as e:
        raise Trouble(f"standard output: {e.strerror}") from None


def print_csv(data):
    """Prints CSV: byte for byte, but on a terminal each line is made harmless."""
    with output():
        if sys.stdout.isatty():
            text = data.decode("utf-8", "surrogateescape")
            print(re.sub(r"[^\r\n]+|\r(?!\n)", lambda part: tables.harmless(part[0]), text), end="")
        else:
            sys.stdout.flush()
            sys.stdout.buffer.write(data)


def listed(asked, launcher):
    """Prints the runs that are asked for."""
    rules, values = [], []
    if asked.state == "vanished" or not asked.all:
        rules.append("vanished IS NOT NULL" if asked.state == "vanished" else "vanished IS NULL")
    if asked.state in STATES:
        rules, values = [*rules, "state = ?"], [asked.state]
    if asked.changed_since:
        rules, values = [*rules, "changed >= ?"], [*values, asked.changed_since]
    with store.opened(asked.db) as catalogue:
        where = "WHERE " + " AND ".join(rules) if rules else ""
        rows = catalogue.execute(f"SELECT * FROM runs {where}", values).fetchall()
    rows.sort(key=lambda row: tables.natural(row["folder"]))
    if asked.csv:
        print_csv(tables.in_csv(rows))
        return 0
    room = shutil.get_terminal_size().columns if sys.stdout.isatty() else None
    lines, dropped = tables.table(rows, room)
    with output():
        print("\n".join(lines))
    if dropped:
        print(f"left out for want of room: {', '.join(dropped)}", file=sys.stderr)
    return 0


def history(asked, launcher):
    """Prints each change of one run."""
    from . import histories, notes
    with store.opened(asked.db) as catalogue:
        path = notes.run_at(catalogue, asked.folder)
        changes = catalogue.execute("SELECT at, before, after FROM change JOIN run ON run.id = run_id WHERE path = ? "
                                    "ORDER BY change.id", (path,)).fetchall()
    with output():
        print(tables.harmless(os.fsdecode(path)))
        for number, change in enumerate(changes):
            print(histories.told(*change, number == 0))
    return 0


def note(asked, launcher):
    from . import notes
    return notes.note(asked.db, asked.folder, asked.text)


def import_notes(asked, launcher):
    from . import notes
    return notes.take_over(asked.db, asked.file, asked.replace)


def page(asked, launcher):
    write_page(asked.db, asked.out)
    return 0


def page_place(db, out):
    """The page's real path, and the mode of its file. A file that is no page is not overwritten, nor is a device or a pipe."""
    place, catalogue = os.path.realpath(out), os.path.realpath(db)
    if place in (catalogue, *(catalogue + end for end in store.BESIDE)):
        raise Trouble(f"{out} is the catalogue's own file: no page is written there")
    try:
        mode = os.stat(place).st_mode
        if not stat.S_ISREG(mode):
            raise Trouble(f"{out} is no regular file: no page is written there")
        with open(place, "rb") as file:
            head = file.read(len(PAGE))
    except FileNotFoundError:
        mask = os.umask(0)
        os.umask(mask)
        return place, 0o666 & ~mask
    except OSError as e:
        raise Trouble(f"{out}: {e.strerror}") from None
    if head not in (b"", PAGE):
        raise Trouble(f"{out} is there and is no page: it is not overwritten")
    return place, mode & 0o777


def write_page(db, out):
    """Writes the page beside its place, then puts it there."""
    place, mode = page_place(db, out)
    beside = None
    try:
        with store.opened(db) as catalogue:
            from . import page as pages
            number, beside = tempfile.mkstemp(dir=os.path.dirname(place), prefix=".hiskurdo-")
            with open(number, "w", encoding="utf-8", newline="\n") as file:
                os.fchmod(number, mode)
                scanned = catalogue.execute("SELECT max(ended) FROM scan").fetchone()[0]
                pages.write(file, catalogue.execute("SELECT * FROM runs"), scanned)
        os.replace(beside, place)
        beside = None
    except OSError as e:
        raise Trouble(f"{out}: {e.strerror}") from None
    finally:
        if beside:
            os.unlink(beside)


COMMANDS = {"scan": scan, "list": listed, "history": history, "note": note, "import-notes": import_notes, "page": page}


def ended(number, frame):
    """Ends the command at a signal as an exception does, so that nothing is left behind: no index, no half page."""
    signal.signal(number, signal.SIG_IGN)
    sys.exit(128 + number)


def say(words):
    print(tables.harmless(f"hiskurdo: {words}"), file=sys.stderr)


def main(arguments, launcher):
    """Does what the arguments ask. A pipe that nobody reads any more ends the command quietly."""
    signal.signal(signal.SIGPIPE, signal.SIG_DFL)
    for number in (signal.SIGTERM, signal.SIGHUP):
        if signal.getsignal(number) == signal.SIG_DFL:
            signal.signal(number, ended)
    sys.stdout, sys.stderr = (stream or open(os.devnull, "w") for stream in (sys.stdout, sys.stderr))
    for stream in (sys.stdout, sys.stderr):
        stream.reconfigure(errors="replace")
    asked = parser().parse_args(arguments)
    try:
        status = COMMANDS[asked.command](asked, launcher)
        with output():
            sys.stdout.flush()
        return status
    except Trouble as e:
        say(e)
    except OSError as e:
        say(f"{os.fsdecode(e.filename)}: {e.strerror}" if e.filename else e.strerror or e)
    except KeyboardInterrupt:
        say("broken off; the catalogue is in its last whole state")
        return 130
    except Exception as e:
        if os.environ.get("HISKURDO_DEBUG"):
            sys.excepthook(*sys.exc_info())
        say(f"a fault in hiskurdo itself: {type(e).__name__}: {e} (HISKURDO_DEBUG=1 shows where)")
    return 2
