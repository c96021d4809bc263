"""The hand-written column: notes, one a folder, that no scan touches."""
import bisect
import csv
import functools
import io
import os
import re
import sys

from . import Trouble, store
from .tables import as_written, harmless


def run_at(catalogue, name):
    """The path under which a run is kept: as it is kept, by the folder's real path, or as it is shown. A run that was moved away
    and left a link is kept under both paths."""
    given = os.fsencode(name)
    for path in (given, os.path.realpath(given), os.path.abspath(given)):
        if catalogue.execute("SELECT 1 FROM run WHERE path = ?", (path,)).fetchone():
            return path
    shown = catalogue.execute("SELECT path FROM run WHERE folder = ?", (given.decode("utf-8", "replace"),)).fetchall()
    if len(shown) != 1:
        raise Trouble(harmless(f"{name}: no run there is in the catalogue"))
    return shown[0][0]


def put(catalogue, path, text):
    if text:
        catalogue.execute("INSERT INTO note (path, text, written) VALUES (?, ?, ?) ON CONFLICT (path) DO UPDATE SET "
                          "text = excluded.text, written = excluded.written", (path, text, store.now()))
    else:
        catalogue.execute("DELETE FROM note WHERE path = ?", (path,))


def note(path, folder, text):
    """Writes a note of a run; an empty one takes the note away."""
    with store.opened(path) as catalogue, store.whole(catalogue):
        put(catalogue, run_at(catalogue, folder), argument(text))
    return 0


def argument(text):
    """An argument's text: UTF-8 in every locale, else what the locale makes of it."""
    try:
        return os.fsencode(text).decode("utf-8")
    except UnicodeDecodeError:
        return re.sub("[\ud800-\udfff]", "\ufffd", text)


def decoded(data):
    """The text of a spreadsheet's file. Bytes that are no UTF-8 are kept for `legible`."""
    if data.startswith((b"\xff\xfe", b"\xfe\xff")):
        return data.decode("utf-16", "replace")
    return data.removeprefix(b"\xef\xbb\xbf").decode("utf-8", "surrogateescape")


def legible(field):
    """A field as text: one that is no UTF-8 is read as Windows-1252."""
    if not re.search("[\udc80-\udcff]", field):
        return field
    return field.encode("utf-8", "surrogateescape").decode("cp1252", "replace")


def lines(file):
    """The lines of a notes file, each as its number, folder, run and text."""
    try:
        with open(file, "rb") as source:
            text = decoded(source.read())
    except OSError as e:
        raise Trouble(f"{file}: {e.strerror}") from None
    separator = max(",;\t", key=re.split("[\r\n]", text, maxsplit=1)[0].count)
    reader = csv.reader(io.StringIO(text, newline=""), delimiter=separator, strict=True)
    try:
        yield from fields(file, reader)
    except csv.Error as e:
        line = unclosed(text, separator)
        why = f"line {line}: a field begins there with a quote that does not close it" if line else f"line {reader.line_num}: {e}"
        raise Trouble(f"{file}: {why}; nothing was taken over") from None


def unclosed(text, separator):
    """The line where the first field begins whose quotes are wrong; None where there is none."""
    field = re.compile(f'(?:"[^"]*(?:""[^"]*)*"|(?!")[^{separator}\r\n]*)(?:{separator}|\r\n?|\n|\\Z)')
    at = 0
    while at < len(text) and (found := field.match(text, at)):
        at = found.end()
    return 1 + len(re.findall("\r\n?|\n", text[:at])) if at < len(text) else None


def columns(file, header):
    """Where the columns folder, run and note are."""
    names = [{"text": "note"}.get(name, name) for name in (name.strip().lower() for name in header)]
    if "note" not in names or not {"folder", "run"} & set(names):
        raise Trouble(f"{file}: its first line must name the columns `folder` or `run` (or both), and `text` or `note`")
    for name, called in (("folder", "`folder`"), ("run", "`run`"), ("note", "`text` or `note`")):
        if names.count(name) > 1:
            raise Trouble(f"{file}: its first line names {names.count(name)} columns {called}: there must be one")
    return [names.index(name) if name in names else None for name in ("folder", "run", "note")]


def fields(file, reader):
    at = columns(file, next(reader, []))
    line = reader.line_num + 1
    for row in reader:
        folder, run, text = (row[i] if i is not None and i < len(row) else "" for i in at)
        yield line, as_written(folder), run.strip(), as_written(legible(text).replace("\0", ""))
        line = reader.line_num + 1


class Runs:
    """The runs of the catalogue, to be found by a part of their path or by their number."""

    def __init__(self, catalogue):
        self.paths, self.numbers, self.there = set(), {}, set()
        for path, number, vanished in catalogue.execute("SELECT path, run, vanished FROM run"):
            self.paths.add(path)
            self.numbers.setdefault(number, []).append(path)
            if vanished is None:
                self.there.add(path)
        self.turned = sorted(path[::-1] for path in self.paths)

    def ending(self, end):
        """The runs whose path ends so. Written backwards they stand side by side."""
        found, end = [], end[::-1]
        at = bisect.bisect_left(self.turned, end)
        while at < len(self.turned) and self.turned[at].startswith(end):
            found.append(self.turned[at][::-1])
            at += 1
        return found

    def by_folder(self, folder):
        """The run of this path, or else of its real path, or else those that end with it."""
        if "\0" in folder:
            return []
        for text in dict.fromkeys((folder, legible(folder))):
            name = text.encode("utf-8", "surrogateescape")
            name = name.rstrip(b"/") or name
            if name in self.paths:
                return [name]
            real = real_path(name)
            found = [real] if real in self.paths else self.ending(b"/" + name.removeprefix(b"./").lstrip(b"/"))
            if found:
                return found
        return []

    def by_number(self, number):
        return self.numbers.get(number.lstrip("0") or "0", []) if number.isascii() and number.isdigit() else []

    def named(self, folder, number):
        """The runs that a line names, by its folder first, then by its number. Vanished ones count where no other is named."""
        numbered = self.by_number(number)
        found = self.by_folder(folder) if folder.strip() else []
        if len(found) > 1 and numbered:
            found = list(set(found).intersection(numbered)) or found
        found = found or numbered
        return [path for path in found if path in self.there] or found


real_folder = functools.lru_cache(os.path.realpath)


def real_path(name):
    """As os.path.realpath, but the folder above is looked at once for all that it holds."""
    above, last = os.path.split(name)
    if last in (b"", b".", b"..") or os.path.islink(name):
        return os.path.realpath(name)
    return os.path.join(real_folder(above), last)


class Import:
    """One import: the notes that were there, and the runs that have their note from this file."""

    def __init__(self, catalogue, replace):
        self.catalogue, self.replace, self.runs, self.written = catalogue, replace, Runs(catalogue), set()
        self.notes = dict(catalogue.execute("SELECT path, text FROM note").fetchall())

    def take(self, number, folder, run, text):
        """Takes one line's note over. What became of it, and what is to be said of it."""
        found = self.runs.named(folder, run)
        if len(found) != 1:
            named = folder if folder.strip() and (self.runs.by_folder(folder) or not run) else f"run {run}"
            return "lost", f"line {number}: {named} names {len(found)} folders" if found else f"line {number}: no run"
        path = found[0]
        has, shown = self.notes.get(path), os.fsdecode(path)
        if has is not None and has.strip() == text.strip():
            self.written.add(path)
            return "same", None
        if path in self.written:
            return "second", f"line {number}: a second note for {shown}, which is not taken over"
        if has is not None and not self.replace:
            return "kept", f"line {number}: {shown} has another note, which is kept (--replace overwrites it)"
        put(self.catalogue, path, text)
        self.notes[path] = text
        self.written.add(path)
        return "taken", None


def counted(number, word):
    return f"{number} {word}{'s' * (number != 1)}"


def take_over(path, file, replace):
    """Takes notes over from a spreadsheet's file. The exit status: 0, or 1 where a line was not taken over."""
    counts = {"taken": 0, "same": 0, "kept": 0, "second": 0, "lost": 0}
    with store.opened(path) as catalogue, store.whole(catalogue):
        one = Import(catalogue, replace)
        for line in lines(file):
            if line[3].strip():
                what, words = one.take(*line)
                counts[what] += 1
                if words:
                    print(harmless(words), file=sys.stderr)
    more = [f"{counts[key]} {words}" for key, words in (("same", "already there"), ("kept", "kept another note")) if counts[key]]
    if counts["second"]:
        more.append(f"{counted(counts['second'], 'second note')} left out")
    print(", ".join([f"{counted(counts['taken'], 'note')} taken over", *more, f"{counted(counts['lost'], 'line')} found no run"]))
    return 1 if counts["lost"] or counts["kept"] or counts["second"] else 0
