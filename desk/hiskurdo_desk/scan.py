"""A scan: walks, asks index, and stores all of it or nothing."""
import gc
import itertools
import os
import sys
import time

from . import STATES, judge, store, walk
from .tables import harmless

BATCH = 900  # folders for one call of index; an old SQLite takes 999 values at once


class Bar:
    """Progress on a terminal, on standard error; nothing elsewhere. `expected` is how many runs the last scan saw."""

    def __init__(self, expected):
        self.shown, self.expected, self.runs, self.next = sys.stderr.isatty(), expected, 0, 0

    def tick(self, looked):
        if self.shown and time.monotonic() >= self.next:
            self.next = time.monotonic() + 0.1
            part = min(20, 20 * self.runs // self.expected) if self.expected else 0
            bar = f"[{'#' * part}{'.' * (20 - part)}] " if self.expected else ""
            print(f"\r{bar}{looked} folders, {self.runs} runs judged", end="", file=sys.stderr, flush=True)

    def erase(self):
        if self.shown and self.next:
            print(f"\r{' ' * 70}\r", end="", file=sys.stderr, flush=True)
            self.next = 0


class Scan:
    """One scan of some roots into one catalogue."""

    def __init__(self, stored, names, index):
        tops, self.other = walk.roots(names), walk.other_names(names)
        self.stored, self.judge, self.counts = stored, judge.Judge(index), dict.fromkeys(STATES, 0)
        self.bar = Bar(next((row[0] for row in stored.catalogue.execute("SELECT runs FROM scan ORDER BY id DESC LIMIT 1")), 0))
        self.walk = walk.Walk(tops, self.report, lambda: self.bar.tick(self.walk.looked))

    def report(self, path, reason):
        self.say(f"hiskurdo: {os.fsdecode(path)}: {reason}")

    def say(self, line):
        self.bar.erase()
        print(harmless(line), file=sys.stderr)

    def judged(self):
        """Folders and their rows. index works on one batch while the one before is stored and the next one is walked."""
        found = self.walk.runs()
        folders = list(itertools.islice(found, BATCH))
        if folders:
            self.judge.start(folders)
        while folders:
            folders = list(itertools.islice(found, BATCH))
            answer = self.judge.answer()
            if folders:
                self.judge.start(folders)
            yield answer

    def run(self):
        """Stores every row, then what has vanished. How many runs changed, and how many vanished."""
        for folders, rows, said in self.judged():
            self.stored.keep([judge.columns(path, row, self.stored.now) for path, row in self.stored.differing(folders, rows)])
            for row in rows:
                self.counts[row.split(b"\t", 3)[2].decode()] += 1
            self.bar.runs += len(rows)
            for line in said.splitlines():
                self.say(os.fsdecode(line))
        self.bar.erase()
        live, is_gone = places(dict(self.stored.catalogue.execute("SELECT path, target FROM place")), self.walk, self.other)
        self.stored.catalogue.execute("DELETE FROM place")
        self.stored.catalogue.executemany("INSERT INTO place VALUES (?, ?)", live.items())
        return self.stored.end(is_gone)


def places(known, passed, other):
    """Where runs are to be found after this walk: each root, each link and its target. `known` is the same of earlier scans.
    A root stays, unless it is beneath one of this walk; so does a link that this walk did not pass, as long as a root leads
    there. The second result says of a run that was not seen whether it has vanished: it is where this walk passed, or where
    nothing leads any more, and beneath no folder that could not be read. `other` are names of roots that are links now: what was
    stored beneath them has another path."""
    within, tops = walk.within, set(passed.tops)
    known = {path: target for path, target in known.items() if not within(path, other)}
    live = {path: target for path, target in known.items()
            if path == target and not within(path, tops) or within(path, passed.unread)}
    rest = {path: target for path, target in known.items() if not within(path, passed.walked)}
    grown = -1
    while grown != len(live):
        grown, targets = len(live), set(live.values())
        live.update((path, target) for path, target in rest.items() if within(path, targets))
    kept, lost = set(live.values()), set(known.values())

    def is_gone(path):
        return within(path, other) or not within(path, passed.unread) and (
            within(path, passed.walked) or within(path, lost) and not within(path, kept))

    return {**live, **passed.links, **{top: top for top in passed.tops}}, is_gone


def summary(counts, changed, vanished):
    """One line of what a scan found."""
    total, resumed = sum(counts.values()), counts["due"] + counts["open"]
    others = ", ".join(f"{counts[state]} {state}" for state in STATES if state not in ("due", "open"))
    return (f"{total} run{'s' * (total != 1)}: {resumed} to resume ({counts['due']} due, {counts['open']} open), {others}; "
            f"{changed} changed, {vanished} vanished")


def scan(path, names, index):
    """Scans these roots into the catalogue at `path`. The exit status: 0, 1 where a run is refused, 2 where a folder could not
    be read."""
    gc.disable()  # a scan makes no cycles to collect, and looking for them takes a tenth of its time
    walk.roots(names)  # a root that is not there is an error before the catalogue is touched
    with store.scanning(path) as stored:
        one = Scan(stored, names, index)
        try:
            changed, vanished = one.run()
        finally:
            one.bar.erase()
            one.judge.stop()
        roots = "\n".join(harmless(top.decode("utf-8", "replace")) for top in one.walk.tops)
        stored.catalogue.execute("INSERT INTO scan (began, ended, roots, runs, vanished) VALUES (?, ?, ?, ?, ?)",
                                 (stored.now, store.now(), roots, sum(one.counts.values()), vanished))
    print(summary(one.counts, changed, vanished))
    return 2 if one.walk.unread else 1 if one.counts["refused"] else 0
