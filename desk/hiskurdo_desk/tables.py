"""How rows are shown: a table fitted to the terminal, or CSV. Texts from names and notes are made harmless here."""
import csv
import io
import re
import unicodedata

FORMULA = re.compile("'*([\t\r\n]|\\s*[-=+@\uff1d\uff0b\uff0d\uff20])")  # the last four are =, +, -, @ in full width
CUT = "\u2026"
JOINERS = "\u200c\u200d"
GAP = "  "
# name, least width on a terminal, whether it may be cut; the columns that are left out first stand first in SPARED
COLUMNS = {"state": (9, False), "run": (1, False), "step": (4, False), "steps": (5, False), "what": (8, True),
           "failed": (6, False),
           "changed": (10, True), "folder": (16, True), "words": (16, True), "note": (8, True)}
SPARED = ("what", "changed", "steps", "failed", "words", "note", "run", "step", "state")
CSV_COLUMNS = ("folder", "run", "state", "step", "steps", "what", "failed", "board", "line", "words", "first_seen", "changed",
               "last_seen", "vanished", "note", "note_written")


def harmless(text):
    """The text without what moves a cursor or turns the order of writing: each such character is shown as `?`."""
    if text.isascii() and text.isprintable():
        return text
    return "".join("?" if unicodedata.category(c) in ("Cc", "Cf", "Cs", "Zl", "Zp") and c not in JOINERS else c for c in text)


def no_formula(text):
    """The formula rule: a text that a spreadsheet could take for a formula, or that is so but for its `'`, gets one `'` more."""
    return "'" + text if FORMULA.match(text) else text


def as_written(text):
    """The text before the formula rule: its exact inverse."""
    return text[1:] if text.startswith("'") and FORMULA.match(text) else text


def natural(folder):
    """A key that puts run-9 before run-10."""
    return [(int(part), part) if i % 2 else part for i, part in enumerate(re.split("([0-9]+)", folder))]


def wide(c):
    """How many columns of a terminal one character takes."""
    if unicodedata.combining(c) or c in JOINERS or unicodedata.category(c) in ("Mn", "Me"):
        return 0
    return 2 if unicodedata.east_asian_width(c) in "WF" else 1


def width(text):
    return len(text) if text.isascii() else sum(map(wide, text))


def cut(text, room, from_left):
    """The text in so much room: of a folder the end is kept, of others the beginning."""
    if width(text) <= room:
        return text
    kept, left = [], room - 1
    for c in reversed(text) if from_left else text:
        left -= wide(c)
        if left < 0:
            break
        kept.append(c)
    return CUT + "".join(reversed(kept)) if from_left else "".join(kept) + CUT


def fitted(widths, room):
    """The columns' widths within so much room, and those left out. Columns that may be cut share what is left, the narrow ones
    first."""
    least = {name: min(widths[name], COLUMNS[name][0]) if COLUMNS[name][1] else widths[name] for name in widths}
    lacking = [name for name in SPARED if name in least]
    dropped = []
    while lacking and sum(least.values()) + len(GAP) * (len(least) - 1) > room:
        dropped.append(lacking.pop(0))
        del least[dropped[-1]]
    left = room - sum(least.values()) - len(GAP) * (len(least) - 1)
    waiting = sorted((name for name in least if widths[name] > least[name]), key=lambda name: widths[name] - least[name])
    while waiting and left > 0:
        more = min(widths[waiting[0]] - least[waiting[0]], left // len(waiting))
        least[waiting.pop(0)] += more
        left -= more
    if least.get("folder", 0) > room:
        least["folder"] = max(room, 2)
    return least, dropped


def cells(row):
    """A run's cells. The state of a vanished run is the one that it was last seen in, and says so."""
    shown = {name: harmless(str(row[name])) if row[name] is not None else "" for name in COLUMNS}
    return {**shown, "state": f"vanished, was {shown['state']}"} if row["vanished"] else shown


def table(rows, room):
    """The lines of a table, and the columns left out for want of room; `room` is None where nothing is to be cut."""
    shown = [cells(row) for row in rows]
    widths = {name: max([len(name), *(width(cell[name]) for cell in shown)]) for name in COLUMNS}
    dropped = []
    if room is not None:
        widths = {name: wanted for name, wanted in widths.items() if any(cell[name] for cell in shown) or name == "folder"}
        widths, dropped = fitted(widths, room)
    lines = []
    for cell in [{name: name for name in COLUMNS}, *shown]:
        texts = [cut(cell[name], wanted, name == "folder") for name, wanted in widths.items()]
        lines.append(GAP.join(t + " " * (w - width(t)) for t, w in zip(texts, widths.values())).rstrip())
    return lines, dropped


def in_csv(rows):
    """The rows as CSV (RFC 4180), in bytes. The folder is the true one: its bytes stand there as they are, UTF-8 or not. Every
    field is quoted, so that no `;` or tab in it ends it."""
    out = io.StringIO()
    writer = csv.writer(out, lineterminator="\r\n", quoting=csv.QUOTE_ALL)
    writer.writerow(CSV_COLUMNS)
    for row in rows:
        values = {**dict(zip(row.keys(), row)), "folder": row["path"].decode("utf-8", "surrogateescape")}
        writer.writerow([no_formula(value) if isinstance(value, str) else value for value in map(values.get, CSV_COLUMNS)])
    return out.getvalue().encode("utf-8", "surrogateescape")
