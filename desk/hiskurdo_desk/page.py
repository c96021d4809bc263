"""Writes the page: one HTML file with a row for each run. It needs no network, and it can be read without its script."""
import base64, hashlib, html, pathlib, re, sqlite3, unicodedata

HERE = pathlib.Path(__file__).parent
# The states in the order of the page. A run that vanished is counted as vanished alone, whatever its last state was.
STATES = {
    "open": "to resume, within a step",
    "due": "to resume, before a step",
    "refused": "not to resume: see the words",
    "unstarted": "never started",
    "done": "nothing left to do",
    "finished": "closed, completed or failed",
    "vanished": "folder not found",
}
COLUMNS = ("State", "Run", "Step", "Steps in plan", "What", "Failed steps", "Folder", "Words", "Note", "Changed")
POLICY = "default-src 'none'; style-src '{}'; script-src '{}'; base-uri 'none'; form-action 'none'"
# Characters that cannot be seen although Python calls them printable: fillers, joiners, selectors.
UNSEEN = re.compile("[\u034f\u115f\u1160\u17b4\u17b5\u180b-\u180d\u180f\u2800\u3164\ufe00-\ufe0d\uffa0\U000e0100-\U000e01ef]")
LINES = "\n\t"
HEAD = """<!DOCTYPE html>
<html lang="en">
<head>
<meta charset="utf-8">
<meta http-equiv="Content-Security-Policy" content="{policy}">
<meta name="referrer" content="no-referrer">
<meta name="viewport" content="width=device-width, initial-scale=1">
<title>Hiskurdo: {total}</title>
<style>{style}</style>
</head>
<body>
<header>
<h1>Hiskurdo: {total}</h1>
<p>{scanned}</p>
<ul id="counts">
{counts}</ul>
</header>
<table>
<caption>Steps are counted from 0: of a plan of 5 steps the last is step 4. Times are UTC.</caption>
<thead><tr>{columns}</tr></thead>
<tbody>
"""
FOOT = """</tbody>
</table>
<script>{script}</script>
</body>
</html>
"""


def write(out, runs, scanned):
    """Writes the page. The rows wait in a temporary database that puts them in order, so memory stays small for any number."""
    counts = dict.fromkeys(STATES, 0)
    room = sqlite3.connect("")
    try:
        room.execute("CREATE TABLE line (place INTEGER, name TEXT, row TEXT)")
        room.executemany("INSERT INTO line VALUES (?, ?, ?)", (placed(run, counts) for run in runs))
        out.write(head(counts, scanned))
        for line, in room.execute("SELECT row FROM line ORDER BY place, name, rowid"):
            out.write(line)
        out.write(FOOT.format(script=part("page.js")))
    finally:
        room.close()


def placed(run, counts):
    """A run's place among the states, its folder's place among the folders, and its row. Counts the run."""
    state = "vanished" if run["vanished"] else run["state"]
    counts[state] = counts.get(state, 0) + 1
    return list(counts).index(state), natural(shown(run["folder"])), row(run, state)


def head(counts, scanned):
    total = sum(counts.values())
    return HEAD.format(
        policy=POLICY.format(fingerprint(part("page.css")), fingerprint(part("page.js"))), style=part("page.css"),
        total="1 run" if total == 1 else f"{total:,} runs", columns="".join(f'<th scope="col">{c}</th>' for c in COLUMNS),
        scanned=f"Last scan: {time(scanned)} UTC." if scanned else "Nothing was scanned yet.",
        counts="".join(count(state, n) for state, n in counts.items()))


def count(state, n):
    return f'<li data-state="{text(state)}"><b>{n:,}</b> <span>{text(state)}</span> <small>{STATES.get(state, "")}</small></li>\n'


def row(run, state):
    """A run's row. Classes are by state alone, and each state has its word: colour only supports it."""
    was = f" <small>{time(run['vanished'])}, was {text(run['state'])}</small>" if run["vanished"] else ""
    cells = (f"<b>{text(state)}</b>{was}", *(text(run[name]) for name in ("run", "step", "steps", "what", "failed")),
             folder(run["folder"]), f"{text(run['words'])} <small>{text(run['line'])}</small>",
             f'<div dir="auto">{text(run["note"], kept=LINES)}</div>' if run["note"] else "", time(run["changed"]))
    return f'<tr class="{text(state)}">' + "".join(f"<td>{cell}</td>" for cell in cells) + "</tr>\n"


def folder(name):
    """The whole path as one text, its last part in bold. A line may end after each slash."""
    cut = name.rstrip("/").rfind("/") + 1
    way = f'<small dir="auto">{text(name[:cut]).replace("/", "/<wbr>")}</small>' if cut else ""
    return f'{way}<b dir="auto">{text(name[cut:])}</b>'


def time(when):
    """`2026-11-18T02:35:00Z` as `2026-11-18 02:35`."""
    return text(re.sub(r"\A(\d{4}-\d\d-\d\d)T(\d\d:\d\d):\d\dZ\Z", r"\1 \2", when or ""))


def text(value, kept=""):
    """Every text from the catalogue comes into the page through here."""
    return html.escape(shown("" if value is None else str(value), kept), quote=True)


def shown(value, kept=""):
    """The same text, but each character that cannot be seen stands as its number, as `[U+202E]`. Those of `kept` stay."""
    if value.isprintable() and not UNSEEN.search(value):
        return value
    value = value.replace("\r\n", "\n")
    return "".join(c if visible(c) or c in kept else f"[U+{ord(c):04X}]" for c in value)


def visible(c):
    return (c.isprintable() or unicodedata.category(c) == "Zs") and not UNSEEN.match(c)


def natural(value):
    """A text that sorts as people count: run10 after run9, without regard to case and accents. The script has the same rule."""
    plain = "".join(c for c in unicodedata.normalize("NFKD", value) if unicodedata.category(c)[0] != "M").lower()
    return re.sub("[0-9]+", lambda m: f"{len(m[0].lstrip('0')):06}{m[0].lstrip('0')}", plain)


def part(name):
    return (HERE / name).read_text("utf-8")


def fingerprint(code):
    return "sha256-" + base64.b64encode(hashlib.sha256(code.encode()).digest()).decode()
