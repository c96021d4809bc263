"""Says in words how a run's answer changed."""
from .tables import harmless

FIELDS = ("folder", "run", "state", "step", "steps", "what", "failed", "board", "line", "words")
ALSO = ("run", "steps", "what", "board")  # these may change while the words stay


def fields(row):
    return dict(zip(FIELDS, row.decode("utf-8", "replace").rstrip("\n").split("\t")))


def answer(row, other=None):
    """One answer in words, with those fields that the other answer has otherwise."""
    has, had = fields(row), fields(other) if other else {}
    also = [f"{name} {has[name] or 'not readable'}" for name in ALSO if other and has[name] != had[name]
            and (has[name] or name != "what")]
    return harmless(f"{has['state']}: {has['words']} ({', '.join([has['line'], *also])})")


def told(at, before, after, first):
    """One change, on a line or two."""
    if before is None:
        return f"{at}  {'first seen' if first else 'came back'}: {answer(after)}"
    if after is None:
        return f"{at}  vanished; it was {answer(before)}"
    return f"{at}  from {answer(before, after)}\n{' ' * len(at)}  to   {answer(after, before)}"
