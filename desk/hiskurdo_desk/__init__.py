"""The desk command: a catalogue of runs, thin over index. It decides nothing about a run."""
VERSION = "0.3.0"
STATES = ("unstarted", "due", "open", "done", "finished", "refused")


class Trouble(Exception):
    """What the user is told in one line; the command then ends with status 2."""
