"""Finds run folders. Each folder has one name, its real path in bytes, and is visited once."""
import errno
import itertools
import os

from . import Trouble

FILES = (b"run.jnl", b"run.pln")
AT_ONCE = 1000


def parents(path):
    """The folder itself, then each folder above it."""
    while True:
        yield path
        above = os.path.dirname(path)
        if above == path:
            return
        path = above


def within(path, places):
    """Is the path one of these places, or beneath one?"""
    return any(place in places for place in parents(path))


def roots(names):
    """The real paths of the roots, without those beneath another one."""
    found = set()
    for name in names:
        if not name:
            raise Trouble("the empty name is no folder")
        try:
            root = os.path.realpath(os.fsencode(name), strict=True)
        except OSError as e:
            raise Trouble(f"{name}: {e.strerror}") from None
        if not os.path.isdir(root):
            raise Trouble(f"{name}: it is no folder")
        found.add(root)
    return sorted(root for root in found if not within(os.path.dirname(root), found - {root}))


def other_names(names):
    """The roots as they are given, where that is not their real path: nothing beneath such a name is a real path any more."""
    given = {os.path.abspath(os.fsencode(name)) for name in names}
    return {name for name in given if os.path.realpath(name) != name}


class Walk:
    """A walk over some roots. `walked` are the roots and the targets of links, `links` says which link led to which target, and
    `unread` are the folders that could not be read; `report(path, reason)` is called for each of these."""

    def __init__(self, tops, report, tick=lambda: None):
        self.tops, self.report, self.tick = tops, report, tick
        self.walked, self.followed, self.unread, self.links = set(tops), set(), set(), {}
        self.looked = 0

    def runs(self):
        """The run folders of all roots, then those behind links that no walk has passed yet."""
        for top in self.tops:
            yield from self.beneath(top)
        waiting = list(self.links.values())
        while waiting:
            target = waiting.pop()
            if self.has_passed(target):
                continue
            before = len(self.links)
            self.walked.add(target)
            self.followed.add(target)
            yield from self.beneath(target)
            waiting += itertools.islice(self.links.values(), before, None)

    def has_passed(self, target):
        """Has the walk seen this folder? Beneath one that could not be read it has not, unless by another link."""
        return within(target, self.followed) or within(target, self.walked) and not within(target, self.unread)

    def beneath(self, top):
        """The run folders from one folder on, links not followed. A folder with many entries is read in parts, so that the stack
        stays small."""
        stack, parts = [top], {}
        while stack:
            path = stack.pop()
            entries, known = parts.pop(path, (None, False)) if parts else (None, False)
            try:
                entries = entries or os.scandir(path)
                some = list(itertools.islice(entries, AT_ONCE))
            except OSError as e:
                self.refused(path, e)
                continue
            is_run = known or any(entry.name in FILES for entry in some)
            if is_run and not known:
                yield path
            if len(some) == AT_ONCE:
                stack.append(path)
                parts[path] = entries, is_run
            for entry in some:
                if self.is_new(entry):
                    stack.append(entry.path)
            self.looked += 1
            if not self.looked % 64:
                self.tick()

    def is_new(self, entry):
        """Is it a folder that no walk has passed? A link to a folder is remembered, to be followed at the end."""
        try:
            if entry.is_file(follow_symlinks=False):
                return False
            if entry.is_dir(follow_symlinks=False):
                return entry.path not in self.walked
            if entry.is_symlink() and entry.is_dir():
                self.links[entry.path] = os.path.realpath(entry.path, strict=True)
        except OSError as e:
            if e.errno not in (errno.ELOOP, errno.ENOENT, errno.ENOTDIR):
                self.refused(entry.path, e)
        return False

    def refused(self, path, error):
        self.unread.add(path)
        self.report(path, error.strerror)
