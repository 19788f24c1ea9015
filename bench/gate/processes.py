"""Processor seconds of a process and of all that it starts, by kind, from samples of /proc."""
import collections
import os

TICKS = os.sysconf("SC_CLK_TCK")


def stat_of(pid):
    """The parent, the name, the start, the own time and that of the children that were waited for, in ticks, if the process is there."""
    try:
        with open(f"/proc/{pid}/stat", "rb") as it:
            text = it.read()
    except OSError:
        return None
    end = text.rindex(b")")
    rest = text[end + 2 :].split()
    parent, own, waited, start = int(rest[1]), int(rest[11]) + int(rest[12]), int(rest[13]) + int(rest[14]), int(rest[19])
    return parent, text[text.index(b"(") + 1 : end], start, own, waited


def words_of(pid):
    """The command line of a process and its folder."""
    try:
        with open(f"/proc/{pid}/cmdline", "rb") as it:
            words = it.read().decode(errors="replace").split("\0")[:-1]
        return words, os.readlink(f"/proc/{pid}/cwd")
    except OSError:
        return [], ""


class Process:
    """One that was seen. `own` and `waited` are its times in the last sample. `owed` is what of its children that ended is counted already
    and is still to come in `waited`, and `ended` are those children."""

    def __init__(self, parent, start, kind):
        self.parent, self.start, self.kind = parent, start, kind
        self.depth = parent.depth + 1 if parent else 0
        self.name, self.own, self.waited, self.owed, self.ended = b"", 0, 0, 0, []


class Processes:
    """What a process, which is a child of this one, and all below it took. `spent` has ticks by kind. Each process counts by its own time. What a
    parent's time of waited children has besides went by between two samples, and counts with the children that ended there."""

    def __init__(self, root, kind_of, first):
        self.root, self.kind_of = root, kind_of
        self.top = Process(None, 0, first)
        self.live, self.spent = {}, collections.Counter()

    def sample(self):
        stats = {int(it): stat_of(it) for it in os.listdir("/proc") if it.isdigit()}
        below = collections.defaultdict(list)
        for pid, stat in stats.items():
            if stat:
                below[stat[0]].append(pid)
        was, self.live, ready = self.live, {}, [(self.root, self.top)] if stats.get(self.root) else []
        while ready:
            pid, parent = ready.pop()
            found = was.get(pid)
            if not found or found.start != stats[pid][2]:
                found = Process(parent, stats[pid][2], parent.kind)
            self.live[pid] = found
            ready += [(it, found) for it in below[pid]]
        self.end(it for pid, it in was.items() if self.live.get(pid) is not it)
        for pid, found in self.live.items():
            self.add(pid, found, stats[pid])

    def end(self, gone):
        """Counts the time of processes that have ended as owed by their parents, those deep down first."""
        for it in sorted(gone, key=lambda it: -it.depth):
            it.parent.owed += it.own + it.waited + it.owed
            it.parent.ended += [it, *it.ended]

    def add(self, pid, found, stat):
        _, name, _, own, waited = stat
        if name != found.name or name.startswith((b"python", b"sh")):
            # (a process that was forked becomes another program)
            words, folder = words_of(pid)
            kind = self.kind_of(words, folder, found.parent.kind) if words else found.kind
            self.spent[found.kind] -= found.own
            self.spent[kind] += found.own
            found.name, found.kind = name, kind
        self.spent[found.kind] += own - found.own
        self.settle(found, waited - found.waited)
        found.own, found.waited = own, waited

    def settle(self, found, more):
        found.owed -= more
        if found.owed <= 0:
            kinds = [it.kind for it in found.ended] or [found.kind]
            for kind in kinds:
                self.spent[kind] -= found.owed / len(kinds)
            found.owed, found.ended = 0, []

    def seconds(self):
        return {kind: ticks / TICKS for kind, ticks in self.spent.items() if ticks > 0}
