"""Runs the gate and prints the processor seconds that it took, by crate and kind: README.md says how."""
import argparse
import collections
import os
import resource
import subprocess
import sys
import tempfile
import time

sys.dont_write_bytecode = True
from kinds import KINDS, Kinds
from processes import TICKS, Processes

ROOT = os.path.dirname(os.path.dirname(os.path.dirname(os.path.realpath(__file__))))
RT = ("rt", "other")
# The most that the table may lack of what the system counted.
LACKS = 0.03


def machine_ticks():
    """The busy and the idle ticks of all processors since the machine started."""
    with open("/proc/stat") as it:
        user, nice, system, idle, waiting, interrupts, soft, stolen = map(int, it.readline().split()[1:9])
    return user + nice + system + interrupts + soft + stolen, idle + waiting


def children_seconds():
    used = resource.getrusage(resource.RUSAGE_CHILDREN)
    return used.ru_utime + used.ru_stime


def measured(words, folder, log, every):
    """Runs a command, and returns its status, its seconds by crate and kind, and those that the system counted for it."""
    before = children_seconds()
    with subprocess.Popen(words, cwd=folder, stdin=subprocess.DEVNULL, stdout=log, stderr=subprocess.STDOUT) as ran:
        processes = Processes(ran.pid, Kinds().kind_of, RT)
        try:
            # (it is not waited for in here, so that its last times can be read)
            while not os.waitid(os.P_PID, ran.pid, os.WEXITED | os.WNOHANG | os.WNOWAIT):
                processes.sample()
                time.sleep(every)
            processes.sample()
        except BaseException:
            ran.terminate()
            raise
    return ran.returncode, processes.seconds(), children_seconds() - before


def row(name, seconds):
    return "| " + " | ".join([name, *[f"{it:.0f}" if it >= 0.5 else "" for it in seconds]]) + " |"


def print_table(spent):
    crates = collections.defaultdict(collections.Counter)
    for (crate, kind), seconds in spent.items():
        crates[crate][kind] += seconds
    print(row("crate, s", []).rstrip("|").rstrip(), "|", " | ".join([*KINDS, "sum"]), "|")
    print("|---" + "|--:" * (len(KINDS) + 1) + "|")
    for crate, of in sorted(crates.items(), key=lambda it: -it[1].total()):
        if of.total() >= 0.5:
            print(row(crate, [*[of[kind] for kind in KINDS], of.total()]))
    sums = [sum(of[kind] for of in crates.values()) for kind in KINDS]
    print(row("**all**", [*sums, sum(sums)]))
    print(row("**minutes**", []).rstrip("|").rstrip(), "|", " | ".join(f"{it / 60:.1f}" for it in [*sums, sum(sums)]), "|\n")


def last_line(log):
    log.seek(0)
    return ([it.strip() for it in log if it.strip()] or ["no line"])[-1]


def report(clone, given):
    """Runs the gate on a clone, tells what it took, and returns the exit status."""
    load, began, (busy, idle) = os.getloadavg(), time.monotonic(), machine_ticks()
    with open(given.log, "w+", errors="replace") if given.log else tempfile.TemporaryFile("w+", errors="replace") as log:
        status, spent, counted = measured(["rt", "ci", *given.words], clone, log, given.every)
        told = last_line(log)
    wall, (now_busy, now_idle) = time.monotonic() - began, machine_ticks()
    busy, idle = (now_busy - busy) / TICKS, (now_idle - idle) / TICKS
    share = lambda seconds: f"{100 * seconds / (busy + idle):.0f} %"
    print_table(spent)
    total = sum(spent.values())
    print(f"- `{' '.join(['rt', 'ci', *given.words])}` ended with status {status}: {told}")
    print(f"- {total / 60:.1f} processor minutes in {wall / 60:.1f} minutes of wall time on {os.cpu_count()} processors")
    print(f"- the load at its start was {load[0]:.1f}; of the processors' time it took {share(counted)}, other work {share(busy - counted)}, and {share(idle)} was idle")
    print(f"- the system counted {counted:.1f} s, and the table has {total:.1f} s, {100 * total / counted - 100:+.1f} %")
    return status or int(abs(total - counted) > LACKS * counted)


def main():
    parser = argparse.ArgumentParser(description=__doc__)
    parser.add_argument("--clone", help="the checkout to run it on; without it, a new clone of HEAD")
    parser.add_argument("--every", type=float, default=0.2, help="seconds between samples")
    parser.add_argument("--log", help="the file that gets what rt prints")
    given, given.words = parser.parse_known_args()
    if given.clone:
        return report(given.clone, given)
    with tempfile.TemporaryDirectory(prefix="chunkpack-gate-") as room:
        subprocess.run(["git", "clone", "--quiet", ROOT, f"{room}/clone"], check=True)
        return report(f"{room}/clone", given)


if __name__ == "__main__":
    sys.exit(main())
