#!/usr/bin/env python3
"""Runs the merge gate, `rt ci`, whole or for some crates, and tells what it cost: processor minutes of each
crate's proofs, edits and tests. What an earlier run has proved is kept and costs nothing: for a whole sum, begin with
nothing kept. Behind it stand the processor seconds of `rt selftest`, the kit's own example, which is the same work
everywhere: by it tables of two machines can be compared. What `rt ci` itself takes, apart from the checks that it
starts, stands in a row of its own: it sums files on each way down through crates.txt (see crates.py).

A sampler reads /proc twice a second. The processor time of a process is what it had when it was last seen, so at most
half a second of each is missed. A check that tries an edit is told from the others by the folder that it, or what it
kept, stands in, and one of tests by its flag. What is not a check (linking, the programs, the tests themselves) is
'other'.

In any folder:  bench/gate.sh [FILE [CRATE]...]     FILE keeps the gate's own output (default: gate.log in the current
folder). Where crates are named, the gate runs on a copy of the repository with these and those below them.
Ends with the gate's status.
"""
import collections
import os
import re
import shutil
import subprocess
import sys
import tempfile
import time

ROOT = os.path.dirname(os.path.dirname(os.path.abspath(__file__)))
TICKS = os.sysconf("SC_CLK_TCK")


def kind_of(words):
    """Which crate a process checks or builds, and for what: a library is built as it is proved."""
    if "--crate-name" not in words or not {"check", "build"} & set(words[:3]):
        return None
    crate = words[words.index("--crate-name") + 1]
    if any("rt-edits-" in word or "/rt-edit-" in word for word in words):
        return crate, "edits"
    return crate, "tests" if "--test" in words else "proof"


def words_of(pid):
    """The words of a process, and its folder behind them."""
    try:
        with open(f"/proc/{pid}/cmdline", "rb") as it:
            return [*it.read().decode(errors="replace").split("\0"), os.readlink(f"/proc/{pid}/cwd")]
    except OSError:
        return None


def descendants(of):
    """The processes below one, each by its number and its start, since numbers come again in a long run, with its words
    and its processor time in seconds. One without words (a check's kernel) has those of the process that began it."""
    parent, born, seconds = {}, {}, {}
    for pid in filter(str.isdigit, os.listdir("/proc")):
        try:
            with open(f"/proc/{pid}/stat") as it:
                fields = it.read().rpartition(")")[2].split()
        except OSError:
            continue
        parent[int(pid)] = int(fields[1])
        born[int(pid)] = fields[19]
        seconds[int(pid)] = (int(fields[11]) + int(fields[12])) / TICKS
    for pid in parent:
        above = pid
        while above in parent and above != of:
            above = parent[above]
        words = words_of(pid) if above == of and pid != of else None
        if words and not words[0]:
            words = words_of(parent[pid])
        if words:
            yield (pid, born[pid]), words, seconds[pid]


def reference():
    """The processor seconds that the kit's own example takes on this machine."""
    before = os.times()
    subprocess.run(["rt", "selftest"], stdout=subprocess.DEVNULL, stderr=subprocess.DEVNULL, check=True)
    after = os.times()
    return sum(after[2:4]) - sum(before[2:4])


def own_seconds(pid):
    """The processor time of a process, without those below it; 0 once it has ended."""
    try:
        with open(f"/proc/{pid}/stat") as it:
            fields = it.read().rpartition(")")[2].split()
    except OSError:
        return 0
    return (int(fields[11]) + int(fields[12])) / TICKS


def part_of(names, room):
    """Copies the crates named, and those below them, into a repository of their own."""
    with open(f"{ROOT}/crates.txt", encoding="utf-8") as it:
        lines = {line.split(":")[0].split()[0]: line for line in it if line.strip() and not line.startswith("#")}
    wanted = list(names)
    for name in wanted:
        wanted += [it for it in lines[name].partition(":")[2].split() if it in lines and it not in wanted]
    for name in wanted:
        shutil.copytree(f"{ROOT}/crates/{name}", f"{room}/crates/{name}", ignore=shutil.ignore_patterns("out"))
    shutil.copy(f"{ROOT}/HANDLES", room)
    with open(f"{room}/crates.txt", "w", encoding="utf-8") as it:
        it.writelines(line for name, line in lines.items() if name in wanted)


def measured(folder, out):
    """Runs the gate, and returns its status and the processor seconds of each process below it."""
    seen = {}
    gate = subprocess.Popen(["rt", "ci"], cwd=folder, stdout=out, stderr=subprocess.STDOUT)
    while gate.poll() is None:
        seen["rt ci"] = (("rt ci", "other"), max(own_seconds(gate.pid), seen.get("rt ci", [0, 0])[1]))
        for process, words, seconds in descendants(gate.pid):
            name = os.path.basename(words[0]) if words else ""
            # one that has just begun has the words of the process that began it, and so has one that has just ended
            what = kind_of(words) or seen.get(process, [None])[0]
            what = what or (("other", "other") if not name.startswith("rt") else None)
            if what:
                seen[process] = (what, seconds)
        time.sleep(0.5)
    return gate.returncode, seen


def main():
    log = sys.argv[1] if len(sys.argv) > 1 else "gate.log"
    start = time.time()
    with open(log, "w") as out, tempfile.TemporaryDirectory(prefix="gate-") as room:
        if sys.argv[2:]:
            part_of(sys.argv[2:], room)
        status, seen = measured(room if sys.argv[2:] else ROOT, out)
    minutes = collections.Counter()
    for what, seconds in seen.values():
        minutes[what] += seconds / 60
    kinds = ("proof", "edits", "tests")
    print("| Crate | Proof | Edits | Tests | Sum |\n|---|---|---|---|---|")
    for crate in sorted({crate for crate, kind in minutes if kind in kinds}):
        row = [minutes[crate, kind] for kind in kinds]
        print(f"| `{crate}` | " + " | ".join(f"{it:.1f}" for it in [*row, sum(row)]) + " |")
    for what in ("other", "rt ci"):
        print(f"| {what} | | | | {minutes[what, 'other']:.1f} |")
    sums = [sum(it for (_, of), it in minutes.items() if of == kind) for kind in kinds]
    print("| **all** | " + " | ".join(f"**{it:.1f}**" for it in [*sums, sum(minutes.values())]) + " |")
    with open(log) as it:
        last = it.read().rstrip().splitlines()[-1:] or [""]
    print(f"\n{last[0]}; {(time.time() - start) / 60:.0f} minutes on {os.cpu_count()} cores")
    print(f"rt selftest: {reference():.0f} processor seconds")
    passed = re.match(r"\d+ passed, 0 failed", last[0])
    return status or (0 if passed else 1)


if __name__ == "__main__":
    sys.exit(main())
