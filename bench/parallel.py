#!/usr/bin/env python3
"""How workers share what comes late, and what idle ones cost, by the clock. Each row is the ratio of two ways to run one task
program, which take turns, each the middle one of several runs:

  late chain      60 EDTs of 900,000 units one after the other, the last of which makes 400 such EDTs: what 4 workers take for
                  the 400 against one worker. The chain alone is measured too, and subtracted.
  late tree       511 EDTs of 200,000 units, of which each makes its two children as the last thing it does: 4 workers
                  against one.
  idle, time      a chain of 200 EDTs of 900,000 units: processor time (user and system) of 64 workers against one.
  idle, wall      the same by the clock.
  crowd, graph    the layered graph of 500 layers by 64 workers against 4.
  crowd, EDTs     400 EDTs of 800,000 units by 64 workers against 4.

Fails where a ratio is on the wrong side of its bound. It tells something only on an idle machine of 4 cores: between the runs
bench/taken.py looks what something else takes of the processors, and with more than 10 thousandths the script fails too,
whatever the times. At the end the layered graph by 1, 2 and 4 workers, in EDTs a second, without the start of a run.

Build the program first: cd crates/ocr && rt run -- run < ../../examples/first.ocr, which leaves it as crates/ocr/out/ocr.
Then, in any folder:  bench/parallel.py [PROGRAM]
"""
import os
import pathlib
import resource
import statistics
import subprocess
import sys
import tempfile
import time

BENCH = pathlib.Path(__file__).resolve().parent
RUNS = 7
MOST_TAKEN = 10  # thousandths of the processors

WORK = "let i = 0; while i < UNITS { i = i + 1; }"


def work(units):
    """A loop of so many units of fuel; a turn is 8."""
    return WORK.replace("UNITS", str(units // 8))


CHAIN = """fn work { %s }
fn link {
  %s
  if paramv[0] > 1 { ocrEdtCreate(paramv[1], EDT_PARAM_DEF, [paramv[0] - 1, paramv[1], paramv[2]], EDT_PARAM_DEF, [], 0); }
  else {
    let t = ocrEdtTemplateCreate(work, 0, 0); let k = 0;
    while k < paramv[2] { ocrEdtCreate(t, EDT_PARAM_DEF, [], EDT_PARAM_DEF, [], 0); k = k + 1; }
  }
}
fn mainEdt {
  let t = ocrEdtTemplateCreate(link, 3, 0);
  ocrEdtCreate(t, EDT_PARAM_DEF, [LINKS, t, MORE], EDT_PARAM_DEF, [], 0);
}"""

TREE = """fn node {
  %s
  if paramv[0] > 1 {
    ocrEdtCreate(paramv[1], EDT_PARAM_DEF, [paramv[0] - 1, paramv[1]], EDT_PARAM_DEF, [], 0);
    ocrEdtCreate(paramv[1], EDT_PARAM_DEF, [paramv[0] - 1, paramv[1]], EDT_PARAM_DEF, [], 0);
  }
}
fn mainEdt {
  let t = ocrEdtTemplateCreate(node, 2, 0);
  ocrEdtCreate(t, EDT_PARAM_DEF, [9, t], EDT_PARAM_DEF, [], 0);
}"""

MANY = """fn work { %s }
fn mainEdt {
  let t = ocrEdtTemplateCreate(work, 0, 0); let k = 0;
  while k < 400 { ocrEdtCreate(t, EDT_PARAM_DEF, [], EDT_PARAM_DEF, [], 0); k = k + 1; }
}"""

GRAPH = """fn node {
  let d = ocrDbCreate(8, 0);
  store(d, 0, load(depv[0], 0) * 3 + load(depv[1], 0) + paramv[1]);
  ocrDbRelease(d); ocrEventSatisfy(paramv[0], d);
}
fn total { let s = 0; let i = 0; while i < 8 { s = s + load(depv[i], 0); i = i + 1; } print s; }
fn mainEdt {
  let g = ocrDbCreate(128, 0); let t = ocrEdtTemplateCreate(node, 2, 2); let i = 0;
  while i < 8 {
    let e = ocrEventCreate(OCR_EVENT_STICKY_T, EVT_PROP_TAKES_ARG);
    let d = ocrDbCreate(8, 0); store(d, 0, i + 1);
    ocrDbRelease(d); ocrEventSatisfy(e, d); store(g, i, e); i = i + 1;
  }
  let r = 1;
  while r <= LAYERS {
    let from = (r + 1) % 2 * 8; let to = r % 2 * 8; i = 0;
    while i < 8 {
      store(g, to + i, ocrEventCreate(OCR_EVENT_STICKY_T, EVT_PROP_TAKES_ARG));
      let w = ocrEdtCreate(t, EDT_PARAM_DEF, [load(g, to + i), r], EDT_PARAM_DEF, [], 0);
      ocrAddDependence(load(g, from + i), w, 0, DB_MODE_CONST);
      ocrAddDependence(load(g, from + (i + 1) % 8), w, 1, DB_MODE_CONST);
      i = i + 1;
    }
    r = r + 1;
  }
  let s = ocrEdtCreate(ocrEdtTemplateCreate(total, 0, 8), EDT_PARAM_DEF, [], EDT_PARAM_DEF, [], 0);
  i = 0;
  while i < 8 { ocrAddDependence(load(g, LAYERS % 2 * 8 + i), s, i, DB_MODE_CONST); i = i + 1; }
}"""


def chain(links, more):
    text = CHAIN % (work(900_000), work(900_000))
    return text.replace("LINKS", str(links)).replace("MORE", str(more))


def graph(layers):
    return GRAPH.replace("LAYERS", str(layers))


def run(program, workers, text):
    """Wall time and processor time of a run, in seconds. The table of objects is made before the run begins, so it is as
    large as the program needs: 16,384 for the layered graph, and 2,048 for the others."""
    with tempfile.TemporaryFile("w+") as source:
        source.write(text)
        source.seek(0)
        before = resource.getrusage(resource.RUSAGE_CHILDREN)
        start = time.monotonic()
        words = [program, "run", "--workers", str(workers), "--objects", "16384" if text.startswith("fn node {\n  let d") else "2048"]
        ended = subprocess.run(words, stdin=source, stdout=subprocess.DEVNULL, stderr=subprocess.PIPE)
        wall = time.monotonic() - start
        after = resource.getrusage(resource.RUSAGE_CHILDREN)
    if ended.returncode != 0:
        sys.exit(f"parallel: a run by {workers} workers ended with status {ended.returncode}: {ended.stderr.decode()}")
    return wall, after.ru_utime - before.ru_utime + after.ru_stime - before.ru_stime


def middles(program, text, one, other, which=0):
    """The middle times of two numbers of workers, whose runs take turns."""
    times = {one: [], other: []}
    for _ in range(RUNS):
        for workers in (one, other):
            times[workers].append(run(program, workers, text)[which])
    return statistics.median(times[one]), statistics.median(times[other])


def taken():
    """What something else takes of the processors just now, in thousandths."""
    return int(subprocess.run([BENCH / "taken.py", "0.3"], capture_output=True, text=True, check=True).stdout)


def main():
    program = sys.argv[1] if len(sys.argv) > 1 else str(BENCH.parent / "crates/ocr/out/ocr")
    failed, gone = False, []
    print(f"{'':<16}{'one':>10}{'other':>10}{'ratio':>8}{'bound':>8}")

    def row(name, one, other, ratio, bound, at_least):
        nonlocal failed
        gone.append(taken())
        is_met = ratio >= bound if at_least else ratio <= bound
        failed = failed or not is_met
        print(f"{name:<16}{one:>10.3f}{other:>10.3f}{ratio:>8.2f}{bound:>8}" + ("" if is_met else "  not met"), flush=True)

    whole = middles(program, chain(60, 400), 1, 4)
    alone = middles(program, chain(60, 0), 1, 4)
    late = [all_ - first for all_, first in zip(whole, alone)]
    row("late chain", *late, late[0] / late[1], 3.4, True)
    one, four = middles(program, TREE % work(200_000), 1, 4)
    row("late tree", one, four, one / four, 3.4, True)
    one, many = middles(program, chain(200, 0), 1, 64, which=1)
    row("idle, time", one, many, many / one, 1.1, False)
    one, many = middles(program, chain(200, 0), 1, 64)
    row("idle, wall", one, many, many / one, 1.1, False)
    four, many = middles(program, graph(500), 4, 64)
    row("crowd, graph", four, many, many / four, 1.3, False)
    four, many = middles(program, MANY % work(800_000), 4, 64)
    row("crowd, EDTs", four, many, many / four, 1.1, False)

    print("\nthe layered graph of 500 layers, EDTs a second, without the start of a run:")
    start = statistics.median(run(program, 1, graph(0))[0] for _ in range(RUNS))
    for workers in (1, 2, 4):
        wall = statistics.median(run(program, workers, graph(500))[0] for _ in range(RUNS))
        print(f"  {workers} worker{'s' if workers > 1 else ' '} {4000 / (wall - start):>10.0f}")
    most = statistics.mean(gone)
    print(f"something else took {most:.0f} thousandths of the processors")
    if most > MOST_TAKEN or os.cpu_count() < 4:
        print(f"  more than {MOST_TAKEN}, or fewer than 4 processors: the times say nothing")
        failed = True
    sys.exit(failed)


main()
