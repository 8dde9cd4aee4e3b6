#!/usr/bin/env python3
"""Refuses memory to the built program, one number at a time: of a run's calls of `malloc` and `realloc`, the one of the number
answers that there is none. Each run ends with status 9, its line and nothing on standard output, or as if nothing had been
refused; it fails where one ends otherwise, by a signal, or not at all. It tries every number that a run has, with 1, 2 and 4
workers, and tells how many there were and how they ended. Several workers ask for memory more or less often from run to run, so
it goes on until some numbers in a row came too late.

A shim in C stands before the C library's calls (LD_PRELOAD), so the program is the built one, and a run takes some
milliseconds. (`rt try --fail-alloc N` builds the program anew for each N.)

Build the program first: cd crates/ocr && rt run -- run < stdin, which leaves it as crates/ocr/out/ocr. It needs `cc`.
Then, in any folder:  bench/refused_memory.py [--from N] [--to N] [PROGRAM [WORD]]   (WORD: only the runs whose names have it)
"""
import argparse
import collections
import os
import pathlib
import subprocess
import sys
import tempfile

TOP = pathlib.Path(__file__).resolve().parent.parent
SECONDS = 60
LINE = b"want of memory\n"
WORKERS = (1, 2, 4)
# So many numbers in a row that no run reached are the end.
MOST_LATE = 20

SHIM = r"""
#include <fcntl.h>
#include <stdatomic.h>
#include <stdlib.h>
#include <unistd.h>

void *__libc_malloc(size_t size);
void *__libc_realloc(void *at, size_t size);

/* Leaves an empty file of the name that is given: that the number was reached. */
static void tell(void) {
    const char *name = getenv("REACHED");
    int file = name ? open(name, O_CREAT | O_WRONLY, 0600) : -1;
    if (file >= 0) close(file);
}

static int is_refused(void) {
    static atomic_long calls;
    static _Atomic long wanted = -1;
    if (wanted < 0) {
        const char *number = getenv("REFUSED");
        wanted = number ? atol(number) : 0;
    }
    if (++calls != wanted) return 0;
    tell();
    return 1;
}

void *malloc(size_t size) { return is_refused() ? 0 : __libc_malloc(size); }

void *realloc(void *at, size_t size) { return is_refused() ? 0 : __libc_realloc(at, size); }
"""

FIRST = "fn mainEdt { print 42; ocrShutdown(); }"

JOURNAL = b"42\njournal 4\n0 acquire 2 1\n1 start 2\n2 call 2 print 42\n3 stop shutdown 2\n"

FIBONACCI = """fn give {
  let d = ocrDbCreate(8, 0); store(d, 0, load(depv[0], 0) + load(depv[1], 0)); ocrDbRelease(d); ocrEventSatisfy(paramv[0], d);
}
fn fib {
  if paramv[0] < 2 {
    let d = ocrDbCreate(8, 0); store(d, 0, paramv[0]); ocrDbRelease(d); ocrEventSatisfy(paramv[1], d); return NULL_GUID;
  }
  let a = ocrEventCreate(OCR_EVENT_STICKY_T, EVT_PROP_TAKES_ARG);
  let b = ocrEventCreate(OCR_EVENT_STICKY_T, EVT_PROP_TAKES_ARG);
  let s = ocrEdtCreate(paramv[3], EDT_PARAM_DEF, [paramv[1]], EDT_PARAM_DEF, [], 0);
  ocrAddDependence(a, s, 0, DB_MODE_CONST);
  ocrAddDependence(b, s, 1, DB_MODE_CONST);
  ocrEdtCreate(paramv[2], EDT_PARAM_DEF, [paramv[0] - 1, a, paramv[2], paramv[3]], EDT_PARAM_DEF, [], 0);
  ocrEdtCreate(paramv[2], EDT_PARAM_DEF, [paramv[0] - 2, b, paramv[2], paramv[3]], EDT_PARAM_DEF, [], 0);
}
fn last { print load(depv[0], 0); ocrShutdown(); }
fn mainEdt {
  let e = ocrEventCreate(OCR_EVENT_STICKY_T, EVT_PROP_TAKES_ARG);
  let w = ocrEdtCreate(ocrEdtTemplateCreate(last, 0, 1), EDT_PARAM_DEF, [], EDT_PARAM_DEF, [], 0);
  ocrAddDependence(e, w, 0, DB_MODE_CONST);
  let f = ocrEdtTemplateCreate(fib, 4, 0);
  ocrEdtCreate(f, EDT_PARAM_DEF, [load(depv[0], 1), e, f, ocrEdtTemplateCreate(give, 1, 2)], EDT_PARAM_DEF, [], 0);
}"""

DESTROYED = """fn late { print depv[0]; }
fn mainEdt {
  let d = ocrDbCreate(8, 0); store(d, 0, 7);
  let w = ocrEdtCreate(ocrEdtTemplateCreate(late, 0, 1), EDT_PARAM_DEF, [], EDT_PARAM_DEF, [], 0);
  ocrAddDependence(d, w, 0, DB_MODE_EW);
  print load(d, 0); ocrDbDestroy(d);
}"""

# A finish EDT whose members send two blocks through a channel and count a latch up and down.
MIXED = """fn send {
  let d = ocrDbCreate(8, 0); store(d, 0, paramv[0]); ocrDbRelease(d);
  ocrEventSatisfy(paramv[1], d); ocrEventSatisfySlot(paramv[2], NULL_GUID, OCR_EVENT_LATCH_DECR_SLOT);
}
fn both { print load(depv[0], 0) + load(depv[1], 0); }
fn group {
  ocrEdtCreate(paramv[2], 3, [3, paramv[0], paramv[1]], 0, [], 0);
  ocrEdtCreate(paramv[2], 3, [4, paramv[0], paramv[1]], 0, [], 0);
}
fn done { print 9; }
fn mainEdt {
  let c = ocrEventCreateParams(OCR_EVENT_CHANNEL_T, EVT_PROP_TAKES_ARG, 2, 1, 1);
  let l = ocrEventCreate(OCR_EVENT_LATCH_T, 0);
  ocrEventSatisfySlot(l, NULL_GUID, OCR_EVENT_LATCH_INCR_SLOT);
  ocrEventSatisfySlot(l, NULL_GUID, OCR_EVENT_LATCH_INCR_SLOT);
  let b = ocrEdtCreate(ocrEdtTemplateCreate(both, 0, 2), 0, [], 2, [], 0);
  let o = 0;
  let s = ocrEdtTemplateCreate(send, 3, 0);
  let g = ocrEdtCreate(ocrEdtTemplateCreate(group, 3, 1), 3, [c, l, s], 1, [], EDT_PROP_FINISH, &o);
  let e = ocrEdtCreate(ocrEdtTemplateCreate(done, 0, 3), 0, [], 3, [], 0);
  ocrAddDependence(c, b, 0, DB_MODE_RO); ocrAddDependence(c, b, 1, DB_MODE_RO);
  ocrAddDependence(o, e, 0, DB_MODE_NULL); ocrAddDependence(l, e, 1, DB_MODE_NULL); ocrAddDependence(NULL_GUID, e, 2, DB_MODE_NULL);
  ocrAddDependence(NULL_GUID, g, 0, DB_MODE_NULL);
}"""

# Each run by its name: the words, the text, and the lines of its output, in any order.
RUNS = (
    ("first", ("--journal",), FIRST, JOURNAL),
    ("fibonacci", ("10",), FIBONACCI, b"55\n"),
    ("destroyed", ("--stale",), DESTROYED, b"7\n0\nstale 1\nacquire 5 3\n"),
    ("mixed", ("--summary",), MIXED, b"7\n9\nedts 6 started 6 left 0 stale 0\n"),
)


class Program:
    """The built program behind the shim, in a folder of its own."""

    def __init__(self, program, folder):
        self.program, self.folder = program, pathlib.Path(folder)
        source, self.shim, self.reached = (self.folder / name for name in ("shim.c", "shim.so", "reached"))
        source.write_text(SHIM)
        subprocess.run(["cc", "-O2", "-shared", "-fPIC", "-o", self.shim, source], check=True)

    def run(self, words, text, refused):
        """The status, the output and the line of a run, and whether it asked for memory so often."""
        names = {"LD_PRELOAD": str(self.shim), "REACHED": str(self.reached), "REFUSED": str(refused)}
        self.reached.unlink(missing_ok=True)
        try:
            done = subprocess.run([self.program, *words], input=text.encode(), capture_output=True, timeout=SECONDS,
                                  env={**os.environ, **names})
        except subprocess.TimeoutExpired:
            return None, b"", b"no end", True
        return done.returncode, done.stdout, done.stderr, self.reached.exists()


def lines(text):
    return sorted(text.splitlines())


def try_all(program, name, words, text, whole, first, last):
    """Refuses each number; how many were wrong."""
    status, out, err, _ = program.run(words, text, 0)
    if status != 0 or lines(out) != lines(whole):
        print(f"{name}: status {status}, {out!r}, {err!r} where nothing is refused")
        return 1
    endings, wrong, number, late = collections.Counter(), 0, first, 0
    while late < MOST_LATE and (last is None or number <= last):
        status, out, err, is_reached = program.run(words, text, number)
        late = 0 if is_reached else late + 1
        is_refused = (status, out, err) == (9, b"", LINE)
        is_whole = status == 0 and lines(out) == lines(whole) and err == b""
        if not is_refused and not is_whole:
            print(f"{name}: number {number} refused: status {status}, {out!r}, {err!r}")
            wrong += 1
        if is_reached:
            endings[status] += 1
        number += 1
    told = ", ".join(f"status {status}: {count}" for status, count in sorted(endings.items(), key=str))
    print(f"{name}: {endings.total()} numbers; {told}", flush=True)
    return wrong


def main():
    arguments = argparse.ArgumentParser()
    arguments.add_argument("--from", dest="first", type=int, default=1)
    arguments.add_argument("--to", dest="last", type=int)
    arguments.add_argument("program", nargs="?", default=TOP / "crates/ocr/out/ocr")
    arguments.add_argument("word", nargs="?", default="")
    given = arguments.parse_args()
    wrong = 0
    with tempfile.TemporaryDirectory() as folder:
        program = Program(pathlib.Path(given.program).resolve(), folder)
        for name, words, text, whole in RUNS:
            for workers in WORKERS:
                if given.word in name:
                    words_by = ("run", "--workers", str(workers), *words)
                    wrong += try_all(program, f"{name} by {workers}", words_by, text, whole, given.first, given.last)
    sys.exit(1 if wrong else 0)


if __name__ == "__main__":
    main()
