#!/usr/bin/env python3
"""Instructions for one more of each kind of call and entry, in the loop of one EDT with one worker, counted by valgrind: what
a run of 2N takes more than one of N, for N of 1,000, 2,000 and 4,000. Where a kind costs the same however many there are, the
three figures are alike: fails where the last is more than 1.15 times the first (a tree of names that grows costs a little
more).

Build the program first: cd crates/ocr && rt run -- run < ../../examples/first.ocr, which leaves it as crates/ocr/out/ocr.
Then, in any folder:  bench/kinds.py [PROGRAM [WORD]]   (WORD: only the kinds whose names have it)
"""
import pathlib
import re
import subprocess
import sys
import tempfile

TOP = pathlib.Path(__file__).resolve().parent.parent
SIZES = (1_000, 2_000, 4_000, 8_000)
MOST = 1.15

NONE = "fn none { }\n"


def loop(body, before="", after="", functions=NONE):
    return f"{functions}fn mainEdt {{ {before} let k = 0; while k < N {{ {body} k = k + 1; }} {after} }}"


def edt(slots, link):
    """An EDT that is made, and given its slots."""
    return (f"let w = ocrEdtCreate(t, EDT_PARAM_DEF, [], EDT_PARAM_DEF, [], 0); {link}",
            f"let t = ocrEdtTemplateCreate(none, 0, {slots});")


def with_block(mode):
    body, before = edt(1, f"ocrAddDependence(d, w, 0, {mode});")
    return loop(f"let d = ocrDbCreate(8, DB_PROP_NO_ACQUIRE); {body}", before)


def common(mode):
    """EDTs that hold one block, one after the other or together."""
    body, before = edt(1, f"ocrAddDependence(d, w, 0, {mode});")
    return loop(body, f"let d = ocrDbCreate(8, 0); ocrDbRelease(d); {before}")


def linked(kind, fire, before_fire=""):
    """EDTs linked to one event that fires in the end."""
    body, before = edt(1, "ocrAddDependence(e, w, 0, DB_MODE_NULL);")
    return loop(body, f"let e = ocrEventCreate({kind}, 0); {before_fire} {before}", fire)


def accessed(mode, body):
    functions = f"fn holder {{ let k = 0; let x = 0; while k < N {{ {body} k = k + 1; }} }}\n"
    return (functions + "fn mainEdt { let d = ocrDbCreate(8, 0); store(d, 0, 1); ocrDbRelease(d);"
            " let w = ocrEdtCreate(ocrEdtTemplateCreate(holder, 0, 1), EDT_PARAM_DEF, [], EDT_PARAM_DEF, [], 0);"
            f" ocrAddDependence(d, w, 0, {mode}); }}")


SET0 = edt(1, "ocrAddDependence(NULL_GUID, w, 0, DB_MODE_NULL);")
KINDS = (
    ("print", loop("print k;")),
    ("EDT without slots", loop(*edt(0, ""))),
    ("EDT with a slot set", loop(*SET0)),
    ("EDT with a block in EW", with_block("DB_MODE_EW")),
    ("EDT with a block in RW", with_block("DB_MODE_RW")),
    ("EDT with a block in RO", with_block("DB_MODE_RO")),
    ("EDT with a block in CONST", with_block("DB_MODE_CONST")),
    ("EDT that waits in EW for a common block", common("DB_MODE_EW")),
    ("EDT that shares a block in RO", common("DB_MODE_RO")),
    ("EDT that shares a block in RW", common("DB_MODE_RW")),
    ("EDT linked to a STICKY event", linked("OCR_EVENT_STICKY_T", "ocrEventSatisfy(e, NULL_GUID);")),
    ("EDT linked to a ONCE event", linked("OCR_EVENT_ONCE_T", "ocrEventSatisfy(e, NULL_GUID);")),
    ("EDT linked to an IDEM event", linked("OCR_EVENT_IDEM_T", "ocrEventSatisfy(e, NULL_GUID);")),
    ("EDT linked to a latch", linked("OCR_EVENT_LATCH_T", "ocrEventSatisfySlot(e, NULL_GUID, OCR_EVENT_LATCH_DECR_SLOT);",
                                     "ocrEventSatisfySlot(e, NULL_GUID, OCR_EVENT_LATCH_INCR_SLOT);")),
    ("EDT linked to a fired STICKY event", linked("OCR_EVENT_STICKY_T", "", "ocrEventSatisfy(e, NULL_GUID);")),
    ("EDT with an output event", loop("ocrEdtCreate(t, EDT_PARAM_DEF, [], EDT_PARAM_DEF, [], 0, &o);",
                                      "let t = ocrEdtTemplateCreate(none, 0, 0); let o = 0;")),
    ("finish EDT", loop("ocrEdtCreate(t, EDT_PARAM_DEF, [], EDT_PARAM_DEF, [], EDT_PROP_FINISH);",
                        "let t = ocrEdtTemplateCreate(none, 0, 0);")),
    ("EDT in a finish scope",
     "fn none { }\nfn scope { let t = ocrEdtTemplateCreate(none, 0, 0); let k = 0;"
     " while k < N { ocrEdtCreate(t, EDT_PARAM_DEF, [], EDT_PARAM_DEF, [], 0); k = k + 1; } }\n"
     "fn mainEdt { ocrEdtCreate(ocrEdtTemplateCreate(scope, 0, 0), EDT_PARAM_DEF, [], EDT_PARAM_DEF, [], EDT_PROP_FINISH); }"),
    ("increment of a latch", loop("ocrEventSatisfySlot(e, NULL_GUID, OCR_EVENT_LATCH_INCR_SLOT);",
                                  "let e = ocrEventCreate(OCR_EVENT_LATCH_T, 0);")),
    ("STICKY event made", loop("ocrEventCreate(OCR_EVENT_STICKY_T, 0);")),
    ("STICKY event made and satisfied", loop("let e = ocrEventCreate(OCR_EVENT_STICKY_T, 0); ocrEventSatisfy(e, NULL_GUID);")),
    ("event made and destroyed", loop("let e = ocrEventCreate(OCR_EVENT_STICKY_T, 0); ocrEventDestroy(e);")),
    ("event that satisfies an event", loop("let e = ocrEventCreate(OCR_EVENT_STICKY_T, 0); ocrAddDependence(f, e, 0, DB_MODE_NULL);",
                                           "let f = ocrEventCreate(OCR_EVENT_STICKY_T, 0);", "ocrEventSatisfy(f, NULL_GUID);")),
    ("channel to a new EDT", loop(f"ocrEventSatisfy(e, NULL_GUID); {edt(1, 'ocrAddDependence(e, w, 0, DB_MODE_NULL);')[0]}",
                                  "let e = ocrEventCreateParams(OCR_EVENT_CHANNEL_T, 0, 2, 1, 1); " + edt(1, "")[1])),
    ("template made and destroyed", loop("let t = ocrEdtTemplateCreate(none, 0, 0); ocrEdtTemplateDestroy(t);")),
    ("block made and given back", loop("let d = ocrDbCreate(8, 0); ocrDbRelease(d);")),
    ("block made, stored to and destroyed", loop("let d = ocrDbCreate(8, 0); store(d, 0, k); ocrDbDestroy(d);")),
    ("store in RW", accessed("DB_MODE_RW", "store(depv[0], 0, k);")),
    ("store in EW", accessed("DB_MODE_EW", "store(depv[0], 0, k);")),
    ("load in RW", accessed("DB_MODE_RW", "x = load(depv[0], 0);")),
    ("load in RO", accessed("DB_MODE_RO", "x = load(depv[0], 0);")),
    ("load in CONST", accessed("DB_MODE_CONST", "x = load(depv[0], 0);")),
    ("refused call", loop("ocrEventSatisfy(99999, NULL_GUID);")),
)


def instructions(program, text):
    with tempfile.TemporaryFile("w+") as source:
        source.write(text)
        source.seek(0)
        words = ["valgrind", "--tool=callgrind", "--callgrind-out-file=/dev/null", program, "run", "--workers", "1",
                 "--objects", "65536", "--events", "4000000"]
        run = subprocess.run(words, stdin=source, stdout=subprocess.DEVNULL, stderr=subprocess.PIPE, text=True)
    if run.returncode not in (0, 4):
        sys.exit(f"kinds: a run ended with status {run.returncode}: {run.stderr.rstrip().splitlines()[-1:]}\n{text}")
    return int(re.search(r"Collected : (\d+)", run.stderr)[1])


def main():
    program = sys.argv[1] if len(sys.argv) > 1 else str(TOP / "crates/ocr/out/ocr")
    word = sys.argv[2] if len(sys.argv) > 2 else ""
    failed = False
    print(f"{'one more of':<42}" + "".join(f"{'from ' + format(size, ','):>12}" for size in SIZES[:-1]))
    for name, text in KINDS:
        if word not in name:
            continue
        counts = [instructions(program, text.replace("N {", f"{size} {{")) for size in SIZES]
        each = [(more - less) / (high - low) for low, high, less, more in zip(SIZES, SIZES[1:], counts, counts[1:])]
        is_same = each[-1] <= MOST * each[0]
        failed = failed or not is_same
        print(f"{name:<42}" + "".join(f"{count:>12.0f}" for count in each) + ("" if is_same else "  grows"), flush=True)
    sys.exit(failed)


main()
