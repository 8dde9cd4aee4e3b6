#!/usr/bin/env python3
"""What `--races` adds to a run of about 20,000 entries by one worker: instructions, by valgrind, time by the clock and memory
at the peak, without the text itself, which a run holds once, on programs whose journals are made to be slow. Fails where one
takes more than 2 s or 50 MB besides.

Build the program first: cd crates/ocr && rt run -- run < ../../examples/first.ocr, which leaves it as crates/ocr/out/ocr.
Then, in any folder:  bench/races.py [PROGRAM]      (it also wants GNU time, /usr/bin/time)
"""
import pathlib
import re
import subprocess
import sys
import tempfile
import time

TOP = pathlib.Path(__file__).resolve().parent.parent
SECONDS, MEGABYTES = 2.0, 50


def many(count, mode, body, words=1):
    """So many EDTs that hold one block in this mode, and do this."""
    return f"""fn each {{ {body} }}
fn mainEdt {{
  let d = ocrDbCreate({8 * words}, DB_PROP_NO_ACQUIRE); let t = ocrEdtTemplateCreate(each, 1, 1); let k = 0;
  while k < {count} {{
    let w = ocrEdtCreate(t, EDT_PARAM_DEF, [k], EDT_PARAM_DEF, [], 0);
    ocrAddDependence(d, w, 0, {mode}); k = k + 1;
  }}
}}"""


PROGRAMS = (
    ("prints alone", "fn mainEdt { let k = 0; while k < 19990 { print k; k = k + 1; } }"),
    ("one word by 2,450 EDTs in RW", many(2_450, "DB_MODE_RW", "store(depv[0], 0, 1);")),
    ("10,000 stores each by two EDTs", many(2, "DB_MODE_RW", "let k = 0; while k < 9900 { store(depv[0], 0, k); k = k + 1; }")),
    ("2,450 words by 2,450 EDTs", many(2_450, "DB_MODE_RW", "store(depv[0], paramv[0], 1);", words=2_450)),
    ("2,800 holds in EW of one block", many(2_800, "DB_MODE_EW", "")),
    ("2,800 holds in CONST of one block", many(2_800, "DB_MODE_CONST", "")),
    ("holds in RO and EW by turns", many(2_800, "DB_MODE_RO + k % 2 * 3", "")),
    ("a latch of 9,000", "fn mainEdt { let l = ocrEventCreate(OCR_EVENT_LATCH_T, 0); let k = 0;"
     " while k < 9000 { ocrEventSatisfySlot(l, 0, OCR_EVENT_LATCH_INCR_SLOT); k = k + 1; }"
     " while k { ocrEventSatisfySlot(l, 0, OCR_EVENT_LATCH_DECR_SLOT); k = k - 1; } }"),
    ("a latch of 2,000 with 3,000 targets", "fn each { } fn mainEdt { let l = ocrEventCreate(OCR_EVENT_LATCH_T, 0); let k = 0;"
     " let t = ocrEdtTemplateCreate(each, 0, 1);"
     " while k < 3000 { ocrEdtCreate(t, EDT_PARAM_DEF, [], EDT_PARAM_DEF, [l], 0); k = k + 1; } k = 0;"
     " while k < 2000 { ocrEventSatisfySlot(l, 0, OCR_EVENT_LATCH_INCR_SLOT); k = k + 1; }"
     " while k { ocrEventSatisfySlot(l, 0, OCR_EVENT_LATCH_DECR_SLOT); k = k - 1; } }"),
    ("2,000 nested scopes", "fn nest { if paramv[0] { ocrEdtCreate(paramv[1], EDT_PARAM_DEF, [paramv[0] - 1, paramv[1]],"
     " EDT_PARAM_DEF, [], EDT_PROP_FINISH); } } fn mainEdt { let t = ocrEdtTemplateCreate(nest, 2, 0);"
     " ocrEdtCreate(t, EDT_PARAM_DEF, [2000, t], EDT_PARAM_DEF, [], EDT_PROP_FINISH); }"),
    ("4,900 members of one scope", "fn each { } fn scope { let t = ocrEdtTemplateCreate(each, 0, 0); let k = 0;"
     " while k < 4900 { ocrEdtCreate(t, EDT_PARAM_DEF, [], EDT_PARAM_DEF, [], 0); k = k + 1; } }"
     " fn mainEdt { ocrEdtCreate(ocrEdtTemplateCreate(scope, 0, 0), EDT_PARAM_DEF, [], EDT_PARAM_DEF, [], EDT_PROP_FINISH); }"),
    ("a channel, full again and again", "fn each { } fn mainEdt {"
     " let c = ocrEventCreateParams(OCR_EVENT_CHANNEL_T, 0, 1024, 1, 1); let k = 0; let t = ocrEdtTemplateCreate(each, 0, 1);"
     " while k < 3000 { ocrEventSatisfy(c, NULL_GUID); if k % 1000 == 999 { let i = 0;"
     " while i < 1000 { ocrEdtCreate(t, EDT_PARAM_DEF, [], EDT_PARAM_DEF, [c], 0); i = i + 1; } } k = k + 1; } }"),
)


def run(words, text, before=()):
    with tempfile.TemporaryFile("w+") as source:
        source.write(text)
        source.seek(0)
        start = time.monotonic()
        ended = subprocess.run([*before, *words], stdin=source, stdout=subprocess.PIPE, stderr=subprocess.PIPE, text=True)
        taken = time.monotonic() - start
    if ended.returncode not in (0, 4):
        sys.exit(f"races: a run ended with status {ended.returncode}: {ended.stderr.rstrip()}\n{text}")
    return ended, taken


def instructions(words, text):
    ended, _ = run(words, text, ["valgrind", "--tool=callgrind", "--callgrind-out-file=/dev/null"])
    return int(re.search(r"Collected : (\d+)", ended.stderr)[1])


def peak(words, text):
    ended, _ = run(words, text, ["/usr/bin/time", "-f", "peak %M"])
    return int(re.search(r"peak (\d+)", ended.stderr)[1]) * 1024 / 1_000_000


def main():
    program = sys.argv[1] if len(sys.argv) > 1 else str(TOP / "crates/ocr/out/ocr")
    plain = [program, "run", "--workers", "1", "--objects", "65536"]
    failed = False
    print(f"{'':<36}{'entries':>9}{'races':>10}{'instructions':>15}{'seconds':>9}{'text MB':>9}{'MB':>7}")
    for name, text in PROGRAMS:
        ended, _ = run([*plain, "--races", "--journal"], text)
        entries = int(re.search(r"^journal (\d+)$", ended.stdout, re.M)[1])
        races = re.search(r"^races (.*)$", ended.stdout, re.M)[1]
        more = instructions([*plain, "--races"], text) - instructions(plain, text)
        seconds = min(run([*plain, "--races"], text)[1] for _ in range(3)) - min(run(plain, text)[1] for _ in range(3))
        written = (len(run([*plain, "--races"], text)[0].stdout) - len(run(plain, text)[0].stdout)) / 1_000_000
        memory = (peak([*plain, "--races"], text) - peak(plain, text)) - written
        is_met = seconds <= SECONDS and memory <= MEGABYTES and "unknown" not in races
        failed = failed or not is_met
        print(f"{name:<36}{entries:>9}{races:>10}{more:>15,}{seconds:>9.3f}{written:>9.1f}{memory:>7.1f}" + ("" if is_met else "  not met"), flush=True)
    sys.exit(failed)


main()
