#!/usr/bin/env python3
"""The built program on a hostile system: streams that are closed, full, a directory, or a pipe that nobody reads; many workers
on few processors; little memory; a limit on the size of a file. Each case ends by itself, with a status and a line of
docs/LANGUAGE.md, and what it wrote is a prefix of what it would write, with nothing where the status is 7 or 9. Fails where
one ends by a signal, hangs, or differs.

One ending by a signal is that of the manual: where `ulimit -f` is passed, the system ends the process by SIGXFSZ before the
write can tell of it. Where the caller has that signal ignored, the write fails, and the status is 8.

Build the program first: cd crates/ocr && rt run -- run < stdin, which leaves it as crates/ocr/out/ocr.
Then, in any folder:  bench/hostile_program.py [PROGRAM [WORD]]   (WORD: only the cases whose names have it)
"""
import os
import pathlib
import resource
import signal
import subprocess
import sys
import tempfile

TOP = pathlib.Path(__file__).resolve().parent.parent
SECONDS = 60

PRINTS = b"fn mainEdt { let i = 1000; while i < 2000 { print i; i = i + 1; } }"
PRINTED = b"".join(b"%d\n" % i for i in range(1000, 2000))

# EDTs for many workers, and blocks of half a megabyte that are kept.
EDTS = (b"fn one { let i = 0; while i < 2000 { i = i + 1; } print 1; }"
        b"fn mainEdt { let t = ocrEdtTemplateCreate(one, 0, 0); let k = 0;"
        b" while k < 500 { ocrEdtCreate(t, 0, [], 0, [], 0); k = k + 1; } }")
BLOCKS = (b"fn mainEdt { let k = 0; let d = 0; while k < 20 { d = ocrDbCreate(524288, 0); store(d, 65535, k); k = k + 1; }"
          b" print load(d, 65535); }")

LINES = {0: b"", 7: b"read fault\n", 8: b"write fault\n", 9: b"want of memory\n"}


def close(stream):
    return lambda: os.close(stream)


def redirect(stream, path, flags):
    def before():
        opened = os.open(path, flags)
        os.dup2(opened, stream)
    return before


def unread_pipe(stream):
    def before():
        reader, writer = os.pipe()
        os.close(reader)
        os.dup2(writer, stream)
    return before


def limit(kind, most, ignored=None):
    def before():
        if ignored is not None:
            signal.signal(ignored, signal.SIG_IGN)
        resource.setrlimit(kind, (most, most))
    return before


def both(*steps):
    def before():
        for step in steps:
            step()
    return before


class Case:
    """The program with a text, what is done to it before it starts, and the endings that are right: the status, whether it
    wrote all of its output, and the line on standard error, or none where that is closed."""

    def __init__(self, name, endings, text=PRINTS, whole=PRINTED, words=("run",), before=None, err=True):
        self.name, self.endings, self.text, self.whole = name, endings, text, whole
        self.words, self.before, self.err = words, before, err

    def wrong(self, program):
        """What is wrong, or nothing; and how the program ended."""
        with tempfile.TemporaryDirectory() as folder:
            paths = [pathlib.Path(folder) / name for name in ("in", "out", "err")]
            paths[0].write_bytes(self.text)
            with open(paths[0], "rb") as text, open(paths[1], "wb") as out, open(paths[2], "wb") as err:
                try:
                    status = subprocess.run([program, *self.words], stdin=text, stdout=out, stderr=err, timeout=SECONDS,
                                            preexec_fn=self.before).returncode
                except subprocess.TimeoutExpired:
                    return f"no end in {SECONDS} s", None
            return self.judged(status, paths[1].read_bytes(), paths[2].read_bytes()), status

    def judged(self, status, out, err):
        if status not in self.endings:
            return f"status {status}, not one of {self.endings}"
        if self.err and status >= 0 and err != LINES[status]:
            return f"the line {err!r}"
        if status == 0 and out != self.whole:
            return "another output"
        if status in (7, 9) and out:
            return "output before the end"
        if not self.whole.startswith(out):
            return "an output that is no prefix"
        return None


def cases():
    yield Case("nothing hostile", (0,))
    yield Case("closed standard output", (8,), before=close(1))
    yield Case("closed standard error", (0,), before=close(2), err=False)
    yield Case("both closed", (8,), before=both(close(1), close(2)), err=False)
    yield Case("closed standard input", (7,), before=close(0))
    yield Case("a directory as input", (7,), before=redirect(0, "/", os.O_RDONLY))
    yield Case("an input that is only written", (7,), before=redirect(0, os.devnull, os.O_WRONLY))
    yield Case("an output that is only read", (8,), before=redirect(1, os.devnull, os.O_RDONLY))
    yield Case("an output that is full", (8,), before=redirect(1, "/dev/full", os.O_WRONLY))
    yield Case("a standard error that is full", (0,), before=redirect(2, "/dev/full", os.O_WRONLY), err=False)
    yield Case("both are full", (8,), before=both(redirect(1, "/dev/full", os.O_WRONLY), redirect(2, "/dev/full", os.O_WRONLY)),
               err=False)
    yield Case("a pipe that nobody reads", (8,), before=unread_pipe(1))
    yield Case("a line that nobody reads", (8,), before=both(unread_pipe(1), unread_pipe(2)), err=False)
    yield Case("64 workers on 2 processors", (0,), text=EDTS, whole=b"1\n" * 500, words=("run", "--workers", "64", "--events", "200000"),
               before=lambda: os.sched_setaffinity(0, sorted(os.sched_getaffinity(0))[:2]))
    for most in (0, 1, 1024, 4999):
        ignored = limit(resource.RLIMIT_FSIZE, most, signal.SIGXFSZ)
        yield Case(f"a file of at most {most} bytes, SIGXFSZ ignored", (8,), before=ignored, err=False)
        yield Case(f"a file of at most {most} bytes", (-signal.SIGXFSZ,), before=limit(resource.RLIMIT_FSIZE, most))
    yield Case("a file of at most 5000 bytes", (0,), before=limit(resource.RLIMIT_FSIZE, 5000))


def least_address_space(program):
    """The fewest kilobytes of address space, in steps of 64, in which the program starts and refuses its words."""
    for kilobytes in range(64, 1 << 20, 64):
        before = limit(resource.RLIMIT_AS, kilobytes * 1024)
        try:
            done = subprocess.run([program], stdin=subprocess.DEVNULL, capture_output=True, timeout=SECONDS, preexec_fn=before)
        except (subprocess.SubprocessError, OSError):
            continue
        if done.returncode == 2 and done.stderr == b"words refused\n":
            return kilobytes
    sys.exit("the program does not start in 1 GB of address space")


# What is run in little memory: the words, the text, and the output.
SMALL = (
    (("run",), PRINTS, PRINTED),
    (("check",), PRINTS, b"fn mainEdt {\n  let i = 1000;\n  while i < 2000 {\n    print i;\n    i = i + 1;\n  }\n}\n"),
    (("run", "--workers", "1"), BLOCKS, b"19\n"),
    (("run", "--workers", "64", "--events", "200000"), EDTS, b"1\n" * 500),
)


def memory_cases(program):
    """Runs in more and more address space, from the least in which the program starts."""
    least = least_address_space(program)
    print(f"starts in {least} KB of address space")
    for words, text, whole in SMALL:
        kilobytes = least
        while kilobytes < 16 << 20:
            yield Case(f"{' '.join(words)} in {kilobytes} KB", (0, 9), text=text, whole=whole, words=words,
                       before=limit(resource.RLIMIT_AS, kilobytes * 1024))
            kilobytes = kilobytes + 256 if kilobytes < least + 4096 else kilobytes * 5 // 4


def main():
    program = pathlib.Path(sys.argv[1] if len(sys.argv) > 1 else TOP / "crates/ocr/out/ocr").resolve()
    word = sys.argv[2] if len(sys.argv) > 2 else ""
    tried, failed, statuses = 0, 0, {}
    for case in (*cases(), *memory_cases(program)):
        if word not in case.name:
            continue
        wrong, status = case.wrong(program)
        tried += 1
        statuses[status] = statuses.get(status, 0) + 1
        if wrong is not None:
            failed += 1
            print(f"{case.name}: {wrong}")
    print(f"{tried} cases, {failed} wrong; by status: " + ", ".join(f"{s}: {n}" for s, n in sorted(statuses.items(), key=str)))
    sys.exit(1 if failed else 0)


if __name__ == "__main__":
    main()
