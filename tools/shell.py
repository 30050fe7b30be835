#!/usr/bin/env python3
"""Runs the built program from outside: what it reads in pieces, what can't be read, and what can't be written.

    python3 tools/shell.py            proves and builds the program, and runs it; PROGRAM=FILE runs another in its place
    python3 tools/shell.py --wrong    does the same with stand-ins that read or write wrongly (tools/wrong_shell.c): each must be found

Each case compares standard output, standard error and how the program ended, byte for byte, with the text of document 01, with a listing that was written
by hand from 01 and 02, or with what the same script gives in one piece. A part is written once the one before it was taken out of the pipe. The exit status
is 1 where a case fails.
"""
import fcntl
import os
import pty
import signal
import struct
import subprocess
import sys
import tempfile
import termios
import threading
import time
import tty

ROOT = os.path.dirname(os.path.dirname(os.path.abspath(__file__)))
sys.dont_write_bytecode = True
sys.path.insert(0, os.path.join(ROOT, "tools", "reference"))
import check_answers  # noqa: E402
import float_cases  # noqa: E402

BUILT = os.path.join(ROOT, "target", "bin", "tarbucket")
LIMIT = 20

CHAIN = b"a<b<c\n"
CHAIN_LISTED = check_answers.A_CHAIN.encode() + b"\n"
EMPTY_LISTED = b"2 1 0 0 8 0 1 0\n0 1 0 0 - - 0 0 0\n"
VERSION = EMPTY_LISTED[:2]
TOO_LONG = b"no 1 0\n"
LONGEST = b"a;" * 511 + b"a"
INPUT = b"tarbucket: standard input: "
OUTPUT = b"tarbucket: standard output: "


def left(pipe):
    """How many bytes of a pipe were not read yet."""
    return struct.unpack("i", fcntl.ioctl(pipe, termios.FIONREAD, b"\0" * 4))[0]


def feed(pipe, parted, process):
    end = time.monotonic() + LIMIT
    for part in parted:
        try:
            os.write(pipe, part)
        except BrokenPipeError:
            return
        while left(pipe) and process.poll() is None and time.monotonic() < end:
            time.sleep(0.0005)


def run(program, stdin, feeding=None, stdout=None, **options):
    """Status, standard output and standard error; `feeding` is called with the process while it runs."""
    with tempfile.TemporaryFile() as out, tempfile.TemporaryFile() as err:
        process = subprocess.Popen(program, stdin=stdin, stdout=stdout or out, stderr=err, **options)
        try:
            if feeding:
                feeding(process)
            status = process.wait(LIMIT)
        except subprocess.TimeoutExpired:
            status = "it does not end"
        finally:
            process.kill()
        out.seek(0)
        err.seek(0)
        return status, out.read(), err.read()


def parts(program, parted):
    """Parts of a script through a pipe, one at a time."""
    reads, writes = os.pipe()

    def feeding(process):
        os.close(reads)
        feed(writes, parted, process)
        os.close(writes)

    return run(program, reads, feeding)


def pieces(program, script, size):
    return parts(program, [script[i : i + size] for i in range(0, len(script), size)])


def two(program, script, size):
    return parts(program, [script[:size], script[size:]])


def one_piece(program, script):
    with tempfile.TemporaryFile() as file:
        file.write(script)
        file.seek(0)
        return run(program, file)


def waiting(program, script):
    """The script, then a read that fails: the pipe is empty, not closed, and is not waited for."""
    reads, writes = os.pipe()
    os.set_blocking(reads, False)
    os.write(writes, script)
    answer = run(program, reads)
    os.close(reads)
    os.close(writes)
    return answer


def hung_up(program, script):
    """The script, then a read that fails: the other side of a terminal was closed."""
    master, slave = pty.openpty()
    tty.setraw(slave)
    os.write(slave, script)
    os.close(slave)
    answer = run(program, master)
    os.close(master)
    return answer


def opened(program, stdin, stdout):
    with open(stdin, "rb") as reads, open(stdout, "wb") as writes:
        return run(program, reads, stdout=writes)


def folder(program):
    file = os.open(ROOT, os.O_RDONLY)
    answer = run(program, file)
    os.close(file)
    return answer


def no_reader(program, script, ignored):
    """Standard output is a pipe that nobody reads; the signal is ignored or at its default, and the program ignores it itself."""
    reads, writes = os.pipe()
    os.close(reads)
    before = signal.signal(signal.SIGPIPE, signal.SIG_IGN)
    with open(script, "rb") as file:
        answer = run(program, file, stdout=writes, restore_signals=not ignored)
    signal.signal(signal.SIGPIPE, before)
    os.close(writes)
    return answer


def shut(program, script, what):
    """A descriptor that is not open, `<&-` or `>&-`."""
    with open(script, "rb") as file:
        return run(["sh", "-c", f'exec "$@" {what}', "sh", *program], file)


def narrow(program, script):
    """Standard output is a pipe of one page, read slowly."""
    reads, writes = os.pipe()
    fcntl.fcntl(writes, fcntl.F_SETPIPE_SZ, 4096)
    got = []

    def reading(process):
        os.close(writes)
        limit = threading.Timer(LIMIT, process.kill)
        limit.start()
        while part := os.read(reads, 1000):
            got.append(part)
            time.sleep(0.001)
        limit.cancel()
        os.close(reads)

    with open(script, "rb") as file:
        status, _, err = run(program, file, reading, stdout=writes)
    return status, b"".join(got), err


def cases(program, work):
    """Name, answer and expected answer of each case."""
    with open(os.path.join(ROOT, "examples", "kiosk.pyh"), "rb") as file:
        kiosk = file.read()
    longest = os.path.join(work, "longest.pyh")
    with open(longest, "wb") as file:
        file.write(LONGEST)
    yield "a chain, in one piece", one_piece(program, CHAIN), (0, CHAIN_LISTED, b"")
    yield "an empty input", one_piece(program, b""), (0, EMPTY_LISTED, b"")
    yield "an empty input, through a pipe", pieces(program, b"", 1), (0, EMPTY_LISTED, b"")
    for script, lines in float_cases.PRINTED.items():
        yield f"the Float of {script!r}", one_piece(program, script.encode()), (0, lines.encode() + b"\n", b"")
    for name, script in [("a chain", CHAIN), ("the kiosk's script", kiosk), ("1,023 bytes", LONGEST)]:
        status, out, err = one_piece(program, script)
        yield f"{name}, a listing", (status, out[:2], err), (0, VERSION, b"")
        for size in [1, 7, 512]:
            yield f"{name}, in pieces of {size}", pieces(program, script, size), (0, out, b"")
    listed = one_piece(program, LONGEST)[1]
    yield "1,024 bytes, in one piece", one_piece(program, LONGEST + b";"), (0, TOO_LONG, b"")
    for size in [1, 512, 1022]:
        yield f"1,023 bytes, {size:,} and then the rest", two(program, LONGEST, size), (0, listed, b"")
    for size in [1, 512, 1023]:
        yield f"1,024 bytes, {size:,} and then the rest", two(program, LONGEST + b";", size), (0, TOO_LONG, b"")
    yield "3,000 bytes, in pieces of 512", pieces(program, b"a;" * 1500, 512), (0, TOO_LONG, b"")
    yield "a folder", folder(program), (0, b"", INPUT + b"Is a directory (os error 21)\n")
    yield "no standard input", shut(program, longest, "<&-"), (0, b"", INPUT + b"Bad file descriptor (os error 9)\n")
    yield "a read that fails at first", waiting(program, b""), (0, b"", INPUT + b"Resource temporarily unavailable (os error 11)\n")
    yield "a read that fails after bytes", waiting(program, CHAIN), (0, b"", INPUT + b"Resource temporarily unavailable (os error 11)\n")
    yield "a terminal that hangs up", hung_up(program, CHAIN), (0, b"", INPUT + b"Input/output error (os error 5)\n")
    yield "a full device", opened(program, longest, "/dev/full"), (0, b"", OUTPUT + b"No space left on device (os error 28)\n")
    yield "no standard output", shut(program, longest, ">&-"), (0, b"", OUTPUT + b"Bad file descriptor (os error 9)\n")
    yield "no reader, the signal ignored", no_reader(program, longest, True), (0, b"", OUTPUT + b"Broken pipe (os error 32)\n")
    yield "no reader, the signal at its default", no_reader(program, longest, False), (0, b"", OUTPUT + b"Broken pipe (os error 32)\n")
    yield "a narrow pipe, read slowly", narrow(program, longest), (0, listed, b"")


def failures(program, work, told):
    """The names of the cases that fail, and how many cases there are."""
    failed = []
    count = 0
    for name, got, expected in cases(program, work):
        count += 1
        if got != expected:
            failed.append(name)
        if told:
            print(f"{name}: ok" if got == expected else f"{name}: FAILED\n  expected {expected!r:.300}\n  got      {got!r:.300}")
    return failed, count


def wrong(program, work):
    """Each stand-in that is wrong must be found, and the one that is right must not."""
    stand_in = os.path.join(work, "wrong_shell")
    subprocess.run([os.environ.get("CC", "cc"), "-std=c99", "-Wall", "-Wextra", "-O2", os.path.join(ROOT, "tools", "wrong_shell.c"), "-o", stand_in], check=True)
    missed = 0
    kinds = ["right", "reads_once", "loses_a_read", "stops_at_the_limit", "a_failed_read_ends_the_input", "a_failed_write_is_silent"]
    for kind in kinds:
        failed, count = failures([stand_in, kind, program], work, False)
        missed += (kind == "right") != (not failed)
        print(f"{kind}: {len(failed)} of {count} cases fail" + (": " + "; ".join(failed) if failed else ""))
    print(f"shell: {len(kinds) - 1} wrong programs and a right one, {missed} taken wrongly")
    return missed


def main():
    if sys.argv[1:] not in ([], ["--wrong"]):
        print(__doc__.strip(), file=sys.stderr)
        return 2
    program = os.environ.get("PROGRAM", BUILT)
    if program == BUILT:
        subprocess.run([os.path.join(ROOT, "tools", "program.sh")], check=True, stdout=subprocess.DEVNULL)
    with tempfile.TemporaryDirectory() as work:
        if sys.argv[1:]:
            return 1 if wrong(program, work) else 0
        failed, count = failures([program], work, True)
    print(f"shell: {count} cases, {len(failed)} failed")
    return 1 if failed else 0


if __name__ == "__main__":
    sys.exit(main())
