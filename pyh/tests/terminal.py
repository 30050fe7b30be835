"""What pyh does on a terminal: colours, its width, and the line of progress. cases/terminal/NAME.out is all that it writes there, ESC as `\\e`."""
import fcntl
import os
import pty
import re
import struct
import subprocess
import termios
import threading
import time

LONG = '["%s"] oben ["%s"]\n' % ('", "'.join("Halle %d" % i for i in range(40)), '", "'.join("층 %d" % i for i in range(40)))
DEEP = "(" * 30 + "a" + ",)" * 30 + "\n"
MARKS = "α\u0301" * 60 + " ε\u0301ξοδος" + "α\u0301" * 60 + "\n"
KOREAN = "안내 = 북관 + 남관, 층수(1), 북관_입구, 남관_입구 승강기, 계단, 출구, 매표소, 화장실\n"
LOOSE = "a = 1\nb = '\x1b[31m'\r\nc = 3\n"

# NAME, the words, columns, what is other in the environment
SHOWN = [
    ("show_refused", ["show", "long.pyh"], 80, {}),
    ("show_narrow", ["show", "long.pyh"], 40, {}),
    ("show_wide", ["show", "long.pyh"], 160, {}),
    ("show_very_narrow", ["show", "long.pyh"], 5, {}),
    ("show_no_size", ["show", "long.pyh"], 0, {}),
    ("show_accepted", ["show", "deep.pyh"], 40, {}),
    ("show_no_color", ["show", "long.pyh"], 80, {"NO_COLOR": "1"}),
    ("show_no_color_empty", ["show", "long.pyh"], 80, {"NO_COLOR": ""}),
    ("show_dumb", ["show", "long.pyh"], 80, {"TERM": "dumb"}),
    ("show_term_empty", ["show", "long.pyh"], 80, {"TERM": ""}),
    ("show_term_unset", ["show", "long.pyh"], 80, {"TERM": None}),
    ("show_sentence", ["show", "words.pyh"], 40, {"NO_COLOR": "1"}),
    ("show_marks", ["show", "marks.pyh"], 40, {"NO_COLOR": "1"}),
    ("show_korean", ["show", "korean.pyh"], 40, {"NO_COLOR": "1"}),
    ("check_text", ["check", "good.pyh", "long.pyh", "missing.pyh"], 80, {}),
    ("check_accepted", ["check", "good.pyh"], 80, {}),
    ("check_short", ["check", "--format", "short", "good.pyh", "long.pyh"], 80, {}),
    ("check_json", ["check", "--format", "json", "good.pyh", "long.pyh"], 80, {}),
    ("check_no_color", ["check", "good.pyh", "long.pyh"], 80, {"NO_COLOR": "1"}),
    ("fmt_diff", ["fmt", "--diff", "loose.pyh"], 80, {}),
    ("fmt_diff_no_color", ["fmt", "--diff", "loose.pyh"], 80, {"NO_COLOR": "1"}),
    ("fmt_refused", ["fmt", "loose.pyh", "long.pyh"], 60, {}),
]


def run(cases, work, tally):
    scripts = {"good": "lift = 3\n", "long": LONG, "deep": DEEP, "words": "left = total-1\n", "marks": MARKS, "korean": KOREAN, "loose": LOOSE}
    for name, text in scripts.items():
        with open(os.path.join(work, name + ".pyh"), "w", encoding="utf8") as file:
            file.write(text)
    for name, words, columns, other in SHOWN:
        written, status = on_terminal(words, work, columns, other)
        stored(os.path.join(cases, "terminal", name + ".out"), "%s= %d\n" % (escaped(written), status), tally)
    told, _ = on_terminal(["fmt", "good.pyh", "long.pyh"], work, 60, {}, ["stderr"])
    tally.case("terminal: colours on standard error alone", told.startswith(b"\x1b[1mlong.pyh\x1b[0m: \x1b[1;31mrefused"), told)
    shown, _ = on_terminal(["fmt", "--diff", "loose.pyh"], work, 60, {}, ["stdout"])
    tally.case("terminal: colours on standard output alone", shown.startswith(b"\x1b[1m--- loose.pyh\x1b[0m"), shown)
    progress(work, tally)


def stored(file, now, tally):
    if tally.write:
        os.makedirs(os.path.dirname(file), exist_ok=True)
        with open(file, "w", encoding="utf8", newline="") as out:
            out.write(now)
    was = open(file, encoding="utf8", newline="").read() if os.path.exists(file) else ""
    tally.case("terminal: %s" % os.path.basename(file), was == now, "stored:\n%s\nprinted:\n%s" % (was, now))


def escaped(written):
    return written.decode().replace("\r\n", "\n").replace("\x1b", "\\e").replace("\r", "\\r")


def on_terminal(words, work, columns, other={}, streams=("stdout", "stderr")):
    """All that is written to the terminal that these streams are on, and the status."""
    ours, theirs = pty.openpty()
    fcntl.ioctl(theirs, termios.TIOCSWINSZ, struct.pack("HHHH", 24, columns, 0, 0))
    pipes = {stream: theirs if stream in streams else subprocess.DEVNULL for stream in ("stdout", "stderr")}
    env = {name: value for name, value in {**os.environ, **other}.items() if value is not None}
    process = subprocess.Popen(["pyh"] + words, cwd=work, stdin=subprocess.DEVNULL, env=env, **pipes)
    os.close(theirs)
    timer = threading.Timer(60, process.kill)
    timer.start()
    written = b""
    while True:
        try:
            part = os.read(ours, 1 << 16)
        except OSError:
            # Linux says so where the other side is closed
            break
        if not part:
            break
        written += part
    os.close(ours)
    timer.cancel()
    return written, process.wait()


LINE = re.compile(rb"\r(\d+ scripts found|\d+ of \d+ scripts, \d+ refused)\x1b\[K")


def progress(work, tally):
    """More than 300 scripts: a line while it runs, and nothing of it at the end."""
    for count in (300, 301, 2000):
        os.mkdir(os.path.join(work, str(count)))
        for i in range(count):
            with open(os.path.join(work, str(count), "%04d.pyh" % i), "w") as file:
                file.write("a b\n" if i in (100, 250) else "a\n")

    plain = subprocess.run(["pyh", "check", "2000"], cwd=work, capture_output=True)
    tally.case("progress: none where no terminal is", b"\r" not in plain.stdout + plain.stderr and plain.stderr == b"", plain)
    few, status = on_terminal(["check", "300"], work, 80, {"NO_COLOR": "1"})
    tally.case("progress: none for 300 scripts", not LINE.search(few) and status == 1, few)
    for count in (301, 2000):
        some, status = on_terminal(["check", str(count)], work, 80, {"NO_COLOR": "1"})
        tally.case("progress: a line for %d scripts" % count, LINE.search(some) and status == 1, some)
        alone = subprocess.run(["pyh", "check", str(count)], cwd=work, capture_output=True).stdout
        tally.case("progress: nothing of it is left", screen(some) == alone.decode(), screen(some))
    slow, _ = while_waiting(work)
    tally.case("progress: how far it is", b"\r302 of 303 scripts, 2 refused\x1b[K" in slow, slow)
    tally.case("progress: drawn again behind a refusal", slow.rindex(b"refused\x1b[K") > slow.rindex(b"does not fit"), slow)
    dumb, _ = on_terminal(["check", "2000"], work, 80, {"TERM": "dumb"})
    tally.case("progress: none on a terminal that can't", b"\x1b" not in dumb and not re.search(rb"\r[^\n]", dumb), dumb)
    errors, _ = on_terminal(["check", "2000"], work, 80, {}, ["stderr"])
    tally.case("progress: on standard error alone", LINE.search(errors) and b"refused:" not in errors, errors)
    output, _ = on_terminal(["check", "2000"], work, 80, {}, ["stdout"])
    tally.case("progress: not on standard output", not LINE.search(output) and b"refused" in output, output)
    narrow, _ = on_terminal(["check", "2000"], work, 12, {"NO_COLOR": "1"}, ["stderr"])
    widest = max(map(len, re.findall(rb"\r([^\r\x1b]*)", narrow)))
    tally.case("progress: no wider than the terminal", 0 < widest < 12, narrow)


def while_waiting(work):
    """301 scripts, then one that is a while in coming, and one more."""
    slow = os.path.join(work, "slow")
    os.mkfifo(slow)

    def feed():
        time.sleep(0.3)
        with open(slow, "w") as pipe:
            pipe.write("a\n")

    threading.Thread(target=feed, daemon=True).start()
    return on_terminal(["check", "301", "slow", "good.pyh"], work, 80, {"NO_COLOR": "1"})


def screen(written):
    """What is on the screen in the end: `\\r` goes to the line's start, ESC [ K wipes what follows."""
    lines, at = [""], 0
    for part in re.findall(r"\r|\n|\x1b\[K|[^\r\n\x1b]+", written.decode()):
        if part == "\r":
            at = 0
        elif part == "\n":
            lines.append("")
        elif part == "\x1b[K":
            lines[-1] = lines[-1][:at]
        else:
            lines[-1] = lines[-1][:at] + part + lines[-1][at + len(part) :]
            at += len(part)
    return "\n".join(lines)
