"""Transcripts: a line `$ COMMAND`, what it prints, each line of standard error behind `! `, and `= STATUS`.

cases/NAME.out is the transcript of the four commands over cases/NAME.pyh; cases/uses/*.txt are written by hand, with comments in lines that begin with `#`,
and --write fills in what their commands print."""
import ctypes
import difflib
import glob
import os
import resource
import shutil
import signal
import subprocess

# a command that takes as many seconds does not end
LIMIT = 20

# as Linux has them; for others than root the call fails, and there is nothing to drop
PR_CAPBSET_DROP, CAP_DAC_OVERRIDE = 24, 1

OF_A_SCRIPT = ["show", "check", "check --format short", "check --format json"]


def run(cases, work, tally):
    scripts = make_scripts(cases, os.path.join(work, "scripts"))
    for script in scripts:
        commands = "".join("$ pyh %s %s\n" % (words, script) for words in OF_A_SCRIPT)
        replay(os.path.join(cases, script[:-4] + ".out"), commands, os.path.join(work, "scripts"), tally)
    for file in sorted(glob.glob(os.path.join(cases, "uses", "*.txt"))):
        # each in a folder of its own, so that none sees what another did
        folder = os.path.join(work, os.path.basename(file))
        make_kiosks(folder)
        with open(file, encoding="utf8") as text:
            replay(file, text.read(), folder, tally)


def make_scripts(cases, folder):
    """The stored scripts, and one that is too long to be stored."""
    os.mkdir(folder)
    for script in glob.glob(os.path.join(cases, "*.pyh")):
        shutil.copy(script, folder)
    put(folder, "01_too_long.pyh", b"a" * 65536 + b"\n")
    return sorted(os.listdir(folder))


def put(folder, name, text):
    path = os.path.join(os.fsencode(folder), os.fsencode(name))
    os.makedirs(os.path.dirname(path), exist_ok=True)
    with open(path, "wb") as file:
        file.write(text)


def make_kiosks(folder):
    """What the commands of cases/uses find where they run."""
    put(folder, "good.pyh", b"lift = 3\n")
    put(folder, "bad.pyh", "salle = 'é', lift lift\n".encode())
    put(folder, "kiosks/1/a.pyh", b"a = 1\n")
    put(folder, "kiosks/1/b.pyh", b"b = \n")
    put(folder, "kiosks/1/notes.txt", b"no script\n")
    put(folder, "kiosks/2/deep/.hidden/c.pyh", b"if c:\n\td\n")
    put(folder, "kiosks/10/d.pyh", b"d\n")
    os.mkdir(os.path.join(folder, "empty"))
    put(folder, "links/real.pyh", b"a\n")
    os.symlink("real.pyh", os.path.join(folder, "links/to_file.pyh"))
    os.symlink("nowhere.pyh", os.path.join(folder, "links/to_nothing.pyh"))
    os.symlink("..", os.path.join(folder, "links/to_folder"))
    os.symlink("..", os.path.join(folder, "links/to_folder.pyh"))
    put(folder, "odd/folder.pyh/a.pyh", b"a\n")
    os.mkfifo(os.path.join(folder, "odd/pipe.pyh"))
    put(folder, b"names/caf\xe9.pyh", b"a b\n")
    put(folder, "names/café.pyh", b"a b\n")
    put(folder, "names/홀.pyh", "홀 층\n".encode())
    put(folder, "names/two\nlines \x1b[31m.pyh", b"a b\n")
    put(folder, "names/-h", b"a b\n")
    put(folder, "names/--format=json", b"a b\n")
    put(folder, "names/caf\\xE9.pyh", b"a b\n")
    put(folder, "names/seen\u202e\u00ad.pyh", b"a b\n")
    put(folder, "capitals/ONE.PYH", b"a b\n")
    put(folder, "capitals/two.Pyh", b"a\n")
    put(folder, "capitals/.pyh", b"a\n")
    put(folder, "capitals/pyh", b"a b\n")
    make_forms(folder)
    too_deep(os.path.join(folder, "deep"))


def make_forms(folder):
    """What `pyh fmt` finds: scripts in standard form and not, with comments, and such as have no text."""
    put(folder, "form/commented.pyh", COMMENTED.encode())
    put(folder, "form/crlf.pyh", b"a = 1\r\nb = [1, 2]\r\n")
    put(folder, "form/empty.pyh", b"")
    put(folder, "form/hollow.pyh", b"halls = 2\nif halls:\n  go()\nelse:\n  ")
    put(folder, "form/long.pyh", b"[" + b"a," * 30000 + b"]\n")
    put(folder, "form/loose.pyh", LOOSE.encode())
    put(folder, "form/one_comment.pyh", b"a = 1  # one\n")
    put(folder, "form/only_comments.pyh", b"# a\n\n  # b\n")
    put(folder, "form/refused.pyh", b"lift = \n")
    put(folder, "form/standard.pyh", b"if a:\n  b\n")
    put(folder, "form/two\nlines.pyh", b"a=1\n")
    put(folder, "form/unended.pyh", b"a = 1\nb = 2")


LOOSE = """\
halls = ["북관", 'C']
closed={ 'North' ,}
lift = 007

for hall in halls:
  if (6 <= now() < 22): show( hall ); count=count+ 1
  else: pass
  tell(hall)
  tell(lift)
  tell(closed)
  tell(now())
  tell("
")
  tell("a")
  tell("b")
  tell("c")
"""

COMMENTED = """\
route = "# no comment"


halls = [1, 2]  # the first, on a line with "quotes"
# the second
if halls: # the third # and no fourth
  show('#')
"""


def too_deep(folder):
    """Folders in one another, with a script in each, until the name of one is too long to be opened."""
    here = os.getcwd()
    os.mkdir(folder)
    os.chdir(folder)
    for _ in range(17):
        with open("a.pyh", "w") as file:
            file.write("a\n")
        os.mkdir("d" * 250)
        os.chdir("d" * 250)
    os.chdir(here)


def replay(file, text, folder, tally):
    """Runs each command of the text; what comes of it must be what is stored."""
    now = "".join(line if line.startswith("#") else transcript(line, folder) for line in text.splitlines(True) if line[:2] in ("$ ", "# ", "#\n"))
    if tally.write:
        with open(file, "w", encoding="utf8", newline="") as stored:
            stored.write(now)
    stored = open(file, encoding="utf8", newline="").read() if os.path.exists(file) else ""
    for name, was, comes in zip(*map(commands_of, (now, stored, now))):
        shown = "".join(difflib.unified_diff(was.splitlines(True), comes.splitlines(True), "stored", "printed"))
        tally.case("%s: %s" % (os.path.basename(file), name.splitlines()[0]), was == comes, shown)
    lists = [[part.splitlines()[0] for part in commands_of(text)] for text in (stored, now)]
    tally.case(os.path.basename(file), lists[0] == lists[1] and lists[1], "what is stored has other commands")


def commands_of(text):
    """The parts of a transcript, one for each command."""
    return ["$ " + part for part in ("\n" + text).split("\n$ ")[1:]]


def limited():
    """A program that reads without end must not take all memory, and root may not write where no one may."""
    resource.setrlimit(resource.RLIMIT_AS, (1 << 30, 1 << 30))
    ctypes.CDLL(None).prctl(PR_CAPBSET_DROP, CAP_DAC_OVERRIDE, 0, 0, 0)


def transcript(line, folder):
    pipes = dict(stdin=subprocess.DEVNULL, stdout=subprocess.PIPE, stderr=subprocess.PIPE)
    process = subprocess.Popen(["sh", "-c", line[2:]], cwd=folder, start_new_session=True, preexec_fn=limited, **pipes)
    try:
        out, err = process.communicate(timeout=LIMIT)
        ended = str(process.returncode)
    except subprocess.TimeoutExpired:
        os.killpg(process.pid, signal.SIGKILL)
        out, err = process.communicate()
        ended = "it does not end"
    out, err = out.decode(errors="backslashreplace"), err.decode(errors="backslashreplace")
    if out and not out.endswith("\n"):
        out += "\n# no line feed\n"
    return "%s%s%s= %s\n" % (line, out, "".join("! %s" % e for e in err.splitlines(True)), ended)
