"""What tools/map.py draws: the crates and rooms of crates.txt, and the lines of each crate's files."""
import glob
import os
import re
import sys
from dataclasses import dataclass, field

PARTS = (("src", ".rt"), ("specs", ".antt"), ("proofs", ".antt"))
NOT_DRAWN = {"crates", "docs", "target"}


@dataclass
class Box:
    name: str
    room: int
    deps: list
    kind: str = "library"  # or: program (it has src/main.rt), laws (its src/ has no code), folder (outside the proof)
    lines: tuple = (0, 0, 0)
    row: int = 0


@dataclass
class Room:
    name: str
    says: str
    boxes: list = field(default_factory=list)

    def holds(self, kind):
        return any(b.kind == kind for b in self.boxes)


def stop(sentence):
    sys.exit("map: " + sentence)


def counted(folder, ending):
    """The lines of all files below the folder that end so."""
    files = sorted(glob.glob(os.path.join(folder, "**/*" + ending), recursive=True))
    return sum(open(f, encoding="utf8").read().count("\n") for f in files), files


def look(root, box):
    """Puts down the kind of a crate, and its lines."""
    folder = os.path.join(root, "crates", box.name)
    if not os.path.isdir(folder):
        stop("crates.txt lists %s, and there is no crates/%s" % (box.name, box.name))
    box.lines = tuple(counted(os.path.join(folder, part), ending)[0] for part, ending in PARTS)
    code = ""
    for file in counted(os.path.join(folder, "src"), ".rt")[1]:
        code += re.sub(r"//.*", "", open(file, encoding="utf8").read())
    if os.path.exists(os.path.join(folder, "src/main.rt")):
        box.kind = "program"
    elif not code.strip():
        box.kind = "laws"


def read(root):
    """The rooms of crates.txt, lowest first. `## ROOM: WHAT IT DOES` opens one, `NAME: NEEDS` is a crate (`NAME staticlib: NEEDS` a static library), `# NAME/: NEEDS` a folder outside the proof."""
    rooms = []
    for number, line in enumerate(open(os.path.join(root, "crates.txt"), encoding="utf8"), 1):
        heading = re.match(r"## *([^:]+?) *(?:: *(.*?))? *$", line)
        folder = re.match(r"# *([\w.-]+/): *(.*)", line)
        crate = re.match(r"(\w+)(?: +staticlib)? *: *(.*)", line.split("#")[0])
        if heading:
            rooms.append(Room(heading.group(1), heading.group(2) or ""))
        elif (folder or crate) and not rooms:
            stop("crates.txt, line %d: %s stands in no room; a line '## ROOM: WHAT IT DOES' opens one" % (number, line.split(":")[0]))
        elif folder:
            rooms[-1].boxes.append(Box(folder.group(1), len(rooms) - 1, folder.group(2).split(), "folder"))
        elif crate:
            rooms[-1].boxes.append(Box(crate.group(1), len(rooms) - 1, crate.group(2).split()))
            look(root, rooms[-1].boxes[-1])
    checked(root, rooms)
    return rooms


def folders(root):
    return sorted(f for f in os.listdir(root) if os.path.isdir(os.path.join(root, f)) and f[0] not in "._")


def checked(root, rooms):
    """A need of a library of the kit is dropped. Every folder is in a room, and a crate needs crates of its own or an earlier room."""
    boxes = {b.name: b for r in rooms for b in r.boxes}
    for box in boxes.values():
        box.deps = [d for d in box.deps if d in boxes]
        for d in box.deps:
            if boxes[d].room > box.room:
                stop("crates.txt: %s, of the room '%s', needs %s of the later room '%s'" % (box.name, rooms[box.room].name, d, rooms[boxes[d].room].name))
    for entry in folders(root):
        if entry not in NOT_DRAWN and entry + "/" not in boxes:
            stop("the folder %s/ is in no room of crates.txt: write '# %s/:' where those outside the proof stand" % (entry, entry))
    for entry in folders(os.path.join(root, "crates")):
        if entry not in boxes:
            stop("crates.txt does not list crates/%s" % entry)


def reduced(boxes):
    """For each name, its needs that do not follow from its other needs."""
    closed = {}

    def below(name):
        if name not in closed:
            closed[name] = set()
            for d in boxes[name].deps:
                closed[name] |= {d} | below(d)
        return closed[name]

    for name in boxes:
        if name in below(name):
            stop("crates.txt: the crates depend on each other in a cycle through %s" % name)
    return {n: [d for d in b.deps if not any(d in below(e) for e in b.deps)] for n, b in boxes.items()}
