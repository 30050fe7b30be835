"""The fixed sample that `rt ci` replays: its data files, `args`, and `stdout` with what CPython says of each source."""
import os

from python_rows import BINARY, commas, floats, nested, systematic, wide
from python_sources import Source
from python_tree import KINDS, NONE, Tree

CASES = 1000
# A data file that the program can read at once, and sources that stay short.
FILE_BYTES, LONGEST = 65536, 240


def rows():
    """Every two operators beside each other, and each fortieth of the other rows."""
    pairs = [f"a {p} b {q} c\n" for p in BINARY for q in BINARY]
    return pairs + [text for text in systematic() if text not in pairs][::40]


def chosen():
    """The sources by file."""
    files = {"rows": rows(), "nested": [text for text in dict.fromkeys(nested()) if len(text) <= LONGEST][::3], "names": list(wide())[::3]}
    files["floats"] = list(floats())[::5]
    files["commas"] = [text for text in commas() if len(text.encode()) <= LONGEST][::11]
    known = {text for texts in files.values() for text in texts}
    number, made, file, room, random = 0, len(known), "", 0, 0
    while made < CASES:
        text = Source(f"cases.{number}", (1, 2, 3)[number % 3]).text
        number += 1
        size = len(text.encode())
        if size > LONGEST or size < 12 or text in known:
            continue
        if room < 2 * size + 1:
            random += 1
            file, room = f"random{random}", FILE_BYTES
            files[file] = []
        files[file].append(text)
        known.add(text)
        made, room = made + 1, room - 2 * size - 1
    return files


def shown(tree):
    records = ["".join(" -" if word == NONE else f" {word}" for word in record) for record in tree.records]
    return f"{tree.count} {len(records)} {tree.text.hex() or '-'} |" + " |".join(records)


def write(folder):
    os.makedirs(os.path.join(folder, "data"), exist_ok=True)
    expected, trees = [], []
    for name, texts in chosen().items():
        with open(os.path.join(folder, "data", name), "w") as data:
            for text in texts:
                trees.append(Tree(text))
                line = text.encode().hex() or "-"
                data.write(line + "\n")
                expected.append(f"{line} = {shown(trees[-1])}\n")
    with open(os.path.join(folder, "stdout"), "w") as stdout:
        stdout.writelines(expected)
    with open(os.path.join(folder, "args"), "w") as args:
        args.writelines(name + "\n" for name in chosen())
    kinds = [KINDS[record[0] - 1] for tree in trees for record in tree.records]
    few = [kind for kind in KINDS if kind != "TreeSet" and kinds.count(kind) < 15]
    assert len(trees) == CASES and not few, few
    return trees
