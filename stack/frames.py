#!/usr/bin/env python3
"""The most stack that any call of the library can take, by the frames of its functions.

    stack/frames.py [LIBRARY]    prints the frames, the writer's sum and that of the others; status 0 exactly if both are no more than include/tarbucket.h
                                 promises

objdump shows each function of the archive. Its instructions are walked along all jumps, with how deep the stack is before each; what is below the stack
pointer and used (the red zone) counts too. The sum is that of the longest chain of calls. At most 64 E and Block are open at once:
- in the reader one more E is refused before lambda_or_o is called, and one more Block by the first test of rule_block: so of the calls that are open, 64 at
  most are of these two, or 65 where the last is a rule_block, which calls nothing. The sum has a 65th of either, which is a little too much for an E;
- in the writer, of an accepted script, put_expr calls itself where an E is opened, or for a rule further behind: seven calls for each E at most, one for
  the E, five for what stands right of `or`, `and`, a comparison, + and *, and one for what stands behind signs. put_line calls itself where a Block is
  opened, and once more for the Elif, Else or Method that has it.

Where the code is such that this can't be told, it stops and says where. It is no proof, for it believes:
- objdump, and that the names are those of the source;
- that a jump through a table of offsets goes to blocks of the same function. The table itself is not read: the blocks that nothing else reaches are
  walked with the depth of that jump;
- that memory below the stack pointer is named by the stack pointer, not by a copy of it. It stops at a frame pointer.
"""
import os
import re
import subprocess
import sys
from functools import lru_cache

ROOT = os.path.dirname(os.path.dirname(os.path.abspath(__file__)))
LEVELS, DEEPEST = {"expr::lambda_or_o", "stmt::rule_block"}, 64
# The writer's: how many calls of it are open for an E, or for a Block. The statements of the whole script are in no Block, and have as many.
EXPR, LINE = "writer_expr::put_expr", "writer_stmt::put_line"
SHARES = {EXPR: 7, LINE: 2}
# Where these are compiled into put_expr, as they are, a call by another function than itself opens an E.
WITHIN = {f"writer_expr::{name}" for name in ("step", "put_binary", "put_link", "put_unary")}
# The exported functions, which must all be there, and how much of their arguments goes by the stack: four of the reader's ten, none of the check's four,
# six of the writer's twelve. By the promise that they have in the header.
ENTRIES = {
    "TARBUCKET_WRITE_STACK_BYTES": {"tarbucket_write_source": 48},
    "TARBUCKET_STACK_BYTES": {"tarbucket_parse_source": 32, "tarbucket_utf8_error": 0},
}
# The system's: none of its forms takes as much. Where it is bound at its first call, the linker's resolver takes some KiB more, which are not in it: today
# they can't matter, since the list that is printed has memset among the calls of the entries and of a statement's line, far above the deepest place.
OUTSIDE = {"memset": 512}

PREFIXES = r"(?:(?:notrack|bnd|repz?|data16|cs)\s+)*"
PADDING = r"nop|int3$|xchg +%ax,%ax$"
# What moves the stack pointer or leaves the function without naming it, but for what is understood.
STRANGE = r"push|pop(?!cnt)|leave|enter|[il]?ret.|[il]ret|lcall|ljmp|call.|loop|xbegin|sys(exit|ret)|\(bad\)"


class Line:
    """An instruction: where it is and where the next one would be, its words, and the symbol that it names, with what is added to it."""

    def __init__(self, place, text):
        self.place, self.next, self.kind, self.symbol, self.added = place, None, "", None, 0
        self.text = re.sub(PREFIXES, "", text.split(" #")[0].strip(), count=1)
        word, _, rest = self.text.partition(" ")
        self.word, self.rest = re.sub("^(call|ret|push|pop|jmp|leave)q$", r"\1", word), rest.strip()


class Function:
    """A function's lines by their places, and all functions of its object, by section and place."""

    def __init__(self, name, section, starts):
        self.name, self.section, self.starts, self.lines = name, section, starts, {}

    def stop(self, line, why):
        sys.exit(f"{self.name}: {line.place:x}: {line.text}: {why}")


def functions(library):
    """All functions of the archive, by name."""
    command = ["objdump", "-drzC", "--no-show-raw-insn", library]
    out = subprocess.run(command, capture_output=True, text=True, check=True).stdout
    all, starts, section, function, last = {}, {}, None, None, None
    for text in out.splitlines():
        if re.search(r":\s+file format ", text):
            starts = {}
        elif found := re.match(r"Disassembly of section (.+):$", text):
            section = found[1]
        elif found := re.match(r"([0-9a-f]+) <(.+)>:$", text):
            if found[2] in all:
                sys.exit(f"{found[2]}: there are two functions of this name")
            function, last = Function(found[2], section, starts), None
            all[found[2]] = starts[section, int(found[1], 16)] = function
        elif found := re.match(r"\s+[0-9a-f]+: (R_X86_64_\S+)\s+(.+?)([+-]0x[0-9a-f]+)?$", text):
            last.kind, last.symbol, last.added = found[1], found[2], int(found[3] or "0", 16)
        elif found := re.match(r"\s+([0-9a-f]+):\s+(\S.*)$", text):
            line = Line(int(found[1], 16), found[2])
            if last:
                last.next = line.place
            function.lines[line.place] = last = line
    return all


class Walk:
    """Along all jumps of a function, with how deep the stack is before each line: 8 at its start, for the return address."""

    def __init__(self, function):
        self.function, self.lines = function, function.lines
        self.depths, self.tables, self.deepest, self.calls = {}, set(), 8, []
        self.follow(next(iter(self.lines)), 8)
        for line in self.lines.values():
            if line.place not in self.depths and not re.match(PADDING, line.text):
                if not self.tables:
                    function.stop(line, "nothing comes here")
                self.follow(line.place, *self.tables)

    def follow(self, place, depth):
        """From this place on, and from all places that are reached from it."""
        todo = [(place, depth)]
        while todo:
            place, depth = todo.pop()
            if place not in self.depths:
                self.depths[place] = depth
                todo += self.step(self.lines[place], depth)
            elif self.depths[place] != depth:
                self.function.stop(self.lines[place], f"the stack is {self.depths[place]} deep here, and {depth} too")

    def step(self, line, depth):
        """The places that come next, each with its depth."""
        after = depth + self.moved(line)
        below = re.search(r"-0x([0-9a-f]+)\(%rsp", line.rest)
        self.deepest = max(self.deepest, after, depth + int(below[1], 16) if below else 0)
        if line.word[0] == "j":
            return self.jump(line, depth)
        if line.word == "call":
            self.calls.append((depth, self.callee(line)))
        if line.word == "ret" and depth != 8:
            self.function.stop(line, f"the stack is {depth} deep")
        if line.word in ("ret", "ud2", "hlt"):
            return []
        return self.onward(line, after)

    def onward(self, line, depth):
        if line.next is None:
            self.function.stop(line, "runs past the function's end")
        return [(line.next, depth)]

    def moved(self, line):
        """By how much it makes the stack deeper."""
        whole = re.search(r"^\$|%r([a-z]{2}|\d+)$|\)$", line.rest)
        if line.word in ("push", "pop") and whole and line.text.split() != ["pop", "%rsp"]:
            return 8 if line.word == "push" else -8
        if found := re.match(r"(sub|add) +\$0x([0-9a-f]+),%rsp$", line.text):
            amount = int(found[2], 16)
            amount -= (amount >> 63) << 64
            return amount if found[1] == "sub" else -amount
        if found := re.match(r"lea +(-?0x[0-9a-f]+)\(%rsp\),%rsp$", line.text):
            return -int(found[1], 16)
        named = re.search(r"%[re]?spl?\b", re.sub(r"\(.*?\)", "", line.rest))
        copied = re.match(r"mov +%rsp,%r(?!bp)", line.text)
        if (named and not copied) or re.match(STRANGE, line.word) or (line.word == "ret" and line.rest):
            self.function.stop(line, "not understood")
        return 0

    def jump(self, line, depth):
        """Within the function, or out of it: that is a call for which nothing of this function is left on the stack."""
        onward = [] if line.word == "jmp" else self.onward(line, depth)
        if self.table(line):
            self.tables.add(depth)
            if len(self.tables) > 1:
                self.function.stop(line, "jumps through tables at two depths")
            return []
        place = re.match(r"([0-9a-f]+)(?: <|$)", line.rest)
        if place and not line.symbol and int(place[1], 16) in self.lines:
            return onward + [(int(place[1], 16), depth)]
        self.calls.append((0, self.callee(line)))
        if depth != 8:
            self.function.stop(line, f"leaves the function, and the stack is {depth} deep")
        return onward

    def table(self, line):
        """Whether it jumps to an offset of a table, added to the table's own place: movslq (T,I,4),R; add T,R; jmp *R."""
        if not (register := re.fullmatch(r"\*(%r\w+)", line.rest)):
            return False
        run = ""
        for other in self.lines.values():
            if other is line:
                break
            run = "" if other.word[0] == "j" or other.word in ("call", "ret") else f"{run}{other.text}\n"
        goal = register[1]
        others = rf"(.*(?<![ ,]{goal})\n)*"
        return bool(re.search(rf"movslq +(0x0)?\((?P<table>%r\w+),%r\w+,4\),{goal}\n{others}add +(?P=table),{goal}\n{others}$", run))

    def callee(self, line):
        """The name of the function that it goes to, at whose start it must come in."""
        starts, section, symbol = self.function.starts, self.function.section, line.symbol
        if "*" in line.rest and not ("GOTPCREL" in line.kind and line.rest == "*0x0(%rip)"):
            self.function.stop(line, "where does it go?")
        if symbol and (symbol, 0) not in starts and line.added == -4:
            return symbol
        place = line.added + 4 if symbol else int(line.rest.split()[0], 16)
        if (symbol or section, place) not in starts:
            self.function.stop(line, "goes into the middle of a function")
        return starts[symbol or section, place].name


def openings(name, callee, room, left):
    """With how much room, and how many calls left in its E or Block, a function of SHARES can be called."""
    if name in WITHIN:
        sys.exit(f"{name}: calls {callee}, maybe for a rule further behind")
    if callee == name and left > 0:
        yield room, left - 1
    if callee == LINE != name:
        yield room, SHARES[LINE] - 1
    elif room > 0:
        yield room - 1, SHARES[callee] - 1


def longest(walks, entries):
    """From an entry on, with room for so many E and Block: the bytes, its arguments' too, and the functions on the way."""
    open_now = set()

    @lru_cache(None)
    def below(name, room, left=0):
        if name in OUTSIDE:
            return OUTSIDE[name], (name,)
        if name not in walks:
            sys.exit(f"{name}: not in the archive")
        own = walks[name].deepest
        if name in LEVELS:
            if room == 0:
                return own, (name,)
            room -= 1
        if (name, room, left) in open_now:
            sys.exit(f"{name} comes to itself with no level between")
        open_now.add((name, room, left))
        ways = [(own, (name,))]
        for depth, callee in walks[name].calls:
            for state in openings(name, callee, room, left) if callee in SHARES else [(room,)]:
                taken, way = below(callee, *state)
                ways.append((depth + taken, (name,) + way))
        open_now.remove((name, room, left))
        return max(ways, key=lambda way: way[0])

    ways = [below(entry, DEEPEST) + (pushed,) for entry, pushed in entries.items()]
    return max((taken + pushed, way) for taken, way, pushed in ways)


def main():
    library = sys.argv[1] if len(sys.argv) > 1 else f"{ROOT}/target/staticlib/libffi.a"
    walks = {name: Walk(function) for name, function in functions(library).items()}
    for name, walk in walks.items():
        print(f"{walk.deepest:6} {name}: " + ", ".join(sorted({callee for _, callee in walk.calls})))
    header = open(f"{ROOT}/include/tarbucket.h", encoding="utf-8").read()
    over = False
    for promised, entries in ENTRIES.items():
        taken, way = longest(walks, entries)
        promise = int(re.search(rf"#define {promised} (\d+)u", header)[1])
        print("\nthe longest chain: " + ", ".join(way if len(way) < 14 else way[:7] + ("..",) + way[-6:]))
        print(f"{taken:,} bytes at most, promised are {promise:,}")
        over = over or taken > promise
    sys.exit(over)


if __name__ == "__main__":
    sys.setrecursionlimit(10_000)
    main()
