"""Scripts cut at each character, and with a line feed behind the cut: the brackets, the block and the last token that a sentence names must be those that are
found here, and what it calls missing must fit there."""
import glob
import json
import os
import re
import subprocess

EXAMPLES = os.path.join(os.path.dirname(os.path.abspath(__file__)), "../../examples")

# brackets and quotes in strings and comments, calls of calls, lambdas in brackets and outside, blocks on the line of their colon
OWN = """\
halls = ["a)", 'b\\'(', "
)"], {1: (2, [3, {4: t{5, [6]}}])} # ([{ "
go(f()(1)[g(2)], (lambda a, b: a)(3), not (4)); x = - 5 * (+6 - 0.50)
def f(a, b): return lambda c: lambda: (a, [b, c])
while lambda: f(1): x[0].y = {}; z = None
for 홀 in [f(lambda a: {a: "층"}[a]), 2]: continue
if a == b < c or not d:
  if (e): pass
  elif f: g = 1,
  else:
    class_ = "class A:"
elif x[y[z]] != "'":
  class A:
    def b(self): pass
    def c(self, d):
      return self.b(d // 2 % 3)
"""

TOKEN = re.compile(r"""[ \t\r]+|\#[^\n]*|"(?:\\.|[^"\\])*"|'(?:\\.|[^'\\])*'|\d+\.\d+|[+-]\d+|\w+|[=!<>]=|//|.""", re.S)
CLOSERS = {"(": ")", "[": "]", "{": "}"}
HEADERS = ("if", "elif", "else", "while", "for", "def", "class")


def run(cases, work, tally):
    files = [open(file, encoding="utf8") for file in sorted(glob.glob(os.path.join(EXAMPLES, "*.pyh")))]
    texts = [OWN] + [file.read() for file in files]
    cuts = [text[:i] + end for text in texts for i in range(len(text)) for end in ("", "\n")]
    count, wrong, mended = {14: 0, 15: 0, 16: 0}, [], []
    for cut, said in refused(work, "cuts", cuts):
        number, sentence, before = said["number"], said["sentence"], cut.encode()[: said["place"]].decode()
        if number in count and cut in (before, before + "\n"):
            count[number] += 1
            there = Standing(before)
            if not (there.agrees_at_end if before == cut else there.agrees_in_line)(number, sentence):
                wrong.append("%r: %s %s" % (cut[-60:], number, sentence))
            mended += there.mended(sentence)
    tally.case("cuts: %s" % count, len(files) == 2 and min(count.values()) > 100 and not wrong, "\n".join(wrong[:5]))
    wrong = ["%r: %s" % (text[-60:], said["sentence"]) for text, said in refused(work, "mended", mended) if said["place"] < len(text.encode())]
    tally.case("cuts: %d with what is missing" % len(mended), len(mended) > 800 and not wrong, "\n".join(wrong[:5]))


def refused(work, name, texts):
    """Each text that is refused, and what is said of it."""
    os.mkdir(os.path.join(work, name))
    for k, text in enumerate(texts):
        with open(os.path.join(work, name, "%d.pyh" % k), "w", encoding="utf8", newline="") as file:
            file.write(text)
    done = subprocess.run(["pyh", "check", "--format", "json", name], cwd=work, capture_output=True, timeout=60)
    for said in map(json.loads, done.stdout.splitlines()):
        if said["kind"] == "refused":
            yield texts[int(os.path.basename(said["file"])[:-4])], said


class Standing:
    """What stands before the end of a text: open brackets, the innermost first, the last token, and the block of its line."""

    def __init__(self, text):
        self.text, self.open, self.last, self.block = text, [], None, None
        header, lambdas = None, 0
        for token in TOKEN.finditer(text):
            word, line = token[0], text.count("\n", 0, token.start()) + 1
            if word == "\n":
                header = None
            if word.isspace() or word[0] == "#":
                continue
            if header is None:
                header, lambdas, self.block = (word, str(line)), 0, None
            self.last = token
            if word in CLOSERS:
                self.open.insert(0, (word, str(line), str(token.start() - text.rfind("\n", 0, token.start()))))
            elif word in CLOSERS.values():
                del self.open[0]
            elif word == "lambda" and not self.open:
                lambdas += 1
            elif word == ":" and not self.open and lambdas:
                lambdas -= 1
            elif word == ":" and not self.open and header[0] in HEADERS and not self.block:
                self.block = header + (token,)

    def agrees_at_end(self, number, sentence):
        """The script ends here."""
        if sentence == "The script ends here, but its last line must end with a line break.":
            return number == 14 and not self.open
        named = re.findall(r"`([([{])` \(line (\d+), column (\d+)\)", sentence)
        more = re.search(r" and (\d+) more are not closed", sentence)
        block = re.search(r"the block of `(\w+)` \(line (\d+)\) is (missing|not finished)", sentence)
        wanted = self.block and self.block[:2] + ("missing" if self.block[2] == self.last else "not finished",)
        begins = "The script ends too early: " if number == 15 else "The script ends here, but "
        return (
            sentence.startswith(begins)
            and named == self.open[:4]
            and int(more[1] if more else 0) == max(len(self.open) - 4, 0)
            and (block and block.groups()) == wanted
            and self.agrees_after(sentence, number == 16)
        )

    def agrees_in_line(self, number, sentence):
        """The line ends here."""
        closing = re.search(r"all up to the closing `(.)` must stand on this line", sentence)
        begins = sentence.startswith("A value is missing at the end of this line, after ")
        return (
            (closing and closing[1]) == (CLOSERS[self.open[0][0]] if self.open else None)
            and begins == (number == 16)
            and self.agrees_after(sentence, number == 16)
        )

    def agrees_after(self, sentence, must):
        """It names the last token, or none where it need not."""
        return " after `%s`" % self.last[0].replace("\n", "␊") in sentence or not must and " after " not in sentence

    def mended(self, sentence):
        """The text with what the sentence calls missing, if it says what that is."""
        remedy = None
        if "its last line must end with a line break" in sentence:
            return [self.text + "\n"]
        if re.search("a value is missing", sentence, re.I):
            remedy = " None"
        elif "a `:` is missing after" in sentence:
            remedy = ":"
        elif "not closed" in sentence and " after " not in sentence and self.last[0] != "(":
            # `()` would not do
            remedy = "".join(CLOSERS[bracket[0]] for bracket in self.open)
        elif "is missing" in sentence and self.block and self.block[0] != "class":
            remedy = " pass\n"
        return [self.text[: self.last.end()] + remedy] if remedy else []
