"""The reader of document 01, with changes 1, 3, 4 and 5 of document 02: the questions, the
answer, the areas, the program.

Run as a program it reads a script from standard input and prints its tree, or `no`,
number and place.
"""
import sys
import threading
from collections import namedtuple

from cut import told
from descent import descent
from scan import Refusal, scan, utf8
from tree import VERSION, show_record

# "An answer holds number, place, T, N, text bytes, openings; acceptance has number 0
# and place 0."
Answer = namedtuple("Answer", "number place tokens nodes text openings")

LONGEST = 65536


def areas(n):
    """"Areas: 3(n+1) words for tokens (code, start, end each, Eof last), n bytes of text,
    16n+16 words of tree." """
    return 3 * (n + 1), n, 16 * n + 16


def read(source, token_slice, text_slice, tree_slice):
    """The answer; the three slices (lists of words, a bytearray) are written as 01 says."""
    n = len(source)
    slices = token_slice, text_slice, tree_slice
    # "1. n at most 65,536? 2. Token slice holds its area? 3. Text slice? 4. Tree slice?
    # No: that number, place 0."
    if n > LONGEST:
        return Answer(1, 0, 0, 0, 0, 0)
    for number, (lent, size) in enumerate(zip(slices, areas(n)), 2):
        if len(lent) < size:
            return Answer(number, 0, 0, 0, 0, 0)
    # "1 to 5 leave all slices untouched"
    try:
        utf8(source)
    except Refusal as no:
        return Answer(no.number, no.place, 0, 0, 0, 0)
    # "6 to 14 zero the areas.", and 15 and 16, which were 14 before. "Acceptance zeroes what it
    # doesn't fill; words beyond an area stay."
    for lent, size in zip(slices, areas(n)):
        for at in range(size):
            lent[at] = 0
    try:
        tokens, text = scan(source)
    except Refusal as no:
        return Answer(no.number, no.place, 0, 0, 0, 0)
    done = descent(tokens)
    count = len(tokens) - 1
    # "Counts are 0, but 13 and 14 give T and openings."; 15 and 16 too, "with T and openings as
    # there" (02).
    if done.number:
        return Answer(told(tokens, done), done.place, count, 0, 0, done.openings)
    fill(token_slice, [word for token in tokens for word in token[:3]])
    fill(text_slice, text)
    fill(tree_slice, header(done, count, len(text), n)
         + [word for record in done.nodes for word in record])
    return Answer(0, 0, count, len(done.nodes), len(text), done.openings)


def fill(lent, words):
    for at, word in enumerate(words):
        lent[at] = word


def header(done, tokens, text, n):
    """"a header of counts and offsets (version 1, nodes N, T, text bytes, node offset 8,
    root N - 1, rules opened, n)"; "The header's version becomes 2." (02) """
    nodes = len(done.nodes)
    return [VERSION, nodes, tokens, text, 8, nodes - 1, done.openings, n]


def program(source):
    """What the program prints for its standard input, as lines."""
    # "reads standard input up to 1,023 bytes"; "longer input: number 1, place 0"
    if len(source) > 1023:
        return ["no 1 0"]
    tokens, text, tree = areas(len(source))
    words = [0] * tree
    answer = read(source, [0] * tokens, bytearray(text), words)
    # "a refusal: `no`, number, place"
    if answer.number:
        return [f"no {answer.number} {answer.place}"]
    # "prints the header, then index and record per node"
    lines = [" ".join(map(str, words[:8]))]
    for index in range(answer.nodes):
        lines.append(show_record(index, words[8 + 8 * index:16 + 8 * index]))
    return lines


def with_deep_stack(work):
    """Runs work where the depth of a script's nesting doesn't exhaust Python's own stack."""
    outcome = []

    def run():
        try:
            outcome.append((True, work()))
        except BaseException as error:
            outcome.append((False, error))
    sys.setrecursionlimit(1_000_000)
    threading.stack_size(512 * 1024 * 1024)
    thread = threading.Thread(target=run)
    thread.start()
    thread.join()
    fine, result = outcome[0]
    if not fine:
        raise result
    return result


def main():
    for line in program(sys.stdin.buffer.read(1024)):
        print(line)


if __name__ == "__main__":
    with_deep_stack(main)
