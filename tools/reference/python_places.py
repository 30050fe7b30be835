"""What CPython's own parser says of a source, with places in bytes."""
import ast
import itertools


def read_by_python(source):
    """Its tree, and a function that gives start and end of a node; None where it refuses the
    source. A carriage return would begin a line there, so it reads a space."""
    try:
        tree = ast.parse(source.replace(b"\r", b" "))
    except SyntaxError:
        return None
    lines = [0, *itertools.accumulate(len(line) + 1 for line in source.split(b"\n"))]

    def span(node):
        start, end = lines[node.lineno - 1], lines[node.end_lineno - 1]
        return start + node.col_offset, end + node.end_col_offset
    return tree, span
