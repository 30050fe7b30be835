"""Checks of change 5 of document 02: trees that were counted by hand, the spans that CPython
gives, the limit on nodes, and the places of such commas in generated scripts."""
import ast
import random

import comma_cases
import generate
from check_answers import accepted, answer, refused
from descent import descent
from python_places import read_by_python
from scan import Code
from token_sorts import SORTS, as_tokens
from tree import END, KIND_NAMES, NEXT, NODE_FIELDS, NONE, P, START, Kind


def members(records, number):
    """The list that begins with a node, or the node alone."""
    while number != NONE:
        yield number
        number = records[number][NEXT]


def shown(records, number):
    """A node in the words of comma_cases."""
    record = records[number]
    parts = [shown(records, part) for field in NODE_FIELDS.get(record[0], ())
             for part in members(records, record[field])]
    node = f"{KIND_NAMES[record[0] - 1]} {record[START]}-{record[END]}"
    return node + (f"({' '.join(parts)})" if parts else "")


def is_lone(records, record):
    """A Tuple of one with no parentheses of its own: the member begins where it does."""
    if record[0] != Kind.Tuple or record[P] == NONE:
        return False
    member = records[record[P]]
    return member[NEXT] == NONE and member[START] == record[START]


def lone_tuples(records):
    return [number for number, record in enumerate(records) if is_lone(records, record)]


def lone_tuples_of_python(source):
    """Start and end of each by CPython's own parser, whose spans end with the comma; of a
    target, those of its statement. None where it refuses the source."""
    by_python = read_by_python(source)
    if by_python is None:
        return None
    tree, span = by_python
    nodes = list(ast.walk(tree))
    whole = {node.targets[0]: node for node in nodes if isinstance(node, ast.Assign)}
    ones = [node for node in nodes if isinstance(node, ast.Tuple) and len(node.elts) == 1]
    return sorted(span(whole.get(node, node)) for node in ones
                  if source[span(node)[1] - 1:].startswith(b","))


def as_statement(text, nodes, tree):
    """An expression's case as that of the statement, which has the same span."""
    span = tree.split("(")[0].split()[1]
    return text, nodes, f"Expr {span}({tree})"


def by_hand():
    """N, kinds and spans that were counted by hand, and CPython's spans of the Tuples of one
    where it reads the source too; number and place of what is refused."""
    of_python = 0
    cases = [as_statement(*case) for case in comma_cases.EXPRESSIONS] + comma_cases.STATEMENTS
    for text, nodes, tree in cases:
        records = accepted(text.encode())
        assert len(records) == nodes, (text, len(records))
        statements = members(records, records[-1][P])
        found = " ".join(shown(records, statement) for statement in statements)
        assert found == tree, (text, found)
        places = lone_tuples_of_python(text.encode())
        if places is not None:
            spans = [tuple(records[lone][START:END + 1]) for lone in lone_tuples(records)]
            assert sorted(spans) == places, (text, places)
            of_python += 1
    # It has no `t{..}` and no `())`, and targets are names, attributes, indexes and lists of them.
    assert of_python >= 100, of_python
    for text, number, place in comma_cases.REFUSED:
        refused(text.encode(), number, place)
    return len(cases) + len(comma_cases.REFUSED)


def longest():
    """T and N that were counted by hand, at the largest n."""
    for pieces, tokens, nodes in comma_cases.LONGEST:
        given, _ = answer(b"".join(piece * count for piece, count in pieces))
        assert (given.number, given.tokens, given.nodes) == (0, tokens, nodes), (pieces, given)
        assert nodes <= 2 * tokens + 1 and given.openings <= 10 * tokens + 1, (pieces, given)
    return len(comma_cases.LONGEST)


# The tokens of the lists below that are longer than four: those that make the most nodes.
FULL = [(Code.Identifier, b"a"), *((code, None) for code in (
    Code.Less, Code.Minus, Code.Comma, Code.Semicolon, Code.Equal, Code.Return, Code.Lambda,
    Code.Colon, Code.Pass, Code.Newline))]


def longer_lists(begun, sorts, most):
    """These lists with one token more that the descent lets pass. The nodes of those that are
    accepted are put into most, by whether a Tuple of one without parentheses is among them."""
    for before in begun:
        for sort in sorts:
            longer = before + (sort,)
            done = descent(as_tokens(longer))
            if done.number == 0:
                lone = lone_tuples(done.nodes) != []
                most[lone] = max(most[lone], len(done.nodes))
            if done.number == 0 or done.place == len(longer):
                yield longer


def most_nodes():
    """"the node limit of 2 x T + 1 must be shown to hold with them": the most nodes of all
    accepted lists of up to four tokens, of each sort, and of up to six of some sorts."""
    cases, begun = 0, [()]
    for length in range(1, 7):
        if length == 5:
            begun = [sorts for sorts in begun if all(sort in FULL for sort in sorts)]
        most = {False: 0, True: 0}
        begun = list(longer_lists(begun, SORTS if length <= 4 else FULL, most))
        cases += len(begun)
        for lone, count in most.items():
            assert count == comma_cases.MOST_NODES[lone][length - 1], (length, lone, count)
            assert count <= 2 * length + 1, (length, lone, count)
    return cases


def in_generated():
    """That generated scripts have such commas in each of the four places, and behind a Tuple in
    parentheses."""
    places = {"return": (Kind.Return, 0), "target": (Kind.Assign, 0), "value": (Kind.Assign, 1),
              "expression": (Kind.Expr, 0)}
    rng = random.Random(6)
    found = dict.fromkeys([*places, "behind a Tuple"], 0)
    for _ in range(300):
        given, records = answer(generate.script(rng))
        lone = lone_tuples(records) if given.number == 0 else []
        for name, (kind, part) in places.items():
            found[name] += sum(record[P + part] in lone for record in records if record[0] == kind)
        found["behind a Tuple"] += sum(records[records[at][P]][0] == Kind.Tuple for at in lone)
    assert min(found.values()) >= 20, found
    return sum(found.values())
