"""Checks of the reference: the scripts of documents 01 and 02, and trial against descent.

Run without arguments; it takes about three minutes, prints how many inputs each part
compared and stops with the input at the first disagreement.
"""
import itertools
import random
import time

import check_commas
import check_cut
import check_write
import generate
from check_answers import counted, floats, names, scripts_of_01, slices, utf8_places
from cut import told
from descent import descent
from read import with_deep_stack
from scan import Code, Refusal, scan, utf8
from token_sorts import SORTS, as_tokens, can_be_finished
from tree import END, NEXT, NODE_FIELDS, NONE, R, S, START, Kind
from trial import Trial, trial
from trial_expressions import Fail


def agree(tokens, shown):
    """Trial and descent on one token list; the descent's outcome."""
    count = len(tokens) - 1
    done = descent(tokens)
    # "openings at most 10 T + 1, nodes at most 2 T + 1", in a refusal as well; the second "must
    # be shown to hold with them", the commas of 02
    assert done.openings <= 10 * count + 1, (shown, done)
    assert len(done.nodes) <= 2 * count + 1, (shown, done)
    # 13 is set aside: the trial's depth has no limit, so the descent runs on without one.
    free = descent(tokens, None) if done.number == 13 else done
    tree = trial(tokens)
    assert (tree is not None) == (free.number == 0), (shown, free, tree)
    assert tree is None or tree == free.nodes, (shown, free.nodes, tree)
    if tree is not None:
        well_linked(tree, shown)
        keeps_spellings(tokens, tree, shown)
    return done


def well_linked(tree, shown):
    """Every node but the root is referred to, from a later node or by its neighbour's next."""
    named = set()
    for number, record in enumerate(tree):
        for field in NODE_FIELDS.get(record[0], ()):
            if record[field] != NONE:
                assert record[field] < number, shown
                named.add(record[field])
        if record[NEXT] != NONE:
            assert record[NEXT] > number, shown
            named.add(record[NEXT])
    assert named == set(range(len(tree) - 1)), shown


def keeps_spellings(tokens, tree, shown):
    """Each Float token has one record, in their order, with its start and end in r and s and
    within the node's span; the other literals have 0 there."""
    kept = [record for record in tree if record[0] == Kind.Float]
    assert [(record[R], record[S]) for record in kept] == [
        (token.start, token.end) for token in tokens if token.code == Code.Float], shown
    assert all(record[START] <= record[R] and record[S] <= record[END] for record in kept), shown
    for record in tree:
        if record[0] in (Kind.Bool, Kind.Int, Kind.String, Kind.None_):
            assert (record[R], record[S]) == (0, 0), shown


tally = {}


def compare(source):
    """A source through the scanner and, where it has tokens, both readings."""
    try:
        utf8(source)
        tokens, _ = scan(source)
    except Refusal as no:
        number = no.number
    else:
        # A level changes only before a token that is no Newline, or at the end.
        assert not any(token.code in (Code.Indent, Code.Dedent) and after.code == Code.Newline
                       for token, after in zip(tokens, tokens[1:])), source
        done = agree(tokens, source)
        number = told(tokens, done)
        check_cut.as_the_descent(source, tokens, done, number)
    tally[number] = tally.get(number, 0) + 1
    return number


def short_strings():
    """All strings of up to four characters over a telling alphabet."""
    telling = b"at1-<=,;:.(){}[]\n \r'"
    cases = 0
    for length in range(5):
        for source in itertools.product(telling, repeat=length):
            compare(bytes(source))
            cases += 1
    return cases


def token_lists(length):
    """All token lists to that length whose last token but one the descent lets pass. Where it
    refuses a token, those before it can be finished: the place is the earliest."""
    cases, begun = 0, [()]
    for _ in range(length):
        going_on = []
        for sorts in begun:
            assert can_be_finished(sorts), sorts
            for sort in SORTS:
                longer = sorts + (sort,)
                done = agree(as_tokens(longer), longer)
                cases += 1
                if done.number == 0 or done.place == len(longer):
                    going_on.append(longer)
                else:
                    assert done.place == len(sorts), (longer, done)
        begun = going_on
    return cases


def walks():
    """Long token lists that the descent lets pass token by token, with every token on the way
    that it doesn't, then finished, and with one token exchanged."""
    rng = random.Random(3)
    cases = 0
    for _ in range(400):
        sorts = ()
        for _ in range(rng.randrange(10, 90)):
            longer = sorts + (rng.choice(SORTS),)
            done = agree(as_tokens(longer), longer)
            cases += 1
            if done.number == 0 or done.place == len(longer):
                sorts = longer
        assert can_be_finished(sorts), sorts
        for at in range(len(sorts)):
            changed = sorts[:at] + (rng.choice(SORTS),) + sorts[at + 1:]
            agree(as_tokens(changed), changed)
            cases += 1
    return cases


class Forgetful(Trial):
    """The trial that remembers nothing, as 01 states it word by word."""

    def e(self):
        return self.choice(self.lambda_, self.o)


def remembering():
    """That remembering E's outcomes alters nothing."""
    rng = random.Random(4)
    sources = [generate.soup(rng, rng.randrange(1, 9), 0) for _ in range(3000)]
    sources += [generate.script(rng, 2, 1) for _ in range(200)]
    sources += [generate.nested(sort, depth) for sort in generate.NESTED for depth in range(6)]
    for source in sources:
        try:
            tokens, _ = scan(source)
        except Refusal:
            continue
        taken = Forgetful(tokens)
        try:
            taken.program()
        except Fail:
            assert trial(tokens) is None, source
        else:
            assert trial(tokens) == taken.nodes, source
    return len(sources)


def soups():
    rng = random.Random(1)
    for _ in range(20000):
        compare(generate.soup(rng, rng.randrange(1, 12)))
    return 20000


def grammatical_and_damaged():
    rng = random.Random(2)
    for _ in range(1000):
        source = generate.script(rng)
        assert compare(source) in (0, 13), source
        for _ in range(3):
            compare(generate.damaged(rng, source))
    return 4000


def cut_short():
    """Short scripts of the grammar cut at every byte, alone and with a line feed behind."""
    rng = random.Random(5)
    scripts = (generate.script(rng, 3, 2) for _ in range(1000))
    cut = {source[:end] for source in scripts if len(source) <= 90 for end in range(len(source))}
    for source in sorted(cut):
        compare(source)
        compare(source + b"\n")
    return 2 * len(cut)


def deep():
    """Around the limit, and far beyond it; 13 stands at the token that would be one too deep."""
    cases = 0
    for sort in generate.NESTED:
        for depth in (1, 8, 62, 63, 64, 65, 66, 300):
            source = generate.nested(sort, depth)
            number = compare(source)
            fits = sort == "signs" or depth <= 63
            assert number == (0 if fits else 13), (sort, depth, number)
            cases += 1
            rng = random.Random(depth)
            for _ in range(5):
                compare(generate.damaged(rng, source))
                cases += 1
    return cases


def main():
    parts = [
        ("scripts of 01", scripts_of_01),
        ("counts by hand", counted),
        ("slices", slices),
        ("UTF-8 places", utf8_places),
        ("names", names),
        ("Floats", floats),
        ("commas by hand", check_commas.by_hand),
        ("commas at the largest n", check_commas.longest),
        ("the most nodes for so many tokens", check_commas.most_nodes),
        ("commas in generated scripts", check_commas.in_generated),
        ("cut scripts by hand", check_cut.by_hand),
        ("what begins E and F, by the trial", check_cut.begins),
        ("what could stand, by the trial", check_cut.by_trial),
        ("short strings", short_strings),
        ("token lists", lambda: token_lists(4)),
        ("walks", walks),
        ("remembering", remembering),
        ("soups", soups),
        ("grammatical and damaged scripts", grammatical_and_damaged),
        ("scripts cut at every byte", cut_short),
        ("deep nesting", deep),
        *check_write.PARTS,
    ]
    for name, part in parts:
        began = time.time()
        cases = part()
        print(f"{name}: {cases} ({time.time() - began:.1f} s)", flush=True)
    print("sources by outcome:", dict(sorted(tally.items())))


if __name__ == "__main__":
    with_deep_stack(main)
