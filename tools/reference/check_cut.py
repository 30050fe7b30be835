"""Checks of 15 and 16, change 4 of document 02: scripts whose numbers are by hand, what could
stand by the ordered trial, and the descent's own place and counts."""
import itertools

import cut_cases
from check_answers import answer
from cut import EVERY, can_stand, only_expression
from descent import descent
from descent_expressions import BEGINS_E, BEGINS_F
from read import LONGEST, Answer
from scan import Code, scan
from token_sorts import FINISHERS, SORTS, as_tokens, can_be_finished
from trial import Trial, trial
from trial_expressions import Fail


def by_hand():
    cases = list(cut_cases.cases())
    for source, number, place in cases:
        given, _ = answer(source)
        assert (given.number, given.place) == (number, place), (source, given)
    return len(cases)


def as_the_descent(source, tokens, done, number):
    """15 and 16 stand where 14 did, with its place, T and the descent's own openings."""
    if done.number != 14 or len(source) > LONGEST:
        return
    code = tokens[done.at].code
    assert number in (14, 15, 16), source
    assert (number == 15) == (code == Code.Eof), source
    assert number != 16 or code in (Code.Newline, Code.Dedent), source
    given = Answer(number, done.place, len(tokens) - 1, 0, 0, done.openings)
    assert answer(source)[0] == given, (source, given)


def behind(sorts, most):
    """These with up to so many finishers behind them."""
    for count in range(most + 1):
        yield from (sorts + more for more in itertools.product(FINISHERS, repeat=count))


def fits(rule, sorts):
    """Whether the trial's rule takes all of these."""
    taken = Trial(as_tokens(sorts))
    try:
        getattr(taken, rule)()
    except Fail:
        return False
    return taken.at == len(sorts)


def begins():
    """"A token can begin a rule when some reading of the rule starts with it": the readings of
    up to four tokens by the trial, against the descent's lists."""
    for token in EVERY:
        for rule, codes in (("e", BEGINS_E), ("f", BEGINS_F)):
            begun = any(fits(rule, sorts) for sorts in behind((token,), 3))
            assert begun == (token[0] in codes), (rule, token)
    return 2 * len(EVERY)


def passed(length):
    """Token lists to that length that the descent lets pass."""
    begun = [()]
    for _ in range(length):
        begun = [sorts + (sort,) for sorts in begun for sort in SORTS
                 if can_stand(as_tokens(sorts)[:-1], sort)]
        yield from begun


def scanned(longest):
    """What cut_cases has before a token that does not fit, to that length."""
    for source, number, _ in cut_cases.cases():
        if number in (14, 15, 16):
            tokens = scan(source)[0]
            before = tokens[:descent(tokens).at]
            if len(before) <= longest:
                yield tuple((token.code, token.value) for token in before)


def stands_by_trial(sorts, token, finishers):
    """Whether the trial accepts some list that begins so: the one that the descent finishes, or
    one with up to so many finishers. Eof is the last of a list."""
    if token[0] == Code.Eof:
        return trial(as_tokens(sorts)) is not None
    longer = sorts + (token,)
    return can_be_finished(longer) or any(
        trial(as_tokens(more)) is not None for more in behind(longer, finishers))


def by_trial():
    """A token can stand by the descent exactly when it does by the trial; and what only an
    expression can stand behind is by the trial's tokens what it is by the descent's."""
    beginnings = {sorts: 2 if len(sorts) == 1 else 1 for sorts in passed(2)}
    for sorts in scanned(7):
        beginnings.setdefault(sorts, 1)
    only = 0
    for sorts, finishers in beginnings.items():
        before = as_tokens(sorts)[:-1]
        standing = [token for token in EVERY if stands_by_trial(sorts, token, finishers)]
        assert standing == [token for token in EVERY if can_stand(before, token)], sorts
        expected = (all(token in standing for token in EVERY if token[0] in BEGINS_F)
                    and all(code in BEGINS_E for code, _ in standing))
        assert only_expression(before) == expected, sorts
        only += expected
    assert only >= 100, only
    return len(beginnings)
