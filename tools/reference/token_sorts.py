"""Token lists for the checks: tokens of each sort, and how a beginning is finished."""
from descent import descent
from scan import Code, Token
from trial import trial

# One token of each sort that the grammar tells apart, Indent and Dedent where they please.
SORTS = [
    (Code.If, None), (Code.Elif, None), (Code.Else, None), (Code.For, None), (Code.In, None),
    (Code.Def, None), (Code.Return, None), (Code.Or, None), (Code.Not, None),
    (Code.Class, None), (Code.Pass, None), (Code.Lambda, None), (Code.Int, 1),
    (Code.Identifier, b"a"), (Code.Identifier, b"t"), (Code.Minus, None), (Code.Less, None),
    (Code.Equal, None), (Code.LParen, None), (Code.RParen, None), (Code.LBracket, None),
    (Code.RBracket, None), (Code.LBrace, None), (Code.RBrace, None), (Code.Colon, None),
    (Code.Comma, None), (Code.Semicolon, None), (Code.Dot, None), (Code.Indent, None),
    (Code.Dedent, None), (Code.Newline, None),
]
# What to put after a beginning to finish it soonest, first what fits.
FINISHERS = [(code, b"a" if code == Code.Identifier else None) for code in (
    Code.RParen, Code.RBracket, Code.RBrace, Code.Dedent, Code.Indent, Code.Newline, Code.Colon,
    Code.Identifier, Code.LParen, Code.In, Code.Def)]


def as_tokens(sorts):
    """Each token on one byte of its own."""
    tokens = [Token(code, at, at + 1, value) for at, (code, value) in enumerate(sorts)]
    return tokens + [Token(Code.Eof, len(sorts), len(sorts), None)]


def can_be_finished(sorts):
    """Whether some tokens after these make a list that the trial accepts."""
    for _ in range(30):
        if trial(as_tokens(sorts)) is not None:
            return True
        for finisher in FINISHERS:
            longer = sorts + (finisher,)
            done = descent(as_tokens(longer))
            if done.number == 0 or done.place == len(longer):
                sorts = longer
                break
        else:
            return False
    return False
