"""Change 4 of document 02: a cut script told from a wrong one.

"Where 14 was given and the token is Eof, the answer is now one number; where it is a Newline
or Dedent met where only an expression or operand could stand, another; 14 remains for all
else." "The new numbers are 15 for the end and 16 for the missing expression, both at the
place of question 14, with T and openings as there."

A token could stand where the tokens before it, and it, begin a list that is accepted. The
descent refuses at the first token of which that is not so; so every token is tried in the
place of the refused one. Depth has no limit there: that is question 13 alone.
"""
from descent import descent
from descent_expressions import BEGINS_E, BEGINS_F
from scan import Code, Token

# What a token of the code brings along, where that is something.
VALUES = {Code.Bool: 1, Code.Int: 1, Code.String: (0, 0), Code.Identifier: b"a", Code.Float: 1.0}

# One token of every code, and the name `t`.
EVERY = [(code, VALUES.get(code)) for code in range(Code.If, Code.Eof + 1)] + [(Code.Identifier, b"t")]


def told(tokens, done, part="Program"):
    """The number, for a descent of that part that was refused or not."""
    if done.number != 14:
        return done.number
    code = tokens[done.at].code
    if code == Code.Eof:
        return 15
    if code in (Code.Newline, Code.Dedent) and only_expression(tokens[:done.at], part):
        return 16
    return 14


def wanted(tokens, done, part="Program"):
    """The number by what could stand, whatever token does not fit: what a part of the tree
    reader hands on."""
    if done.number != 14:
        return done.number
    return 16 if only_expression(tokens[:done.at], part) else 14


def only_expression(before, part="Program"):
    """Whether behind these tokens each token can stand that begins an F, and none that begins
    no E: "only an expression or operand"."""
    factors = [token for token in EVERY if token[0] in BEGINS_F]
    others = [token for token in EVERY if token[0] not in BEGINS_E]
    return (all(can_stand(before, token, part) for token in factors)
            and not any(can_stand(before, token, part) for token in others))


def can_stand(before, token, part="Program"):
    """Whether the descent gets past the token behind these."""
    code, value = token
    place = before[-1].end if before else 0
    tried = [*before, Token(code, place, place, value), Token(Code.Eof, place, place, None)]
    done = descent(tried, None, part)
    return done.number == 0 or done.at > len(before)
