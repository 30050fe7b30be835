#!/usr/bin/env python3
"""Writes the stored cases of the program `leaf_cases` and what it must print. docs/CASES.md says how each list is made.

    python3 tools/leaf_cases.py crates/leaf_cases

Every expected value is Python's own (float, int, re, the strict UTF-8 decoder, str.isidentifier) or a rule of documents 01 and 02 written here anew.
Nothing is taken from what the program prints.
"""
import itertools
import os
import random
import re
import struct
import sys

sys.dont_write_bytecode = True
sys.path.insert(0, os.path.join(os.path.dirname(os.path.abspath(__file__)), "reference"))
import name_cases  # noqa: E402
from character_cases import character_cases, character_expected, identifier  # noqa: E402
from utf8_cases import utf8_cases, utf8_expected  # noqa: E402

sys.set_int_max_str_digits(0)
LARGEST_FILE = 65536  # the program reads a file into a buffer of this size
LONGEST_CASE = 4096  # and decodes the bytes of a case into one of this size


# ---- ints: `i TEXT` ----

INT = re.compile(r"[+-]?[0-9]+")


def int_cases():
    limits = [0, 2**31, 2**32, 10**18, 10**19, 2**63, 2**64, 2**64 + 2**63]
    around = sorted({n + d for n in limits for d in range(-2, 3) if n + d >= 0})
    signs, zeros = ["", "+", "-"], ["", "0", "0" * 45]
    cases = [sign + zero + str(n) for n in around for sign in signs for zero in zeros]
    rand = random.Random(2)
    for k in range(1, 61):
        some = str(rand.randrange(10 ** (k - 1), 10**k))
        cases += [rand.choice(signs) + "9" * k, rand.choice(signs) + "1" + "0" * (k - 1), some, "-" + some]
    return cases + ["0" * 60, "-" + "0" * 59 + "7", "-0", "+0", "9" * 4000]


def int_expected(text):
    assert INT.fullmatch(text), text
    n = int(text)
    return "%016x" % (n % 2**64) if -(2**63) <= n < 2**63 else "-"


# ---- floats: `f TEXT` ----

FLOAT = re.compile(r"[0-9]+\.[0-9]+([eE][+-]?[0-9]+)?")


def float_edges():
    cases = ["0.0", "0.1", "0.2", "0.3", "0.5", "1.0", "123.4500", "3.141592653589793", "1.5e0", "1.5E0", "1.5e+0", "1.5e-0", "2.5E-3", "1.0E+5"]
    # p at both limits and one past each, by the exponent and by digits after the dot
    cases += ["1.0e23", "1.0e24", "1.0e-21", "1.0e-22", "0.0e23", "0.0e24", "0.0e-21", "0.0e-22", "0.0e999", "0.0e-999"]
    for zeros in [0, 20, 21, 22, 23]:
        cases += ["0." + "0" * zeros + "1", "0." + "0" * zeros + "1e1", "0." + "0" * zeros + "1e-1", "0.0" + "0" * zeros, "7.0" + "0" * zeros + "e%d" % zeros]
    # m at its limit and one past it, wherever the dot stands
    for m in [2**53 - 1, 2**53, 2**53 + 1, 2**53 + 2]:
        text = str(m)
        cases += [text[:k] + "." + text[k:] for k in range(1, len(text))] + ["0." + text, "0.000000" + text, text + ".0"]
        for power in [-22, -21, -20, 0, 22, 23, 24]:
            cases.append(text[:-1] + "." + text[-1] + "e%d" % power)
    # digits that a word of 32 or 64 bits would let wrap round to a small number
    for n in [2**32, 2**32 + 1, 2**63, 2**64, 2**64 + 1, 2**65, 10 * 2**64]:
        cases += ["%d.0" % n, "0.%d" % n, "1.0e%d" % n, "1.0e-%d" % n, "0.0e%d" % n, "0.0E-%d" % n]
    # m, p and the exponent with many more digits than count
    cases += ["0" * 40 + ".5", "0" * 1000 + "900719925474099.2", "0" * 1000 + "900719925474099.3", "9" * 1000 + ".9", "0." + "9" * 1000]
    for power in [976, 977, 978, 1000, 1001, 1022, 1023]:
        cases += ["0." + "0" * 999 + "5e%d" % power, "0." + "0" * 1000 + "E%d" % power]
    for digits in ["0" * 500 + "3", "9" * 500, "0" * 500, "1" + "0" * 500]:
        cases += ["1.5e" + digits, "1.5e+" + digits, "1.5E-" + digits, "0.0e" + digits]
    return cases


def float_mixed():
    rand = random.Random(1)
    cases = []
    for _ in range(400):
        whole = str(rand.randrange(10 ** rand.randrange(1, 12)))
        after = str(rand.randrange(10 ** rand.randrange(1, 8)))
        power = rand.choice(["", "e%d" % rand.randrange(-25, 25), "E+%d" % rand.randrange(20), "E-%02d" % rand.randrange(25)])
        cases.append(whole + "." + after + power)
    # m of 16 digits, on both sides of 2^53, and p from -24 to 24
    for _ in range(200):
        text = str(rand.randrange(2**52, 2**53 + 2**51))
        dot = rand.randrange(1, len(text))
        power = rand.randrange(-24, 25) + len(text) - dot
        cases.append(text[:dot] + "." + text[dot:] + rand.choice("eE") + str(power))
    return cases


def float_expected(text):
    assert FLOAT.fullmatch(text), text
    mantissa, _, power = text.lower().partition("e")
    whole, _, after = mantissa.partition(".")
    m, p = int(whole + after), int(power or "0") - len(after)
    if m > 2**53 or not -22 <= p <= 22:
        return "-"
    return struct.pack(">d", float(text)).hex()


# ---- tokens: `t HEX` ----

# `Token` of src/lexer/token.rs in its order: a token's code is its position, from 1
ORDER = """If Elif Else While For In Def Return And Or Not Class Break Continue Pass Lambda None Bool Int String Identifier Float
    Plus Minus Star SlashSlash Slash Percent EqualEqual NotEqual Less LessEqual Greater GreaterEqual Equal
    LParen RParen LBracket RBracket LBrace RBrace Colon Comma Semicolon Dot Indent Dedent Newline Eof""".split()
CODE = {name: position for position, name in enumerate(ORDER, 1)}
KEYWORDS = ORDER[: ORDER.index("None")]
WORDS = {name.lower(): CODE[name] for name in KEYWORDS} | {"None": CODE["None"], "True": CODE["Bool"], "False": CODE["Bool"]}
MARKS = dict(zip("+ - * // / % == != < <= > >= = ( ) [ ] { } : , ; .".split(), range(CODE["Plus"], CODE["Dot"] + 1))) | {"\n": CODE["Newline"]}
PATTERNS = [(re.compile(re.escape(text.encode())), code) for text, code in (WORDS | MARKS).items()] + [
    (re.compile(rb"[+-]?[0-9]+"), CODE["Int"]),
    (re.compile(rb"[0-9]+\.[0-9]+([eE][+-]?[0-9]+)?"), CODE["Float"]),
    (re.compile(rb'"([^"\\]|\\[^\n])*"'), CODE["String"]),
    (re.compile(rb"'([^'\\]|\\[^\n])*'"), CODE["String"]),
]


def token_cases():
    marks, words = list(MARKS), list(WORDS)
    cases = marks + [a + b for a, b in itertools.product("+-*/%=!<>.:", "+-*/%=!<>.:1")]
    cases += ["===", "!==", "<<=", ">>=", "///", "//=", "...", "([{}])", "a,b;c:d", "=\n=", "\n\n"]
    for word in words:
        cases += [word, word + "s", word + "_", word + "1", "_" + word, word[:-1], word.upper(), word.capitalize(), word + "(", word + ".x", word + "\n"]
    cases += ["a", "_", "__init__", "x1", "Zz9_", "A" * 300, "inn", "i", "iff", "elsee", "notin", "not in", "ifelse", "NoneTrue", "none", "true", "nOt"]
    cases += ["0", "7", "007", "1234567890", "9" * 60, "1_000", "1a", "0x1F", "+1", "-1", "+-1", "--1", "+", "-", "+ 1", "- 1", "1+2", "1 + 2", "1-2", "a-1", "a - 1", "a+1"]
    cases += ["-1.5", "1.5", "1.", ".5", "1..5", "1.5.5", "1.e5", "1.5e", "1.5e5", "1.5E5", "1.5e+5", "1.5e-5", "1.5e+", "1.5e-", "1.5e+a", "1.5ee5", "1.5f", "1e5", "1.0e23", "00.00e00",
              "1.5e5.5", "1.5e5e5", "+1.5e5", "1.a", "1.5j", "12345.67890e-12", "1.5e5-1", "1." + "0" * 200, "9" * 200 + "." + "9" * 50 + "e" + "9" * 50]
    for q, other in ['"\'', "'\""]:
        bodies = ["", "a", "two words", other, other * 2, "#", "\n", "a\nb", "\t", "\r", "caf\u00e9", "\u20ac\U0001f600", "x" * 200]
        bodies += ["\\" + c for c in "ntr\\\"'abx0 #\t\r\u00e9"] + ["\\\\\\\\", "\\\\\\" + q, "a\\" + q + "b", "\\\\n", "\\\n", "a\\\nb", "\n\\n"]
        cases += [q + body + q for body in bodies]
        cases += [q, q + "a", q + "a\n", q + "\\", q + "\\" + q, q + "\\\n" + q, q + "a" + other, q + "\\\\", q * 3, q * 4, q + "a" + q + "b" + q, q + "\\\\" + q + q, "a" + q + "b" + q, q + "a" + q + "b", "1" + q + q]
    cases += ["!", "!a", "a!", "a!=b", "!\n=", "@", "$", "?", "~", "^", "&", "|", "`", "\\", "\\n", " ", "\t", "\r", " a", "#", "# a", "\0", "a\0", "\x7f", "\x1b"]
    cases = [case.encode() for case in cases] + [b""]
    # bytes over 127: a whole character, and single bytes
    cases += ["\u00e9".encode(), "a\u00e9".encode(), "\u03b1 = 1".encode(), "1\u0663".encode(), "\u20ac".encode(), "\U0001f600".encode()]
    cases += [bytes([b]) for b in range(0x80, 0x100)] + [b"a\xff", b'"\xff"', b"'\\\xff'", b"\xc3", b'"\x80\\"\x80"']
    cases += [*name_cases.sources(), *name_cases.ill_formed(), b"\xc3\xa9\x80", b"\xa9\xc3\xa9", b"a\xcc", b"\xf0\x90\x8c\x80\x80a", b"\xed\x95\x9c\xed\x95"]
    # each plain byte, before a digit and behind a letter
    cases += [bytes([b]) + b"1" for b in range(0x80)] + [b"a" + bytes([b]) for b in range(0x80)]
    return cases


def is_name(text):
    try:
        return identifier(text.decode("utf-8"))
    except UnicodeDecodeError:
        return False


def token_at(source, at):
    """The longest match of the patterns of documents 01 and 02, a keyword before a name of the same length: `code:end`, or a dash. A name is a row of bytes
    from the place that decodes to what Python says is one."""
    matches = [(m.end(), True, code) for pattern, code in PATTERNS if (m := pattern.match(source, at))]
    matches += [(end, False, CODE["Identifier"]) for end in range(at + 1, len(source) + 1) if is_name(source[at:end])]
    if not matches:
        return "-"
    end, _, code = max(matches)
    return f"{code}:{end}"


def token_expected(source):
    return " ".join(token_at(source, at) for at in range(len(source) + 1))


# ---- strings: `s HEX`, what stands between the quotes ----

DECODED = {b"n": b"\n", b"t": b"\t", b"r": b"\r", b"\\": b"\\", b'"': b'"', b"'": b"'"}


def string_cases():
    cases = [b"", b"a", b"plain text", b"\n", b"a\nb", b"'", b'"', b"''\"\"", b"\\", b"a\\", b"\\\\", b"\\\\\\", b"\\\\\\\\", b"\\\\n", b"\\\\\\n", b"n\\", b"nn\\nn", b"\\n\\t\\r\\\\\\\"\\'"]
    cases += [b"\\" + bytes([b]) for b in range(0x80)]
    cases += [b"a\\" + escape + b"b\\" + escape for escape in DECODED] + [bytes(pair) for pair in itertools.product(b"\\nx", repeat=3)]
    cases += [text.encode() for text in ["caf\u00e9", "\\\u00e9", "\u20ac\\n\u20ac", "\\\U0001f600\\t", "\u00e9\\\\\u00e9", "\\x41", "\\u00e9", "\\101", "\\0", "C:\\new\\table", "\\\n"]]
    cases += [b"\xff", b"\\\xff", b"\\\x80n", b"\x80\\n", bytes(range(0x80, 0x100)), b"\\n" * 500, b"\\q" * 500, b"\\" * 1001, b"x" * 2000]
    return cases


def string_expected(body):
    decoded = re.sub(rb"\\(.)", lambda m: DECODED.get(m[1], m[0]), body, flags=re.DOTALL)
    return f"{decoded.hex()} {len(decoded)}"


# ---- files ----


def distinct(cases):
    return list(dict.fromkeys(cases))


def main():
    crate = sys.argv[1]
    lists = [
        ("ints", "i", int_cases(), int_expected),
        ("floats", "f", float_edges() + float_mixed(), float_expected),
        ("tokens", "t", token_cases(), token_expected),
        ("strings", "s", string_cases(), string_expected),
        ("utf8", "u", utf8_cases(), utf8_expected),
        ("characters", "c", character_cases(), character_expected),
    ]
    stdout = []
    for name, letter, cases, expected in lists:
        cases = distinct(cases)
        lines = [letter + " " + (case if isinstance(case, str) else case.hex()) for case in cases]
        text = "".join(line + "\n" for line in lines)
        assert len(text) < LARGEST_FILE, (name, len(text))
        assert all(len(case) < LONGEST_CASE for case in cases), name
        open(f"{crate}/data/{name}", "w").write(text)
        stdout += [f"{line} = {expected(case)}\n" for line, case in zip(lines, cases)]
        print(f"{name}: {len(cases)} cases, {len(text)} bytes")
    open(f"{crate}/args", "w").write("".join(name + "\n" for name, *_ in lists))
    open(f"{crate}/stdout", "w").write("".join(stdout))


main()
