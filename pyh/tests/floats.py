"""Floats of many spellings, bare, in parentheses, as targets and behind Korean: each must be drawn as it is written, and with its value where that has
another text, in the digits of CPython's repr."""
import os
import random
import subprocess

COUNT = 600

FORMS = ["%s", "(%s)", "( (%s) )", "%s = x", "(%s) = x", "거리 = %s", "북관(층, %s)"]


def run(cases, work, tally):
    some = random.Random(1)
    spellings = [spelling(some) for _ in range(COUNT)]
    with open(os.path.join(work, "floats.pyh"), "w", encoding="utf8") as file:
        file.writelines(FORMS[k % len(FORMS)] % text + "\n" for k, text in enumerate(spellings))
    shown = subprocess.run(["pyh", "show", "floats.pyh"], cwd=work, capture_output=True, timeout=60).stdout.decode()
    found = [line[line.index("Float") :] for line in shown.splitlines() if "Float" in line]
    wanted = [drawn(text) for text in spellings]
    wrong = ["%s, and not %s" % pair for pair in zip(found, wanted) if pair[0] != pair[1]]
    tally.case("floats: %d spellings" % len(found), len(found) == COUNT and not wrong, "\n".join(wrong[:5]))
    once = sum("(" not in line for line in wanted)
    tally.case("floats: %d written as their value is" % once, COUNT // 10 < once < COUNT - COUNT // 10)


def spelling(some):
    """One that is admitted: its digits make less than 10^15, and the exponent less the count of digits behind the dot goes from -22 to 22."""
    whole = "".join(some.choices("0123456789", k=some.choice((1, 1, 1, 2, 3, 8))))
    fraction = "".join(some.choices("0123456789", k=some.choice((1, 1, 2, 7))))
    exponent = some.choice((-22, 22, some.randint(-22, 22), some.randint(-22, 22))) + len(fraction)
    sign = "-" if exponent < 0 else some.choice(("", "+"))
    power = some.choice("eE") + sign + some.choice(("", "", "0")) + str(abs(exponent))
    return "%s.%s%s" % (whole, fraction, some.choice(("", "", power)))


def drawn(text):
    value = decimal(float(text))
    return "Float %s" % text if text == value else "Float %s (%s)" % (text, value)


def decimal(value):
    """CPython's repr with `.0` before an exponent, and the exponent without + and zeros in front."""
    digits, e, power = repr(value).partition("e")
    return digits if not e else "%s%se%d" % (digits, "" if "." in digits else ".0", int(power))
