"""Writes the map as SVG (tools/map.py)."""
from xml.sax.saxutils import escape

SANS = "-apple-system,'Segoe UI',Helvetica,Arial,'DejaVu Sans',sans-serif"
MONO = "ui-monospace,SFMono-Regular,Menlo,Consolas,'DejaVu Sans Mono',monospace"
PARTS = (("src", "#1d5fbf"), ("specs", "#b4470f"), ("proofs", "#66707c"))
# of each room: its ground, and the colour of its boxes' edges and of the lines that lead to them
ROOMS = (("#eef4fb", "#5b8fc7"), ("#fbf0f2", "#c27587"), ("#edf7f0", "#5aa578"), ("#f4f0fa", "#9079c2"), ("#eef6f7", "#4c9aa5"), ("#f9f4ea", "#b3924f"))
PROGRAMS = ("#f1f3f5", "#77828f")
OUTSIDE = "#9aa3ad"
LAWS = "#fff3bf"
TALL, LOW = 50, 32  # heights of a crate's box and of a folder's


def at(v):
    return ("%.1f" % v).rstrip("0").rstrip(".")


def text(x, y, words, size, colour="#24292f", weight=400, anchor="start", font=SANS):
    return '<text x="%s" y="%s" font-family="%s" font-size="%s" font-weight="%d" fill="%s" text-anchor="%s">%s</text>' % (
        at(x), at(y), font, size, weight, colour, anchor, escape(words))


def rect(x, y, w, h, fill, edge="none", rx=4, more=""):
    return '<rect x="%s" y="%s" width="%s" height="%s" rx="%s" fill="%s" stroke="%s"%s/>' % (at(x), at(y), at(w), at(h), rx, fill, edge, " " + more if more else "")


def wrapped(words, most):
    """Lines of at most so many characters."""
    lines = [""]
    for word in words.split():
        if lines[-1] and len(lines[-1]) + 1 + len(word) > most:
            lines.append("")
        lines[-1] += (" " if lines[-1] else "") + word
    return lines


def figures(x, y, w, lines):
    """Three numbers side by side, each in the colour of its part."""
    shown = ["{:,}".format(n) if n else "–" for n in lines]
    return [text(x + w * (2 * i + 1) / 6, y, shown[i], 12, colour, 500, "middle") for i, (_, colour) in enumerate(PARTS)]


def bar(x, y, w, lines):
    """The parts' shares."""
    out, total = [], sum(lines) or 1
    for n, (_, colour) in zip(lines, PARTS):
        part = w * n / total
        if n:
            out.append(rect(x, y, part, 3.5, colour, rx=0))
        x += part
    return out


def crate(x, y, w, box, edge):
    """A crate's box, (x, y) the middle of its top."""
    left, fill = x - w / 2, LAWS if box.kind == "laws" else "#ffffff"
    program = box.kind == "program"
    out = [rect(left, y, w, TALL, fill, "#24292f" if program else edge, 11 if program else 4, 'stroke-width="%s"' % (1.8 if program else 1.3))]
    out.append(text(x, y + 18, box.name, 15, weight=600, anchor="middle", font=MONO))
    out += figures(left + 4, y + 34.5, w - 8, box.lines)
    return out + bar(left + 10, y + TALL - 8.5, w - 20, box.lines)


def folder(x, y, w, box):
    """A folder's box, which ends where a crate's box would."""
    y += TALL - LOW
    out = [rect(x - w / 2, y, w, LOW, "#ffffff", OUTSIDE, 4, 'stroke-width="1.3" stroke-dasharray="5 3"')]
    return out + [text(x, y + 21, box.name, 14.5, "#57606a", 500, "middle", MONO)]


def line(a, top, b, bottom, across, colour):
    """Down from (a, top), across at that height, down to (b, bottom); corners are round."""
    d = "M%s %s" % (at(a), at(top))
    if a != b:
        side, r = (1 if b > a else -1), min(6, abs(b - a) / 2, across - top, bottom - across)
        d += "V%s Q%s %s %s %s" % (at(across - r), at(a), at(across), at(a + side * r), at(across))
        d += "H%s Q%s %s %s %s" % (at(b - side * r), at(b), at(across), at(b), at(across + r))
    d += "V%s" % at(bottom)
    return '<path d="%s" fill="none" stroke="%s" stroke-width="1.5"/>' % (d, colour)


def arrow(x, y, colour):
    return '<path d="M%s %s l-4.5 -8 h9 z" fill="%s"/>' % (at(x), at(y), colour)


def label(x, y, room, lines, most, width, colour):
    """A room's name, what it does, and its lines together. Returns the drawing and its height."""
    out, top = [], y
    for words in wrapped(room.name, most):
        y += 19
        out.append(text(x, y, words, 16, colour, 700))
    y += 3
    for words in wrapped(room.says, int(most * 1.35)):
        y += 15.5
        out.append(text(x, y, words, 12.5, "#57606a"))
    if sum(lines):
        y += 22
        out += figures(x - 6, y, width + 12, lines)
        y += 7
        out += bar(x, y, width, lines)
    return out, y + 6 - top


def legend(x, y, drawn, all_needs):
    """What the signs mean, in one row."""
    out = [rect(x, y, 138, TALL, "#ffffff", PROGRAMS[1], 4, 'stroke-width="1.3"'), text(x + 69, y + 18, "crate", 15, weight=600, anchor="middle", font=MONO)]
    out += [text(x + 5 + 128 * (2 * i + 1) / 6, y + 34.5, name, 12.5, colour, 500, "middle") for i, (name, colour) in enumerate(PARTS)]
    out += bar(x + 10, y + TALL - 8.5, 118, (1, 1, 1))

    def says(left, *lines):
        return [text(left, y + 37 + 16 * (i - len(lines) / 2), words, 12.5, "#57606a") for i, words in enumerate(lines)]

    out += says(x + 148, "lines of its three", "parts, and their shares")
    out += [rect(x + 310, y + 12, 42, 26, LAWS, PROGRAMS[1], 4, 'stroke-width="1.3"')] + says(x + 361, "no code: definitions", "and laws alone")
    out += [rect(x + 506, y + 12, 42, 26, "#ffffff", "#24292f", 9, 'stroke-width="1.8"')] + says(x + 557, "program")
    out += [rect(x + 630, y + 12, 42, 26, "#ffffff", OUTSIDE, 4, 'stroke-width="1.3" stroke-dasharray="5 3"')] + says(x + 681, "folder outside", "the proof")
    out += [line(x + 794, y + 6, x + 794, y + 40, 0, PROGRAMS[1]), arrow(x + 794, y + 44, PROGRAMS[1])]
    return out + says(x + 810, "needs what it points to, always downward. Needs that", "follow from others are not drawn: %d of %d are" % (drawn, all_needs))


def page(width, height, body):
    head = '<svg xmlns="http://www.w3.org/2000/svg" width="%s" height="%s" viewBox="0 0 %s %s" role="img">' % (at(width), at(height), at(width), at(height))
    return "\n".join([head, "<title>The crates of Tarbucket as layers</title>", rect(0, 0, width, height, "#ffffff", rx=0)] + body + ["</svg>"]) + "\n"
