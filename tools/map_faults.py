#!/usr/bin/env python3
"""Says where the map that tools/map.py draws cannot be read: a line through a box, two lines on top of each other, two boxes that touch.

    tools/map_faults.py    exit status 1 where there is a fault
"""
import sys

import map_draw as draw
from map import ROOT, Map


def box_edges(m):
    """(name, left, top, right, bottom)"""
    out = []
    for name, b in m.boxes.items():
        x, half, top = m.layout.x[name], m.layout.width(name) / 2, m.top[b.row]
        out.append((name, x - half, top + (draw.TALL - draw.LOW if b.kind == "folder" else 0), x + half, top + draw.TALL))
    return out


def segments(m):
    """(target, left, top, right, bottom) of each straight part of a line"""
    out = []
    for gap in m.gaps:
        for a, b, target, upper, across, lower in m.runs(gap):
            out += [(target, a, upper, a, across), (target, min(a, b), across, max(a, b), across), (target, b, across, b, lower)]
    for node, x in m.layout.x.items():
        if isinstance(node, tuple):
            out.append((node[0], x, m.top[node[1]], x, m.top[node[1]] + draw.TALL))
    return out


def meet(a, b, room):
    """Whether they come nearer than this to each other; with less than no room, whether they lie so deep in each other."""
    return a[1] < b[3] + room and b[1] < a[3] + room and a[2] < b[4] + room and b[2] < a[4] + room


def alike(a, b):
    """Whether both are upright, or both level."""
    return (a[1] == a[3] and b[1] == b[3]) or (a[2] == a[4] and b[2] == b[4])


def faults(m):
    boxes, lines = box_edges(m), segments(m)
    out = ["%s and %s touch" % (a[0], b[0]) for i, a in enumerate(boxes) for b in boxes[:i] if meet(a, b, 5)]
    out += ["a line to %s runs through %s" % (s[0], b[0]) for s in lines for b in boxes if meet(s, b, -0.5)]
    for i, s in enumerate(lines):
        for t in lines[:i]:
            long = max(min(s[3], t[3]) - max(s[1], t[1]), min(s[4], t[4]) - max(s[2], t[2])) > 2
            if s[0] != t[0] and alike(s, t) and meet(s, t, 3) and long:
                out.append("lines to %s and to %s lie on each other" % (s[0], t[0]))
    return out


def main():
    found = sorted(set(faults(Map(ROOT))))
    for fault in found:
        print("map: " + fault)
    sys.exit(1 if found else 0)


if __name__ == "__main__":
    main()
