#!/usr/bin/env python3
"""Draws the crates of crates.txt as layers into docs/map.svg.

    tools/map.py            writes the picture
    tools/map.py --check    says whether the picture is what would be written now; exit status 1 where it is not

A crate stands above those that it needs, and lines lead downward. A need that follows from others is not drawn. crates.txt has the rooms too: a line
`## ROOM: WHAT IT DOES` opens one, and a room with a program in it stands at the right.
"""
import os
import sys

import map_crates
import map_draw as draw
import map_route
from map_layout import Layout, set_rows

ROOT = os.path.dirname(os.path.dirname(os.path.abspath(__file__)))
PICTURE = "docs/map.svg"
EDGE, PAD, BETWEEN = 20, 14, 10  # around the picture, inside a room, between rooms
STRIP = 172  # at the left of a room, for its name
MAIN, SIDE = 670, 280  # the columns of libraries and of programs


class Map:
    def __init__(self, root):
        self.rooms = map_crates.read(root)
        self.boxes = {b.name: b for r in self.rooms for b in r.boxes}
        self.needs = map_crates.reduced(self.boxes)
        self.bands = set_rows(self.rooms, self.boxes)
        self.columns()
        self.layout.order()
        self.gaps = map_route.gaps(self.layout)
        self.heights()

    def columns(self):
        """Libraries, programs and folders each have a column; folders lie above the libraries. A column is as wide as its widest row asks."""
        kind = {b.name: 1 if self.rooms[b.room].holds("program") else 2 if b.kind == "folder" else 0 for b in self.boxes.values()}
        probe = Layout(self.boxes, kind, {})
        need = {0: MAIN, 1: SIDE, 2: 0}
        for (_, column), lane in probe.lanes.items():
            need[column] = max(need[column], sum(map(probe.width, lane)) + sum(probe.apart(lane)))
        left = EDGE + STRIP
        side = left + need[0] + PAD + BETWEEN + PAD
        self.band_right, self.side = left + need[0] + PAD, (side - PAD, side + need[1] + PAD)
        self.width = self.side[1] + EDGE
        self.layout = Layout(self.boxes, kind, {0: (left, left + need[0]), 1: (side, side + need[1]), 2: (EDGE + PAD, self.band_right - PAD)})

    def totals(self, room):
        return tuple(sum(b.lines[i] for b in room.boxes) for i in range(3))

    def heights(self):
        """The top of each row, from the highest down, with room for the tracks between."""
        rows = max(b.row for b in self.boxes.values())
        lows = {low: number for number, (low, _) in self.bands.items()}
        self.top, self.marks, y = {}, {}, EDGE + 58
        band_top = EDGE
        for row in range(rows, -1, -1):
            folders = any(b.kind == "folder" for b in self.boxes.values() if b.row == row)
            self.top[row] = y
            y += draw.TALL
            ends = row in lows or folders
            if ends:
                band = lows.get(row, "folders")
                needed = 0 if folders else draw.label(0, 0, self.rooms[band], self.totals(self.rooms[band]), 18, 100, "")[1] + 2 * PAD
                bottom = max(y + PAD, band_top + needed)
                self.marks[band] = (band_top, bottom)
                band_top = bottom + BETWEEN
            count = self.gaps[row - 1][2] if row - 1 in self.gaps else 0
            least = y + 22 + 8 * count
            y = max(least, band_top + PAD) if ends else max(least, y + 30)
        self.height = max(bottom for _, bottom in self.marks.values())

    def colour(self, name, line=True):
        """Of a crate's edge, or of the lines to it; those from folders alone are as pale as these."""
        room = self.boxes[name].room
        users = [b for b in self.boxes.values() if name in self.needs[b.name]]
        if users and all(b.kind == "folder" for b in users) and line:
            return draw.OUTSIDE
        return draw.PROGRAMS[1] if self.rooms[room].holds("program") else draw.ROOMS[room % len(draw.ROOMS)][1]

    def grounds(self):
        """The rooms, with their names."""
        out = []
        for number, room in enumerate(self.rooms):
            sums = self.totals(room)
            if number in self.bands:
                (top, bottom), (ground, edge) = self.marks[number], draw.ROOMS[number % len(draw.ROOMS)]
                out.append(draw.rect(EDGE, top, self.band_right - EDGE, bottom - top, ground, rx=8))
                out += draw.label(EDGE + PAD, top + 8, room, sums, 18, STRIP - 30, "#24292f")[0]
            elif room.holds("program"):
                out.append(draw.rect(self.side[0], EDGE, self.side[1] - self.side[0], self.height - EDGE, draw.PROGRAMS[0], rx=8))
                out += draw.label(self.side[0] + PAD, EDGE + 4, room, (0, 0, 0), 40, 0, "#24292f")[0]
            elif room.holds("folder"):
                top, bottom = self.marks["folders"]
                out.append(draw.rect(EDGE, top, self.band_right - EDGE, bottom - top, "#ffffff", draw.OUTSIDE, 8, 'stroke-width="1.5" stroke-dasharray="7 4"'))
                out += draw.label(EDGE + PAD, top + 4, room, sums, 80, 0, "#9a3412")[0]
        return out

    def runs(self, gap):
        """The lines in a gap: (upper place, lower place, target), and the heights where each begins, runs across and ends."""
        links, track, count = self.gaps[gap]
        upper, lower = self.top[gap + 1] + draw.TALL, self.top[gap]
        for a, b, target in sorted(links, key=lambda l: (l[2], l[0])):
            yield a, b, target, upper, upper + (lower - 6 - upper) * (track.get(target, 0) + 1) / (count + 1), lower

    def lines(self):
        out, lands = [], map_route.landings(self.layout)
        for gap in sorted(self.gaps):
            for a, b, target, upper, across, lower in self.runs(gap):
                out.append(draw.line(a, upper, b, lower, across, self.colour(target)))
        for node, x in sorted(self.layout.x.items(), key=str):
            if isinstance(node, tuple):
                out.append(draw.line(x, self.top[node[1]], x, self.top[node[1]] + draw.TALL, 0, self.colour(node[0])))
        for target in sorted({t for _, _, _, t in self.layout.links}):
            out.append(draw.arrow(lands[target], self.top[self.boxes[target].row], self.colour(target)))
        return out

    def drawn(self):
        body = self.grounds() + self.lines()
        for name, b in self.boxes.items():
            x, y, w = self.layout.x[name], self.top[b.row], self.layout.width(name)
            body += draw.folder(x, y, w, b) if b.kind == "folder" else draw.crate(x, y, w, b, self.colour(name, False))
        count = sum(map(len, self.needs.values())), sum(len(b.deps) for b in self.boxes.values())
        body += draw.legend(EDGE, self.height + 14, *count)
        return draw.page(self.width, self.height + 14 + draw.TALL + 14, body)


def main():
    if sys.argv[1:] not in ([], ["--check"]):
        sys.exit(__doc__.strip())
    picture, path = Map(ROOT).drawn(), os.path.join(ROOT, PICTURE)
    if sys.argv[1:] == ["--check"]:
        stands = open(path, encoding="utf8").read() if os.path.exists(path) else ""
        if stands != picture:
            sys.exit("map: %s is not what tools/map.py draws now, of crates.txt and the crates' lines: run tools/map.py" % PICTURE)
        return
    with open(path, "w", encoding="utf8", newline="\n") as f:
        f.write(picture)


if __name__ == "__main__":
    main()
