"""Where each box and line of the map stands (tools/map.py): rows by depth, the order in a row, and the places across.

All lines to one crate are one net: a trunk rises from the crate through the rows above it, and each crate that needs it joins the trunk in the gap
below its own row. A trunk has a place of its own in each row that it passes, so no line runs through a box.
"""
from map_crates import reduced

BOX, FOLDER, TRUNK = 130, 102, 10  # widths
APART = {(False, False): 20, (False, True): 13, (True, False): 13, (True, True): 6}  # by whether left and right are trunks


def set_rows(rooms, boxes):
    """Libraries: room above room, and in a room by depth. Programs: as low as what they need lets them be. Returns the rows of each room of libraries."""
    first, bands = 0, {}
    for number, room in enumerate(rooms):
        if room.holds("program") or room.holds("folder"):
            continue
        for _ in room.boxes:
            for b in room.boxes:
                inside = [boxes[d].row + 1 for d in b.deps if boxes[d].room == number]
                b.row = max([first] + inside)
        top = max([b.row for b in room.boxes], default=first)
        bands[number] = (first, top)
        first = top + 1
    for room in rooms:
        if room.holds("program"):
            for _ in room.boxes:
                for b in room.boxes:
                    b.row = max([boxes[d].row + 1 for d in b.deps], default=0)
    for room in rooms:
        for b in room.boxes if room.holds("folder") else []:
            b.row = max(first, max(x.row for x in boxes.values() if x.kind != "folder"))
    return bands


def nets(boxes):
    """(gap, upper, lower, target) for each line between two neighbouring rows; the gap's number is that of its lower row. A trunk is (target, row)."""
    users = {}
    for name, deps in reduced(boxes).items():
        for d in deps:
            users.setdefault(d, []).append(name)
    links, trunks = [], []
    for t in boxes:
        top = max([boxes[u].row for u in users.get(t, [])], default=0)
        for row in range(boxes[t].row, top):
            lower = t if row == boxes[t].row else (t, row)
            links += [(row, u, lower, t) for u in users[t] if boxes[u].row == row + 1]
            if row + 1 < top:
                trunks.append((t, row + 1))
                links.append((row, (t, row + 1), lower, t))
    return links, trunks


def spread(wanted, widths, apart, low, high):
    """The places nearest to the wanted ones that keep the order and the distances: neighbours that come too close move as one, to their mean."""
    shift, total = [0.0], 0.0
    for i in range(1, len(wanted)):
        total += (widths[i - 1] + widths[i]) / 2 + apart[i - 1]
        shift.append(total)
    groups = []
    for w, s in zip(wanted, shift):
        groups.append([w[0] - s, w[1], 1])
        while len(groups) > 1 and groups[-2][0] > groups[-1][0]:
            b, a = groups.pop(), groups.pop()
            weight = a[1] + b[1]
            groups.append([(a[0] * a[1] + b[0] * b[1]) / weight, weight, a[2] + b[2]])
    out = [g[0] for g in groups for _ in range(g[2])]
    least, most = low + widths[0] / 2, high - widths[-1] / 2 - total
    return [min(max(x, least), max(most, least)) + s for x, s in zip(out, shift)]


class Layout:
    """Orders the rows and places what is in them. A lane is what one column has in one row; columns stand side by side."""

    def __init__(self, boxes, column_of, bounds):
        self.boxes, self.bounds = boxes, bounds
        self.links, trunks = nets(boxes)
        self.near, self.lanes, self.x = {}, {}, {}
        self.column, self.trunks, self.straight = {}, {}, {}
        for _, upper, lower, _ in self.links:
            self.near.setdefault(upper, []).append(lower)
            self.near.setdefault(lower, []).append(upper)
        for node in list(boxes) + trunks:
            trunk = isinstance(node, tuple)
            lane = (node[1], column_of[node[0]]) if trunk else (boxes[node].row, column_of[node])
            self.lanes.setdefault(lane, []).append(node)
            self.column[node] = lane[1]
            if trunk:
                self.trunks.setdefault(node[0], []).append(node)
        self.keys = sorted(self.lanes)
        self.widths = {n: self.width(n) for n in self.column}

    def width(self, node):
        if isinstance(node, tuple):
            return TRUNK
        return max(BOX if self.boxes[node].kind != "folder" else FOLDER, 9 * len(node) + 16)

    def apart(self, lane):
        return [APART[isinstance(a, tuple), isinstance(b, tuple)] for a, b in zip(lane, lane[1:])]

    def place(self, sweeps=16):
        """Draws each box to its neighbours' mean and each trunk to one place, row by row; in the second half trunks only grow straight."""
        for key in self.keys:
            lane, (low, high) = self.lanes[key], self.bounds[key[1]]
            step = (high - low) / (len(lane) + 1)
            for i, node in enumerate(lane):
                self.x[node] = low + step * (i + 1)
        for sweep in range(sweeps):
            for target, nodes in self.trunks.items():
                self.straight[target] = self.middle(target, nodes, 2 * sweep < sweeps)
            for key in self.keys if sweep % 2 else reversed(self.keys):
                self.settle(key)

    def middle(self, target, nodes, drawn):
        """Where a trunk is to stand: the mean of its places, and while it is drawn there, of its ends."""
        total, weight = sum(self.x[n] for n in nodes), float(len(nodes))
        if drawn:
            for node in nodes:
                for end in self.near[node]:
                    if not isinstance(end, tuple):
                        w = self.pull(node, end) * (4 if end == target else 2)
                        total, weight = total + w * self.x[end], weight + w
        return total / weight

    def pull(self, a, b):
        """A line to another column draws little."""
        return 1.0 if self.column[a] == self.column[b] else 0.0625

    def settle(self, key):
        lane, (low, high) = self.lanes[key], self.bounds[key[1]]
        wanted = []
        for node in lane:
            if isinstance(node, tuple):
                wanted.append((self.straight[node[0]], 500.0))
                continue
            total, weight = (low + high) / 16, 0.125
            for other in self.near.get(node, []):
                w = self.pull(node, other)
                total, weight = total + w * self.x[other], weight + w
            wanted.append((total / weight, weight))
        for node, x in zip(lane, spread(wanted, [self.widths[n] for n in lane], self.apart(lane), low, high)):
            self.x[node] = round(x * 64) / 64  # sums of such numbers are exact, so every Python draws the same

    def cost(self):
        """Crossings count most, then bends, then length."""
        self.place()
        total, gaps = 0.0, {}
        for gap, upper, lower, target in self.links:
            a, b = self.x[upper], self.x[lower]
            free = 4 if isinstance(upper, tuple) else self.width(upper) / 2 - 12  # a line leaves a box anywhere in its width
            total += abs(a - b) / 2 + (30 if abs(a - b) > free else 0)
            gaps.setdefault(gap, []).append((a, b, target))
        for lines in gaps.values():
            for i, (a, b, t) in enumerate(lines):
                total += sum(60 for c, d, u in lines[:i] if t != u and (a - c) * (b - d) < 0)
        return total

    def order(self):
        """Begins with the rows sorted by their neighbours' means, then exchanges neighbours while that helps."""
        for _ in range(8):
            self.place(4)
            for key in self.keys:
                mean = {n: sum(self.x[o] for o in self.near[n]) / len(self.near[n]) if n in self.near else self.x[n] for n in self.lanes[key]}
                self.lanes[key].sort(key=lambda n: round(mean[n], 3))
        best, before = self.cost(), None
        while best != before:
            before = best
            for key in self.keys:
                best = self.exchange(key, best)
            best = self.untwine(best)
        self.place(400)
        self.align()

    def exchange(self, key, best):
        """Moves each node of a row to each other place in it, and leaves it where the cost is least."""
        lane = self.lanes[key]
        for i in range(len(lane)):
            for j in [j for j in range(len(lane)) if j != i]:
                lane.insert(j, lane.pop(i))
                now = self.cost()
                if now < best - 0.5:
                    best = now
                else:
                    lane.insert(i, lane.pop(j))
        return best

    def untwine(self, best):
        """Puts one of two trunks to the left of the other in every row that both pass, if that is better: by single rows it would first be worse."""
        for left in self.trunks:
            for right in self.trunks:
                kept = {k: list(lane) for k, lane in self.lanes.items() if (left, k[0]) in lane and (right, k[0]) in lane}
                for key in kept if left != right else []:
                    lane = self.lanes[key]
                    i, j = lane.index((left, key[0])), lane.index((right, key[0]))
                    if i > j:
                        lane[i], lane[j] = lane[j], lane[i]
                if any(self.lanes[k] != lane for k, lane in kept.items()):
                    now = self.cost()
                    if now < best - 0.5:
                        best = now
                    else:
                        self.lanes.update(kept)
        return best

    def align(self):
        """Whole numbers, a trunk that is straight but for a little made straight, and boxes that stand nearly above one another put right above."""
        for nodes in self.trunks.values():
            middle = round(sum(self.x[n] for n in nodes) / len(nodes))
            if all(abs(self.x[n] - middle) < 3 for n in nodes):
                self.x.update({n: middle for n in nodes})
        self.x = {n: round(x) for n, x in self.x.items()}
        first = None
        for box in sorted(self.boxes, key=lambda n: (self.column[n], self.x[n], n)):
            if first and self.column[first] == self.column[box] and self.x[box] - self.x[first] < 9:
                self.x[box] = self.x[first]
            else:
                first = box
