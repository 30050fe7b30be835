"""The lines of the map (tools/map.py): where each leaves its box, and the height at which each net runs across in a gap between two rows."""
from map_layout import spread


def landings(layout):
    """Where a net comes down on its target: below its trunk if the box is there, else in the box's middle."""
    out = {}
    for target in layout.boxes:
        x, trunk = layout.x[target], (target, layout.boxes[target].row + 1)
        straight = trunk in layout.x and abs(layout.x[trunk] - x) <= layout.width(target) / 2 - 16
        out[target] = layout.x[trunk] if straight else x
    return out


def ports(layout, below):
    """Where a line leaves: a box lets its lines out as nearly above their ends as its width allows; a trunk goes on in its own place."""
    out, ends = {}, {}
    for gap, upper, lower, target in layout.links:
        if isinstance(upper, tuple):
            out[upper, target] = layout.x[upper]
        else:
            ends.setdefault(upper, []).append((below[lower], target))
    for box, to in ends.items():
        to.sort()
        half = layout.width(box) / 2 - 12
        places = spread([(x, 1) for x, _ in to], [0] * len(to), [11] * len(to), layout.x[box] - half, layout.x[box] + half)
        for place, (_, target) in zip(places, to):
            out[box, target] = place
    return out


def worse(a, b):
    """What it costs that net a runs across above net b: crossings, and most of all two lines on top of each other. A net is (upper places, lower place)."""
    (ups, low), (others, below) = a, b
    left, right = min(ups + [low]), max(ups + [low])
    cost = sum(1 for x in others if left < x < right)
    cost += 1 if min(others + [below]) < low < max(others + [below]) else 0
    return cost + sum(50 for x in others if abs(x - low) < 5)


def tracks(found):
    """The number of each net's track in a gap, counted from the top, and how many there are."""
    order = sorted(found, key=lambda t: (found[t][1], t))
    for _ in order:
        for i in range(len(order) - 1):
            a, b = found[order[i]], found[order[i + 1]]
            if worse(b, a) < worse(a, b):
                order[i], order[i + 1] = order[i + 1], order[i]
    track = {}
    for i, t in enumerate(order):
        ups, low = found[t]
        before = [0]
        for u in order[:i]:
            others, below = found[u]
            meets = min(ups + [low]) - 9 < max(others + [below]) and min(others + [below]) - 9 < max(ups + [low])
            if meets:
                before.append(track[u] + 1)
        track[t] = max(before)
    return track, 1 + max(track.values(), default=-1)


def gaps(layout):
    """For each gap: its links as (upper place, lower place, target), each target's track, and the number of tracks."""
    below = {**layout.x, **landings(layout)}
    leave, found = ports(layout, below), {}
    for gap, upper, lower, target in layout.links:
        a, b = leave[upper, target], below[lower]
        if abs(a - b) < (1.5 if isinstance(upper, tuple) else 5):  # straight but for a little
            a = b
        found.setdefault(gap, []).append((a, b, target))
    out = {}
    for gap, links in found.items():
        bent = {}
        for a, b, target in links:
            if a != b:
                bent.setdefault(target, ([], b))[0].append(a)
        for a, b, target in links:  # a net's straight lines count as places of it too
            if a == b and target in bent:
                bent[target][0].append(a)
        out[gap] = (links,) + tracks(bent)
    return out
