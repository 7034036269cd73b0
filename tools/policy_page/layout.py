"""Where domains stand and how arrows go: boxes of one size in a ring, and curves through its inside."""
import math

SAMPLES = 2400
WIDER = 1.5  # how many times wider than high the ring is
FEW = 12  # so many boxes stand on an ellipse; more in two rows and two columns, which take less room
LEAST = (700, 440)  # pixels inside of these
FRONT = 40  # pixels in front of a box that its arrows need
STEP, MARGIN = 20, 14  # pixels between the ends of arrows at a box, and from the corner of the box
MOMENTS = (0.5, 0.42, 0.58, 0.34, 0.66, 0.26, 0.74)  # how far along its arrow a label may stand


def apart(one, other, wide, high):
    """How far two boxes are from each other: they don't overlap from 1 on."""
    return max(abs(one[0] - other[0]) / wide, abs(one[1] - other[1]) / high)


def spread(count, points, wide, high):
    """So many of the points, as evenly as boxes of this size allow."""
    lengths = [0.0]
    for at, point in enumerate(points):
        lengths.append(lengths[-1] + apart(point, points[(at + 1) % len(points)], wide, high))
    found, at = [], 0
    for number in range(count):
        while lengths[at] < lengths[-1] * number / count - 1e-9:
            at += 1
        found.append(points[at % len(points)])
    return found


def on_ellipse(count, wide, high, radius):
    """Centers clockwise from the highest on, on the least of some ellipses on which boxes of this size don't overlap."""
    angles = [2 * math.pi * number / SAMPLES for number in range(SAMPLES)]
    while True:
        points = [(math.sin(angle) * radius * WIDER, -math.cos(angle) * radius) for angle in angles]
        found = spread(count, points, wide, high)
        if all(apart(one, other, wide, high) >= 1 for at, one in enumerate(found) for other in found[:at]):
            return found
        radius *= 1.04


def in_rows(count, wide, high):
    """Centers clockwise from the upper left on: a row, a column, a row and a column, with nothing in the corners."""
    half = (count + 1) // 2
    long = min(range(1, half), key=lambda long: abs((long + 2) * wide - WIDER * (half - long + 2) * high))
    counts = [long, half - long, long, count - half - long]
    across, down = max(wide, LEAST[0] / (long + 1)), max(high, LEAST[1] / (half - long + 1))
    right, low = (long + 1) * across / 2, (half - long + 1) * down / 2
    found = []
    for side, number in enumerate(counts):
        for at in range(number):
            along = at - (number - 1) / 2
            center = (along * across, -low), (right, along * down), (-along * across, low), (-right, -along * down)
            found.append(center[side])
    return found


def places(count, wide, high, radius):
    """The centers of so many boxes; `wide` and `high` have the space between boxes with them."""
    if count < 3:
        return [(0, 0)] if count == 1 else [(-radius * WIDER, 0), (radius * WIDER, 0)]
    return on_ellipse(count, wide, high, radius) if count <= FEW else in_rows(count, wide, high)


class Picture:
    """Boxes with their places, and arrows with their curves, in pixels from the upper left corner."""

    def __init__(self, count, wide, high, radius, gap):
        centers = places(count, wide + gap, high + gap, radius)
        left, top = min(x for x, _ in centers) - wide / 2, min(y for _, y in centers) - high / 2
        self.wide, self.high = wide, high
        self.middle = (-left, -top)
        self.centers = [(round(x - left), round(y - top)) for x, y in centers]
        self.width, self.height = (math.ceil(max(each) + half) for each, half
                                   in zip(zip(*self.centers), (wide / 2, high / 2)))
        self.sides = [self.side(box) for box in range(count)]
        self.labels = []

    def side(self, box):
        """The direction of the side of a box that has its arrows: of the two that look at the middle the one that looks
        more at it, unless another box stands right in front."""
        x, y = (self.middle[axis] - self.centers[box][axis] for axis in (0, 1))
        across, down = (1 if x >= 0 else -1, 0), (0, 1 if y >= 0 else -1)
        sides = [across, down] if abs(x) * self.high >= abs(y) * self.wide else [down, across]
        return next((side for side in sides if self.is_free(box, side)), sides[0])

    def is_free(self, box, side):
        """Whether no other box stands right in front of this side."""
        x, y = self.centers[box]
        front = (x + side[0] * FRONT, y + side[1] * FRONT, self.wide, self.high)
        return not any(overlap(front, (*other, self.wide, self.high)) for at, other in enumerate(self.centers) if at != box)

    def toward_middle(self, box):
        """The direction in which arrows leave a box."""
        x, y = (self.middle[axis] - self.centers[box][axis] for axis in (0, 1))
        long = math.hypot(x, y)
        return (x / long, y / long) if long else (0, 1)

    def direction(self, box, other):
        """How far to the side the other box stands, as it is seen from the side with the arrows."""
        inward_x, inward_y = self.sides[box]
        x, y = (self.centers[other][axis] - self.centers[box][axis] for axis in (0, 1))
        return math.atan2(inward_x * y - inward_y * x, inward_x * x + inward_y * y)

    def curves(self, pairs):
        """A curve for each pair of boxes, from the first to the second. Those between the same two lie side by side."""
        ends = {}
        for number, (one, other) in enumerate(pairs):
            for box, far in ((one, other), (other, one)):
                rank = number if box == min(one, other) else -number
                ends.setdefault(box, []).append((self.direction(box, far), far, rank, number))
        points = {}
        for box, found in ends.items():
            for at, (_, _, _, number) in enumerate(sorted(found)):
                points[box, number] = self.end(box, at - (len(found) - 1) / 2, len(found))
        return [Curve(points[one, number], self.toward_middle(one), points[other, number], self.toward_middle(other))
                for number, (one, other) in enumerate(pairs)]

    def end(self, box, steps, count):
        """The end of one of several arrows at a box, so many steps from the middle of its side."""
        (inward_x, inward_y), (x, y) = self.sides[box], self.centers[box]
        length = (self.high if inward_x else self.wide) - 2 * MARGIN
        along = steps * min(STEP, length / max(1, count - 1))
        return (x + inward_x * self.wide / 2 - inward_y * along, y + inward_y * self.high / 2 + inward_x * along)

    def label(self, curve, wide, high):
        """The place of a label at a curve: it lies on no box and on no other label, if there is such a place."""
        taken = [(*center, self.wide, self.high) for center in self.centers] + self.labels
        spots = [(*curve.at(moment), wide, high) for moment in MOMENTS]
        free = next((spot for spot in spots if not any(overlap(spot, other) for other in taken)), spots[0])
        self.labels.append(free)
        return free[:2]


def overlap(one, other):
    return all(abs(one[axis] - other[axis]) < (one[axis + 2] + other[axis + 2]) / 2 for axis in (0, 1))


class Curve:
    """A cubic curve that leaves one box and reaches the other in these directions."""

    def __init__(self, begin, out, end, into):
        bend = 16 + 0.38 * math.dist(begin, end)
        self.points = [begin, (begin[0] + out[0] * bend, begin[1] + out[1] * bend),
                       (end[0] + into[0] * bend, end[1] + into[1] * bend), end]

    def at(self, moment):
        left = 1 - moment
        shares = (left ** 3, 3 * left ** 2 * moment, 3 * left * moment ** 2, moment ** 3)
        return tuple(sum(share * point[axis] for share, point in zip(shares, self.points)) for axis in (0, 1))

    @property
    def path(self):
        begin, *others = (f"{x:.0f} {y:.0f}" for x, y in self.points)
        return f"M{begin}C{','.join(others)}"
