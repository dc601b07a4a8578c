#!/usr/bin/env python3
"""The program in plain Python, written from the paper alone: the bytes of an input to the bytes of the output.

    tests/oracle.py            reads standard input and writes standard output, as the program does
    tests/oracle.py samples    writes what crates/run_samples must write, from the cases listed in its main.rt

Loops are walked link by link, and a quad's vertices are searched for; there is no table. The program has no noise
figure, so metal is joined across a doubtful face as with 0. Assumes that Python's float is IEEE binary64, rounded to
nearest."""
import os
import re
import struct
import sys

CEILING = 65535
MARK = 4096  # bit 12 of the word of a vertex whose cube has a corner at the ceiling
LONGEST_AXIS, LONGEST_PROGRAM_AXIS, SHORTEST_AXIS = 256, 8, 2

# Corner pairs of the edges, the lower corner first, and the edges of the faces.
EDGES = [(0, 1), (2, 3), (4, 5), (6, 7), (0, 2), (1, 3), (4, 6), (5, 7), (0, 4), (1, 5), (2, 6), (3, 7)]
FACES = [(4, 10, 6, 8), (5, 11, 7, 9), (0, 9, 2, 8), (1, 11, 3, 10), (0, 5, 1, 4), (2, 7, 3, 6)]

# For an edge along each axis: the four cubes that it lies in, from its lower sample, and its number in each.
AROUND = [
    [((0, -1, -1), 3), ((0, 0, -1), 2), ((0, 0, 0), 0), ((0, -1, 0), 1)],
    [((-1, 0, -1), 7), ((-1, 0, 0), 5), ((0, 0, 0), 4), ((0, 0, -1), 6)],
    [((-1, -1, 0), 11), ((0, -1, 0), 10), ((0, 0, 0), 8), ((-1, 0, 0), 9)],
]


class Refused(Exception):
    """A refusal: its number and its value."""

    def __init__(self, number, value):
        super().__init__(number, value)
        self.number = number
        self.value = min(value, 0xFFFFFFFF)


# ---- reading

MISSING_OR_SURPLUS, SHORT, LONG, WRONG_CHARACTER = 8, 10, 11, 12


class Lines:
    """The lines of an input, one after the other."""

    def __init__(self, data):
        self.data, self.at, self.number = data, 0, 0

    def numbers(self, count):
        """The numbers of the next line, which must be `count` of four digits each and end in LF. Else the first wrong byte decides: it follows the
        digits that the line begins with, as many as it may have."""
        self.number += 1
        text = re.compile(rb"[0-9A-F]{0,%d}" % (4 * count)).match(self.data, self.at).group()
        behind = self.at + len(text)
        following = self.data[behind:behind + 1]
        whole = len(text) == 4 * count
        if whole and following == b"\n":
            self.at = behind + 1
            return [int(text[i:i + 4], 16) for i in range(0, len(text), 4)]
        if not text and not following:
            raise Refused(MISSING_OR_SURPLUS, self.number)
        if following in (b"", b"\n"):
            kind = SHORT
        elif whole:
            kind = LONG
        else:
            kind = WRONG_CHARACTER
        raise Refused(kind, self.number << 16 | len(text) + 1)

    def end(self):
        """Nothing may be left: any byte more begins a line too many."""
        if self.at < len(self.data):
            raise Refused(MISSING_OR_SURPLUS, self.number + 1)


def lowest_axis(number, axes, is_bad):
    for axis, length in enumerate(axes):
        if is_bad(length):
            raise Refused(number, axis)


def read(data):
    """Axes, threshold and samples of an input, or the first refusal in the program's order."""
    lines = Lines(data)
    nx, ny, nz, t = lines.numbers(4)
    axes = (nx, ny, nz)
    lowest_axis(1, axes, lambda n: n < SHORTEST_AXIS or n > LONGEST_AXIS)
    lowest_axis(9, axes, lambda n: n > LONGEST_PROGRAM_AXIS)
    if t in (0, CEILING):
        raise Refused(3, t)
    samples = []
    for _ in range(ny * nz):
        samples += lines.numbers(nx)
    lines.end()
    return axes, t, samples


# ---- one cube

def crossed(corners, t, edge):
    lower, upper = EDGES[edge]
    return (corners[lower] >= t) != (corners[upper] >= t)


def face_links(corners, t, face):
    """The pairs of crossed edges that a face links."""
    edges = [e for e in face if crossed(corners, t, e)]
    if len(edges) < 4:
        return [tuple(edges)] if edges else []
    on_face = sorted({corner for e in face for corner in EDGES[e]})
    positive = [c for c in on_face if corners[c] >= t]
    negative = [c for c in on_face if corners[c] < t]
    a, c = (corners[corner] - t for corner in positive)
    b, d = (corners[corner] - t for corner in negative)
    joined = a * c >= b * d
    return [tuple(e for e in face if corner in EDGES[e]) for corner in (negative if joined else positive)]


def loops(corners, t):
    """The loops of a cube as sorted lists of edges, by their lowest edge."""
    linked = {e: [] for e in range(len(EDGES)) if crossed(corners, t, e)}
    for face in FACES:
        for one, other in face_links(corners, t, face):
            linked[one].append(other)
            linked[other].append(one)
    assert all(len(others) == 2 for others in linked.values())
    found, walked = [], set()
    for first in sorted(linked):
        if first in walked:
            continue
        before, here, loop = linked[first][1], first, []
        while here not in loop:
            loop.append(here)
            one, other = linked[here]
            before, here = here, (other if one == before else one)
        assert here == first and 3 <= len(loop) <= 12
        walked.update(loop)
        found.append(sorted(loop))
    return found


def fraction(p, q, t):
    return float(abs(t - p)) / float(abs(q - p))


def offset(corners, t, loop):
    """The place of a loop: three floats, each sum rounded once, then one division."""
    place = []
    for axis in range(3):
        total = 0.0
        for e in loop:
            lower, upper = EDGES[e]
            if (lower ^ upper) == 1 << axis:
                total += fraction(corners[lower], corners[upper], t)
            else:
                total += float(lower >> axis & 1)
        place.append(total / float(len(loop)))
    assert all(0.0 <= x <= 1.0 for x in place)
    return place


# ---- the mesh

def corners_of(axes, samples, i, j, k):
    nx, ny, _ = axes
    return [samples[(i + (c & 1)) + nx * ((j + (c >> 1 & 1)) + ny * (k + (c >> 2)))] for c in range(8)]


def vertices_of(axes, t, samples):
    """(cube, word, offset) of each vertex, in order. The word is the mask, with the mark where it is due."""
    nx, ny, nz = axes
    found = []
    for k in range(nz - 1):
        for j in range(ny - 1):
            for i in range(nx - 1):
                corners = corners_of(axes, samples, i, j, k)
                cube = i + (nx - 1) * (j + (ny - 1) * k)
                mark = MARK if CEILING in corners else 0
                for loop in loops(corners, t):
                    found.append((cube, mark + sum(1 << e for e in loop), offset(corners, t, loop)))
    return found


def inner_edges(axes):
    """(axis, lower sample) of each edge that lies in four cubes, in the order of the quads."""
    for axis in range(3):
        for k in range(axes[2]):
            for j in range(axes[1]):
                for i in range(axes[0]):
                    at = (i, j, k)
                    if at[axis] + 1 < axes[axis] and all(0 < at[b] < axes[b] - 1 for b in range(3) if b != axis):
                        yield axis, at


def quads_of(axes, t, samples, vertices):
    nx, ny, _ = axes
    in_cube = {}
    for number, (cube, word, _) in enumerate(vertices):
        in_cube.setdefault(cube, []).append((number, word))

    def sample(at):
        return samples[at[0] + nx * (at[1] + ny * at[2])]

    found = []
    for axis, lower in inner_edges(axes):
        upper = tuple(x + (b == axis) for b, x in enumerate(lower))
        if (sample(lower) >= t) == (sample(upper) >= t):
            continue
        quad = []
        for step, edge in AROUND[axis]:
            i, j, k = (x + s for x, s in zip(lower, step))
            cube = i + (nx - 1) * (j + (ny - 1) * k)
            holders = [number for number, word in in_cube[cube] if word >> edge & 1]
            assert len(holders) == 1
            quad += holders
        if sample(lower) < t:
            quad[1], quad[3] = quad[3], quad[1]
        found.append(quad)
    return found


def closed(quads):
    """Whether each side is walked as often one way as the other, over all quads, and has two different ends."""
    walks = {}
    for quad in quads:
        for side in range(4):
            way = (quad[side], quad[(side + 1) % 4])
            walks[way] = walks.get(way, 0) + 1
    return all(one != other and walks.get((other, one)) == count for (one, other), count in walks.items())


# ---- writing

def bits(x):
    return struct.unpack(">Q", struct.pack(">d", x))[0]


def answer(data):
    """The program's whole output for an input."""
    try:
        axes, t, samples = read(data)
    except Refused as refusal:
        return b"FF%02X%08X\n" % (refusal.number, refusal.value)
    vertices = vertices_of(axes, t, samples)
    quads = quads_of(axes, t, samples, vertices)
    text = [b"00%08X%08X%02X\n" % (len(vertices), len(quads), closed(quads))]
    for cube, word, place in vertices:
        text.append(b"01%08X%04X" % (cube, word) + b"".join(b"%016X" % bits(x) for x in place) + b"\n")
    for quad in quads:
        text.append(b"02" + b"".join(b"%08X" % vertex for vertex in quad) + b"\n")
    return b"".join(text)


# ---- the cases of run_samples

def checkerboard():
    """A block of 8 samples along each axis, 110 and 0 in turn, at t = 100: the largest output."""
    text = b"0008000800080064\n"
    for k in range(8):
        for j in range(8):
            text += b"".join(b"006E" if (i + j + k) % 2 == 0 else b"0000" for i in range(8)) + b"\n"
    return text


ESCAPES = {"n": b"\n", "r": b"\r", "t": b"\t", "0": b"\0", "\\": b"\\", '"': b'"', "'": b"'"}


def literal(text):
    """The bytes of a byte string literal, from what stands between its quotes. A backslash at a line's end joins it to the next one."""
    out = b""
    for m in re.finditer(r"\\\n\s*|\\x([0-9A-Fa-f]{2})|\\(.)|([^\\])", text, re.S):
        if m.group(1):
            out += bytes([int(m.group(1), 16)])
        elif m.group(2):
            out += ESCAPES[m.group(2)]
        elif m.group(3):
            out += m.group(3).encode("ascii")
    return out


def samples_text(source):
    """What run_samples must write: its source lists the cases in the order in which they are run."""
    out = []
    for m in re.finditer(r'\b(try_case|try_board)\(\s*rt,\s*b"((?:[^"\\]|\\.)*)"\s*(?:,\s*(\d+)\s*)?,?\s*\)', source, re.S):
        name, end, text = literal(m.group(2)).partition(b"\n")
        out.append(name + end)
        if m.group(1) == "try_case":
            out.append(answer(text))
        else:
            whole = answer((checkerboard() + b"0")[:int(m.group(3))])
            out.append(b"%08x\n" % len(whole) + whole[:whole.index(b"\n") + 1])
    return b"".join(out)


def main():
    if sys.argv[1:] == ["samples"]:
        here = os.path.dirname(os.path.abspath(__file__))
        with open(os.path.join(here, "..", "crates", "run_samples", "src", "main.rt"), encoding="utf-8") as f:
            sys.stdout.buffer.write(samples_text(f.read()))
    elif len(sys.argv) == 1:
        sys.stdout.buffer.write(answer(sys.stdin.buffer.read()))
    else:
        sys.exit("usage: tests/oracle.py [samples]")
    return 0


if __name__ == "__main__":
    sys.exit(main())
