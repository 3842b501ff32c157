"""Rows of `sundialctl why`: the first reason why no plan of a topology is accepted, or that none is known."""

from rows import Row
from rows.texts import FABRIC, FIRST, LINE, SQUARE, TRIANGLE, TRIANGLE_2, domain, topology

# Eight devices in a row, of which the first two are candidates: six links from the second to the last.
ROW = topology(10000000, 3, "a b c d e f g h", "ab:a:b bc:b:c cd:c:d de:d:e ef:e:f fg:f:g gh:g:h")
# The same row, with the candidates in its middle: four links lead to the farther end.
MIDDLE = ROW.replace('roots = ["a", "b"]', 'roots = ["d", "e"]')


def row(name: str, network: str, output: str, status: int = 1) -> Row:
    return Row(name, "why topology", {"topology": network}, f"{output}\n", status, "sundialctl")


def roots(network: str, old: str, new: str) -> str:
    """The network with other candidates."""
    return network.replace(f"roots = {old}", f"roots = {new}")


def depth(network: str, least: int) -> str:
    """The network with another depth, of 3."""
    return network.replace("depth = 3", f"depth = {least}")


def period(length: int) -> str:
    """The triangle with another period. Its way there and back takes 2 * 3 * 1000000, and with the
    tick 96000000; a period of x takes 0.9998 x at least, less 1000, rounded down."""
    return TRIANGLE.replace("period = 100000000", f"period = {length}")


def ring(devices: str, chords: str = "", bridges: str = "") -> str:
    """A ring of devices, with links across it, and a device p behind a bridge."""
    names = devices.split()
    round_it = " ".join(f"{one}{other}:{one}:{other}" for one, other in zip(names, [*names[1:], names[0]]))
    return topology(10000000, 3, devices + (" p" if bridges else ""), f"{round_it} {chords} {bridges}")


ROWS = [
    row("a triangle", TRIANGLE, "open", 0),
    row("a triangle of version 2", TRIANGLE_2, "open", 0),
    row("a fabric", FABRIC, "open", 0),
    row("one device", topology(10000000, 3, "one", ""), "impossible candidates 1"),
    row("one candidate of three", roots(TRIANGLE, '["r", "b"]', '["b"]'), "impossible candidates 1"),
    row("three candidates", roots(TRIANGLE, '["r", "b"]', '["r", "b", "x"]'), "open", 0),
    row("a period that is just long enough", period(96020206), "open", 0),
    row("a period of one picosecond less", period(96020205), "impossible timing"),
    row("a period that is too short, of one candidate", roots(period(1), '["r", "b"]', '["r"]'), "impossible candidates 1"),
    row("both candidates on a feed", TRIANGLE + domain("feed", "r b", ""), "impossible shared feed"),
    row("a feed of one candidate", TRIANGLE + domain("feed", "b x", "rb rx bx"), "open", 0),
    row("the second and third feed have both", TRIANGLE + domain("one", "r x", "") + domain("two", "r b", "") + domain("three", "r b x", ""),
        "impossible shared two"),
    row("a feed of two of three candidates",
        roots(TRIANGLE, '["r", "b"]', '["r", "b", "x"]') + domain("feed", "r b", ""), "open", 0),
    row("a device without a link", topology(10000000, 3, "r b x y", "rb:r:b rx:r:x bx:b:x"), "impossible apart y"),
    row("the second device lies apart", topology(10000000, 3, "r b x y", "rx:r:x by:b:y"), "impossible apart b"),
    row("apart, and on a feed", topology(10000000, 3, "r b x", "rb:r:b") + domain("feed", "r b", ""), "impossible shared feed"),
    row("the last of a row", ROW, "impossible deep a h 7 3"),
    row("both ends of a row", MIDDLE, "impossible deep d h 4 3"),
    row("a square two deep", depth(SQUARE, 2), "open", 0),
    # one candidate reaches all within the depth
    row("a square one deep", depth(SQUARE, 1), "open", 0),
    row("a candidate in the middle", roots(depth(LINE, 1), '["a", "b"]', '["a", "b"]'), "open", 0),
    row("the candidates at the ends", roots(depth(LINE, 1), '["a", "b"]', '["a", "c"]'), "impossible deep a c 2 1"),
    # links, bridges, devices, and the links besides bridges that a plan needs
    row("a ring of four", ring("r b x y"), "open", 0),
    row("a ring of five", ring("r b x y z"), "impossible few 5 0 5 6"),
    row("a ring of five with a chord", ring("r b x y z", "rx:r:x"), "open", 0),
    row("a ring of five with two links between two", ring("r b x y z", "rb2:r:b"), "open", 0),
    row("a ring of five, and one behind a bridge", ring("r b x y z", "", "zp:z:p"), "impossible few 6 1 6 6"),
    row("a ring of five with a chord, and one behind a bridge", ring("r b x y z", "rx:r:x", "zp:z:p"), "open", 0),
    row("two rings of three at a bridge", topology(10000000, 3, "r b x y u v", "rb:r:b bx:b:x xr:x:r xy:x:y yu:y:u uv:u:v vy:v:y"), "open", 0),
    row("a ring of six with a chord", ring("r b x y z u", "ry:r:y"), "open", 0),
    row("a ring of seven with a chord", ring("r b x y z u v", "ry:r:y"), "impossible few 8 0 7 9"),
    row("a ring of seven with two chords", ring("r b x y z u v", "ry:r:y bz:b:z"), "open", 0),
    row("too few links, and a depth that is too small", depth(ring("r b x y z u v"), 2), "impossible deep r y 3 2"),
    Row("a plan as topology", "why topology", {"topology": FIRST}, "input topology NotToml\n", 3, "sundialctl"),
    Row("an empty topology", "why topology", {"topology": ""}, "input topology Missing version 0\n", 3, "sundialctl"),
]
