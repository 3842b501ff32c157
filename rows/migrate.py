"""Rows of `migrate`: what it writes for topologies of both versions, and how it refuses a text."""

from typing import Union

from rows import Made, Row
from rows.texts import FABRIC, TRIANGLE, domain, loose

# Pieces of topologies, most of the triangle.
NUMBERS = "ppm = 200\ngrain = 1000\nperiod = 100000000\ntick = 90000000\nloss = 1\ndepth = 2\n"
OTHER_NUMBERS = NUMBERS.replace("ppm = 200\n", "")
TOP, TOP_TWO = "version = 1\n" + NUMBERS, "version = 2\n" + NUMBERS
ROOTS = 'roots = ["r", "b"]\n'
R, B, X = (f'[[device]]\nname = "{name}"\n' for name in "rbx")
RB, RX, BX = (
    f'[[link]]\nname = "{a}{b}"\nends = ["{a}", "{b}"]\nmin = 400000\nmax = 1000000\n' for a, b in ("rb", "rx", "bx")
)
DEVICES, LINKS = ROOTS + R + B + X, RB + RX + BX


def row(name: str, topology: Union[str, bytes, Made], output: str, status: int = 0) -> Row:
    return Row(name, "migrate topology", {"topology": topology}, output, status)


# The triangle as it is written: keys in byte order, and each value that version 1 leaves out.
MIGRATED = """\
depth = 2
domain = []
grain = 1000
loss = 1
period = 100000000
ppm = 200
roots = ["r", "b"]
tick = 90000000
version = 2

[[device]]
grain = 1000
name = "r"
ppm = 200
side = "root"

[[device]]
grain = 1000
name = "b"
ppm = 200
side = "root"

[[device]]
grain = 1000
name = "x"
ppm = 200
side = "root"

[[link]]
back_max = 1000000
back_min = 400000
ends = ["r", "b"]
max = 1000000
min = 400000
name = "rb"

[[link]]
back_max = 1000000
back_min = 400000
ends = ["r", "x"]
max = 1000000
min = 400000
name = "rx"

[[link]]
back_max = 1000000
back_min = 400000
ends = ["b", "x"]
max = 1000000
min = 400000
name = "bx"
"""

# The same with own rates at x and an own way back over bx.
OWN = """\
depth = 2
domain = []
grain = 1000
loss = 1
period = 100000000
ppm = 200
roots = ["r", "b"]
tick = 90000000
version = 2

[[device]]
grain = 1000
name = "r"
ppm = 200
side = "root"

[[device]]
grain = 1000
name = "b"
ppm = 200
side = "root"

[[device]]
grain = 1500
name = "x"
ppm = 100
side = "root"

[[link]]
back_max = 1000000
back_min = 400000
ends = ["r", "b"]
max = 1000000
min = 400000
name = "rb"

[[link]]
back_max = 1000000
back_min = 400000
ends = ["r", "x"]
max = 1000000
min = 400000
name = "rx"

[[link]]
back_max = 600000
back_min = 400000
ends = ["b", "x"]
max = 1000000
min = 400000
name = "bx"
"""

# A triangle without a link, with another side and a domain.
TRAY = (
    TOP_TWO + DEVICES + 'ppm = 100\ngrain = 1500\nside = "backup"\n' + RB + BX
    + "back_min = 300000\nback_max = 600000\n" + domain("tray", "x b", "bx")
)
PRINTED = """\
depth = 2
grain = 1000
loss = 1
period = 100000000
ppm = 200
roots = ["r", "b"]
tick = 90000000
version = 2

[[device]]
grain = 1000
name = "r"
ppm = 200
side = "root"

[[device]]
grain = 1000
name = "b"
ppm = 200
side = "root"

[[device]]
grain = 1500
name = "x"
ppm = 100
side = "backup"

[[domain]]
devices = ["b", "x"]
links = ["bx"]
name = "tray"

[[link]]
back_max = 1000000
back_min = 400000
ends = ["r", "b"]
max = 1000000
min = 400000
name = "rb"

[[link]]
back_max = 600000
back_min = 300000
ends = ["b", "x"]
max = 1000000
min = 400000
name = "bx"
"""

RATES, WAY_BACK = "ppm = 100\ngrain = 1500\n", "back_min = 400000\nback_max = 600000\n"
WRITTEN = [
    row("the triangle", TRIANGLE, MIGRATED),
    row("the triangle as it is written", MIGRATED, MIGRATED),
    row("the triangle as it was written", Made("migrate triangle", {"triangle": TRIANGLE}), MIGRATED),
    row("own rates and an own way back", TOP_TWO + DEVICES + RATES + LINKS + WAY_BACK, OWN),
    # in version 1 these keys are unknown
    row("own rates and an own way back in version 1", TOP + DEVICES + RATES + LINKS + WAY_BACK, MIGRATED),
    row("a backup side and a domain", TRAY, PRINTED),
]

# Topologies that are refused, and the first fault in the order of keys.
REFUSED = (
    ("version = ", "NotToml"),
    ("", "Missing version 0"),
    ("version = 0\n", "Range version 0"),
    ("version = 3\n", "Range version 0"),
    ("version = 1.0\n", "WrongKind version 0"),
    ("version = 1\nversion = 1\n", "NotToml"),
    ("version = 1\nppm = 100001\n", "Range ppm 0"),
    ("version = 1\nppm = -1\n", "Range ppm 0"),
    ("version = 1\nppm = 99999999999999999999\n", "NotToml"),
    ("version = 1\nppm = 1\ngrain = 1979-05-27\n", "WrongKind grain 0"),
    ("version = 1\nppm = 1\ngrain = 1000000000001\n", "Range grain 0"),
    (TOP, "Missing device 0"),
    (TOP + "device = 1\n", "WrongKind device 0"),
    (TOP + '[device]\nname = "r"\n', "WrongKind device 0"),
    (TOP + "device = []\n", "Range device 0"),
    (TOP + "device = [1]\n", "WrongKind device 1"),
    (TOP + R, "Missing roots 0"),
    (TOP + ROOTS + R + "[[device]]\n", "Missing device.name 2"),
    (TOP + ROOTS + '[[device]]\nname = ""\n', "Range device.name 1"),
    (TOP + ROOTS + '[[device]]\nname = "é"\n', "Range device.name 1"),
    (TOP + ROOTS + R + B + R, "TwiceNamed device.name 3"),
    (TOP + ROOTS + R + 'side = "left"\n', "Range device.side 1"),
    (TOP + ROOTS + R + "side = 1\n", "WrongKind device.side 1"),
    (TOP_TWO + ROOTS + R + "ppm = 100001\n", "Range device.ppm 1"),
    (TOP + ROOTS + R + B + RB + '[[link]]\nname = "rb"\n', "TwiceNamed link.name 2"),
    (TOP + ROOTS + R + B + '[[link]]\nname = "l"\nends = ["r"]\n', "Range link.ends 1"),
    (TOP + ROOTS + R + B + '[[link]]\nname = "l"\nends = ["r", 1]\n', "WrongKind link.ends 1"),
    (TOP + ROOTS + R + B + '[[link]]\nname = "l"\nends = ["r", "y"]\n', "UnknownName link.ends 1"),
    (TOP + ROOTS + R + B + RB + '[[link]]\nname = "l"\nends = ["r", "r"]\n', "SelfLink link.ends 2"),
    (TOP + ROOTS + R + B + '[[link]]\nname = "l"\nends = ["r", "b"]\nmin = 5\nmax = 4\n', "Range link.max 1"),
    (TOP_TWO + ROOTS + R + B + RB + "back_min = 1\n", "Missing link.back_max 1"),
    (TOP_TWO + ROOTS + R + B + RB + "back_min = 2\nback_max = 1\n", "Range link.back_max 1"),
    (TOP + ROOTS + R + B + '[[domain]]\nname = "d"\ndevices = ["b", "b"]\n', "TwiceNamed domain.devices 1"),
    (TOP + ROOTS + R + B + '[[domain]]\nname = "d"\nlinks = ["b"]\n', "UnknownName domain.links 1"),
    (TOP + 'roots = ["r", "x"]\n' + R + B, "UnknownName roots 0"),
    ("version = " + "[" * 200, "NotToml"),
    (TOP + ROOTS + '[[device]]\nname = "' + "n" * 65 + '"\n', "Range device.name 1"),
    (b"\xff", "NotToml"),
    (loose(90000000, 2, 4097), "Limit device"),
    (FABRIC + domain("core", "s1 s1", ""), "TwiceNamed domain.devices 1"),
    ("version = 1\nppm = 100001\n" + OTHER_NUMBERS + DEVICES + LINKS, "Range ppm 0"),
    (TOP + ROOTS + R + B + '[[device]]\nname = "r"\n', "TwiceNamed device.name 3"),
    (TOP + DEVICES + RB + '[[link]]\nname = "rx"\nends = ["r", "r"]\n', "SelfLink link.ends 2"),
    (TOP + DEVICES + LINKS + "[[link]]\nname = ", "NotToml"),
    ("grain = -1\nversion = 3\n", "Range version 0"),
    (TOP + "roots = []\ndevice = []\n", "Range device 0"),
    ("version = 1.0\n" + NUMBERS + DEVICES, "WrongKind version 0"),
    ("version = 1979-05-27\n" + NUMBERS + DEVICES, "WrongKind version 0"),
    ("version = 9223372036854775808\n" + NUMBERS + DEVICES, "NotToml"),
    (TOP + ROOTS + R + B + '[[device]]\nname = "é"\n', "Range device.name 3"),
    (TOP + DEVICES + RB + '[[link]]\nname = "yx"\nends = ["y", "x"]\n', "UnknownName link.ends 2"),
    ('version = 1\nroots = ["r", "y"]\n' + NUMBERS + '[[device]]\nname = "r"\n', "UnknownName roots 0"),
    (TOP_TWO + DEVICES + LINKS + "back_min = 400000\n", "Missing link.back_max 3"),
    (TOP_TWO + DEVICES + LINKS + "back_max = 400000\n", "Missing link.back_min 3"),
    (TOP_TWO + DEVICES + LINKS + "back_min = 2\nback_max = 1\n", "Range link.back_max 3"),
    (TOP_TWO + DEVICES + "ppm = 100001\n" + LINKS, "Range device.ppm 3"),
)

ROWS = [
    *WRITTEN,
    *[row(f"refused: {fault} ({place})", text, f"input topology {fault}\n", 3) for place, (text, fault) in enumerate(REFUSED, 1)],
]
