"""Rows of `check`: verdicts on plans, and texts that are refused."""

from typing import Union

from rows import Made, Row
from rows.counted import WORKED, Setup, plan_of, setup_of, topology_of
from rows.texts import (
    ALONE, DRIFTLESS, DRIFTLESS_PLAN, FABRIC, FABRIC_PLAN, FIRST, LONE, SHORT, SHORT_WAIT, SQUARE, SQUARE_PLAN, TRIANGLE,
    TRIANGLE_2, domain,
)


def row(name: str, network: Union[str, bytes], planned: Union[str, bytes], output: str, status: int = 0) -> Row:
    return Row(name, "check topology plan", {"topology": network, "plan": planned}, output, status)


def refused(name: str, network: str, planned: str, breach: str) -> Row:
    return row(name, network, planned, f"refused plan 1 {breach}\n", 1)


def wrong_topology(name: str, network: Union[str, bytes], fault: str, planned: str = FIRST) -> Row:
    return row(name, network, planned, f"input topology {fault}\n", 3)


def wrong_plan(name: str, planned: Union[str, bytes], fault: str) -> Row:
    return row(name, TRIANGLE, planned, f"input plan 1 {fault}\n", 3)


def judged(name: str, setup: Setup, line: str) -> Row:
    """The verdict on a network and a plan that are values."""
    is_accepted = line.startswith("accepted")
    return row(name, topology_of(setup), plan_of(setup), f"{line}\n" if is_accepted else f"refused plan 1 {line}\n", 0 if is_accepted else 1)


def changed(old: str, new: str, text: str = FIRST) -> str:
    """The text in which a part is another, where it stands first. It has to be there."""
    assert old in text, old
    return text.replace(old, new, 1)


ACCEPTED = "accepted 3 3 6\n"  # of the triangle
X_HOPS = '"backup":"b","backup_link":"bx","device":"x","link":"rx","parent":"r"'
X_OTHER_HOPS = '"backup":"r","backup_link":"rx","device":"x","link":"bx","parent":"b"'
B_ROW = '{"backup":"x","backup_link":"bx","device":"b","link":"rb","parent":"r"}'

VERDICTS = [
    row("a fabric", FABRIC, FABRIC_PLAN, "accepted 5 6 11\n"),
    Row("the plan that `plan` prints", "check topology plan",
        {"topology": FABRIC, "plan": Made("plan topology", {"topology": FABRIC})}, "accepted 5 6 11\n"),
    row("a square", SQUARE, SQUARE_PLAN, "accepted 4 5 9\n"),
    row("a triangle", TRIANGLE, FIRST, ACCEPTED),
    row("a long first wait with a wait to match", DRIFTLESS, changed("32824", "46412", DRIFTLESS_PLAN),
        "accepted 5 6 12\n"),
    row("a short wait", FABRIC, SHORT_WAIT, SHORT, 1),
    refused("a long first wait", DRIFTLESS, DRIFTLESS_PLAN, "timing 5 32824 46412"),
    refused("a long first wait, one short", DRIFTLESS, changed("32824", "46411", DRIFTLESS_PLAN), "timing 5 46411 46412"),
    refused("a fast device in version 2", changed('"x"\n[[link]]', '"x"\nppm = 1000\n[[link]]', TRIANGLE_2), FIRST,
            "timing 2 1343654000 1344606000"),
    refused("a core that fails with a link", FABRIC + domain("core", "s1", "a2"), FABRIC_PLAN, "root listed core at link a2"),
    refused("a conduit", SQUARE + domain("conduit", "", "rx by"), SQUARE_PLAN, "loop listed conduit cycle x y"),
    refused("a tray", SQUARE + domain("tray", "", "rx xy"), SQUARE_PLAN, "domain listed tray device x"),
    refused("a leaf without backup", FABRIC, changed('"backup":"s2","backup_link":"b3",', "", FABRIC_PLAN),
            "reach device s1 chain l3"),
    row("no backup of the backup root", TRIANGLE, ALONE, LONE, 1),
    refused("an ancestor as backup", TRIANGLE, changed(X_HOPS, X_OTHER_HOPS), "ancestor device b"),
]

TEXTS = [
    Row("a refused topology, where no plan is there", "check topology elsewhere", {"topology": ""},
        "input topology Missing version 0\n", 3),
    wrong_topology("a byte that is no text", b"\xff", "NotToml", "[]"),
    wrong_topology("too many parts per million", changed("ppm = 200", "ppm = 100001", TRIANGLE), "Range ppm 0"),
    wrong_topology("a device named twice", changed('name = "x"', 'name = "r"', TRIANGLE), "TwiceNamed device.name 3"),
    wrong_topology("a link to itself", changed('["r", "x"]', '["r", "r"]', TRIANGLE), "SelfLink link.ends 2"),
    wrong_topology("half a way back", changed('["b", "x"]\n', '["b", "x"]\nback_min = 400000\n', TRIANGLE_2),
                   "Missing link.back_max 3"),
    wrong_topology("a device twice in a domain", FABRIC + domain("core", "s1 s1", ""), "TwiceNamed domain.devices 1", FABRIC_PLAN),
    wrong_plan("an array", "[]", "WrongKind plan 0"),
    wrong_plan("arrays in one another", "[" * 200 + "]" * 200, "NotJson"),
    wrong_plan("the first 40 bytes", FIRST[:40], "NotJson"),
    wrong_plan("a byte that is no text", b"\xff", "NotJson"),
    wrong_plan("an empty object", "{}", "Missing version 0"),
    wrong_plan("the row of b once more", changed("}],", "}," + B_ROW + "],"), "TwiceNamed rows.device 3"),
    wrong_plan("version 2", changed('"version":1', '"version":2'), "Version 2"),
    wrong_plan("a negative wait", changed("6730000000", "-1"), "WrongKind wait 0"),
    wrong_plan("a wait past the limit", changed("6730000000", "1152921504606846977"), "Range wait 0"),
    wrong_plan("a backup without its link", changed('"backup":"b","backup_link":"bx"', '"backup":"b"'), "Missing rows.backup_link 2"),
]

# A plan of the triangle in another order of keys; what is replaced in it, by what, and the reason.
PLAN = (
    '{"version":1,"root":"r","backup_root":"b","wait_first":1345000000,"wait_second":1345000001,"wait":6730000000,'
    '"absent_devices":[],"absent_links":[],"rows":['
    '{"device":"b","parent":"r","link":"rb","backup":"x","backup_link":"bx"},'
    '{"device":"x","parent":"r","link":"rx","backup":"b","backup_link":"bx"}]}'
)
FAULTS = (
    ('"version":1', '"version":2', "Version 2"),
    ('"version":1', '"version":0', "Version 0"),
    ('"version":1', '"version":null', "Missing version 0"),
    ('"version":1,', '', "Missing version 0"),
    ('"version":1', '"version":"1"', "WrongKind version 0"),
    ('"version":1', '"version":1.0', "WrongKind version 0"),
    ('"root":"r"', '"root":"y"', "UnknownName root 0"),
    ('"root":"r"', '"root":"rb"', "UnknownName root 0"),
    ('"root":"r"', '"root":0', "WrongKind root 0"),
    ('"backup_root":"b"', '"backup_root":null', "Missing backup_root 0"),
    ('"wait_first":1345000000', '"wait_first":1e3', "WrongKind wait_first 0"),
    ('"wait_second":1345000001', '"wait_second":true', "WrongKind wait_second 0"),
    ('"wait":6730000000', '"wait":-1', "WrongKind wait 0"),
    ('"wait":6730000000', '"wait":0.5', "WrongKind wait 0"),
    ('"wait":6730000000', '"wait":18446744073709551616', "WrongKind wait 0"),
    ('"wait":6730000000', '"wait":1152921504606846977', "Range wait 0"),
    ('"absent_devices":[]', '"absent_devices":{}', "WrongKind absent_devices 0"),
    ('"absent_devices":[]', '"absent_devices":["x","y"]', "UnknownName absent_devices 0"),
    ('"absent_devices":[]', '"absent_devices":["x",null]', "WrongKind absent_devices 0"),
    ('"absent_devices":[]', '"absent_devices":["x","b","x"]', "TwiceNamed absent_devices 0"),
    ('"absent_links":[]', '"absent_links":["x"]', "UnknownName absent_links 0"),
    ('"rows":[', '"rows":[5,', "WrongKind rows 1"),
    ('}]}', '},null]}', "WrongKind rows 3"),
    ('"rows":[', '"row":[', "Missing rows 0"),
    ('"rows":[', '"rows":{},"others":[', "WrongKind rows 0"),
    ('"device":"x"', '"d":1', "Missing rows.device 2"),
    ('"device":"x"', '"device":"b"', "TwiceNamed rows.device 2"),
    ('}]}', '},{"device":"b","parent":"r","link":"rb","backup":"x","backup_link":"bx"}]}', "TwiceNamed rows.device 3"),
    ('"parent":"r","link":"rx"', '"parent":"y","link":"rx"', "UnknownName rows.parent 2"),
    ('"link":"rx"', '"link":"r"', "UnknownName rows.link 2"),
    ('"backup":"b","backup_link":"bx"', '"backup":"b"', "Missing rows.backup_link 2"),
    ('"backup":"b","backup_link":"bx"', '"backup":null,"backup_link":"bx"', "Missing rows.backup 2"),
    ('"backup":"b",', '', "Missing rows.backup 2"),
    ('"backup":"b","backup_link":"bx"', '"backup":"b","backup_link":1', "WrongKind rows.backup_link 2"),
    ('"version":1', '"version":1,"version":3', "Version 3"),
    ('"rows":[', '"rows":[[', "NotJson"),
)
# Texts that are read: of a key that is there twice the last counts, and other keys do not.
READ = (
    ('"wait":6730000000', '"wait":1152921504606846976', ACCEPTED),
    ('"wait":6730000000', '"wait":0', "refused plan 1 timing 4 0 6722918002\n"),
    ('"backup":"b","backup_link":"bx"', '"backup":null', "refused plan 1 reach device r chain x\n"),
    ('"version":1', '"version":3,"version":1,"remark":null', ACCEPTED),
)

ROWS = [
    *VERDICTS,
    *TEXTS,
    *[wrong_plan(f"{new} in place of {old}", changed(old, new, PLAN), fault) for old, new, fault in FAULTS],
    *[row(f"{new} in place of {old}", TRIANGLE, changed(old, new, PLAN), output, 0 if output == ACCEPTED else 1)
      for old, new, output in READ],
    *[judged(name, setup_of(shape, *changes), line) for name, shape, changes, line in WORKED],
]
