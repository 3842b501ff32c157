"""Rows of `sundialctl search` and `renew`. Whether a plan that is found is right is asked of `sundial check`."""

from typing import Dict, Union

from rows import Ends, Made, Row
from rows.texts import FABRIC, FABRIC_GREEDY, FABRIC_PLAN, FABRIC_RENEWED, FIRST, LINE, TRIANGLE, domain, topology, without
from rows.why import ROW

# A mesh of which some pairs of links may fail together. The greedy plan is refused under each pair of roots.
MESH = topology(
    10000000, 5, "d0 d1 d2 d3 d4 d5 d6 d7 d8 d9 d10 d11",
    "k0:d0:d1:200000:600000 k1:d0:d8:300000:500000 k2:d1:d3:100000:1700000 k3:d1:d6:100000:500000 "
    "k4:d1:d8:100000:1700000 k5:d1:d11:100000:1700000 k6:d2:d5:100000:1700000 k7:d2:d10:200000:400000 "
    "k8:d3:d4:300000:1900000 k9:d3:d8:300000:1900000 k10:d3:d9:200000:1800000 k11:d4:d6:300000:700000 "
    "k12:d4:d7:100000:500000 k13:d4:d10:100000:300000 k14:d5:d11:200000:1800000 k15:d6:d7:200000:400000 "
    "k16:d6:d9:300000:1100000 k17:d7:d10:100000:1700000 k18:d8:d9:200000:1800000 k19:d9:d11:200000:1000000",
    roots=12,
) + domain("f0", "", "k5 k14") + domain("f1", "", "k9 k14") + domain("f2", "", "k1 k9") + domain("f3", "", "k2 k6")
REFUSED = Ends("refused plan 1 ", "\n")
# The candidates of this triangle are on one feed, and of the other one there is one candidate.
FED = TRIANGLE + domain("feed", "r b", "")
LONE = TRIANGLE.replace('roots = ["r", "b"]', 'roots = ["r"]')
IMPOSSIBLE = (
    ("both candidates on a feed", FED, "impossible shared feed"),
    ("a device without a link", topology(10000000, 3, "r b x y", "rb:r:b rx:r:x bx:b:x"), "impossible apart y"),
    ("the last of a row", ROW, "impossible deep a h 7 3"),
    ("a short period", TRIANGLE.replace("period = 100000000", "period = 96020205"), "impossible timing"),
)


def words(steps: int) -> str:
    """A search with an everyday budget, by this many moves."""
    return f"search topology 1000000 3000000000 1 {steps}"


def renewed(steps: int) -> str:
    """The same of a renewal."""
    return f"renew topology plan absent 1000000 3000000000 1 {steps}"


MESH_PLAN = Made(words(4000), {"topology": MESH}, "sundialctl")
# What is left when a device is lost, so that the greedy plan is refused once more.
LOST: Dict[str, Union[str, Made]] = {"topology": MESH, "plan": MESH_PLAN, "absent": without("d5")}


ROWS = [
    Row("the greedy plan without a move", words(0), {"topology": FABRIC}, FABRIC_GREEDY, program="sundialctl"),
    Row("the greatest numbers", "search topology 1152921504606846976 1152921504606846976 18446744073709551615 0",
        {"topology": FABRIC}, FABRIC_GREEDY, program="sundialctl"),
    Row("one device", words(0), {"topology": topology(10000000, 3, "one", "")}, "impossible candidates 1\n", 1, "sundialctl"),
    Row("an empty topology", words(0), {"topology": ""}, "input topology Missing version 0\n", 3, "sundialctl"),
    Row("a number as absent list", "renew topology plan absent 0 0 1 0", {"topology": TRIANGLE, "plan": FIRST, "absent": "0"},
        "input absent WrongKind absent 0\n", 3, "sundialctl"),
    Row("a renewal", "renew topology plan absent 1000000 3000000000 1 0",
        {"topology": FABRIC, "plan": FABRIC_PLAN, "absent": without("l3")}, FABRIC_RENEWED, program="sundialctl"),
    Row("greed fails in a mesh", words(0), {"topology": MESH}, REFUSED, 1, "sundialctl"),
    Row("the plan that is found in a mesh", "check topology plan",
        {"topology": MESH, "plan": MESH_PLAN}, "accepted 12 20 36\n"),
    Row("greed fails in a renewal", renewed(0), {**LOST}, "refused plan 1 structure 6 device d0\n", 1, "sundialctl"),
    Row("the plan that is found in a renewal", "check topology plan",
        {"topology": MESH, "plan": Made(renewed(2000), LOST, "sundialctl")}, "accepted 12 20 36\n"),
    *[Row(f"no plan of three devices in a row, in {steps} steps", words(steps), {"topology": LINE}, REFUSED, 1, "sundialctl")
      for steps in (0, 300)],
    # After the breach of the best plan comes the reason why there is none, where nothing is absent.
    *[Row(f"{name}, in {steps} steps", words(steps), {"topology": network}, Ends("refused plan 1 ", f"\n{reason}\n"), 1, "sundialctl")
      for steps in (0, 20) for name, network, reason in IMPOSSIBLE],
    Row("a candidate alone", words(20), {"topology": LONE}, "impossible candidates 1\n", 1, "sundialctl"),
    Row("a renewal over a feed that has all candidates", renewed(20), {"topology": FED, "plan": FIRST, "absent": without()},
        Ends("refused plan 1 ", "\nimpossible shared feed\n"), 1, "sundialctl"),
    Row("a renewal without a link", renewed(0), {"topology": FED, "plan": FIRST, "absent": without("", "bx")},
        "refused plan 1 structure 6 device b\n", 1, "sundialctl"),
    Row("a renewal of a candidate alone", renewed(0), {"topology": LONE, "plan": FIRST, "absent": without()},
        "impossible candidates 1\n", 1, "sundialctl"),
]
