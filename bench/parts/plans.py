"""`migrate`, `check`, `plan` and `drill` beside their own reading, and beside plain Rust."""
from typing import List, Optional

from . import networks
from .bench import Bench
from .measuring import BenchFault, Command, last_line
from .tables import Row, count

BASE, HOLD = "800000", "3000000000"


def topology_rows(bench: Bench) -> List[Row]:
    """The reading of a topology beside its parsing, and its writing beside its reading."""
    texts = {
        name: bench.file(name, networks.at_the_limits(version, root, bench.scale))
        for name, version, root in (("toml", 3, "d1"), ("read", 1, "nowhere"), ("migrate", 1, "d1"))
    }
    parsed = bench.ours("migrate", texts["toml"], status=3, first="input topology Range version 0")
    read = bench.ours("migrate", texts["read"], status=3, first="input topology UnknownName roots 0")
    whole = bench.ours("migrate", texts["migrate"])
    devices = max(64, int(4096 * bench.scale))
    size = f"{count(devices)} devices, {count(8 * devices)} links, {count(64 * devices)} listed things"
    return [
        Row("reading of a topology", size, "its parsing by `toml` alone", 0.0, bench.runner.compare(read, parsed, False),
            memory=bench.runner.peak_memory(read.words)),
        Row("`migrate`", size, "reading of the topology", 0.0, bench.runner.compare(whole, read, False),
            memory=bench.runner.peak_memory(whole.words)),
    ]


def beside_plain(bench: Bench, work: str, size: str, ours: Command, name: str, *words: str) -> Optional[Row]:
    plain = bench.plain(name)
    if not plain:
        return None
    compared = bench.runner.compare(ours, Command((str(plain),) + words), True)
    return Row(work, size, "plain Rust", 0.0, compared, memory=bench.runner.peak_memory(ours.words))


def check_rows(bench: Bench) -> List[Row]:
    """An accepted plan, and one of a network that each listed domain cuts off."""
    sizes = networks.scaled(4096, bench.scale)
    topology = bench.file("topology", networks.spines_and_leaves(sizes))
    plan = bench.file("plan", [networks.plan_of_leaves(sizes)])
    nowhere = networks.row("nowhere", "s0", "k0_0", "s1", "k0_1")
    refused = bench.file("refused", [networks.plan_of_leaves(sizes, (nowhere,))])
    severed = bench.file("severed_topology", networks.severed(sizes)), bench.file(
        "severed_plan", [networks.plan_of_severed(sizes)]
    )
    unknown = bench.file("unknown", networks.spines_and_leaves(sizes, version=3))
    accepted = f"accepted {sizes.devices} {sizes.links} {sizes.all_domains}"
    parsing = bench.ours("check", unknown, plan, status=3, first="input topology Range version 0")
    reading = bench.ours("check", topology, refused, status=3, first=f"input plan 1 UnknownName rows.device {sizes.devices}")
    check = bench.ours("check", topology, plan, first=accepted)
    hostile = bench.ours("check", *severed, first=accepted)
    memory = bench.runner.peak_memory(check.words)
    found = [
        *[Row("`check`", str(sizes), name, 0.0, bench.runner.compare(check, other, False), memory=memory)
          for name, other in (("reading of its two texts", reading), ("the parsing of its topology by `toml` alone", parsing))],
        beside_plain(bench, "`check`", str(sizes), check, "check", topology, plan),
        beside_plain(bench, "`check`, each listed domain cuts off most devices", str(sizes), hostile, "check", *severed),
    ]
    return [row for row in found if row]


def plan_rows(bench: Bench) -> List[Row]:
    """The planning of a network beside the reading of its topology, and beside the check of the plan."""
    sizes = networks.scaled(4096, bench.scale)
    topology = bench.file("topology", networks.spines_and_leaves(sizes))
    refused = bench.file("refused", networks.spines_and_leaves(sizes, "nowhere"))
    plan = bench.answer("plan", "plan", topology)
    planning = bench.ours("plan", topology, first='{"absent_devices":[],"absent_links":[],"backup_root":"s1","root":"s0"')
    reading = bench.ours("plan", refused, status=3, first="input topology UnknownName roots 0")
    check = bench.ours("check", topology, plan, first=f"accepted {sizes.devices} {sizes.links} {sizes.all_domains}")
    memory = bench.runner.peak_memory(planning.words)
    return [
        Row("`plan`", str(sizes), name, 0.0, bench.runner.compare(planning, other, False), memory=memory)
        for name, other in (("reading of its topology", reading), ("`check` of the plan", check))
    ]


def drill_rows(bench: Bench) -> List[Row]:
    """A drill without the check of its plan, beside plain programs: one that drills, and one that has the lines in a
    table and writes them."""
    sizes = networks.scaled(1024, bench.scale)
    topology = bench.file("topology", networks.spines_and_leaves(sizes))
    plan = bench.answer("plan", "plan", topology)
    answer = bench.answer("drilled", "drill", topology, plan, BASE, HOLD)
    wanted = f"done {sizes.all_domains} {sizes.devices}"
    if last_line(bench.folder / "drilled") != wanted:
        raise BenchFault(f"drill: {last_line(bench.folder / 'drilled')!r}, wanted {wanted!r}")
    drill = bench.ours("drill", topology, plan, BASE, HOLD, first="bound listed rack0 s0 ", base=("check", topology, plan))
    lines, memory = sizes.all_domains * sizes.devices, bench.runner.peak_memory(drill.words)
    size = f"{sizes}, {count(lines)} lines"
    counted = instructions_of_line(bench)
    found: List[Row] = []
    plain, check, writer = bench.plain("drill"), bench.plain("check"), bench.plain("table")
    if plain and check:
        other = Command((str(plain), topology, plan, BASE, HOLD), base=(str(check), topology, plan))
        found.append(Row("`drill`, each line", size, "plain Rust", 0.0, bench.runner.compare(drill, other, True), lines,
                         counted, memory))
    if writer:
        other = Command((str(writer), answer), base=(str(writer), answer, "--read"))
        found.append(Row("`drill`, each line", size, "plain Rust that writes the lines from a table", 0.0,
                         bench.runner.compare(drill, other, False), lines, counted, memory))
    return found or [Row("`drill`, each line", size, seconds=bench.runner.least(drill), events=lines, memory=memory)]


def instructions_of_line(bench: Bench) -> Optional[float]:
    """A drill of a small network, without the check of its plan."""
    sizes = networks.scaled(96, 1.0)
    topology = bench.file("small_topology", networks.spines_and_leaves(sizes))
    plan = bench.answer("small_plan", "plan", topology)
    return bench.instructions_each(
        ("check", topology, plan), ("drill", topology, plan, BASE, HOLD), sizes.all_domains * sizes.devices
    )
