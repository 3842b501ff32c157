"""The words of sundial-topology."""

from __future__ import annotations

import argparse
import sys
from typing import Dict, List

from sundial_tools.inputs import as_files
from sundial_tools.network.absent import write_absent
from sundial_tools.network.assemble import Settings, assemble
from sundial_tools.network.found import Found
from sundial_tools.network.lint import findings, rate_of
from sundial_tools.network.lldp import Cables, Ignored, Port, read_neighbours
from sundial_tools.network.make import add_words as add_words_of_make, made_text
from sundial_tools.network.names import write_names
from sundial_tools.network.netbox import IN_USE, Choices, Netbox
from sundial_tools.network.tables import read_delays, read_devices, read_links, read_oscillators
from sundial_tools.safe_write import OUTPUT, whole_output
from sundial_tools.times import time_option
from sundial_tools.topology import MOST_PICOSECONDS, read_topology, topology_text

# The options that name texts. Files of LLDP are not among them: the name of such a file says its host.
TEXTS = ("topology", "plan", "devices", "links", "interfaces", "cables", "oscillators", "delays")


def main(words: List[str]) -> int:
    options = _parser().parse_args(words)
    with as_files(options, *TEXTS):
        return _made(options)


def _made(options: argparse.Namespace) -> int:
    if options.source == "names":
        topology = read_topology(options.topology)
        with whole_output(options.output) as text:
            write_names(topology, text)
        return 0
    if options.source == "lint":
        looks_wrong = findings(options.topology, rate_of(options.message_loss))
        with whole_output(options.output) as text:
            text.writelines(f"{it}\n" for it in looks_wrong)
        return 1 if looks_wrong else 0
    if options.source == "make":
        with whole_output(options.output) as text:
            text.write(made_text(options))
        return 0
    if options.source == "absent":
        with whole_output(options.output) as text:
            said = write_absent(options.topology, options.things, options.plan, text)
        for line in said:
            print(f"sundial-topology: {line}", file=sys.stderr)
        return 0
    found = _found(options)
    settings = Settings(
        options.period, options.tick, options.loss, options.depth, tuple(options.root_role), options.every_feed
    )
    topology = assemble(found, read_oscillators(options.oscillators), read_delays(options.delays), settings)
    with whole_output(options.output) as text:
        text.write(topology_text(topology))
    for line in found.told():
        print(f"sundial-topology: {line}", file=sys.stderr)
    return 0


def _found(options: argparse.Namespace) -> Found:
    if options.source == "netbox":
        choices = Choices(
            set(options.ignore), set(options.ignore_role), set(options.without_rack), set(options.without_feed),
            options.no_racks, options.no_feeds, options.side_field, {IN_USE, *options.status},
        )
        return Netbox(options.devices, options.interfaces, options.cables, choices).found()
    found = Found(read_devices(options.devices))
    if options.source == "tables":
        found.cables += read_links(options.links)
        return found
    order: Dict[str, int] = {device.name: number for number, device in enumerate(found.devices)}
    domains = tuple(domain.strip(".") for domain in options.strip_domain)
    ignored = Ignored(set(options.ignore), set(options.ignore_chassis), set(options.ignore_port), domains)
    Cables(read_neighbours(options.files, ignored, found), order, ignored, options.one_sided).into(found)
    return found


def _port(word: str) -> Port:
    host, _, port = word.partition(":")
    if not host or not port:
        raise argparse.ArgumentTypeError(f"{word!r} is no HOST:PORT, as leaf1:eth9")
    return host, port


_time = time_option(1, MOST_PICOSECONDS)


def _parser() -> argparse.ArgumentParser:
    parser = argparse.ArgumentParser(
        prog="sundial-topology",
        description="Makes a topology text of version 2 from the network that is there, and a table of its names.",
        epilog="A time is a number and its unit, ps, ns, us, ms or s, as 100us. docs/TOPOLOGY-FROM-A-NETWORK.md has the tables.",
    )
    sources = parser.add_subparsers(dest="source", required=True, metavar="lldp|netbox|tables|names|absent|lint|make")
    lldp = sources.add_parser("lldp", help="from lldpcli show neighbors -f json0 (or json), one file a host, named after it")
    lldp.add_argument("files", nargs="+", metavar="HOST.json")
    lldp.add_argument("--devices", required=True, help="CSV: name,kind,role,rack,feeds[,side]")
    lldp.add_argument("--one-sided", action="store_true", help="accept what one end sees where the other has no file")
    _add_ignore(lldp)
    lldp.add_argument("--ignore-chassis", action="append", default=[], metavar="ID", help="leave out neighbours of this chassis id")
    lldp.add_argument(
        "--ignore-port", action="append", default=[], type=_port, metavar="HOST:PORT", help="leave out what is seen on this port"
    )
    lldp.add_argument(
        "--strip-domain", action="append", default=[], metavar="DOMAIN", help="take this domain off the names of hosts, as dc1.example.com"
    )
    tables = sources.add_parser("tables", help="from two CSV tables")
    tables.add_argument("--devices", required=True, help="CSV: name,kind,role,rack,feeds[,side]")
    tables.add_argument("--links", required=True, help="CSV: name,first,second[,medium][,conduits]")
    netbox = sources.add_parser("netbox", help="from the JSON of the REST API of NetBox 3.3 or later")
    for kind in "devices", "interfaces", "cables":
        netbox.add_argument(
            f"--{kind}", required=True, nargs="+", action="extend", metavar="FILE",
            help=f"JSON of /api/dcim/{kind}/?limit=0; of a list of several pages all of them",
        )
    netbox.add_argument("--without-rack", action="append", default=[], metavar="NAME", help="a device of no rack")
    netbox.add_argument("--without-feed", action="append", default=[], metavar="NAME", help="a device of no power feed")
    netbox.add_argument("--no-racks", action="store_true", help="list no racks")
    netbox.add_argument("--no-feeds", action="store_true", help="list no power feeds")
    netbox.add_argument("--side-field", metavar="FIELD", help="the custom field that says root or backup")
    _add_ignore(netbox)
    netbox.add_argument("--ignore-role", action="append", default=[], metavar="ROLE", help="leave devices of this role out")
    netbox.add_argument(
        "--status", action="append", default=[], metavar="STATUS", help="take devices of this status too, beside active ones"
    )
    for source in lldp, tables, netbox:
        _add_settings(source)
    names = sources.add_parser("names", help="the names and numbers of a topology, as CSV")
    names.add_argument("topology")
    names.add_argument("--output", "-o", metavar="FILE", help=OUTPUT)
    absent = sources.add_parser("absent", help="the absent list of a loss, with all that it cuts off from every candidate for root")
    absent.add_argument("topology")
    absent.add_argument(
        "things", nargs="+", metavar="THING", help="what is lost: a NAME, or listed:NAME, device:NAME or link:NAME where kinds share it"
    )
    absent.add_argument("--plan", "-p", metavar="PLAN", help="leave out too what this plan leaves out")
    absent.add_argument("--output", "-o", metavar="FILE", help=OUTPUT)
    lint = sources.add_parser("lint", help="what looks wrong in a topology; status 1 where something does")
    lint.add_argument("topology")
    lint.add_argument(
        "--message-loss", default="1e-6", metavar="RATE", help="the part of all messages that is lost, to judge `loss` (default: 1e-6)"
    )
    lint.add_argument("--output", "-o", metavar="FILE", help=OUTPUT)
    add_words_of_make(sources.add_parser("make", help="a network to learn from, with racks, feeds, trays and hosts"), _time)
    return parser


def _add_ignore(source: argparse.ArgumentParser) -> None:
    source.add_argument("--ignore", action="append", default=[], metavar="NAME", help="leave this device out")


def _add_settings(source: argparse.ArgumentParser) -> None:
    source.add_argument("--oscillators", required=True, help="CSV: kind,ppm,grain")
    source.add_argument("--delays", required=True, help="CSV: from,to,min,max[,medium], from kind to kind")
    source.add_argument("--period", required=True, type=_time, help="how far apart the rounds of the root are")
    source.add_argument("--tick", required=True, type=_time, help="greatest time between two ticks of a device")
    source.add_argument("--loss", required=True, type=int, choices=range(101), metavar="0..100", help="lost rounds")
    source.add_argument("--depth", required=True, type=int, choices=range(1, 65), metavar="1..64", help="most links to the root")
    source.add_argument("--root-role", required=True, action="append", metavar="ROLE", help="the role of candidates for roots")
    source.add_argument("--every-feed", action="store_true", help="list a device under each of its power feeds")
    source.add_argument("--output", "-o", metavar="FILE", help=OUTPUT)
