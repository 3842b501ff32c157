#!/usr/bin/env python3
"""In place of the program where it is not built: `migrate` and `replay`, by the tools themselves, line by line."""

import os
import sys

from support import run_tool

from sundial_tools.plain.main import main
from sundial_tools.topology import read_topology, topology_text

os.environ["SUNDIAL"] = ""
if sys.argv[1] == "migrate":
    print(topology_text(read_topology(sys.argv[2])), end="")
    sys.exit(0)
sys.exit(run_tool("sundial", main, ["--follow", *sys.argv[2:]]))
