"""The examples of the repository, and what the program printed over them."""

import re
from typing import Dict

from support import TOOLS

EXAMPLES = TOOLS.parent / "examples"


def outputs(name: str) -> Dict[str, str]:
    """What each command of an example printed, without the line of its status."""
    found: Dict[str, str] = {}
    for part in re.split(r"^\$ ", (EXAMPLES / name / "output").read_text(), flags=re.MULTILINE)[1:]:
        command, _, text = part.partition("\n")
        found[command] = re.sub(r"^\[status \d+\]\n", "", text, flags=re.MULTILINE)
    return found
