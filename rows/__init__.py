"""Rows: words and files, and what the programs write and answer for them. `.ci/rows` runs them.

A module has the rows of one command. The expected texts are worked by hand from docs/RULES.md: none
was copied from a program. What a run of functions alone can show (a shelf or a sink that fails, texts
in pieces) is in `sd_test_rows`, and what the system does to a program in `.ci/edge`. `counted` has
networks and plans made by counting, for which programs beside (`plain_check`, `plain_drill`,
`plain_plan`) say what is expected.
"""

from typing import Dict, NamedTuple, Tuple, Union


class Made(NamedTuple):
    """A file that another run writes, which ends with status 0."""

    words: str
    files: Dict[str, Union[str, "Made"]]
    program: str = "sundial"


class Ends(NamedTuple):
    """How an output begins and ends of which no more is expected."""

    first: str
    last: str


class Row(NamedTuple):
    """A run: its name, its words, its files, what it writes, and its status.

    Words are separated by single spaces, or are listed. Each row has a folder of its own, which holds its
    files alone. The status 4 comes with a line on standard error, and no other does.
    """

    name: str
    words: Union[str, Tuple[str, ...]]
    files: Dict[str, Union[str, bytes, Made]]
    output: Union[str, Ends]
    status: int = 0
    program: str = "sundial"
