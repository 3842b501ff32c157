"""JSON texts, read with one clear line for each way in which they are wrong."""

from __future__ import annotations

import json
from typing import Any, Optional

from sundial_tools.errors import ToolError, decoded

MOST_DIGITS = 4000


def read_json(path: str) -> Any:
    """The value of a file that another program wrote. A byte order mark is passed over."""
    with open(path, "rb") as file:
        return parse_json(decoded(file.read(), path).removeprefix("\ufeff"), path)


def parse_json(text: str, source: Optional[str], what: str = "no JSON, or cut short") -> Any:
    try:
        return json.loads(text)
    except json.JSONDecodeError as fault:
        raise ToolError(f"{what}: {fault.msg}", source, fault.lineno) from None
    except RecursionError:
        raise ToolError("objects and arrays are nested too deep", source) from None
    except ValueError:
        raise ToolError("a number has too many digits", source) from None


def whole(text: str) -> Optional[int]:
    """The number of a word of ASCII digits, or None where it is none or of more than 4,000."""
    if not text.isascii() or not text.isdigit() or len(text) > MOST_DIGITS:
        return None
    return int(text)
