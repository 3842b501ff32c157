"""Asks whether a value is as a JSON schema says: the part of draft 2020-12 that docs/schemas/ uses."""

import json
import re

from support import TOOLS

SCHEMAS = TOOLS.parent / "docs" / "schemas"
TYPES = {"object": dict, "array": list, "string": str, "boolean": bool}
KNOWN = {
    "$schema", "$defs", "$ref", "title", "description", "type", "enum", "const", "required", "properties", "items", "pattern",
    "additionalProperties", "minimum", "oneOf", "allOf", "if", "then",
}


class Schema:
    def __init__(self, name):
        self._whole = json.loads((SCHEMAS / f"{name}.json").read_text())

    def fits(self, value):
        return self._fits(value, self._whole)

    def _fits(self, value, schema):
        unknown = set(schema) - KNOWN
        if unknown:
            raise ValueError(f"no such key of a schema: {unknown}")
        if "$ref" in schema:
            return self._fits(value, self._whole["$defs"][schema["$ref"].rpartition("/")[2]])
        checks = [
            "type" not in schema or _is(value, schema["type"]),
            "enum" not in schema or value in schema["enum"],
            "const" not in schema or value == schema["const"],
            "minimum" not in schema or value >= schema["minimum"],
            "pattern" not in schema or re.search(schema["pattern"], value) is not None,
            "oneOf" not in schema or sum(self._fits(value, one) for one in schema["oneOf"]) == 1,
            all(self._fits(value, one) for one in schema.get("allOf", ())),
        ] if "type" not in schema or _is(value, schema["type"]) else [False]
        if not all(checks):
            return False
        if "if" in schema and self._fits(value, schema["if"]) and not self._fits(value, schema["then"]):
            return False
        if isinstance(value, list):
            return all(self._fits(item, schema.get("items", {})) for item in value)
        return not isinstance(value, dict) or self._object_fits(value, schema)

    def _object_fits(self, value, schema):
        known = schema.get("properties", {})
        if any(key not in value for key in schema.get("required", ())):
            return False
        if schema.get("additionalProperties") is False and set(value) - set(known):
            return False
        return all(self._fits(inner, known[key]) for key, inner in value.items() if key in known)


def _is(value, kind):
    if kind in ("integer", "number"):
        return isinstance(value, int if kind == "integer" else (int, float)) and not isinstance(value, bool)
    return isinstance(value, TYPES[kind])
