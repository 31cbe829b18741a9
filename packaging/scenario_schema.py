#!/usr/bin/env python3
"""Makes a JSON Schema of scenarios from the rules of the program, by which editors complete and check a scenario.

usage: srm_lab --rules | packaging/scenario_schema.py > scenario.schema.json

Every scenario that the program accepts passes the schema. It can't tell a whole number from one with `.0`, nor see ranges that
end with the value of another key, lengths that depend on another array, or the copies that an element stands for: there the
program is stricter. Nothing but Python is needed.
"""
import json
import sys
from typing import Any

Json = dict[str, Any]


def end(told: int | str, keys: Json, which: str) -> int:
    """An end of a range; where it is the value of another key, the same end of that key's range."""
    number: int = keys[told][which] if isinstance(told, str) else told
    return number


def value(rule: Json, keys: Json, elements: str) -> Json:
    """The schema of what a key may hold, in a table with these keys; its elements are defined under names that begin so."""
    if rule["type"] == "word":
        return {"enum": rule["words"]}
    if rule["type"] == "tables":
        return {"type": "array", "items": {"$ref": f"#/definitions/{elements} {rule['key']}"}, "maxItems": rule["longest"]}
    number: Json = {"type": "integer", "minimum": end(rule["least"], keys, "least"), "maximum": end(rule["most"], keys, "most")}
    if rule["type"] == "numbers":
        longest = keys[rule["length"]]["longest"] if "length" in rule else rule["longest"]
        return {"type": "array", "items": number, "maxItems": longest}
    default = rule.get("default")
    return number | ({"default": default} if isinstance(default, int) else {})


def table_schema(table: Json, elements: str) -> Json:
    """The schema of a table."""
    keys = {rule["key"]: rule for rule in table["keys"]}
    needed = [key for key, rule in keys.items() if rule["needed"]]
    return {
        "type": "object",
        "properties": {key: value(rule, keys, elements) for key, rule in keys.items()},
        "required": [*needed, *table.get("beside", [])],
        "additionalProperties": False,
    }


def is_told_apart(table: Json) -> Json:
    """The schema of top tables to which the rules of this one apply."""
    if not table["topology"]:
        return {"not": {"required": ["topology"]}}
    held: Json = {"properties": {"topology": {"enum": table["topology"]}}, "required": ["topology", *table.get("beside", [])]}
    absent = [{"not": {"required": [key]}} for key in ("delays", "backs") if "beside" in table and key not in table["beside"]]
    return {"allOf": [held, *absent]} if absent else held


def schema(rules: Json) -> Json:
    """The schema of scenarios."""
    definitions: Json = {}
    by_version: list[Json] = []
    properties: Json = {}
    for one in rules["versions"]:
        name = f"version {one['version']}"
        tops = [table for table in one["tables"] if table["table"] == "top"]
        for table in one["tables"]:
            if table["table"] != "top":
                definitions[f"{name} {table['table']}"] = table_schema(table, name)
        cases = [{"if": is_told_apart(table), "then": table_schema(table, name)} for table in tops]
        # a topology that the version has not
        named = {"properties": {"topology": table_schema(tops[0], name)["properties"]["topology"]}}
        definitions[name] = {"allOf": [*cases, named]}
        is_version = {"properties": {"version": {"const": one["version"]}}}
        by_version.append({"if": is_version, "then": {"$ref": f"#/definitions/{name}"}})
        # those of the last version, of which editors complete keys: each version has all of the one before
        properties = {key: held for table in tops for key, held in table_schema(table, name)["properties"].items()}
    return {
        "$schema": "http://json-schema.org/draft-07/schema#",
        "title": "A scenario of srm_lab",
        "type": "object",
        "properties": properties,
        "required": ["version"],
        "allOf": by_version,
        "definitions": definitions,
    }


if __name__ == "__main__":
    json.dump(schema(json.load(sys.stdin)), sys.stdout, indent=1)
    print()
