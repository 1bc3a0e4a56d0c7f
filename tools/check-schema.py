#!/usr/bin/env python3
"""Checks docs/session.schema.json: that it is a schema, that sessions are valid by it, and that what is no session is not.

    tools/check-schema.py [FILE|DIR ..]        the .json files of examples/ where none is named

A session whose report, the .report file beside it, says that it is refused for its shape or a limit must not be valid, where a schema can
say so. Besides, a list of values in this file must not be.
It needs the package jsonschema; where that is not installed it says so and ends with 0. Exit status 1 where something is wrong.
"""
from __future__ import annotations

import glob
import json
import os
import re
import sys
from typing import Any, List, Optional

HERE = os.path.dirname(os.path.dirname(os.path.abspath(__file__)))

# Commands, files and whole sessions that are refused by their shape or by a limit that a schema can say.
NO_COMMANDS: List[Any] = [
    {},
    {"ask": "what"},
    {"ask": "file"},
    {"ask": "tops", "name": "a.sv"},
    {"ask": "file", "name": 1},
    {"ask": "tops", "mode": "oldest"},
    {"ask": "tops", "budget": 0},
    {"ask": "tops", "budget": 100_000_001},
    {"ask": "tops", "budget": 1.5},
    {"ask": "tops", "commit": []},
    {"commit": {}},
    {"commit": [{}]},
    {"commit": [], "mode": "latest"},
    {"commit": [{"put": "a.sv"}]},
    {"commit": [{"put": "a b.sv", "text": ""}]},
    {"commit": [{"put": "", "text": ""}]},
    {"commit": [{"put": "a" * 256, "text": ""}]},
    {"commit": [{"put": "a.sv\n", "text": ""}]},
    {"commit": [{"drop": "a.sv", "text": ""}]},
    {"commit": [{"splice": "a.sv", "at": 0, "cut": 0, "text": ""}]},
    {"commit": [{"splice": "a.sv", "base": -1, "at": 0, "cut": 0, "text": ""}]},
    {"commit": [{"splice": "a.sv", "base": 2**63, "at": 0, "cut": 0, "text": ""}]},
    {"commit": [{"splice": "a.sv", "base": 0, "at": 2**32, "cut": 0, "text": ""}]},
    {"commit": [{"drop": "a.sv"}] * 257},
]
NO_FILES: List[Any] = [
    {},
    [{}],
    [{"name": "a.sv"}],
    [{"name": "a.sv", "text": 1}],
    [{"name": "a:b", "text": ""}],
    [{"name": "a.sv", "text": "", "stamp": 0}],
]
NO_SESSIONS: List[Any] = [
    None,
    [],
    {"files": []},
    {"clients": [[]]},
    {"files": [], "clients": []},
    {"files": [], "clients": [{}]},
    {"files": [], "clients": [[]], "more": 1},
    {"files": [], "clients": [[]] * 17},
    {"files": [{"name": f"{number}.sv", "text": ""} for number in range(2049)], "clients": [[]]},
    *({"files": files, "clients": [[]]} for files in NO_FILES),
    *({"files": [], "clients": [[command]]} for command in NO_COMMANDS),
]


def sessions_of(paths: List[str]) -> List[str]:
    """The files that are named, and the .json files below the folders that are."""
    found: List[str] = []
    for path in paths:
        found += sorted(glob.glob(os.path.join(path, "**", "*.json"), recursive=True)) if os.path.isdir(path) else [path]
    return found


def read(path: str) -> Optional[Any]:
    """The JSON value of a file, or nothing where it is no JSON. What is no whole number to the program is read as a text."""
    with open(path, "rb") as source:
        try:
            return json.loads(source.read(), parse_float=str, parse_int=lambda digits: digits if digits == "-0" else int(digits))
        except ValueError:
            return None


def refused(path: str) -> Optional[bool]:
    """Whether the report beside a session refuses it for something that a schema can say; nothing where the schema may say either."""
    report = os.path.splitext(path)[0] + ".report"
    said = ""
    if os.path.exists(report):
        with open(report, "rb") as source:
            said = source.readline().decode(errors="replace")
    if re.match(r"usage: |bad session: (not JSON|more than |limit (bytes|commands) |shape at /files/\d+/name$)", said):
        return None
    return re.match(r"bad session: (shape|limit) ", said) is not None


def wrong_sessions(validator: Any, paths: List[str]) -> int:
    """How many of the files the schema takes for something else than their reports do; each is told."""
    wrong = 0
    for path in paths:
        value, wanted = read(path), refused(path)
        fault = next(iter(validator.iter_errors(value)), None)
        if value is None or wanted is None or wanted == (fault is not None):
            continue
        print(f"{path}: " + (f"{fault.json_path}: {fault.message[:200]}" if fault else "valid by the schema, and refused by its report"))
        wrong += 1
    return wrong


def let_through(validator: Any) -> int:
    """How many of the values that are no sessions are valid by the schema; each is told."""
    passed = [value for value in NO_SESSIONS if validator.is_valid(value)]
    for value in passed:
        print(f"valid by the schema, and no session: {json.dumps(value)[:200]}")
    return len(passed)


def main() -> int:
    """The exit status: 0 where the schema is right, or where nothing can be checked."""
    try:
        import jsonschema
    except ImportError:
        print("check-schema.py: the package jsonschema is not installed, so nothing was checked")
        return 0
    with open(os.path.join(HERE, "docs", "session.schema.json"), encoding="utf-8") as source:
        schema = json.load(source)
    jsonschema.Draft202012Validator.check_schema(schema)
    validator = jsonschema.Draft202012Validator(schema)
    paths = sessions_of(sys.argv[1:] or [os.path.join(HERE, "examples")])
    wrong = wrong_sessions(validator, paths)
    passed = let_through(validator)
    print(f"{len(paths) - wrong} of {len(paths)} files are taken as they should be")
    print(f"{len(NO_SESSIONS) - passed} of {len(NO_SESSIONS)} values that are no sessions are refused")
    return 1 if wrong or passed else 0


if __name__ == "__main__":
    sys.exit(main())
