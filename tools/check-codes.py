#!/usr/bin/env python3
"""Runs the examples of docs/CODES.md through the program, and compares its diagnostics with those that stand there.

    tools/check-codes.py [FILE]

The program is ./svserve of this repository, or the one that SVSERVE names. Exit status 1 where an example gives something else, where one
does not give its own code, or where the codes are not those of tools/session.py.
"""
from __future__ import annotations

import os
import re
import sys
from dataclasses import dataclass
from typing import List

sys.dont_write_bytecode = True
import session  # noqa: E402

HERE = os.path.dirname(os.path.dirname(os.path.abspath(__file__)))
SECTION = re.compile(r"^## ([A-Z]\d\d): .*?^```systemverilog\n(.*?)^```\n\n```text\n(.*?)^```$", re.MULTILINE | re.DOTALL)
AND_SO_ON = re.compile(r"// and so on to ([A-Za-z]+\d+)")


@dataclass(frozen=True)
class Example:
    """An example of a code: the text, and the diagnostics that it should give."""

    code: str
    text: str
    diagnostics: List[str]


def one_higher(line: str) -> str:
    """A line with each number in it one higher."""
    return re.sub(r"\d+", lambda number: str(int(number.group()) + 1), line)


def written_out(text: str) -> str:
    """A text in which each line `and so on` is written out."""
    lines: List[str] = []
    for line in text.splitlines():
        last = AND_SO_ON.fullmatch(line)
        if last is None:
            lines.append(line)
            continue
        while f" {last.group(1)} " not in lines[-1]:
            lines.append(one_higher(lines[-1]))
    return "".join(f"{line}\n" for line in lines)


def examples_of(page: str) -> List[Example]:
    """The examples of the page, in order."""
    return [Example(code, written_out(text), wanted.splitlines()) for code, text, wanted in SECTION.findall(page)]


def diagnostics_of(program: str, example: Example) -> List[str]:
    """The diagnostics that the program gives of the example."""
    files = {"a.sv": session.Source("a.sv", example.text)}
    return session.answered(program, files, [], [{"ask": "diagnostics"}])[0]


def tried(program: str, example: Example) -> bool:
    """Whether an example gives what it should; what differs is printed."""
    found = diagnostics_of(program, example)
    its_own = any(f": {example.code}" in line for line in found)
    if found == example.diagnostics and its_own:
        return True
    print(f"{example.code}: wanted {example.diagnostics}, found {found}")
    return False


def main() -> int:
    """The exit status: 0 where the page is right."""
    page = sys.argv[1] if len(sys.argv) > 1 else os.path.join(HERE, "docs", "CODES.md")
    program = os.environ.get("SVSERVE") or os.path.join(HERE, "svserve")
    with open(page, encoding="utf-8") as source:
        text = source.read()
    examples = examples_of(text)
    codes = [example.code for example in examples]
    if codes != re.findall(r"^## ([A-Z]\d\d)", text, re.MULTILINE):
        print(f"{page}: a code has no example, or more than one")
        return 1
    if codes != list(session.MEANINGS):
        print(f"{page} has the codes {codes}, tools/session.py {list(session.MEANINGS)}")
        return 1
    try:
        right = sum(tried(program, example) for example in examples)
    except session.Failure as failure:
        print(f"check-codes.py: {failure}", file=sys.stderr)
        return 2
    print(f"{right} of {len(examples)} examples give what {os.path.relpath(page)} says")
    return 0 if right == len(examples) else 1


if __name__ == "__main__":
    sys.exit(main())
