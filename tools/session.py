#!/usr/bin/env python3
"""Makes a session for svserve from files on disk, and with --run runs it and shows what comes of it.

    tools/session.py rtl/ --run                                       the diagnostics of all files below rtl
    tools/session.py rtl/ -I include/ --run --ask tops                the top modules
    tools/session.py rtl/top.sv --run --ask 'expand rtl/top.sv'       the text of a file after preprocessing
    tools/session.py rtl/ --watch                                     the diagnostics, again after each change
    tools/session.py rtl/ --ask tops > session.json                   the session itself

Folders are searched for files that end in .sv, .v, .svh and .vh. A file's name in the session is its path below the root. A file that
another one includes is in the session by the name by which it is included; it is looked for below the root, then in the folders that
-I names, then beside the file that includes it. Diagnostics name files by their paths on disk.

Exit status: 0; or 1 where diagnostics were shown; or 2 where no session could be made or run.
"""
from __future__ import annotations

import argparse
import json
import os
import re
import subprocess
import sys
import time
from dataclasses import dataclass, field
from typing import Dict, Iterator, List, Optional, Sequence, Set, Tuple, Union

# The limits of a session, as docs/FORMATS.md has them.
MAX_FILE = 1_048_576
MAX_SESSION = 16_777_216
MAX_FILES = 2_048
MAX_EDITS = 256

# With --watch a session with so many commits is followed by a new one.
MAX_COMMITS = 1_000
# With --watch the files are looked at again after so many seconds.
PAUSE = 0.5

NAME = re.compile(r"[A-Za-z0-9_.\-/]{1,255}")
INCLUDE = re.compile(r"`include\s*(?:\"([^\"\n]*)\"|<([^>\n]*)>)")
DIAGNOSTIC = re.compile(r"([^:]*):(\d+):(\d+): ([A-Z]\d\d)( .*)?")
UNITS = (".sv", ".v")
HEADERS = (".svh", ".vh")

# What each ask needs behind its word.
OPERANDS: Dict[str, Tuple[str, ...]] = {
    "file": ("name",),
    "expand": ("name",),
    "tops": (),
    "diagnostics": (),
    "tree": (),
    "instance": ("path",),
    "type": ("path", "name"),
    "param": ("path", "name"),
    "resolve": ("path", "name"),
}

# What each code says; docs/CODES.md says more.
MEANINGS: Dict[str, str] = {
    "P01": "this directive is not of its form, or a backtick has no name behind it",
    "P02": "this macro is not defined",
    "P03": "`begin_keywords and `end_keywords are not part of the subset",
    "P04": "this macro is used with a wrong number of arguments, or without its list of arguments",
    "P05": "the list of arguments of this macro has no end",
    "P06": "this macro is used inside its own expansion",
    "P07": "macros are nested more than 64 deep",
    "P08": "the file to include is not in the session; -I DIR names a folder in which included files are looked for",
    "P09": "includes are nested more than 15 deep",
    "P10": "`elsif, `else or `endif without its `ifdef or `ifndef, or behind `else",
    "P11": "an `ifdef or `ifndef has no `endif in its text",
    "P12": "preprocessing this file is more work than is allowed; the rest of it is dropped",
    "S01": "these bytes are no token",
    "S02": "this cannot stand here, or is outside the subset of SystemVerilog",
    "S03": "what begins here is nested more than 512 deep",
    "S04": "the label behind this end word is not the name of what ends",
    "N01": "nothing declares this name in front of its use",
    "N02": "this name is declared in its scope already; the first declaration counts",
    "N03": "this name is defined already; the first definition counts",
    "N04": "this package is not there",
    "N05": "the package does not declare this name",
    "N06": "two packages have this name, of which all names are imported here",
    "N07": "this name is imported here and declared, or imported from two packages",
    "N08": "this package needs itself in the end, or a package that does; it is taken as one without names",
    "N09": "this module or interface is not there",
    "N11": "what this name stands for cannot stand here",
    "C01": "this is not a constant, or none that is evaluated",
    "C02": "a number has the size 0",
    "C03": "this constant has more than 128 bits, or is a number without a size above 2147483647",
    "C04": "a number without a size stands in a concatenation",
    "C05": "this replication count is negative, unknown, or 0 where nothing is left",
    "C06": "this dimension is unknown, below 1 or too large; it is left out",
    "C07": "this string is too long for its place",
    "C08": "this name of an enumeration has the value of an earlier one",
    "C09": "this name of an enumeration has no value, since the one before it has unknown bits",
    "C10": "the enumeration cannot hold this value",
    "E01": "there is no such parameter to override",
    "E02": "this parameter is local, and cannot be overridden",
    "E03": "there are more overrides than parameters",
    "E04": "overrides by name and by order stand in one list",
    "E05": "this parameter has no value in the instance",
    "E06": "this cannot be a string, or cannot have unpacked dimensions",
    "E07": "there is no such port, or it is connected already",
    "E08": "there are more connections than ports, or they are by name and by order in one list",
    "E09": "nothing of this port's name and of an equivalent type is declared here",
    "E10": "this interface port is not connected to its interface",
    "E14": "the genvar of this loop comes to an unknown value, or again to the same one; the loop makes no block",
    "E15": "generate blocks are nested more than 32 deep",
    "E16": "instances are nested more than 64 deep",
    "E17": "the design says itself that it is wrong",
}

Edit = Dict[str, Union[str, int]]
Ask = Dict[str, str]
Command = Union[Ask, Dict[str, List[Edit]]]


class Failure(Exception):
    """No session can be made or run; the text says why."""


@dataclass(frozen=True)
class Source:
    """A file of the session: where it is on disk, and its text."""

    path: str
    text: str


Project = Dict[str, Source]


@dataclass(frozen=True)
class Wish:
    """What the command line asks for."""

    paths: List[str]
    root: Optional[str]
    folders: List[str]
    asks: List[str]
    program: str


@dataclass
class Reader:
    """Reads files; one that has not changed since is not read again."""

    kept: Dict[str, Tuple[Tuple[int, int], str]] = field(default_factory=dict)

    def read(self, path: str) -> str:
        """The text of a file."""
        found = os.stat(path)
        stamp = (found.st_mtime_ns, found.st_size)
        if path not in self.kept or self.kept[path][0] != stamp:
            self.kept[path] = (stamp, text_of(path))
        return self.kept[path][1]


def text_of(path: str) -> str:
    """The text of a file, which must be UTF-8 and within the limit."""
    with open(path, "rb") as source:
        data = source.read(MAX_FILE + 1)
    if len(data) > MAX_FILE:
        size = os.path.getsize(path)
        raise Failure(f"{path}: the file has {size:,} bytes; a file of a session has at most {MAX_FILE:,}")
    try:
        return data.decode("utf-8")
    except UnicodeDecodeError as error:
        line = data.count(b"\n", 0, error.start) + 1
        byte = data[error.start]
        raise Failure(f"{path}:{line}: the byte {byte:#04x} is no UTF-8; a session holds UTF-8 text alone") from None


def fail_walk(error: OSError) -> None:
    """Tells of a folder that cannot be read."""
    raise error


def sources_below(folder: str) -> Iterator[str]:
    """The source files below a folder, in order, hidden folders left out."""
    for at, folders, names in os.walk(folder, onerror=fail_walk):
        folders[:] = sorted(name for name in folders if not name.startswith("."))
        for name in sorted(names):
            if name.endswith(UNITS + HEADERS) and not name.startswith("."):
                yield os.path.join(at, name)


def is_below(path: str, folder: str) -> bool:
    """Whether a path lies in a folder, at any depth."""
    return not os.path.relpath(path, folder).startswith(os.pardir)


def root_of(wish: Wish) -> str:
    """The folder below which names begin: the one that was named, else the current one where it holds all that was given, else the
    innermost folder that does."""
    if wish.root is not None:
        return wish.root
    if all(is_below(path, os.curdir) for path in wish.paths):
        return os.curdir
    held = os.path.commonpath([os.path.abspath(path) for path in wish.paths])
    return held if os.path.isdir(held) else os.path.dirname(held)


def name_of(path: str, root: str) -> str:
    """The name of a file in the session."""
    name = os.path.relpath(path, root).replace(os.sep, "/")
    if not is_below(path, root):
        raise Failure(f"{path}: the file is not below the root, which is {root}; --root names another one")
    if not NAME.fullmatch(name):
        allowed = "1 to 255 letters, digits, '_', '-', '.' and '/'"
        raise Failure(f"{path}: a session cannot have a file of the name {name!r}; a name is {allowed}")
    return name


def given_files(paths: Sequence[str]) -> Iterator[str]:
    """The files that were given, alone or by their folder."""
    for path in paths:
        if os.path.isdir(path):
            yield from map(os.path.normpath, sources_below(path))
        elif os.path.exists(path):
            yield os.path.normpath(path)
        else:
            raise Failure(f"{path}: no such file or folder")


def included_names(text: str) -> Iterator[str]:
    """The names of the files that a text includes, where a session can have them. A comment may name one too, which does no harm."""
    for quoted, angled in INCLUDE.findall(text):
        if NAME.fullmatch(quoted or angled):
            yield quoted or angled


def place_of_include(name: str, folders: Sequence[str]) -> Optional[str]:
    """Where an included file is on disk: in the first of the folders that has it."""
    for folder in folders:
        path = os.path.normpath(os.path.join(folder, name))
        if os.path.isfile(path):
            return path
    return None


def add_includes(files: Project, root: str, folders: Sequence[str], reader: Reader) -> None:
    """Adds each file that another one includes, by the name by which it is included. A file that was given, and is in the session only
    by its path, gets that name in place of the path, so that it is there once."""
    names = {os.path.realpath(source.path): name for name, source in files.items()}
    included: Set[str] = set()
    waiting = list(files.values())
    while waiting:
        source = waiting.pop()
        for name in included_names(source.text):
            path = place_of_include(name, [root, *folders, os.path.dirname(source.path)])
            if path is None:
                continue
            check_one_file(files, name, path, included)
            included.add(name)
            if name not in files:
                old = names.get(os.path.realpath(path))
                if old is not None and old not in included:
                    del files[old]
                names[os.path.realpath(path)] = name
                files[name] = Source(path, reader.read(path))
                waiting.append(files[name])


def check_one_file(files: Project, name: str, path: str, included: Set[str]) -> None:
    """Refuses two files that are included by one name."""
    if name in included and not os.path.samefile(files[name].path, path):
        both = f"{files[name].path} and {path}"
        raise Failure(f"{both} are both included as {name!r}, and a session has one file of a name; -I DIR says which")


def project_of(wish: Wish, reader: Reader) -> Project:
    """The files of the session by their names."""
    root = root_of(wish)
    for folder in [root, *wish.folders]:
        if not os.path.isdir(folder):
            raise Failure(f"{folder}: no such folder")
    files: Project = {}
    for path in given_files(wish.paths):
        files[name_of(path, root)] = Source(path, reader.read(path))
    if not files:
        raise Failure(f"no file below {' and '.join(wish.paths)} ends in {', '.join(UNITS + HEADERS)}")
    add_includes(files, root, wish.folders, reader)
    if len(files) > MAX_FILES:
        raise Failure(f"there are {len(files):,} files; a session opens at most {MAX_FILES:,}")
    return files


def operands_of(word: str, rest: str) -> List[str]:
    """What stands behind the word of an ask: nothing, one operand, or a path and a name."""
    if len(OPERANDS[word]) < 2:
        return [rest] if rest else []
    return rest.rsplit(" ", 1)


def ask_of(words: str, files: Project) -> Ask:
    """An ask as it stands in a session. A file may be named as it is on disk too."""
    word, _, rest = words.strip().partition(" ")
    if word not in OPERANDS:
        raise Failure(f"there is no ask {word!r}; there are {', '.join(OPERANDS)}")
    members = OPERANDS[word]
    operands = operands_of(word, rest.lstrip())
    if len(operands) != len(members) or not all(operands):
        wanted = " ".join([word, *(member.upper() for member in members)])
        raise Failure(f"--ask {words!r}: this ask is written {wanted!r}")
    if members == ("name",) and operands[0] not in files:
        wanted_path = os.path.normpath(operands[0])
        operands = [name for name, source in files.items() if source.path == wanted_path] or operands
    return {"ask": word, **dict(zip(members, operands))}


def session_of(files: Project, commands: Sequence[Command]) -> str:
    """The session that opens the files and has one client with these commands."""
    opening = [{"name": name, "text": files[name].text} for name in sorted(files)]
    text = json.dumps({"files": opening, "clients": [list(commands)]}, ensure_ascii=False)
    if len(text.encode()) > MAX_SESSION:
        raise Failure(f"the session has {len(text.encode()):,} bytes; it may have {MAX_SESSION:,}")
    return text


def ran(program: str, session: str) -> List[str]:
    """The lines of the report that the program prints."""
    try:
        done = subprocess.run([program, "run"], input=session.encode(), stdout=subprocess.PIPE, check=False)
    except OSError as error:
        raise Failure(f"{program}: the program cannot be run: {error.strerror}") from None
    lines = [line.decode(errors="replace") for line in done.stdout.split(b"\n")]
    if done.returncode != 0:
        said = f": {lines[0]}" if lines[0] else ""
        raise Failure(f"{program} ended with exit status {done.returncode}{said}")
    return lines


def answers_of(lines: Sequence[str]) -> List[List[str]]:
    """The lines of each answer of a report with one client."""
    answers: List[List[str]] = []
    at = list(lines).index("client 1") + 1
    while at < len(lines) and lines[at]:
        words = lines[at].split(" ")
        at += 1
        if words[1] == "answer":
            answers.append(list(lines[at : at + int(words[3])]))
            at += int(words[3])
        elif words[1] == "refused":
            raise Failure(f"the program refused a change: {' '.join(words[2:])}")
        elif words[1] == "spent":
            raise Failure(f"an answer would cost more than its budget of {int(words[3]):,}")
    return answers


def answered(program: str, files: Project, commits: Sequence[Command], asks: Sequence[Ask]) -> List[List[str]]:
    """What the program answers to the asks behind the commits."""
    return answers_of(ran(program, session_of(files, [*commits, *asks])))


def shown(text: str) -> str:
    """A text as a terminal may have it."""
    return "".join(char if char.isprintable() or char == "\t" else "\N{REPLACEMENT CHARACTER}" for char in text)


def marked(line: bytes, column: int) -> Iterator[str]:
    """A line of source, and under it a mark at a column, which counts bytes from 1. Of a long line the part around the mark."""
    before = line[: column - 1].decode(errors="replace")
    after = line[column - 1 :].decode(errors="replace").rstrip("\r")
    if len(before) > 100:
        before = ".. " + before[-60:]
    if len(after) > 100:
        after = after[:100] + " .."
    yield shown(before + after)
    yield "".join("\t" if char == "\t" else " " for char in before) + "^"


def show_source(text: str, line: int, column: int) -> None:
    """Prints the place of a diagnostic."""
    lines = text.encode().split(b"\n")
    if line == len(lines) and not lines[-1]:
        print("    (the end of the file)")
    elif line <= len(lines):
        for each in marked(lines[line - 1], column):
            print(f"    {each}")


def show_diagnostics(lines: Sequence[str], files: Project) -> bool:
    """Prints diagnostics, each with its source and what its code says, and tells whether there are any."""
    more = 0
    for line in lines:
        parts = DIAGNOSTIC.fullmatch(line)
        if parts is None:
            more = int(line.split(" ")[1])
            continue
        name, row, column, code, argument = parts.groups()
        source = files.get(name)
        print(f"{source.path if source else name}:{row}:{column}: {code}{shown(argument or '')}")
        if source:
            show_source(source.text, int(row), int(column))
        print(f"    {MEANINGS.get(code, 'docs/CODES.md does not have this code')}")
    count = len(lines) - 1 + more if more else len(lines)
    print(f"{count or 'no'} diagnostic{'' if count == 1 else 's'}" + (f", of which {more} are not shown" if more else ""))
    return count > 0


def show_answer(ask: Ask, lines: Sequence[str]) -> None:
    """Prints an answer that is no list of diagnostics; the pieces of a text without their bars."""
    print(shown(" ".join(ask.values())) + ":")
    for line in lines:
        is_piece = ask["ask"] in ("file", "expand") and line.startswith("|")
        print(f"  {shown((line[1:] if is_piece else line).rstrip(chr(13)))}")


def show(asks: Sequence[Ask], answers: Sequence[Sequence[str]], files: Project) -> bool:
    """Prints all answers, and tells whether there are diagnostics."""
    bad = False
    for ask, lines in zip(asks, answers):
        if ask["ask"] == "diagnostics":
            bad = show_diagnostics(lines, files) or bad
        else:
            show_answer(ask, lines)
    sys.stdout.flush()
    return bad


def common_front(a: bytes, b: bytes) -> int:
    """How many bytes two texts have in common at their fronts."""
    return len(os.path.commonprefix([a, b]))


def splice(name: str, old: str, new: str, stamp: int) -> Edit:
    """The edit that makes one text of another: what differs between their common front and their common end. It cuts no character."""
    a, b = old.encode(), new.encode()
    front = common_front(a, b)
    while 0 < front < len(b) and b[front] & 0xC0 == 0x80:
        front -= 1
    back = common_front(a[front:][::-1], b[front:][::-1])
    while back and b[len(b) - back] & 0xC0 == 0x80:
        back -= 1
    text = b[front : len(b) - back].decode()
    return {"splice": name, "base": stamp, "at": front, "cut": len(a) - front - back, "text": text}


def changes(old: Project, new: Project, stamps: Dict[str, int]) -> List[Edit]:
    """The edits that lead from some files to others."""
    edits: List[Edit] = []
    for name in sorted(old.keys() | new.keys()):
        if name not in new:
            edits.append({"drop": name})
        elif name not in old:
            edits.append({"put": name, "text": new[name].text})
        elif old[name].text != new[name].text:
            edits.append(splice(name, old[name].text, new[name].text, stamps.get(name, 0)))
    return edits


@dataclass
class Watched:
    """A session that grows by a commit with each change of a file."""

    first: Project
    now: Project
    commits: List[Command] = field(default_factory=list)
    stamps: Dict[str, int] = field(default_factory=dict)

    def follow(self, files: Project) -> str:
        """Adds the commit that leads to these files, and says what it changes. Where a session would grow too large, a new one begins."""
        edits = changes(self.now, files, self.stamps)
        named = [str(edit.get("splice") or edit.get("put") or edit.get("drop")) for edit in edits]
        if len(edits) > MAX_EDITS or len(self.commits) >= MAX_COMMITS or self.size() > MAX_SESSION // 2:
            self.first, self.commits, self.stamps = files, [], {}
        elif edits:
            self.commits.append({"commit": edits})
            self.stamps.update(dict.fromkeys(named, len(self.commits)))
        self.now = files
        return f"-- revision {len(self.commits)}: {', '.join(named[:4])}{' ..' if len(named) > 4 else ''}"

    def size(self) -> int:
        """How many bytes of JSON the session has, but for its asks."""
        return len(session_of(self.first, self.commits).encode())


def next_change(wish: Wish, reader: Reader, now: Project) -> Project:
    """Waits until the files are others, and gives them. What is wrong with files is said once."""
    said = ""
    while True:
        time.sleep(PAUSE)
        try:
            files = project_of(wish, reader)
        except (Failure, OSError) as error:
            if said != told(error):
                said = told(error)
                print(f"session.py: {said}", file=sys.stderr)
            continue
        if files != now:
            return files


def watch(wish: Wish) -> None:
    """Shows the answers, and again after each change of a file, until it is interrupted."""
    reader = Reader()
    files = project_of(wish, reader)
    warn(wish, files)
    watched = Watched(files, files)
    while True:
        asks = [ask_of(words, watched.now) for words in wish.asks]
        show(asks, answered(wish.program, watched.first, watched.commits, asks), watched.now)
        print(watched.follow(next_change(wish, reader, watched.now)))


def told(error: Exception) -> str:
    """What an error says in one line."""
    if isinstance(error, OSError) and error.filename is not None:
        return f"{error.filename}: {error.strerror}"
    return str(error)


def parser() -> argparse.ArgumentParser:
    """The words of the command line."""
    here = os.path.dirname(os.path.dirname(os.path.abspath(__file__)))
    program = os.environ.get("SVSERVE") or os.path.join(here, "svserve")
    asks = ", ".join(" ".join([word, *(member.upper() for member in members)]) for word, members in OPERANDS.items())
    words = argparse.ArgumentParser(
        description="Makes a session for svserve from files on disk, and with --run runs it and shows what comes of it.",
        epilog=f"Asks: {asks}; README.md says which of them the program answers today. "
        "Exit status: 0, or 1 where diagnostics were shown, or 2 where no session could be made or run.",
    )
    add = words.add_argument
    add("paths", nargs="+", metavar="FILE|DIR", help="a file, or a folder whose .sv, .v, .svh and .vh files are taken")
    add("--ask", action="append", default=[], help="what is asked, as diagnostics (the default), tops or 'expand top.sv'; may be given again")
    add("-I", dest="folders", action="append", default=[], metavar="DIR", help="a folder to look for included files in; may be given again")
    add("--root", metavar="DIR", help="the folder below which names begin (default: the current one where it holds all files)")
    add("--run", action="store_true", help="run the session and show the answers, in place of printing the session")
    add("--watch", action="store_true", help="run it, and again after each change of a file, until interrupted")
    add("--program", default=program, metavar="FILE", help="the program to run (default: $SVSERVE, or svserve of this repository)")
    return words


def warn(wish: Wish, files: Project) -> None:
    """Says where files that were given are not read by themselves, since a user may expect that they are."""
    for path in wish.paths:
        if os.path.isfile(path) and not path.endswith(UNITS + HEADERS):
            print(f"session.py: {path}: its name ends neither in .sv nor in .v, so it is read only where it is included", file=sys.stderr)
    if not any(name.endswith(UNITS) for name in files):
        print("session.py: no file ends in .sv or .v, so tops and diagnostics find nothing to read", file=sys.stderr)


def perform(wish: Wish, run: bool, watching: bool) -> int:
    """Does what is asked for, and gives the exit status."""
    if watching:
        watch(wish)
    files = project_of(wish, Reader())
    warn(wish, files)
    asks = [ask_of(words, files) for words in wish.asks]
    if not run:
        print(session_of(files, asks))
        return 0
    return 1 if show(asks, answered(wish.program, files, [], asks), files) else 0


def main() -> int:
    """The exit status of a call with the words of the command line."""
    words = parser().parse_args()
    wish = Wish(words.paths, words.root, words.folders, words.ask or ["diagnostics"], words.program)
    try:
        return perform(wish, words.run, words.watch)
    except BrokenPipeError:
        os.dup2(os.open(os.devnull, os.O_WRONLY), sys.stdout.fileno())
        return 2
    except (Failure, OSError) as error:
        print(f"session.py: {told(error)}", file=sys.stderr)
        return 2
    except KeyboardInterrupt:
        return 0


if __name__ == "__main__":
    sys.exit(main())
