#!/bin/sh
# Seconds of the program of rows of names on rows of many: names in one scope, uses through a chain of scopes, packages in a
# chain and in a star. It proves and builds the program first, or takes the built one that it is given, and runs it five times on
# each row. It needs python3, and fails where an answer is wrong or a row takes a second.
here=$(cd "$(dirname "$0")/.." && pwd) || exit 1
program=${1:-$here/crates/sve_names/out/sve_names}
[ $# -gt 0 ] || (cd "$here/crates/sve_names" && rt run </dev/null >/dev/null) || exit 1
python3 - "$program" <<'END'
import resource
import subprocess
import sys

rows = [
    ("20,000 declarations in one scope, each looked up", "many declared 20000", "20000"),
    ("10,000 uses of a name in the outermost of 30 scopes", "many scopes 30 10000", "10000"),
    ("2,000 packages in a chain", "rounds chain 2000", "2000 up to 1999"),
    ("2,000 packages in a star", "rounds star 2000", "2000 up to 1"),
    ("100,000 packages in a chain", "rounds chain 100000", "100000 up to 99999"),
    ("100,000 packages in a star", "rounds star 100000", "100000 up to 1"),
]


def spent():
    of_children = resource.getrusage(resource.RUSAGE_CHILDREN)
    return of_children.ru_utime + of_children.ru_stime


for title, row, answer in rows:
    times = []
    for _ in range(5):
        before = spent()
        said = subprocess.run([sys.argv[1]], input=row + "\n", capture_output=True, text=True, check=True).stdout
        times.append(spent() - before)
        if said != row + " => " + answer + "\n":
            sys.exit(f"{row} was answered {said!r}")
    if min(times) >= 1:
        sys.exit(f"{row} took {min(times):.3f} s")
    print(f"{min(times):8.3f} s of processor  {title}")
END
