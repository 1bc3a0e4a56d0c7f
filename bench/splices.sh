#!/bin/sh
# Seconds and peak memory of the built program where one client splices: 10,000 commits, each of which puts 16 bytes in the place of
# 16 others of a file of 1 MiB, and the same in a file of 4 KiB. With a program as an argument, that one is measured in place of
# `svserve`. It needs python3 and GNU time.
. "$(dirname "$0")/common.sh" || exit 1

python3 - "$work" <<'END'
import json, random, sys

work = sys.argv[1]
random.seed(1)
for name, size in (("large", 1 << 20), ("small", 4096)):
    commands = []
    for revision in range(10000):
        at = random.randrange(size - 16)
        commands.append({"commit": [{"splice": "a.sv", "base": revision, "at": at, "cut": 16, "text": f"{revision:016}"}]})
    session = {"files": [{"name": "a.sv", "text": "x" * size}], "clients": [commands]}
    with open(f"{work}/{name}.json", "w") as out:
        json.dump(session, out)
END

measure large small
