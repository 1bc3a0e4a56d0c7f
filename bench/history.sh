#!/bin/sh
# Seconds and peak memory of the built program where one client commits 20,000 times: each commit puts 64 bytes as one of 2,000 files, in
# turn; the same with one of 20 files; and the same number of commits without an edit. What the history takes for a commit is what the
# peaks differ by. With a program as an argument, that one is measured in place of `svserve`. It needs python3 and GNU time.
. "$(dirname "$0")/common.sh" || exit 1

python3 - "$work" <<'END'
import json, sys

work = sys.argv[1]
COMMITS = 20000
for session, names in (("names", 2000), ("few", 20), ("none", 0)):
    commands = []
    for revision in range(COMMITS):
        edits = [{"put": f"file{revision % names:04}.sv", "text": f"{revision:064}"}] if names else []
        commands.append({"commit": edits})
    with open(f"{work}/{session}.json", "w") as out:
        json.dump({"files": [], "clients": [commands]}, out)
END

measure names few none
