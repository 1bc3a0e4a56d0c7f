#!/bin/sh
# Seconds and peak memory of the built program on two generated sessions: 2,000 puts and asks of 4 KiB each, and 20,000
# small commits over 2,000 names. With a program as an argument, that one is measured in place of `svserve`.
# It needs python3 and GNU time.
. "$(dirname "$0")/common.sh" || exit 1

python3 - "$work" <<'END'
import json, sys

work = sys.argv[1]
line = "  assign q = (a & b) | (c ^ d); // 64 bytes of text, more or less\n"

def write(name, commands):
    with open(f"{work}/{name}.json", "w") as out:
        json.dump({"files": [], "clients": [commands]}, out)

commands = []
for i in range(2000):
    text = (f"module m{i};\n" + line * 70)[:4086] + "endmodule\n"
    commands.append({"commit": [{"put": f"rtl/m{i}.sv", "text": text}]})
    commands.append({"ask": "file", "name": f"rtl/m{i}.sv"})
write("texts", commands)

# a session may have 2,048 puts, so all but the first 2,000 commits are empty
commands = [{"commit": [{"put": f"rtl/n{i * 7 % 2000}.sv", "text": f"// {i}\n"}]} for i in range(2000)]
write("commits", commands + [{"commit": []}] * 18000)
END

measure texts commits
