#!/bin/sh
# Seconds and peak memory of the built program where it expands generated texts: 1 MiB of plain text, 1 MiB of macro uses, and
# 2,000 files that each include one header. With a program as an argument, that one is measured in place of `svserve`.
# It needs python3 and GNU time.
. "$(dirname "$0")/common.sh" || exit 1

python3 - "$work" <<'END'
import json, sys

work = sys.argv[1]
mib = 1 << 20
line = "  assign q = (a & b) | (c ^ d); // 64 bytes of text, more or less\n"

def write(name, files, asked):
    files = [{"name": n, "text": t} for n, t in files]
    asks = [{"ask": "expand", "name": n} for n in asked]
    with open(f"{work}/{name}.json", "w") as out:
        json.dump({"files": files, "clients": [asks]}, out)

def filled(head, unit):
    return head + unit * ((mib - len(head)) // len(unit))

plain = ("plain.sv", filled("", line))
write("plain", [plain], ["plain.sv"])
write("plain-8", [plain], ["plain.sv"] * 8)
uses = ("uses.sv", filled("`define W 8\n`define SUM(a,b=1) (a + b)\n", "  assign x = `SUM(p[`W-1:0],q) ^ `SUM(r);\n"))
write("uses", [uses], ["uses.sv"])
write("uses-8", [uses], ["uses.sv"] * 8)
header = "".join(f"`define M{i} {i}\nlocalparam P{i} = `M{i};\n" for i in range(20))
includes = [(f"m{i}.sv", f'`include "h.svh"\nmodule m{i}; wire [`M7:0] w; endmodule\n') for i in range(2000)]
write("includes", [("h.svh", header)] + includes, [n for n, _ in includes])
END

measure plain plain-8 uses uses-8 includes
