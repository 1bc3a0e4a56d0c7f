#!/bin/sh
# Seconds of the built program where eight clients ask at once, beside one client with the same commands, for three kinds of ask, all
# pinned; and a session of sixteen clients with 20,000 commands, run over and over, each report held against its session by
# examples/check_report.py. With a program as the first argument, that one is measured in place of `svserve`; the second is how
# often the last session runs (20). It needs python3 and GNU time.
. "$(dirname "$0")/common.sh" || exit 1
runs=${2:-20}

python3 - "$work" <<'END'
import json, random, sys

work = sys.argv[1]
random.seed(1)

def module(i):
    lines = [f"module m{i} #(parameter W = {i}) (input logic [W-1:0] a, output logic [W-1:0] b);"]
    lines += [f"  assign b[{k}] = a[{k}] ^ a[({k} + 1) % W] & `MASK({k});" for k in range(40)]
    return "\n".join(lines + ["endmodule", ""])

files = [{"name": "mask.svh", "text": "`define MASK(k) (1'b1 << (k % 2))\n"}]
files += [{"name": f"m{i}.sv", "text": '`include "mask.svh"\n' + module(i)} for i in range(50)]
asks = {
    "diagnostics": [{"ask": "diagnostics", "mode": "pinned"}] * 160,
    "expand": [{"ask": "expand", "name": f"m{k % 50}.sv", "mode": "pinned"} for k in range(8000)],
    "file": [{"ask": "file", "name": f"m{k % 50}.sv", "mode": "pinned"} for k in range(16000)],
}
for name, commands in asks.items():
    for clients in (1, 8):
        session = {"files": files, "clients": [commands[k::clients] for k in range(clients)]}
        with open(f"{work}/{name}-{clients}.json", "w") as out:
            json.dump(session, out)

def command():
    name = f"f{random.randrange(40)}.sv"
    mode = {"mode": random.choice(["latest", "latest", "pinned"])}
    kind = random.randrange(12)
    if kind < 4:
        return {"commit": [{"put": name, "text": f"module m{random.randrange(40)}; wire w{random.randrange(9)}\nendmodule\n"}]}
    if kind == 4:
        return {"commit": [{"drop": name}]}
    if kind == 5:
        return {"commit": [{"splice": name, "base": random.randrange(3000), "at": 0, "cut": 0, "text": "// x\n"}]}
    if kind < 10:
        return {"ask": random.choice(["file", "expand"]), "name": name, **mode}
    return {"ask": random.choice(["tops", "diagnostics"]), **mode}

session = {"files": [], "clients": [[command() for _ in range(1250)] for _ in range(16)]}
with open(f"{work}/many.json", "w") as out:
    json.dump(session, out)
END

measure diagnostics-1 diagnostics-8 expand-1 expand-8 file-1 file-8

turn=0
while [ "$turn" -lt "$runs" ]; do
    turn=$((turn + 1))
    "$program" run <"$work/many.json" >"$work/report" || exit 1
    python3 "$here/examples/check_report.py" --program "$program" "$work/many.json" "$work/report" || exit 1
done
echo "$turn runs of sixteen clients with 20,000 commands are honest"
