#!/bin/sh
# Seconds of the program on designs whose bodies are large, and on designs of many modules: it elaborates them from nothing for each ask. It
# takes the built program, or else proves and builds it first, and runs it three times on each. It needs python3, and fails where an
# answer is wrong.
here=$(cd "$(dirname "$0")/.." && pwd) || exit 1
program=${1:-$here/crates/sve_main/out/sve_main}
[ $# -gt 0 ] || (cd "$here/crates/sve_main" && rt run </dev/null >/dev/null) || exit 1
python3 - "$program" <<'END'
import json
import resource
import subprocess
import sys

BUDGET = 100000000


def made(count):
    """A package, so many modules that use it, and a top with an instance of each."""
    files = [("pkg.sv", "package p; parameter W = 8; endpackage\n")]
    files += [(f"leaf{i}.sv", f"module leaf{i}(input logic [p::W-1:0] a); endmodule\n") for i in range(count)]
    body = "".join(f" leaf{i} u{i}(.a(x));\n" for i in range(count))
    return files + [("top.sv", f"module top;\n logic [p::W-1:0] x;\n{body}endmodule\n")]


def one(body):
    return [("t.sv", f"module t;\n{body}endmodule\n")]


deep = "".join(f"if (1) begin : b{i}\n" for i in range(32)) + "wire w;\n" + "end\n" * 32
cases = [
    ("a body of 65,536 items", one("".join(f"wire w{i};\n" for i in range(65536))), {"ask": "type", "path": "t", "name": "w65535"}, 6),
    ("a loop of 65,536 iterations", one("for (genvar i = 0; i < 65536; i = i + 1) begin : b wire w; end\n"), {"ask": "type", "path": "t.b[65535]", "name": "w"}, 6),
    ("32 levels of blocks", one(deep), {"ask": "type", "path": "t." + ".".join(f"b{i}" for i in range(32)), "name": "w"}, 6),
    ("10,000 instances in one body", [("c.sv", "module c(input a); endmodule\n")] + one("wire x;\n" + "".join(f"c u{i}(x);\n" for i in range(10000))), {"ask": "instance", "path": "t.u9999"}, 3),
    ("5,000 implicit nets", one("".join(f"assign n{i} = 1;\n" for i in range(5000))), {"ask": "type", "path": "t", "name": "n4999"}, 6),
    ("500 modules, all instances", made(500), {"ask": "tree"}, 501),
    ("500 modules, one instance", made(500), {"ask": "instance", "path": "top.u499"}, 3),
    ("2,000 modules, all instances", made(2000), {"ask": "tree"}, 1001),
    ("2,000 modules, one instance", made(2000), {"ask": "instance", "path": "top.u1999"}, 3),
]


def spent():
    of_children = resource.getrusage(resource.RUSAGE_CHILDREN)
    return of_children.ru_utime + of_children.ru_stime


for title, files, ask, lines in cases:
    session = {"files": [{"name": n, "text": t} for n, t in files], "clients": [[dict(ask, budget=BUDGET)]]}
    if len(files) > 2048:
        session["files"] = session["files"][:2048]
    text = json.dumps(session)
    times = []
    for _ in range(3):
        before = spent()
        said = subprocess.run([sys.argv[1], "run"], input=text, capture_output=True, text=True).stdout
        times.append(spent() - before)
        if said.split("\n")[2:3] != [f"1 answer 0 {lines}"]:
            sys.exit(f"{title} was answered {said[:300]!r}")
    print(f"{min(times):8.3f} s of processor  {title}")
END
