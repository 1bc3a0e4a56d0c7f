#!/bin/sh
# Seconds of the built program where it expands texts of one mebibyte that a hostile user may write: directives that go on
# and on, uses that give little, conditionals without an end. It fails where one takes more than two seconds.
# With a program as an argument, that one is measured in place of `svserve`. It needs python3 and GNU time.
. "$(dirname "$0")/common.sh" || exit 1

python3 - "$work" <<'END'
import json, sys

work = sys.argv[1]
mib = 1 << 20
names = []

def write(name, head, unit, file="a.sv"):
    text = head + unit * ((mib - len(head)) // len(unit))
    session = {"files": [{"name": file, "text": text}], "clients": [[{"ask": "expand", "name": file}]]}
    with open(f"{work}/{name}.json", "w") as out:
        json.dump(session, out)
    names.append(name)

# definitions that are not of their form and go on over all lines
write("define-no-name", "", "`define 1\\\n")
write("define-no-formal", "", "`define A(1\\\n")
write("define-open-formals", "", "`define A(a,\\\n")
write("define-open-default", "", "`define A(a=(\\\n")
write("define-open-comment", "", "`define /*\\\n")
write("define-comment-in-formals", "", "`define A(/*\\\n")
write("define-two-formals-alike", "", "`define A(a,a)\\\n")
write("define-one-line-comments", "", "`define 1//\\\n")
# a comment without an end between the parts of a directive
for word in ["ifdef", "ifndef", "elsif", "undef", "include", "default_nettype", "unconnected_drive"]:
    write(f"{word}-open-comment", "", f"`{word} /*\n")
write("skipped-open-comment", "`ifdef A\n", "`elsif /*\n")
# names and lists
write("include-open-name", "", "`include \"a\n")
write("long-names", "", "`ifdef " + "a" * 2000 + "\n")
write("actuals-open", "`define M(a) a\n", "`M((\n")
write("actuals-missing", "`define M(a) a\n", "`M\n")
write("actuals-brackets", "`define M(a)\n", "`M([({)\n")
write("many-macros", "".join(f"`define m{i}\n" for i in range(60000)), "`undefineall\n")
# uses that give little
write("use-long-text", "`define J " + "``" * 250000 + "\n", "`J\n")
write("use-many-words", "`define J(a,b=) " + "a``" * 150000 + "\n", "`J()\n")
write("use-many-formals", "`define M(" + ",".join(f"a{i}=" for i in range(70000)) + ")\n", "`M()\n")
write("use-many-actuals", "`define M(" + ",".join(f"a{i}=" for i in range(70000)) + ")\n", "`M(x)\n")
write("use-too-few", "`define M(" + ",".join(f"a{i}=" for i in range(70000)) + ",b)\n", "`M()\n")
write("use-many-actuals-given", "`define M(" + ",".join(f"a{i}=" for i in range(70000)) + ")\n", "`M(" + "," * 1000 + ")\n")
write("use-deep", "".join(f"`define m{i} `m{i + 1}\n" for i in range(62)) + "`define e\n`define m62 " + "`e" * 400000 + "\n", "`m0\n")
write("use-undefined", "", "`u\n")
write("file-names", "", "`__FILE__\n", "f" * 255)
write("line-numbers", "", "`__LINE__\n")
# conditionals
write("else-alone", "", "`else\n")
write("else-chain", "`ifdef A\n", "`else\n")
write("elsif-chain", "`ifdef A\n", "`elsif B\n")
write("elsif-taken", "`ifndef A\n", "`elsif B\n")
write("ifdef-nested", "", "`ifdef A\n")
write("ifndef-nested", "", "`ifndef A\n")
write("endif-alone", "", "`endif\n")
write("skipped-uses", "`ifdef A\n", "`a `\n")
# what stands between directives
write("includes-itself", "", "`include \"a.sv\"\n")
write("includes-absent", "", "`include \"b.sv\"\n")
write("backticks", "", "`\n")
write("strings-open", "", "\"\\\n")
write("comments-open", "", "/*`a\n")
write("net-types", "", "`resetall\n")

with open(f"{work}/names", "w") as out:
    out.write("".join(f"{name}\n" for name in names))
END

slow=0
while read -r name; do
    seconds=$(/usr/bin/time -f %e timeout 60 "$program" run <"$work/$name.json" 2>&1 >"$work/report" | tail -n 1)
    echo "$name: $seconds s, report of $(wc -c <"$work/report") bytes"
    if [ "$(awk -v s="$seconds" 'BEGIN { print (s > 2) }')" = 1 ]; then
        echo "  more than two seconds"
        slow=1
    fi
done <"$work/names"
exit $slow
