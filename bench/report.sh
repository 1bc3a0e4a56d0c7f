#!/bin/sh
# Seconds, megabytes of report for each second of processor, and peak memory of the built program on sessions with large
# answers: a text of a million line feeds asked for 40 times, and 7 MiB of source asked for 12 times. With a program as an
# argument, that one is measured in place of `svserve`. It needs python3 and GNU time.
. "$(dirname "$0")/common.sh" || exit 1

python3 - "$work" <<'END'
import json, sys

work = sys.argv[1]
line = "  assign q = (a & b) | (c ^ d); // 64 bytes of text, more or less\n"

def write(name, files, asks):
    with open(f"{work}/{name}.json", "w") as out:
        json.dump({"files": files, "clients": [asks]}, out)

write("feeds", [{"name": "a.sv", "text": "\n" * 1_000_000}], [{"ask": "file", "name": "a.sv"}] * 40)
write("source", [{"name": f"m{i}.sv", "text": line * 15_000} for i in range(7)],
      [{"ask": "file", "name": f"m{i}.sv"} for i in range(7)] * 12)
END

for session in feeds source; do
    size=$(wc -c <"$work/$session.json")
    echo "$session: session of $size bytes"
    for _ in 1 2 3 4 5; do
        /usr/bin/time -o "$work/taken" -f '%e %M %U %S' "$program" run <"$work/$session.json" >"$work/report"
        report=$(wc -c <"$work/report")
        awk -v session="$size" -v report="$report" '{
            busy = $3 + $4 > 0 ? $3 + $4 : 0.01
            printf "  %s s, %.2f s of processor, %.0f MB of report for each, peak %d KiB, %.2f times session and report\n",
                $1, busy, report / 1e6 / busy, $2, $2 * 1024 / (session + report)
        }' "$work/taken"
    done
    echo "  report of $report bytes"
done
