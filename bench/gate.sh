#!/usr/bin/env bash
# Runs the gate with every proof and every edit anew, and prints how many seconds of one processor each crate took: its proofs,
# its tests and its must-fail edits. The gate says no times itself, so each second the provers that it started are asked how much
# they have used; of each, less than its last second is missed. The last lines are the gate's own. Names of crates, if given, are
# handed on to the gate.
set -euo pipefail
cd "$(dirname "$0")/.."

log=$(mktemp)
samples=$(mktemp)
trap 'rm -f "$log" "$samples"' EXIT
mark=GATE_RUN=$$

# One line for each prover of this run: which process it is, what it does, for which crate, and how many ticks it has used.
sample() {
    local pid words what used
    for pid in $(pgrep -x rattle || true); do
        tr '\0' '\n' 2>/dev/null <"/proc/$pid/environ" | grep -qx "$mark" || continue
        words=$(tr '\0' ' ' 2>/dev/null <"/proc/$pid/cmdline") || continue
        [[ $words =~ --crate-name\ ([a-z0-9_]+) ]] || continue
        case "$(readlink "/proc/$pid/cwd" || true) $words" in
            */rt-edit-*) what=edits ;;
            *" --test "*) what=tests ;;
            *) what=proofs ;;
        esac
        used=$(sed 's/.*) //' "/proc/$pid/stat" 2>/dev/null | awk '{ print $12 + $13, $20 }') || continue
        [[ -z $used ]] || echo "$pid.${used#* } $what ${BASH_REMATCH[1]} ${used% *}" >>"$samples"
    done
}

anew=()
# (grep -q would end the pipe early, and the pipe would count as failed)
help=$(rt help 2>&1 || true)
if [[ $help == *--anew* ]]; then
    anew=(--anew)
fi
env "$mark" rt ci "${anew[@]}" "$@" >"$log" 2>&1 &
gate=$!
while kill -0 "$gate" 2>/dev/null; do
    sample
    sleep 1
done
status=0
wait "$gate" || status=$?

awk -v tick="$(getconf CLK_TCK)" '
    { of[$1] = $2 " " $3; if ($4 > ticks[$1]) ticks[$1] = $4 }
    END {
        for (it in ticks) { split(of[it], is, " "); sum[is[2], is[1]] += ticks[it]; crates[is[2]]; all[is[1]] += ticks[it] }
        for (crate in crates)
            printf "%-18s %8.0f %8.0f %8.0f\n", crate, sum[crate, "proofs"] / tick, sum[crate, "tests"] / tick, sum[crate, "edits"] / tick | "sort -k2,2nr"
        close("sort -k2,2nr")
        printf "%-18s %8.0f %8.0f %8.0f\n", "all", all["proofs"] / tick, all["tests"] / tick, all["edits"] / tick
    }' "$samples" | { printf '%-18s %8s %8s %8s\n' crate proofs tests edits; cat; }
tail -n 2 "$log"
exit "$status"
