# What the measurements share: each reads this file first. It makes a folder `work`, which goes when the script ends.
here=$(cd "$(dirname "$0")/.." && pwd) || exit 1
program=${1:-$here/svserve}
work=$(mktemp -d) || exit 1
trap 'rm -rf "$work"' EXIT

# Runs the program five times on each of these sessions of the folder, and prints seconds and peak memory.
measure() {
    for session; do
        size=$(wc -c <"$work/$session.json")
        echo "$session: session of $size bytes"
        for _ in 1 2 3 4 5; do
            /usr/bin/time -f '  %e s, peak %M KiB' "$program" run <"$work/$session.json" >"$work/report"
        done
        echo "  report of $(wc -c <"$work/report") bytes"
    done
}
