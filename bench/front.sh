#!/bin/sh
# Seconds and peak memory of the built program that is asked for the diagnostics of designs made by bench/designs.py, beside those of
# `iverilog -t null` and `verilator --lint-only` on the same files, where these are installed: 500 and 2,000 modules of 40 lines, one a
# file, and one file of 20,000 lines. With a program as an argument, that one is measured in place of `svserve`.
# It needs python3 and GNU time.
. "$(dirname "$0")/common.sh" || exit 1

# Runs these words three times in the folder, and prints seconds of processor and peak memory.
timed() {
    for _ in 1 2 3; do
        /usr/bin/time -f '  %U s of processor, peak %M KiB' "$@" >"$work/out" 2>"$work/err" || true
        tail -n 1 "$work/err"
    done
}

for design in 500 2000 one; do
    python3 "$here/bench/designs.py" "$work/$design" "$design" || exit 1
    echo "$design: $(cat "$work/$design"/*.sv | wc -l) lines"
    cd "$work/$design" || exit 1
    echo ' svserve'
    for _ in 1 2 3; do
        /usr/bin/time -f '  %U s of processor, peak %M KiB' "$program" run <"$work/$design.json" >"$work/report"
    done
    if command -v iverilog >/dev/null; then
        echo ' iverilog -t null'
        timed iverilog -g2012 -t null ./*.sv
    fi
    if command -v verilator >/dev/null; then
        echo ' verilator --lint-only'
        timed verilator --lint-only --top-module m0 -Wno-fatal -Wno-lint ./*.sv
    fi
done
