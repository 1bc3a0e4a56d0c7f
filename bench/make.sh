#!/bin/sh
# Seconds and peak memory of the built program that makes and runs generated sessions of 500 and 2,000 modules, beside those of
# `iverilog -t null` on the opening files of the same session, where that is installed. `svserve` asks for all instances and all
# diagnostics, commits, and asks for one type; the other tool elaborates the files once. With a program as an argument, that one is
# measured in place of `svserve`. It needs GNU time.
. "$(dirname "$0")/common.sh" || exit 1

# Writes the opening files of the generated session of so many modules into the folder.
design() {
    mkdir "$2" || return 1
    echo 'package p; parameter W = 8; endpackage' >"$2/pkg.sv"
    {
        echo 'module top;'
        echo ' logic [p::W-1:0] x;'
        i=0
        while [ "$i" -lt "$1" ]; do
            echo "module leaf$i(input logic [p::W-1:0] a); endmodule" >"$2/leaf$i.sv"
            echo " leaf$i u$i(.a(x));"
            i=$((i + 1))
        done
        echo 'endmodule'
    } >"$2/top.sv"
}

for count in 500 2000; do
    echo "make $count"
    for _ in 1 2 3; do
        /usr/bin/time -f '  svserve: %U s of processor, peak %M KiB' "$program" make "$count" >"$work/summary"
    done
    sed 's/^/  /' "$work/summary"
    if command -v iverilog >/dev/null; then
        design "$count" "$work/$count" || exit 1
        (
            cd "$work/$count" || exit 1
            for _ in 1 2 3; do
                /usr/bin/time -f '  iverilog -t null: %U s of processor, peak %M KiB' iverilog -g2012 -t null pkg.sv leaf*.sv top.sv
            done
        )
    fi
done
