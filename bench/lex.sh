#!/bin/sh
# Tokens and megabytes a second of the lexer on 1 MiB of source of the usual kind, in one file whose expansion has a seam
# every few lines. It proves and builds a small program in a temporary folder, over copies of the crates, and runs it.
# It needs python3.
here=$(cd "$(dirname "$0")/.." && pwd) || exit 1
work=$(mktemp -d) || exit 1
trap 'rm -rf "$work"' EXIT

python3 - "$work/source.sv" <<'END'
import sys

names = ["clk", "rst_n", "data_in", "data_out", "valid", "ready", "addr", "count_q", "state_d", "fifo_full"]
lines = []
size = 0
number = 0
while size < 1 << 20:
    n = number
    a, b, c = (names[(n * k + k) % len(names)] for k in (3, 7, 1))
    block = f"""
// Stage {n}: takes a word when {a} is high, and holds it until {b}.
(* keep_hierarchy = "yes" *)
module stage_{n} #(parameter int WIDTH = {8 + n % 57}, parameter logic [3:0] MODE = 4'b{n % 16:04b}) (
    input  logic              clk,
    input  logic              rst_n,
    input  logic [WIDTH-1:0]  {a}_{n},
    output logic [WIDTH-1:0]  {b}_{n}
);
    localparam logic [31:0] MASK = 32'hFF00_{n % 65536:04X};
    logic [WIDTH-1:0] {c}_d, {c}_q;
    /* the next value: an addition
       and a shift */
    always_comb begin
        {c}_d = {c}_q;
        if ({a}_{n} != '0 && MODE[1] == 1'b1) {c}_d = ({a}_{n} <<< 2) + {c}_q ^ MASK[WIDTH-1:0];
        else case (MODE)
            4'd3, 4'd5: {c}_d = {c}_q >> 1;
            default: {c}_d = ~{a}_{n};
        endcase
    end
    always_ff @(posedge clk or negedge rst_n)
        if (!rst_n) {c}_q <= '0;
        else {c}_q <= {c}_d;
    assign {b}_{n} = {c}_q;
    initial $display("stage %0d: %h\\n", {n}, {c}_q);
endmodule : stage_{n}
"""
    lines.append(block)
    size += len(block)
    number += 1
with open(sys.argv[1], "w") as out:
    out.write("".join(lines)[: 1 << 20])
END

mkdir -p "$work/crates/lex_bench/src"
for crate in sve_bytes sve_diag sve_origin sve_token sve_lex; do
    cp -a "$here/crates/$crate" "$work/crates/"
done
cat >"$work/crates.txt" <<'END'
sve_bytes: thiserror
sve_diag: sve_bytes
sve_origin: sve_bytes sve_diag
sve_token: sve_bytes sve_diag
sve_lex: sve_bytes sve_diag sve_origin sve_token
lex_bench: anyhow sve_bytes sve_diag sve_origin sve_token sve_lex
END
cat >"$work/crates/lex_bench/src/main.rt" <<'END'
//! Lexes standard input twenty times and prints how many tokens there are and how many microseconds a round took.
#![tactic(auto)]

use anyhow::{Result, ensure};
use std::alloc::Global;
use std::io::Read;
use std::time::Instant;
use sve_bytes::{List, Name, NoMemory};
use sve_lex::lex;
use sve_origin::{Expanded, Output};

fn expanded(alloc: Global, bytes: &[u8], file: &Name) -> Result<Expanded, NoMemory> {
    let mut output = Output::new(alloc);
    let mut offset = 0u32;
    for piece in bytes.chunks(240) {
        let total = output.len();
        if 0 < piece.len() && piece.len() < 1000 && total < 1_000_000_000 && offset < 1_000_000_000 {
            output.push(piece, file, offset, true)?;
            offset += 250;
        }
    }
    Ok(Expanded::of(output, List::of(Vec::new(alloc)), List::of(Vec::new(alloc))))
}

fn main(rt: HostRuntime) -> Result<()> {
    let alloc = rt.alloc();
    let mut bytes = Vec::new(alloc);
    rt.stdin().read_to_end(&mut bytes)?;
    ensure!(!bytes.is_empty(), "no source");
    let file = Name::of(alloc, b"bench.sv")?;
    let text = expanded(alloc, &bytes, &file)?;
    for _ in 0..20 {
        let start = Instant::now(&rt)?;
        let tokens = lex(alloc, &text)?;
        let spent = start.elapsed(&rt)?.as_micros();
        let count = tokens.items().len();
        println!(rt; "{count} {spent}")?;
    }
    Ok(())
}
END
(cd "$work/crates/lex_bench" && rt run <"$work/source.sv" >"$work/first" 2>"$work/log") || {
    cat "$work/log" >&2
    exit 1
}
size=$(wc -c <"$work/source.sv")
"$work/crates/lex_bench/out/lex_bench" <"$work/source.sv" | sort -k2 -n | head -n 1 | while read -r count spent; do
    echo "$size bytes, $count tokens: $spent microseconds in the best of twenty rounds"
    awk -v size="$size" -v count="$count" -v spent="$spent" \
        'BEGIN { printf "%.1f MB/s, %.2f million tokens a second\n", size / spent, count / spent }'
done
