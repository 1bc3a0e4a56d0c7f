#!/bin/sh
# How long the parsers take from tokens to trees on 1 MiB of declarations with expressions, beside how long the lexer takes for
# the tokens. It proves and builds a small program in a temporary folder, over copies of the crates, and runs it.
# It needs python3.
here=$(cd "$(dirname "$0")/.." && pwd) || exit 1
work=$(mktemp -d) || exit 1
trap 'rm -rf "$work"' EXIT

python3 - "$work/source.sv" <<'END'
import sys

names = ["WIDTH", "DEPTH", "ADDR", "MASK", "MODE", "COUNT", "LIMIT", "FIRST", "LAST", "STEP"]
lines = []
size = 0
number = 0
while size < 1 << 20:
    n = number
    a, b, c, d = (f"{names[(n * k + k) % len(names)]}_{n % 97}" for k in (3, 7, 1, 9))
    block = f"""
// Sizes of stage {n}.
localparam {a}_a = {b};
localparam int {a}_b = {n % 64}, {a}_c = {b} + 1;
parameter logic [{c} - 1 : 0] {a}_d = ({b} << 2) + {c} * {d} - {n % 7};
localparam {a}_e = {b} > {c} ? {d} : {{{a}, {b}[{n % 8} : 0]}};
parameter bit signed [7 : 0] {a}_f = 8'h{n % 256:02x} & ~{b} | {c} ^ p::{d};
localparam {a}_g = $clog2({b}) + f({c}, {d}[{a}]) == {n % 5} && {b} inside {{[{c} : {d}], {a}}};
localparam {a}_h = '{{default : 0}}, {a}_i = int'({b}) ** 2, {a}_j = !{c} || ({d} -> {a});
"""
    lines.append(block)
    size += len(block)
    number += 1
with open(sys.argv[1], "w") as out:
    out.write("".join(lines))
END

mkdir -p "$work/crates/parse_bench/src"
for crate in sve_bytes sve_diag sve_origin sve_token sve_lex sve_grammar sve_tree sve_parse_word sve_parse_expr sve_parse_type sve_parse_decl; do
    cp -a "$here/crates/$crate" "$work/crates/"
    grep "^$crate:" "$here/crates.txt" >>"$work/crates.txt"
done
echo "parse_bench: anyhow sve_bytes sve_diag sve_origin sve_token sve_lex sve_grammar sve_tree sve_parse_expr sve_parse_type sve_parse_decl" >>"$work/crates.txt"
cat >"$work/crates/parse_bench/src/main.rt" <<'END'
//! Lexes standard input and reads its tokens as declarations of parameters, twenty times. It prints how many tokens and
//! declarations there are, and how many microseconds the lexer took and how many the parsers, with the drop of each tree.
#![tactic(auto)]

use anyhow::{Result, bail, ensure};
use std::alloc::Global;
use std::io::Read;
use std::time::Instant;
use sve_bytes::{List, Name, NoMemory};
use sve_lex::lex;
use sve_origin::{Expanded, Output};
use sve_parse_decl::parameter_declaration;
use sve_token::Token;

fn expanded(alloc: Global, bytes: &[u8], file: &Name) -> Result<Expanded, NoMemory> {
    let mut output = Output::new(alloc);
    let mut offset = 0u32;
    for piece in bytes.chunks(240) {
        let total = output.len();
        if 0 < piece.len() && piece.len() < 1000 && total < 1_000_000_000 && offset < 1_000_000_000 {
            output.push(piece, file, offset, true)?;
            offset += 250;
        }
    }
    Ok(Expanded::of(output, List::of(Vec::new(alloc)), List::of(Vec::new(alloc))))
}

/// How many declarations the tokens are.
fn declarations(alloc: Global, tokens: &[Token]) -> Result<u32> {
    ensure!(tokens.len() < 1_000_000_000, "too many tokens");
    let mut at = 0u32;
    for count in 0..u32::MAX {
        if at as usize >= tokens.len() {
            return Ok(count);
        }
        match parameter_declaration(alloc, tokens, at, 0) {
            Ok((_, end)) => at = end,
            Err(_) => bail!("declaration {count} has no tree"),
        }
    }
    bail!("too many declarations")
}

fn main(rt: HostRuntime) -> Result<()> {
    let alloc = rt.alloc();
    let mut bytes = Vec::new(alloc);
    rt.stdin().read_to_end(&mut bytes)?;
    ensure!(!bytes.is_empty(), "no source");
    let file = Name::of(alloc, b"bench.sv")?;
    let text = expanded(alloc, &bytes, &file)?;
    for _ in 0..20 {
        let start = Instant::now(&rt)?;
        let tokens = lex(alloc, &text)?;
        let lexed = start.elapsed(&rt)?.as_micros();
        let start = Instant::now(&rt)?;
        let read = declarations(alloc, tokens.items())?;
        let parsed = start.elapsed(&rt)?.as_micros();
        let count = tokens.items().len();
        println!(rt; "{count} {read} {lexed} {parsed}")?;
    }
    Ok(())
}
END
(cd "$work/crates/parse_bench" && rt run <"$work/source.sv" >"$work/first" 2>"$work/log") || {
    cat "$work/log" >&2
    exit 1
}
size=$(wc -c <"$work/source.sv")
"$work/crates/parse_bench/out/parse_bench" <"$work/source.sv" >"$work/rounds"
awk -v size="$size" '
    NR == 1 || $3 < lexed { lexed = $3 }
    NR == 1 || $4 < parsed { parsed = $4 }
    { count = $1; read = $2 }
    END {
        printf "%d bytes, %d tokens, %d declarations, best of twenty rounds\n", size, count, read
        printf "lexer:   %d microseconds, %.2f million tokens a second\n", lexed, count / lexed
        printf "parsers: %d microseconds, %.2f million tokens a second\n", parsed, count / parsed
    }' "$work/rounds"
