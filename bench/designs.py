"""Makes the designs that bench/front.sh measures: designs.py FOLDER COUNT writes COUNT modules of 40 lines, one a file, each of which
holds the next two of a binary tree; designs.py FOLDER one writes one file of 20,000 lines; and FOLDER.json beside it is a session with
these files that asks for its diagnostics."""
import json
import os
import sys

MODULE = """module m{i} #(
    parameter int W = 8,
    parameter int N = {n}
) (
    input  logic clk,
    input  logic rst,
    input  logic [W-1:0] a,
    input  logic [W-1:0] b,
    output logic [W-1:0] q
);
  localparam int HALF = W / 2;
  typedef enum logic [1:0] {{IDLE, RUN, STOP}} state_t;
  state_t state, next_state;
  logic [W-1:0] sum, product, mixed;
  logic [W-1:0] stage [N];
  assign sum = a + b;
  assign product = (a & b) | (a ^ {{W{{rst}}}});
  assign mixed = {{sum[HALF-1:0], product[W-1:HALF]}};
  always_comb begin
    next_state = state;
    case (state)
      IDLE: if (a > b) next_state = RUN;
      RUN: if (b == '0) next_state = STOP;
      default: next_state = IDLE;
    endcase
  end
  always_ff @(posedge clk) begin
    if (rst) begin
      state <= IDLE;
      q <= '0;
    end else begin
      state <= next_state;
      q <= mixed ^ (sum << 1);
    end
  end
  generate
    for (genvar g = 0; g < N; g++) begin : lane
      assign stage[g] = (a >> g) + W'(g);
    end
  endgenerate
{children}endmodule
"""


def module(i, count):
    children = "".join(
        f"  m{c} #(.W(W)) u{c} (.clk(clk), .rst(rst), .a(sum), .b(product), .q());\n" for c in (2 * i + 1, 2 * i + 2) if c < count
    )
    return MODULE.format(i=i, n=2 + i % 5, children=children)


def main():
    folder, what = sys.argv[1:]
    os.makedirs(folder)
    if what == "one":
        files = [("design.sv", "\n".join(module(i, 500) for i in range(500)))]
    else:
        files = [(f"m{i}.sv", module(i, int(what))) for i in range(int(what))]
    for name, text in files:
        with open(f"{folder}/{name}", "w") as out:
            out.write(text)
    with open(f"{folder}.json", "w") as out:
        files = [{"name": name, "text": text} for name, text in files]
        json.dump({"files": files, "clients": [[{"ask": "diagnostics"}]]}, out)


main()
