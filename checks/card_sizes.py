#!/usr/bin/env python3
"""Counts what texts and the wrapper of card/ take of a chip, by Yosys for Xilinx' 7 series: `checks/card sizes [PROGRAM..]`.

A line of a Markdown table for each of eight programs (or of those named), for one of them with smaller hashes too, and for the wrapper alone. Look-up tables and
flip-flops are counted with the memories as they are: `synth_xilinx` from its beginning to `map_memory`, then from `fine` on. What memories become is counted
apart: `synth_xilinx` from `map_memory` to `map_ffram`. Of RAM64M four look-up tables are taken each, as of RAM32M; others are named as they are. The selection
between the parts of a deep memory is in neither count.
Loops that set words of a memory to 0 are left out of a text, since Yosys unrolls them: a memory of these chips begins with zeros where nothing is said.
Ends with 0 where Yosys is missing.
"""
import json
import os
import re
import shutil
import subprocess
import sys
import tempfile
import time

ROOT = os.path.dirname(os.path.dirname(os.path.abspath(__file__)))
BUILT = os.path.join(ROOT, "crates/ehdl/out/ehdl")
EHDL = BUILT if os.access(BUILT, os.X_OK) else os.path.join(ROOT, "ehdl")
CARD = os.path.join(ROOT, "card")
PROGRAMS = ["pass", "drop_fragments", "swap_addresses", "count_protocols", "load_balancer", "sequence_numbers", "count_sources", "syn_flood"]
SMALLER = ("count_sources", [16, 64])
SYNTH = "synth_xilinx -family xc7 -flatten -noiopad -noclkbuf -run "
SCRIPT = """hierarchy -check -top %s
%sbegin:map_memory
write_json memories.json
design -save read
%smap_memory:map_ffram
tee -q -o became.txt stat
design -load read
memory_unpack
%sfine:check
tee -q -o logic.txt stat
"""


def shorter(text):
    """The text without the loops that set words to 0."""
    return re.sub(r"^initial for \((\w+) = 0; \1 < \d+; \1 = \1 \+ 1\) \w+\[\1\] = \d+'d0;\n", "", text, flags=re.M)


def cells(path):
    """How many cells of each kind there are, by the last statistics of a file."""
    with open(path) as lines:
        return {found[1]: int(found[2]) for found in re.finditer(r"^ +(\S+) +(\d+)$", lines.read().split("Number of cells:")[-1], re.M)}


def memories(path, top):
    """The memories with more words than one, `ports` reads at a time: words x bits."""
    with open(path) as file:
        module = json.load(file)["modules"][top]
    said = {}
    for cell in module["cells"].values():
        if cell["type"] == "$mem_v2":
            words, bits, reads = (int(cell["parameters"][name], 2) for name in ("SIZE", "WIDTH", "RD_PORTS"))
            clocked = "1" in cell["parameters"]["RD_CLK_ENABLE"]
            key = "%d x %d%s%s" % (words, bits, ", %d reads" % reads if reads > 1 else "", ", read into a register" if clocked else "")
            said[key] = said.get(key, 0) + 1
    return "; ".join(key if count == 1 else "%d of %s" % (count, key) for key, count in sorted(said.items(), key=lambda item: -int(item[0].split(" x ")[0]))) or "none"


def synthesize(folder, top, reading):
    """The cells of a row of the table."""
    with open(os.path.join(folder, "script.ys"), "w") as out:
        out.write(reading + SCRIPT % (top, SYNTH, SYNTH, SYNTH))
    done = subprocess.run(["yosys", "-q", "script.ys"], cwd=folder, stdout=subprocess.PIPE, stderr=subprocess.STDOUT, text=True)
    if done.returncode:
        sys.exit("checks/card sizes: %s" % done.stdout[-1000:])
    logic, became = cells(os.path.join(folder, "logic.txt")), cells(os.path.join(folder, "became.txt"))
    luts = sum(count for name, count in logic.items() if re.fullmatch(r"LUT\d", name))
    flops = sum(count for name, count in logic.items() if re.fullmatch(r"FD[A-Z]+", name))
    other = ["%d %s" % (logic[name], name) for name in sorted(logic) if re.match(r"DSP", name)]
    rams = {name: count for name, count in became.items() if name.startswith("RAM")}
    small = 4 * (rams.pop("RAM64M", 0) + rams.pop("RAM32M", 0))
    into = (["%s LUTs" % format(small, ",")] if small else []) + ["%d %s" % (count, name) for name, count in sorted(rams.items())]
    return [format(luts, ",") + "".join(", " + name for name in other), format(flops, ","), memories(os.path.join(folder, "memories.json"), top), " and ".join(into) or "nothing"]


def row(folder, program, cap):
    path = [os.path.join(ROOT, "examples", where, program + ".o") for where in ("", "programs")]
    path = path[0] if os.path.exists(path[0]) else path[1]
    words = ["--object", path] + (["--hash-cap", str(cap)] if cap else [])
    if subprocess.run([EHDL, "compile", *words, "--verilog", "text.v"], cwd=folder).returncode:
        sys.exit("checks/card sizes: %s is not built" % program)
    said = subprocess.run([EHDL, "report", "--object", path], cwd=folder, stdout=subprocess.PIPE, text=True).stdout
    stages = re.search(r"^stages (\d+)$", said, re.M)[1]
    with open(os.path.join(folder, "text.v")) as text, open(os.path.join(folder, "shorter.v"), "w") as out:
        out.write(shorter(text.read()))
    return ["`%s`%s" % (program, ", `--hash-cap %d`" % cap if cap else ""), stages, *synthesize(folder, "ehdl", "read_verilog shorter.v\n")]


def wrapper(folder):
    """The wrapper around a box: the ports of a text, and nothing in it."""
    with open(os.path.join(folder, "shorter.v")) as text, open(os.path.join(folder, "box.v"), "w") as out:
        out.write("(* blackbox *)\n" + text.read().split(");\n")[0] + ");\nendmodule\n")
    reading = "read_verilog box.v %s %s\n" % (os.path.join(CARD, "axis_slice.v"), os.path.join(CARD, "ehdl_axis.v"))
    return ["the wrapper, without the module", "", *synthesize(folder, "ehdl_axis", reading)]


def main():
    if not shutil.which("yosys"):
        print("checks/card sizes: no Yosys here, nothing counted")
        return
    named = sys.argv[1:] or PROGRAMS
    print(subprocess.run(["yosys", "-V"], stdout=subprocess.PIPE, text=True).stdout.strip())
    print("| text | stages | LUTs | flip-flops | memories (words x bits) | become |\n|---|---|---|---|---|---|")
    with tempfile.TemporaryDirectory() as folder:
        for program in named:
            for cap in [None] + (SMALLER[1] if program == SMALLER[0] else []):
                start = time.monotonic()
                print("| " + " | ".join(row(folder, program, cap)) + " |", flush=True)
                print("checks/card sizes: %s: %d seconds" % (program, time.monotonic() - start), file=sys.stderr)
        print("| " + " | ".join(wrapper(folder)) + " |")


if __name__ == "__main__":
    main()
