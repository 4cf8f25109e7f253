"""A text of about so many wires, in the subset: chains of up to 200 wires, wide layers, a memory. It never answers.

Called with the number of wires. The same number gives the same text. Every wire is read by a later one or stored, and what
is stored is read in the next clock, so that no simulator can leave any of it out. A chain reads its own last wire once in
each wire, and else constants: an event-driven simulator would value the end of another chain again and again in each clock.
"""
import random
import sys

PORTS = ("clk in_valid in_data in_bytes in_last in_ifindex in_time in_ready out_ready out_valid out_data out_bytes out_last out_verdict "
         "out_target out_reload host_write host_map host_index host_word host_data host_value host_ready host_passed").split()
WIDTHS = {"in_data": 64, "in_bytes": 4, "in_ifindex": 32, "in_time": 64, "out_data": 64, "out_bytes": 4, "out_verdict": 32, "out_target": 32,
          "host_map": 4, "host_index": 16, "host_word": 4, "host_data": 64, "host_value": 64, "host_passed": 32}
OUTPUTS = "in_ready out_valid out_data out_bytes out_last out_verdict out_target out_reload host_value host_ready host_passed".split()


def bits(width):
    return "" if width == 1 else "[%d:0] " % (width - 1)


def header():
    sides = ["output" if name in OUTPUTS else "input" for name in PORTS]
    ports = ["  %s wire %s%s" % (side, bits(WIDTHS.get(name, 1)), name) for side, name in zip(sides, PORTS)]
    return "module ehdl (\n" + ",\n".join(ports) + "\n);\n"


class Text:
    def __init__(self, wires):
        self.source = random.Random(wires)
        self.wires = []
        self.constants = [self.wire(64, "64'd%d" % self.source.getrandbits(64)) for _ in range(4)]
        self.counts = [self.wire(7, "7'd%d" % self.source.randrange(1, 64)) for _ in range(2)]

    def wire(self, width, right):
        name = "w_%d" % len(self.wires)
        self.wires.append("wire %s%s = %s;" % (bits(width), name, right))
        return name

    # the next word of a chain
    def link(self, a):
        cut = self.source.randrange(20, 44)
        constant = self.source.choice(self.constants)
        return self.wire(64, self.source.choice([
            "(%s + %s)" % (a, constant),
            "(%s - %s)" % (constant, a),
            "(%s ^ %s)" % (a, constant),
            "~%s" % a,
            "{%s[%d:0], %s[63:%d]}" % (a, cut - 1, a, cut),
        ]))

    # a word of a layer, from two of the layer before
    def word(self, a, b):
        cut = self.source.randrange(20, 44)
        op = self.source.choice(["<", "<=", ">", ">=", "==", "!="])
        constant = self.source.choice(self.constants)
        return self.wire(64, self.source.choice([
            "(%s + %s)" % (a, b),
            "(%s - %s)" % (a, b),
            "((%s >> %s) ^ %s)" % (b, self.source.choice(self.counts), a),
            "(%s ^ (%s & %s))" % (a, b, constant),
            "{%s[%d:0], %s[63:%d]}" % (a, cut - 1, b, cut),
            "((%s %s %s) ? (%s + %s) : ~%s)" % (a, op, b, a, constant, b),
            "((%s[%d] ^ %s[%d]) ? %s : (%s + %s))" % (a, cut, b, cut, a, b, constant),
            "((%s[%d:0] %s %s[%d:0]) ? (%s - %s) : ~%s)" % (a, cut, op, b, cut, a, b, a),
        ]))


def text(wires):
    t = Text(wires)
    lanes = max(4, wires // 24)
    place = t.wire(8, "r_seed[23:16]")
    read = t.wire(64, "m_words[%s]" % place)
    half = wires // 2
    ends = []
    while len(t.wires) < half:
        end = t.wire(64, "(r_lane_%d + %s)" % (len(ends), read))
        for _ in range(min(200, half - len(t.wires))):
            end = t.link(end)
        ends.append(end)
    layer = ["r_lane_%d" % k for k in range(lanes)]
    while len(t.wires) < wires - lanes:
        turn = t.source.randrange(1, lanes)
        layer = [t.word(layer[k], layer[(k + turn) % lanes]) for k in range(lanes)]
    stored = layer[0]
    for end in ends:
        stored = t.wire(64, "(%s + %s)" % (stored, end))

    out = ["integer i_words;", "reg [63:0] r_seed = 64'd11400714819323198485;"]
    out += ["reg [63:0] r_lane_%d = 64'd%d;" % (k, t.source.getrandbits(64)) for k in range(lanes)]
    out += ["reg [63:0] m_words [0:255];", "initial for (i_words = 0; i_words < 256; i_words = i_words + 1) m_words[i_words] = 64'd7;"]
    out += t.wires
    shown = {"out_data": "r_seed", "out_bytes": "r_seed[3:0]", "out_verdict": "r_lane_0[31:0]", "out_target": "r_lane_1[63:32]",
             "out_reload": "r_seed[63]", "host_value": stored, "host_passed": "r_lane_0[63:32]"}
    out += ["assign %s = %s;" % (name, shown.get(name, "1'd0")) for name in OUTPUTS]
    out += ["always @(posedge clk) begin", "  r_seed <= ((r_seed + 64'd7046029254386353131) ^ (in_data + %s));" % stored,
            "  m_words[%s] <= %s;" % (place, stored)]
    out += ["  r_lane_%d <= (%s + r_seed);" % (k, layer[k]) for k in range(lanes)]
    return header() + "\n".join(out) + "\nend\nendmodule\n"


if __name__ == "__main__":
    sys.stdout.write(text(int(sys.argv[1])))
