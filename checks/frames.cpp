// Offers the beats of a file, a frame of eight each, and takes every beat that is shown. Writes a line `INDEX VERDICT TARGET LENGTH` for each answer, as
// `ehdl run` does, and ends behind the last one.
#include "Vehdl.h"
#include "verilated.h"
#include <cstdio>
#include <cstdlib>
#include <vector>

int main(int argc, char **argv) {
    if (argc != 4)
        return 2;
    const unsigned long count = std::strtoul(argv[1], nullptr, 10);
    std::vector<unsigned long long> beats;
    std::FILE *in = std::fopen(argv[2], "r");
    std::FILE *out = std::fopen(argv[3], "w");
    if (!in || !out)
        return 2;
    unsigned long long beat;
    while (std::fscanf(in, "%llx", &beat) == 1)
        beats.push_back(beat);
    Vehdl dut;
    dut.in_bytes = 8;
    dut.in_ifindex = 1;
    dut.in_time = 0;
    dut.out_ready = 1;
    dut.host_write = 0;
    dut.host_map = 0;
    dut.host_index = 0;
    dut.host_word = 0;
    dut.host_data = 0;
    unsigned long next = 0, answers = 0, taken = 0;
    while (answers < count) {
        dut.in_valid = next < beats.size();
        dut.in_data = next < beats.size() ? beats[next] : 0;
        dut.in_last = next % 8 == 7;
        dut.clk = 0;
        dut.eval();
        if (dut.out_valid) {
            taken += dut.out_bytes;
            if (dut.out_last) {
                std::fprintf(out, "%lu %u %u %lu\n", answers++, dut.out_verdict, dut.out_target, taken);
                taken = 0;
            }
        }
        const bool over = dut.in_valid && dut.in_ready;
        dut.clk = 1;
        dut.eval();
        next += over;
    }
    std::fclose(out);
    return 0;
}
