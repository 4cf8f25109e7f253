// Drives the module over so many clocks with the inputs of held.v, and prints the same line.
#include "Vehdl.h"
#include "verilated.h"
#include <cstdio>
#include <cstdlib>

int main(int argc, char **argv) {
    if (argc != 2)
        return 2;
    const long clocks = std::atol(argv[1]);
    Vehdl dut;
    dut.in_valid = 1;
    dut.in_data = 170;
    dut.in_bytes = 1;
    dut.in_last = 1;
    dut.in_ifindex = 1;
    dut.in_time = 0;
    dut.out_ready = 1;
    dut.host_write = 0;
    dut.host_map = 0;
    dut.host_index = 0;
    dut.host_word = 0;
    dut.host_data = 0;
    dut.clk = 0;
    dut.eval();
    for (long n = 1; n < clocks; ++n) {
        dut.clk = 1;
        dut.eval();
        dut.clk = 0;
        dut.eval();
    }
    std::printf("%x %x %016llx %x %x %08x %08x %x %016llx %x %08x\n", dut.in_ready, dut.out_valid, (unsigned long long)dut.out_data,
                dut.out_bytes, dut.out_last, dut.out_verdict, dut.out_target, dut.out_reload, (unsigned long long)dut.host_value,
                dut.host_ready, dut.host_passed);
    return 0;
}
