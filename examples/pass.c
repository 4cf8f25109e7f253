// Gives every packet on to the network stack.
#include <linux/bpf.h>

__attribute__((section("xdp"), used)) int pass(struct xdp_md *context) {
    return XDP_PASS;
}
