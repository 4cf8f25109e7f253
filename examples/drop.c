// Drops every packet.
#include <linux/bpf.h>

__attribute__((section("xdp"), used)) int drop(struct xdp_md *context) {
    return XDP_DROP;
}
