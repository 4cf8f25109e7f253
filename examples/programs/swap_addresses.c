// Sends every frame back to where it came from.
#include "xdp.h"

SECTION("xdp") int swap_addresses(struct xdp_md *context) {
    struct ethernet *eth = START(context);
    if ((void *)(eth + 1) > END(context))
        return XDP_DROP;
#pragma unroll
    for (int i = 0; i < 6; i++) {
        __u8 other = eth->to[i];
        eth->to[i] = eth->from[i];
        eth->from[i] = other;
    }
    return XDP_TX;
}
