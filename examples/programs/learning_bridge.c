// Notes by which interface each sender is reached, and sends frames to where their receiver was seen; others pass to the stack.
#include "xdp.h"

MAP(stations, BPF_MAP_TYPE_HASH, __u64, __u32, 256);

INLINE __u64 station(const __u8 *mac) {
    __u64 number = 0;
#pragma unroll
    for (int i = 0; i < 6; i++)
        number = number << 8 | mac[i];
    return number;
}

SECTION("xdp") int learning_bridge(struct xdp_md *context) {
    struct ethernet *eth = START(context);
    if ((void *)(eth + 1) > END(context))
        return XDP_DROP;
    __u64 from = station(eth->from), to = station(eth->to);
    __u32 here = context->ingress_ifindex;
    map_update(&stations, &from, &here, BPF_ANY);
    __u32 *there = map_lookup(&stations, &to);
    if (!there || *there == here)
        return XDP_PASS;
    return redirect(*there, 0);
}
