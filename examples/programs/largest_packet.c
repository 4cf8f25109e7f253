// Keeps the length of the longest packet of each protocol. The entry is changed by compare and exchange.
#include "xdp.h"

MAP(longest, BPF_MAP_TYPE_ARRAY, __u32, __u64, 256);

SECTION("xdp") int largest_packet(struct xdp_md *context) {
    struct iphdr *ip = ipv4_of(context);
    if (!ip)
        return XDP_PASS;
    __u32 protocol = ip->protocol;
    __u64 length = END(context) - START(context);
    __u64 *most = map_lookup(&longest, &protocol);
    if (!most)
        return XDP_PASS;
    __u64 before = *most;
    if (before < length)
        __sync_val_compare_and_swap(most, before, length);
    return XDP_PASS;
}
