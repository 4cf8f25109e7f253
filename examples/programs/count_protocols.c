// Counts packets by the protocol in their IPv4 header.
#include "xdp.h"

MAP(packets, BPF_MAP_TYPE_ARRAY, __u32, __u64, 256);

SECTION("xdp") int count_protocols(struct xdp_md *context) {
    struct iphdr *ip = ipv4_of(context);
    if (!ip)
        return XDP_PASS;
    __u32 protocol = ip->protocol;
    __u64 *count = map_lookup(&packets, &protocol);
    if (count)
        __sync_fetch_and_add(count, 1);
    return XDP_PASS;
}
