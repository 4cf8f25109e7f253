// Drops the packets of the IPv4 sources of a map, and counts them there.
#include "xdp.h"

MAP(blocked, BPF_MAP_TYPE_HASH, __u32, __u64, 256);

SECTION("xdp") int block_sources(struct xdp_md *context) {
    struct iphdr *ip = ipv4_of(context);
    if (!ip)
        return XDP_PASS;
    __u32 source = ip->saddr;
    __u64 *count = map_lookup(&blocked, &source);
    if (!count)
        return XDP_PASS;
    __sync_fetch_and_add(count, 1);
    return XDP_DROP;
}
