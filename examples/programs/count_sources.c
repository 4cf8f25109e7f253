// Counts the packets of each IPv4 source, of as many as the map holds.
#include "xdp.h"

MAP(sources, BPF_MAP_TYPE_HASH, __u32, __u64, 256);

SECTION("xdp") int count_sources(struct xdp_md *context) {
    struct iphdr *ip = ipv4_of(context);
    if (!ip)
        return XDP_PASS;
    __u32 source = ip->saddr;
    __u64 *count = map_lookup(&sources, &source);
    if (count) {
        __sync_fetch_and_add(count, 1);
    } else {
        __u64 first = 1;
        map_update(&sources, &source, &first, BPF_NOEXIST);
    }
    return XDP_PASS;
}
