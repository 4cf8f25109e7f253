// Counts packets by their source, IPv4 in one map and the rest in another: the map of the lookup is chosen by a test.
#include "xdp.h"

MAP(others, BPF_MAP_TYPE_HASH, __u32, __u64, 16);
MAP(sources, BPF_MAP_TYPE_HASH, __u32, __u64, 16);

SECTION("xdp") int count_in_two_maps(struct xdp_md *context) {
    struct ethernet *eth = START(context);
    if ((void *)(eth + 1) + 20 > END(context))
        return XDP_DROP;
    __u32 key = *(__u32 *)((void *)(eth + 1) + 12);
    void *map = eth->kind == NET16(ETH_P_IP) ? (void *)&sources : (void *)&others;
    __u64 *count = map_lookup(map, &key);
    if (!count)
        return XDP_DROP;
    __sync_fetch_and_add(count, 1);
    return XDP_PASS;
}
