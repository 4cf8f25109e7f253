// Counts IPv4 packets by a field of the packet, and all others under one number: the key of the lookup stands in the packet or on the stack.
#include "xdp.h"

MAP(counts, BPF_MAP_TYPE_HASH, __u32, __u64, 16);

SECTION("xdp") int count_by_key(struct xdp_md *context) {
    struct ethernet *eth = START(context);
    if ((void *)(eth + 1) + 20 > END(context))
        return XDP_DROP;
    __u32 others = 7;
    __u64 *count;
    if (eth->kind == NET16(ETH_P_IP))
        count = map_lookup(&counts, (void *)(eth + 1) + 2);
    else
        count = map_lookup(&counts, &others);
    if (!count)
        return XDP_DROP;
    __sync_fetch_and_add(count, 1);
    return XDP_PASS;
}
