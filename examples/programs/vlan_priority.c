// Counts tagged frames by the priority of their tag, and sets that of VLAN 100 to 7.
#include "xdp.h"

MAP(priorities, BPF_MAP_TYPE_ARRAY, __u32, __u64, 8);

SECTION("xdp") int vlan_priority(struct xdp_md *context) {
    __u16 *frame = START(context);
    if ((void *)(frame + 8) > END(context) || frame[6] != NET16(ETH_P_8021Q))
        return XDP_PASS;
    __u16 tag = NET16(frame[7]);
    __u32 priority = tag >> 13;
    __u64 *count = map_lookup(&priorities, &priority);
    if (count)
        __sync_fetch_and_add(count, 1);
    if ((tag & 0xfff) == 100)
        frame[7] = NET16(tag | 0xe000);
    return XDP_PASS;
}
