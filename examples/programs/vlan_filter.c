// Lets frames of the VLANs of a map pass, and drops those of others and those without a tag.
#include "xdp.h"

MAP(vlans, BPF_MAP_TYPE_ARRAY, __u32, __u8, 4096);

SECTION("xdp") int vlan_filter(struct xdp_md *context) {
    __u16 *frame = START(context);
    if ((void *)(frame + 8) > END(context) || frame[6] != NET16(ETH_P_8021Q))
        return XDP_DROP;
    __u32 vlan = NET16(frame[7]) & 0xfff;
    __u8 *is_allowed = map_lookup(&vlans, &vlan);
    return is_allowed && *is_allowed ? XDP_PASS : XDP_DROP;
}
