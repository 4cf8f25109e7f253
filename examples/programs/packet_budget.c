// Lets so many packets of each source pass as its entry allows, and drops the others. The host fills the budgets.
#include "xdp.h"

MAP(budgets, BPF_MAP_TYPE_HASH, __u32, __u64, 256);

SECTION("xdp") int packet_budget(struct xdp_md *context) {
    struct iphdr *ip = ipv4_of(context);
    if (!ip)
        return XDP_PASS;
    __u32 source = ip->saddr;
    __u64 *left = map_lookup(&budgets, &source);
    if (!left || !*left)
        return XDP_DROP;
    *left -= 1;
    return XDP_PASS;
}
