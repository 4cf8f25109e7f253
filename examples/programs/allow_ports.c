// Lets TCP segments and UDP datagrams to the ports of a map pass, and drops those to others. Counts by port what passes.
#include "xdp.h"

MAP(allowed, BPF_MAP_TYPE_HASH, __u16, __u64, 64);

SECTION("xdp") int allow_ports(struct xdp_md *context) {
    struct iphdr *ip = ipv4_of(context);
    if (!ip)
        return XDP_PASS;
    struct udphdr *ports = (void *)(ip + 1);
    if (ip->protocol != IPPROTO_TCP && ip->protocol != IPPROTO_UDP)
        return XDP_PASS;
    if ((void *)(ports + 1) > END(context))
        return XDP_DROP;
    __u16 port = ports->dest;
    __u64 *count = map_lookup(&allowed, &port);
    if (!count)
        return XDP_DROP;
    __sync_fetch_and_add(count, 1);
    return XDP_PASS;
}
