// Opens TCP port 22 to sources that have sent to the ports 7001, 7002 and 7003, in this order.
#include "xdp.h"

MAP(progress, BPF_MAP_TYPE_HASH, __u32, __u32, 256);

SECTION("xdp") int port_knocker(struct xdp_md *context) {
    struct iphdr *ip = ipv4_of(context);
    if (!ip || ip->protocol != IPPROTO_TCP)
        return XDP_PASS;
    struct tcphdr *tcp = (void *)(ip + 1);
    if ((void *)(tcp + 1) > END(context))
        return XDP_DROP;
    __u32 source = ip->saddr;
    __u32 *knocks = map_lookup(&progress, &source);
    __u32 so_far = knocks ? *knocks : 0;
    __u16 port = NET16(tcp->dest);
    if (port == 22)
        return so_far == 3 ? XDP_PASS : XDP_DROP;
    if (so_far == 3)
        return XDP_PASS;
    __u32 next = port == 7001 ? 1 : port == 7002 && so_far == 1 ? 2 : port == 7003 && so_far == 2 ? 3 : 0;
    if (next)
        map_update(&progress, &source, &next, BPF_ANY);
    else
        map_delete(&progress, &source);
    return XDP_DROP;
}
