// Gives packets of the inner addresses of a map an outer address, and keeps the checksums of IPv4 and of UDP right.
#include "xdp.h"

MAP(outer, BPF_MAP_TYPE_HASH, __u32, __u32, 64);

SECTION("xdp") int source_nat(struct xdp_md *context) {
    struct iphdr *ip = ipv4_of(context);
    if (!ip || ip->protocol != IPPROTO_UDP)
        return XDP_PASS;
    struct udphdr *udp = (void *)(ip + 1);
    if ((void *)(udp + 1) > END(context))
        return XDP_DROP;
    __u32 before = ip->saddr;
    __u32 *found = map_lookup(&outer, &before);
    if (!found)
        return XDP_PASS;
    __u32 after = *found;
    ip->check = changed(changed(ip->check, before, after), before >> 16, after >> 16);
    if (udp->check) {
        __u16 check = changed(changed(udp->check, before, after), before >> 16, after >> 16);
        udp->check = check ? check : 0xffff;
    }
    ip->saddr = after;
    return XDP_TX;
}
