// A hop of a router: takes one from the time to live, keeps the checksum right, and drops what has none left.
#include "xdp.h"

SECTION("xdp") int router_hop(struct xdp_md *context) {
    struct iphdr *ip = ipv4_of(context);
    if (!ip)
        return XDP_PASS;
    if (ip->ttl <= 1)
        return XDP_DROP;
    __u16 before = ip->ttl;
    ip->ttl -= 1;
    ip->check = changed(ip->check, before, ip->ttl);
    return XDP_TX;
}
