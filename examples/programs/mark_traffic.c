// Sets the service class of UDP datagrams from port 5004 to expedited forwarding, and keeps the header's checksum right.
#include "xdp.h"

SECTION("xdp") int mark_traffic(struct xdp_md *context) {
    struct iphdr *ip = ipv4_of(context);
    if (!ip || ip->protocol != IPPROTO_UDP)
        return XDP_PASS;
    struct udphdr *udp = (void *)(ip + 1);
    if ((void *)(udp + 1) > END(context) || udp->source != NET16(5004))
        return XDP_PASS;
    __u16 before = *(__u16 *)ip;
    ip->tos = 46 << 2;
    ip->check = changed(ip->check, before, *(__u16 *)ip);
    return XDP_PASS;
}
