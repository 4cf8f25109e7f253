// Drops fragments of IPv4 datagrams.
#include "xdp.h"

SECTION("xdp") int drop_fragments(struct xdp_md *context) {
    struct iphdr *ip = ipv4_of(context);
    if (!ip)
        return XDP_PASS;
    return ip->frag_off & NET16(0x3fff) ? XDP_DROP : XDP_PASS;
}
