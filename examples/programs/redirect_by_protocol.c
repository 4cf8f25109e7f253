// Sends UDP to interface 2 and TCP to interface 3.
#include "xdp.h"

SECTION("xdp") int redirect_by_protocol(struct xdp_md *context) {
    struct iphdr *ip = ipv4_of(context);
    if (!ip)
        return XDP_PASS;
    if (ip->protocol == IPPROTO_UDP)
        return redirect(2, 0);
    if (ip->protocol == IPPROTO_TCP)
        return redirect(3, 0);
    return XDP_PASS;
}
