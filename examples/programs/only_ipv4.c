// Lets IPv4 and ARP pass, and drops what else there is.
#include "xdp.h"

SECTION("xdp") int only_ipv4(struct xdp_md *context) {
    struct ethernet *eth = START(context);
    if ((void *)(eth + 1) > END(context))
        return XDP_DROP;
    return eth->kind == NET16(ETH_P_IP) || eth->kind == NET16(ETH_P_ARP) ? XDP_PASS : XDP_DROP;
}
