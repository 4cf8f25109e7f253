// Sends IPv4 packets back to their sender, behind a tag or none: swaps stations and addresses.
#include "xdp.h"

SECTION("xdp") int swap_behind_tag(struct xdp_md *context) {
    void *data = START(context), *end = END(context);
    if (data + 38 > end)
        return XDP_PASS;
    __u16 *station = data;
    struct iphdr *ip = data + 14;
    __u16 kind = station[6];
    if (kind == NET16(ETH_P_8021Q)) {
        kind = station[8];
        ip = data + 18;
    }
    if (kind != NET16(ETH_P_IP))
        return XDP_PASS;
    for (int i = 0; i < 3; i++) {
        __u16 word = station[i];
        station[i] = station[i + 3];
        station[i + 3] = word;
    }
    __u32 from = ip->saddr;
    ip->saddr = ip->daddr;
    ip->daddr = from;
    return XDP_TX;
}
