// Hides the payload of UDP datagrams from port 1812: zeroes its first 32 bytes, and leaves the checksum out.
#include "xdp.h"

SECTION("xdp") int strip_payload(struct xdp_md *context) {
    struct iphdr *ip = ipv4_of(context);
    if (!ip || ip->protocol != IPPROTO_UDP)
        return XDP_PASS;
    struct udphdr *udp = (void *)(ip + 1);
    __u8 *payload = (void *)(udp + 1);
    if ((void *)(payload + 32) > END(context) || udp->source != NET16(1812))
        return XDP_PASS;
#pragma unroll
    for (int i = 0; i < 32; i++)
        payload[i] = 0;
    udp->check = 0;
    return XDP_PASS;
}
