// Answers ICMP echo requests.
#include "xdp.h"

struct echo {
    __u8 type, code;
    __u16 checksum;
};

SECTION("xdp") int answer_ping(struct xdp_md *context) {
    struct ethernet *eth = START(context);
    struct iphdr *ip = ipv4_of(context);
    if (!ip || ip->protocol != IPPROTO_ICMP)
        return XDP_PASS;
    struct echo *echo = (void *)(ip + 1);
    if ((void *)(echo + 1) > END(context) || echo->type != 8 || echo->code)
        return XDP_PASS;
#pragma unroll
    for (int i = 0; i < 6; i++) {
        __u8 other = eth->to[i];
        eth->to[i] = eth->from[i];
        eth->from[i] = other;
    }
    __u32 address = ip->saddr;
    ip->saddr = ip->daddr;
    ip->daddr = address;
    echo->checksum = changed(echo->checksum, 8, 0);
    echo->type = 0;
    return XDP_TX;
}
