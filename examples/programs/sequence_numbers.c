// Puts a number into the payload of UDP datagrams to port 9000: each gets the next one of its source port.
#include "xdp.h"

MAP(numbers, BPF_MAP_TYPE_ARRAY, __u32, __u64, 65536);

SECTION("xdp") int sequence_numbers(struct xdp_md *context) {
    struct iphdr *ip = ipv4_of(context);
    if (!ip || ip->protocol != IPPROTO_UDP)
        return XDP_PASS;
    struct udphdr *udp = (void *)(ip + 1);
    __u8 *payload = (void *)(udp + 1);
    if ((void *)(payload + 8) > END(context) || udp->dest != NET16(9000))
        return XDP_PASS;
    __u32 port = NET16(udp->source);
    __u64 *next = map_lookup(&numbers, &port);
    if (!next)
        return XDP_ABORTED;
    __u64 number = __sync_fetch_and_add(next, 1);
#pragma unroll
    for (int i = 0; i < 8; i++)
        payload[i] = number >> (56 - 8 * i);
    udp->check = 0;
    return XDP_TX;
}
