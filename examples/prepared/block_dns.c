// Counts IPv4 packets by their protocol and drops DNS queries, behind a tag or none: the header stands at one of two offsets.
#include "xdp.h"

MAP(counts, BPF_MAP_TYPE_ARRAY, __u32, __u64, 256);

SECTION("xdp") int block_dns(struct xdp_md *context) {
    void *data = START(context), *end = END(context);
    struct ethernet *eth = data;
    if (data + 14 > end)
        return XDP_DROP;
    __u16 kind = eth->kind;
    void *next = data + 14;
    if (kind == NET16(ETH_P_8021Q)) {
        if (data + 18 > end)
            return XDP_DROP;
        kind = *(__u16 *)(data + 16);
        next = data + 18;
    }
    if (kind != NET16(ETH_P_IP))
        return XDP_PASS;
    struct iphdr *ip = next;
    if ((void *)(ip + 1) > end)
        return XDP_DROP;
    __u32 protocol = ip->protocol;
    __u64 *count = map_lookup(&counts, &protocol);
    if (count)
        __sync_fetch_and_add(count, 1);
    if (ip->protocol == IPPROTO_UDP) {
        struct udphdr *udp = (void *)(ip + 1);
        if ((void *)(udp + 1) > end)
            return XDP_DROP;
        if (udp->dest == NET16(53))
            return XDP_DROP;
    }
    return XDP_PASS;
}
