// Drops DNS answers from port 53 that nobody asked for: each query opens the way for one answer with its number.
#include "xdp.h"

struct query {
    __u32 client;
    __u16 port, number;
};

MAP(queries, BPF_MAP_TYPE_HASH, struct query, __u64, 256);

SECTION("xdp") int dns_guard(struct xdp_md *context) {
    struct iphdr *ip = ipv4_of(context);
    if (!ip || ip->protocol != IPPROTO_UDP)
        return XDP_PASS;
    struct udphdr *udp = (void *)(ip + 1);
    __u16 *dns = (void *)(udp + 1);
    if ((void *)(dns + 2) > END(context))
        return XDP_PASS;
    if (udp->dest == NET16(53)) {
        struct query query = {ip->saddr, udp->source, dns[0]};
        __u64 now = time_now();
        map_update(&queries, &query, &now, BPF_ANY);
        return XDP_PASS;
    }
    if (udp->source != NET16(53))
        return XDP_PASS;
    struct query query = {ip->daddr, udp->dest, dns[0]};
    return map_delete(&queries, &query) ? XDP_DROP : XDP_PASS;
}
