// Keeps a table of flows: by addresses, ports and protocol the packets, the bytes and the time of the last packet. A TCP reset ends its flow.
#include "xdp.h"

struct flow {
    __u32 from, to;
    __u16 from_port, to_port;
    __u32 protocol;
};

struct traffic {
    __u64 packets, bytes, last;
};

MAP(flows, BPF_MAP_TYPE_HASH, struct flow, struct traffic, 256);

SECTION("xdp") int flow_table(struct xdp_md *context) {
    struct iphdr *ip = ipv4_of(context);
    if (!ip || (ip->protocol != IPPROTO_TCP && ip->protocol != IPPROTO_UDP))
        return XDP_PASS;
    struct udphdr *ports = (void *)(ip + 1);
    __u8 *flags = (__u8 *)ports + 13;
    if ((void *)(ports + 1) > END(context))
        return XDP_PASS;
    struct flow flow = {ip->saddr, ip->daddr, ports->source, ports->dest, ip->protocol};
    if (ip->protocol == IPPROTO_TCP && (void *)(flags + 1) <= END(context) && *flags & 4) {
        map_delete(&flows, &flow);
        return XDP_PASS;
    }
    __u64 length = END(context) - START(context), now = time_now();
    struct traffic *traffic = map_lookup(&flows, &flow);
    if (traffic) {
        traffic->packets += 1;
        traffic->bytes += length;
        traffic->last = now;
    } else {
        struct traffic first = {1, length, now};
        map_update(&flows, &flow, &first, BPF_ANY);
    }
    return XDP_PASS;
}
