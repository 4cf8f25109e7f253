// Drops further SYN segments of a source that has 16 handshakes open. An ACK ends one.
#include "xdp.h"

enum { SYN = 2, ACK = 16 };

MAP(handshakes, BPF_MAP_TYPE_HASH, __u32, __u64, 256);
MAP(dropped, BPF_MAP_TYPE_ARRAY, __u32, __u64, 1);

SECTION("xdp") int syn_flood(struct xdp_md *context) {
    struct iphdr *ip = ipv4_of(context);
    if (!ip || ip->protocol != IPPROTO_TCP)
        return XDP_PASS;
    __u8 *segment = (void *)(ip + 1);
    if ((void *)(segment + sizeof(struct tcphdr)) > END(context))
        return XDP_DROP;
    __u8 flags = segment[13] & (SYN | ACK);
    __u32 source = ip->saddr;
    __u64 *open = map_lookup(&handshakes, &source);
    if (flags == ACK) {
        if (open && *open)
            *open -= 1;
        return XDP_PASS;
    }
    if (flags != SYN)
        return XDP_PASS;
    if (!open) {
        __u64 one = 1;
        map_update(&handshakes, &source, &one, BPF_ANY);
        return XDP_PASS;
    }
    if (*open >= 16) {
        __u32 only = 0;
        __u64 *count = map_lookup(&dropped, &only);
        if (count)
            __sync_fetch_and_add(count, 1);
        return XDP_DROP;
    }
    *open += 1;
    return XDP_PASS;
}
