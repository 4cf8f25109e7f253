// Drops IPv4 packets of the sources of a map, behind up to two tags.
#include "xdp.h"

MAP(blocked, BPF_MAP_TYPE_HASH, __u32, __u64, 256);

SECTION("xdp") int block_tagged(struct xdp_md *context) {
    void *data = START(context), *end = END(context);
    struct ethernet *eth = data;
    void *at = data + 14;
    if (at > end)
        return XDP_DROP;
    __u16 kind = eth->kind;
    if (kind == NET16(ETH_P_8021AD)) {
        if (at + 4 > end)
            return XDP_DROP;
        kind = *(__u16 *)(at + 2);
        at += 4;
    }
    if (kind == NET16(ETH_P_8021Q)) {
        if (at + 4 > end)
            return XDP_DROP;
        kind = *(__u16 *)(at + 2);
        at += 4;
    }
    if (kind != NET16(ETH_P_IP))
        return XDP_PASS;
    struct iphdr *ip = at;
    if ((void *)(ip + 1) > end)
        return XDP_DROP;
    __u32 source = ip->saddr;
    __u64 *count = map_lookup(&blocked, &source);
    if (!count)
        return XDP_PASS;
    __sync_fetch_and_add(count, 1);
    return XDP_DROP;
}
