// Spreads the connections to one address over four servers: rewrites the destination and the checksums, and sends the packet on.
#include "xdp.h"

struct server {
    __u32 address;
    __u8 mac[6];
    __u16 unused;
};

MAP(servers, BPF_MAP_TYPE_ARRAY, __u32, struct server, 4);

#define SERVICE NET32(0xc000020a)

SECTION("xdp") int load_balancer(struct xdp_md *context) {
    struct ethernet *eth = START(context);
    struct iphdr *ip = ipv4_of(context);
    if (!ip || ip->protocol != IPPROTO_TCP || ip->daddr != SERVICE)
        return XDP_PASS;
    struct tcphdr *tcp = (void *)(ip + 1);
    if ((void *)(tcp + 1) > END(context))
        return XDP_DROP;
    __u32 mixed = ip->saddr ^ ((__u32)tcp->source << 16 | tcp->dest);
    mixed *= 0x9e3779b1;
    __u32 choice = mixed >> 30;
    struct server *server = map_lookup(&servers, &choice);
    if (!server || !server->address)
        return XDP_DROP;
    __u32 after = server->address;
    ip->check = changed(changed(ip->check, ip->daddr, after), ip->daddr >> 16, after >> 16);
    tcp->check = changed(changed(tcp->check, ip->daddr, after), ip->daddr >> 16, after >> 16);
    ip->daddr = after;
#pragma unroll
    for (int i = 0; i < 6; i++)
        eth->to[i] = server->mac[i];
    return XDP_TX;
}
