// Keeps for each TCP connection how far its handshake is, and drops segments of connections that did not begin with a SYN.
#include "xdp.h"

enum { FIN = 1, SYN = 2, RST = 4, ACK = 16 };

struct connection {
    __u32 from, to;
    __u32 ports;
};

MAP(connections, BPF_MAP_TYPE_HASH, struct connection, __u8, 256);

SECTION("xdp") int half_open(struct xdp_md *context) {
    struct iphdr *ip = ipv4_of(context);
    if (!ip || ip->protocol != IPPROTO_TCP)
        return XDP_PASS;
    struct tcphdr *tcp = (void *)(ip + 1);
    if ((void *)(tcp + 1) > END(context))
        return XDP_DROP;
    struct connection connection = {ip->saddr, ip->daddr, *(__u32 *)tcp};
    __u8 flags = *((__u8 *)tcp + 13);
    if (flags & RST) {
        map_delete(&connections, &connection);
        return XDP_PASS;
    }
    __u8 *state = map_lookup(&connections, &connection);
    if (flags & SYN) {
        __u8 opening = 1;
        if (map_update(&connections, &connection, &opening, BPF_ANY))
            return XDP_DROP;
        return XDP_PASS;
    }
    if (!state)
        return XDP_DROP;
    *state = flags & FIN ? 3 : 2;
    return XDP_PASS;
}
