// Drops TCP segments whose flags no sound sender sets: none, SYN with FIN or RST, and FIN without ACK.
#include "xdp.h"

enum { FIN = 1, SYN = 2, RST = 4, ACK = 16 };

SECTION("xdp") int drop_odd_flags(struct xdp_md *context) {
    struct iphdr *ip = ipv4_of(context);
    if (!ip || ip->protocol != IPPROTO_TCP)
        return XDP_PASS;
    __u8 *segment = (void *)(ip + 1);
    if ((void *)(segment + sizeof(struct tcphdr)) > END(context))
        return XDP_DROP;
    __u8 flags = segment[13] & 63;
    if (!flags || (flags & SYN && flags & (FIN | RST)) || (flags & FIN && !(flags & ACK)))
        return XDP_DROP;
    return XDP_PASS;
}
