// Lets 10 packets a second of each source pass.
#include "xdp.h"

struct window {
    __u64 second, packets;
};

MAP(windows, BPF_MAP_TYPE_HASH, __u32, struct window, 256);

SECTION("xdp") int rate_limit(struct xdp_md *context) {
    struct iphdr *ip = ipv4_of(context);
    if (!ip)
        return XDP_PASS;
    __u32 source = ip->saddr;
    __u64 second = time_now() / 1000000000;
    struct window *window = map_lookup(&windows, &source);
    if (!window || window->second != second) {
        struct window first = {second, 1};
        map_update(&windows, &source, &first, BPF_ANY);
        return XDP_PASS;
    }
    if (window->packets >= 10)
        return XDP_DROP;
    window->packets += 1;
    return XDP_PASS;
}
