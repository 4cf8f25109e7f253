// Counts packets by the interface that they came by, and keeps the time of the last one.
#include "xdp.h"

struct seen {
    __u64 packets, last;
};

MAP(interfaces, BPF_MAP_TYPE_HASH, __u32, struct seen, 64);

SECTION("xdp") int count_interfaces(struct xdp_md *context) {
    __u32 interface = context->ingress_ifindex;
    struct seen *seen = map_lookup(&interfaces, &interface);
    struct seen now = {seen ? seen->packets + 1 : 1, time_now()};
    map_update(&interfaces, &interface, &now, BPF_ANY);
    return XDP_PASS;
}
