// Counts packets and their bytes, in one entry.
#include "xdp.h"

struct traffic {
    __u64 packets, bytes;
};

MAP(totals, BPF_MAP_TYPE_ARRAY, __u32, struct traffic, 1);

SECTION("xdp") int count_bytes(struct xdp_md *context) {
    __u32 only = 0;
    struct traffic *total = map_lookup(&totals, &only);
    if (!total)
        return XDP_ABORTED;
    __sync_fetch_and_add(&total->packets, 1);
    __sync_fetch_and_add(&total->bytes, END(context) - START(context));
    return XDP_PASS;
}
