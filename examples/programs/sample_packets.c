// Sends each sixteenth packet to interface 9, where somebody looks at it, and lets the others pass.
#include "xdp.h"

MAP(seen, BPF_MAP_TYPE_ARRAY, __u32, __u64, 1);

SECTION("xdp") int sample_packets(struct xdp_md *context) {
    __u32 only = 0;
    __u64 *count = map_lookup(&seen, &only);
    if (!count)
        return XDP_ABORTED;
    return __sync_fetch_and_add(count, 1) % 16 ? XDP_PASS : redirect(9, 0);
}
