// Counts packets by the time since the packet before: below 1, 10, 100 microseconds, 1, 10, 100 milliseconds, 1 second, and longer.
#include "xdp.h"

MAP(last, BPF_MAP_TYPE_ARRAY, __u32, __u64, 1);
MAP(gaps, BPF_MAP_TYPE_ARRAY, __u32, __u64, 8);

SECTION("xdp") int gap_histogram(struct xdp_md *context) {
    __u32 only = 0;
    __u64 now = time_now();
    __u64 *before = map_lookup(&last, &only);
    if (!before)
        return XDP_ABORTED;
    __u64 gap = now - *before;
    *before = now;
    __u32 class = (gap >= 1000) + (gap >= 10000) + (gap >= 100000) + (gap >= 1000000) + (gap >= 10000000) + (gap >= 100000000) + (gap >= 1000000000);
    __u64 *count = map_lookup(&gaps, &class);
    if (count)
        __sync_fetch_and_add(count, 1);
    return XDP_PASS;
}
