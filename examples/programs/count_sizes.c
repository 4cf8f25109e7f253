// Counts packets by their length: up to 64, 128, 256, 512, 1,024 bytes, and longer.
#include "xdp.h"

MAP(sizes, BPF_MAP_TYPE_ARRAY, __u32, __u64, 6);

SECTION("xdp") int count_sizes(struct xdp_md *context) {
    __u64 length = END(context) - START(context);
    __u32 class = (length > 64) + (length > 128) + (length > 256) + (length > 512) + (length > 1024);
    __u64 *count = map_lookup(&sizes, &class);
    if (count)
        __sync_fetch_and_add(count, 1);
    return XDP_PASS;
}
