// Counts packets by the low bits of their protocol, behind up to two tags that a loop goes over.
#include "xdp.h"

MAP(counts, BPF_MAP_TYPE_ARRAY, __u32, __u64, 8);

SECTION("xdp") int count_behind_tags(struct xdp_md *context) {
    void *data = START(context), *end = END(context);
    if (data + 64 > end)
        return XDP_DROP;
    int offset = 14;
    for (int i = 0; i < 2; i++) {
        __u16 kind = *(__u16 *)(data + offset - 2);
        if (kind != NET16(ETH_P_8021Q))
            break;
        offset += 4;
    }
    __u32 key = *(__u8 *)(data + offset + 9) & 7;
    __u64 *count = map_lookup(&counts, &key);
    if (count)
        *count += 1;
    return XDP_PASS;
}
