// Tells, by three bits of an array, whether a source may have been seen before: packets of new sources go to interface 7.
#include "xdp.h"

MAP(bits, BPF_MAP_TYPE_ARRAY, __u32, __u64, 1024);

INLINE int note(__u32 mixed) {
    __u32 word = mixed >> 22;
    __u64 bit = 1ull << (mixed >> 16 & 63);
    __u64 *bits_there = map_lookup(&bits, &word);
    return bits_there && __sync_fetch_and_or(bits_there, bit) & bit;
}

SECTION("xdp") int bloom_filter(struct xdp_md *context) {
    struct iphdr *ip = ipv4_of(context);
    if (!ip)
        return XDP_PASS;
    int a = note(ip->saddr * 0x9e3779b1), b = note(ip->saddr * 0x85ebca6b), c = note(ip->saddr * 0xc2b2ae35);
    return a && b && c ? XDP_PASS : redirect(7, 0);
}
