// What the programs of this folder share: headers of packets, maps, and the helpers that a pipeline has.
#pragma once
#include <linux/bpf.h>
#include <linux/if_ether.h>
#include <linux/in.h>
#include <linux/ip.h>
#include <linux/tcp.h>
#include <linux/udp.h>

#define SECTION(name) __attribute__((section(name), used))
#define INLINE static __attribute__((always_inline)) inline

// The members of a map's definition, as libbpf has them.
#define __uint(name, value) int(*name)[value]
#define __type(name, type) type *name

#define MAP(name, kind, key_type, value_type, entries) \
    struct {                                           \
        __uint(type, kind);                            \
        __uint(max_entries, entries);                  \
        __type(key, key_type);                         \
        __type(value, value_type);                     \
    } name SECTION(".maps")

static void *(*map_lookup)(void *map, const void *key) = (void *)BPF_FUNC_map_lookup_elem;
static long (*map_update)(void *map, const void *key, const void *value, __u64 flags) = (void *)BPF_FUNC_map_update_elem;
static long (*map_delete)(void *map, const void *key) = (void *)BPF_FUNC_map_delete_elem;
static __u64 (*time_now)(void) = (void *)BPF_FUNC_ktime_get_ns;
static long (*redirect)(__u32 ifindex, __u64 flags) = (void *)BPF_FUNC_redirect;

// Numbers of packets, whose bytes stand the other way round.
#define NET16(x) ((__u16)(((x) & 0xff) << 8 | ((x) >> 8 & 0xff)))
#define NET32(x) ((__u32)(((x) & 0xff) << 24 | ((x) & 0xff00) << 8 | ((x) >> 8 & 0xff00) | ((x) >> 24 & 0xff)))

// The headers of a packet, each behind the one before. An IPv4 header here has no options.
struct ethernet {
    __u8 to[6], from[6];
    __u16 kind;
};

#define START(context) ((void *)(long)(context)->data)
#define END(context) ((void *)(long)(context)->data_end)

// The IPv4 header, if the packet is one of IPv4, whole up to there, and without options; else null.
INLINE struct iphdr *ipv4_of(struct xdp_md *context) {
    struct ethernet *eth = START(context);
    struct iphdr *ip = (void *)(eth + 1);
    if ((void *)(ip + 1) > END(context) || eth->kind != NET16(ETH_P_IP) || *(__u8 *)ip != 0x45)
        return 0;
    return ip;
}

// A checksum with one of its words changed (RFC 1624).
INLINE __u16 changed(__u16 checksum, __u16 before, __u16 after) {
    __u32 sum = (__u16)~checksum + (__u16)~before + after;
    sum = (sum & 0xffff) + (sum >> 16);
    sum = (sum & 0xffff) + (sum >> 16);
    return ~sum;
}
