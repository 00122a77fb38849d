/* What the programs of this folder need of the kernel's and libbpf's headers. */
#ifndef XDP_H
#define XDP_H

typedef unsigned char u8;
typedef unsigned short u16;
typedef unsigned int u32;
typedef unsigned long long u64;

/* The context of a program (enum xdp_md of linux/bpf.h). */
struct xdp_md {
	u32 data;
	u32 data_end;
	u32 data_meta;
	u32 ingress_ifindex;
	u32 rx_queue_index;
	u32 egress_ifindex;
};

enum xdp_action { XDP_ABORTED, XDP_DROP, XDP_PASS, XDP_TX, XDP_REDIRECT };

enum { BPF_MAP_TYPE_HASH = 1, BPF_MAP_TYPE_ARRAY = 2, BPF_MAP_TYPE_PERCPU_HASH = 5, BPF_MAP_TYPE_PERCPU_ARRAY = 6 };

#define SEC(name) __attribute__((section(name), used))

/* Members of a map's definition, as libbpf reads them. */
#define __uint(name, value) int (*name)[value]
#define __type(name, type_of) typeof(type_of) *name

/* The run configuration of a function, as libxdp reads it. */
#define XDP_RUN_CONFIG(function) _##function SEC(".xdp_run_config")

static void *(*bpf_map_lookup_elem)(void *map, const void *key) = (void *)1;

/* Numbers of the network's byte order. */
#define be16(x) ((u16)__builtin_bswap16(x))
#define be32(x) ((u32)__builtin_bswap32(x))

enum { ETH_IPV4 = 0x0800, PROTOCOL_TCP = 6, PROTOCOL_UDP = 17 };

struct ethernet {
	u8 target[6];
	u8 source[6];
	u16 type;
} __attribute__((packed));

struct ipv4 {
	u8 version_and_length;
	u8 service;
	u16 total_length;
	u16 id;
	u16 fragment;
	u8 ttl;
	u8 protocol;
	u16 checksum;
	u32 source;
	u32 target;
} __attribute__((packed));

#endif
