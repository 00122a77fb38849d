/* Counts IPv4 packets by their protocol, on each processor by itself, and passes all packets on. */
#include "xdp.h"

struct {
	__uint(type, BPF_MAP_TYPE_PERCPU_ARRAY);
	__uint(max_entries, 256);
	__type(key, u32);
	__type(value, u64);
} packets SEC(".maps");

struct {
	__uint(priority, 20);
	__uint(XDP_PASS, 1);
} XDP_RUN_CONFIG(count_protocols);

SEC("xdp")
int count_protocols(struct xdp_md *context)
{
	void *data = (void *)(long)context->data;
	void *end = (void *)(long)context->data_end;
	struct ethernet *ethernet = data;
	struct ipv4 *ip = data + sizeof *ethernet;
	u32 protocol;
	u64 *count;

	if ((void *)(ip + 1) > end || ethernet->type != be16(ETH_IPV4))
		return XDP_PASS;
	protocol = ip->protocol;
	count = bpf_map_lookup_elem(&packets, &protocol);
	if (count)
		*count += 1;
	return XDP_PASS;
}

char _license[] SEC("license") = "GPL";
