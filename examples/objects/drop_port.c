/* Drops UDP packets to one port. It stands before other programs, which see all other packets. */
#include "xdp.h"

struct udp {
	u16 source;
	u16 target;
	u16 length;
	u16 checksum;
} __attribute__((packed));

static const volatile u16 closed_port = 53;

struct {
	__uint(priority, 10);
	__uint(XDP_PASS, 1);
} XDP_RUN_CONFIG(drop_port);

SEC("xdp")
int drop_port(struct xdp_md *context)
{
	void *data = (void *)(long)context->data;
	void *end = (void *)(long)context->data_end;
	struct ethernet *ethernet = data;
	struct ipv4 *ip = data + sizeof *ethernet;
	struct udp *udp;

	if ((void *)(ip + 1) > end || ethernet->type != be16(ETH_IPV4) || ip->protocol != PROTOCOL_UDP)
		return XDP_PASS;
	udp = (void *)ip + (ip->version_and_length & 15) * 4;
	if ((void *)(udp + 1) > end || udp->target != be16(closed_port))
		return XDP_PASS;
	return XDP_DROP;
}

char _license[] SEC("license") = "GPL";
