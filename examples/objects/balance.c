/* Sends TCP packets for one service to one of two servers, by their source address and port, and back out where they came in. */
#include "xdp.h"

struct tcp {
	u16 source;
	u16 target;
	u32 sequence;
	u32 acknowledgement;
	u16 flags;
	u16 window;
	u16 checksum;
} __attribute__((packed));

struct server {
	u32 address;
	u8 link[6];
};

static const volatile u32 service = 0x0a000064; /* 10.0.0.100 */

static const volatile struct server servers[2] = {
	{ 0x0a000001, { 2, 0, 0, 0, 0, 1 } },
	{ 0x0a000002, { 2, 0, 0, 0, 0, 2 } },
};

struct {
	__uint(priority, 30);
	__uint(XDP_PASS, 1);
} XDP_RUN_CONFIG(balance);

/* A checksum of a header in which an address changes (RFC 1624). */
static __attribute__((noinline)) u16 with_change(u16 checksum, u32 old, u32 new)
{
	u32 sum = (u16)~checksum;

	sum += (u16)~(old >> 16);
	sum += (u16)~old;
	sum += new >> 16;
	sum += new & 0xffff;
	sum = (sum >> 16) + (sum & 0xffff);
	sum = (sum >> 16) + (sum & 0xffff);
	return ~sum;
}

SEC("xdp")
int balance(struct xdp_md *context)
{
	void *data = (void *)(long)context->data;
	void *end = (void *)(long)context->data_end;
	struct ethernet *ethernet = data;
	struct ipv4 *ip = data + sizeof *ethernet;
	struct tcp *tcp = (void *)(ip + 1);
	const volatile struct server *server;
	u32 old, new;

	if ((void *)(tcp + 1) > end || ethernet->type != be16(ETH_IPV4) || ip->version_and_length != 0x45)
		return XDP_PASS;
	if (ip->protocol != PROTOCOL_TCP || ip->target != be32(service))
		return XDP_PASS;
	server = &servers[(ip->source ^ ip->source >> 24 ^ tcp->source ^ tcp->source >> 8) & 1];
	old = be32(ip->target);
	new = server->address;
	ip->checksum = be16(with_change(be16(ip->checksum), old, new));
	tcp->checksum = be16(with_change(be16(tcp->checksum), old, new));
	ip->target = be32(new);
	for (int i = 0; i < 6; i++) {
		ethernet->source[i] = ethernet->target[i];
		ethernet->target[i] = server->link[i];
	}
	return XDP_TX;
}

char _license[] SEC("license") = "GPL";
