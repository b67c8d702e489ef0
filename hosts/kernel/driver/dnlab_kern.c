// SPDX-License-Identifier: GPL-2.0
/*
 * Makes a link of dnlab available as network devices of layer 3, one for each host.
 *
 * A packet that a device sends enters the session of dnlab at the exact
 * simulated time, and the device that has its destination address receives it
 * at the time that the link prescribes. Nothing else takes part: no process,
 * no system call apart from those that write files. The link has the queue, so a
 * device has none.
 *
 * Time 0 of the link is CLOCK_MONOTONIC = 10 s. Packets before it are dropped:
 * that is when namespaces and addresses are made.
 */
#include <linux/etherdevice.h>
#include <linux/if_arp.h>
#include <linux/inetdevice.h>
#include <linux/init.h>
#include <linux/ip.h>
#include <linux/netdevice.h>
#include <linux/reboot.h>
#include <linux/sched/clock.h>
#include <linux/skbuff.h>
#include <linux/time-internal.h>
#include <linux/timekeeping.h>
#include <net/ip.h>
#include <guest_cpu.h>
#include "dnlab_kern.h"

#define DN_TIME_0 (10ULL * NSEC_PER_SEC)

static struct net_device *devices[DN_MAX_HOSTS];
static int device_count;
static unsigned long before_start, to_nobody, not_ipv4, after_end, wakes, late;
static u64 late_max, due_at = DN_NEVER;
static struct time_travel_event due_event;

DECLARE_WAIT_QUEUE_HEAD(dnlab_over);

/* Returns CLOCK_MONOTONIC; it counts the same ns as simulated time, and reading it is free. */
static u64 monotonic(void)
{
	static u64 offset;
	static bool is_known;

	if (!is_known) {
		is_known = true;
		offset = ktime_get_ns() - sched_clock();
	}
	return sched_clock() + offset;
}

/* Returns the index of the device that has the address, or -1. */
static int device_of(__be32 address)
{
	int i = dn_host_of((const unsigned char *)&address);

	if (i >= 0)
		return i;
	/* an address that was added in the guest */
	for (i = 0; i < device_count; i++) {
		struct in_device *in = __in_dev_get_rcu(devices[i]);
		const struct in_ifaddr *a;

		if (!in)
			continue;
		in_dev_for_each_ifa_rcu(a, in)
			if (a->ifa_local == address)
				return i;
	}
	return -1;
}

static void receive(struct sk_buff *skb, u64 time)
{
	int i = device_of(ip_hdr(skb)->daddr);

	if (i < 0 || !netif_running(devices[i])) {
		to_nobody++;
		dev_kfree_skb_any(skb);
		return;
	}
	dn_capture(i, time, skb->data, skb->len);
	skb->dev = devices[i];
	devices[i]->stats.rx_packets++;
	devices[i]->stats.rx_bytes += skb->len;
	netif_rx(skb);
}

static void take_events(void)
{
	const struct dn_event *events;
	int i, n = dn_events(&events);

	if (!n)
		return;
	rcu_read_lock();
	for (i = 0; i < n; i++) {
		if (events[i].is_drop)
			dev_kfree_skb_any(events[i].payload);
		else
			receive(events[i].payload, events[i].time);
	}
	rcu_read_unlock();
	dn_clear();
}

static void plan_wake_up(u64 now)
{
	u64 due = dn_due();

	if (due == due_at && due_event.pending)
		return;
	time_travel_del_event(&due_event);
	due_at = due;
	if (due != DN_NEVER)
		time_travel_add_event_rel(&due_event, due > now ? due - now : 0);
}

u64 dnlab_begin(unsigned long *flags)
{
	u64 time;

	local_irq_save(*flags);
	time = monotonic();
	time = time > DN_TIME_0 ? time - DN_TIME_0 : 0;
	dn_advance(time);
	return time;
}

void dnlab_finish(u64 now, unsigned long flags)
{
	plan_wake_up(now);
	take_events();
	local_irq_restore(flags);
	if (dn_is_over())
		wake_up_all(&dnlab_over);
}

static void on_due(struct time_travel_event *e)
{
	unsigned long flags;
	u64 now = dnlab_begin(&flags);

	wakes++;
	if (now > due_at) {
		late++;
		late_max = max(late_max, now - due_at);
	}
	dnlab_finish(now, flags);
}

/*
 * Returns a copy, because the other end has a packet of its own, as over a wire.
 * It has the headroom of TUN's packets. A checksum that is left to the device
 * stays open, as between the ends of a veth pair, unless captures need it.
 */
static struct sk_buff *copy_of(struct sk_buff *skb)
{
	struct sk_buff *copy;

	if (skb->ip_summed == CHECKSUM_PARTIAL && dn_captures() && skb_checksum_help(skb))
		return NULL;
	copy = alloc_skb(NET_SKB_PAD + skb->len, GFP_ATOMIC);
	if (!copy)
		return NULL;
	skb_reserve(copy, NET_SKB_PAD);
	if (skb_copy_bits(skb, 0, skb_put(copy, skb->len), skb->len)) {
		kfree_skb(copy);
		return NULL;
	}
	copy->protocol = htons(ETH_P_IP);
	copy->pkt_type = PACKET_HOST;
	if (skb->ip_summed == CHECKSUM_PARTIAL) {
		copy->ip_summed = CHECKSUM_PARTIAL;
		copy->csum_start = skb_headroom(copy) + skb_checksum_start_offset(skb);
		copy->csum_offset = skb->csum_offset;
	}
	skb_reset_mac_header(copy);
	skb_reset_network_header(copy);
	return copy;
}

static netdev_tx_t refuse(struct sk_buff *skb, struct net_device *dev, unsigned long *count)
{
	++*count;
	dev->stats.tx_dropped++;
	kfree_skb(skb);
	return NETDEV_TX_OK;
}

static netdev_tx_t dnlab_xmit(struct sk_buff *skb, struct net_device *dev)
{
	int host = *(int *)netdev_priv(dev);
	struct sk_buff *copy;
	unsigned long flags;
	u64 now;

	if (skb->protocol != htons(ETH_P_IP) || skb->len < sizeof(struct iphdr))
		return refuse(skb, dev, &not_ipv4);
	if (monotonic() < DN_TIME_0)
		return refuse(skb, dev, &before_start);
	skb_tx_timestamp(skb);
	copy = copy_of(skb);
	if (!copy)
		return refuse(skb, dev, &after_end);
	dev->stats.tx_packets++;
	dev->stats.tx_bytes += skb->len;
	consume_skb(skb);

	now = dnlab_begin(&flags);
	if (dn_inject(host, copy->data, copy->len, copy)) {
		after_end++;
		dev_kfree_skb_any(copy);
	}
	/* Of several segments in a row only the last one plans a wake-up. */
	if (netdev_xmit_more() && !dn_is_over()) {
		take_events();
		local_irq_restore(flags);
	} else {
		dnlab_finish(now, flags);
	}
	return NETDEV_TX_OK;
}

static int dnlab_open_device(struct net_device *dev)
{
	unsigned long flags;

	local_irq_save(flags);
	if (!due_event.pending && monotonic() < DN_TIME_0) {
		due_at = 0;
		time_travel_add_event_rel(&due_event, DN_TIME_0 - monotonic());
	}
	local_irq_restore(flags);
	netif_start_queue(dev);
	return 0;
}

static int dnlab_stop_device(struct net_device *dev)
{
	netif_stop_queue(dev);
	return 0;
}

static const struct net_device_ops dnlab_ops = {
	.ndo_open = dnlab_open_device,
	.ndo_stop = dnlab_stop_device,
	.ndo_start_xmit = dnlab_xmit,
};

static void setup_device(struct net_device *dev)
{
	dev->netdev_ops = &dnlab_ops;
	dev->type = ARPHRD_NONE;
	dev->hard_header_len = 0;
	dev->addr_len = 0;
	dev->mtu = 1500;
	dev->min_mtu = 68;
	dev->max_mtu = 1500;
	dev->tx_queue_len = 0;
	dev->flags = IFF_POINTOPOINT | IFF_NOARP | IFF_MULTICAST;
	dev->priv_flags |= IFF_NO_QUEUE;
	dev->hw_features = NETIF_F_SG | NETIF_F_FRAGLIST | NETIF_F_HW_CSUM;
	dev->features = dev->hw_features | NETIF_F_LLTX | NETIF_F_HIGHDMA;
}

int dnlab_counts(char *text, int room)
{
	return scnprintf(text, room,
			 "before_start %lu\nto_nobody %lu\nnot_ipv4 %lu\nafter_end %lu\n"
			 "wakes %lu\nlate %lu\nlate_max_ns %llu\nspins %lu\nspins_unsettled %lu\n"
			 "cpuid_hidden %d\n",
			 before_start, to_nobody, not_ipv4, after_end, wakes, late, late_max,
			 time_travel_spins, time_travel_spins_unsettled, guest_cpu_hides_chance);
}

void dnlab_end(void)
{
	static bool has_ended;
	char text[512];
	unsigned long flags;

	if (has_ended)
		return;
	has_ended = true;
	dnlab_begin(&flags);
	dn_end();
	take_events();
	time_travel_del_event(&due_event);
	dnlab_counts(text, sizeof(text));
	dn_user_write_counts(text);
	local_irq_restore(flags);
	wake_up_all(&dnlab_over);
}

static int on_reboot(struct notifier_block *block, unsigned long what, void *unused)
{
	dnlab_end();
	return NOTIFY_DONE;
}

static struct notifier_block reboots = { .notifier_call = on_reboot };

static int __init dnlab_init(void)
{
	int i, status = dn_user_open();

	if (status == 0)
		return 0;
	if (status < 0)
		panic("dnlab: the link can't be opened\n");
	time_travel_set_event_fn(&due_event, on_due);
	for (i = 0; i < dn_host_count(); i++) {
		struct net_device *dev = alloc_netdev(sizeof(int), "dn%d", NET_NAME_ENUM,
						      setup_device);

		if (!dev || register_netdev(dev))
			return -ENOMEM;
		*(int *)netdev_priv(dev) = i;
		devices[device_count++] = dev;
	}
	register_reboot_notifier(&reboots);
	return dnlab_proc_init();
}
late_initcall(dnlab_init);
