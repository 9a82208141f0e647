#!/usr/bin/env python3
"""Writes the captures that bench/run measures and compares with: `make_packets.py FOLDER`.

    four.pcap      tagged TCP segments over IPv4, for the four-header graph; all have its four headers
    campus.pcap    a mix of packets for the campus graph, in the shares of MIX
    worst.pcap     two tags, four labels, IPv4 and TCP behind Ethernet: nine headers
    cut.pcap       every beginning of a packet of each sort, from no byte to all of them
    changed.pcap   packets of every sort with some bytes changed, some of them cut too

The last two are for comparing parsers only. Packets are laid out by the functions of tools/make_samples.py.
Everything is drawn from a generator with a fixed seed: each run writes the same bytes.
"""

import pathlib
import random
import struct
import sys

sys.path.insert(0, str(pathlib.Path(__file__).resolve().parent.parent / "tools"))
sys.dont_write_bytecode = True
from make_samples import (  # noqa: E402
    ETHER_ARP, ETHER_IPV4, ETHER_IPV6, ETHER_MPLS, ETHER_MPLS_UPSTREAM, ETHER_PROVIDER_VLAN, ETHER_VLAN,
    IP_GRE, IP_HOP_BY_HOP, IP_ICMP, IP_ICMPV6, IP_TCP, IP_UDP, STANDARDS,
    arp, capture, datagram, echo, gre, label_entry, six, udp, vlan_tag)

PACKETS = 4096  # of the mix
ALIKE = 64  # of the captures whose packets have the same headers
CHANGED = 20000
LEAST_FRAME = 60  # an Ethernet frame without its check sum

ETHER_LLDP = 0x88CC
DO_NOT_FRAGMENT = 2
TIME_STAMPS = bytes([1, 1, 8, 10]) + bytes(8)


class Sender:
    """Draws what differs from packet to packet: addresses, ports, tags, labels, options and data."""

    def __init__(self, seed):
        self.random = random.Random(seed)

    def data(self, most=40):
        """Data behind the headers: a few bytes, since no parser looks at them."""
        return self.random.randbytes(self.random.choice([0, 0, most // 2, most]))

    def frame(self, ether_type, rest):
        content = self.address() + self.address() + struct.pack(">H", ether_type) + rest
        return content + bytes(max(0, LEAST_FRAME - len(content)))

    def address(self):
        return bytes([0x02]) + self.random.randbytes(5)

    def tagged(self, ether_type, rest):
        return vlan_tag(self.random.randrange(8), self.random.randrange(1, 4095), ether_type, rest)

    def one_tag(self, ether_type, rest):
        return self.frame(ETHER_VLAN, self.tagged(ether_type, rest))

    def two_tags(self, ether_type, rest):
        return self.frame(ETHER_PROVIDER_VLAN, self.tagged(ETHER_VLAN, self.tagged(ether_type, rest)))

    def label(self, bottom):
        return label_entry(self.random.randrange(16, 1 << 20), bottom, self.random.randrange(1, 256))

    def labels(self, count):
        return b"".join(self.label(0) for _ in range(count - 1)) + self.label(1)

    def port(self):
        return self.random.randrange(1024, 65536)

    def tcp(self, options=None):
        if options is None:
            options = self.random.choice([b"", TIME_STAMPS])
        words = 5 + len(options) // 4
        numbers = self.random.randbytes(8)
        start = struct.pack(">HH8sBBHHH", self.port(), 443, numbers, words << 4, 0x10, 65535, 0, 0)
        return start + options + self.data()

    def udp(self):
        return udp(self.port(), 53, self.data())

    def ipv4(self, protocol, rest, **more):
        return datagram(protocol, rest, identification=self.random.randrange(1 << 16), **more)

    def tcp_in_ipv4(self):
        return self.ipv4(IP_TCP, self.tcp(), flags=DO_NOT_FRAGMENT)

    def udp_in_ipv4(self):
        return self.ipv4(IP_UDP, self.udp())

    def tcp_in_ipv6(self):
        return six(IP_TCP, self.tcp(), flow=self.random.randrange(1 << 20))

    def udp_in_ipv6(self):
        return six(IP_UDP, self.udp(), flow=self.random.randrange(1 << 20))

    def hop_by_hop(self):
        return bytes([IP_ICMPV6, 0, 5, 2, 0, 0, 1, 0]) + echo(128, b"")

    def arp(self):
        here, there = bytes([192, 0, 2, 1]), bytes([192, 0, 2, 7])
        return arp(1, self.address() + here, bytes(6) + there)

    def standard(self):
        """One of the packets of crates/tapctl/data/standards.pcap."""
        return self.random.choice(STANDARDS)[:128]


# Of a thousand packets of the mix, so many are of a sort. No standard says what a campus sends: most is TCP and
# some UDP behind one tag over IPv4, a good part IPv6, and each other way through the graph has a few.
MIX = [
    (380, "one tag, IPv4, TCP", lambda s: s.one_tag(ETHER_IPV4, s.tcp_in_ipv4())),
    (170, "one tag, IPv4, UDP", lambda s: s.one_tag(ETHER_IPV4, s.udp_in_ipv4())),
    (110, "one tag, IPv6, TCP", lambda s: s.one_tag(ETHER_IPV6, s.tcp_in_ipv6())),
    (60, "one tag, IPv6, UDP", lambda s: s.one_tag(ETHER_IPV6, s.udp_in_ipv6())),
    (90, "no tag, IPv4, TCP", lambda s: s.frame(ETHER_IPV4, s.tcp_in_ipv4())),
    (50, "no tag, IPv4, UDP", lambda s: s.frame(ETHER_IPV4, s.udp_in_ipv4())),
    (20, "no tag, IPv6, TCP", lambda s: s.frame(ETHER_IPV6, s.tcp_in_ipv6())),
    (30, "two tags, IPv4, TCP", lambda s: s.two_tags(ETHER_IPV4, s.tcp_in_ipv4())),
    (10, "two tags, IPv6, TCP", lambda s: s.two_tags(ETHER_IPV6, s.tcp_in_ipv6())),
    (15, "two labels, IPv4, TCP", lambda s: s.frame(ETHER_MPLS, s.labels(2) + s.tcp_in_ipv4())),
    (5, "four labels, IPv4, UDP", lambda s: s.frame(ETHER_MPLS, s.labels(4) + s.udp_in_ipv4())),
    (10, "one tag, IPv4, ICMP", lambda s: s.one_tag(ETHER_IPV4, s.ipv4(IP_ICMP, echo(8, s.data())))),
    (5, "one tag, IPv4, a later fragment", lambda s: s.one_tag(ETHER_IPV4, s.ipv4(IP_UDP, s.data(), offset=185))),
    (5, "one tag, IPv4, GRE, IPv4, TCP",
     lambda s: s.one_tag(ETHER_IPV4, s.ipv4(IP_GRE, gre(ETHER_IPV4, s.tcp_in_ipv4())))),
    (5, "one tag, IPv6, hop-by-hop options, ICMP",
     lambda s: s.one_tag(ETHER_IPV6, six(IP_HOP_BY_HOP, s.hop_by_hop()))),
    (10, "one tag, ARP", lambda s: s.one_tag(ETHER_ARP, s.arp())),
    (5, "a type that is dropped", lambda s: s.frame(ETHER_LLDP, s.data())),
    (20, "packets of standards.pcap", lambda s: s.standard()),
]


def four():
    sender = Sender(1)
    return [sender.one_tag(ETHER_IPV4, sender.tcp_in_ipv4()) for _ in range(ALIKE)]


def campus():
    """The mix: as many of each sort as its share says, in an order that is drawn."""
    sender = Sender(2)
    packets = []
    for share, _, make in MIX:
        packets += [make(sender) for _ in range(share * PACKETS // 1000)]
    while len(packets) < PACKETS:
        packets.append(MIX[0][2](sender))
    sender.random.shuffle(packets)
    return packets


def nine_headers(sender):
    return sender.two_tags(ETHER_MPLS, sender.labels(4) + sender.tcp_in_ipv4())


def worst():
    sender = Sender(3)
    return [nine_headers(sender) for _ in range(ALIKE)]


def twelve_headers(sender):
    """The longest way through the campus graph."""
    tunnelled = gre(ETHER_IPV4, sender.tcp_in_ipv4(), key=7)
    options = bytes([IP_GRE, 0, 5, 2, 0, 0, 1, 0])
    return sender.two_tags(ETHER_MPLS, sender.labels(4) + six(IP_HOP_BY_HOP, options + tunnelled))


def each_sort():
    """A packet of each sort, those of standards.pcap all."""
    sender = Sender(4)
    return [make(sender) for _, _, make in MIX[:-1]] + [nine_headers(sender), twelve_headers(sender)] + STANDARDS


def replaced(packet, place, content):
    return (packet[:place] + content + packet[place + len(content):])[:len(packet)]


def cut():
    tagged = Sender(5).one_tag(ETHER_IPV4, Sender(5).tcp_in_ipv4())
    short = [replaced(tagged, 18, b"\x44"), replaced(tagged, 50, b"\x4F")]  # four words of IPv4, and of TCP
    return [packet[:length] for packet in each_sort() + short for length in range(min(len(packet), 160) + 1)]


# What a parser looks for: bytes, and two bytes that are a type or the greatest length and the number behind it.
BYTES = [bytes([value]) for value in (
    0x00, 0x01, 0x05, 0x06, 0x11, 0x20, 0x2F, 0x3A, 0x44, 0x45, 0x4F, 0x50, 0x60, 0xF0, 0xFF)]
TYPES = [struct.pack(">H", value) for value in (
    0x05FF, 0x0600, ETHER_IPV4, ETHER_ARP, ETHER_VLAN, ETHER_IPV6, ETHER_MPLS, ETHER_MPLS_UPSTREAM,
    ETHER_PROVIDER_VLAN)]


def changed():
    """Each sort with one number that a parser looks for written at each place behind the addresses, and then packets
    with several of them, or a drawn byte, at drawn places, of which some are cut too."""
    drawn = random.Random(6)
    sorts = [packet[:120] for packet in each_sort()]
    packets = [replaced(packet, place, content)
               for packet in sorts for place in range(12, len(packet)) for content in BYTES + TYPES]
    for _ in range(CHANGED):
        packet = drawn.choice(sorts)
        for _ in range(drawn.randrange(1, 5)):
            place = drawn.randrange(12, len(packet))
            packet = replaced(packet, place, drawn.choice(BYTES + TYPES + [drawn.randbytes(1)]))
        packets.append(packet[:drawn.choice([len(packet), drawn.randrange(len(packet) + 1)])])
    return packets


def main():
    folder = pathlib.Path(sys.argv[1])
    header = capture([])
    for make in (four, campus, worst, cut, changed):
        packets = make()
        records = [capture([packet])[len(header):] for packet in packets]
        (folder / f"{make.__name__}.pcap").write_bytes(header + b"".join(records))
        print(f"{make.__name__}.pcap: {len(packets)} packets, {sum(map(len, packets))} bytes")


if __name__ == "__main__":
    main()
