#!/usr/bin/env python3
"""Writes the sample graph files, packets, captures and plans of crates/tapctl/data/.

Run it from anywhere, with no arguments: `python3 tools/make_samples.py`. It needs nothing but
Python 3, and it overwrites the samples.

The samples are made here, from the descriptions below and from the layout in docs/GRAPH_FILES.md,
and never by the program that they are to test: what tapctl says of them is a comparison of two
encoders that share no line.

A graph is described as a list of nodes. A node is a dictionary:

    kind    a name of KINDS, or a number (so that a wrong one can be written)
    length  fixed(14), or counted(place, mask, shift, unit, base)
    lookup  the places of the lookup bytes in the header, the first one topmost in the key
    rows    ternary rows, from row(value, mask, target), or range rows, from span(low, high, target)

A value or a mask is written over the lookup bytes alone: 0x8100 over two places. A mask that is not
given covers every lookup bit. A target is the name of a node, DONE or DROPPED. Node names are the
keys of the dictionary that holds the nodes, in the order of the file.
"""

import copy
import pathlib
import struct

CRATES = pathlib.Path(__file__).resolve().parent.parent / "crates"

KINDS = {
    "Ethernet": 0, "VLAN": 1, "MPLS": 2, "IPv4": 3, "IPv6": 4, "TCP": 5,
    "UDP": 6, "GRE": 7, "ICMP": 8, "ARP": 9, "other": 10,
}

DONE = object()
DROPPED = object()

# EtherTypes and IP protocol numbers, as the standards assign them.
ETHER_IPV4, ETHER_ARP, ETHER_IPV6 = 0x0800, 0x0806, 0x86DD
ETHER_VLAN, ETHER_PROVIDER_VLAN = 0x8100, 0x88A8
ETHER_MPLS, ETHER_MPLS_UPSTREAM = 0x8847, 0x8848
IP_HOP_BY_HOP, IP_ICMP, IP_TCP, IP_UDP, IP_GRE, IP_ICMPV6 = 0, 1, 6, 17, 47, 58


# Descriptions

def fixed(length):
    return ("fixed", length)


def counted(place, mask, shift, unit, base):
    return ("counted", place, mask, shift, unit, base)


def row(value, target, mask=None):
    return {"value": value, "mask": mask, "target": target}


def otherwise(target):
    """The row that fits every key."""
    return row(0, target, mask=0)


def span(low, high, target):
    return {"low": low, "high": high, "target": target}


def node(kind, length, lookup, rows):
    return {"kind": kind, "length": length, "lookup": lookup, "rows": rows}


# Encoding

def length_bytes(length):
    if length[0] == "fixed":
        return bytes([0, length[1], 0, 0, 0, 0, 0])
    _, place, mask, shift, unit, base = length
    return bytes([1, place, mask, shift, unit, base, 0])


def target_bytes(target, names):
    if target is DONE:
        return bytes([1, 0])
    if target is DROPPED:
        return bytes([2, 0])
    return bytes([0, names.index(target)])


def row_bytes(one, places, names):
    if "low" in one:
        key = struct.pack(">HH", one["low"], one["high"]) + bytes(4)
    else:
        ones = 256 ** places - 1
        mask = ones if one["mask"] is None else one["mask"]
        unused = 8 * (4 - places)
        key = struct.pack(">II", one["value"] << unused, mask << unused)
    return key + target_bytes(one["target"], names)


def record_bytes(one, names):
    kind = KINDS.get(one["kind"], one["kind"])
    lookup, rows = one["lookup"], one["rows"]
    sort = 1 if "low" in rows[0] else 0
    places = bytes(lookup) + bytes(4 - len(lookup))
    head = bytes([kind]) + length_bytes(one["length"])
    head += bytes([len(lookup)]) + places + bytes([sort, len(rows), 0])
    return head + b"".join(row_bytes(each, len(lookup), names) for each in rows)


def file_bytes(graph):
    names = list(graph)
    records = [record_bytes(one, names) for one in graph.values()]
    pairs, offset = b"", 2 + 4 * len(records)
    for record in records:
        pairs += struct.pack(">HH", offset, len(record))
        offset += len(record)
    return bytes([len(records), 0]) + pairs + b"".join(records)


# The four-node graph

IPV4_LENGTH = counted(place=0, mask=0x0F, shift=0, unit=4, base=0)
TCP_LENGTH = counted(place=12, mask=0xF0, shift=4, unit=4, base=0)

# For IPv4 the places are 6, 7 and 9: no header of a transport protocol follows unless the 13 bits of
# the fragment offset are zero. The three flags above them do not matter.
IPV4_LOOKUP = [6, 7, 9]


def ipv4_row(protocol, target):
    return row(protocol, target, mask=0x1FFFFF)


FOUR_NODES = {
    "Ethernet": node("Ethernet", fixed(14), [12, 13], [
        row(ETHER_VLAN, "VLAN"),
        row(ETHER_IPV4, "IPv4"),
        otherwise(DROPPED),
    ]),
    "VLAN": node("VLAN", fixed(4), [2, 3], [
        row(ETHER_IPV4, "IPv4"),
        otherwise(DONE),
    ]),
    "IPv4": node("IPv4", IPV4_LENGTH, IPV4_LOOKUP, [
        ipv4_row(IP_TCP, "TCP"),
        otherwise(DONE),
    ]),
    "TCP": node("TCP", TCP_LENGTH, [], [
        otherwise(DONE),
    ]),
}

# The same without the row that decides for any other type: a walk of such a packet ends by 15
NO_ROW_FOR_OTHER_TYPES = FOUR_NODES | {
    "Ethernet": node("Ethernet", fixed(14), [12, 13], [
        row(ETHER_VLAN, "VLAN"),
        row(ETHER_IPV4, "IPv4"),
    ]),
}


# The campus graph

def network_rows(mpls):
    """What follows an Ethernet type that is looked up by value."""
    return [
        row(ETHER_IPV4, "IPv4"),
        row(ETHER_ARP, "ARP"),
        row(ETHER_IPV6, "IPv6"),
        row(ETHER_MPLS, mpls),
        row(ETHER_MPLS_UPSTREAM, mpls),
        otherwise(DONE),
    ]


def label(behind):
    """An MPLS label: byte 2 has the bottom-of-stack bit, and byte 4 is the first byte behind the
    label. At the bottom of the stack its high nibble is the version of the IP header there."""
    return node("MPLS", fixed(4), [2, 4], [
        row(0x0000, behind, mask=0x0100),
        row(0x0140, "IPv4", mask=0x01F0),
        row(0x0160, "IPv6", mask=0x01F0),
        otherwise(DONE),
    ])


CAMPUS = {
    "Ethernet": node("Ethernet", fixed(14), [12, 13], [
        span(0x0000, 0x05FF, DONE),  # an IEEE 802.3 length in the place of a type
        span(ETHER_IPV4, ETHER_IPV4, "IPv4"),
        span(ETHER_ARP, ETHER_ARP, "ARP"),
        span(ETHER_VLAN, ETHER_VLAN, "inner tag"),
        span(ETHER_IPV6, ETHER_IPV6, "IPv6"),
        span(ETHER_MPLS, ETHER_MPLS_UPSTREAM, "label 1"),
        span(ETHER_PROVIDER_VLAN, ETHER_PROVIDER_VLAN, "outer tag"),
        span(0x0000, 0xFFFF, DROPPED),
    ]),
    "outer tag": node("VLAN", fixed(4), [2, 3],
                      [row(ETHER_VLAN, "inner tag")] + network_rows("label 1")),
    "inner tag": node("VLAN", fixed(4), [2, 3], network_rows("label 1")),
    "label 1": label("label 2"),
    "label 2": label("label 3"),
    "label 3": label("label 4"),
    "label 4": label(DROPPED),
    "IPv4": node("IPv4", IPV4_LENGTH, IPV4_LOOKUP, [
        ipv4_row(IP_ICMP, "ICMP"),
        ipv4_row(IP_TCP, "TCP"),
        ipv4_row(IP_UDP, "UDP"),
        ipv4_row(IP_GRE, "GRE"),
        otherwise(DONE),
    ]),
    "IPv6": node("IPv6", fixed(40), [6], [
        row(IP_HOP_BY_HOP, "hop-by-hop options"),
        row(IP_TCP, "TCP"),
        row(IP_UDP, "UDP"),
        row(IP_GRE, "GRE"),
        row(IP_ICMPV6, "ICMP"),
        otherwise(DONE),
    ]),
    # Byte 1 counts units of 8 bytes beyond the first 8.
    "hop-by-hop options": node("other", counted(place=1, mask=0xFF, shift=0, unit=8, base=8), [0], [
        row(IP_TCP, "TCP"),
        row(IP_UDP, "UDP"),
        row(IP_GRE, "GRE"),
        row(IP_ICMPV6, "ICMP"),
        otherwise(DONE),
    ]),
    "ARP": node("ARP", fixed(28), [], [
        otherwise(DONE),
    ]),
    # Bit 0x20 of byte 0 says that a key of 4 bytes follows the first 4. With a checksum (0x80),
    # routing (0x40), a sequence number (0x10) or another version than 0 the walk ends here.
    "GRE": node("GRE", counted(place=0, mask=0x20, shift=5, unit=4, base=4), [0, 1, 2, 3], [
        row(ETHER_IPV4, "tunnelled IPv4", mask=0xD007FFFF),
        row(ETHER_IPV6, "tunnelled IPv6", mask=0xD007FFFF),
        otherwise(DONE),
    ]),
    "tunnelled IPv4": node("IPv4", IPV4_LENGTH, IPV4_LOOKUP, [
        ipv4_row(IP_ICMP, "ICMP"),
        ipv4_row(IP_TCP, "TCP"),
        ipv4_row(IP_UDP, "UDP"),
        otherwise(DONE),
    ]),
    "tunnelled IPv6": node("IPv6", fixed(40), [6], [
        row(IP_TCP, "TCP"),
        row(IP_UDP, "UDP"),
        row(IP_ICMPV6, "ICMP"),
        otherwise(DONE),
    ]),
    "TCP": node("TCP", TCP_LENGTH, [], [
        otherwise(DONE),
    ]),
    "UDP": node("UDP", fixed(8), [], [
        otherwise(DONE),
    ]),
    "ICMP": node("ICMP", fixed(8), [], [
        otherwise(DONE),
    ]),
}


# The four-node graph with one thing wrong in each

def first_offset_19():
    damaged = bytearray(file_bytes(FOUR_NODES))
    damaged[2:4] = struct.pack(">H", 19)
    return bytes(damaged)


def kind_11():
    graph = copy.copy(FOUR_NODES)
    graph["Ethernet"] = dict(graph["Ethernet"], kind=11)
    return file_bytes(graph)


def node_1_to_1():
    graph = copy.copy(FOUR_NODES)
    graph["VLAN"] = dict(graph["VLAN"], rows=[
        row(ETHER_IPV4, "VLAN"),
        otherwise(DONE),
    ])
    return file_bytes(graph)


def last_row_first():
    graph = copy.copy(FOUR_NODES)
    rows = graph["Ethernet"]["rows"]
    graph["Ethernet"] = dict(graph["Ethernet"], rows=rows[-1:] + rows[:-1])
    return file_bytes(graph)


def ethernet_13():
    graph = copy.copy(FOUR_NODES)
    graph["Ethernet"] = dict(graph["Ethernet"], length=fixed(13))
    return file_bytes(graph)


# Packets, as raw bytes: one file each

def ethernet(ether_type, rest=b""):
    return bytes(12) + struct.pack(">H", ether_type) + rest


def tag(ether_type, rest=b""):
    return bytes(2) + struct.pack(">H", ether_type) + rest


def ipv4(protocol, rest=b"", words=5, fragment=0x0000):
    """The shortest IPv4 header (20 bytes), whatever number of words it claims to have."""
    return struct.pack(">BBHHHBB", 0x40 | words, 0, 0, 0, fragment, 0, protocol) + bytes(10) + rest


def tcp(rest=b""):
    """The shortest TCP header: five words, told in the high half of byte 12."""
    return bytes(12) + bytes([0x50]) + bytes(7) + rest


TAGGED_TCP = ethernet(ETHER_VLAN, tag(ETHER_IPV4, ipv4(IP_TCP, tcp())))

PACKETS = {
    "tagged-tcp.packet": TAGGED_TCP,
    "not-to-fragment.packet": ethernet(ETHER_VLAN, tag(ETHER_IPV4, ipv4(IP_TCP, tcp(), fragment=0x4000))),
    "later-fragment.packet": ethernet(ETHER_VLAN, tag(ETHER_IPV4, ipv4(IP_TCP, tcp(), fragment=0x0001))),
    "cut-inside-tag.packet": TAGGED_TCP[:17],
    "tagged-arp.packet": ethernet(ETHER_VLAN, tag(ETHER_ARP)),
    "cut-before-ipv4.packet": ethernet(ETHER_IPV4),
    "empty.packet": b"",
    "short-ipv4.packet": ethernet(ETHER_VLAN, tag(ETHER_IPV4, ipv4(IP_TCP, tcp(), words=4))),
    "ipv6.packet": ethernet(ETHER_IPV6, bytes(46)),
    "too-long.packet": bytes(9601),
}

# Packets whose bytes are laid out as the standards draw them, with their own numbers where they have an
# example; the addresses are those set aside for documentation. All of them go through the campus graph.

def ones_sum(content):
    """The checksum of RFC 791 and RFC 792: the ones' complement of the ones' complement sum."""
    content += bytes(len(content) % 2)
    total = sum(struct.unpack(f">{len(content) // 2}H", content))
    while total >> 16:
        total = (total & 0xFFFF) + (total >> 16)
    return total ^ 0xFFFF


def mac(last):
    return bytes([0x02, 0x00, 0x5E, 0x10, 0x00, last])


def frame(ether_type, rest):
    """IEEE 802.3: destination, source, type."""
    return mac(1) + mac(2) + struct.pack(">H", ether_type) + rest


def vlan_tag(priority, vlan, ether_type, rest):
    """IEEE 802.1Q: three bits of priority, one for drop eligible, twelve for the VLAN; then the type."""
    return struct.pack(">HH", priority << 13 | vlan, ether_type) + rest


def datagram(protocol, rest, identification=111, flags=0, offset=0, time=123, options=b""):
    """RFC 791, section 3.1. The numbers are those of its examples in appendix A."""
    words = 5 + len(options) // 4
    source, destination = bytes([192, 0, 2, 1]), bytes([198, 51, 100, 2])
    start = struct.pack(">BBHHHBB", 0x40 | words, 0, 4 * words + len(rest), identification,
                        flags << 13 | offset, time, protocol)
    checksum = ones_sum(start + bytes(2) + source + destination + options)
    return start + struct.pack(">H", checksum) + source + destination + options + rest


def echo(kind, data):
    """RFC 792: type 8 for an echo and 0 for its reply, code 0, checksum, identifier, sequence number."""
    behind = struct.pack(">HH", 0x0102, 1) + data
    return struct.pack(">BBH", kind, 0, ones_sum(bytes([kind, 0, 0, 0]) + behind)) + behind


def arp(operation, sender, target):
    """RFC 826 between Ethernet and IPv4: address spaces, address lengths, operation, both addresses twice."""
    return struct.pack(">HHBBH", 1, ETHER_IPV4, 6, 4, operation) + sender + target


def label_entry(number, bottom, time=64):
    """RFC 3032, section 2.1: twenty bits of label, three of experimental use, the bottom of the stack, time."""
    return struct.pack(">I", number << 12 | bottom << 8 | time)


def segment(options, data=b""):
    """RFC 9293, section 3.1: the options are part of the header, which is counted in words of 4 bytes."""
    words = 5 + len(options) // 4
    return struct.pack(">HHIIBBHHH", 49152, 80, 1, 0, words << 4, 0x02, 65535, 0, 0) + options + data


def udp(source, destination, data):
    """RFC 768: ports, length of header and data, checksum (0 says that there is none)."""
    return struct.pack(">HHHH", source, destination, 8 + len(data), 0) + data


def six(next_header, rest, flow=0x12345):
    """RFC 8200, section 3: version 6, traffic class, flow label, length, next header, hop limit, addresses."""
    source = bytes.fromhex("20010db8000000000000000000000001")
    destination = bytes.fromhex("20010db8000000000000000000000002")
    return struct.pack(">IHBB", 6 << 28 | flow, len(rest), next_header, 64) + source + destination + rest


def gre(ether_type, rest, key=None):
    """RFC 2784, section 2: no checksum, version 0, the protocol type; with a key the bit and field of RFC 2890."""
    if key is None:
        return struct.pack(">HH", 0, ether_type) + rest
    return struct.pack(">HHI", 0x2000, ether_type, key) + rest


SYN_OPTIONS = bytes([2, 4, 0x05, 0xB4, 1, 1, 4, 2])  # a segment size of 1460, padding, selective acknowledgement
ASK_Y = (mac(2) + bytes([192, 0, 2, 1]), bytes(6) + bytes([192, 0, 2, 7]))
HOP_BY_HOP = bytes([58, 0, 5, 2, 0, 0, 1, 0])  # next header ICMPv6; a router alert and padding

STANDARDS = [
    # RFC 791, appendix A, example 1: 21 bytes, one of them data, so that no ICMP header fits.
    frame(ETHER_IPV4, datagram(IP_ICMP, bytes([0x2A]))),
    # Example 2: a datagram of 472 bytes, and its two fragments, the second from the 32nd unit of 8 bytes on.
    frame(ETHER_IPV4, datagram(IP_TCP, segment(b"", bytes(432)))),
    frame(ETHER_IPV4, datagram(IP_TCP, segment(b"", bytes(236)), flags=1)),
    frame(ETHER_IPV4, datagram(IP_TCP, bytes(196), offset=32)),
    # Example 3: a header of 8 words with options, in a datagram of 576 bytes.
    frame(ETHER_IPV4, datagram(IP_TCP, segment(b"", bytes(524)),
                               options=bytes([0x88, 4, 0, 9, 0x44, 4, 5, 0x10, 1, 1, 1, 0]))),
    frame(ETHER_ARP, arp(1, *ASK_Y)),
    frame(ETHER_ARP, arp(2, mac(7) + bytes([192, 0, 2, 7]), ASK_Y[0])),
    frame(ETHER_IPV4, datagram(IP_ICMP, echo(8, b"abcdefgh"))),
    frame(ETHER_IPV4, datagram(IP_ICMP, echo(0, b"abcdefgh"))),
    frame(ETHER_MPLS, label_entry(16, 0) + label_entry(17, 1) + datagram(IP_UDP, udp(5060, 5060, b"INVITE"))),
    frame(ETHER_IPV4, datagram(IP_GRE, gre(ETHER_IPV4, datagram(IP_UDP, udp(53, 53, bytes(12)))))),
    frame(ETHER_IPV4, datagram(IP_GRE, gre(ETHER_IPV6, six(IP_TCP, segment(SYN_OPTIONS)), key=7))),
    frame(ETHER_IPV6, six(IP_UDP, udp(5004, 5004, bytes(16)))),
    frame(ETHER_IPV6, six(IP_HOP_BY_HOP, HOP_BY_HOP + echo(128, b""))),
    frame(ETHER_VLAN, vlan_tag(5, 100, ETHER_IPV4, datagram(IP_TCP, segment(SYN_OPTIONS, b"data")))),
    frame(ETHER_PROVIDER_VLAN, vlan_tag(0, 200, ETHER_VLAN, vlan_tag(3, 100, ETHER_IPV6, six(IP_TCP, segment(b""))))),
    # Five label stack entries, one more than the graph has nodes for.
    frame(ETHER_MPLS, b"".join(label_entry(16 + n, 0) for n in range(4)) + label_entry(20, 1) + datagram(IP_UDP, udp(1, 2, b""))),
    # An IEEE 802.3 length in the place of a type.
    frame(46, bytes(46)),
]

# Captures: a header, and for each packet a record. The order of a number's bytes is "<", lowest first, or ">"; the
# header's first number tells the order, and whether records count millionths or billionths of a second

MILLIONTHS = 0xA1B2C3D4
BILLIONTHS = 0xA1B23C4D


def capture(packets, link=1, order="<", spelling=MILLIONTHS):
    content = struct.pack(order + "IHHIIII", spelling, 2, 4, 0, 0, 65535, link)
    for second, packet in enumerate(packets):
        content += struct.pack(order + "IIII", second, 0, len(packet), len(packet)) + packet
    return content


THREE = [PACKETS[name] for name in ("tagged-tcp.packet", "cut-inside-tag.packet", "ipv6.packet")]

CAPTURES = {
    "three.pcap": capture(THREE),
    "cut.pcap": capture(THREE)[:-1],
    "cut-in-record-header.pcap": capture(THREE)[: 24 + 16 + 58 + 9],
    "cut-in-header.pcap": capture(THREE)[:23],
    "highest-byte-first.pcap": capture(THREE, order=">"),
    "billionths.pcap": capture(THREE, spelling=BILLIONTHS),
    "billionths-highest-byte-first.pcap": capture(THREE, order=">", spelling=BILLIONTHS),
    "too-long-between.pcap": capture([THREE[0], bytes(9601), THREE[1]]),
    "wireless.pcap": capture(THREE, link=105),
    "standards.pcap": capture(STANDARDS),
}

# Plans of the four-node graph: for each node a count and three nodes

PLANS = {
    "tag-in-one-look.plan": bytes([1, 1, 0, 0]) + bytes(12),
    "refused-7-15-bytes.plan": bytes(15),
    "refused-8-0-then-3.plan": bytes([1, 3, 0, 0]) + bytes(12),
}

SAMPLES = {
    "no-row-for-other-types.graph": file_bytes(NO_ROW_FOR_OTHER_TYPES),
    "ethernet-vlan-ipv4-tcp.graph": file_bytes(FOUR_NODES),
    "campus.graph": file_bytes(CAMPUS),
    "refused-1-empty.graph": b"",
    "refused-2-first-offset.graph": first_offset_19(),
    "refused-3-kind-11.graph": kind_11(),
    "refused-4-node-1-to-1.graph": node_1_to_1(),
    "refused-5-last-row-first.graph": last_row_first(),
    "refused-6-ethernet-13.graph": ethernet_13(),
}


def write(crate, files):
    data = CRATES / crate / "data"
    data.mkdir(parents=True, exist_ok=True)
    for name, content in files.items():
        (data / name).write_bytes(content)
        print(f"{len(content):5} bytes  {crate} {name}")


def main():
    write("tapctl", SAMPLES | PACKETS | PLANS | CAPTURES)


if __name__ == "__main__":
    main()
