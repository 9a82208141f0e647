/* A parser written by hand for two graphs, to measure a tap against: the four-header graph (Ethernet, a VLAN tag, IPv4,
   TCP) and the campus graph. It has no tables and cannot be told another graph. It marks the same headers as the plain
   walk of docs/WALK.md, makes the same checks, and ends in the same ways, which bench/run compares.
   There is a function for each node of a graph, as one writes such a parser: IPv4 and IPv6 in a tunnel are nodes of
   their own, behind which no GRE and no options come, and so stand beside those outside.

       fixed GRAPH PACKETS            times reads of the packets, over and over; GRAPH is four or campus
       fixed --counted GRAPH PACKETS  the same, and counts headers, bytes and endings as a tap does
       fixed --marks GRAPH PACKETS    prints what `tapctl walk` prints

   PACKETS is a capture in the lowest-byte-first libpcap format, or else the bytes of one packet. */

#include <stdint.h>
#include <stdio.h>
#include <stdlib.h>
#include <string.h>
#include <time.h>

enum { READS = 10000000, MOST_MARKS = 32, MOST_PACKET = 9600 };

enum kind { ETHERNET, VLAN, MPLS, IPV4, IPV6, TCP, UDP, GRE, ICMP, ARP, OTHER, KINDS };

enum ending { DONE = 0, CUT = 13, SHORT = 14, UNFIT = 15, DROPPED = 16, ENDINGS };

enum ether_type {
    TYPE_LAST_LENGTH = 0x05FF,
    TYPE_IPV4 = 0x0800,
    TYPE_ARP = 0x0806,
    TYPE_VLAN = 0x8100,
    TYPE_IPV6 = 0x86DD,
    TYPE_MPLS = 0x8847,
    TYPE_MPLS_UPSTREAM = 0x8848,
    TYPE_PROVIDER_VLAN = 0x88A8
};

enum protocol { P_HOP_BY_HOP = 0, P_ICMP = 1, P_TCP = 6, P_UDP = 17, P_GRE = 47, P_ICMPV6 = 58 };

/* Where a header lies: a node of the graph, its kind, offset and length. */
struct mark {
    uint8_t node;
    uint8_t kind;
    uint16_t offset;
    uint16_t length;
};

/* How a read ended, at which node and offset, and how many headers are marked. */
struct reading {
    uint8_t ending;
    uint8_t node;
    uint16_t offset;
    uint32_t marks;
};

struct packet {
    const uint8_t *bytes;
    size_t length;
};

typedef struct reading parser(struct packet packet, struct mark *marks);

/* What both parsers use. An offset `at` is never behind the packet's end. */

static inline struct reading ended(enum ending ending, unsigned node, size_t offset, size_t marks)
{
    return (struct reading){(uint8_t)ending, (uint8_t)node, (uint16_t)offset, (uint32_t)marks};
}

static inline void put(struct mark *mark, unsigned node, enum kind kind, size_t offset, size_t length)
{
    *mark = (struct mark){(uint8_t)node, (uint8_t)kind, (uint16_t)offset, (uint16_t)length};
}

static inline unsigned two_bytes(const uint8_t *bytes)
{
    return (unsigned)bytes[0] << 8 | bytes[1];
}

/* IPv4 is read by bytes 0, 6, 7 and 9, and has 20 to 60 bytes. */
static inline size_t ipv4_length(const uint8_t *header)
{
    return 4 * (size_t)(header[0] & 0x0F);
}

static inline enum ending check_ipv4(struct packet packet, size_t at)
{
    size_t left = packet.length - at;
    if (left < 10)
        return CUT;
    if (ipv4_length(packet.bytes + at) < 20)
        return SHORT;
    return ipv4_length(packet.bytes + at) > left ? CUT : DONE;
}

/* Only the first fragment of a datagram has the header of a transport protocol. */
static inline int later_fragment(const uint8_t *header)
{
    return (two_bytes(header + 6) & 0x1FFF) != 0;
}

/* The last header of each of its ways, TCP is read by byte 12 and has 20 to 60 bytes. */
static inline struct reading tcp(struct packet packet, unsigned node, size_t at, struct mark *marks, size_t count)
{
    size_t left = packet.length - at;
    if (left < 13)
        return ended(CUT, node, at, count);
    size_t length = 4 * (size_t)(packet.bytes[at + 12] >> 4);
    if (length < 20)
        return ended(SHORT, node, at, count);
    if (length > left)
        return ended(CUT, node, at, count);
    put(marks + count, node, TCP, at, length);
    return ended(DONE, node, at + length, count + 1);
}

/* The four-header graph. */

enum four_node { FOUR_ETHERNET, FOUR_VLAN, FOUR_IPV4, FOUR_TCP };

static struct reading four(struct packet packet, struct mark *marks)
{
    const uint8_t *bytes = packet.bytes;
    if (packet.length < 14)
        return ended(CUT, FOUR_ETHERNET, 0, 0);
    put(marks, FOUR_ETHERNET, ETHERNET, 0, 14);
    size_t at = 14, count = 1;
    unsigned type = two_bytes(bytes + 12);
    if (type == TYPE_VLAN) {
        if (packet.length < 18)
            return ended(CUT, FOUR_VLAN, 14, 1);
        put(marks + 1, FOUR_VLAN, VLAN, 14, 4);
        at = 18, count = 2;
        if (two_bytes(bytes + 16) != TYPE_IPV4)
            return ended(DONE, FOUR_VLAN, 18, 2);
    } else if (type != TYPE_IPV4) {
        return ended(DROPPED, FOUR_ETHERNET, 0, 1);
    }
    enum ending fault = check_ipv4(packet, at);
    if (fault != DONE)
        return ended(fault, FOUR_IPV4, at, count);
    size_t length = ipv4_length(bytes + at);
    put(marks + count, FOUR_IPV4, IPV4, at, length);
    if (bytes[at + 9] != P_TCP || later_fragment(bytes + at))
        return ended(DONE, FOUR_IPV4, at + length, count + 1);
    return tcp(packet, FOUR_TCP, at + length, marks, count + 1);
}

/* The campus graph: a function for each header, and each ends with the call of the next one. */

enum campus_node {
    N_ETHERNET, N_OUTER_TAG, N_INNER_TAG, N_FIRST_LABEL, N_LAST_LABEL = 6, N_IPV4, N_IPV6, N_HOP_BY_HOP, N_ARP, N_GRE,
    N_TUNNELLED_IPV4, N_TUNNELLED_IPV6, N_TCP, N_UDP, N_ICMP
};

/* UDP, ICMP and ARP: a last header whose length is fixed. */
static inline struct reading last(struct packet packet, unsigned node, enum kind kind, size_t length, size_t at,
                                  struct mark *marks, size_t count)
{
    if (packet.length - at < length)
        return ended(CUT, node, at, count);
    put(marks + count, node, kind, at, length);
    return ended(DONE, node, at + length, count + 1);
}

static struct reading campus_tcp(struct packet packet, size_t at, struct mark *marks, size_t count)
{
    return tcp(packet, N_TCP, at, marks, count);
}

static struct reading udp(struct packet packet, size_t at, struct mark *marks, size_t count)
{
    return last(packet, N_UDP, UDP, 8, at, marks, count);
}

static struct reading icmp(struct packet packet, size_t at, struct mark *marks, size_t count)
{
    return last(packet, N_ICMP, ICMP, 8, at, marks, count);
}

static struct reading arp(struct packet packet, size_t at, struct mark *marks, size_t count)
{
    return last(packet, N_ARP, ARP, 28, at, marks, count);
}

static struct reading tunnelled_ipv4(struct packet packet, size_t at, struct mark *marks, size_t count)
{
    enum ending fault = check_ipv4(packet, at);
    if (fault != DONE)
        return ended(fault, N_TUNNELLED_IPV4, at, count);
    const uint8_t *header = packet.bytes + at;
    size_t behind = at + ipv4_length(header);
    put(marks + count++, N_TUNNELLED_IPV4, IPV4, at, behind - at);
    if (!later_fragment(header)) {
        switch (header[9]) {
        case P_TCP: return campus_tcp(packet, behind, marks, count);
        case P_UDP: return udp(packet, behind, marks, count);
        case P_ICMP: return icmp(packet, behind, marks, count);
        }
    }
    return ended(DONE, N_TUNNELLED_IPV4, behind, count);
}

static struct reading tunnelled_ipv6(struct packet packet, size_t at, struct mark *marks, size_t count)
{
    if (packet.length - at < 40)
        return ended(CUT, N_TUNNELLED_IPV6, at, count);
    put(marks + count++, N_TUNNELLED_IPV6, IPV6, at, 40);
    switch (packet.bytes[at + 6]) {
    case P_TCP: return campus_tcp(packet, at + 40, marks, count);
    case P_UDP: return udp(packet, at + 40, marks, count);
    case P_ICMPV6: return icmp(packet, at + 40, marks, count);
    default: return ended(DONE, N_TUNNELLED_IPV6, at + 40, count);
    }
}

/* GRE has 4 bytes, or 8 with a key. With a check sum, routing, a sequence number or another version it is the last. */
static struct reading gre(struct packet packet, size_t at, struct mark *marks, size_t count)
{
    if (packet.length - at < 4)
        return ended(CUT, N_GRE, at, count);
    const uint8_t *header = packet.bytes + at;
    unsigned flags = two_bytes(header);
    size_t behind = at + (flags & 0x2000 ? 8 : 4);
    if (behind > packet.length)
        return ended(CUT, N_GRE, at, count);
    put(marks + count++, N_GRE, GRE, at, behind - at);
    if ((flags & 0xD007) == 0) {
        switch (two_bytes(header + 2)) {
        case TYPE_IPV4: return tunnelled_ipv4(packet, behind, marks, count);
        case TYPE_IPV6: return tunnelled_ipv6(packet, behind, marks, count);
        }
    }
    return ended(DONE, N_GRE, behind, count);
}

static struct reading ipv4(struct packet packet, size_t at, struct mark *marks, size_t count)
{
    enum ending fault = check_ipv4(packet, at);
    if (fault != DONE)
        return ended(fault, N_IPV4, at, count);
    const uint8_t *header = packet.bytes + at;
    size_t behind = at + ipv4_length(header);
    put(marks + count++, N_IPV4, IPV4, at, behind - at);
    if (!later_fragment(header)) {
        switch (header[9]) {
        case P_TCP: return campus_tcp(packet, behind, marks, count);
        case P_UDP: return udp(packet, behind, marks, count);
        case P_ICMP: return icmp(packet, behind, marks, count);
        case P_GRE: return gre(packet, behind, marks, count);
        }
    }
    return ended(DONE, N_IPV4, behind, count);
}

/* Byte 1 counts units of 8 bytes beyond the first 8. */
static struct reading hop_by_hop(struct packet packet, size_t at, struct mark *marks, size_t count)
{
    if (packet.length - at < 2)
        return ended(CUT, N_HOP_BY_HOP, at, count);
    size_t behind = at + 8 + 8 * (size_t)packet.bytes[at + 1];
    if (behind > packet.length)
        return ended(CUT, N_HOP_BY_HOP, at, count);
    put(marks + count++, N_HOP_BY_HOP, OTHER, at, behind - at);
    switch (packet.bytes[at]) {
    case P_TCP: return campus_tcp(packet, behind, marks, count);
    case P_UDP: return udp(packet, behind, marks, count);
    case P_ICMPV6: return icmp(packet, behind, marks, count);
    case P_GRE: return gre(packet, behind, marks, count);
    default: return ended(DONE, N_HOP_BY_HOP, behind, count);
    }
}

static struct reading ipv6(struct packet packet, size_t at, struct mark *marks, size_t count)
{
    if (packet.length - at < 40)
        return ended(CUT, N_IPV6, at, count);
    put(marks + count++, N_IPV6, IPV6, at, 40);
    switch (packet.bytes[at + 6]) {
    case P_TCP: return campus_tcp(packet, at + 40, marks, count);
    case P_UDP: return udp(packet, at + 40, marks, count);
    case P_ICMPV6: return icmp(packet, at + 40, marks, count);
    case P_HOP_BY_HOP: return hop_by_hop(packet, at + 40, marks, count);
    case P_GRE: return gre(packet, at + 40, marks, count);
    default: return ended(DONE, N_IPV6, at + 40, count);
    }
}

/* Up to four labels. Behind the bottom of the stack the first half byte tells the version of IP, so a label is read by
   five bytes. A fifth label is dropped. */
static struct reading labels(struct packet packet, size_t at, struct mark *marks, size_t count)
{
    for (unsigned node = N_FIRST_LABEL; node <= N_LAST_LABEL; node++, at += 4) {
        if (packet.length - at < 5)
            return ended(CUT, node, at, count);
        put(marks + count++, node, MPLS, at, 4);
        if (packet.bytes[at + 2] & 1) {
            switch (packet.bytes[at + 4] >> 4) {
            case 4: return ipv4(packet, at + 4, marks, count);
            case 6: return ipv6(packet, at + 4, marks, count);
            default: return ended(DONE, node, at + 4, count);
            }
        }
    }
    return ended(DROPPED, N_LAST_LABEL, at - 4, count);
}

/* Behind a tag: the header that its type names, if it is not another tag. */
static inline struct reading behind_tag(struct packet packet, unsigned node, unsigned type, size_t at,
                                        struct mark *marks, size_t count)
{
    switch (type) {
    case TYPE_IPV4: return ipv4(packet, at, marks, count);
    case TYPE_IPV6: return ipv6(packet, at, marks, count);
    case TYPE_ARP: return arp(packet, at, marks, count);
    case TYPE_MPLS:
    case TYPE_MPLS_UPSTREAM: return labels(packet, at, marks, count);
    default: return ended(DONE, node, at, count);
    }
}

static struct reading inner_tag(struct packet packet, size_t at, struct mark *marks, size_t count)
{
    if (packet.length - at < 4)
        return ended(CUT, N_INNER_TAG, at, count);
    put(marks + count++, N_INNER_TAG, VLAN, at, 4);
    return behind_tag(packet, N_INNER_TAG, two_bytes(packet.bytes + at + 2), at + 4, marks, count);
}

static struct reading outer_tag(struct packet packet, size_t at, struct mark *marks, size_t count)
{
    if (packet.length - at < 4)
        return ended(CUT, N_OUTER_TAG, at, count);
    put(marks + count++, N_OUTER_TAG, VLAN, at, 4);
    unsigned type = two_bytes(packet.bytes + at + 2);
    if (type == TYPE_VLAN)
        return inner_tag(packet, at + 4, marks, count);
    return behind_tag(packet, N_OUTER_TAG, type, at + 4, marks, count);
}

static struct reading campus(struct packet packet, struct mark *marks)
{
    if (packet.length < 14)
        return ended(CUT, N_ETHERNET, 0, 0);
    put(marks, N_ETHERNET, ETHERNET, 0, 14);
    unsigned type = two_bytes(packet.bytes + 12);
    switch (type) {
    case TYPE_VLAN: return inner_tag(packet, 14, marks, 1);
    case TYPE_PROVIDER_VLAN: return outer_tag(packet, 14, marks, 1);
    case TYPE_IPV4: return ipv4(packet, 14, marks, 1);
    case TYPE_IPV6: return ipv6(packet, 14, marks, 1);
    case TYPE_ARP: return arp(packet, 14, marks, 1);
    case TYPE_MPLS:
    case TYPE_MPLS_UPSTREAM: return labels(packet, 14, marks, 1);
    }
    if (type <= TYPE_LAST_LENGTH)
        return ended(DONE, N_ETHERNET, 14, 1);
    return ended(DROPPED, N_ETHERNET, 0, 1);
}

/* The counts of a tap: headers and bytes of each kind, and endings. Each stops at the most. */

struct report {
    uint32_t headers[KINDS];
    uint32_t bytes[KINDS];
    uint32_t endings[ENDINGS];
};

static inline uint32_t saturating(uint32_t count, uint32_t more)
{
    uint32_t sum = count + more;
    return sum < count ? UINT32_MAX : sum;
}

static void count(struct report *report, const struct mark *marks, struct reading reading)
{
    for (size_t i = 0; i < reading.marks; i++) {
        report->headers[marks[i].kind] = saturating(report->headers[marks[i].kind], 1);
        report->bytes[marks[i].kind] = saturating(report->bytes[marks[i].kind], marks[i].length);
    }
    report->endings[reading.ending] = saturating(report->endings[reading.ending], 1);
}

/* Files. */

struct packets {
    struct packet *list;
    size_t count;
    int capture;
};

static void fail(const char *what, const char *name)
{
    fprintf(stderr, "fixed: %s %s\n", what, name);
    exit(1);
}

static struct packet read_file(const char *name)
{
    FILE *file = fopen(name, "rb");
    if (!file || fseek(file, 0, SEEK_END) != 0)
        fail("cannot read", name);
    long length = ftell(file);
    uint8_t *bytes = length < 0 ? NULL : malloc((size_t)length + 1);
    rewind(file);
    if (!bytes || fread(bytes, 1, (size_t)length, file) != (size_t)length)
        fail("cannot read", name);
    fclose(file);
    return (struct packet){bytes, (size_t)length};
}

static size_t four_bytes(const uint8_t *bytes)
{
    return bytes[0] | (size_t)bytes[1] << 8 | (size_t)bytes[2] << 16 | (size_t)bytes[3] << 24;
}

static struct packets read_packets(const char *name)
{
    static const uint8_t magic[4] = {0xD4, 0xC3, 0xB2, 0xA1};
    struct packet file = read_file(name);
    int capture = file.length >= 24 && memcmp(file.bytes, magic, 4) == 0;
    struct packets packets = {calloc(file.length / 16 + 1, sizeof(struct packet)), 0, capture};
    if (!packets.list)
        fail("no memory for", name);
    if (!capture)
        packets.list[packets.count++] = file;
    for (size_t at = 24; capture && at < file.length;) {
        size_t left = file.length - at;
        size_t length = left < 16 ? 0 : four_bytes(file.bytes + at + 8);
        if (left < 16 || length > left - 16)
            fail("a record is cut in", name);
        packets.list[packets.count++] = (struct packet){file.bytes + at + 16, length};
        at += 16 + length;
    }
    for (size_t i = 0; i < packets.count; i++)
        if (packets.list[i].length > MOST_PACKET)
            fail("a packet has more than 9600 bytes in", name);
    return packets;
}

/* What is printed. */

static const char *const KIND_NAMES[KINDS] = {"Ethernet", "VLAN", "MPLS", "IPv4", "IPv6", "TCP",
                                              "UDP",      "GRE",  "ICMP", "ARP",  "other"};

static const char *const ENDING_TEXTS[ENDINGS] = {
    [CUT] = "a byte that is read, or the header's end, lies outside the packet",
    [SHORT] = "the header is shorter than the minimum of its kind",
    [UNFIT] = "no row of the node fits",
    [DROPPED] = "the deciding row drops the packet"};

static void print_reading(struct packet packet, const struct mark *marks, struct reading reading)
{
    printf("node  kind      offset  length\n");
    for (size_t i = 0; i < reading.marks; i++)
        printf("%4u  %-8s  %6u  %6u\n", marks[i].node, KIND_NAMES[marks[i].kind], marks[i].offset, marks[i].length);
    if (reading.ending == DONE)
        printf("done: payload at %u, %zu bytes\n", reading.offset, packet.length - reading.offset);
    else
        printf("ended: number %u, layer walk, node %u, offset %u: %s\n", reading.ending, reading.node, reading.offset,
               ENDING_TEXTS[reading.ending]);
}

static void print_marks(parser *parse, struct packets packets)
{
    struct mark marks[MOST_MARKS];
    for (size_t i = 0; i < packets.count; i++) {
        if (packets.capture)
            printf("packet %zu: %zu bytes\n", i, packets.list[i].length);
        print_reading(packets.list[i], marks, parse(packets.list[i], marks));
    }
    if (packets.capture)
        printf("%zu packets\n", packets.count);
}

static void print_counts(const struct report *report)
{
    uint64_t headers = 0, bytes = 0, endings = 0;
    for (size_t i = 0; i < KINDS; i++) {
        headers += report->headers[i];
        bytes += report->bytes[i];
    }
    for (size_t i = 0; i < ENDINGS; i++)
        endings += report->endings[i];
    printf("counts: %llu headers, %llu bytes, %llu endings\n", (unsigned long long)headers, (unsigned long long)bytes,
           (unsigned long long)endings);
}

static double now(void)
{
    struct timespec time;
    clock_gettime(CLOCK_MONOTONIC, &time);
    return (double)time.tv_sec * 1e9 + (double)time.tv_nsec;
}

/* The parser is called through a pointer that is known only when the program runs, so that no read is left out. */
static void print_times(parser *parse, struct packets packets, int counted)
{
    static struct mark marks[MOST_MARKS];
    static struct report report;
    size_t rounds = (READS + packets.count - 1) / packets.count;
    uint64_t headers = 0;
    double start = now();
    for (size_t round = 0; round < rounds; round++)
        for (size_t i = 0; i < packets.count; i++) {
            struct reading reading = parse(packets.list[i], marks);
            headers += reading.marks;
            if (counted)
                count(&report, marks, reading);
        }
    double time = now() - start;
    size_t reads = rounds * packets.count;
    printf("reads: %zu, %.2f ns each\n", reads, time / (double)reads);
    printf("headers: %llu, %.2f ns each\n", (unsigned long long)headers, headers ? time / (double)headers : 0);
    if (counted)
        print_counts(&report);
}

int main(int words, char **word)
{
    int marks = words == 4 && strcmp(word[1], "--marks") == 0;
    int counted = words == 4 && strcmp(word[1], "--counted") == 0;
    if (words != 3 && !marks && !counted)
        fail("usage:", "fixed [--marks | --counted] four|campus PACKETS");
    const char *graph = word[words - 2];
    parser *parse = strcmp(graph, "four") == 0 ? four : strcmp(graph, "campus") == 0 ? campus : NULL;
    if (!parse)
        fail("no such graph:", graph);
    struct packets packets = read_packets(word[words - 1]);
    if (packets.count == 0)
        fail("no packets in", word[words - 1]);
    if (marks)
        print_marks(parse, packets);
    else
        print_times(parse, packets, counted);
    return 0;
}
