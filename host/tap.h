/* tap.h: reading the headers of a packet, from C (C99 or later) or C++.
 *
 * One function, tap_read, loads a parse graph and a plan, reads one packet by them, and writes to an area of bytes
 * which headers the packet has. Nothing is kept from one call to the next. It is in a static library; docs/HOST.md
 * says how that is built and linked. The other pages of docs/ say what a graph file (GRAPH_FILES.md) and a plan
 * (PLANS.md) are, and how a packet is read (WALK.md).
 *
 *     uint8_t area[TAP_AREA_LENGTH];
 *     uint64_t answer = tap_read(graph, graph_length, plan, plan_length, packet, packet_length, area, sizeof area);
 *
 *     if (!tap_is_ending(answer)) {
 *         // refused: tap_number, tap_first_place and tap_second_place say why and where
 *     } else for (size_t at = 0; at < tap_mark_count(area); at++) {
 *         struct tap_mark mark = tap_mark_at(area, at);
 *         // a header of kind mark.kind, mark.length bytes from packet[mark.offset] on
 *     }
 */

#ifndef TAP_H
#define TAP_H

#include <stddef.h>
#include <stdint.h>

#ifdef __cplusplus
extern "C" {
#endif

/* Sizes, in bytes unless said otherwise. */

#define TAP_LONGEST_GRAPH 5762  /* of a graph file: 2, and 4 + 176 for each of 32 nodes */
#define TAP_MOST_NODES 32       /* nodes of a graph */
#define TAP_PLAN_NODE_LENGTH 4  /* of a plan, for each node of its graph */
#define TAP_MOST_ROWS 512       /* rows that graph and plan may need */
#define TAP_LONGEST_PACKET 9600 /* of a packet */
#define TAP_MOST_MARKS 32       /* marks of a packet: no node comes twice */
#define TAP_AREA_LENGTH 198     /* of the area, at least: 6, and 6 for each of 32 marks */

/* How a read ended. The answer of tap_read is then this number and nothing else, and the area is written. None of them
 * is a failure: the marks made until then are sound. Node and offset are those in the area. */
enum tap_ending {
    TAP_DONE = 0,    /* read as far as the graph goes; node is the last marked one, offset the payload's first byte */
    TAP_CUT = 13,    /* a byte that the header is read by, or the header's end, lies outside the packet; node is the one
                        whose header was refused, offset where that header begins */
    TAP_SHORT = 14,  /* the header's length is below the fewest bytes of its kind; node and offset as for TAP_CUT */
    TAP_UNFIT = 15,  /* no row of the node fits; node is the last marked one, offset where its header begins */
    TAP_DROPPED = 16 /* the row that decides drops the packet; node and offset as for TAP_UNFIT */
};

/* Why a call was refused. The answer is then number + 256 x first place + 2^24 x second place, and no byte of the area
 * is changed. Places that a number does not name are 0; nodes, pairs, rows and bytes count from 0. Where several apply,
 * the lowest number is answered, there the lowest first place, and there the lowest second place. */
enum tap_refusal {
    /* The graph file. */
    TAP_FILE_SHAPE = 1,     /* under 2 or over 5,762 bytes, a node count that is not 1 to 32, or byte 1 not zero */
    TAP_FILE_PAIR = 2,      /* a pair is missing, or not that of its node's record; first place: the pair */
    TAP_FILE_BYTE = 3,      /* a byte of a record is out of its range; first: the node; second: the record's byte */
    TAP_GRAPH_TARGET = 4,   /* a row leads to a node that is no later one of the graph; first: the node; second: row */
    TAP_GRAPH_COVERED = 5,  /* an earlier row of the node takes all keys of a row; first: the node; second: the row */
    TAP_GRAPH_LENGTH = 6,   /* a fixed length is under the fewest bytes of the kind; first: the node */
    /* The plan. */
    TAP_PLAN_BYTES = 7,     /* not 4 bytes for each node, and then only this; first: the number of nodes. Or a count
                               over 3, or an unused byte that is not zero; first: the node */
    TAP_PLAN_CHAIN = 8,     /* a node's chain breaks a rule; first: the node */
    /* Both together. */
    TAP_STORE_ROWS = 9,     /* graph and plan need more than 512 rows; first: how many, 65,535 if more */
    /* The packet and the area. */
    TAP_PACKET_LENGTH = 10, /* the packet has more than 9,600 bytes */
    TAP_AREA_SHORT = 11     /* the area has fewer than 198 bytes */
};

/* The kinds of header, as they stand in a mark, each with the fewest bytes that such a header has. */
enum tap_kind {
    TAP_ETHERNET = 0, /* 14: addresses and type */
    TAP_VLAN = 1,     /* 4: a tag of IEEE 802.1Q, behind the type that announces it, with the type of what follows */
    TAP_MPLS = 2,     /* 4: a label stack entry */
    TAP_IPV4 = 3,     /* 20, up to 60 with options */
    TAP_IPV6 = 4,     /* 40 */
    TAP_TCP = 5,      /* 20, up to 60 with options */
    TAP_UDP = 6,      /* 8 */
    TAP_GRE = 7,      /* 4, more with checksum, key or number */
    TAP_ICMP = 8,     /* 8 */
    TAP_ARP = 9,      /* 28: for Ethernet and IPv4 */
    TAP_OTHER = 10    /* 1: any header that has none of the other kinds */
};

/* The area, as a read leaves it. Numbers of two bytes have the highest byte first. Bytes behind the last mark stay as
 * they were. */
enum tap_area {
    TAP_AREA_MARKS = 0,     /* 1 byte: how many headers are marked, 0 to 32 */
    TAP_AREA_QUESTIONS = 1, /* 1 byte: how many questions were put to the store, never more than marks */
    TAP_AREA_NODE = 2,      /* 1 byte: the node of the ending */
    TAP_AREA_ZERO = 3,      /* 1 byte: zero */
    TAP_AREA_OFFSET = 4,    /* 2 bytes: the offset of the ending */
    TAP_AREA_FIRST = 6,     /* the marks, in the packet's order, */
    TAP_MARK_LENGTH = 6,    /* 6 bytes each, in which there are: */
    TAP_MARK_NODE = 0,      /* 1 byte: the node of the graph */
    TAP_MARK_KIND = 1,      /* 1 byte: the kind, 0 to 10 */
    TAP_MARK_OFFSET = 2,    /* 2 bytes: where in the packet the header begins */
    TAP_MARK_BYTES = 4      /* 2 bytes: how many bytes the header has */
};

/* Loads graph and plan into a new tap, reads the packet, writes the area, and answers the ending or the refusal.
 *
 * Each pointer is to as many bytes as its length says, and is not null even for a length of 0. The area overlaps none
 * of the others. The graph file, the plan and the packet may be any bytes: what is wrong with them is answered.
 *
 * A call keeps nothing and takes no memory but its stack, of which it needs less than 128 KB (measured, on x86-64). So
 * threads may make calls at the same time, each with an area of its own. */
uint64_t tap_read(const uint8_t *graph, size_t graph_len, const uint8_t *plan, size_t plan_len, const uint8_t *packet,
                  size_t packet_len, uint8_t *area, size_t area_len);

/* A header that a read marked. */
struct tap_mark {
    uint8_t node;
    uint8_t kind; /* a number of enum tap_kind */
    uint16_t offset;
    uint16_t length;
};

/* The number of an answer: of enum tap_ending, or of enum tap_refusal. */
static inline unsigned tap_number(uint64_t answer) {
    return (unsigned)(answer & 0xFF);
}

/* The first place of an answer that is a refusal. */
static inline unsigned tap_first_place(uint64_t answer) {
    return (unsigned)(answer >> 8 & 0xFFFF);
}

/* The second place of an answer that is a refusal. */
static inline unsigned tap_second_place(uint64_t answer) {
    return (unsigned)(answer >> 24 & 0xFFFF);
}

/* Whether the packet was read and the area written; if not, the call was refused. */
static inline int tap_is_ending(uint64_t answer) {
    return answer == TAP_DONE || (answer >= TAP_CUT && answer <= TAP_DROPPED);
}

/* The number of two bytes, the highest first. */
static inline uint16_t tap_two_bytes(const uint8_t *bytes) {
    return (uint16_t)(bytes[0] << 8 | bytes[1]);
}

/* What a written area says. */

static inline size_t tap_mark_count(const uint8_t *area) {
    return area[TAP_AREA_MARKS];
}

static inline unsigned tap_questions(const uint8_t *area) {
    return area[TAP_AREA_QUESTIONS];
}

static inline unsigned tap_end_node(const uint8_t *area) {
    return area[TAP_AREA_NODE];
}

static inline unsigned tap_end_offset(const uint8_t *area) {
    return tap_two_bytes(area + TAP_AREA_OFFSET);
}

/* The mark at a place under tap_mark_count. */
static inline struct tap_mark tap_mark_at(const uint8_t *area, size_t place) {
    const uint8_t *bytes = area + TAP_AREA_FIRST + TAP_MARK_LENGTH * place;
    struct tap_mark mark;
    mark.node = bytes[TAP_MARK_NODE];
    mark.kind = bytes[TAP_MARK_KIND];
    mark.offset = tap_two_bytes(bytes + TAP_MARK_OFFSET);
    mark.length = tap_two_bytes(bytes + TAP_MARK_BYTES);
    return mark;
}

#ifdef __cplusplus
}
#endif

#endif
