/* example GRAPH PLAN CAPTURE: prints the headers of each packet of a capture, as tap_read marks them.
 *
 * GRAPH is a graph file, PLAN a plan for it, CAPTURE a capture in the libpcap format (docs/CAPTURES.md): either byte
 * order, fractions of a second in millionths or billionths, link type Ethernet. The status is 0, or 1 if a file cannot
 * be read or is refused, or if the capture is broken; what comes before the break is printed. */

#include "tap.h"

#include <errno.h>
#include <stdbool.h>
#include <stdio.h>
#include <stdlib.h>
#include <string.h>

struct bytes {
    uint8_t *first;
    size_t length;
};

/* Files */

/* Reads on to the file's end; the room doubles as needed. False if there is no memory or the reading fails. */
static bool read_to_end(FILE *file, struct bytes *content) {
    size_t room = 65536;
    content->length = 0;
    content->first = malloc(room);
    while (content->first != NULL) {
        content->length += fread(content->first + content->length, 1, room - content->length, file);
        if (content->length < room) {
            return ferror(file) == 0;
        }
        room *= 2;
        uint8_t *moved = realloc(content->first, room);
        if (moved == NULL) {
            free(content->first);
        }
        content->first = moved;
    }
    return false;
}

/* The whole file. Ends the program if it cannot be read. */
static struct bytes file_content(const char *name) {
    struct bytes content = {NULL, 0};
    errno = 0;
    FILE *file = fopen(name, "rb");
    if (file == NULL || !read_to_end(file, &content)) {
        fprintf(stderr, "cannot read %s: %s\n", name, errno != 0 ? strerror(errno) : "reading failed");
        exit(EXIT_FAILURE);
    }
    fclose(file);
    return content;
}

/* Words */

static const char *kind_name(uint8_t kind) {
    static const char *const names[] = {"Ethernet", "VLAN", "MPLS", "IPv4", "IPv6", "TCP",
                                        "UDP",      "GRE",  "ICMP", "ARP",  "other"};
    return kind < sizeof names / sizeof names[0] ? names[kind] : "unknown";
}

static const char *ending_words(unsigned number) {
    switch (number) {
    case TAP_CUT:
        return "a byte that is read, or the header's end, lies outside the packet";
    case TAP_SHORT:
        return "the header's length is below the fewest bytes of its kind";
    case TAP_UNFIT:
        return "no row of the node fits";
    case TAP_DROPPED:
        return "the row that decides drops the packet";
    default:
        return "no ending that is known";
    }
}

/* Prints a refusal with the places that its number names. */
static void print_refusal(FILE *out, uint64_t answer) {
    unsigned first = tap_first_place(answer), second = tap_second_place(answer);
    fprintf(out, "refused by %u: ", tap_number(answer));
    switch (tap_number(answer)) {
    case TAP_FILE_SHAPE:
        fprintf(out, "the graph file's size, its node count or its byte 1 is wrong\n");
        break;
    case TAP_FILE_PAIR:
        fprintf(out, "pair %u is not that of its node's record\n", first);
        break;
    case TAP_FILE_BYTE:
        fprintf(out, "node %u: byte %u of its record is out of its range\n", first, second);
        break;
    case TAP_GRAPH_TARGET:
        fprintf(out, "node %u: row %u leads to no later node\n", first, second);
        break;
    case TAP_GRAPH_COVERED:
        fprintf(out, "node %u: row %u is covered by an earlier row\n", first, second);
        break;
    case TAP_GRAPH_LENGTH:
        fprintf(out, "node %u: the fixed length is under the fewest bytes of its kind\n", first);
        break;
    case TAP_PLAN_BYTES:
        fprintf(out, "plan, node %u: not 4 bytes a node, or a count or an unused byte is wrong\n", first);
        break;
    case TAP_PLAN_CHAIN:
        fprintf(out, "plan, node %u: the chain breaks a rule\n", first);
        break;
    case TAP_STORE_ROWS:
        fprintf(out, "%u rows are more than %d\n", first, TAP_MOST_ROWS);
        break;
    case TAP_PACKET_LENGTH:
        fprintf(out, "the packet has more than %d bytes\n", TAP_LONGEST_PACKET);
        break;
    case TAP_AREA_SHORT:
        fprintf(out, "the area has fewer than %d bytes\n", TAP_AREA_LENGTH);
        break;
    default:
        fprintf(out, "no refusal that is known\n");
    }
}

/* Packets */

struct tap {
    struct bytes graph;
    struct bytes plan;
};

static uint64_t read_packet(const struct tap *tap, struct bytes packet, uint8_t area[TAP_AREA_LENGTH]) {
    return tap_read(tap->graph.first, tap->graph.length, tap->plan.first, tap->plan.length, packet.first, packet.length,
                    area, TAP_AREA_LENGTH);
}

static void print_marks(const uint8_t *area) {
    if (tap_mark_count(area) > 0) {
        printf("  node  kind      offset  length\n");
    }
    for (size_t place = 0; place < tap_mark_count(area); place++) {
        struct tap_mark mark = tap_mark_at(area, place);
        printf("  %4u  %-8s  %6u  %6u\n", mark.node, kind_name(mark.kind), mark.offset, mark.length);
    }
}

static void print_ending(uint64_t answer, const uint8_t *area, size_t packet_length) {
    unsigned number = tap_number(answer), offset = tap_end_offset(area);
    if (number == TAP_DONE) {
        printf("  done: payload at %u, %zu bytes\n", offset, packet_length - offset);
    } else {
        printf("  ended by %u at node %u, offset %u: %s\n", number, tap_end_node(area), offset, ending_words(number));
    }
    printf("  questions: %u\n", tap_questions(area));
}

static void show_packet(const struct tap *tap, struct bytes packet, size_t place) {
    uint8_t area[TAP_AREA_LENGTH];
    uint64_t answer = read_packet(tap, packet, area);
    printf("packet %zu: %zu bytes\n", place, packet.length);
    if (tap_is_ending(answer)) {
        print_marks(area);
        print_ending(answer, area, packet.length);
    } else {
        printf("  ");
        print_refusal(stdout, answer);
    }
}

/* Whether graph and plan are accepted, found by reading a packet of no bytes; says why if not. */
static bool accepted(const struct tap *tap) {
    uint8_t area[TAP_AREA_LENGTH], none[1] = {0};
    struct bytes empty = {none, 0};
    uint64_t answer = read_packet(tap, empty, area);
    if (!tap_is_ending(answer)) {
        fflush(stdout);
        print_refusal(stderr, answer);
    }
    return tap_is_ending(answer);
}

/* Captures */

enum { CAPTURE_HEADER = 24, RECORD_HEADER = 16, LINK_AT = 20, CAPTURED_AT = 8, ETHERNET_LINK = 1 };

static uint32_t four_bytes(const uint8_t *bytes, bool lowest_first) {
    uint32_t number = 0;
    for (int place = 0; place < 4; place++) {
        number = number << 8 | bytes[lowest_first ? 3 - place : place];
    }
    return number;
}

static bool is_magic(uint32_t number) {
    return number == 0xA1B2C3D4 || number == 0xA1B23C4D;
}

/* Finds the byte order, and whether the file is a capture of Ethernet; says why if not. */
static bool capture_opens(const char *name, struct bytes capture, bool *lowest_first) {
    if (capture.length < CAPTURE_HEADER ||
        (!is_magic(four_bytes(capture.first, false)) && !is_magic(four_bytes(capture.first, true)))) {
        fprintf(stderr, "%s: not a capture: fewer than 24 bytes, or no magic number at its beginning\n", name);
        return false;
    }
    *lowest_first = is_magic(four_bytes(capture.first, true));
    unsigned link = four_bytes(capture.first + LINK_AT, *lowest_first) & 0xFFFF;
    if (link != ETHERNET_LINK) {
        fprintf(stderr, "%s: link type %u, and only 1, Ethernet, is read\n", name, link);
        return false;
    }
    return true;
}

/* The packet of the record at an offset; says what is cut if the record is not whole. */
static bool record_at(const char *name, struct bytes capture, bool lowest_first, size_t offset, struct bytes *packet) {
    size_t left = capture.length - offset;
    if (left < RECORD_HEADER) {
        fflush(stdout);
        fprintf(stderr, "%s: cut inside the record at byte %zu: %zu of its header's 16 bytes are there\n", name, offset,
                left);
        return false;
    }
    left -= RECORD_HEADER;
    packet->first = capture.first + offset + RECORD_HEADER;
    packet->length = four_bytes(capture.first + offset + CAPTURED_AT, lowest_first);
    if (packet->length > left) {
        fflush(stdout);
        fprintf(stderr, "%s: cut inside the record at byte %zu: %zu of its packet's %zu bytes are there\n", name,
                offset, left, packet->length);
        return false;
    }
    return true;
}

static bool show_capture(const char *name, struct bytes capture, const struct tap *tap) {
    bool lowest_first = false;
    if (!capture_opens(name, capture, &lowest_first)) {
        return false;
    }
    struct bytes packet = {NULL, 0};
    size_t offset = CAPTURE_HEADER;
    for (size_t place = 0; offset < capture.length; place++) {
        if (!record_at(name, capture, lowest_first, offset, &packet)) {
            return false;
        }
        show_packet(tap, packet, place);
        offset += RECORD_HEADER + packet.length;
    }
    return true;
}

int main(int count, char **words) {
    if (count != 4) {
        fprintf(stderr, "usage: example GRAPH PLAN CAPTURE\n");
        return EXIT_FAILURE;
    }
    struct tap tap = {file_content(words[1]), file_content(words[2])};
    struct bytes capture = file_content(words[3]);
    bool right = accepted(&tap) && show_capture(words[3], capture, &tap);
    free(tap.graph.first);
    free(tap.plan.first);
    free(capture.first);
    if (fflush(stdout) != 0) {
        fprintf(stderr, "cannot write the output: %s\n", strerror(errno));
        right = false;
    }
    return right ? EXIT_SUCCESS : EXIT_FAILURE;
}
