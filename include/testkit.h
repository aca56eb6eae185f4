/*
 * The packet probe's calls for C (C99 and C++17; x86-64, System V calling convention).
 *
 * Build and link: firmware/install PREFIX puts this header, libtestkit.a and a pkg-config file under a prefix, and then
 *
 *     export PKG_CONFIG_PATH=PREFIX/lib/pkgconfig      (where pkg-config does not search PREFIX by itself)
 *     cc -std=c99 program.c $(pkg-config --cflags --libs testkit) -o program
 *
 * Nothing else is linked: of the C library the archive asks for memory functions (memcpy, memmove, memset, memcmp) and
 * no more. It allocates nothing, makes no system call, and has no variable of its own. Paths in this file are those of
 * the repository.
 *
 * What is proved, what is checked, what is only said. Each call is proved to meet its contract, which stands beside its
 * code in crates/testkit_packets, testkit_sheet and testkit_reflector. The contract is what document 01 (docs/SCOPE.md)
 * and the RFCs say; document 02 has testkit_forecast, the tunnel that testkit_validate_elements and
 * testkit_record_return_gtpu_datagram give, and the arrival times of a run sheet; testkit_version,
 * testkit_record_sent_plan, testkit_record_received_tpdus and testkit_judge_report are in neither, and have contracts
 * of our own. This header is not proved. firmware/run, which is part of the gate, checks the following:
 *   - each call and each struct that the archive has, with types and names in their order, against the proved source.
 *     struct testkit_sheet, struct testkit_table and the calls over them are the header's own: each of those calls is
 *     declared as it is defined, and is tried beside the archive's call (firmware/answers.c);
 *   - each enumerator and the version against a constant of the proved source, and that none is left out.
 *     TESTKIT_ACCEPTED has no constant there, and must be 0;
 *   - that a number in brackets behind a name is that name's, and that no name means two things;
 *   - each size, alignment and offset: the C compiler asserts those that C's rules give for the proved source. The
 *     archive does not tell how its structs are laid out, so a program calls it with a value of its own in each field
 *     of each struct, and compares every field of every answer (firmware/answers.c);
 *   - each call's list of refusals: every number of the list is met, and no other is, on the inputs of a program that
 *     is there to meet them (firmware/stack.c). The order of a list is not checked;
 *   - that each call takes null for a buffer of length 0, as the archive is built today (firmware/answers.c);
 *   - against the archive's machine code, each figure of stack, how deep the walk over elements goes, how far the red
 *     zone is used, and that there are no other symbols, variables, registers and instructions than this header says;
 *   - each text of testkit_number_text against the card (.ci/card does this).
 * Every other sentence of a comment is checked by no machine.
 *
 * Lending. Every buffer is the caller's, before, during and after a call, and no call keeps a pointer. A buffer is lent
 * as a pointer and a length, where the length counts elements. The caller sees to it that
 *   - a pointer is not null, and is aligned for its type;
 *   - all the elements that the length counts are initialised, to whatever value, and may be read and, where the
 *     pointer is not to const, written;
 *   - a buffer that a call may write overlaps no other buffer of that call: no echo is written over the packet that it
 *     answers (`out` is neither `tpdu` nor `payload`);
 *   - until the call returns, nobody else writes a lent buffer, or reads one that the call may write.
 * A number that is lent by pointer, as testkit_generate is lent its next sequence, is a buffer of one element.
 * Everything else is the call's to judge: no value, length or content is forbidden, but for a bool, which is 0 or 1
 * (testkit_judge_report is handed some). A call reads and writes only what it is lent, and writes no const buffer.
 *
 * What no call can detect. A null or wild pointer, or a length past the end of a buffer, is a wrong memory access: the
 * program stops, or other memory is read or changed. Where a buffer that is written overlaps another one, answer and
 * bytes are those of no contract: what is read may be what was just written. No call promises to take null with length
 * 0, though today each does. Addresses and the next sequence have no length: null is never right for them.
 *
 * Byte order. Ports, TEIDs, sequences, times and lengths are numbers of the machine, in host order; addresses and
 * packets are bytes in the order that they have on the wire. So, of a struct sockaddr_in `in` and a GTP-U header:
 *
 *     address.version = 4;
 *     address.port = ntohs(in.sin_port);
 *     memcpy(address.address, &in.sin_addr, 4);      (of IPv6: ntohs(in6.sin6_port), and 16 bytes of in6.sin6_addr)
 *     message.teid = ntohl(teid_of_the_header);
 *
 * and back with htons and htonl. Of an IPv4 address the first 4 bytes count and the other 12 do not. Where a call reads
 * an address out of a packet or an element, those 12 are 0 (testkit_decode, testkit_validate_elements,
 * testkit_record_return_gtpu_datagram); an address that the caller hands in (a session's, a route target's, a source)
 * comes back with all 16 bytes as they were.
 *
 * State. A call has no state of its own: what it is to remember stands in the caller's buffers, and in records that go
 * in by value and come back changed. The calls over struct testkit_sheet and struct testkit_table store those records
 * themselves; a caller of the calls with single arguments stores them, after refusals too.
 *
 * Answers. `number` is TESTKIT_ACCEPTED (0) or says why the call refused: enum testkit_number, testkit_number_text for
 * its cause in words, and docs/CARD.md for what to do about it. Of several causes it names the first in the order that
 * is given at the call. A call that refuses leaves every lent byte and every count as it was, with two exceptions:
 * testkit_generate (the next sequence) and testkit_handle_datagram (counts). testkit_record_received_tpdus answers for
 * each return by itself: where one is refused, the others are still tried. On success, output bytes past the answer
 * stay as they were.
 *
 * Time. Every call ends; none waits. How long it takes, up to a constant:
 *   - checksums, reading, echo and the walk over elements: the bytes that they are lent, or fewer;
 *   - testkit_generate: the bytes that it writes;
 *   - each call on a run sheet scans all used rows for TESTKIT_MALFORMED_OBSERVER (21) once, up to 2,048. Then a row is
 *     found by binary search. A new sequence moves every row above it by one: none where sequences rise, all where they
 *     fall. A first return looks through the marks above its row. So a plan or a list takes one scan in all, and the
 *     rest for each of its packets; single calls take a scan each. A return, single or in a list, also takes the bytes
 *     of its T-PDU or elements;
 *   - each call on a session table searches the used rows one after the other, up to 4,096, whatever the message is. A
 *     G-PDU that is echoed also takes its payload's bytes;
 *   - the report: the used rows;
 *   - testkit_build, the forecast, the verdict and the version: nothing that grows.
 * Times that are handed in are in nanoseconds since whatever moment the caller chose.
 *
 * Threads, signals, interrupts. Calls on different buffers may run at the same time, also one that interrupts another.
 * The archive is ordinary x86-64 user code. It uses the general registers, the flags and %xmm0 to %xmm15, no other
 * vector, mask, MMX, x87 or segment register, and no instruction beyond SSE2, which every x86-64 processor has. It uses
 * the red zone, the 128 bytes below the stack pointer (the figures of stack count them). A Unix signal handler needs no
 * care: the kernel saves the registers and keeps off the red zone. An interrupt that is taken on the interrupted stack
 * destroys the red zone, since the processor itself pushes there: where calls run with such interrupts open, as in a
 * kernel or on bare metal, give the interrupts a stack of their own. A handler that makes calls itself saves the %xmm
 * registers first and restores them afterwards; and where the program is built without them (-mno-sse), SSE must be
 * enabled before a call.
 */
#ifndef TESTKIT_H
#define TESTKIT_H

#include <stdbool.h>
#include <stddef.h>
#include <stdint.h>

/*
 * The version of this header; testkit_version gives that of the archive. Header and archive must be of one version, all
 * three parts alike. From one version to the next, MAJOR rises where a program may have to be changed; otherwise MINOR,
 * where something was added (a call, a number, a field) and a program need only be compiled again; otherwise PATCH.
 */
#define TESTKIT_VERSION_MAJOR 5
#define TESTKIT_VERSION_MINOR 0
#define TESTKIT_VERSION_PATCH 0
#define TESTKIT_VERSION (TESTKIT_VERSION_MAJOR * 65536 + TESTKIT_VERSION_MINOR * 256 + TESTKIT_VERSION_PATCH)

#ifdef __cplusplus
extern "C" {
#endif

/* Sizes and limits. */
enum {
    TESTKIT_ADDRESS_BYTES = 16,      /* an address */
    TESTKIT_IPV4_TPDU_BYTES = 52,    /* a built or echoed T-PDU */
    TESTKIT_IPV6_TPDU_BYTES = 72,
    TESTKIT_MAXIMUM_PACKETS = 2048,  /* packets in a plan */
    TESTKIT_MAXIMUM_ROWS = 2048,     /* rows of a run sheet: elements past these are never used */
    TESTKIT_MAXIMUM_SESSIONS = 4096, /* sessions of a reflector */
    TESTKIT_REFLECTOR_BYTES = 72     /* the least `out` of testkit_handle_datagram */
};

/* The types of GTP-U messages that the calls know. */
enum testkit_message_type {
    TESTKIT_GTPU_MSG_ECHO_REQUEST = 1,
    TESTKIT_GTPU_MSG_ECHO_RESPONSE = 2,
    TESTKIT_GTPU_MSG_ERROR_INDICATION = 26,
    TESTKIT_GTPU_MSG_SUPPORTED_EXTENSION_HEADERS_NOTIFICATION = 31,
    TESTKIT_GTPU_MSG_END_MARKER = 254,
    TESTKIT_GTPU_MSG_GPDU = 255
};

/* The refusals. docs/CARD.md has each with its cause and what to do. */
enum testkit_number {
    TESTKIT_ACCEPTED = 0,
    TESTKIT_TRUNCATED_IP_HEADER = 1,
    TESTKIT_UNSUPPORTED_IP_VERSION = 2,
    TESTKIT_TRUNCATED_IPV4_HEADER = 3,
    TESTKIT_INVALID_IPV4_IHL = 4,
    TESTKIT_INVALID_IPV4_TOTAL_LENGTH = 5,
    TESTKIT_PAYLOAD_IS_NOT_UDP = 6,
    TESTKIT_INVALID_IPV4_HEADER_CHECKSUM = 7,
    TESTKIT_TRUNCATED_IPV6_UDP_PACKET = 8,
    TESTKIT_INVALID_IPV6_PAYLOAD_LENGTH = 9,
    TESTKIT_INVALID_UDP_LENGTH = 10,
    TESTKIT_IPV6_UDP_CHECKSUM_IS_ZERO = 11,
    TESTKIT_INVALID_UDP_CHECKSUM = 12,
    TESTKIT_TRUNCATED_MEASUREMENT_HEADER = 13,
    TESTKIT_MEASUREMENT_MAGIC_MISMATCH = 14,
    TESTKIT_OUTPUT_TOO_SHORT = 15,
    TESTKIT_TARGET_RATE_IS_ZERO = 16,
    TESTKIT_TARGET_RATE_EXCEEDS_RESOLUTION = 17,
    TESTKIT_TOO_MANY_PACKETS = 18,
    TESTKIT_SEQUENCE_OVERFLOW = 19,
    TESTKIT_SEND_TIMESTAMP_OVERFLOW = 20,
    TESTKIT_MALFORMED_OBSERVER = 21,
    TESTKIT_OBSERVER_FULL = 22,
    TESTKIT_SEQUENCE_WAS_NOT_SENT = 23,
    TESTKIT_TIMESTAMP_REVERSED = 24,
    TESTKIT_TRUNCATED_ELEMENT = 25,
    TESTKIT_INVALID_PEER_ADDRESS_LENGTH = 26,
    TESTKIT_UNSUPPORTED_FIXED_LENGTH_ELEMENT = 27,
    TESTKIT_MISSING_TEID_DATA_I = 28,
    TESTKIT_MISSING_PEER_ADDRESS = 29,
    TESTKIT_INVALID_REFLECTOR_CAPACITY = 30,
    TESTKIT_MALFORMED_REFLECTOR_TABLE = 31,
    TESTKIT_INVALID_REFLECTOR_SESSION = 32,
    TESTKIT_REFLECTOR_SESSION_CONFLICT = 33,
    TESTKIT_REFLECTOR_SESSION_CAPACITY_EXCEEDED = 34,
    TESTKIT_ECHO_REQUEST_TEID_NOT_ZERO = 35,
    TESTKIT_ECHO_REQUEST_MISSING_SEQUENCE = 36,
    TESTKIT_UNSUPPORTED_MESSAGE_TYPE = 37,
    TESTKIT_IPV4_FRAGMENT = 38,
    TESTKIT_TRUNCATED_IPV4_UDP_PACKET = 39
};

/* The cause of a number in words, as the card has it: for a log. */
static inline const char *testkit_number_text(uint8_t number)
{
    switch (number) {
    case TESTKIT_ACCEPTED: return "accepted";
    case TESTKIT_TRUNCATED_IP_HEADER: return "T-PDU empty";
    case TESTKIT_UNSUPPORTED_IP_VERSION: return "version not 4 or 6";
    case TESTKIT_TRUNCATED_IPV4_HEADER: return "IPv4 under 20 bytes";
    case TESTKIT_INVALID_IPV4_IHL: return "IHL under 5";
    case TESTKIT_INVALID_IPV4_TOTAL_LENGTH: return "total length under IHL * 4 + 8 or past the input";
    case TESTKIT_PAYLOAD_IS_NOT_UDP: return "protocol not 17";
    case TESTKIT_INVALID_IPV4_HEADER_CHECKSUM: return "IPv4 header checksum";
    case TESTKIT_TRUNCATED_IPV6_UDP_PACKET: return "IPv6 under 48 bytes";
    case TESTKIT_INVALID_IPV6_PAYLOAD_LENGTH: return "payload length under 8 or past the input";
    case TESTKIT_INVALID_UDP_LENGTH: return "UDP length under 8 or past its part";
    case TESTKIT_IPV6_UDP_CHECKSUM_IS_ZERO: return "IPv6 UDP checksum 0";
    case TESTKIT_INVALID_UDP_CHECKSUM: return "UDP checksum wrong";
    case TESTKIT_TRUNCATED_MEASUREMENT_HEADER: return "probe under 24 bytes";
    case TESTKIT_MEASUREMENT_MAGIC_MISMATCH: return "first 8 bytes wrong";
    case TESTKIT_OUTPUT_TOO_SHORT: return "output too short";
    case TESTKIT_TARGET_RATE_IS_ZERO: return "rate 0";
    case TESTKIT_TARGET_RATE_EXCEEDS_RESOLUTION: return "rate above 1,000,000,000";
    case TESTKIT_TOO_MANY_PACKETS: return "count above 2,048";
    case TESTKIT_SEQUENCE_OVERFLOW: return "sequence would pass its top at packet k";
    case TESTKIT_SEND_TIMESTAMP_OVERFLOW: return "time would pass its top at packet k";
    case TESTKIT_MALFORMED_OBSERVER:
        return "used count above capacity, used rows not rising, a used row's mark not 0 or 1, "
               "a nonzero return time on an unmarked used row";
    case TESTKIT_OBSERVER_FULL: return "new sequence, used count equals capacity";
    case TESTKIT_SEQUENCE_WAS_NOT_SENT: return "returned sequence not on the sheet";
    case TESTKIT_TIMESTAMP_REVERSED: return "returned before sent";
    case TESTKIT_TRUNCATED_ELEMENT: return "element cut";
    case TESTKIT_INVALID_PEER_ADDRESS_LENGTH: return "133 of other length";
    case TESTKIT_UNSUPPORTED_FIXED_LENGTH_ELEMENT: return "type under 128, not 16";
    case TESTKIT_MISSING_TEID_DATA_I: return "no 16";
    case TESTKIT_MISSING_PEER_ADDRESS: return "no 133";
    case TESTKIT_INVALID_REFLECTOR_CAPACITY: return "maximum 0 or above 4,096";
    case TESTKIT_MALFORMED_REFLECTOR_TABLE: return "used above maximum or slice shorter than maximum";
    case TESTKIT_INVALID_REFLECTOR_SESSION: return "TEID or port 0";
    case TESTKIT_REFLECTOR_SESSION_CONFLICT: return "other record with this local TEID";
    case TESTKIT_REFLECTOR_SESSION_CAPACITY_EXCEEDED: return "used equals maximum";
    case TESTKIT_ECHO_REQUEST_TEID_NOT_ZERO: return "Echo Request TEID not 0";
    case TESTKIT_ECHO_REQUEST_MISSING_SEQUENCE: return "Echo Request without sequence";
    case TESTKIT_UNSUPPORTED_MESSAGE_TYPE: return "other message type";
    case TESTKIT_IPV4_FRAGMENT: return "more-fragments flag set or fragment offset not 0";
    case TESTKIT_TRUNCATED_IPV4_UDP_PACKET: return "input shorter than IHL * 4 + 8 bytes";
    default: return "no number of the card";
    }
}

/*
 * The most stack that a call can use, in bytes: its return address, and below that the frames of the call and of all
 * that it calls, and the red zone where it is used. What the caller itself puts on its stack, arguments and the place
 * for the answer among them, comes on top; so does the frame of a testkit_sheet_ or testkit_table_ call, which is
 * compiled into the caller. Read off the archive's machine code, over every path through it (firmware/frames.awk);
 * firmware/run fails where a figure is not what it finds, and measures that no call uses more (firmware/stack.c). A
 * memory function is taken to use TESTKIT_STACK_MEMORY_FUNCTION bytes, its return address included: where yours uses
 * more, add the difference. No call recurses but for the walk over elements, at most 16 deep by a constant of the
 * proved source.
 */
enum testkit_stack {
    TESTKIT_STACK_MEMORY_FUNCTION = 64,
    TESTKIT_STACK_VERSION = 8,
    TESTKIT_STACK_SUM = 32,
    TESTKIT_STACK_CHECKSUM = 48,
    TESTKIT_STACK_VERIFY = 48,
    TESTKIT_STACK_BUILD = 232,
    TESTKIT_STACK_ECHO = 472,
    TESTKIT_STACK_DECODE = 208,
    TESTKIT_STACK_GENERATE = 360,
    TESTKIT_STACK_FORECAST = 16,
    TESTKIT_STACK_VALIDATE_ELEMENTS = 80,
    TESTKIT_STACK_RECORD_SENT = 312,
    TESTKIT_STACK_RECORD_SENT_PLAN = 344,
    TESTKIT_STACK_RECORD_RECEIVED_TPDU = 688,
    TESTKIT_STACK_RECORD_RECEIVED_TPDUS = 496,
    TESTKIT_STACK_RECORD_RETURN_GTPU_DATAGRAM = 736,
    TESTKIT_STACK_REPORT = 272,
    TESTKIT_STACK_JUDGE_REPORT = 56,
    TESTKIT_STACK_REGISTER_SESSION = 72,
    TESTKIT_STACK_REMOVE_SESSION = 56,
    TESTKIT_STACK_HANDLE_DATAGRAM = 728
};

/* The version of the archive. A program compares it with TESTKIT_VERSION when it starts. */
uint32_t testkit_version(void);

/* ---- Checksum (RFC 1071) ---- */

/*
 * The ones' complement sum of `start` and the big-endian 16-bit words of the bytes, an odd last byte being the high
 * half of a word. Any length will do. A sum may be taken in parts: the sum of one part is the start of the next, where
 * each part but the last has an even length.
 */
uint16_t testkit_sum(uint16_t start, const uint8_t *bytes, size_t bytes_length);

/* The checksum: the complement of the sum from 0. To be written big-endian. */
uint16_t testkit_checksum(const uint8_t *bytes, size_t bytes_length);

/* Whether bytes with their checksum among them add up, that is, their sum from 0 is 0xFFFF. */
bool testkit_verify(const uint8_t *bytes, size_t bytes_length);

/* ---- Packets: T-PDUs that carry a probe ---- */

/* 0 and how many bytes were written; or a refusal's number and 0. */
struct testkit_written {
    uint8_t number;
    size_t bytes;
};

/*
 * Writes the T-PDU of a probe.
 *   version            4 is IPv4; every other number is taken for IPv6
 *   src, dst           addresses, TESTKIT_ADDRESS_BYTES each
 *   src_port, dst_port UDP ports
 *   sequence           what the probe carries: its sequence and its send time
 *   send_timestamp_ns
 *   out                gets TESTKIT_IPV4_TPDU_BYTES or TESTKIT_IPV6_TPDU_BYTES at its front
 * Refuses by TESTKIT_OUTPUT_TOO_SHORT (15).
 */
struct testkit_written testkit_build(
    uint8_t version,
    const uint8_t src[16],
    const uint8_t dst[16],
    uint16_t src_port,
    uint16_t dst_port,
    uint64_t sequence,
    uint64_t send_timestamp_ns,
    uint8_t *out, size_t out_length);

/*
 * Writes the echo of a T-PDU: source and destination exchanged, address and port, the probe kept, IPv4 options, payload
 * past the probe and padding left out. `tpdu` is the packet as it came, from its IP header on; bytes past the length
 * that it claims are ignored. `out` gets 52 or 72 bytes; TESTKIT_IPV6_TPDU_BYTES are always enough.
 * Refuses as testkit_decode, then by TESTKIT_OUTPUT_TOO_SHORT (15).
 */
struct testkit_written testkit_echo(const uint8_t *tpdu, size_t tpdu_length, uint8_t *out, size_t out_length);

/* What was read: 0 and the values; or a refusal's number, version 4 and zeros. */
struct testkit_tpdu {
    uint8_t number;
    uint8_t version; /* 4 or 6 */
    uint16_t src_port;
    uint16_t dst_port;
    uint64_t sequence;
    uint64_t send_timestamp_ns;
};

/*
 * Reads the T-PDU of a probe. `src` and `dst` get the addresses, an IPv4 address with 12 zeros behind it; on a refusal
 * they stay as they were.
 * Refuses by TESTKIT_TRUNCATED_IP_HEADER (1), TESTKIT_UNSUPPORTED_IP_VERSION (2); then, of IPv4,
 *   TESTKIT_TRUNCATED_IPV4_HEADER (3), TESTKIT_INVALID_IPV4_IHL (4), TESTKIT_TRUNCATED_IPV4_UDP_PACKET (39),
 *   TESTKIT_INVALID_IPV4_TOTAL_LENGTH (5), TESTKIT_PAYLOAD_IS_NOT_UDP (6), TESTKIT_INVALID_IPV4_HEADER_CHECKSUM (7),
 *   TESTKIT_IPV4_FRAGMENT (38), TESTKIT_INVALID_UDP_LENGTH (10), TESTKIT_INVALID_UDP_CHECKSUM (12);
 * of IPv6,
 *   TESTKIT_TRUNCATED_IPV6_UDP_PACKET (8), TESTKIT_PAYLOAD_IS_NOT_UDP (6), TESTKIT_INVALID_IPV6_PAYLOAD_LENGTH (9),
 *   TESTKIT_INVALID_UDP_LENGTH (10), TESTKIT_IPV6_UDP_CHECKSUM_IS_ZERO (11), TESTKIT_INVALID_UDP_CHECKSUM (12);
 * then, of both, TESTKIT_TRUNCATED_MEASUREMENT_HEADER (13), TESTKIT_MEASUREMENT_MAGIC_MISMATCH (14).
 * 12 and 13 look only at as many bytes as the UDP length says. What the IP header counts beyond these is padding, and
 * is ignored.
 */
struct testkit_tpdu testkit_decode(const uint8_t *tpdu, size_t tpdu_length, uint8_t src[16], uint8_t dst[16]);

/* ---- Generator ---- */

/* A plan of packets. Packet k, from 0, is sent at first_send_timestamp_ns + k * (1000000000 / target_rate_pps), where
 * the division rounds down. */
struct testkit_plan {
    uint64_t packet_count;    /* at most TESTKIT_MAXIMUM_PACKETS; 0 asks for none */
    uint64_t target_rate_pps; /* packets per second, 1 to 1000000000 */
    uint64_t first_send_timestamp_ns;
};

/*
 * Writes the packets of a plan end to end. Packet k, from 0, has the sequence *next_sequence + k.
 *   version .. dst_port as for testkit_build
 *   next_sequence       the caller's own record of the sequence that comes next, changed in place. Lend the same place
 *                       for the next plan, also after a refusal, and never restore an older copy. Sequence UINT64_MAX
 *                       is never sent
 *   out                 packet_count * 52 bytes (IPv4) or packet_count * 72 (IPv6): testkit_forecast gives the number;
 *                       147456 are enough for every plan
 * On success *next_sequence rises by packet_count. Refuses by TESTKIT_TARGET_RATE_IS_ZERO (16),
 * TESTKIT_TARGET_RATE_EXCEEDS_RESOLUTION (17), TESTKIT_TOO_MANY_PACKETS (18); then by TESTKIT_SEQUENCE_OVERFLOW (19)
 * before TESTKIT_SEND_TIMESTAMP_OVERFLOW (20) at the first packet that either stops; then by TESTKIT_OUTPUT_TOO_SHORT
 * (15). TESTKIT_SEQUENCE_OVERFLOW (19) at packet k leaves *next_sequence k higher, TESTKIT_SEND_TIMESTAMP_OVERFLOW (20)
 * k + 1 higher; every other refusal leaves it as it was. A refusal leaves `out` as it was.
 */
struct testkit_written testkit_generate(
    uint8_t version,
    const uint8_t src[16],
    const uint8_t dst[16],
    uint16_t src_port,
    uint16_t dst_port,
    struct testkit_plan plan,
    uint64_t *next_sequence,
    uint8_t *out, size_t out_length);

/* 0 and how big a plan will be; or a refusal's number and zeros. */
struct testkit_plan_forecast {
    uint8_t number;
    bool has_last;                   /* whether there is a last packet: not on a refusal, nor where packet_count is 0 */
    size_t bytes;                    /* of all packets together: the least out_length of testkit_generate */
    uint64_t last_sequence;          /* of the last packet, else 0 */
    uint64_t last_send_timestamp_ns; /* of the last packet, else 0 */
};

/*
 * How big a plan will be, without building a packet. Nothing is lent, so nothing changes: next_sequence is handed in by
 * value, and none comes back.
 *   version       as for testkit_build
 *   next_sequence the value that the caller's record has before testkit_generate
 * With `bytes` bytes or more testkit_generate then writes just these packets, and leaves the next sequence at
 * last_sequence + 1, or as it was where there is no packet; with fewer it refuses by TESTKIT_OUTPUT_TOO_SHORT, which no
 * forecast does. Refuses where testkit_generate refuses whatever the buffer, in the same order: by
 * TESTKIT_TARGET_RATE_IS_ZERO (16), TESTKIT_TARGET_RATE_EXCEEDS_RESOLUTION (17), TESTKIT_TOO_MANY_PACKETS (18); then by
 * TESTKIT_SEQUENCE_OVERFLOW (19) before TESTKIT_SEND_TIMESTAMP_OVERFLOW (20) at the first packet that either stops.
 */
struct testkit_plan_forecast testkit_forecast(uint8_t version, struct testkit_plan plan, uint64_t next_sequence);

/* ---- Elements of a GTP-U Error Indication ---- */

/* 0, the version of the peer's address and the TEID; or a refusal's number, version 4 and TEID 0. */
struct testkit_elements {
    uint8_t number;
    uint8_t version; /* 4 or 6 */
    uint32_t teid;   /* any number, 0 too: it is not judged */
};

/*
 * Judges the elements of an Error Indication, the message's payload after its GTP-U header, and gives the tunnel that
 * they name as refused: the TEID in the first TEID Data I, and the address in the first GTP-U Peer Address, whose
 * length, 4 or 16, says which version it is. Later elements of the two types are judged too, but do not count.
 * `peer_address` gets the address, an IPv4 address with 12 zeros behind it; on a refusal it stays as it was.
 * Refuses at the first element that has a cause: by TESTKIT_UNSUPPORTED_FIXED_LENGTH_ELEMENT (27);
 * TESTKIT_TRUNCATED_ELEMENT (25) where the payload ends before or within its length; then
 * TESTKIT_INVALID_PEER_ADDRESS_LENGTH (26), also where the value is cut; then TESTKIT_TRUNCATED_ELEMENT (25) where the
 * value is cut. Else by TESTKIT_MISSING_TEID_DATA_I (28), then TESTKIT_MISSING_PEER_ADDRESS (29). The stack does not
 * grow with the list.
 */
struct testkit_elements testkit_validate_elements(
    const uint8_t *payload, size_t payload_length, uint8_t peer_address[16]);

/* ---- Run sheet ---- */

/* Beside the columns of a run sheet. Fresh: all 0. A counter that has reached UINT64_MAX stays there. */
struct testkit_counts {
    uint64_t duplicate_packets;    /* returns after the first of a sequence */
    uint64_t out_of_order_packets; /* first returns below a sequence that had returned */
    uint64_t gtpu_error_indications;
    size_t used;                   /* rows in use, from the front */
};

/*
 * A run sheet: five columns of `capacity` elements each, which the caller lends to every call, and counts, which the
 * calls below store. A row is a sent packet. Rows past TESTKIT_MAXIMUM_ROWS are never used. Fresh: all counts 0; what
 * the columns hold does not matter.
 */
struct testkit_sheet {
    uint64_t *sequences; /* rising strictly over the used rows */
    uint64_t *send_timestamps;
    uint64_t *latencies;
    uint8_t *marks; /* 1 returned, 0 not */
    uint64_t *arrival_timestamps; /* when the first accepted return came; 0 while the mark is 0 */
    size_t capacity;
    struct testkit_counts counts;
};

/* 0 or a refusal's number, and the counts for the next call. */
struct testkit_recorded {
    struct testkit_counts counts;
    uint8_t number;
};

/* As testkit_recorded, and how many returns the list had. Where `number` is not 0 the whole list is refused and
 * `returns` is 0. */
struct testkit_returns_recorded {
    struct testkit_counts counts;
    uint8_t number;
    size_t returns;
};

/* What a message was. */
enum testkit_outcome {
    TESTKIT_OUTCOME_REFUSED = 0,
    TESTKIT_OUTCOME_MEASUREMENT_TPDU = 1,
    TESTKIT_OUTCOME_ERROR_INDICATION = 2,
    TESTKIT_OUTCOME_ECHO_RESPONSE = 3,
    TESTKIT_OUTCOME_IGNORED = 4
};

/* As testkit_recorded, and what the message was. Where the outcome is TESTKIT_OUTCOME_ERROR_INDICATION, the last three
 * say which tunnel was refused; beside every other outcome they are version 4 and zeros. */
struct testkit_datagram_recorded {
    struct testkit_counts counts;
    uint8_t number;
    uint8_t outcome;          /* enum testkit_outcome */
    uint8_t message_type;     /* of an ignored message its type, else 0 */
    uint8_t peer_version;     /* of the address: 4 or 6 */
    uint32_t refused_teid;    /* any number, 0 too: it is not judged */
    uint8_t peer_address[16]; /* of IPv4 4 bytes, then 12 zeros */
};

/* What a run may lose, at most. */
struct testkit_budget {
    uint64_t max_lost_packets;
    uint64_t max_consecutive_lost_packets; /* in one run of losses: rows, one after the other, that did not return */
    uint64_t outage_budget_ns;             /* how long one run of losses, an outage, may last */
};

/*
 * 0 and the report; or a refusal's number and zeros. An outage lasts from the send time of the first row of a run of
 * losses to the send time of the returned row behind it, else to window_end_ns; never below 0.
 */
struct testkit_continuity_report {
    uint8_t number;
    uint64_t window_start_ns; /* as handed in */
    uint64_t window_end_ns;
    uint64_t sent_packets;
    uint64_t received_packets; /* sent packets that returned, each once */
    uint64_t lost_packets;     /* sent less received */
    uint64_t duplicate_packets;
    uint64_t out_of_order_packets;
    uint64_t gtpu_error_indications;
    uint64_t max_consecutive_lost_packets; /* the longest run of losses, by count */
    uint64_t max_gap_duration_ns;          /* the longest outage; perhaps of another run of losses */
    bool has_latency;                      /* false where nothing returned, and then the three are 0 */
    uint64_t min_ns;
    uint64_t max_ns;
    uint64_t avg_ns;               /* rounded down */
    struct testkit_budget budget;  /* as handed in */
    bool forwarding_proven;        /* something returned */
    bool packet_continuity_proven; /* losses, longest run of losses and longest outage within budget, and no Error
                                      Indication */
};

/* The verdict on a report: pass, or the first reason against it. */
enum testkit_verdict_reason {
    TESTKIT_VERDICT_PASS = 0,
    TESTKIT_VERDICT_NOTHING_RETURNED = 1,
    TESTKIT_VERDICT_TOO_MANY_LOST = 2,
    TESTKIT_VERDICT_TOO_MANY_IN_A_ROW = 3, /* a run of losses */
    TESTKIT_VERDICT_OUTAGE_TOO_LONG = 4,
    TESTKIT_VERDICT_ERROR_INDICATED = 5,
    TESTKIT_VERDICT_NO_REPORT = 6 /* the report's number is not 0 */
};

/* The reason, and the number that was too large with the one that was allowed; 0 where the reason has none. */
struct testkit_verdict {
    uint8_t reason; /* enum testkit_verdict_reason */
    uint64_t measured;
    uint64_t allowed;
};

/*
 * The calls over a sheet. Each is the call of the same name below, without `sheet_`, on the sheet's columns and counts:
 * it answers and refuses as that one does. All but testkit_sheet_report store the answer's counts in the sheet.
 */
static inline struct testkit_recorded testkit_sheet_record_sent(
    struct testkit_sheet *sheet, uint64_t sequence, uint64_t send_timestamp_ns);
static inline struct testkit_recorded testkit_sheet_record_sent_plan(
    struct testkit_sheet *sheet, struct testkit_plan plan, uint64_t next_sequence);
static inline struct testkit_recorded testkit_sheet_record_received_tpdu(
    struct testkit_sheet *sheet, uint64_t return_timestamp_ns, const uint8_t *tpdu, size_t tpdu_length);
static inline struct testkit_returns_recorded testkit_sheet_record_received_tpdus(
    struct testkit_sheet *sheet,
    const uint64_t *return_timestamps, size_t return_timestamps_length,
    const size_t *lengths, size_t lengths_length,
    const uint8_t *tpdus, size_t tpdus_length,
    uint64_t *returned, size_t returned_length,
    uint8_t *numbers, size_t numbers_length);
static inline struct testkit_datagram_recorded testkit_sheet_record_return_gtpu_datagram(
    struct testkit_sheet *sheet,
    uint64_t return_timestamp_ns,
    uint8_t message_type,
    const uint8_t *payload, size_t payload_length);
static inline struct testkit_continuity_report testkit_sheet_report(
    const struct testkit_sheet *sheet, uint64_t window_start_ns, uint64_t window_end_ns, struct testkit_budget budget);

/*
 * The verdict on a report under a budget, which need not be the one that it was made with: the first of
 * TESTKIT_VERDICT_NO_REPORT, NOTHING_RETURNED, TOO_MANY_LOST, TOO_MANY_IN_A_ROW, OUTAGE_TOO_LONG and ERROR_INDICATED
 * that holds of its figures, or TESTKIT_VERDICT_PASS. The report's own budget, forwarding_proven and
 * packet_continuity_proven are not looked at. Beside TOO_MANY_LOST, TOO_MANY_IN_A_ROW and OUTAGE_TOO_LONG stand the
 * report's number and the budget's, beside ERROR_INDICATED the number of Error Indications and 0. The report's bools
 * must be 0 or 1, as a bool of C is: see to it where a report comes from storage or from another machine.
 */
struct testkit_verdict testkit_judge_report(struct testkit_continuity_report report, struct testkit_budget budget);

/*
 * The calls with single arguments: the five columns, each with its length, and the counts, which go in by value. The
 * caller stores the answer's counts, on refusals too. The columns may differ in length: there are as many rows as the
 * shortest has elements, and at most TESTKIT_MAXIMUM_ROWS.
 *
 * Every call refuses first by TESTKIT_MALFORMED_OBSERVER (21): the used count is above the number of rows, the
 * sequences of the used rows do not rise, one of their marks is not 0 or 1, or one of them has mark 0 and an arrival
 * time other than 0. No call leaves a sheet in that state. Nothing else in the columns is a cause: beside mark 1 any
 * arrival time will do, 0 too, and in every row any send time and any latency.
 */

/*
 * Enters a sent packet. A new sequence gets a row whose latency, mark and arrival time are 0; the used rows above it
 * move by one, and elements past them stay. A sequence that is on the sheet gets the new send time and keeps all else:
 * where it had returned, send time and latency then need no longer add up to the arrival time.
 * Refuses by TESTKIT_MALFORMED_OBSERVER (21); then by TESTKIT_OBSERVER_FULL (22), which is due only where the sequence
 * is new and no row is free.
 */
struct testkit_recorded testkit_record_sent(
    uint64_t *sequences, size_t sequences_length,
    uint64_t *send_timestamps, size_t send_timestamps_length,
    uint64_t *latencies, size_t latencies_length,
    uint8_t *marks, size_t marks_length,
    uint64_t *arrival_timestamps, size_t arrival_timestamps_length,
    struct testkit_counts counts,
    uint64_t sequence,
    uint64_t send_timestamp_ns);

/*
 * Enters the packets of a plan, all or none: packet k, from 0, with the sequence and the send time that
 * testkit_generate gives it, as by testkit_record_sent.
 *   next_sequence the sequence of the plan's first packet: the value that *next_sequence had before testkit_generate
 *                 made these packets, and not the value that it has afterwards, which is that of the next plan
 * Refuses by TESTKIT_MALFORMED_OBSERVER (21), also where packet_count is 0; then by TESTKIT_TARGET_RATE_IS_ZERO (16) to
 * TESTKIT_SEND_TIMESTAMP_OVERFLOW (20), in the order of testkit_generate; then by TESTKIT_OBSERVER_FULL (22), which is
 * due only where more of the plan's sequences are new than rows are free. A refused plan leaves the sheet as it was.
 */
struct testkit_recorded testkit_record_sent_plan(
    uint64_t *sequences, size_t sequences_length,
    uint64_t *send_timestamps, size_t send_timestamps_length,
    uint64_t *latencies, size_t latencies_length,
    uint8_t *marks, size_t marks_length,
    uint64_t *arrival_timestamps, size_t arrival_timestamps_length,
    struct testkit_counts counts,
    struct testkit_plan plan,
    uint64_t next_sequence);

/*
 * Enters a packet that came back as a T-PDU at `return_timestamp_ns`. The first return of a sequence gives its row mark
 * 1, the latency, and `return_timestamp_ns` as arrival time; a second one is only counted.
 * Refuses by TESTKIT_MALFORMED_OBSERVER (21); then as testkit_decode; then by TESTKIT_SEQUENCE_WAS_NOT_SENT (23),
 * TESTKIT_TIMESTAMP_REVERSED (24).
 */
struct testkit_recorded testkit_record_received_tpdu(
    const uint64_t *sequences, size_t sequences_length,
    const uint64_t *send_timestamps, size_t send_timestamps_length,
    uint64_t *latencies, size_t latencies_length,
    uint8_t *marks, size_t marks_length,
    uint64_t *arrival_timestamps, size_t arrival_timestamps_length,
    struct testkit_counts counts,
    uint64_t return_timestamp_ns,
    const uint8_t *tpdu, size_t tpdu_length);

/*
 * Enters packets that came back, as testkit_record_received_tpdu would one after the other.
 *   return_timestamps  when each came
 *   lengths            how long each T-PDU is
 *   tpdus              the T-PDUs, end to end. Where the lengths pass its end, the T-PDU there is cut at the end and
 *                      those behind it are empty; no byte past the end is read, whatever the lengths add up to. Each is
 *                      judged as testkit_decode judges those bytes: an empty one by TESTKIT_TRUNCATED_IP_HEADER (1), a
 *                      cut one by what is then wrong with it. Where the lengths end first, the bytes behind are ignored
 *   returned           gets the sequence that each T-PDU reads as, or 0 where testkit_decode refuses it
 *   numbers            gets each return's answer, 0 or a refusal's number
 * There are as many returns as the shortest of `return_timestamps`, `lengths`, `returned` and `numbers` has elements. A
 * return that is refused changes only its elements of `returned` and `numbers`, and those behind it are still tried.
 * Refuses the whole list by TESTKIT_MALFORMED_OBSERVER (21) alone, an empty list too, and then writes nothing, not even
 * `returned` and `numbers`. Each return is refused as testkit_record_received_tpdu.
 */
struct testkit_returns_recorded testkit_record_received_tpdus(
    const uint64_t *sequences, size_t sequences_length,
    const uint64_t *send_timestamps, size_t send_timestamps_length,
    uint64_t *latencies, size_t latencies_length,
    uint8_t *marks, size_t marks_length,
    uint64_t *arrival_timestamps, size_t arrival_timestamps_length,
    struct testkit_counts counts,
    const uint64_t *return_timestamps, size_t return_timestamps_length,
    const size_t *lengths, size_t lengths_length,
    const uint8_t *tpdus, size_t tpdus_length,
    uint64_t *returned, size_t returned_length,
    uint8_t *numbers, size_t numbers_length);

/*
 * Enters a GTP-U message that came back at `return_timestamp_ns`: its type, and its payload after the GTP-U header,
 * which the caller has parsed. A G-PDU carries a T-PDU; an Error Indication is counted if its elements are right; an
 * Echo Response, an End Marker and a Supported Extension Headers Notification change nothing. Where an Error Indication
 * was counted, the answer has the tunnel that testkit_validate_elements gives for its payload; the sheet does not keep
 * it. The TEID of the header and the source are not looked at: whether a message belongs to this run is the caller's to
 * know.
 * Refuses by TESTKIT_MALFORMED_OBSERVER (21); then a G-PDU as testkit_record_received_tpdu, an Error Indication as
 * testkit_validate_elements, other types, an Echo Request among them, by TESTKIT_UNSUPPORTED_MESSAGE_TYPE (37).
 */
struct testkit_datagram_recorded testkit_record_return_gtpu_datagram(
    const uint64_t *sequences, size_t sequences_length,
    const uint64_t *send_timestamps, size_t send_timestamps_length,
    uint64_t *latencies, size_t latencies_length,
    uint8_t *marks, size_t marks_length,
    uint64_t *arrival_timestamps, size_t arrival_timestamps_length,
    struct testkit_counts counts,
    uint64_t return_timestamp_ns,
    uint8_t message_type,
    const uint8_t *payload, size_t payload_length);

/*
 * The report of a run sheet. No figure of it comes from the arrival times.
 *   window_start_ns    copied into the report, and used for nothing else
 *   window_end_ns      when an outage ends that no return ended: the time at which the caller stopped waiting
 *   budget             what the report's packet_continuity_proven is about
 * Refuses by TESTKIT_MALFORMED_OBSERVER (21).
 */
struct testkit_continuity_report testkit_report(
    const uint64_t *sequences, size_t sequences_length,
    const uint64_t *send_timestamps, size_t send_timestamps_length,
    const uint64_t *latencies, size_t latencies_length,
    const uint8_t *marks, size_t marks_length,
    const uint64_t *arrival_timestamps, size_t arrival_timestamps_length,
    struct testkit_counts counts,
    uint64_t window_start_ns,
    uint64_t window_end_ns,
    struct testkit_budget budget);

/* ---- Reflector ---- */

/* A UDP socket address. */
struct testkit_socket_addr {
    uint8_t version; /* 4 is IPv4; every other number is taken for IPv6 */
    uint8_t address[16];
    uint16_t port;
};

/* G-PDUs for the local TEID are echoed to the peer's TEID and address. */
struct testkit_reflector_session {
    uint32_t local_teid;
    uint32_t peer_teid;
    struct testkit_socket_addr peer_addr;
};

/* What is done with G-PDUs of known sessions. Every other number is taken for TESTKIT_POLICY_ROUTE. */
enum testkit_policy {
    TESTKIT_POLICY_ECHO = 0,
    TESTKIT_POLICY_SINK_AND_COUNT = 1,
    TESTKIT_POLICY_ROUTE = 2
};

struct testkit_reflector_config {
    size_t max_sessions;               /* 1 to TESTKIT_MAXIMUM_SESSIONS, and at most the rows of the table */
    uint8_t recovery_counter;          /* for Echo Responses */
    uint8_t policy;                    /* enum testkit_policy */
    struct testkit_socket_addr target; /* where G-PDUs are routed to; under another policy it does not count */
    uint32_t target_teid;              /* neither is judged: a port or TEID of 0 is handed on */
};

/* The reflector's counts. One that has reached UINT64_MAX stays there. */
struct testkit_reflector_stats {
    uint64_t gpdu_received; /* of known TEIDs */
    uint64_t gpdu_forwarded;
    uint64_t gpdu_sunk;
    uint64_t echo_requests_answered;
    uint64_t error_indications_sent;
    uint64_t malformed_rejected;
};

/* What changes from message to message. Fresh: all counts 0, next_error_sequence 1. */
struct testkit_reflector_state {
    struct testkit_reflector_stats stats;
    uint16_t next_error_sequence; /* after 65535 comes 1 */
};

/*
 * A session table: `capacity` rows, which the caller lends to every call, and what the calls below store. Only used
 * rows count, from the front. Fresh: used 0, a fresh state; what the rows hold does not matter.
 */
struct testkit_table {
    struct testkit_reflector_session *sessions;
    size_t capacity;
    size_t used;
    struct testkit_reflector_config config;
    struct testkit_reflector_state state;
};

/* 0 and whether the session was added, or else the same record was there; or a refusal's number and false. In both
 * cases the used count. */
struct testkit_registered {
    uint8_t number;
    bool added;
    size_t used;
};

/* 0, whether a session was removed, and that session or zeros; or a refusal's number, false and zeros. In both cases
 * the used count. */
struct testkit_removed {
    uint8_t number;
    bool removed;
    size_t used;
    struct testkit_reflector_session session;
};

/* A GTP-U message's header, as the caller has parsed it or is to write it. */
struct testkit_gtpu_message {
    uint8_t message_type; /* enum testkit_message_type, or another */
    uint32_t teid;
    uint8_t has_sequence; /* 0: none; every other number: `sequence`. In an answer 0 or 1. It is no bool, since the
                             caller hands it in and no number is forbidden */
    uint16_t sequence;
};

/* What is to be done with a message, and why. */
enum testkit_action {
    TESTKIT_ACTION_REFUSED = 0,
    TESTKIT_ACTION_NOOP = 1,
    TESTKIT_ACTION_SEND = 2
};
enum testkit_noop_reason {
    TESTKIT_NOOP_GPDU_SUNK = 1,
    TESTKIT_NOOP_ECHO_RESPONSE_OBSERVED = 2,
    TESTKIT_NOOP_ERROR_INDICATION_OBSERVED = 3,
    TESTKIT_NOOP_END_MARKER_IGNORED = 4,
    TESTKIT_NOOP_SUPPORTED_EXTENSION_HEADERS_NOTIFICATION_IGNORED = 5
};
enum testkit_send_reason {
    TESTKIT_SEND_REFLECTED_GPDU = 1,
    TESTKIT_SEND_ROUTED_GPDU = 2,
    TESTKIT_SEND_ECHO_RESPONSE = 3,
    TESTKIT_SEND_ERROR_INDICATION = 4
};

/* The answer to a message, with the state for the next call. Where nothing is sent, `destination` is version 4 and
 * zeros, and `message` zeros. */
struct testkit_handled {
    uint8_t number;
    uint8_t action;      /* enum testkit_action */
    uint8_t noop_reason; /* enum testkit_noop_reason where the action is TESTKIT_ACTION_NOOP, else 0 */
    uint8_t send_reason; /* enum testkit_send_reason where the action is TESTKIT_ACTION_SEND, else 0 */
    size_t bytes;        /* the payload to send, at the front of `out`; 0 for a routed G-PDU, which is sent with the
                            payload as it came */
    struct testkit_socket_addr destination; /* its version is 4 or 6 */
    struct testkit_gtpu_message message;    /* the header of the message to send */
    struct testkit_reflector_state state;
};

/*
 * The calls over a table. Each is the call of the same name below, without `table_`, on the table's rows, used count,
 * configuration and state, and stores the answer's used count or state in it.
 */
static inline struct testkit_registered testkit_table_register_session(
    struct testkit_table *table, struct testkit_reflector_session session);
static inline struct testkit_removed testkit_table_remove_session(struct testkit_table *table, uint32_t local_teid);
static inline struct testkit_handled testkit_table_handle_datagram(
    struct testkit_table *table,
    struct testkit_socket_addr source,
    struct testkit_gtpu_message message,
    const uint8_t *payload, size_t payload_length,
    uint8_t *out, size_t out_length);

/*
 * The calls with single arguments: the rows with their length, the used count and the maximum, and the state, which
 * goes in by value. The caller stores the answer's used count or state, on refusals too.
 *
 * Every call refuses first by TESTKIT_INVALID_REFLECTOR_CAPACITY (30), where the maximum is 0 or above
 * TESTKIT_MAXIMUM_SESSIONS; then by TESTKIT_MALFORMED_REFLECTOR_TABLE (31), where the used count is above the maximum
 * or the table has fewer rows than the maximum.
 */

/*
 * Registers a session, in the first row past the used ones.
 * Refuses by TESTKIT_INVALID_REFLECTOR_CAPACITY (30), TESTKIT_MALFORMED_REFLECTOR_TABLE (31),
 * TESTKIT_INVALID_REFLECTOR_SESSION (32), TESTKIT_REFLECTOR_SESSION_CONFLICT (33),
 * TESTKIT_REFLECTOR_SESSION_CAPACITY_EXCEEDED (34).
 */
struct testkit_registered testkit_register_session(
    struct testkit_reflector_session *sessions, size_t sessions_length,
    size_t used,
    size_t max_sessions,
    struct testkit_reflector_session session);

/*
 * Removes the session of a TEID. The last used row is moved into its place; rows past the used ones stay.
 * Refuses by TESTKIT_INVALID_REFLECTOR_CAPACITY (30), TESTKIT_MALFORMED_REFLECTOR_TABLE (31).
 */
struct testkit_removed testkit_remove_session(
    struct testkit_reflector_session *sessions, size_t sessions_length,
    size_t used,
    size_t max_sessions,
    uint32_t local_teid);

/*
 * Handles a GTP-U message from `source`, with its payload after the header. A G-PDU of a known TEID is echoed, sunk or
 * routed, of an unknown one answered by an Error Indication, whose elements have that TEID and the address of `source`;
 * an Echo Request is answered by an Echo Response; nothing is sent for Echo Responses, Error Indications, End Markers
 * and Supported Extension Headers Notifications. `out` gets the payload to send; it must have at least
 * TESTKIT_REFLECTOR_BYTES, whatever the message is. On a refusal, and where nothing is sent or a G-PDU is routed, it
 * stays as it was.
 * Refuses by TESTKIT_INVALID_REFLECTOR_CAPACITY (30), TESTKIT_MALFORMED_REFLECTOR_TABLE (31), TESTKIT_OUTPUT_TOO_SHORT
 * (15); these leave the state as it was. Then, under TESTKIT_POLICY_ECHO, a G-PDU of a known TEID is refused as
 * testkit_decode refuses its payload, and gpdu_received has risen. An Echo Request is refused by
 * TESTKIT_ECHO_REQUEST_TEID_NOT_ZERO (35), TESTKIT_ECHO_REQUEST_MISSING_SEQUENCE (36), and a message of another type by
 * TESTKIT_UNSUPPORTED_MESSAGE_TYPE (37); there malformed_rejected has risen.
 */
struct testkit_handled testkit_handle_datagram(
    const struct testkit_reflector_session *sessions, size_t sessions_length,
    size_t used,
    struct testkit_reflector_config config,
    struct testkit_reflector_state state,
    struct testkit_socket_addr source,
    struct testkit_gtpu_message message,
    const uint8_t *payload, size_t payload_length,
    uint8_t *out, size_t out_length);

/* ---- The calls over a sheet and over a table ---- */

static inline struct testkit_recorded testkit_sheet_record_sent(
    struct testkit_sheet *sheet, uint64_t sequence, uint64_t send_timestamp_ns)
{
    struct testkit_recorded answer = testkit_record_sent(
        sheet->sequences, sheet->capacity, sheet->send_timestamps, sheet->capacity,
        sheet->latencies, sheet->capacity, sheet->marks, sheet->capacity,
        sheet->arrival_timestamps, sheet->capacity,
        sheet->counts, sequence, send_timestamp_ns);
    sheet->counts = answer.counts;
    return answer;
}

static inline struct testkit_recorded testkit_sheet_record_sent_plan(
    struct testkit_sheet *sheet, struct testkit_plan plan, uint64_t next_sequence)
{
    struct testkit_recorded answer = testkit_record_sent_plan(
        sheet->sequences, sheet->capacity, sheet->send_timestamps, sheet->capacity,
        sheet->latencies, sheet->capacity, sheet->marks, sheet->capacity,
        sheet->arrival_timestamps, sheet->capacity,
        sheet->counts, plan, next_sequence);
    sheet->counts = answer.counts;
    return answer;
}

static inline struct testkit_recorded testkit_sheet_record_received_tpdu(
    struct testkit_sheet *sheet, uint64_t return_timestamp_ns, const uint8_t *tpdu, size_t tpdu_length)
{
    struct testkit_recorded answer = testkit_record_received_tpdu(
        sheet->sequences, sheet->capacity, sheet->send_timestamps, sheet->capacity,
        sheet->latencies, sheet->capacity, sheet->marks, sheet->capacity,
        sheet->arrival_timestamps, sheet->capacity,
        sheet->counts, return_timestamp_ns, tpdu, tpdu_length);
    sheet->counts = answer.counts;
    return answer;
}

static inline struct testkit_returns_recorded testkit_sheet_record_received_tpdus(
    struct testkit_sheet *sheet,
    const uint64_t *return_timestamps, size_t return_timestamps_length,
    const size_t *lengths, size_t lengths_length,
    const uint8_t *tpdus, size_t tpdus_length,
    uint64_t *returned, size_t returned_length,
    uint8_t *numbers, size_t numbers_length)
{
    struct testkit_returns_recorded answer = testkit_record_received_tpdus(
        sheet->sequences, sheet->capacity, sheet->send_timestamps, sheet->capacity,
        sheet->latencies, sheet->capacity, sheet->marks, sheet->capacity,
        sheet->arrival_timestamps, sheet->capacity,
        sheet->counts, return_timestamps, return_timestamps_length, lengths, lengths_length, tpdus, tpdus_length,
        returned, returned_length, numbers, numbers_length);
    sheet->counts = answer.counts;
    return answer;
}

static inline struct testkit_datagram_recorded testkit_sheet_record_return_gtpu_datagram(
    struct testkit_sheet *sheet,
    uint64_t return_timestamp_ns,
    uint8_t message_type,
    const uint8_t *payload, size_t payload_length)
{
    struct testkit_datagram_recorded answer = testkit_record_return_gtpu_datagram(
        sheet->sequences, sheet->capacity, sheet->send_timestamps, sheet->capacity,
        sheet->latencies, sheet->capacity, sheet->marks, sheet->capacity,
        sheet->arrival_timestamps, sheet->capacity,
        sheet->counts, return_timestamp_ns, message_type, payload, payload_length);
    sheet->counts = answer.counts;
    return answer;
}

static inline struct testkit_continuity_report testkit_sheet_report(
    const struct testkit_sheet *sheet, uint64_t window_start_ns, uint64_t window_end_ns, struct testkit_budget budget)
{
    return testkit_report(
        sheet->sequences, sheet->capacity, sheet->send_timestamps, sheet->capacity,
        sheet->latencies, sheet->capacity, sheet->marks, sheet->capacity,
        sheet->arrival_timestamps, sheet->capacity,
        sheet->counts, window_start_ns, window_end_ns, budget);
}

static inline struct testkit_registered testkit_table_register_session(
    struct testkit_table *table, struct testkit_reflector_session session)
{
    struct testkit_registered answer = testkit_register_session(
        table->sessions, table->capacity, table->used, table->config.max_sessions, session);
    table->used = answer.used;
    return answer;
}

static inline struct testkit_removed testkit_table_remove_session(struct testkit_table *table, uint32_t local_teid)
{
    struct testkit_removed answer = testkit_remove_session(
        table->sessions, table->capacity, table->used, table->config.max_sessions, local_teid);
    table->used = answer.used;
    return answer;
}

static inline struct testkit_handled testkit_table_handle_datagram(
    struct testkit_table *table,
    struct testkit_socket_addr source,
    struct testkit_gtpu_message message,
    const uint8_t *payload, size_t payload_length,
    uint8_t *out, size_t out_length)
{
    struct testkit_handled answer = testkit_handle_datagram(
        table->sessions, table->capacity, table->used, table->config, table->state, source, message,
        payload, payload_length, out, out_length);
    table->state = answer.state;
    return answer;
}

#ifdef __cplusplus
}
#endif

#endif
