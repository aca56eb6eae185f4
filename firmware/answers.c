/*
 * Every field of every answer, and every field that is handed in, with a value of its own: so that a field which the
 * archive has at another place than the header is seen. fields.h is made from the proved source (layout.awk): for each
 * struct it has a function that compares all fields, and notes which of them were told apart; in the end every two
 * fields of one width must have been, and none may always have been 0. Each call over a sheet or a table is run beside
 * the call with single arguments, and each buffer is also lent as null with length 0. The first argument says how
 * buffers are placed (lend.h).
 */
#include "testkit.h"

#include "lend.h"

#include <inttypes.h>
#include <stdio.h>
#include <stdlib.h>
#include <string.h>

struct leaf {
    const char *name;
    int width;
};

struct told {
    const char *name;
    const struct leaf *leaves;
    int count;
    const unsigned char *apart;
};

static unsigned compared;

/* Compares the fields, and notes which differ from each other; on the diagonal, which are not 0. */
static void compare(
    const char *what, const char *name, const struct leaf *leaves, int count, const uint64_t *found,
    const uint64_t *due, unsigned char *apart)
{
    for (int k = 0; k < count; k++) {
        if (found[k] != due[k]) {
            printf(
                "surprise: %s: %s.%s is %" PRIu64 ", not %" PRIu64 "\n", what, name, leaves[k].name, found[k], due[k]);
            fflush(stdout);
            exit(EXIT_FAILURE);
        }
        for (int other = 0; other < count; other++) {
            if (other == k ? due[k] != 0 : due[k] != due[other]) {
                apart[k * count + other] = 1;
            }
        }
        compared++;
    }
}

#include "fields.h"

/* The value of two fields that are equal in every answer: each says that something returned. */
static bool never_apart(const char *name, const char *a, const char *b)
{
    return strcmp(name, "testkit_continuity_report") == 0 && strcmp(a, "has_latency") == 0 &&
           strcmp(b, "forwarding_proven") == 0;
}

static void expect_told_apart(void)
{
    bool all = true;
    for (size_t s = 0; s < sizeof all_told / sizeof *all_told; s++) {
        const struct told *t = &all_told[s];
        for (int k = 0; k < t->count; k++) {
            for (int other = k; other < t->count; other++) {
                if (t->leaves[k].width == t->leaves[other].width && !t->apart[k * t->count + other] &&
                    !never_apart(t->name, t->leaves[k].name, t->leaves[other].name)) {
                    printf(
                        "surprise: %s: %s and %s were not told apart\n", t->name, t->leaves[k].name,
                        t->leaves[other].name);
                    all = false;
                }
            }
        }
    }
    expect("that all fields were told apart", all, true);
}

static void expect_bytes(const char *what, const void *found, const void *due, size_t length)
{
    if (memcmp(found, due, length) != 0) {
        printf("surprise: %s\n", what);
        fflush(stdout);
        exit(EXIT_FAILURE);
    }
}

/* ---- What is lent ---- */

enum { ROWS = 8, PACKET = TESTKIT_IPV6_TPDU_BYTES };

static uint8_t *src, *dst, *read_src, *read_dst, *read_peer, *packet, *out;
static uint64_t *next_sequence;

static const uint8_t *copy(const uint8_t *bytes, size_t length) { return lend_copy(bytes, length); }

/* A T-PDU in `packet`: its length. */
static size_t make(uint8_t version, uint64_t sequence)
{
    struct testkit_written written = testkit_build(version, src, dst, 1001, 2002, sequence, 3003, packet, PACKET);
    expect("a packet's number", written.number, TESTKIT_ACCEPTED);
    return written.bytes;
}

static struct testkit_written written_as(uint8_t number, size_t bytes)
{
    struct testkit_written made;
    made.number = number;
    made.bytes = bytes;
    return made;
}

static struct testkit_plan plan_of(uint64_t count, uint64_t rate, uint64_t first)
{
    struct testkit_plan made;
    made.packet_count = count;
    made.target_rate_pps = rate;
    made.first_send_timestamp_ns = first;
    compare_testkit_plan("a plan that is handed in", made, made);
    return made;
}

static struct testkit_counts counts_of(size_t used, uint64_t duplicate, uint64_t out_of_order, uint64_t indications)
{
    struct testkit_counts made;
    made.used = used;
    made.duplicate_packets = duplicate;
    made.out_of_order_packets = out_of_order;
    made.gtpu_error_indications = indications;
    return made;
}

static struct testkit_budget budget_of(uint64_t lost, uint64_t consecutive, uint64_t outage_ns)
{
    struct testkit_budget made;
    made.max_lost_packets = lost;
    made.max_consecutive_lost_packets = consecutive;
    made.outage_budget_ns = outage_ns;
    compare_testkit_budget("a budget that is handed in", made, made);
    return made;
}

/* ---- Packets ---- */

static void numbers(void)
{
    static const uint8_t bytes[] = {0x00, 0x01, 0xf2, 0x03, 0xf4, 0xf5, 0xf6, 0xf7, 0x22, 0x0d}; /* RFC 1071, 3 */
    expect("the version", testkit_version(), TESTKIT_VERSION);
    expect("a sum", testkit_sum(0, copy(bytes, 8), 8), 0xddf2);
    expect("a sum with a start", testkit_sum(0x1000, copy(bytes, 8), 8), 0xedf2);
    expect("a sum of an odd length", testkit_sum(0, copy(bytes, 3), 3), 0xf201);
    expect("a checksum", testkit_checksum(copy(bytes, 8), 8), 0x220d);
    expect("that it adds up", testkit_verify(copy(bytes, 10), 10), true);
    expect("that it does not", testkit_verify(copy(bytes, 8), 8), false);
    expect("a number's text", strcmp(testkit_number_text(0), "accepted") == 0, true);
    expect("a number's text", strcmp(testkit_number_text(TESTKIT_TARGET_RATE_IS_ZERO), "rate 0") == 0, true);
    expect("a text for no number", strcmp(testkit_number_text(254), testkit_number_text(255)) == 0, true);
    for (unsigned number = 0; number < 256; number++) {
        expect("a text", testkit_number_text((uint8_t)number)[0] != 0, true);
    }
}

static void packets(uint8_t version)
{
    size_t length = version == 4 ? TESTKIT_IPV4_TPDU_BYTES : TESTKIT_IPV6_TPDU_BYTES;
    size_t counted = version == 4 ? 4 : 16;
    static const uint8_t zeros[16] = {0};
    struct testkit_tpdu due;
    memset(packet, 0xA5, PACKET);
    compare_testkit_written(
        "build", testkit_build(version, src, dst, 1001, 2002, 5, 3003, packet, PACKET), written_as(0, length));
    expect("that the rest stays", length == PACKET || packet[length] == 0xA5, true);
    compare_testkit_written(
        "build, short", testkit_build(version, src, dst, 1001, 2002, 5, 3003, packet, length - 1),
        written_as(TESTKIT_OUTPUT_TOO_SHORT, 0));

    memset(&due, 0, sizeof due);
    due.version = version;
    due.src_port = 1001;
    due.dst_port = 2002;
    due.sequence = 5;
    due.send_timestamp_ns = 3003;
    memset(read_src, 0xA5, 16);
    memset(read_dst, 0xA5, 16);
    compare_testkit_tpdu("decode", testkit_decode(copy(packet, length), length, read_src, read_dst), due);
    expect_bytes("the source", read_src, src, counted);
    expect_bytes("the destination", read_dst, dst, counted);
    expect_bytes("the source's rest", read_src + counted, zeros, 16 - counted);
    expect_bytes("the destination's rest", read_dst + counted, zeros, 16 - counted);

    memset(out, 0xA5, PACKET);
    compare_testkit_written("echo", testkit_echo(copy(packet, length), length, out, PACKET), written_as(0, length));
    due.src_port = 2002;
    due.dst_port = 1001;
    compare_testkit_tpdu("the echo", testkit_decode(copy(out, length), length, read_src, read_dst), due);
    expect_bytes("the echo's source", read_src, dst, counted);
    compare_testkit_written(
        "echo, short", testkit_echo(copy(packet, length), length, out, length - 1),
        written_as(TESTKIT_OUTPUT_TOO_SHORT, 0));
    compare_testkit_written(
        "echo, output null", testkit_echo(copy(packet, length), length, NULL, 0),
        written_as(TESTKIT_OUTPUT_TOO_SHORT, 0));

    memset(&due, 0, sizeof due);
    due.version = 4;
    packet[length - 1] ^= 1;
    due.number = TESTKIT_INVALID_UDP_CHECKSUM;
    memset(read_src, 0xA5, 16);
    compare_testkit_tpdu("decode, damaged", testkit_decode(copy(packet, length), length, read_src, read_dst), due);
    expect("that the source stays", read_src[0], 0xA5);
    compare_testkit_written(
        "echo, damaged", testkit_echo(copy(packet, length), length, out, PACKET),
        written_as(TESTKIT_INVALID_UDP_CHECKSUM, 0));
    due.number = TESTKIT_TRUNCATED_IP_HEADER;
    compare_testkit_tpdu("decode, empty", testkit_decode(copy(packet, 0), 0, read_src, read_dst), due);
    compare_testkit_tpdu("decode, null", testkit_decode(NULL, 0, read_src, read_dst), due);
    compare_testkit_written("echo, null", testkit_echo(NULL, 0, NULL, 0), written_as(TESTKIT_TRUNCATED_IP_HEADER, 0));
    compare_testkit_written(
        "build, null", testkit_build(version, src, dst, 1001, 2002, 5, 3003, NULL, 0),
        written_as(TESTKIT_OUTPUT_TOO_SHORT, 0));
}

/* The number by which a T-PDU is refused, or 0. */
static uint8_t number_of(const uint8_t *tpdu, size_t length)
{
    return testkit_decode(copy(tpdu, length), length, read_src, read_dst).number;
}

/* That of the first `length` bytes of `packet`. */
static uint8_t refusal(size_t length) { return number_of(packet, length); }

/* A packet that ends before its UDP header does, and an IHL below 5, be the packet cut or not. */
static void cut_packets(void)
{
    make(4, 5);
    expect("28 bytes", refusal(28), TESTKIT_INVALID_IPV4_TOTAL_LENGTH);
    expect("27 bytes", refusal(27), TESTKIT_TRUNCATED_IPV4_UDP_PACKET);
    expect("20 bytes", refusal(20), TESTKIT_TRUNCATED_IPV4_UDP_PACKET);
    expect("19 bytes", refusal(19), TESTKIT_TRUNCATED_IPV4_HEADER);
    packet[0] = 0x4F;
    expect("IHL 15", refusal(52), TESTKIT_TRUNCATED_IPV4_UDP_PACKET);
    packet[0] = 0x44;
    expect("IHL 4", refusal(52), TESTKIT_INVALID_IPV4_IHL);
    expect("IHL 4, 20 bytes", refusal(20), TESTKIT_INVALID_IPV4_IHL);
}

static void set_word(uint8_t *bytes, uint16_t word)
{
    bytes[0] = (uint8_t)(word >> 8);
    bytes[1] = (uint8_t)word;
}

/* Sets a word of an IPv4 header and makes the header's checksum right. */
static void set_header_word(uint8_t *header, size_t at, uint16_t word)
{
    set_word(header + at, word);
    set_word(header + 10, 0);
    set_word(header + 10, testkit_checksum(copy(header, 20), 20));
}

/* Gives the IPv4 T-PDU in `packet` these flags and this fragment offset, 16 bits in all. */
static void set_flags(uint16_t flags) { set_header_word(packet, 6, flags); }

/* Fragments: by the flag, by the offset, or by both. The reserved bit and Don't Fragment make none. */
static void fragments(void)
{
    static const uint16_t whole[] = {0x8000, 0x4000, 0xC000};
    static const uint16_t parts[] = {0x2000, 0x0001, 0x0100, 0x1FFF, 0x3FFF, 0xE000};
    make(4, 5);
    for (size_t k = 0; k < sizeof whole / sizeof *whole; k++) {
        set_flags(whole[k]);
        expect("no fragment", refusal(52), TESTKIT_ACCEPTED);
    }
    for (size_t k = 0; k < sizeof parts / sizeof *parts; k++) {
        set_flags(parts[k]);
        expect("a fragment", refusal(52), TESTKIT_IPV4_FRAGMENT);
        compare_testkit_written(
            "echo, a fragment", testkit_echo(copy(packet, 52), 52, out, PACKET), written_as(TESTKIT_IPV4_FRAGMENT, 0));
    }
    packet[25] = 0;
    expect("a fragment with a UDP length of 0", refusal(52), TESTKIT_IPV4_FRAGMENT);
    packet[10] ^= 1;
    expect("a fragment with a wrong header checksum", refusal(52), TESTKIT_INVALID_IPV4_HEADER_CHECKSUM);
}

/* A padded T-PDU with its UDP length one more and one less, the sum kept right by the source port. The length counts
 * twice in the sum, in the pseudo-header too; a byte more is the upper half of a word, a byte less a lower half. */
static void other_udp_lengths(uint8_t version, const uint8_t *padded, size_t all)
{
    uint8_t other[PACKET + 3];
    size_t udp = version == 4 ? 20 : 40;
    memcpy(other, padded, all);
    other[udp + 5] = 33;
    set_word(other + udp, (uint16_t)(1001 + 0xFFFF - 2 - 256 * padded[udp + 32]));
    expect("a UDP length of 33", number_of(other, all), TESTKIT_ACCEPTED);
    other[udp + 32] ^= 1;
    expect("a UDP length of 33, damaged", number_of(other, all), TESTKIT_INVALID_UDP_CHECKSUM);
    memcpy(other, padded, all);
    other[udp + 5] = 31;
    set_word(other + udp, (uint16_t)(1001 + 2 + padded[udp + 31]));
    expect("a UDP length of 31", number_of(other, all), TESTKIT_TRUNCATED_MEASUREMENT_HEADER);
}

/* The T-PDU in `packet` as a switch pads it: the bytes behind it are counted by the IP header and not by UDP's. */
static void padded_packets(uint8_t version)
{
    uint8_t padded[PACKET + 3], echo[PACKET];
    size_t length = make(version, 5), udp = length - 32;
    testkit_echo(copy(packet, length), length, out, PACKET);
    memcpy(echo, out, length);
    for (size_t padding = 0; padding <= 3; padding++) {
        size_t all = length + padding;
        memcpy(padded, packet, length);
        memset(padded + length, 0x5A, padding);
        if (version == 4)
            set_header_word(padded, 2, (uint16_t)all);
        else
            padded[5] = (uint8_t)(32 + padding);
        memset(out, 0xA5, PACKET);
        compare_testkit_written(
            "echo, padded", testkit_echo(copy(padded, all), all, out, PACKET), written_as(0, length));
        expect_bytes("the echo, padded", out, echo, length);
        if (padding > 0)
            other_udp_lengths(version, padded, all);
        padded[length - 1] ^= 1;
        compare_testkit_written(
            "echo, padded and damaged", testkit_echo(copy(padded, all), all, out, PACKET),
            written_as(TESTKIT_INVALID_UDP_CHECKSUM, 0));
        padded[udp + 5] = (uint8_t)(33 + padding);
        padded[udp + 6] = padded[udp + 7] = 0;
        compare_testkit_written(
            "echo, a UDP length past the part", testkit_echo(copy(padded, all), all, out, PACKET),
            written_as(TESTKIT_INVALID_UDP_LENGTH, 0));
    }
}

static void generator(void)
{
    uint8_t *bytes = (uint8_t *)lend(3 * TESTKIT_IPV4_TPDU_BYTES);
    struct testkit_tpdu due;
    *next_sequence = 70;
    compare_testkit_written(
        "generate", testkit_generate(4, src, dst, 1001, 2002, plan_of(3, 250, 17), next_sequence, bytes, 3 * 52),
        written_as(0, 3 * 52));
    expect("the next sequence", *next_sequence, 73);
    memset(&due, 0, sizeof due);
    due.version = 4;
    due.src_port = 1001;
    due.dst_port = 2002;
    for (uint64_t k = 0; k < 3; k++) {
        due.sequence = 70 + k;
        due.send_timestamp_ns = 17 + k * 4000000;
        compare_testkit_tpdu(
            "a generated packet", testkit_decode(copy(bytes + 52 * k, 52), 52, read_src, read_dst), due);
    }
    compare_testkit_written(
        "generate, short", testkit_generate(4, src, dst, 1, 2, plan_of(3, 250, 17), next_sequence, bytes, 3 * 52 - 1),
        written_as(TESTKIT_OUTPUT_TOO_SHORT, 0));
    compare_testkit_written(
        "generate, no rate", testkit_generate(4, src, dst, 1, 2, plan_of(3, 0, 17), next_sequence, bytes, 3 * 52),
        written_as(TESTKIT_TARGET_RATE_IS_ZERO, 0));
    compare_testkit_written(
        "generate, high rate",
        testkit_generate(4, src, dst, 1, 2, plan_of(3, 1000000001, 17), next_sequence, bytes, 3 * 52),
        written_as(TESTKIT_TARGET_RATE_EXCEEDS_RESOLUTION, 0));
    compare_testkit_written(
        "generate, too many", testkit_generate(4, src, dst, 1, 2, plan_of(2049, 250, 17), next_sequence, bytes, 3 * 52),
        written_as(TESTKIT_TOO_MANY_PACKETS, 0));
    expect("the next sequence", *next_sequence, 73);
    compare_testkit_written(
        "generate, late",
        testkit_generate(4, src, dst, 1, 2, plan_of(3, 250, UINT64_MAX), next_sequence, bytes, 3 * 52),
        written_as(TESTKIT_SEND_TIMESTAMP_OVERFLOW, 0));
    expect("the next sequence after 20", *next_sequence, 75);
    *next_sequence = UINT64_MAX - 2;
    compare_testkit_written(
        "generate, at the top", testkit_generate(4, src, dst, 1, 2, plan_of(3, 250, 17), next_sequence, bytes, 3 * 52),
        written_as(TESTKIT_SEQUENCE_OVERFLOW, 0));
    expect("the next sequence after 19", *next_sequence, UINT64_MAX);
    *next_sequence = 75;
    compare_testkit_written(
        "generate, nothing, null", testkit_generate(6, src, dst, 1, 2, plan_of(0, 250, 17), next_sequence, NULL, 0),
        written_as(0, 0));
    expect("the next sequence", *next_sequence, 75);
}

static struct testkit_plan_forecast forecast_as(
    uint8_t number, bool has_last, size_t bytes, uint64_t last_sequence, uint64_t last_send_timestamp_ns)
{
    struct testkit_plan_forecast made;
    made.number = number;
    made.has_last = has_last;
    made.bytes = bytes;
    made.last_sequence = last_sequence;
    made.last_send_timestamp_ns = last_send_timestamp_ns;
    return made;
}

/* Forecasts, and the generator in a buffer of the size that was forecast, and of one byte less. */
static void forecasts(uint8_t version)
{
    size_t length = version == 4 ? TESTKIT_IPV4_TPDU_BYTES : TESTKIT_IPV6_TPDU_BYTES;
    struct testkit_plan plan = plan_of(3, 250, 17);
    struct testkit_plan_forecast forecast = testkit_forecast(version, plan, 70);
    uint8_t *bytes = (uint8_t *)lend(forecast.bytes);
    struct testkit_tpdu last;
    compare_testkit_plan_forecast("forecast", forecast, forecast_as(0, true, 3 * length, 72, 17 + 2 * 4000000));
    *next_sequence = 70;
    compare_testkit_written(
        "generate, a byte less than forecast",
        testkit_generate(version, src, dst, 1, 2, plan, next_sequence, bytes, forecast.bytes - 1),
        written_as(TESTKIT_OUTPUT_TOO_SHORT, 0));
    compare_testkit_written(
        "generate, as forecast",
        testkit_generate(version, src, dst, 1, 2, plan, next_sequence, bytes, forecast.bytes),
        written_as(0, forecast.bytes));
    expect("the next sequence", *next_sequence, forecast.last_sequence + 1);
    last = testkit_decode(copy(bytes + forecast.bytes - length, length), length, read_src, read_dst);
    expect("the last sequence", last.sequence, forecast.last_sequence);
    expect("the last send time", last.send_timestamp_ns, forecast.last_send_timestamp_ns);

    compare_testkit_plan_forecast(
        "forecast, nothing, at the top", testkit_forecast(version, plan_of(0, 250, 17), UINT64_MAX),
        forecast_as(0, false, 0, 0, 0));
    compare_testkit_plan_forecast(
        "forecast, nothing, no rate", testkit_forecast(version, plan_of(0, 0, 17), UINT64_MAX),
        forecast_as(TESTKIT_TARGET_RATE_IS_ZERO, false, 0, 0, 0));
    compare_testkit_plan_forecast(
        "forecast, high rate", testkit_forecast(version, plan_of(2049, 1000000001, 17), 70),
        forecast_as(TESTKIT_TARGET_RATE_EXCEEDS_RESOLUTION, false, 0, 0, 0));
    compare_testkit_plan_forecast(
        "forecast, too many", testkit_forecast(version, plan_of(2049, 250, UINT64_MAX), UINT64_MAX),
        forecast_as(TESTKIT_TOO_MANY_PACKETS, false, 0, 0, 0));
    compare_testkit_plan_forecast(
        "forecast, at the top and late", testkit_forecast(version, plan_of(3, 250, UINT64_MAX), UINT64_MAX - 1),
        forecast_as(TESTKIT_SEQUENCE_OVERFLOW, false, 0, 0, 0));
    compare_testkit_plan_forecast(
        "forecast, late", testkit_forecast(version, plan_of(3, 250, UINT64_MAX), UINT64_MAX - 2),
        forecast_as(TESTKIT_SEND_TIMESTAMP_OVERFLOW, false, 0, 0, 0));
}

/* ---- Elements of an Error Indication ---- */

static const uint8_t elements[12] = {16, 1, 2, 3, 4, 133, 0, 4, 10, 0, 0, 2};

/* Elements to make lists of. The last eight are refused. */
enum element {
    END,
    TEID,
    TEID_2,
    TEID_0,
    IPV4,
    IPV4_2,
    IPV4_0,
    IPV6,
    IPV6_2,
    EMPTY,
    LIKE_TEID,
    LIKE_ADDRESS,
    CUT_TEID,
    CUT_LENGTH,
    CUT_VALUE,
    CUT_ADDRESS,
    ODD_ADDRESS,
    CUT_ODD_ADDRESS,
    FIXED,
    CUT_FIXED
};

static const struct {
    size_t length;
    uint8_t bytes[19];
} element_bytes[] = {
    {0, {0}},
    {5, {16, 0xFA, 0x0B, 0x0C, 0x0D}},
    {5, {16, 0x1A, 0x1B, 0x1C, 0x1D}},
    {5, {16, 0, 0, 0, 0}},
    {7, {133, 0, 4, 10, 20, 30, 40}},
    {7, {133, 0, 4, 50, 60, 70, 80}},
    {7, {133, 0, 4, 0, 0, 0, 0}},
    {19, {133, 0, 16, 201, 202, 203, 204, 205, 206, 207, 208, 209, 210, 211, 212, 213, 214, 215, 216}},
    {19, {133, 0, 16, 101, 102, 103, 104, 105, 106, 107, 108, 109, 110, 111, 112, 113, 114, 115, 116}},
    {3, {255, 0, 0}},
    {9, {128, 0, 6, 16, 0x2A, 0x2B, 0x2C, 0x2D, 0x2E}}, /* LIKE_TEID: of another type, its value begins with a 16 */
    {10, {134, 0, 7, 133, 0, 4, 90, 91, 92, 93}},       /* LIKE_ADDRESS: of another type, its value is a 133 */
    {4, {16, 0x3A, 0x3B, 0x3C}},                        /* CUT_TEID, and from here on a refusal each */
    {2, {200, 0}},
    {5, {200, 0, 3, 1, 2}},
    {18, {133, 0, 16, 61, 62, 63, 64, 65, 66, 67, 68, 69, 70, 71, 72, 73, 74, 75}},
    {8, {133, 0, 5, 51, 52, 53, 54, 55}}, /* ODD_ADDRESS */
    {6, {133, 0, 5, 51, 52, 53}},
    {5, {17, 0x4A, 0x4B, 0x4C, 0x4D}}, /* FIXED */
    {1, {17}},
};

static const uint8_t address_0[16] = {0};
static const uint8_t address_4[16] = {10, 20, 30, 40};
static const uint8_t address_6[16] = {201, 202, 203, 204, 205, 206, 207, 208,
                                      209, 210, 211, 212, 213, 214, 215, 216};

/* Lists, and what is due for each: the first TEID and the first address, or no tunnel where it is refused. */
static const struct {
    const char *what;
    enum element list[6];
    uint8_t number;
    uint8_t version;
    uint32_t teid;
    const uint8_t *address;
} lists[] = {
    {"IPv4", {TEID, IPV4}, 0, 4, 0xFA0B0C0D, address_4},
    {"IPv6", {TEID, IPV6}, 0, 6, 0xFA0B0C0D, address_6},
    {"16 behind 133, IPv4", {IPV4, TEID}, 0, 4, 0xFA0B0C0D, address_4},
    {"16 behind 133, IPv6", {IPV6, TEID}, 0, 6, 0xFA0B0C0D, address_6},
    {"16 twice", {TEID, TEID_2, IPV4}, 0, 4, 0xFA0B0C0D, address_4},
    {"16 twice, around 133", {TEID, IPV6, TEID_2}, 0, 6, 0xFA0B0C0D, address_6},
    {"133 twice, of 4 bytes", {TEID, IPV4, IPV4_2}, 0, 4, 0xFA0B0C0D, address_4},
    {"133 twice, of 16 bytes", {TEID, IPV6, IPV6_2}, 0, 6, 0xFA0B0C0D, address_6},
    {"133 of 4 bytes, then of 16", {TEID, IPV4, IPV6}, 0, 4, 0xFA0B0C0D, address_4},
    {"133 of 16 bytes, then of 4", {TEID, IPV6, IPV4}, 0, 6, 0xFA0B0C0D, address_6},
    {"16 three times, 133 twice", {IPV4, TEID, TEID_2, IPV6, TEID_0}, 0, 4, 0xFA0B0C0D, address_4},
    {"first of all TEID 0", {TEID_0, TEID, IPV4}, 0, 4, 0, address_4},
    {"first of all an address of zeros", {IPV4_0, IPV6, TEID}, 0, 4, 0xFA0B0C0D, address_0},
    {"both of zeros", {TEID_0, IPV4_0, TEID, IPV6}, 0, 4, 0, address_0},
    {"another's value like a 16", {LIKE_TEID, TEID, IPV4}, 0, 4, 0xFA0B0C0D, address_4},
    {"another's value like a 133", {LIKE_ADDRESS, TEID, IPV6}, 0, 6, 0xFA0B0C0D, address_6},
    {"others around", {EMPTY, TEID, LIKE_TEID, IPV4, LIKE_ADDRESS}, 0, 4, 0xFA0B0C0D, address_4},
    {"a cut 16", {TEID, IPV4, CUT_TEID}, TESTKIT_TRUNCATED_ELEMENT, 4, 0, address_0},
    {"a cut length", {TEID, IPV6, CUT_LENGTH}, TESTKIT_TRUNCATED_ELEMENT, 4, 0, address_0},
    {"a cut value", {IPV6, TEID, CUT_VALUE}, TESTKIT_TRUNCATED_ELEMENT, 4, 0, address_0},
    {"a cut 133", {TEID, IPV4, CUT_ADDRESS}, TESTKIT_TRUNCATED_ELEMENT, 4, 0, address_0},
    {"a cut value, and no 16", {IPV4, CUT_VALUE}, TESTKIT_TRUNCATED_ELEMENT, 4, 0, address_0},
    {"a 133 of 5 bytes", {TEID, IPV6, ODD_ADDRESS}, TESTKIT_INVALID_PEER_ADDRESS_LENGTH, 4, 0, address_0},
    {"a cut 133 of 5 bytes", {TEID, IPV4, CUT_ODD_ADDRESS}, TESTKIT_INVALID_PEER_ADDRESS_LENGTH, 4, 0, address_0},
    {"a 133 of 5 bytes first", {ODD_ADDRESS, TEID, IPV6, FIXED}, TESTKIT_INVALID_PEER_ADDRESS_LENGTH, 4, 0, address_0},
    {"a type under 128", {TEID, IPV6, FIXED}, TESTKIT_UNSUPPORTED_FIXED_LENGTH_ELEMENT, 4, 0, address_0},
    {"a type alone", {TEID, IPV6, CUT_FIXED}, TESTKIT_UNSUPPORTED_FIXED_LENGTH_ELEMENT, 4, 0, address_0},
    {"a type first", {FIXED, TEID, IPV4, CUT_TEID}, TESTKIT_UNSUPPORTED_FIXED_LENGTH_ELEMENT, 4, 0, address_0},
    {"no 16", {IPV4, IPV6}, TESTKIT_MISSING_TEID_DATA_I, 4, 0, address_0},
    {"no 16, another's value like it", {LIKE_TEID, IPV6}, TESTKIT_MISSING_TEID_DATA_I, 4, 0, address_0},
    {"no 133", {TEID, TEID_2}, TESTKIT_MISSING_PEER_ADDRESS, 4, 0, address_0},
    {"no 133, another's value like it", {TEID, LIKE_ADDRESS}, TESTKIT_MISSING_PEER_ADDRESS, 4, 0, address_0},
    {"neither", {EMPTY}, TESTKIT_MISSING_TEID_DATA_I, 4, 0, address_0},
    {"nothing", {END}, TESTKIT_MISSING_TEID_DATA_I, 4, 0, address_0},
};

static uint8_t list[256];

/* Puts an element into `list` behind this many bytes: how many there are then. */
static size_t put(size_t length, enum element element)
{
    memcpy(list + length, element_bytes[element].bytes, element_bytes[element].length);
    return length + element_bytes[element].length;
}

/* What is due for a list: the walk's answer, and the address that the list names. Where the list is refused the address
 * is zeros, as the sheet's call answers; the walk then writes none. */
struct walked {
    struct testkit_elements answer;
    const uint8_t *address;
};

static struct walked walked_as(uint8_t number, uint8_t version, uint32_t teid, const uint8_t *address)
{
    struct walked made;
    made.answer.number = number;
    made.answer.version = version;
    made.answer.teid = teid;
    made.address = address;
    return made;
}

/* The tunnel that `elements` name. */
static struct walked named_by_elements(void)
{
    static const uint8_t address[16] = {10, 0, 0, 2};
    return walked_as(0, 4, 0x01020304, address);
}

/* Makes each list, and hands its length and what is due for it to a check. */
static void each_list(void (*check)(const char *what, size_t length, struct walked due))
{
    for (size_t k = 0; k < sizeof lists / sizeof *lists; k++) {
        size_t length = 0;
        for (const enum element *next = lists[k].list; *next != END; next++) {
            length = put(length, *next);
        }
        check(lists[k].what, length, walked_as(lists[k].number, lists[k].version, lists[k].teid, lists[k].address));
    }
    /* the first ones at places around the 16th element and the 32nd, where the walk starts anew */
    for (size_t k = 0; k < 18 * 4; k++) {
        size_t before = k / 4, between = k % 4 < 2 ? 0 : 15, length = 0;
        bool teid_first = k % 2 == 0;
        for (size_t empty = 0; empty < before; empty++) {
            length = put(length, EMPTY);
        }
        length = put(length, teid_first ? TEID : IPV6);
        for (size_t empty = 0; empty < between; empty++) {
            length = put(length, EMPTY);
        }
        length = put(length, teid_first ? IPV6 : TEID);
        length = put(put(length, TEID_2), IPV4);
        check("a long list", length, walked_as(0, 6, 0xFA0B0C0D, address_6));
    }
}

/* An accepted list writes every byte of the lent address, a refused one none. It is lent filled in two ways that differ
 * in every byte: so that no byte, written or not, can be right by chance. */
static void walk(const char *what, const uint8_t *payload, size_t length, struct walked due)
{
    static const uint8_t fills[] = {0xA5, 0x5A};
    uint8_t before[16];
    for (size_t turn = 0; turn < sizeof fills / sizeof *fills; turn++) {
        for (uint8_t k = 0; k < 16; k++) {
            before[k] = (uint8_t)(fills[turn] ^ k);
        }
        memcpy(read_peer, before, 16);
        compare_testkit_elements(what, testkit_validate_elements(payload, length, read_peer), due.answer);
        expect_bytes(what, read_peer, due.answer.number == 0 ? due.address : before, 16);
    }
}

static void walk_list(const char *what, size_t length, struct walked due)
{
    walk(what, copy(list, length), length, due);
}

static void element_lists(void)
{
    each_list(walk_list);
    walk("elements, null", NULL, 0, walked_as(TESTKIT_MISSING_TEID_DATA_I, 4, 0, address_0));
}

/* ---- The run sheet ---- */

/* Two sheets: one for the calls over a sheet, the other for those with single arguments. They must stay alike. */
static struct testkit_sheet one, two;

/* A sheet as single arguments, its columns with these lengths; and so the second sheet. */
#define COLUMNS_OF(sheet, lengths)                                                                                     \
    (sheet).sequences, (lengths)[0], (sheet).send_timestamps, (lengths)[1], (sheet).latencies, (lengths)[2],           \
        (sheet).marks, (lengths)[3], (sheet).arrival_timestamps, (lengths)[4], (sheet).counts
#define COLUMNS COLUMNS_OF(two, all_rows)

static const size_t all_rows[5] = {ROWS, ROWS, ROWS, ROWS, ROWS};

/* By position, as a program may have it: so that the order of the fields is held too. */
static void open_sheet(struct testkit_sheet *sheet)
{
    uint64_t *sequences = (uint64_t *)lend(ROWS * sizeof(uint64_t));
    uint64_t *send_timestamps = (uint64_t *)lend(ROWS * sizeof(uint64_t));
    uint64_t *latencies = (uint64_t *)lend(ROWS * sizeof(uint64_t));
    uint8_t *marks = (uint8_t *)lend(ROWS);
    uint64_t *arrival_timestamps = (uint64_t *)lend(ROWS * sizeof(uint64_t));
    struct testkit_sheet opened = {
        sequences, send_timestamps, latencies, marks, arrival_timestamps, ROWS, {0, 0, 0, 0}};
    expect("the sequences' place", opened.sequences == sequences, true);
    expect("the send times' place", opened.send_timestamps == send_timestamps, true);
    expect("the latencies' place", opened.latencies == latencies, true);
    expect("the marks' place", opened.marks == marks, true);
    expect("the arrival times' place", opened.arrival_timestamps == arrival_timestamps, true);
    expect("the capacity's place", opened.capacity, ROWS);
    *sheet = opened;
}

static void expect_alike(const char *what)
{
    expect_bytes(what, one.sequences, two.sequences, ROWS * sizeof(uint64_t));
    expect_bytes(what, one.send_timestamps, two.send_timestamps, ROWS * sizeof(uint64_t));
    expect_bytes(what, one.latencies, two.latencies, ROWS * sizeof(uint64_t));
    expect_bytes(what, one.marks, two.marks, ROWS);
    expect_bytes(what, one.arrival_timestamps, two.arrival_timestamps, ROWS * sizeof(uint64_t));
    compare_testkit_counts(what, one.counts, two.counts);
}

static struct testkit_recorded recorded_as(uint8_t number, struct testkit_counts counts)
{
    struct testkit_recorded made;
    made.number = number;
    made.counts = counts;
    return made;
}

static void check_recorded(
    const char *what, struct testkit_recorded over_sheet, struct testkit_recorded single, uint8_t number,
    struct testkit_counts counts)
{
    compare_testkit_recorded(what, over_sheet, recorded_as(number, counts));
    compare_testkit_recorded(what, single, recorded_as(number, counts));
    two.counts = single.counts;
    expect_alike(what);
}

static void sent(const char *what, uint64_t sequence, uint64_t time, uint8_t number, struct testkit_counts counts)
{
    check_recorded(
        what, testkit_sheet_record_sent(&one, sequence, time), testkit_record_sent(COLUMNS, sequence, time), number,
        counts);
}

static void sent_plan(
    const char *what, struct testkit_plan plan, uint64_t first, uint8_t number, struct testkit_counts counts)
{
    check_recorded(
        what, testkit_sheet_record_sent_plan(&one, plan, first), testkit_record_sent_plan(COLUMNS, plan, first), number,
        counts);
}

static void received(const char *what, uint64_t time, size_t length, uint8_t number, struct testkit_counts counts)
{
    const uint8_t *tpdu = copy(packet, length);
    check_recorded(
        what, testkit_sheet_record_received_tpdu(&one, time, tpdu, length),
        testkit_record_received_tpdu(COLUMNS, time, tpdu, length), number, counts);
}

/* What is due for a message that names no tunnel. */
static struct testkit_datagram_recorded datagram_as(
    uint8_t number, uint8_t outcome, uint8_t ignored, struct testkit_counts counts)
{
    struct testkit_datagram_recorded made;
    memset(&made, 0, sizeof made);
    made.number = number;
    made.outcome = outcome;
    made.message_type = ignored;
    made.peer_version = 4;
    made.counts = counts;
    return made;
}

/* What is due for an Error Indication, by what is due for its elements. */
static struct testkit_datagram_recorded indication_as(struct walked named, struct testkit_counts counts)
{
    uint8_t number = named.answer.number;
    struct testkit_datagram_recorded made = datagram_as(
        number, number == 0 ? TESTKIT_OUTCOME_ERROR_INDICATION : TESTKIT_OUTCOME_REFUSED, 0, counts);
    made.peer_version = named.answer.version;
    made.refused_teid = named.answer.teid;
    memcpy(made.peer_address, named.address, 16);
    return made;
}

static void check_message(
    const char *what, uint64_t time, uint8_t type, const uint8_t *bytes, size_t length,
    struct testkit_datagram_recorded due)
{
    const uint8_t *payload = bytes == NULL ? NULL : copy(bytes, length);
    struct testkit_datagram_recorded single;
    compare_testkit_datagram_recorded(
        what, testkit_sheet_record_return_gtpu_datagram(&one, time, type, payload, length), due);
    single = testkit_record_return_gtpu_datagram(COLUMNS, time, type, payload, length);
    compare_testkit_datagram_recorded(what, single, due);
    two.counts = single.counts;
    expect_alike(what);
}

/* A message that names no tunnel. */
static void message(
    const char *what, uint64_t time, uint8_t type, const uint8_t *bytes, size_t length, uint8_t number, uint8_t outcome,
    uint8_t ignored, struct testkit_counts counts)
{
    check_message(what, time, type, bytes, length, datagram_as(number, outcome, ignored, counts));
}

static void row(
    const char *what, size_t k, uint64_t sequence, uint64_t time, uint64_t latency, uint8_t mark, uint64_t arrival)
{
    expect(what, one.sequences[k], sequence);
    expect(what, one.send_timestamps[k], time);
    expect(what, one.latencies[k], latency);
    expect(what, one.marks[k], mark);
    expect(what, one.arrival_timestamps[k], arrival);
}

/* Rows 11, 12, 13, 14, 20, 21, 22 sent at different times, 12 sent again. */
static void sending(void)
{
    one.counts = two.counts = counts_of(0, 101, 202, 303);
    sent("a packet sent", 20, 5000, 0, counts_of(1, 101, 202, 303));
    sent("a packet sent below it", 11, 4000, 0, counts_of(2, 101, 202, 303));
    sent_plan("a plan sent", plan_of(3, 1000000, 6000), 12, 0, counts_of(5, 101, 202, 303));
    sent("a packet sent again", 12, 6100, 0, counts_of(5, 101, 202, 303));
    row("row 0", 0, 11, 4000, 0, 0, 0);
    row("row 1", 1, 12, 6100, 0, 0, 0);
    row("row 2", 2, 13, 7000, 0, 0, 0);
    row("row 3", 3, 14, 8000, 0, 0, 0);
    row("row 4", 4, 20, 5000, 0, 0, 0);
    sent_plan("no rate", plan_of(3, 0, 6000), 12, TESTKIT_TARGET_RATE_IS_ZERO, counts_of(5, 101, 202, 303));
    sent_plan("too large a plan", plan_of(4, 1000, 9000), 21, TESTKIT_OBSERVER_FULL, counts_of(5, 101, 202, 303));
    sent_plan("a plan that fits", plan_of(3, 1000000000, 9000), 20, 0, counts_of(7, 101, 202, 303));
    row("row 4", 4, 20, 9000, 0, 0, 0);
    row("row 6", 6, 22, 9002, 0, 0, 0);
    sent("the last row", 23, 9003, 0, counts_of(8, 101, 202, 303));
    sent("a full sheet", 24, 9004, TESTKIT_OBSERVER_FULL, counts_of(8, 101, 202, 303));
    sent("a full sheet, known", 23, 9005, 0, counts_of(8, 101, 202, 303));
}

static void returning(void)
{
    size_t length = make(6, 13);
    received("a return", 7070, length, 0, counts_of(8, 101, 202, 303));
    row("row 2", 2, 13, 7000, 70, 1, 7070);
    received("a return again", 7080, length, 0, counts_of(8, 102, 202, 303));
    row("row 2", 2, 13, 7000, 70, 1, 7070);
    length = make(4, 11);
    received("a return of a lower sequence", 4010, length, 0, counts_of(8, 102, 203, 303));
    row("row 0", 0, 11, 4000, 10, 1, 4010);
    received("no T-PDU", 4010, 0, TESTKIT_TRUNCATED_IP_HEADER, counts_of(8, 102, 203, 303));
    received("a T-PDU that is cut", 4010, 27, TESTKIT_TRUNCATED_IPV4_UDP_PACKET, counts_of(8, 102, 203, 303));
    set_flags(0x2000);
    received("a fragment", 4010, length, TESTKIT_IPV4_FRAGMENT, counts_of(8, 102, 203, 303));
    row("row 0", 0, 11, 4000, 10, 1, 4010);
    length = make(4, 19);
    received("another's", 9999, length, TESTKIT_SEQUENCE_WAS_NOT_SENT, counts_of(8, 102, 203, 303));
    length = make(4, 14);
    received("too early", 7999, length, TESTKIT_TIMESTAMP_REVERSED, counts_of(8, 102, 203, 303));
    row("row 3", 3, 14, 8000, 0, 0, 0);

    message(
        "a message with a T-PDU", 8200, 255, packet, length, 0, TESTKIT_OUTCOME_MEASUREMENT_TPDU, 0,
        counts_of(8, 102, 203, 303));
    row("row 3", 3, 14, 8000, 200, 1, 8200);
    check_message(
        "an Error Indication", 1, 26, elements, 12, indication_as(named_by_elements(), counts_of(8, 102, 203, 304)));
    message("an Echo Response", 1, 2, elements, 12, 0, TESTKIT_OUTCOME_ECHO_RESPONSE, 0, counts_of(8, 102, 203, 304));
    message("an End Marker", 1, 254, elements, 12, 0, TESTKIT_OUTCOME_IGNORED, 254, counts_of(8, 102, 203, 304));
    message("a notification", 1, 31, elements, 12, 0, TESTKIT_OUTCOME_IGNORED, 31, counts_of(8, 102, 203, 304));
    message(
        "an unknown type", 1, 77, elements, 12, TESTKIT_UNSUPPORTED_MESSAGE_TYPE, TESTKIT_OUTCOME_REFUSED, 0,
        counts_of(8, 102, 203, 304));
    message(
        "a cut element", 1, 26, elements, 11, TESTKIT_TRUNCATED_ELEMENT, TESTKIT_OUTCOME_REFUSED, 0,
        counts_of(8, 102, 203, 304));
    message("an Echo Response, null", 1, 2, NULL, 0, 0, TESTKIT_OUTCOME_ECHO_RESPONSE, 0, counts_of(8, 102, 203, 304));
    message(
        "a T-PDU, null", 1, 255, NULL, 0, TESTKIT_TRUNCATED_IP_HEADER, TESTKIT_OUTCOME_REFUSED, 0,
        counts_of(8, 102, 203, 304));
}

/* An Error Indication with the elements in `list`, and messages of other types, which name no tunnel. */
static void enter_list(const char *what, size_t length, struct walked due)
{
    uint8_t no_tpdu = length == 0 ? TESTKIT_TRUNCATED_IP_HEADER : TESTKIT_UNSUPPORTED_IP_VERSION;
    struct testkit_counts counts = one.counts;
    counts.gtpu_error_indications += due.answer.number == 0;
    check_message(what, 1, 26, list, length, indication_as(due, counts));
    message(what, 1, 255, list, length, no_tpdu, TESTKIT_OUTCOME_REFUSED, 0, counts);
    message(what, 1, 2, list, length, 0, TESTKIT_OUTCOME_ECHO_RESPONSE, 0, counts);
    message(what, 1, 254, list, length, 0, TESTKIT_OUTCOME_IGNORED, 254, counts);
    message(what, 1, 31, list, length, 0, TESTKIT_OUTCOME_IGNORED, 31, counts);
    message(what, 1, 1, list, length, TESTKIT_UNSUPPORTED_MESSAGE_TYPE, TESTKIT_OUTCOME_REFUSED, 0, counts);
    message(what, 1, 77, list, length, TESTKIT_UNSUPPORTED_MESSAGE_TYPE, TESTKIT_OUTCOME_REFUSED, 0, counts);
}

/* The tunnels that are handed on; on a malformed sheet none is. */
static void tunnels(void)
{
    struct testkit_counts before = one.counts;
    each_list(enter_list);
    one.counts = two.counts = before;
    one.marks[1] = two.marks[1] = 2;
    message(
        "a malformed sheet", 1, 26, elements, 12, TESTKIT_MALFORMED_OBSERVER, TESTKIT_OUTCOME_REFUSED, 0, before);
    message(
        "a malformed sheet", 1, 26, elements, 11, TESTKIT_MALFORMED_OBSERVER, TESTKIT_OUTCOME_REFUSED, 0, before);
    one.marks[1] = two.marks[1] = 0;
}

/* A list of five: a whole packet, a damaged one, one that was not sent, one that the bytes end within, and one behind
 * their end. */
static void returning_in_lists(void)
{
    enum { RETURNS = 5, BYTES = 3 * 52 + 30 };
    static const uint64_t when[RETURNS] = {9300, 9301, 9302, 9303, 9304};
    static const size_t long_as[RETURNS] = {52, 52, 52, 52, SIZE_MAX};
    uint64_t *times = (uint64_t *)lend(sizeof when);
    size_t *lengths = (size_t *)lend(sizeof long_as);
    uint8_t *tpdus = (uint8_t *)lend(BYTES);
    uint64_t *returned = (uint64_t *)lend((RETURNS + 1) * sizeof(uint64_t));
    uint8_t *answered = (uint8_t *)lend(RETURNS + 2);
    struct testkit_returns_recorded due, single;
    memcpy(times, when, sizeof when);
    memcpy(lengths, long_as, sizeof long_as);
    memcpy(tpdus, packet, make(4, 22));
    make(4, 22);
    packet[51] ^= 1;
    memcpy(tpdus + 52, packet, 52);
    make(4, 19);
    memcpy(tpdus + 104, packet, 52);
    make(4, 22);
    memcpy(tpdus, packet, 52);
    memcpy(tpdus + 156, packet, 30);

    due.number = 0;
    due.returns = RETURNS;
    due.counts = counts_of(8, 102, 203, 304);
    compare_testkit_returns_recorded(
        "a list",
        testkit_sheet_record_received_tpdus(
            &one, times, RETURNS, lengths, RETURNS, tpdus, BYTES, returned, RETURNS + 1, answered, RETURNS + 2),
        due);
    expect("the first", answered[0], TESTKIT_ACCEPTED);
    expect("the first's sequence", returned[0], 22);
    expect("the second", answered[1], TESTKIT_INVALID_UDP_CHECKSUM);
    expect("the second's sequence", returned[1], 0);
    expect("the third", answered[2], TESTKIT_SEQUENCE_WAS_NOT_SENT);
    expect("the third's sequence", returned[2], 19);
    expect("the fourth", answered[3], TESTKIT_INVALID_IPV4_TOTAL_LENGTH);
    expect("the fifth", answered[4], TESTKIT_TRUNCATED_IP_HEADER);
    expect("that the rest stays", answered[5], 0xA5);
    expect("that the rest stays", returned[5], 0xA5A5A5A5A5A5A5A5);
    single = testkit_record_received_tpdus(
        COLUMNS, times, RETURNS, lengths, RETURNS, tpdus, BYTES, returned, RETURNS + 1, answered, RETURNS + 2);
    compare_testkit_returns_recorded("a list", single, due);
    two.counts = single.counts;
    expect_alike("a list");
    row("row 6", 6, 22, 9002, 298, 1, 9300);

    /* the same once more, in columns of which another one is the shortest each time */
    for (size_t shortest = 0; shortest < 4; shortest++) {
        due.returns = 1;
        due.counts.duplicate_packets++;
        compare_testkit_returns_recorded(
            "a short list",
            testkit_sheet_record_received_tpdus(
                &one, times, shortest == 0 ? 1 : 5, lengths, shortest == 1 ? 1 : 5, tpdus, BYTES, returned,
                shortest == 2 ? 1 : 6, answered, shortest == 3 ? 1 : 7),
            due);
    }
    two.counts = one.counts;
    due.returns = 0;
    compare_testkit_returns_recorded(
        "no list, null", testkit_sheet_record_received_tpdus(&one, NULL, 0, NULL, 0, NULL, 0, NULL, 0, NULL, 0), due);
    due.returns = 1;
    compare_testkit_returns_recorded(
        "no bytes, null",
        testkit_sheet_record_received_tpdus(&one, times, 1, lengths, 1, NULL, 0, returned, 1, answered, 1), due);
    expect("the number of no bytes", answered[0], TESTKIT_TRUNCATED_IP_HEADER);

    /* refused whole: nothing is written */
    one.marks[1] = 2;
    due.number = TESTKIT_MALFORMED_OBSERVER;
    due.returns = 0;
    answered[0] = 0xA5;
    compare_testkit_returns_recorded(
        "a list on a malformed sheet",
        testkit_sheet_record_received_tpdus(&one, times, 1, lengths, 1, tpdus, BYTES, returned, 1, answered, 1), due);
    expect("that it stays", answered[0], 0xA5);
    one.marks[1] = 0;
    expect_alike("after lists");
}

static void check_report(struct testkit_budget budget, struct testkit_continuity_report due)
{
    due.budget = budget;
    compare_testkit_continuity_report("a report", testkit_sheet_report(&one, 55, 123456, budget), due);
    compare_testkit_continuity_report("a report", testkit_report(COLUMNS, 55, 123456, budget), due);
}

static void check_verdict(
    struct testkit_continuity_report report, struct testkit_budget budget, uint8_t reason, uint64_t measured,
    uint64_t allowed)
{
    struct testkit_verdict due;
    due.reason = reason;
    due.measured = measured;
    due.allowed = allowed;
    compare_testkit_verdict("a verdict", testkit_judge_report(report, budget), due);
}

/* Of the rows 11 (latency 10), 13 (70), 14 (200) and 22 (298) returned; 12, 20 with 21, and 23 were lost. */
static void reporting(void)
{
    struct testkit_continuity_report due;
    memset(&due, 0, sizeof due);
    due.window_start_ns = 55;
    due.window_end_ns = 123456;
    due.sent_packets = 8;
    due.received_packets = 4;
    due.lost_packets = 4;
    due.duplicate_packets = 106;
    due.out_of_order_packets = 203;
    due.gtpu_error_indications = 304;
    due.max_consecutive_lost_packets = 2;
    due.max_gap_duration_ns = 123456 - 9005;
    due.has_latency = true;
    due.min_ns = 10;
    due.max_ns = 298;
    due.avg_ns = (10 + 70 + 200 + 298) / 4;
    due.forwarding_proven = true;
    check_report(budget_of(401, 402, 403), due);
    due.budget = budget_of(401, 402, 403);
    check_verdict(due, budget_of(3, 402, 403403), TESTKIT_VERDICT_TOO_MANY_LOST, 4, 3);
    check_verdict(due, budget_of(4, 1, 403403), TESTKIT_VERDICT_TOO_MANY_IN_A_ROW, 2, 1);
    check_verdict(due, budget_of(4, 2, 405), TESTKIT_VERDICT_OUTAGE_TOO_LONG, 123456 - 9005, 405);
    check_verdict(due, budget_of(4, 2, 123456), TESTKIT_VERDICT_ERROR_INDICATED, 304, 0);
    due.gtpu_error_indications = 0;
    check_verdict(due, budget_of(4, 2, 123456), TESTKIT_VERDICT_PASS, 0, 0);

    /* one return more makes lost and received differ; without Error Indications the budget is kept */
    one.marks[4] = two.marks[4] = 1;
    one.latencies[4] = two.latencies[4] = 77;
    one.counts.gtpu_error_indications = two.counts.gtpu_error_indications = 0;
    due.received_packets = 5;
    due.lost_packets = 3;
    due.max_consecutive_lost_packets = 1;
    due.avg_ns = (10 + 70 + 200 + 298 + 77) / 5;
    due.packet_continuity_proven = true;
    check_report(budget_of(401, 402, 123457), due);
    due.packet_continuity_proven = false;
    check_report(budget_of(2, 402, 123457), due);

    /* nothing returned */
    one.counts = two.counts = counts_of(0, 1, 2, 3);
    memset(&due, 0, sizeof due);
    due.window_start_ns = 55;
    due.window_end_ns = 123456;
    due.duplicate_packets = 1;
    due.out_of_order_packets = 2;
    due.gtpu_error_indications = 3;
    check_report(budget_of(401, 402, 403), due);
    check_verdict(due, budget_of(401, 402, 403), TESTKIT_VERDICT_NOTHING_RETURNED, 0, 0);
    one.counts = two.counts = counts_of(0, 0, 0, 0);
    due.duplicate_packets = due.out_of_order_packets = due.gtpu_error_indications = 0;
    due.packet_continuity_proven = true;
    check_report(budget_of(401, 402, 403), due);

    /* refused: the counts come back as they were */
    one.counts = two.counts = counts_of(99, 101, 202, 303);
    memset(&due, 0, sizeof due);
    due.number = TESTKIT_MALFORMED_OBSERVER;
    compare_testkit_continuity_report("no report", testkit_sheet_report(&one, 55, 123456, budget_of(1, 2, 3)), due);
    check_verdict(due, budget_of(401, 402, 403), TESTKIT_VERDICT_NO_REPORT, 0, 0);
    sent("a malformed sheet", 1, 2, TESTKIT_MALFORMED_OBSERVER, counts_of(99, 101, 202, 303));
    sent_plan("a malformed sheet", plan_of(0, 1, 2), 3, TESTKIT_MALFORMED_OBSERVER, counts_of(99, 101, 202, 303));
    received("a malformed sheet", 1, 0, TESTKIT_MALFORMED_OBSERVER, counts_of(99, 101, 202, 303));
    message(
        "a malformed sheet", 1, 77, elements, 12, TESTKIT_MALFORMED_OBSERVER, TESTKIT_OUTCOME_REFUSED, 0,
        counts_of(99, 101, 202, 303));
}

/* A return in a list, and the number that is due for it. */
struct listed {
    uint64_t sequence, time;
    uint8_t number;
};

/* Returns in a list, as IPv4 packets. Where the whole list is refused, no number and no sequence is written. */
static void received_list(
    const char *what, const struct listed *returns, size_t count, uint8_t number, struct testkit_counts counts)
{
    size_t bytes = count * TESTKIT_IPV4_TPDU_BYTES;
    uint64_t *times = (uint64_t *)lend(count * sizeof *times);
    size_t *lengths = (size_t *)lend(count * sizeof *lengths);
    uint8_t *tpdus = (uint8_t *)lend(bytes);
    uint64_t *returned = (uint64_t *)lend(count * sizeof *returned);
    uint64_t *returned_single = (uint64_t *)lend(count * sizeof *returned_single);
    uint8_t *answered = (uint8_t *)lend(count), *answered_single = (uint8_t *)lend(count);
    struct testkit_returns_recorded due, single;
    for (size_t k = 0; k < count; k++) {
        times[k] = returns[k].time;
        lengths[k] = make(4, returns[k].sequence);
        memcpy(tpdus + k * TESTKIT_IPV4_TPDU_BYTES, packet, TESTKIT_IPV4_TPDU_BYTES);
    }
    due.number = number;
    due.returns = number == 0 ? count : 0;
    due.counts = counts;
    compare_testkit_returns_recorded(
        what,
        testkit_sheet_record_received_tpdus(
            &one, times, count, lengths, count, tpdus, bytes, returned, count, answered, count),
        due);
    single = testkit_record_received_tpdus(
        COLUMNS, times, count, lengths, count, tpdus, bytes, returned_single, count, answered_single, count);
    compare_testkit_returns_recorded(what, single, due);
    for (size_t k = 0; k < count; k++) {
        expect(what, answered[k], number == 0 ? returns[k].number : 0xA5);
        expect(what, answered_single[k], answered[k]);
        expect(what, returned[k], number == 0 ? returns[k].sequence : 0xA5A5A5A5A5A5A5A5);
        expect(what, returned_single[k], returned[k]);
    }
    two.counts = single.counts;
    expect_alike(what);
}

/* A new row has arrival time 0 and moves the rows above it; a first return enters its time; nothing else changes an
 * arrival time, and those past the used rows are not looked at. In the end the rows 5, 30, 31, 32 and 33 have returned,
 * and 34 has not. */
static void arrival_times(void)
{
    static const struct listed list_due[] = {
        {30, 999, TESTKIT_TIMESTAMP_REVERSED},
        {30, 2700, 0},
        {30, 2701, 0},
        {34, 2102, TESTKIT_TIMESTAMP_REVERSED},
        {32, 2650, 0},
    };
    const uint64_t rest = 0xA5A5A5A5A5A5A5A5;
    size_t length = make(4, 33);
    open_sheet(&one);
    open_sheet(&two);
    sent("a row", 30, 1000, 0, counts_of(1, 0, 0, 0));
    sent("a row above it", 33, 2000, 0, counts_of(2, 0, 0, 0));
    row("a new row", 0, 30, 1000, 0, 0, 0);
    row("a new row", 1, 33, 2000, 0, 0, 0);
    received("a first return", 2500, length, 0, counts_of(2, 0, 0, 0));
    row("a row that returned", 1, 33, 2000, 500, 1, 2500);
    sent("a row below it", 31, 1500, 0, counts_of(3, 0, 0, 0));
    row("a row that stays", 0, 30, 1000, 0, 0, 0);
    row("a new row", 1, 31, 1500, 0, 0, 0);
    row("a row that moved", 2, 33, 2000, 500, 1, 2500);
    expect("the arrival time past the used rows", one.arrival_timestamps[3], rest);
    received("a duplicate", 2600, length, 0, counts_of(3, 1, 0, 0));
    row("a row that returned twice", 2, 33, 2000, 500, 1, 2500);
    sent("a row that returned, sent again", 33, 2200, 0, counts_of(3, 1, 0, 0));
    row("a row that returned, sent again", 2, 33, 2200, 500, 1, 2500);
    expect(
        "that send time and latency no longer add up to the arrival time",
        one.send_timestamps[2] + one.latencies[2] != one.arrival_timestamps[2], true);
    received("a duplicate before the new send time", 2199, length, TESTKIT_TIMESTAMP_REVERSED, counts_of(3, 1, 0, 0));
    received("a duplicate after it", 2800, length, 0, counts_of(3, 2, 0, 0));
    row("a row that returned, sent again", 2, 33, 2200, 500, 1, 2500);
    length = make(6, 30);
    received("a return before its send time", 999, length, TESTKIT_TIMESTAMP_REVERSED, counts_of(3, 2, 0, 0));
    row("a row whose return was refused", 0, 30, 1000, 0, 0, 0);

    sent_plan("a plan of old and new rows", plan_of(4, 1000000000, 2100), 31, 0, counts_of(5, 2, 0, 0));
    row("a row sent again by a plan", 1, 31, 2100, 0, 0, 0);
    row("a new row of a plan", 2, 32, 2101, 0, 0, 0);
    row("a row that returned, sent again by a plan", 3, 33, 2102, 500, 1, 2500);
    row("a new row of a plan", 4, 34, 2103, 0, 0, 0);
    expect("the arrival time past the used rows", one.arrival_timestamps[5], rest);

    received_list("a list", list_due, 5, 0, counts_of(5, 3, 2, 0));
    row("a row that returned in a list, first too early, then twice", 0, 30, 1000, 1700, 1, 2700);
    row("a row that returned in a list", 2, 32, 2101, 549, 1, 2650);
    row("a row whose return was refused in a list", 4, 34, 2103, 0, 0, 0);
    length = make(4, 31);
    message("a message", 2900, 255, packet, length, 0, TESTKIT_OUTCOME_MEASUREMENT_TPDU, 0, counts_of(5, 3, 3, 0));
    row("a row that returned in a message", 1, 31, 2100, 800, 1, 2900);

    length = make(4, 5);
    sent("a row at time 0", 5, 0, 0, counts_of(6, 3, 3, 0));
    received("a return at time 0", 0, length, 0, counts_of(6, 3, 4, 0));
    row("a row that returned at time 0", 0, 5, 0, 0, 1, 0);
    row("the last row", 5, 34, 2103, 0, 0, 0);
    expect("the arrival time past the used rows", one.arrival_timestamps[6], rest);
}

/* What the columns of a sheet hold. */
struct contents {
    uint64_t sequences[ROWS], send_timestamps[ROWS], latencies[ROWS], arrival_timestamps[ROWS];
    uint8_t marks[ROWS];
};

static struct contents contents_of(const struct testkit_sheet *sheet)
{
    struct contents made;
    memset(&made, 0, sizeof made);
    memcpy(made.sequences, sheet->sequences, sizeof made.sequences);
    memcpy(made.send_timestamps, sheet->send_timestamps, sizeof made.send_timestamps);
    memcpy(made.latencies, sheet->latencies, sizeof made.latencies);
    memcpy(made.marks, sheet->marks, sizeof made.marks);
    memcpy(made.arrival_timestamps, sheet->arrival_timestamps, sizeof made.arrival_timestamps);
    return made;
}

/* Every call accepts the sheets as they are. The first row, which has returned, is sent again at its time and returns
 * again, so that nothing changes but a counter. */
static void each_accepts(const char *what)
{
    struct contents before = contents_of(&one), after;
    struct testkit_counts counts = one.counts;
    struct listed again = {one.sequences[0], 9999, 0};
    uint64_t time = one.send_timestamps[0];
    size_t length;
    sent(what, again.sequence, time, 0, counts);
    sent_plan(what, plan_of(1, 1000, time), again.sequence, 0, counts);
    counts.duplicate_packets++;
    received_list(what, &again, 1, 0, counts);
    length = make(4, again.sequence);
    counts.duplicate_packets++;
    received(what, 9999, length, 0, counts);
    counts.duplicate_packets++;
    message(what, 9999, 255, packet, length, 0, TESTKIT_OUTCOME_MEASUREMENT_TPDU, 0, counts);
    expect(what, testkit_sheet_report(&one, 55, 123456, budget_of(1, 2, 3)).number, TESTKIT_ACCEPTED);
    expect(what, testkit_report(COLUMNS, 55, 123456, budget_of(1, 2, 3)).number, TESTKIT_ACCEPTED);
    after = contents_of(&one);
    expect_bytes(what, &after, &before, sizeof before);
}

/* Every call refuses the sheets as they are, and changes nothing. On a sheet in order that has a free row each would,
 * the report apart: its packets are new, or return for the first time. */
static void each_refuses(const char *what)
{
    struct contents before = contents_of(&one), after;
    struct testkit_counts counts = one.counts;
    struct listed first = {34, 9999, 0};
    struct testkit_continuity_report due;
    size_t length;
    sent(what, 40, 9000, TESTKIT_MALFORMED_OBSERVER, counts);
    sent_plan(what, plan_of(1, 1000, 9000), 40, TESTKIT_MALFORMED_OBSERVER, counts);
    received_list(what, &first, 1, TESTKIT_MALFORMED_OBSERVER, counts);
    length = make(4, first.sequence);
    received(what, 9999, length, TESTKIT_MALFORMED_OBSERVER, counts);
    message(what, 9999, 255, packet, length, TESTKIT_MALFORMED_OBSERVER, TESTKIT_OUTCOME_REFUSED, 0, counts);
    message(what, 9999, 26, elements, 12, TESTKIT_MALFORMED_OBSERVER, TESTKIT_OUTCOME_REFUSED, 0, counts);
    memset(&due, 0, sizeof due);
    due.number = TESTKIT_MALFORMED_OBSERVER;
    compare_testkit_continuity_report(what, testkit_sheet_report(&one, 55, 123456, budget_of(1, 2, 3)), due);
    compare_testkit_continuity_report(what, testkit_report(COLUMNS, 55, 123456, budget_of(1, 2, 3)), due);
    after = contents_of(&one);
    expect_bytes(what, &after, &before, sizeof before);
}

/* An arrival time without a mark, in one used row and of one bit, is refused. The same with a mark or past the used
 * rows is not, nor a mark with arrival time 0, which the first row has, nor a latency without a mark. At first six
 * rows are used, then all. */
static void arrivals_without_marks(void)
{
    each_accepts("a mark and arrival time 0");
    one.marks[6] = two.marks[6] = 0;
    each_accepts("an arrival time without a mark past the used rows");
    one.latencies[5] = two.latencies[5] = 77;
    each_accepts("a latency without a mark");
    for (int turn = 0; turn < 2; turn++) {
        for (size_t k = 0; k < one.counts.used; k++) {
            uint8_t mark = one.marks[k];
            uint64_t arrival = one.arrival_timestamps[k];
            one.arrival_timestamps[k] = two.arrival_timestamps[k] = UINT64_C(1) << (9 * k);
            one.marks[k] = two.marks[k] = 0;
            each_refuses("an arrival time without a mark");
            one.marks[k] = two.marks[k] = 1;
            each_accepts("an arrival time with a mark");
            one.arrival_timestamps[k] = two.arrival_timestamps[k] = arrival;
            one.marks[k] = two.marks[k] = mark;
        }
        if (turn == 0) {
            struct testkit_counts full = one.counts;
            full.used = ROWS;
            sent_plan("the last rows", plan_of(ROWS - one.counts.used, 1000000000, 3000), 35, 0, full);
        }
    }
}

/* The six used rows, in columns of these lengths. Each is lent as long as it is, so that an element past its end is
 * seen. */
static struct testkit_sheet cut_sheet(const size_t lengths[5])
{
    struct testkit_sheet cut;
    memset(&cut, 0, sizeof cut);
    cut.sequences = (uint64_t *)lend_filled(one.sequences, lengths[0] * sizeof(uint64_t));
    cut.send_timestamps = (uint64_t *)lend_filled(one.send_timestamps, lengths[1] * sizeof(uint64_t));
    cut.latencies = (uint64_t *)lend_filled(one.latencies, lengths[2] * sizeof(uint64_t));
    cut.marks = (uint8_t *)lend_filled(one.marks, lengths[3]);
    cut.arrival_timestamps = (uint64_t *)lend_filled(one.arrival_timestamps, lengths[4] * sizeof(uint64_t));
    cut.counts = counts_of(6, 0, 0, 0);
    return cut;
}

/* After a first return of the last of the six rows, where the columns reach as far as the used rows. */
static void last_returned(const struct testkit_sheet *cut, bool whole, uint64_t at)
{
    if (whole) {
        expect("the last row's mark", cut->marks[5], 1);
        expect("the last row's arrival time", cut->arrival_timestamps[5], at);
    }
}

/* Six used rows, and in turn each column shorter than the others: as long as the used rows, so that none is free, or
 * shorter than they are. Each return is the first of its row. */
static void short_columns(void)
{
    enum { USED = 6 };
    static const uint64_t at = 9999;
    uint64_t *when = (uint64_t *)lend_filled(&at, sizeof at);
    size_t length = make(4, 34);
    size_t *long_as = (size_t *)lend_filled(&length, sizeof length);
    uint64_t *returned = (uint64_t *)lend(sizeof *returned);
    uint8_t *answered = (uint8_t *)lend(1);
    for (size_t k = 0; k < 10; k++) {
        size_t lengths[5] = {ROWS, ROWS, ROWS, ROWS, ROWS};
        bool whole = k % 2 == 0;
        uint8_t in_order = whole ? TESTKIT_ACCEPTED : TESTKIT_MALFORMED_OBSERVER;
        uint8_t full = whole ? TESTKIT_OBSERVER_FULL : TESTKIT_MALFORMED_OBSERVER;
        struct testkit_sheet cut;
        lengths[k / 2] = whole ? USED : USED - 1;
        cut = cut_sheet(lengths);
        expect("a new row", testkit_record_sent(COLUMNS_OF(cut, lengths), 99, 9).number, full);
        expect("a plan", testkit_record_sent_plan(COLUMNS_OF(cut, lengths), plan_of(1, 1000, 9), 99).number, full);
        expect("a row sent again", testkit_record_sent(COLUMNS_OF(cut, lengths), 34, 2103).number, in_order);
        expect("a report", testkit_report(COLUMNS_OF(cut, lengths), 1, 2, budget_of(1, 2, 3)).number, in_order);
        expect(
            "a first return",
            testkit_record_received_tpdu(COLUMNS_OF(cut, lengths), at, copy(packet, length), length).number,
            in_order);
        last_returned(&cut, whole, at);
        cut = cut_sheet(lengths);
        expect(
            "a return in a message",
            testkit_record_return_gtpu_datagram(COLUMNS_OF(cut, lengths), at, 255, copy(packet, length), length)
                .number,
            in_order);
        last_returned(&cut, whole, at);
        cut = cut_sheet(lengths);
        expect(
            "a return in a list",
            testkit_record_received_tpdus(
                COLUMNS_OF(cut, lengths), when, 1, long_as, 1, copy(packet, length), length, returned, 1, answered, 1)
                .number,
            in_order);
        last_returned(&cut, whole, at);
    }
}

/* Columns of length 0, by null. */
static void no_columns(void)
{
    struct testkit_sheet none;
    struct testkit_continuity_report due;
    struct testkit_returns_recorded list_due;
    uint64_t *when = (uint64_t *)lend(sizeof *when);
    size_t *long_as = (size_t *)lend(sizeof *long_as);
    uint64_t *returned = (uint64_t *)lend(sizeof *returned);
    uint8_t *answered = (uint8_t *)lend(1);
    size_t length = make(4, 22);
    *long_as = length;
    memset(&none, 0, sizeof none);
    compare_testkit_recorded(
        "no columns", testkit_sheet_record_sent(&none, 1, 2),
        recorded_as(TESTKIT_OBSERVER_FULL, counts_of(0, 0, 0, 0)));
    compare_testkit_recorded(
        "no columns", testkit_sheet_record_sent_plan(&none, plan_of(1, 2, 3), 4),
        recorded_as(TESTKIT_OBSERVER_FULL, counts_of(0, 0, 0, 0)));
    compare_testkit_recorded(
        "no columns", testkit_sheet_record_received_tpdu(&none, 1, NULL, 0),
        recorded_as(TESTKIT_TRUNCATED_IP_HEADER, counts_of(0, 0, 0, 0)));
    memset(&list_due, 0, sizeof list_due);
    list_due.returns = 1;
    compare_testkit_returns_recorded(
        "no columns",
        testkit_sheet_record_received_tpdus(
            &none, when, 1, long_as, 1, copy(packet, length), length, returned, 1, answered, 1),
        list_due);
    expect("the number of a return on no columns", answered[0], TESTKIT_SEQUENCE_WAS_NOT_SENT);
    expect("the sequence of a return on no columns", returned[0], 22);
    list_due.returns = 0;
    compare_testkit_returns_recorded(
        "no columns, no list", testkit_sheet_record_received_tpdus(&none, NULL, 0, NULL, 0, NULL, 0, NULL, 0, NULL, 0),
        list_due);
    compare_testkit_datagram_recorded(
        "no columns, no address",
        testkit_sheet_record_return_gtpu_datagram(&none, 1, 26, copy(element_bytes[TEID].bytes, 5), 5),
        datagram_as(TESTKIT_MISSING_PEER_ADDRESS, TESTKIT_OUTCOME_REFUSED, 0, counts_of(0, 0, 0, 0)));
    compare_testkit_datagram_recorded(
        "no columns", testkit_sheet_record_return_gtpu_datagram(&none, 1, 26, copy(elements, 12), 12),
        indication_as(named_by_elements(), counts_of(0, 0, 0, 1)));
    none.counts = counts_of(0, 0, 0, 0);
    memset(&due, 0, sizeof due);
    due.window_start_ns = 1;
    due.window_end_ns = 2;
    due.budget = budget_of(3, 4, 5);
    due.packet_continuity_proven = true;
    compare_testkit_continuity_report("no columns", testkit_sheet_report(&none, 1, 2, budget_of(3, 4, 5)), due);
    expect("no bytes", testkit_sum(7, NULL, 0), 7);
    expect("no bytes", testkit_checksum(NULL, 0), 0xffff);
    expect("no bytes", testkit_verify(NULL, 0), false);
}

/* ---- The reflector ---- */

static struct testkit_table table, twin;

static struct testkit_socket_addr address_of(uint8_t version, uint8_t first, uint16_t port)
{
    struct testkit_socket_addr made;
    made.version = version;
    for (uint8_t k = 0; k < 16; k++) {
        made.address[k] = (uint8_t)(first + k); /* behind an IPv4 address too */
    }
    made.port = port;
    compare_testkit_socket_addr("an address that is handed in", made, made);
    return made;
}

static struct testkit_reflector_session session_of(
    uint32_t local_teid, uint32_t peer_teid, struct testkit_socket_addr peer)
{
    struct testkit_reflector_session made;
    made.local_teid = local_teid;
    made.peer_teid = peer_teid;
    made.peer_addr = peer;
    compare_testkit_reflector_session("a session that is handed in", made, made);
    return made;
}

static void registered(
    const char *what, struct testkit_reflector_session session, uint8_t number, bool added, size_t used)
{
    struct testkit_registered due;
    due.number = number;
    due.added = added;
    due.used = used;
    compare_testkit_registered(what, testkit_table_register_session(&table, session), due);
    compare_testkit_registered(
        what, testkit_register_session(twin.sessions, twin.capacity, twin.used, twin.config.max_sessions, session),
        due);
    twin.used = due.used;
    expect(what, table.used, used);
    expect_bytes(what, table.sessions, twin.sessions, table.capacity * sizeof *table.sessions);
}

static void removed(
    const char *what, uint32_t local_teid, uint8_t number, bool was, size_t used,
    struct testkit_reflector_session session)
{
    struct testkit_removed due;
    due.number = number;
    due.removed = was;
    due.used = used;
    due.session = session;
    compare_testkit_removed(what, testkit_table_remove_session(&table, local_teid), due);
    compare_testkit_removed(
        what, testkit_remove_session(twin.sessions, twin.capacity, twin.used, twin.config.max_sessions, local_teid),
        due);
    twin.used = due.used;
    expect(what, table.used, used);
    expect_bytes(what, table.sessions, twin.sessions, table.capacity * sizeof *table.sessions);
}

/* By position too, but for configuration and state, whose fields are held by the proved source. */
static void open_table(struct testkit_table *opened)
{
    struct testkit_reflector_session *sessions =
        (struct testkit_reflector_session *)lend(3 * sizeof *opened->sessions);
    struct testkit_reflector_config config;
    struct testkit_reflector_state state;
    memset(&config, 0, sizeof config);
    memset(&state, 0, sizeof state);
    {
        struct testkit_table placed = {sessions, 3, 0, config, state};
        expect("the capacity's place", placed.capacity, 3);
        expect("the used count's place", placed.used, 0);
        *opened = placed;
    }
    opened->config.max_sessions = 2;
    opened->config.recovery_counter = 44;
    opened->config.policy = TESTKIT_POLICY_ECHO;
    opened->config.target = address_of(9, 60, 6060);
    opened->config.target_teid = 0x66;
    opened->state.stats.gpdu_received = 1000;
    opened->state.stats.gpdu_forwarded = 2000;
    opened->state.stats.gpdu_sunk = 3000;
    opened->state.stats.echo_requests_answered = 4000;
    opened->state.stats.error_indications_sent = 5000;
    opened->state.stats.malformed_rejected = 6000;
    opened->state.next_error_sequence = 65535;
    compare_testkit_reflector_config("a configuration that is handed in", opened->config, opened->config);
    compare_testkit_reflector_stats("counts that are handed in", opened->state.stats, opened->state.stats);
    compare_testkit_reflector_state("a state that is handed in", opened->state, opened->state);
}

static void session_table(void)
{
    static const struct testkit_reflector_session no_session = {0, 0, {0, {0}, 0}};
    struct testkit_reflector_session first = session_of(0x11, 0x12, address_of(4, 20, 2020));
    struct testkit_reflector_session second = session_of(0x21, 0x22, address_of(6, 40, 4040));
    struct testkit_reflector_session other = first;
    registered("a session", first, 0, true, 1);
    other.peer_addr.address[9] ^= 1; /* behind the 4 bytes that count */
    registered("the same session", other, 0, false, 1);
    other.peer_addr.address[3] ^= 1;
    registered("another of its TEID", other, TESTKIT_REFLECTOR_SESSION_CONFLICT, false, 1);
    other = first;
    other.peer_addr.port = 0;
    registered("no port", other, TESTKIT_INVALID_REFLECTOR_SESSION, false, 1);
    registered("a second session", second, 0, true, 2);
    compare_testkit_reflector_session("the first row", table.sessions[0], first);
    compare_testkit_reflector_session("the second row", table.sessions[1], second);
    registered(
        "a third session", session_of(0x31, 0x32, address_of(4, 1, 1)), TESTKIT_REFLECTOR_SESSION_CAPACITY_EXCEEDED,
        false, 2);
    removed("no session", 0x31, 0, false, 2, no_session);
    removed("the first session", 0x11, 0, true, 1, first);
    compare_testkit_reflector_session("the last row moved", table.sessions[0], second);
    removed("the second session", 0x21, 0, true, 0, second);
    registered("a session", first, 0, true, 1);
    registered("a session", second, 0, true, 2);

    table.config.max_sessions = twin.config.max_sessions = 0;
    registered("no maximum", first, TESTKIT_INVALID_REFLECTOR_CAPACITY, false, 2);
    removed("no maximum", 0x11, TESTKIT_INVALID_REFLECTOR_CAPACITY, false, 2, no_session);
    table.config.max_sessions = twin.config.max_sessions = 4;
    registered("too few rows", first, TESTKIT_MALFORMED_REFLECTOR_TABLE, false, 2);
    removed("too few rows", 0x11, TESTKIT_MALFORMED_REFLECTOR_TABLE, false, 2, no_session);
    table.config.max_sessions = twin.config.max_sessions = 2;
}

static struct testkit_gtpu_message message_of(uint8_t type, uint32_t teid, uint8_t has_sequence, uint16_t sequence)
{
    struct testkit_gtpu_message made;
    made.message_type = type;
    made.teid = teid;
    made.has_sequence = has_sequence;
    made.sequence = sequence;
    compare_testkit_gtpu_message("a message that is handed in", made, made);
    return made;
}

/* What is due where nothing is sent. */
static struct testkit_handled nothing(uint8_t number, uint8_t action, uint8_t noop_reason)
{
    struct testkit_handled made;
    memset(&made, 0, sizeof made);
    made.number = number;
    made.action = action;
    made.noop_reason = noop_reason;
    made.destination.version = 4;
    return made;
}

static struct testkit_handled sends(
    uint8_t send_reason, size_t bytes, struct testkit_socket_addr destination, struct testkit_gtpu_message header)
{
    struct testkit_handled made = nothing(0, TESTKIT_ACTION_SEND, 0);
    made.send_reason = send_reason;
    made.bytes = bytes;
    made.destination = destination;
    made.message = header;
    return made;
}

/* A message on both tables; `state` is the state that is due afterwards. */
static void handle_from(
    struct testkit_socket_addr source, const char *what, struct testkit_gtpu_message header, const uint8_t *bytes,
    size_t length, struct testkit_handled due, struct testkit_reflector_state state)
{
    const uint8_t *payload = bytes == NULL ? NULL : copy(bytes, length);
    due.state = state;
    compare_testkit_reflector_config("a configuration that is handed in", table.config, twin.config);
    memset(out, 0xA5, PACKET);
    compare_testkit_handled(
        what, testkit_table_handle_datagram(&table, source, header, payload, length, out, PACKET), due);
    compare_testkit_reflector_state(what, table.state, state);
    compare_testkit_handled(
        what,
        testkit_handle_datagram(
            twin.sessions, twin.capacity, twin.used, twin.config, twin.state, source, header, payload, length, out,
            PACKET),
        due);
    twin.state = due.state;
    expect("that the rest stays", due.bytes == PACKET || out[due.bytes] == 0xA5, true);
}

static void handle(
    const char *what, struct testkit_gtpu_message header, const uint8_t *bytes, size_t length,
    struct testkit_handled due, struct testkit_reflector_state state)
{
    handle_from(address_of(7, 80, 8080), what, header, bytes, length, due, state);
}

/* The Error Indication in `out` comes back to a probe: its walk and its sheet give the tunnel that was refused. */
static void round_trip(const char *what, size_t length, struct walked due)
{
    walk(what, copy(out, length), length, due);
    one.counts = two.counts = counts_of(0, 101, 202, 303);
    check_message(what, 1, 26, out, length, indication_as(due, counts_of(0, 101, 202, 304)));
}

static void handling(void)
{
    static const uint8_t counted[16] = {80, 81, 82, 83}; /* of the address below, the rest 0 */
    struct testkit_socket_addr ipv4_source = address_of(4, 80, 8080);
    struct testkit_reflector_state s = table.state;
    struct testkit_socket_addr source = address_of(6, 80, 8080); /* every version but 4 is 6 in an answer */
    struct testkit_socket_addr target = address_of(6, 60, 6060);
    struct testkit_handled due;
    size_t length = make(4, 5);

    s.stats.gpdu_received++;
    s.stats.gpdu_forwarded++;
    handle(
        "echo", message_of(255, 0x11, 9, 77), packet, length,
        sends(TESTKIT_SEND_REFLECTED_GPDU, 52, address_of(4, 20, 2020), message_of(255, 0x12, 0, 0)), s);
    expect("the echo's number", testkit_decode(copy(out, 52), 52, read_src, read_dst).number, TESTKIT_ACCEPTED);
    expect_bytes("the echo's source", read_src, dst, 4);
    s.stats.gpdu_received++;
    handle(
        "echo, refused", message_of(255, 0x21, 0, 0), packet, length - 1,
        nothing(TESTKIT_INVALID_IPV4_TOTAL_LENGTH, TESTKIT_ACTION_REFUSED, 0), s);
    s.stats.gpdu_received++;
    handle(
        "echo, cut", message_of(255, 0x21, 0, 0), packet, 27,
        nothing(TESTKIT_TRUNCATED_IPV4_UDP_PACKET, TESTKIT_ACTION_REFUSED, 0), s);
    s.stats.gpdu_received++;
    set_flags(0x2000);
    handle(
        "echo, a fragment", message_of(255, 0x21, 0, 0), packet, length,
        nothing(TESTKIT_IPV4_FRAGMENT, TESTKIT_ACTION_REFUSED, 0), s);
    set_flags(0);
    s.stats.gpdu_received++;
    handle(
        "echo, null", message_of(255, 0x21, 0, 0), NULL, 0,
        nothing(TESTKIT_TRUNCATED_IP_HEADER, TESTKIT_ACTION_REFUSED, 0), s);

    s.stats.error_indications_sent++;
    s.next_error_sequence = 1;
    handle(
        "unknown", message_of(255, 0xF1020304, 0, 0), packet, length,
        sends(TESTKIT_SEND_ERROR_INDICATION, 24, source, message_of(26, 0, 1, 65535)), s);
    expect_bytes("its TEID", out + 1, "\xF1\2\3\4", 4);
    expect_bytes("its address", out + 8, source.address, 16);
    round_trip("unknown, read", 24, walked_as(0, 6, 0xF1020304, source.address));
    s.stats.error_indications_sent++;
    s.next_error_sequence = 2;
    handle_from(
        ipv4_source, "unknown, IPv4", message_of(255, 0x31323334, 0, 0), packet, length,
        sends(TESTKIT_SEND_ERROR_INDICATION, 12, ipv4_source, message_of(26, 0, 1, 1)), s);
    round_trip("unknown, IPv4, read", 12, walked_as(0, 4, 0x31323334, counted));

    s.stats.echo_requests_answered++;
    handle(
        "an Echo Request", message_of(1, 0, 200, 777), packet, 0,
        sends(TESTKIT_SEND_ECHO_RESPONSE, 2, source, message_of(2, 0, 1, 777)), s);
    expect("its recovery", out[0], 14);
    expect("its recovery counter", out[1], 44);
    s.stats.malformed_rejected++;
    handle(
        "an Echo Request with a TEID", message_of(1, 5, 1, 777), packet, 0,
        nothing(TESTKIT_ECHO_REQUEST_TEID_NOT_ZERO, TESTKIT_ACTION_REFUSED, 0), s);
    s.stats.malformed_rejected++;
    handle(
        "an Echo Request without sequence", message_of(1, 0, 0, 777), packet, 0,
        nothing(TESTKIT_ECHO_REQUEST_MISSING_SEQUENCE, TESTKIT_ACTION_REFUSED, 0), s);
    s.stats.malformed_rejected++;
    handle(
        "an unknown type", message_of(77, 0, 0, 0), packet, 0,
        nothing(TESTKIT_UNSUPPORTED_MESSAGE_TYPE, TESTKIT_ACTION_REFUSED, 0), s);
    handle(
        "an Echo Response", message_of(2, 0, 0, 0), packet, 0,
        nothing(0, TESTKIT_ACTION_NOOP, TESTKIT_NOOP_ECHO_RESPONSE_OBSERVED), s);
    handle(
        "an Error Indication", message_of(26, 0, 0, 0), packet, 0,
        nothing(0, TESTKIT_ACTION_NOOP, TESTKIT_NOOP_ERROR_INDICATION_OBSERVED), s);
    handle(
        "an End Marker", message_of(254, 0, 0, 0), packet, 0,
        nothing(0, TESTKIT_ACTION_NOOP, TESTKIT_NOOP_END_MARKER_IGNORED), s);
    handle(
        "a notification", message_of(31, 0, 0, 0), packet, 0,
        nothing(0, TESTKIT_ACTION_NOOP, TESTKIT_NOOP_SUPPORTED_EXTENSION_HEADERS_NOTIFICATION_IGNORED), s);

    table.config.policy = twin.config.policy = TESTKIT_POLICY_SINK_AND_COUNT;
    s.stats.gpdu_received++;
    s.stats.gpdu_sunk++;
    handle(
        "sink", message_of(255, 0x21, 0, 0), packet, length, nothing(0, TESTKIT_ACTION_NOOP, TESTKIT_NOOP_GPDU_SUNK),
        s);
    table.config.policy = twin.config.policy = TESTKIT_POLICY_ROUTE;
    s.stats.gpdu_received++;
    s.stats.gpdu_forwarded++;
    handle(
        "route", message_of(255, 0x21, 0, 0), packet, length,
        sends(TESTKIT_SEND_ROUTED_GPDU, 0, target, message_of(255, 0x66, 0, 0)), s);
    table.config.policy = twin.config.policy = 200;
    s.stats.gpdu_received++;
    s.stats.gpdu_forwarded++;
    handle(
        "route, by another number", message_of(255, 0x21, 0, 0), packet, length,
        sends(TESTKIT_SEND_ROUTED_GPDU, 0, target, message_of(255, 0x66, 0, 0)), s);

    due = nothing(TESTKIT_OUTPUT_TOO_SHORT, TESTKIT_ACTION_REFUSED, 0);
    due.state = s;
    compare_testkit_handled(
        "a short output",
        testkit_table_handle_datagram(
            &table, source, message_of(1, 0, 1, 2), packet, 0, out, TESTKIT_REFLECTOR_BYTES - 1),
        due);
    compare_testkit_handled(
        "no output, null", testkit_table_handle_datagram(&table, source, message_of(1, 0, 1, 2), NULL, 0, NULL, 0),
        due);
    table.sessions = NULL;
    table.capacity = 0;
    table.used = 0;
    due.number = TESTKIT_MALFORMED_REFLECTOR_TABLE;
    compare_testkit_handled(
        "no table, null", testkit_table_handle_datagram(&table, source, message_of(1, 0, 1, 2), NULL, 0, NULL, 0), due);
    expect(
        "no table, null", testkit_table_register_session(&table, twin.sessions[0]).number,
        TESTKIT_MALFORMED_REFLECTOR_TABLE);
    expect("no table, null", testkit_table_remove_session(&table, 1).number, TESTKIT_MALFORMED_REFLECTOR_TABLE);
    table.config.max_sessions = 4097;
    due.number = TESTKIT_INVALID_REFLECTOR_CAPACITY;
    compare_testkit_handled(
        "too large a maximum", testkit_table_handle_datagram(&table, source, message_of(1, 0, 1, 2), NULL, 0, NULL, 0),
        due);
}

/* One byte outside what may be read or written, on either side: the pages stop it. */
static const char *way = "plain";

static void reads_outside(void)
{
    static const uint8_t bytes[4] = {1, 2, 3, 4};
    const uint8_t *lent = copy(bytes, sizeof bytes);
    testkit_sum(0, strcmp(way, "behind") == 0 ? lent - 1 : lent, sizeof bytes + 1);
}

static void writes_outside(void)
{
    testkit_build(6, src, dst, 1, 2, 3, 4, strcmp(way, "behind") == 0 ? out - 1 : out + 1, PACKET);
}

int main(int argc, char **argv)
{
    way = argc > 1 ? argv[1] : way;
    lend_as(way);
    src = (uint8_t *)lend(16);
    dst = (uint8_t *)lend(16);
    read_src = (uint8_t *)lend(16);
    read_dst = (uint8_t *)lend(16);
    read_peer = (uint8_t *)lend(16);
    packet = (uint8_t *)lend(PACKET);
    out = (uint8_t *)lend(PACKET);
    next_sequence = (uint64_t *)lend(sizeof *next_sequence);
    for (uint8_t k = 0; k < 16; k++) {
        src[k] = (uint8_t)(k + 1);
        dst[k] = (uint8_t)(k + 101);
    }
    expect("that a byte outside is seen", stopped(reads_outside), true);
    expect("that a byte outside is seen", stopped(writes_outside), true);
    numbers();
    packets(4);
    packets(6);
    cut_packets();
    fragments();
    padded_packets(4);
    padded_packets(6);
    generator();
    forecasts(4);
    forecasts(6);
    element_lists();
    open_sheet(&one);
    open_sheet(&two);
    sending();
    returning();
    tunnels();
    returning_in_lists();
    reporting();
    arrival_times();
    arrivals_without_marks();
    short_columns();
    no_columns();
    open_table(&table);
    open_table(&twin);
    session_table();
    handling();
    expect_told_apart();
    printf("%u fields compared, each with a value of its own\n", compared);
    return EXIT_SUCCESS;
}
