/*
 * The probe and three reflectors, joined by a wire in memory that loses, repeats, delays and damages. Prints what they
 * log, and ends with status 1 on any surprise. The first argument says how buffers are placed (lend.h).
 */
#include "loopback.h"

#include "lend.h"

#include <stdio.h>
#include <stdlib.h>
#include <string.h>

enum { QUEUE = 1024, LATENCY_NS = 100000, NONE = -1 };

/* ---- The wire ---- */

static uint64_t now_ns = 1000000000;
static struct datagram queue[QUEUE];
static size_t queued;

static struct testkit_socket_addr probe_address, reflector_address, gateway_address, sink_address;
static struct probe probe;
static struct reflector reflector, gateway, sink;

/* What goes wrong, by the number that a G-PDU has on its way out of the probe or back to it in this run, from 0. */
static struct {
    int lost_from, lost_count, repeated, damaged; /* on the way out */
    int slow;                                     /* takes so long to send that the next one leaves late */
    int wrong_teid;
    int delayed, damaged_back; /* on the way back */
    int out, back;
} path;

static void quiet(void)
{
    path.lost_from = path.repeated = path.damaged = path.slow = path.wrong_teid = path.delayed = path.damaged_back =
        NONE;
    path.lost_count = path.out = path.back = 0;
}

uint64_t wire_now(void) { return now_ns; }

static bool same(const struct testkit_socket_addr *a, const struct testkit_socket_addr *b)
{
    return a->version == b->version && a->port == b->port &&
           memcmp(a->address, b->address, a->version == 4 ? 4 : 16) == 0;
}

static void put(const struct datagram *datagram)
{
    expect("room on the wire", queued < QUEUE, 1);
    queue[queued++] = *datagram;
}

void wire_send(
    struct testkit_socket_addr source, struct testkit_socket_addr destination, struct testkit_gtpu_message message,
    const uint8_t *payload, size_t payload_length)
{
    struct datagram datagram;
    memset(&datagram, 0, sizeof datagram);
    expect("a payload that fits", payload_length <= sizeof datagram.payload, 1);
    datagram.source = source;
    datagram.destination = destination;
    datagram.message = message;
    memcpy(datagram.payload, payload, payload_length);
    datagram.payload_length = payload_length;
    datagram.time = now_ns + LATENCY_NS;
    if (message.message_type == TESTKIT_GTPU_MSG_GPDU && same(&source, &probe_address)) {
        int k = path.out++;
        now_ns += k == path.slow ? 1250000 : 0;
        if (path.lost_from != NONE && k >= path.lost_from && k < path.lost_from + path.lost_count) {
            return;
        }
        datagram.message.teid += k == path.wrong_teid;
        datagram.payload[40] ^= (uint8_t)(k == path.damaged);
        if (k == path.repeated) {
            put(&datagram);
        }
    } else if (message.message_type == TESTKIT_GTPU_MSG_GPDU && same(&destination, &probe_address)) {
        int k = path.back++;
        datagram.payload[24] ^= (uint8_t)(k == path.damaged_back);
        datagram.time += k == path.delayed ? 3000000 : (uint64_t)k;
    }
    put(&datagram);
}

/* The earliest message for an address, or for any but the probe's, that arrives by a time; QUEUE where there is none.
 */
static size_t earliest(const struct testkit_socket_addr *destination, uint64_t until)
{
    size_t found = QUEUE;
    for (size_t k = 0; k < queued; k++) {
        bool meant = destination != NULL ? same(&queue[k].destination, destination)
                                         : !same(&queue[k].destination, &probe_address);
        if (meant && queue[k].time <= until && (found == QUEUE || queue[k].time < queue[found].time)) {
            found = k;
        }
    }
    return found;
}

bool wire_receive(struct testkit_socket_addr destination, struct datagram *datagram)
{
    size_t k = earliest(&destination, now_ns);
    if (k == QUEUE) {
        return false;
    }
    *datagram = queue[k];
    queued--;
    memmove(queue + k, queue + k + 1, (queued - k) * sizeof *queue);
    return true;
}

void wire_wait_until(uint64_t time)
{
    size_t k;
    while ((k = earliest(NULL, time)) != QUEUE) {
        if (queue[k].time > now_ns) {
            now_ns = queue[k].time;
        }
        if (same(&queue[k].destination, &reflector_address)) {
            reflector_serve(&reflector);
        } else if (same(&queue[k].destination, &gateway_address)) {
            reflector_serve(&gateway);
        } else {
            reflector_serve(&sink);
        }
    }
    if (time > now_ns) {
        now_ns = time;
    }
}

/* ---- What is tried ---- */

static struct testkit_socket_addr address(uint8_t version, uint8_t last)
{
    struct testkit_socket_addr made;
    memset(&made, 0, sizeof made);
    made.version = version;
    made.address[0] = version == 4 ? 192 : 0xfd;
    made.address[version == 4 ? 3 : 15] = last;
    made.port = 2152;
    return made;
}

static struct testkit_budget budget(uint64_t lost, uint64_t consecutive, uint64_t outage_ns)
{
    struct testkit_budget made;
    made.max_lost_packets = lost;
    made.max_consecutive_lost_packets = consecutive;
    made.outage_budget_ns = outage_ns;
    return made;
}

/* The arrival times agree with the other columns: send time and latency add up to the arrival time of a row that
 * returned, since the probe enters no new send time after that, and every other is 0. */
static void expect_arrivals(const struct testkit_sheet *sheet)
{
    for (size_t k = 0; k < sheet->counts.used; k++) {
        expect(
            "an arrival time", sheet->arrival_timestamps[k],
            sheet->marks[k] == 1 ? sheet->send_timestamps[k] + sheet->latencies[k] : 0);
    }
}

/* The report, judged: its verdict must have this reason. */
static struct testkit_continuity_report verdict(struct testkit_budget allowed, uint8_t reason)
{
    struct testkit_continuity_report report = probe_report(&probe, allowed);
    expect("the verdict", probe_judge(report, allowed), reason);
    expect_arrivals(&probe.sheet);
    expect(
        "the report's own", report.forwarding_proven && report.packet_continuity_proven,
        reason == TESTKIT_VERDICT_PASS);
    return report;
}

static void towards(struct testkit_socket_addr peer, uint32_t teid)
{
    probe.peer = peer;
    probe.teid = teid;
    probe_start(&probe);
}

static void settle(void) { wire_wait_until(now_ns + 10000000); }

static void send(
    struct testkit_socket_addr from, struct testkit_socket_addr to, uint8_t type, uint32_t teid, uint8_t numbered)
{
    /* TEID 0x201 and the gateway's address */
    static const uint8_t indication[24] = {
        16, 0, 0, 2, 1, 133, 0, 16, 0xfd, 0, 0, 0, 0, 0, 0, 0, 0, 0, 0, 0, 0, 0, 0, 3};
    struct testkit_gtpu_message message;
    message.message_type = type;
    message.teid = teid;
    message.has_sequence = numbered;
    message.sequence = 9;
    wire_send(from, to, message, indication, type == TESTKIT_GTPU_MSG_ERROR_INDICATION ? sizeof indication : 0);
}

static void sessions(void)
{
    reflector_open(&reflector, reflector_address, 2, TESTKIT_POLICY_ECHO);
    reflector_open(&gateway, gateway_address, 1, TESTKIT_POLICY_ROUTE);
    gateway.table.config.target = reflector_address;
    gateway.table.config.target_teid = 0x100;
    reflector_open(&sink, sink_address, 1, TESTKIT_POLICY_SINK_AND_COUNT);
    expect("a session", reflector_add(&reflector, 0x100, 0x900, probe_address), TESTKIT_ACCEPTED);
    expect("the same session", reflector_add(&reflector, 0x100, 0x900, probe_address), TESTKIT_ACCEPTED);
    expect(
        "another of its TEID", reflector_add(&reflector, 0x100, 0x901, probe_address),
        TESTKIT_REFLECTOR_SESSION_CONFLICT);
    expect("no TEID", reflector_add(&reflector, 0, 0x901, probe_address), TESTKIT_INVALID_REFLECTOR_SESSION);
    expect("a second session", reflector_add(&reflector, 0x101, 0x901, probe_address), TESTKIT_ACCEPTED);
    expect(
        "one too many", reflector_add(&reflector, 0x102, 0x902, probe_address),
        TESTKIT_REFLECTOR_SESSION_CAPACITY_EXCEEDED);
    expect("no such session", reflector_drop(&reflector, 0x102), false);
    expect("a session dropped", reflector_drop(&reflector, 0x101), true);
    expect("the gateway's", reflector_add(&gateway, 0x200, 0x900, probe_address), TESTKIT_ACCEPTED);
    expect("the sink's", reflector_add(&sink, 0x300, 0x900, probe_address), TESTKIT_ACCEPTED);
}

int main(int argc, char **argv)
{
    struct testkit_continuity_report report;
    lend_as(argc > 1 ? argv[1] : "plain");
    probe_address = address(4, 1);
    reflector_address = address(4, 2);
    gateway_address = address(6, 3);
    sink_address = address(6, 4);
    sessions();
    probe_open(&probe, probe_address, reflector_address, 0x100);

    printf("A quiet path, IPv4:\n");
    quiet();
    towards(reflector_address, 0x100);
    probe_send_plan(&probe, 4, 100, 1000);
    settle();
    probe_receive(&probe);
    verdict(budget(0, 0, 0), TESTKIT_VERDICT_PASS);

    printf("A rough path, IPv6, returns in lists:\n");
    quiet();
    path.lost_from = 10;
    path.lost_count = 4;
    path.repeated = 20;
    path.damaged = 40;
    path.slow = 60;
    path.delayed = 30;
    path.damaged_back = 50;
    towards(reflector_address, 0x100);
    probe_send_plan(&probe, 6, 100, 1000);
    settle();
    probe_receive_list(&probe);
    report = verdict(budget(6, 4, 4000000), TESTKIT_VERDICT_PASS);
    expect("under another budget", probe_judge(report, budget(5, 4, 4000000)), TESTKIT_VERDICT_TOO_MANY_LOST);
    expect("under another budget", probe_judge(report, budget(6, 3, 4000000)), TESTKIT_VERDICT_TOO_MANY_IN_A_ROW);
    expect("under another budget", probe_judge(report, budget(6, 4, 3999999)), TESTKIT_VERDICT_OUTAGE_TOO_LONG);

    printf("Through the gateway, which routes:\n");
    quiet();
    towards(gateway_address, 0x200);
    probe_send_plan(&probe, 4, 20, 1000);
    settle();
    probe_receive(&probe);
    verdict(budget(0, 0, 0), TESTKIT_VERDICT_PASS);

    printf("Into the sink:\n");
    quiet();
    towards(sink_address, 0x300);
    probe_send_plan(&probe, 4, 20, 1000);
    settle();
    probe_receive(&probe);
    verdict(budget(20, 20, 100000000), TESTKIT_VERDICT_NOTHING_RETURNED);

    printf("A packet with a TEID that nobody has, and messages that are none of the probe's:\n");
    quiet();
    path.wrong_teid = 7;
    towards(reflector_address, 0x100);
    probe_send_plan(&probe, 6, 20, 1000);
    send(reflector_address, probe_address, TESTKIT_GTPU_MSG_END_MARKER, 0x900, 0);
    send(reflector_address, probe_address, TESTKIT_GTPU_MSG_SUPPORTED_EXTENSION_HEADERS_NOTIFICATION, 0, 1);
    send(reflector_address, probe_address, 77, 0, 0);
    send(reflector_address, probe_address, TESTKIT_GTPU_MSG_GPDU, 0x900, 0);
    send(gateway_address, probe_address, TESTKIT_GTPU_MSG_ERROR_INDICATION, 0, 1);
    settle();
    probe_receive(&probe);
    verdict(budget(1, 1, 100000000), TESTKIT_VERDICT_ERROR_INDICATED);

    printf("A sheet that is full, and one that something else has written to:\n");
    quiet();
    towards(reflector_address, 0x100);
    probe_send_plan(&probe, 4, 200, 1000000);
    probe_send_plan(&probe, 4, 57, 1000000);
    probe_send_plan(&probe, 4, 10, 0);
    settle();
    probe.sheet.marks[3] = 2;
    probe_receive(&probe);
    verdict(budget(0, 0, 0), TESTKIT_VERDICT_NO_REPORT);

    send(probe_address, reflector_address, TESTKIT_GTPU_MSG_ECHO_RESPONSE, 0, 1);
    send(probe_address, reflector_address, TESTKIT_GTPU_MSG_ERROR_INDICATION, 0, 1);
    send(probe_address, reflector_address, TESTKIT_GTPU_MSG_END_MARKER, 0x100, 0);
    send(probe_address, reflector_address, TESTKIT_GTPU_MSG_SUPPORTED_EXTENSION_HEADERS_NOTIFICATION, 0, 0);
    send(probe_address, reflector_address, TESTKIT_GTPU_MSG_ECHO_REQUEST, 0x100, 1);
    send(probe_address, reflector_address, TESTKIT_GTPU_MSG_ECHO_REQUEST, 0, 0);
    send(probe_address, reflector_address, 77, 0, 0);
    settle();
    reflector_log(&reflector, "The reflector");
    reflector_log(&gateway, "The gateway");
    reflector_log(&sink, "The sink");
    return EXIT_SUCCESS;
}
