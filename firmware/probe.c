/*
 * The probe, as firmware has it: a plan is made, entered on the run sheet and sent; what comes back is entered, each
 * number is acted on; the report decides.
 */
#include "loopback.h"

#include "lend.h"

#include <inttypes.h>
#include <stdio.h>
#include <string.h>

enum { ROWS = 256, WAIT_NS = 5000000 };

/* Once, at start: the memory, and the first sequence. */
void probe_open(struct probe *probe, struct testkit_socket_addr self, struct testkit_socket_addr peer, uint32_t teid)
{
    static const uint8_t near_end[TESTKIT_ADDRESS_BYTES] = {10, 0, 0, 1};
    static const uint8_t far_end[TESTKIT_ADDRESS_BYTES] = {10, 0, 0, 2};
    memset(probe, 0, sizeof *probe);
    expect("the archive's version", testkit_version(), TESTKIT_VERSION);
    probe->sheet.sequences = (uint64_t *)lend(ROWS * sizeof *probe->sheet.sequences);
    probe->sheet.send_timestamps = (uint64_t *)lend(ROWS * sizeof *probe->sheet.send_timestamps);
    probe->sheet.latencies = (uint64_t *)lend(ROWS * sizeof *probe->sheet.latencies);
    probe->sheet.marks = (uint8_t *)lend(ROWS * sizeof *probe->sheet.marks);
    probe->sheet.arrival_timestamps = (uint64_t *)lend(ROWS * sizeof *probe->sheet.arrival_timestamps);
    probe->sheet.capacity = ROWS;
    probe->next_sequence = (uint64_t *)lend(sizeof *probe->next_sequence);
    *probe->next_sequence = 1;
    probe->near_end = (uint8_t *)lend_filled(near_end, TESTKIT_ADDRESS_BYTES);
    probe->far_end = (uint8_t *)lend_filled(far_end, TESTKIT_ADDRESS_BYTES);
    probe->self = self;
    probe->peer = peer;
    probe->teid = teid;
}

/* A run begins with a fresh sheet: counts of 0. The next sequence goes on. */
void probe_start(struct probe *probe)
{
    memset(&probe->sheet.counts, 0, sizeof probe->sheet.counts);
    memset(probe->refused, 0, sizeof probe->refused);
    probe->ignored = 0;
    probe->echo_responses = 0;
    probe->started = wire_now();
}

/* Sends a message to the peer. */
static void send_message(const struct probe *probe, uint8_t type, uint32_t teid, const uint8_t *payload, size_t length)
{
    struct testkit_gtpu_message message;
    message.message_type = type;
    message.teid = teid;
    message.has_sequence = type == TESTKIT_GTPU_MSG_ECHO_REQUEST;
    message.sequence = message.has_sequence ? 7 : 0;
    wire_send(probe->self, probe->peer, message, payload, length);
}

/* How big a plan will be, told to the crew before the drive; or why it would be refused. */
static struct testkit_plan_forecast forecast_plan(uint8_t version, struct testkit_plan plan, uint64_t next_sequence)
{
    struct testkit_plan_forecast forecast = testkit_forecast(version, plan, next_sequence);
    if (forecast.number != TESTKIT_ACCEPTED) {
        printf("  no plan: %s\n", testkit_number_text(forecast.number));
    } else if (!forecast.has_last) {
        printf("  forecast: no packet\n");
    } else {
        printf(
            "  forecast: %zu bytes, the last sequence %" PRIu64 ", sent at %" PRIu64 " ns\n", forecast.bytes,
            forecast.last_sequence, forecast.last_send_timestamp_ns);
    }
    return forecast;
}

/* Makes a plan's packets, enters them, and sends each at its time; before them an Echo Request, to see that the peer is
 * there. A plan that is refused is so before anything is sent or changed. Firmware lends a buffer that it has, if it is
 * long enough; here each plan is lent as many bytes as were forecast, so that a byte past its end is seen. */
void probe_send_plan(struct probe *probe, uint8_t version, uint64_t packets, uint64_t rate)
{
    size_t length = version == 4 ? TESTKIT_IPV4_TPDU_BYTES : TESTKIT_IPV6_TPDU_BYTES;
    uint64_t first = *probe->next_sequence; /* from before the plan: the sheet wants it */
    struct testkit_plan plan;
    struct testkit_plan_forecast forecast;
    struct testkit_written written;
    struct testkit_recorded recorded;

    plan.packet_count = packets;
    plan.target_rate_pps = rate;
    plan.first_send_timestamp_ns = wire_now() + 1000000;
    forecast = forecast_plan(version, plan, first);
    if (forecast.number != TESTKIT_ACCEPTED) {
        return;
    }
    probe->packets = (uint8_t *)lend(forecast.bytes);
    send_message(probe, TESTKIT_GTPU_MSG_ECHO_REQUEST, 0, probe->packets, 0);
    written = testkit_generate(
        version, probe->near_end, probe->far_end, 1000, 2000, plan, probe->next_sequence, probe->packets,
        forecast.bytes);
    expect("the number of a plan that was forecast", written.number, TESTKIT_ACCEPTED);
    expect("the bytes of a plan", written.bytes, forecast.bytes);
    expect("the next sequence", *probe->next_sequence, forecast.has_last ? forecast.last_sequence + 1 : first);
    recorded = testkit_sheet_record_sent_plan(&probe->sheet, plan, first);
    if (recorded.number != TESTKIT_ACCEPTED) {
        printf("  plan not entered: %s\n", testkit_number_text(recorded.number));
        return;
    }
    for (uint64_t k = 0; k < packets; k++) {
        uint64_t planned = plan.first_send_timestamp_ns + k * (1000000000 / rate);
        wire_wait_until(planned);
        if (wire_now() > planned) {
            /* it leaves late: the sheet is to measure from the true time */
            recorded = testkit_sheet_record_sent(&probe->sheet, first + k, wire_now());
            expect("a new send time's number", recorded.number, TESTKIT_ACCEPTED);
        }
        send_message(probe, TESTKIT_GTPU_MSG_GPDU, probe->teid, probe->packets + k * length, length);
    }
}

/* What a number that is not 0 means to the receive loop. True where the run cannot go on. */
static bool refused(struct probe *probe, uint8_t number)
{
    probe->refused[number]++;
    switch (number) {
    case TESTKIT_MALFORMED_OBSERVER: /* something else wrote to the sheet: no verdict can come of this run */
        return true;
    case TESTKIT_SEQUENCE_WAS_NOT_SENT: /* of an earlier run, or another probe's */
    case TESTKIT_TIMESTAMP_REVERSED:    /* the clock went back */
        return false;
    default: /* damaged, or no message for us: it is no arrival, and the report will count a loss */
        return false;
    }
}

/* Which tunnel an Error Indication refuses, for the operator: the sheet only counts it. */
static void log_refused_tunnel(const struct testkit_datagram_recorded *recorded)
{
    const uint8_t *address = recorded->peer_address;
    printf("  tunnel refused: TEID 0x%08" PRIx32 ", peer address ", recorded->refused_teid);
    if (recorded->peer_version == 4) {
        printf("%u.%u.%u.%u\n", address[0], address[1], address[2], address[3]);
        return;
    }
    for (size_t k = 0; k < TESTKIT_ADDRESS_BYTES; k += 2) {
        printf("%s%x", k == 0 ? "" : ":", address[k] * 256u + address[k + 1]);
    }
    printf("\n");
}

/* The receive loop: every message is entered as it comes. */
void probe_receive(struct probe *probe)
{
    struct datagram datagram;
    while (wire_receive(probe->self, &datagram)) {
        struct testkit_datagram_recorded recorded = testkit_sheet_record_return_gtpu_datagram(
            &probe->sheet, datagram.time, datagram.message.message_type,
            lend_copy(datagram.payload, datagram.payload_length), datagram.payload_length);
        switch (recorded.outcome) {
        case TESTKIT_OUTCOME_REFUSED:
            if (refused(probe, recorded.number)) {
                return;
            }
            break;
        case TESTKIT_OUTCOME_ECHO_RESPONSE:
            probe->echo_responses++;
            break;
        case TESTKIT_OUTCOME_IGNORED:
            expect("an ignored message's type", recorded.message_type, datagram.message.message_type);
            probe->ignored++;
            break;
        case TESTKIT_OUTCOME_ERROR_INDICATION:
            log_refused_tunnel(&recorded);
            break;
        case TESTKIT_OUTCOME_MEASUREMENT_TPDU:
            break; /* on the sheet */
        default:
            expect("an outcome", recorded.outcome, TESTKIT_OUTCOME_REFUSED);
        }
    }
}

/* The same with a list: T-PDUs are kept, and entered many at a time. Other messages are not for this loop. Firmware
 * lends the columns that it fills; here each list is lent as long as it is, so that a byte past its end is seen. */
void probe_receive_list(struct probe *probe)
{
    static uint64_t times[LIST_ROWS];
    static size_t lengths[LIST_ROWS];
    static uint8_t tpdus[LIST_BYTES];
    struct datagram datagram;
    bool more = true;
    while (more) {
        size_t rows = 0, bytes = 0;
        uint64_t *returned;
        uint8_t *numbers;
        struct testkit_returns_recorded recorded;
        while (rows < LIST_ROWS && (more = wire_receive(probe->self, &datagram))) {
            if (datagram.message.message_type != TESTKIT_GTPU_MSG_GPDU ||
                datagram.payload_length > LIST_BYTES - bytes) {
                probe->ignored++;
                continue;
            }
            times[rows] = datagram.time;
            lengths[rows++] = datagram.payload_length;
            memcpy(tpdus + bytes, datagram.payload, datagram.payload_length);
            bytes += datagram.payload_length;
        }
        returned = (uint64_t *)lend(rows * sizeof *returned);
        numbers = (uint8_t *)lend(rows);
        recorded = testkit_sheet_record_received_tpdus(
            &probe->sheet, (uint64_t *)lend_filled(times, rows * sizeof *times), rows,
            (size_t *)lend_filled(lengths, rows * sizeof *lengths), rows, (uint8_t *)lend_filled(tpdus, bytes), bytes,
            returned, rows, numbers, rows);
        if (recorded.number != TESTKIT_ACCEPTED) {
            refused(probe, recorded.number);
            return;
        }
        expect("the returns of a list", recorded.returns, rows);
        for (size_t k = 0; k < rows; k++) {
            if (numbers[k] != TESTKIT_ACCEPTED) {
                refused(probe, numbers[k]);
            }
        }
    }
}

/* The report and the log. */
struct testkit_continuity_report probe_report(const struct probe *probe, struct testkit_budget budget)
{
    struct testkit_continuity_report report;
    wire_wait_until(wire_now() + WAIT_NS); /* what is still on its way would count as lost */
    report = testkit_sheet_report(&probe->sheet, probe->started, wire_now(), budget);
    printf(
        "  sent %" PRIu64 ", received %" PRIu64 ", lost %" PRIu64 ", duplicate %" PRIu64 ", out of order %" PRIu64
        ", Error Indications %" PRIu64 "\n",
        report.sent_packets, report.received_packets, report.lost_packets, report.duplicate_packets,
        report.out_of_order_packets, report.gtpu_error_indications);
    printf(
        "  longest run of losses %" PRIu64 ", longest outage %" PRIu64 " ns\n", report.max_consecutive_lost_packets,
        report.max_gap_duration_ns);
    if (report.has_latency) {
        printf(
            "  latency %" PRIu64 " to %" PRIu64 " ns, mean %" PRIu64 " ns\n", report.min_ns, report.max_ns,
            report.avg_ns);
    }
    printf("  Echo Responses %u, ignored %u\n", probe->echo_responses, probe->ignored);
    for (unsigned number = 0; number < 256; number++) {
        if (probe->refused[number] != 0) {
            printf("  refused %u by %u: %s\n", probe->refused[number], number, testkit_number_text((uint8_t)number));
        }
    }
    return report;
}

/* The verdict under a budget: its reason. */
uint8_t probe_judge(struct testkit_continuity_report report, struct testkit_budget budget)
{
    struct testkit_verdict verdict = testkit_judge_report(report, budget);
    switch (verdict.reason) {
    case TESTKIT_VERDICT_PASS:
        printf("  verdict: pass\n");
        break;
    case TESTKIT_VERDICT_NOTHING_RETURNED:
        printf("  verdict: fail, nothing returned\n");
        break;
    case TESTKIT_VERDICT_TOO_MANY_LOST:
        printf("  verdict: fail, %" PRIu64 " lost, at most %" PRIu64 " allowed\n", verdict.measured, verdict.allowed);
        break;
    case TESTKIT_VERDICT_TOO_MANY_IN_A_ROW:
        printf(
            "  verdict: fail, %" PRIu64 " lost in a row, at most %" PRIu64 " allowed\n", verdict.measured,
            verdict.allowed);
        break;
    case TESTKIT_VERDICT_OUTAGE_TOO_LONG:
        printf(
            "  verdict: fail, an outage of %" PRIu64 " ns, at most %" PRIu64 " allowed\n", verdict.measured,
            verdict.allowed);
        break;
    case TESTKIT_VERDICT_ERROR_INDICATED:
        printf("  verdict: fail, Error Indications: %" PRIu64 "\n", verdict.measured);
        break;
    default:
        expect("a verdict's reason", verdict.reason, TESTKIT_VERDICT_NO_REPORT);
        printf("  verdict: none, %s\n", testkit_number_text(report.number));
    }
    return verdict.reason;
}
