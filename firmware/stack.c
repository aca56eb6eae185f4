/*
 * How much stack each call uses. A call is run on a stack of its own that was filled with a pattern, once with 0xA5 and
 * once with 0x5A; the lowest byte that changed says how deep it went, counted from the end of the return address.
 * (Arguments on the stack lie above that and are the caller's.) For each call the largest depth over the inputs named
 * below is held to its number in testkit.h: exit status 1 where a call uses more. That number is the bound that
 * frames.awk reads off the machine code, and this the second way; a bound may be higher, where no input takes the
 * deepest path.
 *
 * What each call answered is printed: firmware/run holds the numbers to the list of refusals that testkit.h has for the
 * call, so that each was met and no other. What else an answer may say (whether an accepted plan has a packet, the
 * version of a refused tunnel's address, a verdict's reason, a message's outcome, what is to be done with it and why,
 * whether a session was added or removed, whether a report's two verdicts hold) is checked here: exit status 1 where
 * one was never met.
 *
 * Inputs. Packets, of both versions: built ones; cut at every length; each single bit turned; with each cause that a
 * checksum would hide, made right by another field; for IPv4 with options, of every IHL; each of these alone, and in
 * lists of two returns, the first whole and the second whole, cut or empty. Plans: of 0, 1 and 2048 packets, and each
 * refusal. Element lists: up to 4096 elements before an address of each version, each cut. Run sheets: empty, of 1 row
 * and of 2048 rows, none, one, all or every other returned; a new row at the front, in the middle and at the end;
 * returns before and after their send time; counts of 0 and at their top; and malformed, by the used count, by a mark
 * and by an arrival time. Reports under budgets that each alone is and is not kept, and refused ones. Session tables:
 * empty, of 1 and of 4096 sessions, full and not, and refused; the first, the last and no session asked for; sessions
 * that differ from a registered one in one field; packets as above under each policy, and messages of every type with
 * and without TEID and sequence; counts of 0 and at their top, and the last error sequence.
 *
 * For x86-64 and GNU C. Linked with -z now, so that finding memcpy is not counted.
 */
#define _GNU_SOURCE
#include "testkit.h"

#include <stdio.h>
#include <stdlib.h>
#include <string.h>
#include <ucontext.h>

enum {
    STACK = 16384,
    ABOVE = 4096,
    ROWS = TESTKIT_MAXIMUM_ROWS,
    OUT = ROWS * TESTKIT_IPV6_TPDU_BYTES,
    LIST = 4096 * 3 + 24,
    SESSIONS = TESTKIT_MAXIMUM_SESSIONS
};

static uint8_t stack[STACK] __attribute__((aligned(64)));
static void (*volatile body)(void);
static ucontext_t here, there;

/* Every call goes by way of `enter`, which notes where its return address lies and jumps to it, with the arguments in
 * their places. */
uint8_t *volatile entry_stack_pointer;
void (*volatile entry_target)(void);
void enter(void);
__asm__(".text\n"
        "enter:\n"
        "    movq %rsp, entry_stack_pointer(%rip)\n"
        "    jmp *entry_target(%rip)\n");

#define ENTER(call) (entry_target = (void (*)(void))(call), (__typeof__(&(call)))enter)

/* What a call is run on. */
static uint8_t src[16] = {10, 0, 0, 1}, dst[16] = {10, 0, 0, 2};
static uint8_t version;
static uint8_t in[LIST], out[OUT];
static size_t in_length, out_length;
static struct testkit_plan plan;
static uint64_t plan_sequence;
static uint64_t sequences[ROWS], times[ROWS], latencies[ROWS], arrivals[ROWS];
static uint8_t marks[ROWS];
static struct testkit_counts counts;
static uint64_t sequence;
static uint8_t message_type;
static struct testkit_reflector_session sessions[SESSIONS], session;
static size_t sessions_used;
static struct testkit_reflector_config config;
static struct testkit_reflector_state state;
static struct testkit_socket_addr source;
static struct testkit_gtpu_message message;
static volatile uint64_t kept; /* so that no answer is thrown away */

/* What the call answered: its numbers, and what else its answer says, as a small number. */
static volatile uint8_t answered[2];
static volatile int answers;
static volatile unsigned kind;
static void note(uint8_t number, unsigned said)
{
    answered[0] = number;
    answers = 1;
    kind = said;
}

#define SHEET sequences, ROWS, times, ROWS, latencies, ROWS, marks, ROWS, arrivals, ROWS, counts

static void call_version(void) { kept = ENTER(testkit_version)(); }
static void call_sum(void) { kept = ENTER(testkit_sum)(1, in, in_length); }
static void call_checksum(void) { kept = ENTER(testkit_checksum)(in, in_length); }
static void call_verify(void) { kind = ENTER(testkit_verify)(in, in_length); }
static void call_build(void) { note(ENTER(testkit_build)(version, src, dst, 1, 2, 3, 4, out, out_length).number, 0); }
static void call_decode(void)
{
    uint8_t s[16], d[16];
    note(ENTER(testkit_decode)(in, in_length, s, d).number, 0);
}
static void call_echo(void) { note(ENTER(testkit_echo)(in, in_length, out, out_length).number, 0); }
static void call_generate(void)
{
    uint64_t next_sequence = plan_sequence;
    note(ENTER(testkit_generate)(version, src, dst, 1, 2, plan, &next_sequence, out, out_length).number, 0);
}
static void call_forecast(void)
{
    struct testkit_plan_forecast forecast = ENTER(testkit_forecast)(version, plan, plan_sequence);
    note(forecast.number, forecast.number != 0 ? 0 : 1 + forecast.has_last);
}
static void call_elements(void)
{
    uint8_t peer_address[16] = {0};
    struct testkit_elements elements = ENTER(testkit_validate_elements)(in, in_length, peer_address);
    note(elements.number, elements.number != 0 ? 0 : elements.version);
}
static void call_sent(void) { note(ENTER(testkit_record_sent)(SHEET, sequence, 7).number, 0); }
static void call_received(void) { note(ENTER(testkit_record_received_tpdu)(SHEET, 9, in, in_length).number, 0); }
static void call_plan(void) { note(ENTER(testkit_record_sent_plan)(SHEET, plan, sequence).number, 0); }
/* Two returns: T-PDUs of these lengths, cut where `in` ends. */
static size_t lengths[2];
static void call_returns(void)
{
    static const uint64_t at[2] = {9, 9};
    static uint64_t read[2];
    static uint8_t numbers[2];
    struct testkit_returns_recorded recorded =
        ENTER(testkit_record_received_tpdus)(SHEET, at, 2, lengths, 2, in, in_length, read, 2, numbers, 2);
    note(recorded.number, 0);
    if (recorded.number == 0) {
        answered[0] = numbers[0];
        answered[1] = numbers[1];
        answers = 2;
    }
}
static void call_message(void)
{
    struct testkit_datagram_recorded recorded =
        ENTER(testkit_record_return_gtpu_datagram)(SHEET, 9, message_type, in, in_length);
    note(recorded.number, recorded.peer_version == 6 ? 6 : recorded.outcome);
}
static struct testkit_budget budget;
static uint64_t window_end;
static struct testkit_continuity_report report;
static void call_report(void)
{
    struct testkit_continuity_report made = ENTER(testkit_report)(SHEET, 1, window_end, budget);
    note(made.number, made.number != 0 ? 4 : made.forwarding_proven + 2u * made.packet_continuity_proven);
}
static void call_judge(void) { kind = ENTER(testkit_judge_report)(report, budget).reason; }
static void call_register(void)
{
    struct testkit_registered registered =
        ENTER(testkit_register_session)(sessions, SESSIONS, sessions_used, config.max_sessions, session);
    note(registered.number, registered.added);
}
static void call_remove(void)
{
    struct testkit_removed removed =
        ENTER(testkit_remove_session)(sessions, SESSIONS, sessions_used, config.max_sessions, session.local_teid);
    note(removed.number, removed.removed);
}
static void call_handle(void)
{
    struct testkit_handled handled = ENTER(testkit_handle_datagram)(
        sessions, SESSIONS, sessions_used, config, state, source, message, in, in_length, out, out_length);
    note(handled.number, handled.action * 8u + handled.noop_reason + handled.send_reason);
}

/* The calls; of each what its answers must say, as bits; and so far the most that it has used, what its answers have
 * said, and their numbers. Of elements the bits are the address's version, and 0 where they are refused; of a message
 * that came back its outcome, and 6 where it names an IPv6 address; of a report both verdicts, and 4 where there is
 * none; of a message handled 8 * action + reason. */
#define BITS(from, to) (((UINT64_C(1) << ((to) - (from) + 1)) - 1) << (from))
static struct row {
    const char *name;
    void (*call)(void);
    size_t said;
    uint64_t kinds_due;
    size_t used;
    uint64_t kinds;
    bool met[256];
} rows[] = {
    {"testkit_version", call_version, TESTKIT_STACK_VERSION, BITS(0, 0), 0, 0, {0}},
    {"testkit_sum", call_sum, TESTKIT_STACK_SUM, BITS(0, 0), 0, 0, {0}},
    {"testkit_checksum", call_checksum, TESTKIT_STACK_CHECKSUM, BITS(0, 0), 0, 0, {0}},
    {"testkit_verify", call_verify, TESTKIT_STACK_VERIFY, BITS(0, 1), 0, 0, {0}},
    {"testkit_build", call_build, TESTKIT_STACK_BUILD, BITS(0, 0), 0, 0, {0}},
    {"testkit_decode", call_decode, TESTKIT_STACK_DECODE, BITS(0, 0), 0, 0, {0}},
    {"testkit_echo", call_echo, TESTKIT_STACK_ECHO, BITS(0, 0), 0, 0, {0}},
    {"testkit_generate", call_generate, TESTKIT_STACK_GENERATE, BITS(0, 0), 0, 0, {0}},
    {"testkit_forecast", call_forecast, TESTKIT_STACK_FORECAST, BITS(0, 2), 0, 0, {0}},
    {"testkit_validate_elements", call_elements, TESTKIT_STACK_VALIDATE_ELEMENTS,
     BITS(0, 0) | BITS(4, 4) | BITS(6, 6), 0, 0, {0}},
    {"testkit_record_sent", call_sent, TESTKIT_STACK_RECORD_SENT, BITS(0, 0), 0, 0, {0}},
    {"testkit_record_received_tpdu", call_received, TESTKIT_STACK_RECORD_RECEIVED_TPDU, BITS(0, 0), 0, 0, {0}},
    {"testkit_record_sent_plan", call_plan, TESTKIT_STACK_RECORD_SENT_PLAN, BITS(0, 0), 0, 0, {0}},
    {"testkit_record_received_tpdus", call_returns, TESTKIT_STACK_RECORD_RECEIVED_TPDUS, BITS(0, 0), 0, 0, {0}},
    {"testkit_record_return_gtpu_datagram", call_message, TESTKIT_STACK_RECORD_RETURN_GTPU_DATAGRAM,
     BITS(0, 4) | BITS(6, 6), 0, 0, {0}},
    {"testkit_report", call_report, TESTKIT_STACK_REPORT, BITS(0, 4), 0, 0, {0}},
    {"testkit_judge_report", call_judge, TESTKIT_STACK_JUDGE_REPORT, BITS(0, 6), 0, 0, {0}},
    {"testkit_register_session", call_register, TESTKIT_STACK_REGISTER_SESSION, BITS(0, 1), 0, 0, {0}},
    {"testkit_remove_session", call_remove, TESTKIT_STACK_REMOVE_SESSION, BITS(0, 1), 0, 0, {0}},
    {"testkit_handle_datagram", call_handle, TESTKIT_STACK_HANDLE_DATAGRAM,
     BITS(0, 0) | BITS(9, 13) | BITS(17, 20), 0, 0, {0}},
};
enum { CALLS = sizeof rows / sizeof *rows };

/* Stands between the stack's top, which entering and leaving write to, and the call. */
static void above(void)
{
    volatile uint8_t room[ABOVE];
    room[0] = 0;
    body();
    kept = room[0];
}

static size_t depth(void (*call)(void), uint8_t pattern)
{
    size_t k = 0;
    memset(stack, pattern, sizeof stack);
    getcontext(&there);
    there.uc_stack.ss_sp = stack;
    there.uc_stack.ss_size = sizeof stack;
    there.uc_link = &here;
    body = call;
    makecontext(&there, above, 0);
    swapcontext(&here, &there);
    while (stack[k] == pattern) {
        k++;
    }
    return (size_t)(entry_stack_pointer + sizeof(void *) - (stack + k));
}

/* Runs a call on what is set, and notes how deep it went. What the call changes is set anew, for the second run too. */
static void measure(void (*call)(void))
{
    static uint8_t marks_before[ROWS];
    static uint64_t sequences_before[ROWS], times_before[ROWS], arrivals_before[ROWS];
    static struct testkit_reflector_session sessions_before[SESSIONS];
    size_t table = call == call_register || call == call_remove ? sizeof sessions : 0;
    struct row *row = rows;
    memcpy(marks_before, marks, sizeof marks);
    memcpy(sequences_before, sequences, sizeof sequences);
    memcpy(times_before, times, sizeof times);
    memcpy(arrivals_before, arrivals, sizeof arrivals);
    memcpy(sessions_before, sessions, table);
    while (row->call != call) {
        row++;
    }
    for (int turn = 0; turn < 2; turn++) {
        size_t used;
        answers = 0;
        kind = 0;
        used = depth(call, turn ? 0x5a : 0xa5);
        row->used = used > row->used ? used : row->used;
        row->kinds |= UINT64_C(1) << kind;
        for (int k = 0; k < answers; k++) {
            row->met[answered[k]] = true;
        }
        memcpy(marks, marks_before, sizeof marks);
        memcpy(sequences, sequences_before, sizeof sequences);
        memcpy(times, times_before, sizeof times);
        memcpy(arrivals, arrivals_before, sizeof arrivals);
        memcpy(sessions, sessions_before, table);
    }
}

/* Lists of `in`: whole and nothing behind it; in two halves, the second also longer than what is left. */
static void measure_returns(void)
{
    static const size_t more[] = {0, 1, SIZE_MAX};
    for (size_t k = 0; k < sizeof more / sizeof *more; k++) {
        lengths[0] = in_length;
        lengths[1] = more[k];
        measure(call_returns);
        lengths[0] = in_length / 2;
        lengths[1] = in_length - in_length / 2;
        measure(call_returns);
        lengths[0] = 0;
        lengths[1] = in_length > SIZE_MAX - more[k] ? SIZE_MAX : in_length + more[k];
        measure(call_returns);
    }
}

/* Every call that reads a packet, into outputs that are long enough and too short. */
static void measure_packet(void)
{
    measure(call_sum);
    measure(call_checksum);
    measure(call_verify);
    measure(call_decode);
    measure(call_received);
    measure_returns();
    message_type = 255;
    measure(call_message);
    for (out_length = 51; out_length <= 72; out_length += 21) {
        measure(call_echo);
        for (config.policy = 0; config.policy <= 2; config.policy++) {
            measure(call_handle);
        }
    }
}

/* A table of `used` sessions with the local TEIDs 1, 2, .., and a maximum. */
static void set_sessions(size_t used, size_t maximum)
{
    for (size_t k = 0; k < SESSIONS; k++) {
        sessions[k] = (struct testkit_reflector_session){(uint32_t)k + 1, 9, {k % 2 ? 4 : 6, {1}, 7}};
    }
    sessions_used = used;
    config = (struct testkit_reflector_config){maximum, 5, 0, {6, {2}, 8}, 3};
}

/* Every call of the reflector on a table of `used` sessions. */
static void measure_reflector(size_t used, size_t maximum)
{
    static const uint32_t teids[] = {0, 1, 2, SESSIONS, SESSIONS + 1};
    for (size_t k = 0; k < 4 * sizeof teids / sizeof *teids; k++) {
        set_sessions(used, maximum);
        session = (struct testkit_reflector_session){teids[k / 4], 9, {k % 2 ? 4 : 6, {1}, k % 4 < 2 ? 7 : 0}};
        measure(call_register);
        set_sessions(used, maximum);
        measure(call_remove);
        set_sessions(used, maximum);
        source = session.peer_addr;
        out_length = 72;
        for (int type = 0; type < 256; type++) {
            message = (struct testkit_gtpu_message){(uint8_t)type, session.local_teid, k % 4 < 2, 65535};
            for (config.policy = 0; config.policy <= 2; config.policy++) {
                measure(call_handle);
            }
        }
    }
}

/* Sessions that differ from a registered one in one field: peer TEID, version, a byte of the address that counts, a
 * byte that does not, port. Messages of every type with counts at their top and the last error sequence. */
static void measure_reflector_ends(void)
{
    for (size_t k = 0; k < 2; k++) {
        set_sessions(2, 3);
        for (int field = 0; field < 5; field++) {
            session = sessions[k];
            session.peer_teid += field == 0;
            session.peer_addr.version ^= field == 1 ? 2 : 0;
            session.peer_addr.address[3] ^= field == 2;
            session.peer_addr.address[15] ^= field == 3;
            session.peer_addr.port += field == 4;
            measure(call_register);
        }
    }
    state = (struct testkit_reflector_state){
        {UINT64_MAX, UINT64_MAX, UINT64_MAX, UINT64_MAX, UINT64_MAX, UINT64_MAX}, 65535};
    for (int k = 0; k < 4 * 256; k++) {
        message = (struct testkit_gtpu_message){(uint8_t)k, k / 256 % 2 ? 1 : 99, (uint8_t)(k / 512), 65535};
        message.teid = message.message_type == 1 ? 0 : message.teid;
        for (config.policy = 0; config.policy <= 2; config.policy++) {
            measure(call_handle);
        }
    }
    state = (struct testkit_reflector_state){{0, 0, 0, 0, 0, 0}, 0};
}

/* The packet of `in` with room for options of every length: IHL and total length raised, both header sums made right.
 */
static void measure_options(void)
{
    uint8_t packet[52];
    memcpy(packet, in, sizeof packet);
    for (size_t words = 0; words <= 10; words++) {
        memset(in, 1, 20 + 4 * words);
        memcpy(in, packet, 20);
        memcpy(in + 20 + 4 * words, packet + 20, 32);
        in_length = 52 + 4 * words;
        in[0] = (uint8_t)(0x45 + words);
        in[3] = (uint8_t)in_length;
        in[10] = in[11] = 0;
        uint16_t sum = testkit_checksum(in, 20 + 4 * words);
        in[10] = (uint8_t)(sum >> 8);
        in[11] = (uint8_t)sum;
        measure_packet();
    }
}

/* Packets with a cause that single bits do not show: for most of them the checksum is judged before it, so what the sum
 * loses the source port gets. The UDP length counts twice in it, in the pseudo-header too, and says how many bytes it
 * covers. Of an IPv4 header, two words that were 0 and add up to 0xFFFF leave the checksum right. */
static void measure_hidden_causes(uint64_t probe)
{
    size_t udp = version == 4 ? 20 : 40;
    for (int cause = 0; cause < (version == 4 ? 5 : 4); cause++) {
        in_length = testkit_build(version, src, dst, 1, 2, probe, 4, in, sizeof in).bytes;
        if (cause == 0) { /* no probe: two words of its first 8 bytes exchanged */
            uint8_t word[2];
            memcpy(word, in + udp + 8, 2);
            memcpy(in + udp + 8, in + udp + 10, 2);
            memcpy(in + udp + 10, word, 2);
        } else if (cause == 1) { /* a probe of 23 bytes, and its last byte as padding */
            in[udp + 5] -= 1;
            in[udp + 1] += 2 + in[udp + 31];
        } else if (cause == 2) { /* a UDP length of 7, which is judged before the checksum */
            in[udp + 5] -= 25;
        } else if (cause == 3) { /* a UDP checksum of 0: not verified in IPv4 */
            in[udp + 6] = in[udp + 7] = 0;
        } else { /* a fragment: More Fragments, and the rest of 0xFFFF as identification */
            in[4] = 0xDF;
            in[5] = 0xFF;
            in[6] = 0x20;
        }
        measure_packet();
    }
}

static void measure_packets(uint64_t probe)
{
    for (version = 4; version <= 6; version += 2) {
        size_t length = testkit_build(version, src, dst, 1, 2, probe, 4, in, sizeof in).bytes;
        for (in_length = 0; in_length <= length; in_length++) {
            measure_packet();
        }
        in_length = length;
        for (size_t bit = 0; bit < 8 * length; bit++) {
            in[bit / 8] ^= (uint8_t)(1 << bit % 8);
            measure_packet();
            in[bit / 8] ^= (uint8_t)(1 << bit % 8);
        }
        if (version == 4) {
            measure_options();
        }
        measure_hidden_causes(probe);
    }
}

static void measure_writers(void)
{
    static const uint64_t count[] = {0, 1, ROWS, ROWS + 1}, rate[] = {0, 1, 1000000000, 1000000001};
    for (version = 4; version <= 6; version += 2) {
        for (out_length = 0; out_length <= 72; out_length++) {
            measure(call_build);
        }
        for (int k = 0; k < 64; k++) {
            plan = (struct testkit_plan){count[k % 4], rate[k / 4 % 4], k / 16 % 2 ? UINT64_MAX - 1 : 0};
            plan_sequence = k / 32 ? UINT64_MAX - 1 : 0;
            measure(call_forecast);
            out_length = OUT;
            measure(call_generate);
            out_length = 0;
            measure(call_generate);
        }
    }
}

/* `count` elements without value, then what a right list ends with, an address of IPv4 or IPv6 (`octets` 4 or 16); at
 * every length near both ends. */
static void measure_elements(size_t count, uint8_t octets)
{
    const uint8_t end[24] = {16, 0, 0, 0, 9, 133, 0, octets, 10, 0, 0, 2};
    size_t length = 3 * count + 8 + octets;
    message_type = 26;
    memset(in, 0, sizeof in);
    for (size_t k = 0; k < count; k++) {
        in[3 * k] = 200;
    }
    memcpy(in + 3 * count, end, 8 + octets);
    for (in_length = 0; in_length <= length; in_length += in_length > 60 && in_length + 60 < length ? 37 : 1) {
        measure(call_elements);
        measure(call_message);
    }
    in[3 * count + 7] = 5;
    in_length = length;
    measure(call_elements);
    measure(call_message);
    in[3 * count] = 17;
    measure(call_elements);
    measure(call_message);
}

/* A sheet of `used` rows with sequences 2, 4, .., every `step`-th of them returned (0: none). The first 1000 were sent
 * before time 9, at which packets return, and the others after it. */
static void set_sheet(size_t used, size_t step)
{
    for (size_t k = 0; k < ROWS; k++) {
        sequences[k] = 2 * (k + 1);
        times[k] = k < 1000 ? 5 : 10;
        latencies[k] = UINT64_MAX;
        marks[k] = step != 0 && k % step == 0;
        arrivals[k] = marks[k] ? UINT64_MAX : 0;
    }
    counts = (struct testkit_counts){.used = used};
}

/* Plans that fit, that fit in part, and that are refused for their own sake. */
static void measure_plans(size_t used)
{
    static const uint64_t rate[] = {0, 1, 1000000000, 1000000001};
    const uint64_t count[] = {0, 1, ROWS - used, ROWS, ROWS + 1};
    for (int k = 0; k < 40; k++) {
        plan = (struct testkit_plan){count[k % 5], rate[k / 5 % 4], k / 20 ? UINT64_MAX - 1 : 7};
        measure(call_plan);
    }
}

/* The report and its verdict, under budgets of which each alone is kept and is not, with the end of the window before
 * and after the send times. */
static void measure_report(void)
{
    for (int k = 0; k < 32; k++) {
        budget = (struct testkit_budget){k & 1 ? 0 : UINT64_MAX, k & 2 ? 0 : UINT64_MAX, k & 4 ? 0 : UINT64_MAX};
        window_end = k & 16 ? 2 : 99;
        measure(call_report);
        report = testkit_report(SHEET, 1, window_end, budget);
        report.gtpu_error_indications = k & 8;
        measure(call_judge);
    }
}

/* An Error Indication that is counted. */
static void measure_indication(void)
{
    static const uint8_t elements[12] = {16, 0, 0, 0, 9, 133, 0, 4, 10, 0, 0, 2};
    memcpy(in, elements, sizeof elements);
    in_length = sizeof elements;
    message_type = 26;
    measure(call_message);
}

/* Every call on a sheet that is malformed, if the row in question is used. */
static void measure_malformed(size_t used)
{
    measure_report();
    measure(call_sent);
    measure(call_received);
    measure(call_message);
    measure_plans(used);
    measure_returns();
}

static void measure_sheet(size_t used, size_t step)
{
    static const uint64_t new_sequences[] = {0, 1, 2, 2049, 2050, 4095, 4096, 9999, UINT64_MAX - 1};
    set_sheet(used, step);
    for (size_t k = 0; k < sizeof new_sequences / sizeof *new_sequences; k++) {
        sequence = new_sequences[k];
        measure(call_sent);
        measure_plans(used);
        in_length = testkit_build(k % 2 ? 4 : 6, src, dst, 1, 2, sequence, 4, in, sizeof in).bytes;
        measure_packet();
    }
    measure_report();
    for (int type = 0; type < 256; type++) {
        message_type = (uint8_t)type;
        measure(call_message);
    }
    counts = (struct testkit_counts){
        .duplicate_packets = UINT64_MAX,
        .out_of_order_packets = UINT64_MAX,
        .gtpu_error_indications = UINT64_MAX,
        .used = used,
    };
    measure_report();
    for (sequence = 2; sequence <= 4; sequence += 2) {
        in_length = testkit_build(4, src, dst, 1, 2, sequence, 4, in, sizeof in).bytes;
        measure_packet();
    }
    measure_indication();
    marks[0] = 2;
    measure_malformed(used);
    for (size_t k = 0; k < ROWS; k += ROWS - 1) {
        set_sheet(used, step);
        marks[k] = 0;
        arrivals[k] = 1;
        measure_malformed(used);
    }
}

int main(void)
{
    int status = EXIT_SUCCESS;
    measure(call_version);
    memset(in, 0xff, sizeof in);
    for (in_length = 0; in_length < sizeof in; in_length += 101) {
        measure(call_sum);
        measure(call_checksum);
        measure(call_verify);
    }
    measure_writers();
    set_sheet(4, 2);
    set_sessions(1, 1);
    message = (struct testkit_gtpu_message){255, 1, 0, 0};
    measure_packets(2);
    for (uint8_t octets = 4; octets <= 16; octets += 12) {
        for (size_t count = 0; count <= 40; count++) {
            measure_elements(count, octets);
        }
        measure_elements(4096, octets);
    }
    for (size_t step = 0; step <= 2; step++) {
        measure_sheet(0, step);
        measure_sheet(1, step);
        measure_sheet(ROWS - 1, step);
        measure_sheet(ROWS, step);
        measure_sheet(ROWS + 1, step);
    }
    in_length = testkit_build(6, src, dst, 1, 2, 3, 4, in, sizeof in).bytes;
    measure_reflector(0, 1);
    measure_reflector(1, 1);
    measure_reflector(1, 2);
    measure_reflector(SESSIONS, SESSIONS);
    measure_reflector(2, 1);
    measure_reflector(0, 0);
    measure_reflector_ends();
    for (size_t k = 0; k < CALLS; k++) {
        const char *before = "; answers ";
        printf("%-36s %5zu bytes of stack, %5zu in the header", rows[k].name, rows[k].used, rows[k].said);
        for (unsigned number = 0; number < 256; number++) {
            if (rows[k].met[number]) {
                printf("%s%u", before, number);
                before = " ";
            }
        }
        printf("\n");
        if (rows[k].used > rows[k].said) {
            status = EXIT_FAILURE;
        }
        if (rows[k].kinds != rows[k].kinds_due) {
            fprintf(
                stderr, "stack: %s: its answers said %llx, and must say %llx\n", rows[k].name,
                (unsigned long long)rows[k].kinds, (unsigned long long)rows[k].kinds_due);
            status = EXIT_FAILURE;
        }
    }
    return status;
}
