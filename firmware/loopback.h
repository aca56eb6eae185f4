/* A wire in memory, the probe at one end and reflectors at the others. */
#ifndef LOOPBACK_H
#define LOOPBACK_H

#include "testkit.h"

/* A GTP-U message on the wire, parsed. In firmware this is a UDP datagram, and what your GTP-U parser makes of it. */
struct datagram {
    struct testkit_socket_addr source;
    struct testkit_socket_addr destination;
    struct testkit_gtpu_message message;
    uint8_t payload[128];
    size_t payload_length;
    uint64_t time; /* when it arrives */
};

/* The one clock, in nanoseconds. While somebody waits, the others work. */
uint64_t wire_now(void);
void wire_wait_until(uint64_t time);

/* Puts a message on the wire. */
void wire_send(
    struct testkit_socket_addr source, struct testkit_socket_addr destination, struct testkit_gtpu_message message,
    const uint8_t *payload, size_t payload_length);

/* The next message that has arrived at an address. False where there is none. */
bool wire_receive(struct testkit_socket_addr destination, struct datagram *datagram);

/* ---- probe.c ---- */

struct probe {
    struct testkit_sheet sheet;
    uint64_t *next_sequence; /* outlives runs */
    uint8_t *packets;        /* the plan's, end to end: as many bytes as were forecast */
    uint8_t *near_end;       /* the addresses that its T-PDUs carry */
    uint8_t *far_end;
    struct testkit_socket_addr self;
    struct testkit_socket_addr peer;
    uint32_t teid; /* of the session at the peer */
    uint64_t started;
    unsigned refused[256]; /* by number, for the log */
    unsigned ignored;
    unsigned echo_responses;
};

/* A list of returns: what has come back, end to end, before it is entered in one call. */
enum { LIST_ROWS = 64, LIST_BYTES = LIST_ROWS * TESTKIT_IPV6_TPDU_BYTES };

void probe_open(struct probe *probe, struct testkit_socket_addr self, struct testkit_socket_addr peer, uint32_t teid);
void probe_start(struct probe *probe);
void probe_send_plan(struct probe *probe, uint8_t version, uint64_t packets, uint64_t rate);
void probe_receive(struct probe *probe);
void probe_receive_list(struct probe *probe);
struct testkit_continuity_report probe_report(const struct probe *probe, struct testkit_budget budget);
uint8_t probe_judge(struct testkit_continuity_report report, struct testkit_budget budget);

/* ---- reflector.c ---- */

struct reflector {
    struct testkit_table table;
    uint8_t *out;
    struct testkit_socket_addr self;
    unsigned sent[8];    /* by send_reason */
    unsigned nothing[8]; /* by noop_reason */
    unsigned refused[256];
};

void reflector_open(struct reflector *reflector, struct testkit_socket_addr self, size_t sessions, uint8_t policy);
uint8_t reflector_add(
    struct reflector *reflector, uint32_t local_teid, uint32_t peer_teid, struct testkit_socket_addr peer);
bool reflector_drop(struct reflector *reflector, uint32_t local_teid);
void reflector_serve(struct reflector *reflector);
void reflector_log(const struct reflector *reflector, const char *name);

#endif
