/*
 * The reflector, as firmware has it: sessions are registered, each parsed message is handled, and what the answer asks
 * for is done.
 */
#include "loopback.h"

#include "lend.h"

#include <inttypes.h>
#include <stdio.h>
#include <string.h>

/* A fresh reflector: an empty table, counts of 0, and the first Error Indication has sequence 1. */
void reflector_open(struct reflector *reflector, struct testkit_socket_addr self, size_t sessions, uint8_t policy)
{
    memset(reflector, 0, sizeof *reflector);
    reflector->table.sessions = (struct testkit_reflector_session *)lend(sessions * sizeof *reflector->table.sessions);
    reflector->table.capacity = sessions;
    reflector->table.config.max_sessions = sessions;
    reflector->table.config.recovery_counter = 3;
    reflector->table.config.policy = policy;
    reflector->table.state.next_error_sequence = 1;
    reflector->out = (uint8_t *)lend(TESTKIT_REFLECTOR_BYTES);
    reflector->self = self;
}

uint8_t reflector_add(
    struct reflector *reflector, uint32_t local_teid, uint32_t peer_teid, struct testkit_socket_addr peer)
{
    size_t used = reflector->table.used;
    struct testkit_reflector_session session;
    struct testkit_registered registered;
    memset(&session, 0, sizeof session);
    session.local_teid = local_teid;
    session.peer_teid = peer_teid;
    session.peer_addr = peer;
    registered = testkit_table_register_session(&reflector->table, session);
    expect("the used count", reflector->table.used, used + (registered.added ? 1 : 0));
    return registered.number;
}

bool reflector_drop(struct reflector *reflector, uint32_t local_teid)
{
    size_t used = reflector->table.used;
    struct testkit_removed removed = testkit_table_remove_session(&reflector->table, local_teid);
    expect("a removal's number", removed.number, TESTKIT_ACCEPTED);
    expect("the used count", reflector->table.used, used - (removed.removed ? 1 : 0));
    expect("the removed session", removed.session.local_teid, removed.removed ? local_teid : 0);
    return removed.removed;
}

/* The receive loop. */
void reflector_serve(struct reflector *reflector)
{
    struct datagram datagram;
    while (wire_receive(reflector->self, &datagram)) {
        const uint8_t *payload = lend_copy(datagram.payload, datagram.payload_length);
        struct testkit_handled handled = testkit_table_handle_datagram(
            &reflector->table, datagram.source, datagram.message, payload, datagram.payload_length, reflector->out,
            TESTKIT_REFLECTOR_BYTES);
        switch (handled.action) {
        case TESTKIT_ACTION_SEND:
            reflector->sent[handled.send_reason & 7]++;
            if (handled.send_reason == TESTKIT_SEND_ROUTED_GPDU) {
                /* on its way as it came: the payload is not copied */
                wire_send(reflector->self, handled.destination, handled.message, payload, datagram.payload_length);
            } else {
                wire_send(reflector->self, handled.destination, handled.message, reflector->out, handled.bytes);
            }
            break;
        case TESTKIT_ACTION_NOOP:
            reflector->nothing[handled.noop_reason & 7]++;
            break;
        default:
            expect("a refusal's action", handled.action, TESTKIT_ACTION_REFUSED);
            reflector->refused[handled.number]++;
        }
    }
}

void reflector_log(const struct reflector *reflector, const char *name)
{
    const struct testkit_reflector_state *state = &reflector->table.state;
    const struct testkit_reflector_stats *stats = &state->stats;
    printf("%s: sessions %zu\n", name, reflector->table.used);
    printf(
        "  G-PDUs received %" PRIu64 ", forwarded %" PRIu64 ", sunk %" PRIu64 "; Echo Requests answered %" PRIu64
        "; Error Indications %" PRIu64 ", next %u; malformed %" PRIu64 "\n",
        stats->gpdu_received, stats->gpdu_forwarded, stats->gpdu_sunk, stats->echo_requests_answered,
        stats->error_indications_sent, (unsigned)state->next_error_sequence, stats->malformed_rejected);
    printf(
        "  sent: reflected %u, routed %u, Echo Responses %u, Error Indications %u\n",
        reflector->sent[TESTKIT_SEND_REFLECTED_GPDU], reflector->sent[TESTKIT_SEND_ROUTED_GPDU],
        reflector->sent[TESTKIT_SEND_ECHO_RESPONSE], reflector->sent[TESTKIT_SEND_ERROR_INDICATION]);
    printf(
        "  nothing: sunk %u, Echo Responses %u, Error Indications %u, End Markers %u, notifications %u\n",
        reflector->nothing[TESTKIT_NOOP_GPDU_SUNK], reflector->nothing[TESTKIT_NOOP_ECHO_RESPONSE_OBSERVED],
        reflector->nothing[TESTKIT_NOOP_ERROR_INDICATION_OBSERVED], reflector->nothing[TESTKIT_NOOP_END_MARKER_IGNORED],
        reflector->nothing[TESTKIT_NOOP_SUPPORTED_EXTENSION_HEADERS_NOTIFICATION_IGNORED]);
    for (unsigned number = 0; number < 256; number++) {
        if (reflector->refused[number] != 0) {
            printf(
                "  refused %u by %u: %s\n", reflector->refused[number], number, testkit_number_text((uint8_t)number));
        }
    }
}
