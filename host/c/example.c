/* A short session: a finger goes down on a panel, and its device is unplugged. The press is cancelled, once, with its
 * panel. */
#include <inttypes.h>
#include <stdio.h>
#include <string.h>

#include "nibcobalt.h"

/* Zeroed, as a first start asks. */
static nibcobalt_counter counter;
static nibcobalt_message message;
static nibcobalt_route_message routed;
static uint8_t answer[NIBCOBALT_ANSWER_BYTES];

static const nibcobalt_start START = {
    .session = {.index = 0, .generation = 1},
    .session_epoch = 1,
    .max_windows = 8,
    .max_views = 16,
    .max_surfaces = 64,
    .max_surfaces_per_view = 16,
    .max_trace_entries = 32,
    .first_revision = 0,
    .first_generation = 1,
    .max_active_bindings = 128,
};

/* The number of the answer at a place. */
static uint64_t at(size_t place)
{
    return nibcobalt_number(answer, place);
}

/* Makes a call without lists, and tells its answer. */
static void make(const char *name, const uint64_t *numbers, size_t count)
{
    nibcobalt_status status;
    memset(message.call, 0, sizeof message.call);
    memcpy(message.call, numbers, count * sizeof *numbers);
    status = nibcobalt_call(&counter, &message, answer, sizeof answer);
    switch (status.number) {
    case NIBCOBALT_ACCEPTED:
        printf("%s: answer %" PRIu64 ", revision %" PRIu64 "\n", name, at(NIBCOBALT_AT_ANSWER),
               at(NIBCOBALT_AT_REVISION));
        break;
    case NIBCOBALT_MALFORMED:
        printf("%s: malformed (%" PRIu64 ")\n", name, status.number);
        break;
    default:
        printf("%s: status %" PRIu64 "\n", name, status.number);
    }
}

#define MAKE(name, ...) make(name, (const uint64_t[]){__VA_ARGS__}, sizeof((const uint64_t[]){__VA_ARGS__}) / 8)

/* Lists the presses that a routed event has ended. The releases stand behind the deliveries. */
static void tell_releases(void)
{
    size_t place = NIBCOBALT_AT_DELIVERIES;
    uint64_t count;
    place += 1 + NIBCOBALT_NUMBERS_OF_DELIVERY * (size_t)at(place);
    for (count = at(place++); count > 0; count--) {
        /* The kind, the device and its generation, the contact, the panel's index and generation. */
        if (at(place) == NIBCOBALT_RELEASE_POINTER_CANCEL) {
            printf("  cancelled: device %" PRIu64 ".%" PRIu64 ", contact %" PRIu64 ", panel %" PRIu64 ".%" PRIu64 "\n",
                   at(place + 1), at(place + 2), at(place + 3), at(place + 4), at(place + 5));
        }
        place += NIBCOBALT_NUMBERS_OF_RELEASE;
    }
}

/* Routes an event of the touch screen 7.1 in window 0.1 and view 0.1, without modifiers. */
static void route(const char *name, uint64_t sequence, uint64_t time, const uint64_t *payload, size_t count)
{
    const uint64_t header[NIBCOBALT_AT_PAYLOAD] = {
        NIBCOBALT_CALL_ROUTE, sequence, time, 1, 0, 1, 0, 1, 7, 1, NIBCOBALT_DEVICE_KIND_TOUCH};
    nibcobalt_status status;
    memset(routed.call, 0, sizeof routed.call);
    memcpy(routed.call, header, sizeof header);
    memcpy(routed.call + NIBCOBALT_AT_PAYLOAD, payload, count * sizeof *payload);
    status = nibcobalt_route(&counter, &routed, answer, sizeof answer);
    if (status.number != NIBCOBALT_ACCEPTED) {
        printf("%s: status %" PRIu64 "\n", name, status.number);
        return;
    }
    printf("%s: answer %" PRIu64 ", revision %" PRIu64, name, at(NIBCOBALT_AT_ANSWER), at(NIBCOBALT_AT_REVISION));
    if (at(NIBCOBALT_AT_CONSUMER) == 1) {
        printf(", taken by %" PRIu64 ".%" PRIu64, at(NIBCOBALT_AT_CONSUMER + 1), at(NIBCOBALT_AT_CONSUMER + 2));
    }
    printf("\n");
    tell_releases();
}

/* Contact 0 goes down at 5, 5; no button has changed. */
static const uint64_t DOWN[] = {
    NIBCOBALT_PAYLOAD_POINTER, 0, NIBCOBALT_POINTER_PHASE_DOWN, 5, 5, 0, 0, 0, 0, 0, 0, 0, 0};
static const uint64_t UNPLUGGED[] = {NIBCOBALT_PAYLOAD_DEVICE_DISCONNECTED};

#define ROUTE(name, sequence, time, payload) route(name, sequence, time, payload, sizeof payload / sizeof *payload)

int main(void)
{
    nibcobalt_start start = START;
    start.max_windows = 9;
    printf("start with 9 windows: %" PRIu64 "\n", nibcobalt_start_counter(&counter, &start).number);
    start = START;
    printf("start: %" PRIu64 "\n", nibcobalt_start_counter(&counter, &start).number);

    MAKE("create window", NIBCOBALT_CALL_CREATE_WINDOW);
    MAKE("create view", NIBCOBALT_CALL_CREATE_VIEW, 0, 1);
    /* A panel that fills its view: no bounds, no clip, the identity matrix, opaque, open to hit tests. */
    MAKE("attach panel", NIBCOBALT_CALL_ATTACH_SURFACE, 0, 1, NIBCOBALT_SURFACE_KIND_UI, 0,
         NIBCOBALT_POLICY_INTERACTIVE, 0, 0, 0, 0, 0, 0, 0, 0, 0, 0, 0, 65536, 0, 0, 65536, 0, 0, 65535, 1);

    ROUTE("down", 1, 10, DOWN);
    ROUTE("the same again", 1, 10, DOWN);
    ROUTE("unplugged", 2, 11, UNPLUGGED);

    MAKE("close a window in use", NIBCOBALT_CALL_CLOSE_WINDOW, 0, 1);
    MAKE("close a view that never was", NIBCOBALT_CALL_CLOSE_VIEW, 3, 1);
    MAKE("a call that is none", NIBCOBALT_CALL_INVERSE_POINT + 1);
    printf("a short buffer: status %" PRIu64 "\n", nibcobalt_route(&counter, &routed, answer, 100).number);
    return 0;
}
