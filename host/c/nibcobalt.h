/* The registry and the router of a box-office counter, as three functions over memory of the host.
 *
 * A host owns one nibcobalt_counter for each counter that it runs, a message in which it hands in calls as numbers,
 * and a buffer in which they are answered. docs/HOSTING.md has the numbers of every call and of every answer. Link
 * with libnibcobalt.a, which host/library writes; host/install copies both to a prefix.
 *
 * What a host must hold to:
 * - The memory of a counter is zeroed before its first start, and only the functions write to it. Flags in it are 0
 *   or 1.
 * - One thread at a time works on a counter, a message and a buffer. The functions keep nothing of their own, so two
 *   threads may work on two counters.
 * - A counter, a message and a buffer do not overlap.
 * - The thread has the stack that the function needs, NIBCOBALT_STACK_... below. Where it is missing, the system ends
 *   the program.
 */
#ifndef NIBCOBALT_H
#define NIBCOBALT_H

#include <stddef.h>
#include <stdint.h>

#ifdef __cplusplus
extern "C" {
#endif

/* The number of this interface. It rises by 1 with every change after which a program that was compiled with an older
 * header would not work on with the library: a function's arguments, the size or the fields of a struct, a number
 * below, the order or the meaning of the numbers of a call or of an answer, a need of more stack. It stays where only
 * something is added: a function, a call, a kind or a refusal with a number that had none. Header and library are
 * installed together; a program that keeps messages or counters beyond its own run keeps this number with them. */
#define NIBCOBALT_ABI 2

/* NIBCOBALT_ACCEPTED, a refused start's number, NIBCOBALT_MALFORMED or NIBCOBALT_SHORT_BUFFER; and how many bytes of
 * the buffer are the answer. */
typedef struct {
    uint64_t number;
    size_t length;
} nibcobalt_status;

/* A window, a view or a panel: its slot, and the slot's generation when the handle was issued. */
typedef struct {
    uint32_t index;
    uint32_t generation;
} nibcobalt_handle;

/* The memory of a counter, 46,400 bytes. The two parts may be copied and exchanged between counters as wholes. Bytes
 * between their fields mean nothing, so two counters cannot be compared byte by byte. */
typedef struct {
    uint64_t registry[5188];
    uint64_t router[612];
} nibcobalt_counter;

/* What a counter is started with. The limits go up to 8 windows, 16 views, 64 panels, 16 panels of a view, 32 traces
 * and 128 open presses. The Rust starts at revision 0 and generation 1. */
typedef struct {
    nibcobalt_handle session; /* valid: generation not 0, index not 4,294,967,295 */
    uint64_t session_epoch;   /* not 0 */
    uint64_t max_windows;
    uint64_t max_views;
    uint64_t max_surfaces;
    uint64_t max_surfaces_per_view;
    uint64_t max_trace_entries;
    uint64_t first_revision;
    uint32_t first_generation; /* not 0 */
    uint64_t max_active_bindings;
} nibcobalt_start;

/* The hits beside an event that has a stack of hits; zeros behind the first `len`. More than 16 are refused 41. */
typedef struct {
    nibcobalt_handle items[16];
    uint64_t len;
} nibcobalt_hits;

/* A registration for system shortcuts: the scope's place in the declared order, the 16 bits of the priority. */
typedef struct {
    uint64_t class_mask;
    uint64_t scope;
    uint64_t priority;
} nibcobalt_registration;

/* The registrations beside call 17; zeros behind the first `len`. More than 64 are refused 3. */
typedef struct {
    uint64_t len;
    nibcobalt_registration items[64];
} nibcobalt_registrations;

/* The numbers of a call. */
#define NIBCOBALT_MESSAGE_NUMBERS 32
/* The bytes that a buffer for answers must have. Every answer fits: it is proved of the library. */
#define NIBCOBALT_ANSWER_BYTES 36864

/* The bytes of stack that each function needs, with all that it calls, but for functions of the C library. */
#define NIBCOBALT_STACK_START_COUNTER 717488
#define NIBCOBALT_STACK_CALL 1566992
#define NIBCOBALT_STACK_ROUTE 1321792

/* Any call: its number, its fields, zeros behind them; and the lists beside it. */
typedef struct {
    uint64_t call[NIBCOBALT_MESSAGE_NUMBERS];
    nibcobalt_hits hits;
    nibcobalt_registrations registrations;
} nibcobalt_message;

/* Call 23 (route) alone. */
typedef struct {
    uint64_t call[NIBCOBALT_MESSAGE_NUMBERS];
} nibcobalt_route_message;

/* Starts the registry and the router of a counter afresh. Answers 0, or the number of the first refusal: the
 * registry's 2, 1 or 41, then the router's 40 or 41. Nothing is written then. The start itself is left as it is. */
nibcobalt_status nibcobalt_start_counter(nibcobalt_counter *counter, nibcobalt_start *start);

/* Makes any call. Answers 0 and writes the answer, which has the refusal's number in it, into the `length` bytes at
 * `answer`; or NIBCOBALT_MALFORMED, or NIBCOBALT_SHORT_BUFFER. The message itself is left as it is. */
nibcobalt_status nibcobalt_call(nibcobalt_counter *counter, nibcobalt_message *message, uint8_t *answer, size_t length);

/* Makes call 23 (route), which hosts make most often. Answers as nibcobalt_call does. */
nibcobalt_status nibcobalt_route(nibcobalt_counter *counter, nibcobalt_route_message *message, uint8_t *answer,
                                 size_t length);

/* The number of an answer at a place, from 0: eight bytes, the low byte first. */
static inline uint64_t nibcobalt_number(const uint8_t *answer, size_t place)
{
    uint64_t number = 0;
    size_t i;
    for (i = 8; i > 0; i--) {
        number = (number << 8) | answer[8 * place + i - 1];
    }
    return number;
}

/* The numbers below are named as in the two Rust files: the type, then the case. */

/* The first number of an answer, and the number of a refused start: 0 accepted; 1 to 22 the cases of
 * CompositionError; 31 to 40 those of PlatformInputError; 41 and 42 of the port, in both. 15 and 16 are never
 * answered. */
enum nibcobalt_refusal {
    NIBCOBALT_ACCEPTED = 0,
    NIBCOBALT_COMPOSITION_ERROR_INVALID_CONFIG = 1,
    NIBCOBALT_COMPOSITION_ERROR_INVALID_OWNER = 2,
    NIBCOBALT_COMPOSITION_ERROR_CAPACITY = 3,
    NIBCOBALT_COMPOSITION_ERROR_PER_VIEW_CAPACITY = 4,
    NIBCOBALT_COMPOSITION_ERROR_INVALID_WINDOW = 5,
    NIBCOBALT_COMPOSITION_ERROR_STALE_WINDOW = 6,
    NIBCOBALT_COMPOSITION_ERROR_WINDOW_IN_USE = 7,
    NIBCOBALT_COMPOSITION_ERROR_INVALID_VIEW = 8,
    NIBCOBALT_COMPOSITION_ERROR_STALE_VIEW = 9,
    NIBCOBALT_COMPOSITION_ERROR_VIEW_IN_USE = 10,
    NIBCOBALT_COMPOSITION_ERROR_INVALID_SURFACE = 11,
    NIBCOBALT_COMPOSITION_ERROR_STALE_SURFACE = 12,
    NIBCOBALT_COMPOSITION_ERROR_INVALID_GEOMETRY = 13,
    NIBCOBALT_COMPOSITION_ERROR_INVALID_METRICS = 14,
    NIBCOBALT_COMPOSITION_ERROR_INVALID_SURFACE_STATE = 15,
    NIBCOBALT_COMPOSITION_ERROR_STALE_SURFACE_GENERATION = 16,
    NIBCOBALT_COMPOSITION_ERROR_WRONG_VIEW = 17,
    NIBCOBALT_COMPOSITION_ERROR_NOT_INTERACTIVE = 18,
    NIBCOBALT_COMPOSITION_ERROR_TEXT_UNSUPPORTED = 19,
    NIBCOBALT_COMPOSITION_ERROR_REVISION_CONFLICT = 20,
    NIBCOBALT_COMPOSITION_ERROR_REVISION_EXHAUSTED = 21,
    NIBCOBALT_COMPOSITION_ERROR_GENERATION_EXHAUSTED = 22,
    NIBCOBALT_PLATFORM_INPUT_ERROR_INVALID_DEVICE = 31,
    NIBCOBALT_PLATFORM_INPUT_ERROR_INVALID_SEQUENCE = 32,
    NIBCOBALT_PLATFORM_INPUT_ERROR_INVALID_TIMESTAMP = 33,
    NIBCOBALT_PLATFORM_INPUT_ERROR_INVALID_POINTER = 34,
    NIBCOBALT_PLATFORM_INPUT_ERROR_INVALID_PRESSURE = 35,
    NIBCOBALT_PLATFORM_INPUT_ERROR_INVALID_TILT = 36,
    NIBCOBALT_PLATFORM_INPUT_ERROR_INVALID_TEXT_SELECTION = 37,
    NIBCOBALT_PLATFORM_INPUT_ERROR_INVALID_SHORTCUT = 38,
    NIBCOBALT_PLATFORM_INPUT_ERROR_INVALID_WINDOW = 39,
    NIBCOBALT_PLATFORM_INPUT_ERROR_CAPACITY = 40,
    NIBCOBALT_ERROR_PORT_LIMIT = 41,
    NIBCOBALT_ERROR_DAMAGED = 42
};

/* Statuses beside 0 and the numbers of a refused start: a message whose numbers are malformed, and a buffer with less
 * than NIBCOBALT_ANSWER_BYTES. Nothing is changed then. */
enum nibcobalt_refused_message {
    NIBCOBALT_MALFORMED = 1000,
    NIBCOBALT_SHORT_BUFFER = 1001
};

/* Calls: the first number of a message. */
enum nibcobalt_call_kind {
    NIBCOBALT_CALL_CREATE_WINDOW = 0,
    NIBCOBALT_CALL_CLOSE_WINDOW = 1,
    NIBCOBALT_CALL_CREATE_VIEW = 2,
    NIBCOBALT_CALL_UPDATE_VIEW_METRICS = 3,
    NIBCOBALT_CALL_CLOSE_VIEW = 4,
    NIBCOBALT_CALL_ATTACH_SURFACE = 5,
    NIBCOBALT_CALL_UPDATE_SURFACE_GEOMETRY = 6,
    NIBCOBALT_CALL_UPDATE_SURFACE_INPUT_POLICY = 7,
    NIBCOBALT_CALL_SET_FOCUS = 8,
    NIBCOBALT_CALL_CAPTURE_POINTER = 9,
    NIBCOBALT_CALL_CAPTURE_POINTER_FOR = 10,
    NIBCOBALT_CALL_RELEASE_POINTER = 11,
    NIBCOBALT_CALL_RELEASE_POINTER_FOR = 12,
    NIBCOBALT_CALL_BEGIN_IME = 13,
    NIBCOBALT_CALL_END_IME = 14,
    NIBCOBALT_CALL_SUSPEND_VIEW_INPUT = 15,
    NIBCOBALT_CALL_RELEASE_DEVICE_POINTER_CAPTURES = 16,
    NIBCOBALT_CALL_REGISTER_SURFACE_SYSTEM_SHORTCUT_SET = 17,
    NIBCOBALT_CALL_REGISTER_SURFACE_SYSTEM_SHORTCUTS = 18,
    NIBCOBALT_CALL_SET_SURFACE_SYSTEM_SHORTCUTS = 19,
    NIBCOBALT_CALL_ARBITRATE = 20,
    NIBCOBALT_CALL_CLOSE_SURFACE = 21,
    NIBCOBALT_CALL_SHUTDOWN = 22,
    NIBCOBALT_CALL_ROUTE = 23,
    NIBCOBALT_CALL_RELEASE_SURFACE = 24,
    NIBCOBALT_CALL_RELEASE_ALL = 25,
    NIBCOBALT_CALL_VIEW_WINDOW = 26,
    NIBCOBALT_CALL_VIEW_METRICS = 27,
    NIBCOBALT_CALL_VIEW_INPUT_STATE = 28,
    NIBCOBALT_CALL_VIEW_POINTER_CAPTURES = 29,
    NIBCOBALT_CALL_SURFACE_DESCRIPTOR = 30,
    NIBCOBALT_CALL_VIEW_LAYERS = 31,
    NIBCOBALT_CALL_TRACES = 32,
    NIBCOBALT_CALL_COUNTS = 33,
    NIBCOBALT_CALL_ACTIVE_BINDING_COUNT = 34,
    NIBCOBALT_CALL_HIT_TEST_STACK = 35,
    NIBCOBALT_CALL_INVERSE_POINT = 36
};

/* SurfaceKind. */
enum nibcobalt_surface_kind {
    NIBCOBALT_SURFACE_KIND_GAME = 0,
    NIBCOBALT_SURFACE_KIND_UI = 1,
    NIBCOBALT_SURFACE_KIND_DIAGNOSTICS = 2
};

/* SurfaceInputPolicy. */
enum nibcobalt_policy {
    NIBCOBALT_POLICY_OBSERVE = 0,
    NIBCOBALT_POLICY_PASSTHROUGH = 1,
    NIBCOBALT_POLICY_INTERACTIVE = 2,
    NIBCOBALT_POLICY_EXCLUSIVE = 3
};

/* ShortcutScope. */
enum nibcobalt_scope {
    NIBCOBALT_SCOPE_VIEW = 0,
    NIBCOBALT_SCOPE_WINDOW = 1,
    NIBCOBALT_SCOPE_SESSION = 2
};

/* ViewVisibility. */
enum nibcobalt_visibility {
    NIBCOBALT_VISIBILITY_VISIBLE = 0,
    NIBCOBALT_VISIBILITY_HIDDEN = 1,
    NIBCOBALT_VISIBILITY_SUSPENDED = 2
};

/* ArbitrationEvent: the kind of an event in a call to arbitrate, and in a trace. */
enum nibcobalt_event {
    NIBCOBALT_EVENT_POINTER = 0,
    NIBCOBALT_EVENT_POINTER_STACK = 1,
    NIBCOBALT_EVENT_POINTER_FOR = 2,
    NIBCOBALT_EVENT_POINTER_STACK_FOR = 3,
    NIBCOBALT_EVENT_KEYBOARD = 4,
    NIBCOBALT_EVENT_KEYBOARD_FOR = 5,
    NIBCOBALT_EVENT_GAMEPAD = 6,
    NIBCOBALT_EVENT_GAMEPAD_FOR = 7,
    NIBCOBALT_EVENT_TEXT = 8,
    NIBCOBALT_EVENT_SHORTCUT = 9,
    NIBCOBALT_EVENT_SYSTEM_SHORTCUT = 10
};

/* InputDeviceKind. */
enum nibcobalt_device_kind {
    NIBCOBALT_DEVICE_KIND_MOUSE = 0,
    NIBCOBALT_DEVICE_KIND_TOUCH = 1,
    NIBCOBALT_DEVICE_KIND_PEN = 2,
    NIBCOBALT_DEVICE_KIND_KEYBOARD = 3,
    NIBCOBALT_DEVICE_KIND_GAMEPAD = 4
};

/* PlatformInputPayload: the kind of a payload in a call to route. */
enum nibcobalt_payload {
    NIBCOBALT_PAYLOAD_POINTER = 0,
    NIBCOBALT_PAYLOAD_WHEEL = 1,
    NIBCOBALT_PAYLOAD_KEY = 2,
    NIBCOBALT_PAYLOAD_SHORTCUT = 3,
    NIBCOBALT_PAYLOAD_TEXT = 4,
    NIBCOBALT_PAYLOAD_COMPOSITION = 5,
    NIBCOBALT_PAYLOAD_GAMEPAD_SNAPSHOT = 6,
    NIBCOBALT_PAYLOAD_FOCUS_CHANGED = 7,
    NIBCOBALT_PAYLOAD_VISIBILITY_CHANGED = 8,
    NIBCOBALT_PAYLOAD_DEVICE_DISCONNECTED = 9
};

/* PointerPhase. */
enum nibcobalt_pointer_phase {
    NIBCOBALT_POINTER_PHASE_DOWN = 0,
    NIBCOBALT_POINTER_PHASE_MOVE = 1,
    NIBCOBALT_POINTER_PHASE_UP = 2,
    NIBCOBALT_POINTER_PHASE_CANCEL = 3
};

/* KeyPhase. */
enum nibcobalt_key_phase {
    NIBCOBALT_KEY_PHASE_DOWN = 0,
    NIBCOBALT_KEY_PHASE_UP = 1
};

/* CompositionPhase, of text. */
enum nibcobalt_composition_phase {
    NIBCOBALT_COMPOSITION_PHASE_START = 0,
    NIBCOBALT_COMPOSITION_PHASE_UPDATE = 1,
    NIBCOBALT_COMPOSITION_PHASE_END = 2,
    NIBCOBALT_COMPOSITION_PHASE_CANCEL = 3
};

/* WheelUnit. */
enum nibcobalt_wheel_unit {
    NIBCOBALT_WHEEL_UNIT_PIXEL = 0,
    NIBCOBALT_WHEEL_UNIT_LINE = 1,
    NIBCOBALT_WHEEL_UNIT_PAGE = 2
};

/* GamepadMapping. */
enum nibcobalt_gamepad_mapping {
    NIBCOBALT_GAMEPAD_MAPPING_STANDARD = 0,
    NIBCOBALT_GAMEPAD_MAPPING_RAW = 1
};

/* SynthesizedInputRelease: the first of the six numbers of a release. */
enum nibcobalt_release {
    NIBCOBALT_RELEASE_POINTER_CANCEL = 0,
    NIBCOBALT_RELEASE_KEY_UP = 1,
    NIBCOBALT_RELEASE_GAMEPAD_DISCONNECTED = 2
};

/* SurfaceRelease: what a closed panel held. */
enum nibcobalt_surface_release {
    NIBCOBALT_SURFACE_RELEASE_FOCUS = 0,
    NIBCOBALT_SURFACE_RELEASE_POINTER_CAPTURE = 1,
    NIBCOBALT_SURFACE_RELEASE_IME_COMPOSITION = 2
};

/* What came of a routed event, in its answer: a device is gone, the event was arbitrated, or its view lost focus or
 * sight. */
enum nibcobalt_routed {
    NIBCOBALT_ROUTED_DISCONNECTED = 0,
    NIBCOBALT_ROUTED_ARBITRATED = 1,
    NIBCOBALT_ROUTED_VIEW_RELEASED = 2
};

/* Places of numbers, from 0: of the payload's kind in a call to route; of the first numbers of every answer.
 * Then how many numbers an entry of the lists of an answer has. */
enum nibcobalt_place {
    NIBCOBALT_AT_PAYLOAD = 17,
    NIBCOBALT_AT_ANSWER = 0,
    NIBCOBALT_AT_REVISION = 1,
    NIBCOBALT_AT_CONSUMER = 2,
    NIBCOBALT_AT_DELIVERIES = 5,
    NIBCOBALT_NUMBERS_OF_DELIVERY = 3,
    NIBCOBALT_NUMBERS_OF_RELEASE = 6,
    NIBCOBALT_NUMBERS_OF_CAPTURE = 5
};

/* The layout that the library was built with. A line that fails declares an array of a negative size. */
#define NIBCOBALT_HOLDS(name, claim) typedef char nibcobalt_holds_##name[(claim) ? 1 : -1]
NIBCOBALT_HOLDS(status, sizeof(nibcobalt_status) == 16);
NIBCOBALT_HOLDS(handle, sizeof(nibcobalt_handle) == 8);
NIBCOBALT_HOLDS(counter, sizeof(nibcobalt_counter) == 46400);
NIBCOBALT_HOLDS(router, offsetof(nibcobalt_counter, router) == 41504);
NIBCOBALT_HOLDS(start, sizeof(nibcobalt_start) == 80);
NIBCOBALT_HOLDS(start_generation, offsetof(nibcobalt_start, first_generation) == 64);
NIBCOBALT_HOLDS(start_bindings, offsetof(nibcobalt_start, max_active_bindings) == 72);
NIBCOBALT_HOLDS(message, sizeof(nibcobalt_message) == 1936);
NIBCOBALT_HOLDS(message_hits, offsetof(nibcobalt_message, hits) == 256);
NIBCOBALT_HOLDS(message_hits_len, offsetof(nibcobalt_hits, len) == 128);
NIBCOBALT_HOLDS(message_registrations, offsetof(nibcobalt_message, registrations) == 392);
NIBCOBALT_HOLDS(route_message, sizeof(nibcobalt_route_message) == 256);

#ifdef __cplusplus
}
#endif

#endif
