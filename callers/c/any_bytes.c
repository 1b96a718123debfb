/* Arbitrary bytes everywhere: a request is accepted exactly where it is due, no byte is written beyond the rows and the
 * buffer that were lent, and no row is changed by a refusal. */
#include <stdio.h>
#include <string.h>

#include "diminurel.h"

_Static_assert(sizeof(diminurel_slot) == 73, "a slot row has 73 bytes");
_Static_assert(sizeof(diminurel_register) == 257, "a register row has 257 bytes");
_Static_assert(sizeof(diminurel_supplement) == 920, "a supplement has 920 bytes");
_Static_assert(sizeof(diminurel_reply) == 16, "a reply has 16 bytes");

enum { TURNS = 20000, SLOTS = 10, REGISTERS = 34, BYTES = 1100 };

/* A call: what is lent and handed in, of which the first so many rows and bytes are told of. */
typedef struct {
    diminurel_slot slots[SLOTS];
    diminurel_register registers[REGISTERS];
    uint8_t request[BYTES], response[BYTES];
    size_t slot_count, register_count, request_length, room;
    diminurel_supplement supplement;
    int due; /* it must be accepted */
} call;

static uint32_t seed = 1;

static uint32_t below(uint32_t bound) {
    seed = seed * 1664525u + 1013904223u;
    return (seed >> 8) % bound;
}

static void fill(void *space, size_t length) {
    for (size_t i = 0; i < length; i++)
        ((uint8_t *)space)[i] = (uint8_t)below(256);
}

static void good_supplement(diminurel_supplement *x) {
    static const char identity[] = "SMID.1:Prism:12345678:20130303T153830Z:E7C42215AF1FE951:9C7D";
    memset(x, 0, sizeof *x);
    memcpy(x->clock, "20260101T000000Z", sizeof x->clock);
    x->identity_length = sizeof identity - 1;
    memcpy(x->identity, identity, x->identity_length);
    x->request_length = 1;
    x->request[0] = 'V';
    memset(x->tag, '0', sizeof x->tag);
    memset(x->check, '0', sizeof x->check);
    x->passed = 1;
}

/* A request that free rows accept. */
static void good_request(call *c) {
    static const char *const requests[] = {
        "GL?RSCEEF\r", "SM?GL6991\r",
        "SM?KCPPK.ECDH.1|KMCID.1:SW1:A:20200101T000000Z:AAAAAAAAAAAAAAAA:9BE0|04|20300101T000000Z|||BE23~9E67\r"};
    const char *request = requests[below(3)];
    c->request_length = strlen(request);
    memcpy(c->request, request, c->request_length);
}

/* The supplement is good in every second turn, the request and its buffer in every fourth, the rows are free in two
 * turns of three. */
static void make(call *c, int turn) {
    int framed = turn % 4 == 0, is_free = turn % 3 != 0;
    fill(c, sizeof *c);
    c->slot_count = below(SLOTS);
    c->register_count = below(REGISTERS);
    c->request_length = below(BYTES);
    c->room = framed ? 1024 + below(BYTES - 1024) : below(BYTES);
    if (turn % 2 == 0)
        good_supplement(&c->supplement);
    if (framed)
        good_request(c);
    if (is_free) {
        memset(c->slots, 0, sizeof c->slots);
        memset(c->registers, 0, sizeof c->registers);
    }
    c->due = framed && is_free && c->slot_count >= 1 && c->slot_count <= 8 && c->register_count >= 1 &&
             c->register_count <= 32;
}

/* Whether a byte differs from the given place on. */
static int differs(const void *a, const void *b, size_t from, size_t length) {
    return memcmp((const uint8_t *)a + from, (const uint8_t *)b + from, length - from) != 0;
}

static int is_right(const call *c, const call *before, diminurel_reply r) {
    if ((r.outcome == 0) != c->due || r.outcome > 21 || r.length > c->room)
        return 0;
    if (r.length > 0 && c->response[r.length - 1] != '\r')
        return 0;
    size_t slots = r.outcome == 0 ? c->slot_count * sizeof *c->slots : 0;
    size_t registers = r.outcome == 0 ? c->register_count * sizeof *c->registers : 0;
    return !differs(c->response, before->response, r.length, BYTES) &&
           !differs(c->slots, before->slots, slots, sizeof c->slots) &&
           !differs(c->registers, before->registers, registers, sizeof c->registers);
}

/* The version as text is that of its numbers. */
static int has_version(void) {
    char numbers[32];
    snprintf(numbers, sizeof numbers, "%d.%d.%d", DIMINUREL_VERSION_MAJOR, DIMINUREL_VERSION_MINOR,
             DIMINUREL_VERSION_PATCH);
    return strcmp(numbers, DIMINUREL_VERSION) == 0;
}

int main(void) {
    static call c, before;
    int accepted = 0;
    for (int turn = 0; turn < TURNS; turn++) {
        make(&c, turn);
        before = c;
        diminurel_reply r = diminurel_handle(c.slots, c.slot_count, c.registers, c.register_count, c.supplement,
                                             c.request, c.request_length, c.response, c.room);
        if (!is_right(&c, &before, r) ||
            diminurel_usable(c.slots, c.slot_count, c.registers, c.register_count, below(40)) > 1) {
            printf("turn %d: outcome %d, state %d, length %zu\n", turn, r.outcome, r.state, r.length);
            return 1;
        }
        accepted += r.outcome == 0;
    }
    printf("diminurel %s: %d calls of arbitrary bytes, %d accepted\n", DIMINUREL_VERSION, TURNS, accepted);
    return has_version() && accepted > 0 ? 0 : 1;
}
