/* Diminurel: the key-management core of a prepayment vending module, STS 600-8-6 edition 1.6.
 *
 * Target: x86-64 Linux (System V ABI, baseline instructions, none that divides). C99 or later, C++11 or later.
 * Stack:  about 31 KiB a call. Code: about 49 KiB, and 2.2 KiB of constants. docs/PERFORMANCE.md has the figures.
 * Linked: memcpy and memset, nothing else. No heap, no globals, no input or output; both functions are reentrant.
 *
 * They answer every input: rows, supplement, request and buffer may hold any bytes, and slices may have any length, 0
 * included. What the host owes:
 * - each pointer is valid for its length (of rows or bytes), is not null, and no two of them overlap;
 * - the rows are kept whole, all or nothing, over a power cut: the host stores them only after the call has returned;
 * - after power-up the host hands in GL?RS before anything else, since a session must not outlive the power;
 * - in rows that a version before 0.4.0 stored a register has 256 bytes, and no mark: the host puts a zero mark behind
 *   each card, then hands in GL?RS, which ends the sessions, so that every key is closed under an IDLE slot;
 * - the supplement of each request is its own: clock, load request, expected tag, check value, and whether the
 *   cryptographic check of that request passed.
 *
 * The expected tag is the one secret: it is compared in a time that does not tell where it differs. Other times depend
 * on what is in request, rows and supplement.
 */
#ifndef DIMINUREL_H
#define DIMINUREL_H

#include <stddef.h>
#include <stdint.h>

#ifdef __cplusplus
extern "C" {
#endif

/* The version of this header and of the library that goes with it (CHANGELOG.md). */
#define DIMINUREL_VERSION_MAJOR 0
#define DIMINUREL_VERSION_MINOR 4
#define DIMINUREL_VERSION_PATCH 1
#define DIMINUREL_VERSION "0.4.1"

/* Rows of each kind: 1 to these, else refusal 1. */
#define DIMINUREL_SLOTS_MAX 8
#define DIMINUREL_REGISTERS_MAX 32

/* Bytes of a request, its carriage return included (else refusal 5), and of the response buffer (else refusal 2). */
#define DIMINUREL_REQUEST_MIN 10
#define DIMINUREL_REQUEST_MAX 1024
#define DIMINUREL_RESPONSE_MIN 1024

/* Bytes of the parts of rows and supplement. */
#define DIMINUREL_KMCID_MAX 40
#define DIMINUREL_FINGERPRINT_LENGTH 16
#define DIMINUREL_TIMESTAMP_LENGTH 16
#define DIMINUREL_CARD_MAX 256
#define DIMINUREL_IDENTITY_MAX 128
#define DIMINUREL_LOAD_REQUEST_MAX 700
#define DIMINUREL_TAG_LENGTH 48
#define DIMINUREL_CHECK_LENGTH 6

/* The state of a slot; in a reply also none, since only an accepted session command has one. SM?KQ prints IDLE as
 * ACTIVE. */
enum diminurel_state {
    DIMINUREL_STATE_FREE = 0,
    DIMINUREL_STATE_PENDING = 1,
    DIMINUREL_STATE_LOADING = 2,
    DIMINUREL_STATE_IDLE = 3,
    DIMINUREL_STATE_NONE = 255
};

/* The mark of a key: SM?KL leaves it open, and SM?KF of its slot or GL?RS closes it. SM?KC leaves the marks as they
 * are, so that keys vend on while new ones are on request. */
enum diminurel_mark {
    DIMINUREL_MARK_CLOSED = 0,
    DIMINUREL_MARK_OPEN = 1
};

/* How a request ended. docs/REFUSALS.md says who gets each refusal, with which response, and what to do about it. */
enum diminurel_outcome {
    DIMINUREL_ACCEPTED = 0,
    DIMINUREL_REFUSED_ROW_COUNTS = 1,         /* no row of a kind, or too many */
    DIMINUREL_REFUSED_SHORT_BUFFER = 2,       /* a response buffer of less than 1,024 bytes */
    DIMINUREL_REFUSED_UNSOUND_ROWS = 3,       /* rows that the engine would not have left so */
    DIMINUREL_REFUSED_BAD_SUPPLEMENT = 4,     /* a supplement out of form */
    DIMINUREL_REFUSED_BAD_FRAME = 5,          /* a wrong length, or carriage return not just at the end */
    DIMINUREL_REFUSED_BAD_CHECKSUM = 6,
    DIMINUREL_REFUSED_UNKNOWN_HEADER = 7,     /* none of the ten commands */
    DIMINUREL_REFUSED_BAD_FIELDS = 8,         /* other fields than the command has */
    DIMINUREL_REFUSED_BAD_RECORD = 9,         /* a record of another type or number of fields, or its CRC is wrong */
    DIMINUREL_REFUSED_BAD_FORM = 10,          /* fields of the record, or its card, out of form */
    DIMINUREL_REFUSED_EXPIRED = 11,           /* the centre's public key has expired */
    DIMINUREL_REFUSED_UNKNOWN_SLOT = 12,
    DIMINUREL_REFUSED_NO_FREE_SLOT = 13,
    DIMINUREL_REFUSED_WRONG_STATE = 14,       /* the slot's state does not allow the command */
    DIMINUREL_REFUSED_OTHER_MODULE = 15,      /* a load response for another module */
    DIMINUREL_REFUSED_OTHER_FINGERPRINT = 16, /* made with another public key of the centre */
    DIMINUREL_REFUSED_OTHER_TVP = 17,         /* to another load request */
    DIMINUREL_REFUSED_OTHER_TAG = 18,         /* with another tag than expected */
    DIMINUREL_REFUSED_CHECK_FAILED = 19,      /* the cryptographic check has not passed */
    DIMINUREL_REFUSED_NO_FREE_REGISTER = 20,
    DIMINUREL_REFUSED_EMPTY_REGISTER = 21
};

/* A slot row. All zero is free. SM?GL lists the slots in ascending byte sequence of their kmcid, a shorter one before
 * its extensions, whichever rows they have. */
typedef struct {
    uint8_t state; /* of enum diminurel_state */
    uint8_t kmcid[DIMINUREL_KMCID_MAX]; /* zeros after it */
    uint8_t fingerprint[DIMINUREL_FINGERPRINT_LENGTH];
    uint8_t tvp[DIMINUREL_TIMESTAMP_LENGTH]; /* zeros unless PENDING */
} diminurel_slot;

/* A register row, 257 bytes. All zero is free. A stored card has fifteen entries, or sixteen with the supply group name
 * SGN, which is kept as it came: 0 to 24 bytes, and absent where it was absent. It takes at most 230 bytes. An open mark
 * is sound where the slot of the key, its KSL, is PENDING or LOADING. */
typedef struct {
    uint8_t card[DIMINUREL_CARD_MAX]; /* a stored card, zeros after it */
    uint8_t mark; /* of enum diminurel_mark; zero in a free row */
} diminurel_register;

/* What is handed in beside a request. Bytes past a length may hold anything. */
typedef struct {
    uint8_t clock[DIMINUREL_TIMESTAMP_LENGTH]; /* YYYYMMDDThhmmssZ */
    uint8_t identity[DIMINUREL_IDENTITY_MAX]; /* the module's own SMID.1 record */
    size_t identity_length;
    uint8_t request[DIMINUREL_LOAD_REQUEST_MAX]; /* a finished VKLOADREQ record */
    size_t request_length; /* 1 to 700 */
    uint8_t tag[DIMINUREL_TAG_LENGTH]; /* the expected tag, hexadecimal capitals */
    uint8_t check[DIMINUREL_CHECK_LENGTH]; /* the check value, hexadecimal capitals */
    uint8_t passed; /* the cryptographic check passed: 1 yes, 0 no */
} diminurel_supplement;

/* How a request ended. */
typedef struct {
    uint8_t outcome; /* of enum diminurel_outcome */
    uint8_t state; /* of enum diminurel_state: what an accepted session command leaves its slot in, else none */
    size_t length; /* of the response; 0 where nothing was written */
} diminurel_reply;

/* Handles a request: 1 to 8 slots, 1 to 32 registers (else refusal 1), a response buffer of at least 1,024 bytes (else
 * refusal 2). A refusal changes no row; bytes of the buffer beyond the response keep their value. */
diminurel_reply diminurel_handle(diminurel_slot *slots, size_t slot_count, diminurel_register *registers,
                                 size_t register_count, diminurel_supplement supplement, const uint8_t *request,
                                 size_t request_length, uint8_t *response, size_t response_length);

/* Whether the key in a register, counted from 1, may vend: 1 exactly when it is marked closed, whatever the state of its
 * slot, else 0; 0 for a register that is 0, beyond the rows or free, for unsound rows and for counts out of range. */
uint8_t diminurel_usable(const diminurel_slot *slots, size_t slot_count, const diminurel_register *registers,
                         size_t register_count, size_t reg);

#ifdef __cplusplus
}
#endif

/* The layout that the library is compiled for, where the language can assert it: from C11 and C++11 on. */
#if defined(__cplusplus)
#define DIMINUREL_HOLDS(fact) static_assert(fact, #fact)
#define DIMINUREL_SIZE(type, field) sizeof(type::field)
#elif defined(__STDC_VERSION__) && __STDC_VERSION__ >= 201112L
#define DIMINUREL_HOLDS(fact) _Static_assert(fact, #fact)
#define DIMINUREL_SIZE(type, field) sizeof(((type *)0)->field)
#endif

#ifdef DIMINUREL_HOLDS
#define DIMINUREL_FIELD(type, field, offset, size)      \
    DIMINUREL_HOLDS(offsetof(type, field) == (offset)); \
    DIMINUREL_HOLDS(DIMINUREL_SIZE(type, field) == (size))

DIMINUREL_HOLDS(sizeof(size_t) == 8);

DIMINUREL_HOLDS(sizeof(diminurel_slot) == 73);
DIMINUREL_FIELD(diminurel_slot, state, 0, 1);
DIMINUREL_FIELD(diminurel_slot, kmcid, 1, 40);
DIMINUREL_FIELD(diminurel_slot, fingerprint, 41, 16);
DIMINUREL_FIELD(diminurel_slot, tvp, 57, 16);

DIMINUREL_HOLDS(sizeof(diminurel_register) == 257);
DIMINUREL_FIELD(diminurel_register, card, 0, 256);
DIMINUREL_FIELD(diminurel_register, mark, 256, 1);

DIMINUREL_HOLDS(sizeof(diminurel_supplement) == 920);
DIMINUREL_FIELD(diminurel_supplement, clock, 0, 16);
DIMINUREL_FIELD(diminurel_supplement, identity, 16, 128);
DIMINUREL_FIELD(diminurel_supplement, identity_length, 144, 8);
DIMINUREL_FIELD(diminurel_supplement, request, 152, 700);
DIMINUREL_FIELD(diminurel_supplement, request_length, 856, 8);
DIMINUREL_FIELD(diminurel_supplement, tag, 864, 48);
DIMINUREL_FIELD(diminurel_supplement, check, 912, 6);
DIMINUREL_FIELD(diminurel_supplement, passed, 918, 1);

DIMINUREL_HOLDS(sizeof(diminurel_reply) == 16);
DIMINUREL_FIELD(diminurel_reply, outcome, 0, 1);
DIMINUREL_FIELD(diminurel_reply, state, 1, 1);
DIMINUREL_FIELD(diminurel_reply, length, 8, 8);

#undef DIMINUREL_FIELD
#undef DIMINUREL_SIZE
#undef DIMINUREL_HOLDS
#endif

#endif
