/* A host in C, from power-up to a key that may vend, and on while a new one is on request. It keeps the rows in the file
 * `rows` of the folder that it is run in, and takes them from a file of an older version too. Clock, tag and check value,
 * which a host has from its clock and its cryptography, are constants here. */
#define _POSIX_C_SOURCE 200809L
#include <errno.h>
#include <fcntl.h>
#include <stdio.h>
#include <string.h>
#include <unistd.h>

#include "diminurel.h"

static struct {
    diminurel_slot slots[DIMINUREL_SLOTS_MAX];
    diminurel_register registers[DIMINUREL_REGISTERS_MAX];
} rows;

/* The rows of versions before 0.4.0: cards without marks. */
static struct {
    diminurel_slot slots[DIMINUREL_SLOTS_MAX];
    uint8_t cards[DIMINUREL_REGISTERS_MAX][DIMINUREL_CARD_MAX];
} older;

/* A zero mark stands behind each card; GL?RS, which comes next, ends what sessions there were. */
static void take_older(void) {
    memcpy(rows.slots, older.slots, sizeof rows.slots);
    for (int i = 0; i < DIMINUREL_REGISTERS_MAX; i++) {
        memcpy(rows.registers[i].card, older.cards[i], DIMINUREL_CARD_MAX);
        rows.registers[i].mark = DIMINUREL_MARK_CLOSED;
    }
}

/* Where no rows were kept yet, all are free. The length of the file tells its version. */
static int read_rows(void) {
    static uint8_t bytes[sizeof rows + 1];
    memset(&rows, 0, sizeof rows);
    FILE *file = fopen("rows", "rb");
    if (!file)
        return errno == ENOENT;
    size_t length = fread(bytes, 1, sizeof bytes, file);
    fclose(file);
    if (length == sizeof rows) {
        memcpy(&rows, bytes, sizeof rows);
    } else if (length == sizeof older) {
        memcpy(&older, bytes, sizeof older);
        take_older();
    } else {
        return 0;
    }
    return 1;
}

static int written(const char *name, const void *bytes, size_t length) {
    FILE *file = fopen(name, "wb");
    if (!file)
        return 0;
    int whole = fwrite(bytes, length, 1, file) == 1 && fflush(file) == 0 && fsync(fileno(file)) == 0;
    return fclose(file) == 0 && whole;
}

/* What an older version would have left: the same cards, without their marks. */
static int leave_older(void) {
    memcpy(older.slots, rows.slots, sizeof older.slots);
    for (int i = 0; i < DIMINUREL_REGISTERS_MAX; i++)
        memcpy(older.cards[i], rows.registers[i].card, DIMINUREL_CARD_MAX);
    return written("rows", &older, sizeof older);
}

/* All or nothing: until the new file is whole, and renamed, a power cut leaves the old one. */
static int keep_rows(void) {
    if (!written("rows.new", &rows, sizeof rows) || rename("rows.new", "rows") != 0)
        return 0;
    int folder = open(".", O_RDONLY);
    int kept = folder >= 0 && fsync(folder) == 0;
    return folder >= 0 && close(folder) == 0 && kept;
}

static diminurel_supplement supplement(void) {
    static const char identity[] = "SMID.1:Prism:12345678:20130303T153830Z:E7C42215AF1FE951:9C7D";
    static const char request[] = "VKLOAD.REQ.1";
    diminurel_supplement x = {.passed = 1};
    x.identity_length = sizeof identity - 1;
    x.request_length = sizeof request - 1;
    memcpy(x.clock, "20260105T090000Z", sizeof x.clock);
    memcpy(x.identity, identity, x.identity_length);
    memcpy(x.request, request, x.request_length);
    memcpy(x.tag, "A1A1A1A1A1A1A1A1A1A1A1A1A1A1A1A1A1A1A1A1A1A1A1A1", sizeof x.tag);
    memcpy(x.check, "111111", sizeof x.check);
    return x;
}

/* Hands in a request. The response goes out after the rows are kept: what it tells of must outlive the power. */
static int hand_in(const char *request) {
    static uint8_t response[DIMINUREL_RESPONSE_MIN];
    diminurel_reply r = diminurel_handle(rows.slots, DIMINUREL_SLOTS_MAX, rows.registers, DIMINUREL_REGISTERS_MAX,
                                         supplement(), (const uint8_t *)request, strlen(request), response,
                                         sizeof response);
    if (r.outcome == DIMINUREL_ACCEPTED && !keep_rows())
        return 0;
    int shown = r.length > 0 ? (int)r.length - 1 : 0;
    printf("%.5s: outcome %d, state %d, %.*s\n", request, r.outcome, r.state, shown, (const char *)response);
    return r.outcome == DIMINUREL_ACCEPTED;
}

/* GL?RS comes first, since a session must not outlive the power. */
static int power_up(void) { return read_rows() && hand_in("GL?RSCEEF\r"); }

/* A centre introduces itself, and is sent the load request. */
static int request_key(void) {
    return hand_in("SM?KCPPK.ECDH.1|KMCID.1:SW1:NORTH:20200101T000000Z:1111111111111111:4ADD|04|20300101T000000Z|||"
                   "9933~2B75\r");
}

/* It answers the load request, sends a key, and is done. */
static int load_key(void) {
    return hand_in("SM?KRPVKLOAD.RESP.1|KMCID.1:SW1:NORTH:20200101T000000Z:1111111111111111:4ADD|"
                   "SMID.1:Prism:12345678:20130303T153830Z:E7C42215AF1FE951:9C7D|20260105T090000Z|"
                   "A1A1A1A1A1A1A1A1A1A1A1A1A1A1A1A1A1A1A1A1A1A1A1A1|F5D4~2396\r") &&
           hand_in("SM?KLPNORTH~PKEY.1|01|"
                   "ACT20250101T000000Z;BDT19930101T000000Z;DKG04;KEN255;KRN6;KTC2;SGC0000758825;|02|5392~002E\r") &&
           hand_in("SM?KFPNORTH~E2B1\r");
}

static int may_vend(void) {
    int yes = diminurel_usable(rows.slots, DIMINUREL_SLOTS_MAX, rows.registers, DIMINUREL_REGISTERS_MAX, 1) == 1;
    printf("register 1 may vend: %s\n", yes ? "yes" : "no");
    return yes;
}

/* The first key; a second power-up, which has nothing but the file; the key vends while a new one is on request; the
 * file of an older version. */
int main(void) {
    return power_up() && request_key() && load_key() && may_vend() &&
           power_up() && may_vend() &&
           request_key() && may_vend() && load_key() && may_vend() &&
           leave_older() && power_up() && may_vend() ? 0 : 1;
}
