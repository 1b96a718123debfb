/* A library that refuses everything, and lets no key vend. The callers' tests must fail with it. */
#include "diminurel.h"

diminurel_reply diminurel_handle(diminurel_slot *slots, size_t slot_count, diminurel_register *registers,
                                 size_t register_count, diminurel_supplement supplement, const uint8_t *request,
                                 size_t request_length, uint8_t *response, size_t response_length) {
    (void)slots, (void)slot_count, (void)registers, (void)register_count, (void)supplement, (void)request;
    (void)request_length, (void)response, (void)response_length;
    return (diminurel_reply){.outcome = 3, .state = 255, .length = 0};
}

uint8_t diminurel_usable(const diminurel_slot *slots, size_t slot_count, const diminurel_register *registers,
                         size_t register_count, size_t reg) {
    (void)slots, (void)slot_count, (void)registers, (void)register_count, (void)reg;
    return 0;
}
