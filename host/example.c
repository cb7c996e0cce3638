/* A box and a router in one program: the router gets a prefix. Link with target/staticlib/libfirmware.a. */
#include "arsurimo.h"
#include <stdio.h>

static uint8_t table[PD_TABLE];
static uint8_t state[PD_ROUTER];
static uint8_t message[PD_ROOM], answer[PD_ROOM], hold[PD_HOLD];

/* The router's message goes to the box, and the box's answer back. */
static int exchange(const char *name, uint64_t sent, uint64_t now) {
    if (pd_refusal(sent)) {
        printf("%s at %u: refused, %u\n", name, (unsigned)now, pd_refusal(sent));
        return 1;
    }
    uint64_t answered = pd_box_handle(table, now, message, pd_length(sent), answer, sizeof answer);
    if (pd_refusal(answered)) {
        printf("%s at %u: the box refuses, %u\n", name, (unsigned)now, pd_refusal(answered));
        return 1;
    }
    uint64_t taken = pd_router_receive(state, now, answer, pd_length(answered));
    printf("%s at %u: %u bytes, answered with %u, taken: %u\n", name, (unsigned)now, (unsigned)pd_length(sent),
           (unsigned)pd_length(answered), pd_refusal(taken));
    return pd_refusal(taken) != 0;
}

static void show(uint64_t now) {
    if (pd_length(pd_router_held(state, now, hold, sizeof hold)) == 0) {
        printf("nothing held\n");
        return;
    }
    for (int i = 0; i < 8; i += 2) printf("%x:", hold[i] << 8 | hold[i + 1]);
    printf(":/%u without its %02x%02x:/%u, until %02x%02x\n", hold[16], hold[23], hold[24], hold[33], hold[40], hold[41]);
}

int main(void) {
    const uint8_t box[] = {0xb0, 0xb0, 0xb0}, router[] = {0x0a, 0x0a, 0x0a};
    if (pd_box_start(table, 0x20010db80000aa00, 0, 56, 56, 60, 1800, 3600, true, box, sizeof box, 0)) return 1;
    if (pd_router_start(state, router, sizeof router, 7, 0, 0)) return 1;
    exchange("Solicit", pd_router_solicit(state, 60, message, sizeof message), 60);
    exchange("Solicit", pd_router_solicit(state, 61, message, sizeof message), 61);
    exchange("Request", pd_router_request(state, 62, message, sizeof message), 62);
    show(62);
    printf("%u live\n", (unsigned)pd_length(pd_box_live(table, 62)));
    return 0;
}
