/*
 * Arsurimo: DHCPv6 prefix delegation for the box (the delegating side) and the router (the requesting side).
 *
 * The library keeps nothing between calls, allocates nothing and never blocks. The caller lends two kinds of arrays:
 * the box's table (PD_TABLE bytes) and a router's state (PD_ROUTER bytes). Keep them as they are between calls; they may be
 * stored and loaded as plain bytes. Their layout is in docs/INTERFACE.md. Link with target/staticlib/libfirmware.a (x86-64).
 *
 * A table or state is a pointer to exactly that many bytes. Every other buffer is a pointer and a length; with length 0 the
 * pointer must still not be null. Buffers of one call must not overlap.
 *
 * Every call returns one 64-bit word: pd_refusal(word) is the refusal's number or 0, pd_length(word) is the number of bytes
 * written or what the call says. On a refusal nothing is written: table, state and buffers stay as they were.
 *
 * now is in seconds on a clock that never goes back, from 0 and below 2^48.
 */
#ifndef ARSURIMO_H
#define ARSURIMO_H

#include <stdbool.h>
#include <stddef.h>
#include <stdint.h>

#ifdef __cplusplus
extern "C" {
#endif

#define PD_TABLE 39344 /* bytes of the box's table */
#define PD_ROUTER 384  /* bytes of a router's state */
#define PD_ROOM 512    /* least room for a message or an answer */
#define PD_RECORD 153  /* least room for a record */
#define PD_HOLD 42     /* least room for what is held */

/* Refusals. */
#define PD_BAD_TIME 1      /* earlier than the last accepted time, or 2^48 or more */
#define PD_SHORT_ROOM 2    /* the buffer to write in is too short */
#define PD_BAD_LENGTH 3    /* the message has under 4 or over 1,232 bytes */
#define PD_NOT_SERVED 4    /* the box doesn't serve this type of message */
#define PD_MALFORMED 5     /* an option is malformed */
#define PD_BAD_IDENTITY 6  /* Client ID or Server ID missing, repeated or wrong */
#define PD_BAD_IA_PD 7     /* not exactly one IA_PD, or more than four prefixes in it */
#define PD_SILENT 8        /* a Rebind that must not be answered */
#define PD_UNSOUND 9       /* the lent table or state is damaged */
#define PD_BAD_SETTINGS 10 /* bad settings at a start */
#define PD_OPEN 11         /* the router has an exchange open */
#define PD_TOO_SOON 12     /* too soon for a new exchange */
#define PD_NOT_NOW 13      /* the router's state doesn't allow this step */
#define PD_NOT_AWAITED 14  /* not the message that the router waits for */

static inline unsigned pd_refusal(uint64_t word) { return (unsigned)(word >> 16); }
static inline size_t pd_length(uint64_t word) { return (size_t)(word & 0xFFFF); }

/* ------------------------------------------------------------------ the box */

/*
 * Writes an empty table over whatever stands in it. The pool is pool_high:pool_low/pool_length; pool_low must be 0.
 * Pool length 32 to 56, then pool_length <= shortest <= standard <= 60; 120 <= preferred <= valid, in seconds, 0xFFFFFFFF for
 * ever; a DUID of 3 to 130 bytes. Refuses with PD_BAD_SETTINGS, PD_BAD_TIME.
 */
uint64_t pd_box_start(uint8_t table[PD_TABLE], uint64_t pool_high, uint64_t pool_low, uint64_t pool_length, uint64_t shortest,
                      uint64_t standard, uint32_t preferred, uint32_t valid, bool exclusion, const uint8_t *duid,
                      size_t duid_length, uint64_t now);

/*
 * Handles one message from the line and writes the answer, whose length is pd_length(word); send it back to the sender.
 * On a refusal send nothing. Store the table before sending if it has to survive a loss of power.
 * Refuses with 9, 1, 2, 3, 4, 5, 6, 7, 8, the first that applies.
 */
uint64_t pd_box_handle(uint8_t table[PD_TABLE], uint64_t now, const uint8_t *message, size_t message_length, uint8_t *answer,
                       size_t answer_length);

/* The number of bindings that are live at now, in pd_length(word). Refuses with 9, 1. Changes nothing. */
uint64_t pd_box_live(const uint8_t table[PD_TABLE], uint64_t now);

/*
 * Copies the record at this index (from 0, in order of binding, ended ones too) to the front of room: PD_RECORD bytes, or none
 * where no record stands there. Refuses with 9, 2. Changes nothing else.
 */
uint64_t pd_box_record(const uint8_t table[PD_TABLE], uint64_t index, uint8_t *room, size_t room_length);

/* --------------------------------------------------------------- the router */

/*
 * Writes a fresh state over whatever stands in it: at every start of the device, also after a crash. wanted is the wished
 * prefix length, at most 64, or 0 for none. No message goes out in the first 60 seconds. Refuses with 10, 1.
 */
uint64_t pd_router_start(uint8_t state[PD_ROUTER], const uint8_t *duid, size_t duid_length, uint32_t iaid, uint64_t wanted,
                         uint64_t now);

/*
 * Each begins an exchange and writes its message, whose length is pd_length(word). At most one exchange is open: it closes when
 * its answer is received or when it is abandoned. A Release drops the prefix at once: stop using it before sending.
 * Refuse with 9, 1, 2, 11, 12, 13, the first that applies.
 */
uint64_t pd_router_solicit(uint8_t state[PD_ROUTER], uint64_t now, uint8_t *message, size_t message_length);
uint64_t pd_router_request(uint8_t state[PD_ROUTER], uint64_t now, uint8_t *message, size_t message_length);
uint64_t pd_router_renew(uint8_t state[PD_ROUTER], uint64_t now, uint8_t *message, size_t message_length);
uint64_t pd_router_rebind(uint8_t state[PD_ROUTER], uint64_t now, uint8_t *message, size_t message_length);
uint64_t pd_router_release(uint8_t state[PD_ROUTER], uint64_t now, uint8_t *message, size_t message_length);

/* Writes the open exchange's message again, the same bytes. Refuses with 9, 1, 2, 13. */
uint64_t pd_router_resend(uint8_t state[PD_ROUTER], uint64_t now, uint8_t *message, size_t message_length);

/* Gives the open exchange up. A Solicit answered with NoPrefixAvail stays open until this call. Refuses with 9, 1, 13. */
uint64_t pd_router_abandon(uint8_t state[PD_ROUTER], uint64_t now);

/* Takes a message from the line if it is the one awaited; the word is 0 then. Refuses with 9, 1, 14. */
uint64_t pd_router_receive(uint8_t state[PD_ROUTER], uint64_t now, const uint8_t *message, size_t message_length);

/*
 * Copies what is held at now to the front of room: prefix 16 bytes, its length 1, excluded prefix 16, its length 1 (0 for
 * none), end 8 (all ones for never), PD_HOLD bytes; or none where nothing is held or its end has come. Refuses with 9, 1, 2.
 */
uint64_t pd_router_held(const uint8_t state[PD_ROUTER], uint64_t now, uint8_t *room, size_t room_length);

#ifdef __cplusplus
}
#endif

#endif
