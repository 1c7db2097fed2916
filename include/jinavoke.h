/* jinavoke.h: the banks of a Jinavoke cache, a proved TileLink TL-C home agent over a TL-UH memory, for C and C++.
 *
 * docs/EMBED.md tells how to build and link it. No thread is started, nothing is printed, no file is opened.
 *
 * WHAT IS PROVED, and checked before the archive is built (crates/tl_embed, specs/): each function below that is not
 * `static inline` meets its contract, where the caller keeps the promises that follow.
 *   jv_size, jv_align  the room that jv_open asks for.
 *   jv_open            the room then holds all banks at reset over the image, or a cache that is closed, for the reason
 *                      that is its status (`Opens`).
 *   jv_call            the named step of the banks, and no other: the first of its refusals whose case holds is the
 *                      status, and nothing changed; or it is done, and the answer tells what it did, all fields
 *                      (`Calls`). Status 14 is told only where the log had no room, and nothing changed, but that
 *                      JV_CALL_DRAIN and JV_CALL_FLUSH keep what they did before. A view changes nothing.
 *   jv_access          what jv_call does of a load or a store, and what it answers, without what these never tell
 *                      (`Accesses`).
 *   jv_look            what jv_call answers of a view of a number, likewise (`Looks`).
 *   jv_calls           calls one after another, each as jv_call carries it out, until one is not answered with 0
 *                      (`CallsMany`).
 *   jv_read            the events of a bank's log from a place on, each as jv_call tells it (`Reads`).
 *   jv_memory          the memory's bytes from a block on (`Images`).
 *   jv_saw             the client's call that sends a message which was seen, done only where it sends just that one;
 *                      or what the client would send, and nothing changed (`Saws`).
 *   jj_size, jj_align, jj_open, jj_see
 *                    a judge beside a bench, which tells of each entry at once whether it is permitted after those
 *                    before it, and of the first that is not the rule that it breaks (`OpensJudge`, `SeesRoom`,
 *                    `EveryJudging`).
 *   jp_size, jp_align, jp_open, jp_see
 *                    a judge at one client's pins, which tells of each line that is seen there at once whether it may
 *                    be seen after those before it, and of the first that may not which rule it breaks; then no lawful
 *                    run of the protocol is seen so at these pins (`OpensPins`, `SeesRoom`, `EveryJudgingAtPins`).
 *   jv_echo            the request again (`echoed`); jv_echo_seen likewise (`seen_echoed`); jv_version the number 7.
 * The functions that are `static inline` are C: they fill in a request and call one of these, and are tested
 * (examples/c), not proved. After any sequence of calls of an opened cache, each of which met its contract, each bank's
 * log is a run of the protocol over the image, in which every load got the bytes last stored before it; what the bank
 * shows is what that log leaves; and the log begins with what it was at any moment before (`EveryHistory`). No more is
 * claimed of sequences: not that there is memory, and not that C hands each call the cache that the last one left,
 * which is promise 3.
 *
 * WHAT THE CALLER OWES; what is not kept is undefined, as in any C, and nothing here tests it:
 *   1. `room` has jv_size() bytes at an address that jv_align() divides, and lies still: do not copy or move a cache.
 *   2. `cache` points to room where jv_open put a cache. After jv_free, and before jv_open, there is none.
 *   3. Nothing but these functions reads or writes the room, nor does a request lie in it.
 *   4. One call of a cache runs at a time, on whichever thread: that a cache may go to another thread is proved
 *      (`cache_send`); that its calls are in an order is the caller's, by a lock, a thread's start or its join. No
 *      signal handler, and no fork of a process with threads in between. Two caches share nothing but malloc, which
 *      then has to serve several threads.
 *   5. `numbers` and `request` point to initialised structs, `image` to `image_len` bytes, at most 2^63 - 1;
 *      `requests`, `answers`, `events` and `bytes` to as many initialised structs or bytes as the number behind them
 *      says. None of them is NULL, also where the number is 0.
 *   6. malloc, realloc and free are one allocator's, which aligns to 16. The stack has some 64 kilobytes left.
 *
 * WHAT A WRONG CALL GETS that keeps these:
 *   any number in any field          a status of the table below; nothing changed unless it is 0
 *   legal or not, any jv_numbers     status 20 to 28,
 of the first that is not legal; any image: 10 where it is too long
 *   image NULL and length 0          an empty image (jv_new, jv_place); likewise bytes NULL with length 0 in a store
 *   a call of a closed cache         status 18; closing it again: nothing
 *   a refused answer as a ticket     a ticket of channel 5, which each call answers with 17
 *   jv_free(NULL), jv_close(NULL)    nothing
 *   jv_place over an open cache      what that holds is never freed: close it first
 */
#ifndef JINAVOKE_H
#define JINAVOKE_H
#include <stddef.h>
#include <stdint.h>
#include <stdlib.h>
#include <string.h>
#ifdef __cplusplus
extern "C" {
#endif

#define JV_VERSION 7u

typedef struct jv_cache jv_cache; /* all banks with their clients; opaque */

/* The numbers of a cache, and the status where one is not legal. */
typedef struct {
    int64_t version;       /* 1 or 2, which sets the limits of clients and copies (28) */
    int64_t clients;       /* 1 to 8; in version 2 to 16 (20) */
    int64_t banks;         /* 1, 2, 4, 8 (21) */
    int64_t block_bytes;   /* 8, 16, 32, 64 (22) */
    int64_t sets;          /* of a bank: a power of two, 1 to 64 (23) */
    int64_t ways;          /* of a set: 1 to 8 (24) */
    int64_t registers;     /* miss registers of a bank: 1 to 8 (25) */
    int64_t copies;        /* of a client in a bank: 1 to 16; in version 2 to 64 (26) */
    int64_t memory_blocks; /* 1 to 65536 (27): addresses are 0 to memory_blocks * block_bytes - 1 */
} jv_numbers;

enum jv_status { /* the status of an answer, and why a cache is closed */
    JV_OK = 0,
    JV_NO_PERMISSION = 1,    /* a load or peek below Branch, a store below Tip */
    JV_WAITING = 2,          /* an Acquire or Release of the block by the client is unanswered */
    JV_WRONG_FROM = 3,       /* the param does not start from the copy's permission */
    JV_NOTHING_THERE = 4,    /* the channel is empty, or nothing of that kind is outward; a list has no such place */
    JV_NOT_HEAD = 5,         /* the ticket is not the first message's, or that is of another kind than the call takes */
    JV_RELEASE_PENDING = 6,  /* a Probe is answered before the ReleaseAck was taken */
    JV_NO_REGISTER = 7,      /* all registers are in use, or every way of the set is held by one */
    JV_BLOCK_BUSY = 8,       /* the block is the own block or the victim of an open register */
    /* no register's own block, or it has nothing to do now; home does not hold the block to evict */
    JV_NOT_YET = 9,
    /* a client, bank, block, address or length that is not there; an access that crosses a block */
    JV_OUT_OF_RANGE = 10,
    JV_WRONG_BANK = 11,      /* the ticket belongs to another bank */
    JV_COPIES_FULL = 12,     /* the client's table of copies is full */
    JV_LINK_FULL = 13,       /* 64 messages are on the channel */
    /* malloc or realloc answered NULL; nothing changed, but what jv_drain and jv_flush did before */
    JV_NO_MEMORY = 14,
    JV_CLOCK_FULL = 15,      /* the clocks stand at their end */
    JV_NO_CALL = 16,         /* there is no such call */
    JV_BAD_ARGUMENT = 17,    /* a length above 8, or a param or a channel that there is not */
    JV_CLOSED = 18,          /* the cache is closed: `serial` says why, 18 where its caller closed it */
    JV_FORGOTTEN = 19,       /* the event at that place is forgotten */
                             /* 20 to 28: a number that is not legal */
    JV_DIFFERS = 29,         /* the client would send another message than the one that was seen: the answer tells it */
    JV_OUTSIDE = 30,         /* this profile has no message of that channel, opcode and param */
    JV_NOT_PERMITTED = 31    /* of a judge: the entry breaks a rule, which `rule` tells */
};

/* What a status means to a bench: the model is asked again later; the device did what no client may; a limit of this
   cache, or of the memory; another message goes first, or the message is not there; the bench itself is wrong. */
enum jv_status_class_number {
    JV_CLASS_DONE, JV_CLASS_WAIT, JV_CLASS_DEVICE, JV_CLASS_LIMIT, JV_CLASS_ORDER, JV_CLASS_CALLER
};

enum jv_call_number {
    JV_CALL_CLOSE = 0, JV_CALL_LOAD, JV_CALL_STORE, JV_CALL_ACQUIRE, JV_CALL_RELEASE, JV_CALL_ANSWER_PROBE,
    JV_CALL_TAKE_GRANT,
    JV_CALL_TAKE_RELEASE_ACK, JV_CALL_ACCEPT, JV_CALL_ADVANCE, JV_CALL_TAKE_C, JV_CALL_TAKE_GRANT_ACK, JV_CALL_EVICT,
    JV_CALL_SERVE_MEMORY, JV_CALL_TAKE_MEMORY, JV_CALL_RESERVE, JV_CALL_FORGET, JV_CALL_DRAIN, JV_CALL_FLUSH,
    JV_VIEW_PERM = 20, JV_VIEW_DIRECTORY, JV_VIEW_PEEK, JV_VIEW_HOME, JV_VIEW_OUTWARD, JV_VIEW_HELD, JV_VIEW_RECORDED,
    JV_VIEW_EVENTS, JV_VIEW_EVENT, JV_VIEW_ROOM, JV_VIEW_COPIES, JV_VIEW_IS_QUIET, JV_VIEW_OPEN_BLOCK, JV_VIEW_MESSAGE,
    JV_VIEW_WAITING, JV_VIEW_MEMORY, JV_VIEW_FORGOTTEN, JV_VIEW_COPY, JV_VIEW_WAITS_FOR, JV_VIEW_BANK, JV_VIEW_NEXT,
    JV_VIEW_COUNT
};

/* the last two: of the memory's link, and of no ticket */
enum jv_channel { JV_A, JV_B, JV_C, JV_D, JV_E, JV_MEMORY_A, JV_MEMORY_D };
enum jv_grow { JV_NTOB, JV_NTOT, JV_BTOT };                            /* the param of an Acquire */
enum jv_prune { JV_TTOB, JV_TTON, JV_BTON };                           /* the param of a Release */
/* of a ProbeAck */
enum jv_report { JV_REPORT_TTOB = 0, JV_REPORT_TTON = 1, JV_REPORT_BTON = 2, JV_REPORT_BTOB = 4, JV_REPORT_NTON = 5 };
enum jv_cap { JV_TO_T, JV_TO_B, JV_TO_N };                             /* the param of a Probe or a Grant */
enum jv_perm_number { JV_NONE, JV_BRANCH, JV_TIP };
enum jv_opcode {
    JV_OP_ACQUIRE_BLOCK = 6,                                                                     /* A */
    JV_OP_PROBE_BLOCK = 6,                                                                       /* B */
    JV_OP_PROBE_ACK = 4, JV_OP_PROBE_ACK_DATA = 5, JV_OP_RELEASE = 6, JV_OP_RELEASE_DATA = 7,    /* C */
    JV_OP_GRANT = 4, JV_OP_GRANT_DATA = 5, JV_OP_RELEASE_ACK = 6,                                /* D */
    JV_OP_GRANT_ACK = 0,                                                                         /* E */
    JV_OP_PUT_FULL_DATA = 0, JV_OP_GET = 4, JV_OP_ACCESS_ACK = 0,
    JV_OP_ACCESS_ACK_DATA = 1      /* the memory's link: A, A, D, D */
};
enum jv_what { /* what an answer tells */
    JV_TELLS_NOTHING, JV_TELLS_MESSAGE, JV_TELLS_MEMORY, JV_TELLS_DROPPED, JV_TELLS_LOADED, JV_TELLS_NUMBER,
    JV_TELLS_EVENT,
    JV_TELLS_OUTWARD, JV_TELLS_BYTES, JV_TELLS_CALL
};
enum jv_event_kind { /* the kind of an event of a log: `opcode` where an answer tells one */
    /* of a client */
    JV_EVENT_LOAD, JV_EVENT_STORE, JV_EVENT_SEND_ACQUIRE, JV_EVENT_SEND_RELEASE, JV_EVENT_ANSWER_PROBE,
    JV_EVENT_TAKE_GRANT,
    JV_EVENT_TAKE_RELEASE_ACK,
    /* of home, and a client */
    JV_EVENT_ACCEPT_ACQUIRE, JV_EVENT_SEND_PROBE, JV_EVENT_TAKE_C, JV_EVENT_SEND_GRANT, JV_EVENT_TAKE_GRANT_ACK,
    /* of home and the memory: no client */
    JV_EVENT_SEND_GET, JV_EVENT_SERVE, JV_EVENT_TAKE_DATA, JV_EVENT_DROP, JV_EVENT_SEND_PUT, JV_EVENT_TAKE_PUT_ACK
};
enum jv_limits { /* the most of each number; a log has no limit but the memory */
    JV_MOST_CLIENTS = 16, JV_MOST_BANKS = 8, JV_MOST_BLOCK_BYTES = 64, JV_MOST_SETS = 64, JV_MOST_WAYS = 8,
    JV_MOST_REGISTERS = 8, JV_MOST_COPIES = 64, JV_MOST_MEMORY_BLOCKS = 65536, JV_MOST_MESSAGES = 64,
    JV_MOST_ACCESS_BYTES = 8, JV_EVENT_BYTES = 40, JV_EVENT_KINDS = 18
};
/* what passes of a block to or from the memory */
enum jv_outward { JV_QUIET, JV_GET, JV_DATA, JV_PUT, JV_PUT_ACK };
enum jv_home { JV_HOME_NONE, JV_HOME_CLEAN, JV_HOME_DIRTY };
enum jv_copy_kind { JV_COPY_NONE, JV_COPY_BRANCH, JV_COPY_CLEAN_TIP, JV_COPY_DIRTY_TIP };
enum jv_option { JV_STORES = 1 };                                      /* of a message that was seen */
enum jv_awaited { JV_WAITS_FOR_NOTHING, JV_WAITS_FOR_GRANT, JV_WAITS_FOR_RELEASE_ACK };

typedef struct { /* what a call does not use it takes no notice of */
    uint32_t call;    /* jv_call_number */
    uint32_t index;   /* of an access: its event in the log has it */
    uint32_t client;
    uint32_t place;   /* a block, or the address of an access */
    uint32_t param;   /* jv_grow or jv_prune */
    uint32_t bank;
    uint32_t channel; /* of a ticket */
    uint32_t len;     /* of an access: 1 to 8 */
    uint64_t serial;  /* of a ticket; a place in a list, from 0; a number of events */
    uint8_t bytes[8]; /* of a store, the first `len` */
} jv_request;

typedef struct { /* what is not told is 0 */
    uint32_t status;  /* jv_status: where it is not 0 nothing else is told, but that `serial` of 18 says why, and 29
                         tells a message */
    uint32_t what;    /* jv_what */
    uint32_t bank, client, channel; /* with `serial` the ticket of a message; `client` also of an event; `bank` and
                                       `channel` also of the memory's link; `bank` also of a drop */
    uint32_t opcode;  /* jv_opcode of a message; jv_event_kind of an event */
    uint32_t param;   /* of a message; of the Acquire, Release or Probe that an event sends */
    uint32_t place;   /* the block of a message of either link, of a drop, or of an event */
    uint32_t address; /* of a message between home and the memory, or of a drop: the block's first; of an access */
    uint32_t size;    /* of a message between home and the memory: the base-2 logarithm of a block's bytes */
    uint32_t index;   /* of an access: the one that its call was given */
    uint32_t len;     /* how many bytes there are */
    uint32_t stores;  /* of a message that was seen: how many stores were made before it (JV_STORES) */
    uint32_t reserved; /* 0 */
    uint64_t serial;  /* of a ticket; a view's number; the stamp of an access, which rises over all of a bank's log */
    uint8_t bytes[64];
} jv_answer;

typedef struct { /* a message that was seen on a client's link: what a device sent */
    uint32_t channel; /* JV_A, JV_C or JV_E */
    uint32_t opcode;  /* jv_opcode */
    uint32_t param;
    uint32_t client;
    uint32_t block;   /* of an E: that of the Grant whose sink it names */
    uint32_t len;     /* how many bytes it carries: those of a block with ProbeAckData and ReleaseData, else 0 */
    uint32_t options; /* 0 or JV_STORES */
    uint32_t index;   /* of the stores that JV_STORES makes: their events in the log have it */
    uint8_t bytes[64];
} jv_seen;

typedef struct { /* what a load or a store answers: a jv_answer without what these never tell */
    uint32_t status;
    uint32_t what;    /* JV_TELLS_LOADED or JV_TELLS_NOTHING */
    uint64_t serial;  /* of status 18: why */
    uint8_t bytes[8]; /* of a load, the first `len`, and 0 past them */
    uint32_t len;
} jv_accessed;

typedef struct { /* what a view of a number answers: a jv_answer without what it never tells */
    uint32_t status;
    uint32_t what;    /* JV_TELLS_NUMBER or JV_TELLS_NOTHING */
    uint64_t serial;  /* the number; of status 18: why */
} jv_number;

typedef struct { /* how many events of each kind (jv_event_kind) */
    uint64_t of[JV_EVENT_KINDS];
} jv_event_counts;

#if defined(__cplusplus) && __cplusplus >= 201103L
#define JV_ASSERT_(holds, name) static_assert(holds, #name)
#elif defined(__STDC_VERSION__) && __STDC_VERSION__ >= 201112L
#define JV_ASSERT_(holds, name) _Static_assert(holds, #name)
#else
#define JV_ASSERT_(holds, name) typedef char jv_assert_##name[(holds) ? 1 : -1]
#endif
#define JV_AT_(type, field, at) JV_ASSERT_(offsetof(type, field) == (at), type##_##field)
JV_AT_(jv_request, call, 0); JV_AT_(jv_request, index, 4); JV_AT_(jv_request, client, 8); JV_AT_(jv_request, place, 12);
JV_AT_(jv_request, param, 16); JV_AT_(jv_request, bank, 20); JV_AT_(jv_request, channel, 24);
JV_AT_(jv_request, len, 28);
JV_AT_(jv_request, serial, 32); JV_AT_(jv_request, bytes, 40); JV_ASSERT_(sizeof(jv_request) == 48, whole_request);
JV_AT_(jv_answer, status, 0); JV_AT_(jv_answer, what, 4); JV_AT_(jv_answer, bank, 8); JV_AT_(jv_answer, client, 12);
JV_AT_(jv_answer, channel, 16); JV_AT_(jv_answer, opcode, 20); JV_AT_(jv_answer, param, 24);
JV_AT_(jv_answer, place, 28);
JV_AT_(jv_answer, address, 32); JV_AT_(jv_answer, size, 36); JV_AT_(jv_answer, index, 40); JV_AT_(jv_answer, len, 44);
JV_AT_(jv_answer, stores, 48); JV_AT_(jv_answer, reserved, 52); JV_AT_(jv_answer, serial, 56);
JV_AT_(jv_answer, bytes, 64);
JV_ASSERT_(sizeof(jv_answer) == 128, whole_answer);
JV_AT_(jv_seen, channel, 0); JV_AT_(jv_seen, opcode, 4); JV_AT_(jv_seen, param, 8); JV_AT_(jv_seen, client, 12);
JV_AT_(jv_seen, block, 16); JV_AT_(jv_seen, len, 20); JV_AT_(jv_seen, options, 24); JV_AT_(jv_seen, index, 28);
JV_AT_(jv_seen, bytes, 32); JV_ASSERT_(sizeof(jv_seen) == 96, whole_seen);
JV_AT_(jv_accessed, status, 0); JV_AT_(jv_accessed, what, 4); JV_AT_(jv_accessed, serial, 8);
JV_AT_(jv_accessed, bytes, 16);
JV_AT_(jv_accessed, len, 24); JV_ASSERT_(sizeof(jv_accessed) == 32, whole_accessed);
JV_AT_(jv_number, status, 0); JV_AT_(jv_number, what, 4); JV_AT_(jv_number, serial, 8);
JV_ASSERT_(sizeof(jv_number) == 16, whole_number);
JV_ASSERT_(sizeof(jv_event_counts) == 144, whole_event_counts);
JV_AT_(jv_numbers, version, 0); JV_AT_(jv_numbers, clients, 8); JV_AT_(jv_numbers, banks, 16);
JV_AT_(jv_numbers, block_bytes, 24); JV_AT_(jv_numbers, sets, 32); JV_AT_(jv_numbers, ways, 40);
JV_AT_(jv_numbers, registers, 48); JV_AT_(jv_numbers, copies, 56); JV_AT_(jv_numbers, memory_blocks, 64);

/* ---- the library's own functions */

uint32_t jv_version(void);                      /* JV_VERSION of the archive */
size_t jv_size(void);                           /* how many bytes of room a cache needs */
size_t jv_align(void);                          /* what the room's address divides by */
jv_answer jv_echo(const jv_request *request);   /* each field of the request in one of the answer, for jv_fits */
jv_answer jv_echo_seen(const jv_seen *seen);    /* likewise */
void jv_open(const jv_numbers *numbers, const uint8_t *image, size_t image_len, void *room);
jv_answer jv_call(jv_cache *cache, const jv_request *request);      /* any call and any view */
/* JV_CALL_LOAD and JV_CALL_STORE alone; 16 of another */
jv_accessed jv_access(jv_cache *cache, const jv_request *request);
jv_number jv_look(jv_cache *cache, const jv_request *request);      /* a view of a number alone; 16 of another */

/* Many calls and views at once, each as jv_call: request after request is answered in its place, until an answer has
   another status than 0, or the requests or the places end. How many were called: the last of them is the one that was
   refused, where there are more; the places behind it are as they were. */
size_t jv_calls(jv_cache *cache, const jv_request *requests, size_t requests_len, jv_answer *answers,
                size_t answers_len);

/* Many events of the log of the bank `request->bank`, from the place `request->serial` on: as many as there are and
   have places, each as jv_event tells it. `serial` of the answer is how many (JV_TELLS_NUMBER); status 10 where there
   is no such bank, 19 where the first is forgotten, 18 of a closed cache. jv_read_events asks it. */
jv_number jv_read(jv_cache *cache, const jv_request *request, jv_answer *events, size_t events_len);

/* The memory's bytes from the block `request->place` on, by rising address: as many as there are and have room.
   `serial` of the answer is how many (JV_TELLS_NUMBER); status 18 of a closed cache. It asks for no memory. jv_image
   asks it. */
jv_number jv_memory(jv_cache *cache, const jv_request *request, uint8_t *bytes, size_t room);

/* A message that was seen on A, C or E of a client. The cache's own client then does what sends such a message, and
   does it only where it sends just that one, by opcode, param and bytes:

   | seen                     | the call                                                           | home then         |
   |--------------------------|--------------------------------------------------------------------|-------------------|
   | A AcquireBlock           | jv_acquire of the block                                            | jv_accept         |
   | C Release, ReleaseData   | jv_release of the block                                            | jv_take_c         |
   | C ProbeAck, ProbeAckData | jv_answer_probe of the first Probe on the client's B, of the block | jv_take_c         |
   | E GrantAck               | jv_take_grant of the first message on the client's D, of the block | jv_take_grant_ack |

   B and D are those of the bank where the block lies. What is answered, the first that holds:
     JV_CLOSED, as of any call
     JV_BAD_ARGUMENT    another channel, or another option than JV_STORES
     JV_OUTSIDE         the profile has no such opcode or param there, as AcquirePerm, or a Release TtoT
     JV_BAD_ARGUMENT    `len` is another than the opcode carries: the bytes of a block with ProbeAckData and
                        ReleaseData, else 0
     JV_OUT_OF_RANGE    there is no such client or block
     JV_NOTHING_THERE   no Probe or Grant of the block waits for an E or an answer on C
     JV_NOT_HEAD        one waits behind a message of another block: see that answered first, then ask again
     the call's own refusal, which jv_acquire, jv_release, jv_answer_probe or jv_take_grant lists
     JV_DIFFERS         the client would send another message. It is told as one that was sent (JV_TELLS_MESSAGE: bank,
                        client, channel, opcode, param, place, bytes, len), without a serial: it has no ticket
     JV_NO_MEMORY       the log has no room for the events
     JV_OK              the call is done, and answered as it answers: with the ticket, by which home takes the message.
   Unless it is JV_OK the call is not done, and nothing is changed but by the stores of JV_STORES: as many as `stores`
   of the answer says, which is 0 without that option.

   JV_STORES: nobody tells the cache what the device's core stores. Where ProbeAckData or ReleaseData was seen and the
   client would send a message of the same param from a copy at Tip, the stores that lead there are made first: of each
   eight bytes that differ from the copy, at their address, in rising order; or, where the copy has these bytes and is
   clean, one store of its first eight bytes, since TileLink allows data of a clean copy. What the call would be refused
   for is asked first, and then it makes no store; room for all of them and the call is got next, and where there is
   none JV_NO_MEMORY changed nothing. `stores` of the answer is how many were made, their events stand before the call's
   in the log, and they stay, whatever the status is. With another status than JV_OK it is more than 0 where a later one
   of them was refused, as JV_CLOCK_FULL after 2^64 - 1 accesses, or the call after them was, or differs: no other case
   is known, and none of them is proved away. Nothing but those stores, and the room, is then changed. */
jv_answer jv_saw(jv_cache *cache, const jv_seen *seen);

/* ---- a status in words */

static inline const char *jv_status_name(uint32_t status) {
    static const char *const names[] = {
        "ok", "no permission", "waiting", "wrong from", "nothing there", "not head", "release pending", "no register",
        "block busy", "not yet", "out of range", "wrong bank", "copies full", "link full", "no memory", "clock full",
        "no call", "bad argument", "closed", "forgotten", "clients", "banks", "block bytes", "sets", "ways",
        "registers", "copies", "memory blocks", "version", "differs", "outside the profile", "not permitted"};
    return status < sizeof names / sizeof *names ? names[status] : "no such status";
}
static inline enum jv_status_class_number jv_status_class(uint32_t status) {
    switch (status) {
    case JV_OK: return JV_CLASS_DONE;
    case JV_NO_REGISTER: case JV_BLOCK_BUSY: case JV_NOT_YET: case JV_LINK_FULL: return JV_CLASS_WAIT;
    case JV_NO_PERMISSION: case JV_WAITING: case JV_WRONG_FROM: case JV_RELEASE_PENDING: case JV_DIFFERS:
    case JV_NOT_PERMITTED:
        return JV_CLASS_DEVICE;
    case JV_COPIES_FULL: case JV_NO_MEMORY: case JV_CLOCK_FULL: case JV_OUTSIDE: return JV_CLASS_LIMIT;
    case JV_NOTHING_THERE: case JV_NOT_HEAD: return JV_CLASS_ORDER;
    default: return JV_CLASS_CALLER;
    }
}

/* ---- making and closing */

/* Whether this header's structs are laid out as the archive's: 1, else 0. jv_new asks it. */
static inline int jv_fits(void) {
    jv_request r; jv_seen s; jv_answer a; int i, same = 1;
    r.call = 101; r.index = 102; r.client = 103; r.place = 104; r.param = 105; r.bank = 106; r.channel = 107;
    r.len = 108;
    r.serial = ((uint64_t)109 << 32) + 110;
    for (i = 0; i < 8; i++) r.bytes[i] = (uint8_t)(200 + i);
    if (jv_version() != JV_VERSION) return 0;
    a = jv_echo(&r);
    for (i = 0; i < 64; i++) same = same && a.bytes[i] == (i < 8 ? 200 + i : 0);
    if (!(same && a.status == 0 && a.what == r.call && a.index == r.index && a.client == r.client && a.place == r.place
        && a.param == r.param && a.bank == r.bank && a.channel == r.channel && a.opcode == r.len && a.address == 1
        && a.size == 2
        && a.len == 8 && a.stores == 3 && a.serial == r.serial)) return 0;
    s.channel = 101; s.opcode = 102; s.param = 103; s.client = 104; s.block = 105; s.len = 106; s.options = 107;
    s.index = 108;
    for (i = 0; i < 64; i++) s.bytes[i] = (uint8_t)(190 + i);
    a = jv_echo_seen(&s);
    for (i = 0; i < 64; i++) same = same && a.bytes[i] == 190 + i;
    return same && a.status == 0 && a.channel == s.channel && a.opcode == s.opcode && a.param == s.param
        && a.client == s.client
        && a.place == s.block && a.size == s.len && a.what == s.options && a.index == s.index && a.len == 64;
}
/* A request of zeros with a call's number. */
static inline jv_request jv_asks_(uint32_t call) { jv_request r; memset(&r, 0, sizeof r); r.call = call; return r; }
/* A view: it leaves the cache as it was, so it takes a const one. */
static inline jv_answer jv_view_(const jv_cache *c, const jv_request *r) { return jv_call((jv_cache *)c, r); }

/* Puts a cache into room of jv_size() bytes at an address that jv_align() divides: at reset over the image (0 past it),
   or closed. An image of length 0 may be NULL. */
static inline jv_cache *jv_place(const jv_numbers *numbers, const uint8_t *image, size_t image_len, void *room) {
    jv_open(numbers, image_len ? image : (const uint8_t *)"", image_len, room);
    return (jv_cache *)room;
}
/* Why the cache is closed: 20 to 28, JV_OUT_OF_RANGE (the image is longer than the memory), JV_NO_MEMORY, JV_CLOSED (by
   its caller); 0 where it is open. */
static inline uint32_t jv_why_closed(const jv_cache *c) {
    jv_request r = jv_asks_(JV_VIEW_ROOM); jv_answer a = jv_view_(c, &r);
    return a.status == JV_CLOSED ? (uint32_t)a.serial : 0;
}
/* Gives all that the cache holds back; the room is the caller's again. */
static inline void jv_close(jv_cache *c) { if (c) { jv_request r = jv_asks_(JV_CALL_CLOSE); (void)jv_call(c, &r); } }
/* A cache in room of malloc's; or NULL, with the reason in *status (which may be NULL) as jv_why_closed, or JV_NO_CALL
   where the header is not the archive's. */
static inline jv_cache *jv_new(const jv_numbers *numbers, const uint8_t *image, size_t image_len, uint32_t *status) {
    uint32_t why = JV_NO_CALL; jv_cache *c = NULL;
    if (jv_fits() && jv_align() <= 16) {
        void *room = malloc(jv_size());
        why = JV_NO_MEMORY;
        if (room) {
            c = jv_place(numbers, image, image_len, room); why = jv_why_closed(c);
            if (why) { free(room); c = NULL; }
        }
    }
    if (status) *status = why;
    return c;
}
/* Closes a cache of jv_new and gives its room back. */
static inline void jv_free(jv_cache *c) { if (c) { jv_close(c); free(c); } }

/* ---- tickets: where a message waits */

typedef struct { uint32_t bank, client, channel; uint64_t serial; } jv_ticket;

/* The ticket of the message that an answer tells; of an answer that tells none, one that no call takes (17). */
static inline jv_ticket jv_sent(const jv_answer *a) {
    jv_ticket t; t.bank = a->bank; t.client = a->client; t.serial = a->serial;
    t.channel = a->status == 0 && a->what == JV_TELLS_MESSAGE ? a->channel : 5;
    return t;
}
static inline jv_answer jv_by_ticket_(jv_cache *c, uint32_t call, jv_ticket t) {
    jv_request r = jv_asks_(call); r.bank = t.bank; r.client = t.client; r.channel = t.channel; r.serial = t.serial;
    return jv_call(c, &r);
}
static inline jv_answer jv_by_block_(jv_cache *c, uint32_t call, uint32_t block) {
    jv_request r = jv_asks_(call); r.place = block; return jv_call(c, &r);
}

/* ---- the calls of clients. The bank is that of the block, the address or the ticket. */

/* Reads 1 to 8 bytes of one block of the client's copy (bytes, len). `index` is the event's in the log. 1, 10, 15 */
static inline jv_accessed jv_load(jv_cache *c, uint32_t client, uint32_t address, uint32_t len, uint32_t index) {
    jv_request r = jv_asks_(JV_CALL_LOAD); r.client = client; r.place = address; r.len = len; r.index = index;
    return jv_access(c, &r);
}
/* Writes 1 to 8 bytes of one block of the client's copy, which must be Tip. 1, 10, 15 */
static inline jv_accessed jv_store(jv_cache *c, uint32_t client, uint32_t address, const uint8_t *bytes,
                                   uint32_t len, uint32_t index) {
    jv_request r = jv_asks_(JV_CALL_STORE); r.client = client; r.place = address; r.len = len; r.index = index;
    if (len == 8) memcpy(r.bytes, bytes, 8); else if (len) memcpy(r.bytes, bytes, len < 8 ? len : 8);
    return jv_access(c, &r);
}
/* The answer to an access as jv_call gives it. */
static inline jv_answer jv_accessed_wide(const jv_accessed *a) {
    jv_answer w; memset(&w, 0, sizeof w);
    w.status = a->status; w.what = a->what; w.serial = a->serial; w.len = a->len;
    memcpy(w.bytes, a->bytes, sizeof a->bytes); return w;
}
/* Sends an AcquireBlock on A. 2, 3, 10, 12, 13 */
static inline jv_answer jv_acquire(jv_cache *c, uint32_t client, uint32_t block, enum jv_grow grow) {
    jv_request r = jv_asks_(JV_CALL_ACQUIRE); r.client = client; r.place = block; r.param = (uint32_t)grow;
    return jv_call(c, &r);
}
/* Sends a Release on C, with the bytes where the copy is dirty. 2, 3, 10, 13 */
static inline jv_answer jv_release(jv_cache *c, uint32_t client, uint32_t block, enum jv_prune prune) {
    jv_request r = jv_asks_(JV_CALL_RELEASE); r.client = client; r.place = block; r.param = (uint32_t)prune;
    return jv_call(c, &r);
}
/* Takes the first Probe of the client's B and sends its ProbeAck on C. 4, 5, 6, 10, 11, 13 */
static inline jv_answer jv_answer_probe(jv_cache *c, jv_ticket t) { return jv_by_ticket_(c, JV_CALL_ANSWER_PROBE, t); }
/* Takes the first of the client's D, a Grant, and sends its GrantAck on E. 4, 5, 10, 11, 13 */
static inline jv_answer jv_take_grant(jv_cache *c, jv_ticket t) { return jv_by_ticket_(c, JV_CALL_TAKE_GRANT, t); }
/* Takes the first of the client's D, a ReleaseAck. 4, 5, 10, 11 */
static inline jv_answer jv_take_release_ack(jv_cache *c, jv_ticket t) {
    return jv_by_ticket_(c, JV_CALL_TAKE_RELEASE_ACK, t);
}
/* Takes the first of the client's D, whichever it is: `a` is the answer that told the message. */
static inline jv_answer jv_take_d(jv_cache *c, const jv_answer *a) {
    return a->opcode == JV_OP_RELEASE_ACK ? jv_take_release_ack(c, jv_sent(a)) : jv_take_grant(c, jv_sent(a));
}

/* ---- the calls of home */

/* Takes the first of the client's A, an AcquireBlock: a miss register opens for its block. 4, 5, 7, 8, 10, 11 */
static inline jv_answer jv_accept(jv_cache *c, jv_ticket t) { return jv_by_ticket_(c, JV_CALL_ACCEPT, t); }
/* The register whose own block this is does what is due: a Probe (of its block or of its victim: `place` tells which),
   a Get or a PutFullData to the memory, a drop, or the Grant. 9, 10, 13 */
static inline jv_answer jv_advance(jv_cache *c, uint32_t block) { return jv_by_block_(c, JV_CALL_ADVANCE, block); }
/* Takes the first of the client's C: an answer to a Probe, or a Release, which is answered with a ReleaseAck on D. 4,
   5, 10, 11, 13 */
static inline jv_answer jv_take_c(jv_cache *c, jv_ticket t) { return jv_by_ticket_(c, JV_CALL_TAKE_C, t); }
/* Takes the first of the client's E, a GrantAck: its register closes. 4, 5, 10, 11 */
static inline jv_answer jv_take_grant_ack(jv_cache *c, jv_ticket t) {
    return jv_by_ticket_(c, JV_CALL_TAKE_GRANT_ACK, t);
}
/* Opens a register that sends home's copy of a block away; it logs no event. 7, 8, 9, 10 */
static inline jv_answer jv_evict(jv_cache *c, uint32_t block) { return jv_by_block_(c, JV_CALL_EVICT, block); }

/* ---- the calls of the memory: of the block that the Get or PutFullData names, a register's own or its victim */

/* The memory answers the request: a Get with the bytes, a PutFullData once it is written. 4, 10 */
static inline jv_answer jv_serve_memory(jv_cache *c, uint32_t block) {
    return jv_by_block_(c, JV_CALL_SERVE_MEMORY, block);
}
/* Home takes the memory's answer. 4, 10 */
static inline jv_answer jv_take_memory(jv_cache *c, uint32_t block) {
    return jv_by_block_(c, JV_CALL_TAKE_MEMORY, block);
}

/* ---- room for what is to come */

/* Makes room in the bank's log for so many more events: as many steps of that bank then ask for no memory. 10 where
   there is no such bank; 14 where there was less room and no memory for more, and then nothing changed. */
static inline jv_answer jv_reserve(jv_cache *c, uint32_t bank, uint64_t events) {
    jv_request r = jv_asks_(JV_CALL_RESERVE); r.bank = bank; r.serial = events; return jv_call(c, &r);
}

/* Forgets the bank's log so far: jv_event answers JV_FORGOTTEN at each place below jv_events, and what the events took
   is room for more. All else is as it was: the proofs speak of the whole log, forgotten events too. 10 where there is
   no such bank. */
static inline jv_answer jv_forget(jv_cache *c, uint32_t bank) {
    jv_request r = jv_asks_(JV_CALL_FORGET); r.bank = bank; return jv_call(c, &r);
}

/* ---- rest: all banks, one after another. Nothing but want of memory for a log refuses these: 14 then, and what was
   done before stays, in this bank and in those before it; a later call goes on. Answered with 0, `serial` is how many
   events came (JV_TELLS_NUMBER), by each of which something was received: no more than what was under way could bring,
   and 2^64 - 1 where they were more. */

/* Takes all that is under way, until every bank is quiet. */
static inline jv_answer jv_drain(jv_cache *c) { jv_request r = jv_asks_(JV_CALL_DRAIN); return jv_call(c, &r); }
/* Does that, and then sends each block away of which home has a copy: every bank is quiet, nobody has a copy, home
   records nobody, and the memory has the bytes last stored. */
static inline jv_answer jv_flush(jv_cache *c) { jv_request r = jv_asks_(JV_CALL_FLUSH); return jv_call(c, &r); }

/* ---- views: they change nothing. `serial` is the number where the answer tells one; status 10 where there is no such
   client, bank, block or address. Those of a client and a block or of a block look at the bank where the block lies.
   Each costs some tens of nanoseconds, and jv_recorded and jv_is_quiet as the bank has ways and copies; none as the
   memory has blocks but jv_image. */

static inline jv_answer jv_of_block_(const jv_cache *c, uint32_t call, uint32_t client, uint32_t place) {
    jv_request r = jv_asks_(call); r.client = client; r.place = place; return jv_view_(c, &r);
}
static inline jv_number jv_number_of_block_(const jv_cache *c, uint32_t call, uint32_t client, uint32_t place) {
    jv_request r = jv_asks_(call); r.client = client; r.place = place; return jv_look((jv_cache *)c, &r);
}
static inline jv_number jv_number_of_bank_(const jv_cache *c, uint32_t call, uint32_t bank, uint32_t client) {
    jv_request r = jv_asks_(call); r.bank = bank; r.client = client; return jv_look((jv_cache *)c, &r);
}
static inline jv_answer jv_of_bank_(const jv_cache *c, uint32_t call, uint32_t bank, uint32_t client, uint64_t serial) {
    jv_request r = jv_asks_(call); r.bank = bank; r.client = client; r.serial = serial; return jv_view_(c, &r);
}
/* What the client may do with the block: jv_perm_number. */
static inline jv_number jv_perm(const jv_cache *c, uint32_t client, uint32_t block) {
    return jv_number_of_block_(c, JV_VIEW_PERM, client, block);
}
/* What home records of it: jv_perm_number. */
static inline jv_number jv_directory(const jv_cache *c, uint32_t client, uint32_t block) {
    return jv_number_of_block_(c, JV_VIEW_DIRECTORY, client, block);
}
/* The byte at an address of the client's copy; status 1 where it may not read it. */
static inline jv_number jv_peek(const jv_cache *c, uint32_t client, uint32_t address) {
    return jv_number_of_block_(c, JV_VIEW_PEEK, client, address);
}
/* The client's whole copy of the block: jv_copy_kind, and its bytes where there is one. */
static inline jv_answer jv_copy(const jv_cache *c, uint32_t client, uint32_t block) {
    return jv_of_block_(c, JV_VIEW_COPY, client, block);
}
/* What the client waits for about the block: jv_awaited. */
static inline jv_number jv_waits_for(const jv_cache *c, uint32_t client, uint32_t block) {
    return jv_number_of_block_(c, JV_VIEW_WAITS_FOR, client, block);
}
/* The bank where the block lies. */
static inline jv_number jv_bank_of(const jv_cache *c, uint32_t block) {
    return jv_number_of_block_(c, JV_VIEW_BANK, 0, block);
}
/* Home's copy of the block: jv_home, and its bytes where there is one. */
static inline jv_answer jv_home_copy(const jv_cache *c, uint32_t block) {
    return jv_of_block_(c, JV_VIEW_HOME, 0, block);
}
/* What passes of the block between home and the memory: jv_outward, with the bytes of JV_DATA and JV_PUT. */
static inline jv_answer jv_outward_of(const jv_cache *c, uint32_t block) {
    return jv_of_block_(c, JV_VIEW_OUTWARD, 0, block);
}
/* The memory's bytes of the block (JV_TELLS_BYTES). */
static inline jv_answer jv_memory_block(const jv_cache *c, uint32_t block) {
    return jv_of_block_(c, JV_VIEW_MEMORY, 0, block);
}
/* How many copies the clients have in the bank. */
static inline jv_number jv_held(const jv_cache *c, uint32_t bank) {
    return jv_number_of_bank_(c, JV_VIEW_HELD, bank, 0);
}
/* For how many pairs of client and block home of the bank records a permission. */
static inline jv_number jv_recorded(const jv_cache *c, uint32_t bank) {
    return jv_number_of_bank_(c, JV_VIEW_RECORDED, bank, 0);
}
/* How many events the bank's log has, with those that are forgotten. It grows by one event with each step of the bank
   that is done (evict: none), 40 bytes, until jv_forget. Where there is no room it asks for room for as many events
   again, so a call may copy the whole log, and for that moment there are two. jv_reserve asks ahead. */
static inline jv_number jv_events(const jv_cache *c, uint32_t bank) {
    return jv_number_of_bank_(c, JV_VIEW_EVENTS, bank, 0);
}
/* The whole event at a place of the bank's log, from 0 (JV_TELLS_EVENT): its kind (opcode), its block (place), its
   client where it has one; of an Acquire, a Release or a Probe the param; of an access also the address, the bytes and
   len, the index and the stamp (serial). Status 4 past the last, 19 where it is forgotten. */
static inline jv_answer jv_event(const jv_cache *c, uint32_t bank, uint64_t place) {
    return jv_of_bank_(c, JV_VIEW_EVENT, bank, 0, place);
}
/* The events from the place *cursor on, at most `most` of them, into `out`; *cursor is then the place behind the last.
   How many there were: fewer than `most` where the log ends, and none where the first is forgotten. */
static inline size_t jv_read_events(const jv_cache *c, uint32_t bank, uint64_t *cursor, jv_answer *out, size_t most) {
    jv_request r = jv_asks_(JV_VIEW_EVENT); jv_number n;
    r.bank = bank; r.serial = *cursor;
    if (!most) return 0;
    n = jv_read((jv_cache *)c, &r, out, most);
    if (n.status) return 0;
    *cursor += n.serial;
    return (size_t)n.serial;
}
/* How many of the bank's first events are forgotten. */
static inline jv_number jv_forgotten(const jv_cache *c, uint32_t bank) {
    return jv_number_of_bank_(c, JV_VIEW_FORGOTTEN, bank, 0);
}
/* How many more events of the bank need no memory. */
static inline jv_number jv_room(const jv_cache *c, uint32_t bank) {
    return jv_number_of_bank_(c, JV_VIEW_ROOM, bank, 0);
}
/* How many copies the client has in the bank. */
static inline jv_number jv_copies(const jv_cache *c, uint32_t bank, uint32_t client) {
    return jv_number_of_bank_(c, JV_VIEW_COPIES, bank, client);
}
/* 1 where no register of the bank is open, no message waits, no client waits for an answer and nothing passes to the
   memory. */
static inline jv_answer jv_is_quiet(const jv_cache *c, uint32_t bank) {
    return jv_of_bank_(c, JV_VIEW_IS_QUIET, bank, 0, 0);
}
/* The own block of an open register of the bank, by its place among them by rising number; status 4 past the last. */
static inline jv_answer jv_open_block(const jv_cache *c, uint32_t bank, uint64_t place) {
    return jv_of_bank_(c, JV_VIEW_OPEN_BLOCK, bank, 0, place);
}
/* The message at a place among those that wait on a channel, from 0, oldest first, told as when it was sent, with its
   ticket: the first is the one that may be taken. Status 4 past the last, 17 where there is no such channel. */
static inline jv_answer jv_waiting(const jv_cache *c, uint32_t bank, uint32_t client, uint32_t channel,
                                   uint64_t place) {
    jv_request r = jv_asks_(JV_VIEW_WAITING); r.bank = bank; r.client = client; r.channel = channel; r.serial = place;
    return jv_view_(c, &r);
}
/* The message that a ticket names, told as when it was sent; status 4 where it is taken or not yet sent. The serials of
   a channel count its messages from 0, and they are taken in that order. */
static inline jv_answer jv_message(const jv_cache *c, jv_ticket t) {
    jv_request r = jv_asks_(JV_VIEW_MESSAGE); r.bank = t.bank; r.client = t.client; r.channel = t.channel;
    r.serial = t.serial;
    return jv_view_(c, &r);
}
/* A call of the bank that would be done now, but for want of memory for the log (JV_TELLS_CALL): one that takes what is
   under way, or carries out what a register does next. `opcode` is its number (jv_call_number: JV_CALL_ANSWER_PROBE to
   JV_CALL_TAKE_MEMORY, but JV_CALL_EVICT), with the numbers of its ticket or its block. Status 4 just where the bank is
   quiet. */
static inline jv_answer jv_next_call(const jv_cache *c, uint32_t bank) {
    return jv_of_bank_(c, JV_VIEW_NEXT, bank, 0, 0);
}
/* The same as a request, which jv_call and jv_calls take as it is. `next` is as it was where the status is not 0. */
static inline uint32_t jv_next(const jv_cache *c, uint32_t bank, jv_request *next) {
    jv_answer a = jv_next_call(c, bank);
    if (a.status) return a.status;
    *next = jv_asks_(a.opcode);
    next->bank = a.bank; next->client = a.client; next->channel = a.channel; next->serial = a.serial;
    next->place = a.place;
    return JV_OK;
}
/* How many events of a kind (jv_event_kind) the bank's log has, of those that are not forgotten: count before you
   forget. Status 17 where there is no such kind. It goes over the log, so it costs as that is long. */
static inline jv_number jv_count(const jv_cache *c, uint32_t bank, uint32_t kind) {
    jv_request r = jv_asks_(JV_VIEW_COUNT); r.bank = bank; r.param = kind; return jv_look((jv_cache *)c, &r);
}
/* How many events of each kind the logs of all banks have, of those that are not forgotten; 0, or JV_CLOSED, and then
   `counts` is as it was. */
static inline uint32_t jv_counts(const jv_cache *c, jv_event_counts *counts) {
    jv_event_counts all; jv_number n; uint32_t bank, kind;
    memset(&all, 0, sizeof all);
    for (bank = 0; bank < JV_MOST_BANKS; bank++)
        for (kind = 0; kind < JV_EVENT_KINDS; kind++) {
            n = jv_count(c, bank, kind);
            if (n.status == JV_CLOSED) return n.status;
            if (n.status == JV_OK) all.of[kind] += n.serial;
        }
    *counts = all;
    return JV_OK;
}
/* The bytes of the memory by rising address into `bytes`, as many as there are and have room; how many they are, and 0
   of a closed cache. It asks for no memory. What a copy of a client or of home has is not in it: after jv_flush nobody
   has one, and these are the bytes last stored. jv_new of the same numbers with them as its image is a cache that goes
   on from there, but for the logs, the clocks, the tickets' serials and the order of the ways in each set, which are as
   at reset. */
static inline size_t jv_image(const jv_cache *c, uint8_t *bytes, size_t room) {
    jv_request r = jv_asks_(JV_VIEW_MEMORY); jv_number n;
    if (!room) return 0;
    n = jv_memory((jv_cache *)c, &r, bytes, room);
    return n.status == JV_OK ? (size_t)n.serial : 0;
}

/* ---- a judge of events beside a bench

   It is handed the events of a bench one after another, and tells of each at once whether the protocol permits it after
   those before it, as `tlcheck` does of a record (docs/RECORD.md). It needs no cache: the events may be those of a
   design under test. It takes memory for blocks, clients and the messages that wait, and none for the events. One judge
   is of one home. */

typedef struct jj_judge jj_judge; /* opaque, in room of jj_size() bytes; the promises above hold of it as of a cache */

/* Which order of a channel a judge asks for. JJ_WHOLE_CHANNEL: what is taken is the first message of its channel, over
   all blocks; JJ_EACH_BLOCK: of each block alone, as TileLink has it. Take the second where a client or a home answers
   for several blocks in an order of its own (docs/RECORD.md has a table). */
enum jj_order { JJ_WHOLE_CHANNEL = 0, JJ_EACH_BLOCK = 1 };

typedef struct {
    uint32_t clients;       /* 1 to 64 (20) */
    uint32_t block_bytes;   /* 8, 16, 32, 64 (22) */
    uint32_t memory_blocks; /* 1 to 65536 (27) */
    uint32_t order;         /* jj_order (JV_BAD_ARGUMENT) */
} jj_numbers;

/* an event, and the message that was seen to be sent by it; what an event does not use it takes no notice of */
typedef struct {
    uint32_t event;       /* jv_event_kind */
    uint32_t client;
    uint32_t place;       /* the block, or the address of an access */
    uint32_t param;       /* jv_grow of SEND_ACQUIRE, jv_prune of SEND_RELEASE, jv_cap of SEND_PROBE */
    uint32_t shown;       /* 1 where the message is shown, else 0: then nothing is compared */
    uint32_t channel;     /* of the message: jv_channel, A to E */
    uint32_t opcode;      /* jv_opcode */
    uint32_t shown_param; /* its param */
    uint32_t len;         /* how many bytes: 1 to 8 of an access; of the message those of a block where it carries data,
                             else 0 */
    uint8_t bytes[64];
} jj_entry;

typedef struct { /* what is not told is 0 */
    uint32_t status;      /* JV_OK: permitted; JV_NOT_PERMITTED; JV_BAD_ARGUMENT: no entry, and nothing changed;
                             JV_NO_MEMORY; JV_CLOSED */
    uint32_t rule;        /* of JV_NOT_PERMITTED: jj_rule */
    uint32_t opcode, param, len; /* of a rule from JJ_OTHER_MESSAGE on: what the event sends, its bytes with
                                    JJ_OTHER_BYTES alone */
    uint32_t perm;        /* what the client may do with the block (jv_perm_number): after the entry; before it where it
                             is not permitted. Of an event without a client, client 0 */
    uint32_t is_at_home;  /* 1 where home has a copy of the block, likewise */
    uint32_t why;         /* of JV_CLOSED: 20, 22, 27, JV_BAD_ARGUMENT (the order), JV_OUT_OF_RANGE (the image),
                             JV_NO_MEMORY, or JV_CLOSED by its caller */
    uint8_t bytes[64];
} jj_verdict;

enum jj_rule { /* what an entry breaks, in words by jj_rule_name: the sentences of tlcheck */
    JJ_NO_RULE, JJ_BLOCK_IS_THERE, JJ_CLIENT_IS_THERE, JJ_ACCESS_FITS, JJ_COPY_IS_READABLE, JJ_LOAD_HAS_ITS_BYTES,
    JJ_COPY_IS_WRITABLE, JJ_NO_ACQUIRE_UNANSWERED, JJ_NO_RELEASE_BESIDE_ACQUIRE, JJ_STARTS_FROM_ITS_COPY,
    JJ_PROBE_WAITS, JJ_NO_RELEASE_UNANSWERED, JJ_GRANT_IS_FIRST, JJ_RELEASE_ACK_IS_FIRST, JJ_ACQUIRE_WAITS,
    JJ_SERVES_NO_ACQUIRE, JJ_RECORD_IS_ABOVE, JJ_CLIENT_HAS_NO_PROBE, JJ_NO_GRANT_IS_PENDING, JJ_ONE_GRANT_IS_PENDING,
    JJ_MESSAGE_IS_ON_C, JJ_SERVES_THIS_CLIENT, JJ_OTHERS_LEAVE_ROOM, JJ_HOME_HAS_THE_BLOCK, JJ_NO_PROBE_IS_PENDING,
    JJ_NOTHING_IS_PENDING, JJ_GRANT_ACK_WAITS, JJ_SERVES_AN_ACQUIRE, JJ_HOME_LACKS_THE_BLOCK, JJ_NOTHING_IS_OUTWARD,
    JJ_REQUEST_IS_OUTWARD, JJ_DATA_IS_OUTWARD, JJ_PUT_ACK_IS_OUTWARD, JJ_COPY_IS_CLEAN, JJ_COPY_IS_DIRTY,
    JJ_NOBODY_IS_RECORDED,
    JJ_OUT_OF_ORDER, /* another message is first on the channel; never with JJ_EACH_BLOCK */
    /* the message that is shown is not the one that the event sends */
    JJ_NOTHING_IS_SENT, JJ_OTHER_MESSAGE, JJ_OTHER_PARAM, JJ_DATA_IS_MISSING, JJ_DATA_IS_EXTRA, JJ_OTHER_BYTES
};

#define JJ_CLOSES 255u /* the event that closes a judge */

JV_AT_(jj_entry, event, 0); JV_AT_(jj_entry, client, 4); JV_AT_(jj_entry, place, 8); JV_AT_(jj_entry, param, 12);
JV_AT_(jj_entry, shown, 16); JV_AT_(jj_entry, channel, 20); JV_AT_(jj_entry, opcode, 24);
JV_AT_(jj_entry, shown_param, 28);
JV_AT_(jj_entry, len, 32); JV_AT_(jj_entry, bytes, 36); JV_ASSERT_(sizeof(jj_entry) == 100, whole_entry);
JV_AT_(jj_verdict, status, 0); JV_AT_(jj_verdict, rule, 4); JV_AT_(jj_verdict, opcode, 8);
JV_AT_(jj_verdict, param, 12);
JV_AT_(jj_verdict, len, 16); JV_AT_(jj_verdict, perm, 20); JV_AT_(jj_verdict, is_at_home, 24);
JV_AT_(jj_verdict, why, 28);
JV_AT_(jj_verdict, bytes, 32); JV_ASSERT_(sizeof(jj_verdict) == 96, whole_verdict);
JV_AT_(jj_numbers, order, 12); JV_ASSERT_(sizeof(jj_numbers) == 16, whole_judge_numbers);

size_t jj_size(void);  /* how many bytes of room a judge needs */
size_t jj_align(void); /* what the room's address divides by */
/* Puts a judge into the room: at reset over the image (0 past it), or closed, for the reason that `why` of each call
   tells. */
void jj_open(const jj_numbers *numbers, const uint8_t *image, size_t image_len, void *room);
/* Takes the entry where it is permitted after those before it. Where it is not, JV_NOT_PERMITTED and the first rule
   that it breaks are told, nothing is taken, and each later call answers just that again, whatever it is handed.
   Likewise JV_NO_MEMORY from the first request for memory on that was refused. Numbers that are no entry are the
   caller's fault (JV_BAD_ARGUMENT), and change nothing: another event, param, channel or opcode; more than 8 bytes of
   an access; a message with a load, a store or an event of home and the memory; bytes with a message that carries none,
   or more than 64. */
jj_verdict jj_see(jj_judge *judge, const jj_entry *entry);

/* A judge in room of malloc's; or NULL, with the reason in *status (which may be NULL) as `why`. */
static inline jj_judge *jj_new(const jj_numbers *numbers, const uint8_t *image, size_t image_len, uint32_t *status) {
    uint32_t why = JV_NO_MEMORY; jj_judge *j = NULL; jj_entry none;
    void *room = jj_align() <= 16 ? malloc(jj_size()) : NULL;
    if (room) {
        jj_verdict v;
        jj_open(numbers, image_len ? image : (const uint8_t *)"", image_len, room);
        j = (jj_judge *)room;
        memset(&none, 0, sizeof none); none.event = 254; /* no entry: an open judge answers 17 */
        v = jj_see(j, &none);
        why = v.status == JV_CLOSED ? v.why : 0;
        if (why) { free(room); j = NULL; }
    }
    if (status) *status = why;
    return j;
}
/* Gives all that the judge holds back; the room is the caller's again. */
static inline void jj_close(jj_judge *j) {
    if (j) { jj_entry e; memset(&e, 0, sizeof e); e.event = JJ_CLOSES; (void)jj_see(j, &e); }
}
/* Closes a judge of jj_new and gives its room back. */
static inline void jj_free(jj_judge *j) { if (j) { jj_close(j); free(j); } }
/* An entry of an event that is no access, with nothing shown. */
static inline jj_entry jj_event(uint32_t event, uint32_t client, uint32_t block, uint32_t param) {
    jj_entry e; memset(&e, 0, sizeof e); e.event = event; e.client = client; e.place = block; e.param = param; return e;
}
/* The entry of an event of a log, as jv_event and jv_read_events tell it. */
static inline jj_entry jj_of_event(const jv_answer *a) {
    jj_entry e; int accesses = a->opcode == JV_EVENT_LOAD || a->opcode == JV_EVENT_STORE;
    e = jj_event(a->opcode, a->client, accesses ? a->address : a->place, a->param);
    if (accesses) { e.len = a->len; memcpy(e.bytes, a->bytes, 8); }
    return e;
}
/* The entry with the message that was seen, as an answer of a call tells it. */
static inline jj_entry jj_showing(jj_entry e, const jv_answer *message) {
    e.shown = 1; e.channel = message->channel; e.opcode = message->opcode; e.shown_param = message->param;
    e.len = message->len;
    memcpy(e.bytes, message->bytes, 64);
    return e;
}
static inline const char *jj_rule_name(uint32_t rule) {
    static const char *const names[] = {
        "no rule", "the block is one of the memory", "the client is one of the clients",
        "an access is of 1 to 8 bytes in one block", "a load needs a copy at Branch or Tip",
        "a load gets the bytes of its copy", "a store needs a copy at Tip",
        "no Acquire is sent between an Acquire and its Grant", "no Release is sent between an Acquire and its Grant",
        "what is asked for or given up starts from the permission of the copy",
        "an answer to a Probe needs a Probe on B",
        "no ProbeAck, Acquire or Release is sent between a Release and its ReleaseAck",
        "a Grant is taken where one is first on D", "a ReleaseAck is taken where one is first on D",
        "an Acquire is accepted where one is on A", "home serves no other Acquire of the block",
        "a Probe asks for less than home records", "no earlier Probe of the block is unanswered at the client",
        "no Grant of the block is pending", "one Grant of the block is pending at a time",
        "home takes a message of C where one waits", "a Grant answers the Acquire that home serves",
        "beside a Grant toT every other record is None, and beside a Grant toB none is Tip",
        "home has a copy of the block", "no Probe of the block is unanswered",
        "home gives up only a block of which no Probe and no Grant is pending", "a GrantAck is taken where one is on E",
        "home serves an Acquire of the block", "home has no copy of the block",
        "nothing passes between home and the memory for the block",
        "the memory answers a Get or a PutFullData that is on its way",
        "home takes data where the answer to a Get is on its way",
        "home takes an acknowledgement where that of a PutFullData is on its way", "a copy that is dropped is clean",
        "a copy that is written back is dirty", "home gives up only a block of which nobody has a copy",
        "a message is taken where it is the first of its channel",
        "what is shown is what the event sends: it sends no message",
        "what is shown is what the event sends: it sends another message",
        "what is shown is what the event sends: it sends another parameter",
        "what is shown is what the event sends: the data is missing",
        "what is shown is what the event sends: it sends no data",
        "what is shown is what the event sends: it sends other bytes"};
    return rule < sizeof names / sizeof *names ? names[rule] : "no such rule";
}

/* ---- a judge of messages at one client's pins

   It is handed what a monitor sees at the pins of one client, a line at a time, and tells of each at once whether it
   may be seen there after those before it, as `tlwire` does of a record that is `seen at client N` (docs/RECORD.md).
   Where it may not, no lawful run of the protocol, over any image, is seen so, whatever home and the other clients do:
   so it needs no image and no event of home. Hand in a message on A or C as the client sends it, one on D as the client
   takes it, a load and a store as the core makes them. Lines of another client and messages on B and E may be handed in
   too, and break nothing. It takes memory for the blocks that the client's lines are of, and none for the lines. */

typedef struct jp_judge jp_judge; /* opaque, in room of jp_size() bytes; the promises above hold of it as of a cache */

typedef struct {
    jj_numbers of;         /* the clients, the bytes of a block, the blocks of the memory (20, 22, 27); its order is not
                              looked at, since a client's pins show that of each block alone */
    uint32_t client;       /* at whose pins it judges: below `clients` (JV_OUT_OF_RANGE) */
    uint32_t cores_unseen; /* 0 where the client's loads and stores are handed in, 1 where nobody watches its core
                              (JV_BAD_ARGUMENT) */
} jp_numbers;

enum jp_what { JP_LOAD, JP_STORE, JP_MESSAGE };

#define JP_CLOSES 255u /* as `what` of a line it closes a judge */

typedef struct { /* a load, a store, or a message on a client's link; what a line does not use it takes no notice of */
    uint32_t what;    /* jp_what */
    uint32_t client;
    uint32_t place;   /* the block of a message, or the address of an access */
    uint32_t channel; /* of a message: jv_channel, A to E */
    uint32_t opcode;  /* jv_opcode */
    uint32_t param;
    uint32_t len;     /* how many bytes: 1 to 8 of an access; of a message those of a block where it carries data, else
                         0 */
    uint8_t bytes[64];
} jp_line;

enum jp_wait { JP_NOTHING, JP_GRANT, JP_RELEASE_ACK };

typedef struct { /* what is not told is 0 */
    uint32_t status; /* JV_OK: it may be seen; JV_NOT_PERMITTED: it may not; JV_BAD_ARGUMENT: no line, and nothing
                        changed; JV_NO_MEMORY; JV_CLOSED */
    uint32_t rule;   /* of JV_NOT_PERMITTED: jj_rule */
    uint32_t opcode, param, len; /* of a rule from JJ_OTHER_MESSAGE on: what the client would send, its bytes with
                                    JJ_OTHER_BYTES alone */
    uint32_t perm;   /* what the judge's client may do with the line's block (jv_perm_number): behind the line; before
                        it where it may not be seen */
    uint32_t wait;   /* what it waits for (jp_wait), likewise */
    uint32_t why;    /* of JV_CLOSED: 20, 22, 27, JV_OUT_OF_RANGE, JV_BAD_ARGUMENT, or JV_CLOSED by its caller */
    uint8_t bytes[64];
} jp_verdict;

JV_AT_(jp_numbers, client, 16); JV_AT_(jp_numbers, cores_unseen, 20);
JV_ASSERT_(sizeof(jp_numbers) == 24, whole_pins_numbers);
JV_AT_(jp_line, what, 0); JV_AT_(jp_line, client, 4); JV_AT_(jp_line, place, 8); JV_AT_(jp_line, channel, 12);
JV_AT_(jp_line, opcode, 16);
JV_AT_(jp_line, param, 20); JV_AT_(jp_line, len, 24); JV_AT_(jp_line, bytes, 28);
JV_ASSERT_(sizeof(jp_line) == 92, whole_line);
JV_AT_(jp_verdict, status, 0); JV_AT_(jp_verdict, rule, 4); JV_AT_(jp_verdict, opcode, 8);
JV_AT_(jp_verdict, param, 12);
JV_AT_(jp_verdict, len, 16); JV_AT_(jp_verdict, perm, 20); JV_AT_(jp_verdict, wait, 24); JV_AT_(jp_verdict, why, 28);
JV_AT_(jp_verdict, bytes, 32); JV_ASSERT_(sizeof(jp_verdict) == 96, whole_pins_verdict);

size_t jp_size(void);  /* how many bytes of room a judge needs */
size_t jp_align(void); /* what the room's address divides by */
/* Puts a judge into the room: at the client's pins, of which it saw no line yet, or closed, for the reason that `why`
   of each call tells. */
void jp_open(const jp_numbers *numbers, void *room);
/* Takes the line where it may be seen after those before it. Where it may not, JV_NOT_PERMITTED and the rule that it
   breaks are told, and each later call answers just that again, whatever it is handed. Likewise JV_NO_MEMORY from the
   first request for memory on that was refused. Numbers that are no line are the caller's fault (JV_BAD_ARGUMENT), and
   change nothing: another `what`, a client, a block or an address that is not there; more than 8 bytes of an access, or
   an access where nobody watches the core; another channel, opcode or param, or one that this profile does not have;
   bytes with a message that carries none, or other than a block's with one that does. */
jp_verdict jp_see(jp_judge *judge, const jp_line *line);

/* A judge in room of malloc's; or NULL, with the reason in *status (which may be NULL) as `why`. */
static inline jp_judge *jp_new(const jp_numbers *numbers, uint32_t *status) {
    uint32_t why = JV_NO_MEMORY; jp_judge *j = NULL; jp_line none;
    void *room = jp_align() <= 16 ? malloc(jp_size()) : NULL;
    if (room) {
        jp_verdict v;
        jp_open(numbers, room);
        j = (jp_judge *)room;
        memset(&none, 0, sizeof none); none.what = 254; /* no line: an open judge answers 17 */
        v = jp_see(j, &none);
        why = v.status == JV_CLOSED ? v.why : 0;
        if (why) { free(room); j = NULL; }
    }
    if (status) *status = why;
    return j;
}
/* Gives all that the judge holds back; the room is the caller's again. */
static inline void jp_close(jp_judge *j) {
    if (j) { jp_line l; memset(&l, 0, sizeof l); l.what = JP_CLOSES; (void)jp_see(j, &l); }
}
/* Closes a judge of jp_new and gives its room back. */
static inline void jp_free(jp_judge *j) { if (j) { jp_close(j); free(j); } }
/* The line of a message; bytes may be NULL where len is 0. More than 64 bytes are handed in as 65, which is no line. */
static inline jp_line jp_message(uint32_t client, uint32_t block, uint32_t channel, uint32_t opcode, uint32_t param,
                                 const uint8_t *bytes,
    uint32_t len) {
    jp_line l; memset(&l, 0, sizeof l);
    l.what = JP_MESSAGE; l.client = client; l.place = block; l.channel = channel; l.opcode = opcode; l.param = param;
    l.len = len > 64 ? 65 : len;
    if (len) memcpy(l.bytes, bytes, len > 64 ? 64 : len);
    return l;
}
/* The line of a load or a store of 1 to 8 bytes. More are handed in as 9, which is no line. */
static inline jp_line jp_access(uint32_t what, uint32_t client, uint32_t address, const uint8_t *bytes, uint32_t len) {
    jp_line l; memset(&l, 0, sizeof l);
    l.what = what; l.client = client; l.place = address; l.len = len > 8 ? 9 : len;
    if (len) memcpy(l.bytes, bytes, len > 8 ? 8 : len);
    return l;
}
#ifdef __cplusplus
}
#endif
#endif
