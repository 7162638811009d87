/* Soizkadur, the MME (mobility management entity) of LTE, as a library for C and C++.
 *
 * A handle holds an MME. The caller owns the handle:
 *
 *     soizkadur_mme mme = SOIZKADUR_EMPTY;
 *     soizkadur_fault fault;
 *     if (soizkadur_new(&mme, lines, length, &fault) == SOIZKADUR_OK) {
 *         size_t count = 0;
 *         soizkadur_up(&mme, 0);
 *         soizkadur_in(&mme, 0, octets, octets_length);
 *         soizkadur_count(&mme, 0, &count);
 *         for (size_t index = 0; index < count; index++) {
 *             uint8_t buffer[16388];
 *             soizkadur_output output;
 *             if (soizkadur_out(&mme, 0, index, &output, buffer, sizeof buffer) == SOIZKADUR_OK)
 *                 ... output.length octets of buffer go to station output.station ...
 *         }
 *     }
 *     soizkadur_free(&mme);
 *
 * soizkadur_up is only the connection: the first message of a station is S1 SETUP REQUEST, and no other is taken before it. This
 * one fits the line `mme 001 01 8001 01 ..`, and is of the macro eNB 1 with tracking area 1:
 *
 *     0011001f000003003b00080000f11000000010004000070000004000f1100089400140
 *
 * WHAT IS SPOKEN. S1AP (TS 36.413) and EPS NAS (TS 24.301) of Release 8, in a profile: set-up and reset of stations, attach,
 * authentication, security mode, service request, paging, tracking area update, path switch, release and detach, with one default
 * bearer for each phone. Integrity is by 128-EIA2, which a phone has to offer, and ciphering is null. The elements of a message may
 * be in any order. Octets that aren't a message of the profile, a wrong S1 SETUP REQUEST too, are answered, if at all, by ERROR
 * INDICATION with the cause and without Criticality Diagnostics. docs/PROFILE.md has each message and element.
 *
 * To compile and link: cc -I FOLDER test.c FOLDER/libsoizkadur.a, or with the shared object
 * cc -I FOLDER test.c -L FOLDER -lsoizkadur -Wl,-rpath,FOLDER.
 *
 * Each call does what the comment above it says: this is proved, for every handle and all arguments that keep the rules below,
 * whichever allocations fail (crates/mme_c/src has the contracts). It is also proved that no call reads or writes outside what it
 * is given or owns, that none overflows, and that each returns. No call takes a lock, blocks, reads a file or a clock, or keeps a
 * pointer that it is given.
 *
 * A call that is refused answers why, by a number of `enum soizkadur_refusal`. What the handle holds, and everything that the call
 * would write, is then as it was; if a call departs from this, its comment says so. If there are several causes, the first one
 * counts: an empty handle (for soizkadur_new, one that isn't empty), then the arguments from the left, then the others.
 *
 * WHAT THE CALLER HAS TO UPHOLD. Nothing checks it.
 *
 * - A handle begins as SOIZKADUR_EMPTY (all zero), which in C is an initializer and can't be assigned. The word in a handle belongs
 *   to the library: the caller doesn't read, write or compare it.
 * - A handle isn't copied: a copy would be freed twice. One that is moved (memcpy, realloc, return by value) is used only at its
 *   new place.
 * - A handle stays on the thread that first used it. Different threads may use different handles at once, and any thread may make
 *   the calls without a handle.
 * - No pointer to a handle or to what a call writes is NULL. A pointer to octets or to a buffer may be NULL if its length is 0.
 * - Each pointer is to as many octets, or to one whole value, as the call says. They can be read during the whole call, and written
 *   if the call writes them, and the pointer is aligned for its type. Nothing that a call writes overlaps another argument. No
 *   length is 2^63 or more.
 * - Each handle is freed by soizkadur_free when it isn't needed any more. A second call does no harm; a handle that is lost is a
 *   leak.
 * - malloc, realloc and free belong to one allocator, which aligns as the C library's does.
 * - No call is made from a signal handler, or in the forked child of a process with threads.
 *
 * Octets are passed as a pointer and their number. An IMSI is 14 or 15 ASCII digits, without a NUL: a pointer and their number.
 * A station (eNodeB) is a number from 0 to 127, which the caller gives to a connection.
 */
#ifndef SOIZKADUR_H
#define SOIZKADUR_H

#include <stddef.h>
#include <stdint.h>

#ifdef __cplusplus
extern "C" {
#endif

/* NULL, or the pointer to what only this handle owns. */
typedef struct soizkadur_mme {
    void *at;
} soizkadur_mme;

#ifdef __cplusplus
#define SOIZKADUR_EMPTY {nullptr}
#else
#define SOIZKADUR_EMPTY {NULL}
#endif

/* What a call answers: 0, or why it was refused. */
enum soizkadur_refusal {
    SOIZKADUR_OK = 0,

    /* of an event; the numbers are those of the program's answer `refused N` */
    SOIZKADUR_NOT_UP = 1,       /* the station is down */
    SOIZKADUR_ALREADY_UP = 2,   /* the station is not down */
    SOIZKADUR_CLOCK_SPENT = 3,  /* the clock is at its last tick, 2^62 */
    SOIZKADUR_NO_MEMORY = 4,    /* malloc or realloc failed: nothing changed, and the call may be made again */
    SOIZKADUR_UNKNOWN_IMSI = 5, /* nobody is provisioned with the IMSI */

    /* of a line or an argument; less 10, the numbers are those of the program's message `line N: fault M` */
    SOIZKADUR_UNKNOWN_WORD = 11, /* no line begins with this word */
    SOIZKADUR_FIELD_COUNT = 12,  /* too few or too many fields for the word */
    SOIZKADUR_BAD_NUMBER = 13,   /* not a number in its range, not an IMSI, or not a name as it should be */
    SOIZKADUR_BAD_OCTETS = 14,   /* not octets in hex, or not as many octets as it should be */
    SOIZKADUR_TOO_LONG = 15,     /* the line has more than 40000 octets */
    SOIZKADUR_ORDER = 16,        /* out of order: what came before doesn't allow it */
    SOIZKADUR_PROVISION = 17,    /* the subscriber or the vector can't be taken, or nobody has the IMSI */

    /* of a handle */
    SOIZKADUR_NO_MME = 21,    /* the handle is empty, or its MME isn't started */
    SOIZKADUR_IN_USE = 22,    /* the handle isn't empty; it keeps what it holds */
    SOIZKADUR_NO_OUTPUT = 23, /* no reply or no message has this place */
    SOIZKADUR_NO_ROOM = 24,   /* the buffer is too small for the message or the part */
    SOIZKADUR_LOST = 25,      /* memory ran out as the MME was started; nothing is left of what was provisioned */

    /* of a snapshot */
    SOIZKADUR_NOT_SAVED = 26,     /* a part has a state that a snapshot can't have */
    SOIZKADUR_OTHER_VERSION = 27, /* a snapshot of another version */
    SOIZKADUR_NO_SNAPSHOT = 28,   /* the octets are no snapshot */
    SOIZKADUR_TOO_MUCH_WORK = 29, /* more next hops would be derived than the call allows */

    /* octets that are no S1AP message (TS 36.413): 30 plus the number of the first fault from the left. No call says at which
     * octet or in which element it is: build a message that you write by hand element by element */
    SOIZKADUR_S1AP_SYNTAX = 31,            /* they spell nothing at some place (X.691) */
    SOIZKADUR_S1AP_UNKNOWN_PROCEDURE = 32, /* a procedure that isn't of the profile */
    SOIZKADUR_S1AP_MISSING_ELEMENT = 33,   /* a mandatory element is missing */
    SOIZKADUR_S1AP_REPEATED_ELEMENT = 34,  /* an element comes twice */
    SOIZKADUR_S1AP_REFUSED_ELEMENT = 35,   /* an unknown element is marked reject */

    /* of octets that are no NAS message (TS 24.301) */
    SOIZKADUR_NAS_TOO_SHORT = 41,     /* too few octets for a type */
    SOIZKADUR_NAS_MANDATORY = 42,     /* the mandatory part isn't of its form */
    SOIZKADUR_NAS_UNKNOWN_TYPE = 43,  /* no message has this header or this type */
    SOIZKADUR_NAS_OPTIONAL_PART = 44, /* an element of the optional part ends past the octets */
    SOIZKADUR_NAS_NOT_PROTECTED = 45  /* not in the protected form */
};

/* ---- the library */

typedef struct soizkadur_release {
    uint32_t major;
    uint32_t minor;
    uint32_t patch;
} soizkadur_release;

/* The version of the library. */
void soizkadur_version(soizkadur_release *release);

/* ---- an MME, from the lines of a trace (README.md, "A trace") */

/* Why the lines of soizkadur_new were refused: the line's number, counted from 1, and the refusal. */
typedef struct soizkadur_fault {
    uint64_t line;
    uint32_t refusal;
} soizkadur_fault;

/* Makes an MME of the provisioning lines of a trace (`mme`, `sub`, `vec`, comments and empty lines, separated by LF) and starts it:
 * no station is up, no subscriber was ever seen, and the clock is 0. `mme` comes first and only once, a `vec` below the `sub` of
 * its IMSI, and a line that begins with # is a comment. Fields are separated by single spaces:
 *
 *     mme COUNTRY NETWORK GROUP CODE APN DOWN UP    mme 001 01 8001 01 internet 1000000000 1000000000
 *     sub IMSI ADDRESS GATEWAY TUNNEL               sub 001010000000001 0a000001 0a000064 00000001
 *     vec IMSI RAND AUTN XRES KASME                 (the last four are octets in hex)
 *
 * COUNTRY has 3 digits, NETWORK 2 or 3, GROUP 4 hex digits and CODE 2; APN is as in soizkadur_provision_new; DOWN and UP are bits a
 * second, 1 to 10^10. IMSI has 14 or 15 digits; ADDRESS, the phone's, GATEWAY, its S-GW's, and TUNNEL, the S-GW's tunnel end, have
 * 8 hex digits. RAND and AUTN have 16 octets, XRES 4 to 16, KASME 32.
 * Refused: IN_USE; UNKNOWN_WORD to PROVISION, the fault of the first line that isn't taken (ORDER also for the line of an event or
 * a question, and for the last line, the empty one after the last LF, if no line is `mme`); NO_MEMORY if memory ran out at a line,
 * before which all lines were taken; LOST, at the last line, if it ran out as the MME was started. An empty handle stays empty.
 * `fault` names the line that the call is refused at, also if memory ran out there. In all other cases it is as it was: so too if
 * there is no memory for the handle itself, which is also NO_MEMORY. */
uint32_t soizkadur_new(soizkadur_mme *mme, const uint8_t *lines, size_t length, soizkadur_fault *fault);

/* Plays one line of a trace, given without its LF: provisioning, an event, or a question. So if you play a log line by line from an
 * empty handle, you get what the program makes of it. A comment or an empty line does nothing.
 * The first line of an event or a question starts the MME, even if the event is then refused. An event is `up STATION`,
 * `lost STATION`, `in STATION OCTETS` (in hex), `tick`, `tick N` as soizkadur_tick, `data IMSI` or `cancel IMSI`, and leaves the
 * replies that its own call would leave. `show IMSI` answers whether somebody is provisioned with the IMSI; soizkadur_states gives
 * the states.
 * After a line that is taken, a handle that was empty holds what the line made; after one that is refused, it is still empty.
 * Refused: NOT_UP to PROVISION; LOST, if the line was to start the MME, and then nothing is provisioned any more: an MME that runs
 * is never lost. NO_MEMORY may come in place of another refusal. */
uint32_t soizkadur_line(soizkadur_mme *mme, const uint8_t *line, size_t length);

/* How far the lines of a text were played (soizkadur_play). */
typedef struct soizkadur_played {
    uint64_t lines;  /* how many were played whole */
    uint32_t taken;  /* of the next one, at which it stopped: how many of its events were taken and answered; 0 but for `tick N` */
    uint32_t unsaid; /* 1 if one more of its events was taken, which isn't answered: its messages are the replies; otherwise 0 */
    size_t length;   /* the octets of all answers */
} soizkadur_played;

/* Plays the lines of a text, each of which ends with LF, and writes their answers to the start of the buffer, the rest of which
 * stays: what `mme play` prints of these lines, from the MME as it is (README.md, "A trace"). What comes after the last LF is no
 * line and isn't taken: it may be the front of one, which is handed in once all of it has come.
 * The lines are those of soizkadur_line, and the handle may be empty; it isn't after the call, unless there is no memory for it
 * (NO_MEMORY), and then nothing is written. An event that is refused is answered by `refused N`, and `show IMSI` by the states.
 * Refused, if a line is: `lines` lines before it are played, and the answers to be sent are written; it is
 * - UNKNOWN_WORD to PROVISION, and the line is wrong. Nothing of it is done, but that `show IMSI` may have started the MME;
 * - NO_MEMORY; or NO_ROOM, if the answers of an event, or the states, are longer than the rest of the buffer. Of a line `tick N`,
 *   `taken` seconds have passed and are answered. The next event, of any other line its only one, wasn't taken if `unsaid` is 0,
 *   but the MME may have been started for it. If `unsaid` is 1, it was, and none of its messages is answered: soizkadur_count of
 *   reply 0 and soizkadur_out have them;
 * - LOST, as in soizkadur_line.
 * A message is answered in at most 32856 octets, a refused event and `show IMSI` in at most 80. */
uint32_t soizkadur_play(soizkadur_mme *mme, const uint8_t *lines, size_t length, soizkadur_played *played, uint8_t *buffer,
                        size_t room);

/* ---- an MME, made call by call */

/* Begins the provisioning, as the line `mme`. `plmn` is the network in 3 octets, packed as in S1AP (TS 36.413 clause 9.2.3.8: 001
 * 01 is 00 f1 10, and 310 260 is 13 20 06); `group` and `code` are the MME group ID and the MME code; `apn` is one label, 1 to 63
 * ASCII letters, digits and hyphens; `down` and `up` are the most bits a second of all bearers of a phone, 1 to 10^10.
 * Refused: BAD_OCTETS (plmn), BAD_NUMBER (apn, down, up), ORDER if something is provisioned or the MME runs, NO_MEMORY. */
uint32_t soizkadur_provision_new(soizkadur_mme *mme, const uint8_t *plmn, size_t plmn_length, uint16_t group, uint8_t code,
                                 const uint8_t *apn, size_t apn_length, uint64_t down, uint64_t up);

/* Provisions a subscriber, as the line `sub`; its slot is the next one, from 0. `address` is its IPv4 address, `gateway` that of
 * its S-GW, and `teid` the S-GW's tunnel end: numbers, such as 0x0a000001 for 10.0.0.1.
 * Refused: NO_MME for an empty handle, BAD_NUMBER (imsi), ORDER before soizkadur_provision_new and once the MME runs (then
 * soizkadur_add_live does it), PROVISION if another has the IMSI or the address or if 32768 are provisioned, NO_MEMORY. */
uint32_t soizkadur_add(soizkadur_mme *mme, const uint8_t *imsi, size_t imsi_length, uint32_t address, uint32_t gateway,
                       uint32_t teid);

/* Gives a subscriber one more authentication vector (TS 33.401 clause 6.1.2), as the line `vec`: RAND of 16 octets, AUTN of 16,
 * XRES of 4 to 16, KASME of 32. They are used in the order in which they are given. Nothing in them is checked: any octets will do,
 * and a phone's RES is right if it has the octets of XRES, no more and no fewer.
 * Refused: NO_MME for an empty handle, BAD_NUMBER (imsi), BAD_OCTETS (the others), ORDER before soizkadur_provision_new and once
 * the MME runs (then soizkadur_give_live does it), PROVISION if nobody has the IMSI or the subscriber has 64 vectors, NO_MEMORY. */
uint32_t soizkadur_give(soizkadur_mme *mme, const uint8_t *imsi, size_t imsi_length, const uint8_t *rand, size_t rand_length,
                        const uint8_t *autn, size_t autn_length, const uint8_t *xres, size_t xres_length, const uint8_t *kasme,
                        size_t kasme_length);

/* Starts an MME with what is provisioned. If it runs already, nothing changes and the answer is 0.
 * Refused: NO_MME for an empty handle, ORDER if nothing is provisioned; LOST, if no MME runs yet, and then nothing is provisioned
 * any more. */
uint32_t soizkadur_start(soizkadur_mme *mme);

/* ---- an MME that runs is provisioned further. Neither call is an event: nothing is sent, and the replies of the last event stay.
 *      Nobody else's slot, states or vectors change. */

/* Provisions a further subscriber; the arguments are those of soizkadur_add. Its slot is the next one, it has no vectors, and it
 * was never seen.
 * Refused: BAD_NUMBER (imsi), NO_MME if no MME runs, PROVISION if another has the IMSI or the address or if 32768 are provisioned,
 * NO_MEMORY. */
uint32_t soizkadur_add_live(soizkadur_mme *mme, const uint8_t *imsi, size_t imsi_length, uint32_t address, uint32_t gateway,
                            uint32_t teid);

/* Gives a subscriber one more authentication vector, after all others of this subscriber; the arguments are those of
 * soizkadur_give. 64 may be there that aren't spent: a vector is spent once the phone has answered its challenge, or is no longer
 * being authenticated.
 * Refused: BAD_NUMBER (imsi), BAD_OCTETS (the others), NO_MME if no MME runs, UNKNOWN_IMSI, PROVISION if 64 of its vectors aren't
 * spent or it was given 2^62, NO_MEMORY. */
uint32_t soizkadur_give_live(soizkadur_mme *mme, const uint8_t *imsi, size_t imsi_length, const uint8_t *rand, size_t rand_length,
                             const uint8_t *autn, size_t autn_length, const uint8_t *xres, size_t xres_length,
                             const uint8_t *kasme, size_t kasme_length);

/* ---- an MME is saved as octets, and restored from octets to one that replies to every event as the first would have. Whoever has
 *      the octets has the keys: XRES and KASME of each vector that isn't spent, and KASME of each phone with a security context.
 *      docs/SECURITY.md, "Snapshots", has what else is in them. Restore none but the last that was saved: an older one would use
 *      counts and vectors again. */

/* The place after the last part. */
#define SOIZKADUR_SAVED UINT64_MAX

/* Copies a part of a snapshot to the start of the buffer, the rest of which stays, and writes its length. `place` says which part:
 * 0, or what the call before has written there, which is SOIZKADUR_SAVED after the last part. All parts one after another are the
 * snapshot. An event, or provisioning, between two of them makes them parts of different snapshots. What stands first is at 0; at
 * 2^33 + N is the stranger with the least number from N on (SOIZKADUR_STRANGER), or if there is none, how many subscribers there
 * are; and at 2^34 + its slot a subscriber. The MME stays as it was, and so do the replies of the last event, which aren't saved.
 * Refused: NO_MME for an empty handle; BAD_NUMBER for a place that no part has; NO_MME if no MME runs; NOT_SAVED, which no test has
 * come to; NO_ROOM if `room` is less than the part's length: then only `length` is written; NO_MEMORY. 8,192 octets are enough for
 * a subscriber. */
uint32_t soizkadur_save(soizkadur_mme *mme, uint64_t *place, uint8_t *buffer, size_t room, size_t *length);

/* Makes the MME of a snapshot, if the handle is empty: it runs, its clock is where it was, and there are no replies until the next
 * event. Any octets may be given. `work` bounds how many keys are derived: one for each path switch since a phone's last KeNB (TS
 * 33.401 clause A.4), of all phones together.
 * Refused: IN_USE; OTHER_VERSION, and `place` is the version; NO_SNAPSHOT, and `place` is that of the part with the first fault
 * from the left, as soizkadur_save has it, or SOIZKADUR_SAVED if octets at some place spell no part or go on after the last one;
 * TOO_MUCH_WORK; NO_MEMORY. An empty handle stays empty, and `place` stays but for these two. */
uint32_t soizkadur_restore(soizkadur_mme *mme, const uint8_t *octets, size_t length, uint64_t work, uint64_t *place);

/* ---- events. Each answers 0, and its reply is what the MME sends; or it is refused: NO_MME, NO_MEMORY, or as its comment says.
 *      A refused event leaves the MME, and the replies of the last event that was taken, as they were.
 *      If there is another cause, the event is refused for that one, whatever memory there is. */

/* A station connects: only its transport, so nothing is sent. Refused: BAD_NUMBER for a station above 127, ALREADY_UP. */
uint32_t soizkadur_up(soizkadur_mme *mme, uint8_t station);

/* A station's connection is lost. Refused: BAD_NUMBER for a station above 127, NOT_UP. */
uint32_t soizkadur_lost(soizkadur_mme *mme, uint8_t station);

/* A station sends one whole S1AP message. Octets that aren't one aren't refused: the MME answers them by ERROR INDICATION with the
 * cause (TS 36.413 clause 10). Refused: BAD_NUMBER for a station above 127, NOT_UP. */
uint32_t soizkadur_in(soizkadur_mme *mme, uint8_t station, const uint8_t *octets, size_t length);

/* `count` seconds pass, 1 to 1000000, one tick after another. There is a reply for each tick, in order, and each tick is taken or
 * refused by itself: CLOCK_SPENT or NO_MEMORY, as soizkadur_count answers for it; a tick that is refused changes nothing.
 * The call is refused, and no tick is taken: BAD_NUMBER (count), NO_MEMORY if there is no room for the replies. */
uint32_t soizkadur_tick(soizkadur_mme *mme, uint32_t count);

/* Downlink data waits for a subscriber. Refused: BAD_NUMBER (imsi), UNKNOWN_IMSI. */
uint32_t soizkadur_data(soizkadur_mme *mme, const uint8_t *imsi, size_t imsi_length);

/* A subscription is withdrawn. Refused: BAD_NUMBER (imsi), UNKNOWN_IMSI. */
uint32_t soizkadur_cancel(soizkadur_mme *mme, const uint8_t *imsi, size_t imsi_length);

/* ---- the replies of the last event that was taken. These calls change nothing of what the handle holds. */

/* For whom a message is sent. */
enum soizkadur_owner {
    SOIZKADUR_STATION = 1,   /* the station itself; the owner's number is the station's */
    SOIZKADUR_STRANGER = 2,  /* a phone whose subscriber isn't known; 2^31 + its station * 2^24 + its eNB UE S1AP ID */
    SOIZKADUR_SUBSCRIBER = 3 /* a subscriber; its slot */
};

/* A message that is sent to a station. */
typedef struct soizkadur_output {
    uint32_t owner;   /* of `enum soizkadur_owner` */
    uint32_t number;  /* the owner's number */
    uint32_t station; /* the station that it is sent to, 0 to 127 */
    size_t length;    /* its octets, at most 16388 */
} soizkadur_output;

/* How many replies there are: 1, or after soizkadur_tick or a line `tick` as many as there were ticks; 0 before the first event and
 * for an empty handle. */
size_t soizkadur_replies(soizkadur_mme *mme);

/* How many messages the reply at a place has, from 0: 0 for the only one.
 * Refused: NO_MME for an empty handle; NO_OUTPUT if no reply has this place; CLOCK_SPENT or NO_MEMORY if that tick was refused. */
uint32_t soizkadur_count(soizkadur_mme *mme, size_t reply, size_t *count);

/* The message at a place, from 0, of the reply at a place: `output` says for whom, where to and how long it is, and its octets are
 * copied to the start of the buffer, the rest of which stays. Messages are to be sent in this order.
 * Refused: NO_MME for an empty handle; NO_OUTPUT if there is no such message; NO_ROOM if `room` is less than its length: then only
 * `output` is written. */
uint32_t soizkadur_out(soizkadur_mme *mme, size_t reply, size_t index, soizkadur_output *output, uint8_t *buffer, size_t room);

/* ---- questions, and the end */

/* A phone that attaches is COMMON_PROCEDURE_INITIATED and CONNECTED while it is challenged. If its RES is wrong, the event that
 * sends AUTHENTICATION REJECT also sends UE CONTEXT RELEASE COMMAND (cause nas, authentication-failure), and the phone is at once
 * DEREGISTERED, IDLE and INACTIVE: no state waits for UE CONTEXT RELEASE COMPLETE. */
enum soizkadur_emm_state { /* TS 24.301 clause 5.1.3 */
    SOIZKADUR_DEREGISTERED = 0,
    SOIZKADUR_COMMON_PROCEDURE_INITIATED = 1,
    SOIZKADUR_REGISTERED = 2,
    SOIZKADUR_DEREGISTERED_INITIATED = 3
};

/* A phone is IDLE from the event at which the MME sends the UE CONTEXT RELEASE COMMAND that ends its connection: the state doesn't
 * wait for UE CONTEXT RELEASE COMPLETE. It is also IDLE from an event that ends the connection without that command: the station is
 * lost, is set up again or resets the interface or this connection, or another phone comes there under its eNB UE S1AP ID. A UE
 * CONTEXT RELEASE COMMAND for an older connection of the phone, or for one that wasn't taken for it, leaves it CONNECTED. */
enum soizkadur_ecm_state { /* TS 23.401 clause 4.6.3 */
    SOIZKADUR_IDLE = 0,
    SOIZKADUR_CONNECTED = 1
};

enum soizkadur_esm_state { /* of the default bearer, TS 24.301 clause 6.1.3 */
    SOIZKADUR_INACTIVE = 0,
    SOIZKADUR_ACTIVE_PENDING = 1,
    SOIZKADUR_ACTIVE = 2
};

typedef struct soizkadur_subscriber_states {
    uint32_t emm; /* of `enum soizkadur_emm_state` */
    uint32_t ecm; /* of `enum soizkadur_ecm_state` */
    uint32_t esm; /* of `enum soizkadur_esm_state` */
} soizkadur_subscriber_states;

/* The states of the subscriber of an IMSI. Refused: NO_MME, BAD_NUMBER (imsi), UNKNOWN_IMSI. */
uint32_t soizkadur_states(soizkadur_mme *mme, const uint8_t *imsi, size_t imsi_length, soizkadur_subscriber_states *states);

/* The slot of the subscriber of an IMSI: its number in the order of provisioning, from 0. Refused: NO_MME, BAD_NUMBER (imsi),
 * UNKNOWN_IMSI. */
uint32_t soizkadur_slot_of_imsi(soizkadur_mme *mme, const uint8_t *imsi, size_t imsi_length, uint32_t *slot);

/* Frees what the handle holds, if it holds something, and leaves it empty: it may be used again. On an empty one it does
 * nothing. */
void soizkadur_free(soizkadur_mme *mme);

/* ---- messages and keys, for harnesses: calls without a handle, whose answers depend only on their arguments */

enum soizkadur_s1ap_kind {
    SOIZKADUR_S1_SETUP_REQUEST = 1,
    SOIZKADUR_S1_SETUP_RESPONSE = 2,
    SOIZKADUR_S1_SETUP_FAILURE = 3,
    SOIZKADUR_INITIAL_UE_MESSAGE = 4,
    SOIZKADUR_DOWNLINK_NAS_TRANSPORT = 5,
    SOIZKADUR_UPLINK_NAS_TRANSPORT = 6,
    SOIZKADUR_NAS_NON_DELIVERY_INDICATION = 7,
    SOIZKADUR_UE_CAPABILITY_INFO_INDICATION = 8,
    SOIZKADUR_INITIAL_CONTEXT_SETUP_REQUEST = 9,
    SOIZKADUR_INITIAL_CONTEXT_SETUP_RESPONSE = 10,
    SOIZKADUR_INITIAL_CONTEXT_SETUP_FAILURE = 11,
    SOIZKADUR_UE_CONTEXT_RELEASE_REQUEST = 12,
    SOIZKADUR_UE_CONTEXT_RELEASE_COMMAND = 13,
    SOIZKADUR_UE_CONTEXT_RELEASE_COMPLETE = 14,
    SOIZKADUR_PAGING = 15,
    SOIZKADUR_PATH_SWITCH_REQUEST = 16,
    SOIZKADUR_PATH_SWITCH_REQUEST_ACKNOWLEDGE = 17,
    SOIZKADUR_PATH_SWITCH_REQUEST_FAILURE = 18,
    SOIZKADUR_RESET = 19,
    SOIZKADUR_RESET_ACKNOWLEDGE = 20,
    SOIZKADUR_ERROR_INDICATION = 21
};

typedef struct soizkadur_s1ap_message {
    uint32_t kind;          /* of `enum soizkadur_s1ap_kind` */
    uint32_t has_mme_ue_id; /* 1 if the message names one association by its MME UE S1AP ID, otherwise 0 */
    uint32_t mme_ue_id;     /* that ID; 0 if there is none */
    uint32_t has_enb_ue_id; /* 1 if the message names one association by its eNB UE S1AP ID, otherwise 0 */
    uint32_t enb_ue_id;     /* that ID; 0 if there is none */
} soizkadur_s1ap_message;

/* The S1AP message that these octets spell (TS 36.413 clause 9), by its kind and its ids. Refused: S1AP_SYNTAX to
 * S1AP_REFUSED_ELEMENT, the first fault from the left, and a missing element after all others; NO_MEMORY. */
uint32_t soizkadur_s1ap(const uint8_t *octets, size_t length, soizkadur_s1ap_message *message);

/* The direction of a NAS message. */
enum soizkadur_direction {
    SOIZKADUR_UPLINK = 0,
    SOIZKADUR_DOWNLINK = 1
};

/* The EMM messages of the profile, by their message types (TS 24.301 clause 9.8); SERVICE REQUEST, which has none, by its first
 * octet (clause 9.3.1). */
enum soizkadur_emm_message {
    SOIZKADUR_EMM_ATTACH_REQUEST = 0x41,
    SOIZKADUR_EMM_ATTACH_ACCEPT = 0x42,
    SOIZKADUR_EMM_ATTACH_COMPLETE = 0x43,
    SOIZKADUR_EMM_ATTACH_REJECT = 0x44,
    SOIZKADUR_EMM_DETACH_REQUEST = 0x45,
    SOIZKADUR_EMM_DETACH_ACCEPT = 0x46,
    SOIZKADUR_EMM_TRACKING_AREA_UPDATE_REQUEST = 0x48,
    SOIZKADUR_EMM_TRACKING_AREA_UPDATE_ACCEPT = 0x49,
    SOIZKADUR_EMM_TRACKING_AREA_UPDATE_COMPLETE = 0x4a,
    SOIZKADUR_EMM_TRACKING_AREA_UPDATE_REJECT = 0x4b,
    SOIZKADUR_EMM_SERVICE_REJECT = 0x4e,
    SOIZKADUR_EMM_AUTHENTICATION_REQUEST = 0x52,
    SOIZKADUR_EMM_AUTHENTICATION_RESPONSE = 0x53,
    SOIZKADUR_EMM_AUTHENTICATION_REJECT = 0x54,
    SOIZKADUR_EMM_IDENTITY_REQUEST = 0x55,
    SOIZKADUR_EMM_IDENTITY_RESPONSE = 0x56,
    SOIZKADUR_EMM_AUTHENTICATION_FAILURE = 0x5c,
    SOIZKADUR_EMM_SECURITY_MODE_COMMAND = 0x5d,
    SOIZKADUR_EMM_SECURITY_MODE_COMPLETE = 0x5e,
    SOIZKADUR_EMM_SECURITY_MODE_REJECT = 0x5f,
    SOIZKADUR_EMM_EMM_STATUS = 0x60,
    SOIZKADUR_EMM_SERVICE_REQUEST = 0xc7
};

/* The plain EMM message that these octets spell if they are sent in this direction: `kind` is of `enum soizkadur_emm_message`.
 * Refused: BAD_NUMBER (direction), NAS_TOO_SHORT to NAS_OPTIONAL_PART. */
uint32_t soizkadur_nas(const uint8_t *octets, size_t length, uint32_t direction, uint32_t *kind);

/* A NAS message in the protected form (TS 24.301 clause 9.1); its octets from the seventh on are the plain message. */
typedef struct soizkadur_nas_parts {
    uint32_t header;   /* the security header type, 1 to 4 (TS 24.301 clause 9.3.1) */
    uint32_t mac;      /* the message authentication code, its first octet the highest */
    uint32_t sequence; /* the sequence number, 0 to 255 */
} soizkadur_nas_parts;

/* The parts of a NAS message in the protected form. The MAC isn't checked; it is right if soizkadur_eia2 of the octets from the
 * sixth on is the same. Refused: NAS_NOT_PROTECTED. */
uint32_t soizkadur_nas_protected(const uint8_t *octets, size_t length, soizkadur_nas_parts *parts);

/* The MAC of 128-EIA2 of octets under a key of 16 octets (TS 33.401 clause B.2.3), its first octet the highest; the bearer is 0.
 * Refused: BAD_OCTETS (key), BAD_NUMBER (direction). */
uint32_t soizkadur_eia2(const uint8_t *key, size_t key_length, uint32_t count, uint32_t direction, const uint8_t *octets,
                        size_t length, uint32_t *mac);

/* The key KeNB, 32 octets, of KASME, 32 octets, and an uplink NAS COUNT (TS 33.401 clause A.3).
 * Refused: BAD_OCTETS if one of them has another length. */
uint32_t soizkadur_kenb(const uint8_t *kasme, size_t kasme_length, uint32_t count, uint8_t *key, size_t key_length);

/* The next hop key NH, 32 octets, of KASME and the key before it, 32 octets each (TS 33.401 clause A.4).
 * Refused: BAD_OCTETS if one of them has another length. */
uint32_t soizkadur_next_hop(const uint8_t *kasme, size_t kasme_length, const uint8_t *previous, size_t previous_length,
                            uint8_t *key, size_t key_length);

/* The key of NAS integrity by 128-EIA2, 16 octets, of KASME, 32 octets (TS 33.401 clause A.7).
 * Refused: BAD_OCTETS if one of them has another length. */
uint32_t soizkadur_nas_integrity_key(const uint8_t *kasme, size_t kasme_length, uint8_t *key, size_t key_length);

#ifdef __cplusplus
}
#endif
#endif
