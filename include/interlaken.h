/* Both ends of an Interlaken link, for C and C++.
 *
 * This receives the packets of one lane. `plan` is the text of a plan file of `plan_size` bytes,
 * and `lane` has `size` bytes of the lane:
 *
 *     interlaken_receiver r = {0};
 *     interlaken_refusal why;
 *     interlaken_event e = {0};
 *     size_t taken, at = 0;
 *     if (interlaken_receiver_new(&r, plan, plan_size, &why) != INTERLAKEN_DONE) return why.row;
 *     for (; e.kind != INTERLAKEN_ENDED; interlaken_receiver_next(&r, &e)) {
 *       if (e.kind == INTERLAKEN_PACKET) printf("packet of %u bytes\n", (unsigned)e.length);
 *       if (e.kind != INTERLAKEN_NONE) continue;
 *       if (at == size) interlaken_receiver_finish(&r, 0);
 *       else interlaken_receiver_feed(&r, 0, lane + at, size - at, &taken), at += taken;
 *     }
 *     interlaken_receiver_free(&r);
 *
 * Three chapters have what all handles share (RESULTS, OPENING, LANES IN), and then each handle has
 * its own:
 *
 * - RECEIVER: feed it bytes of lanes; it returns packets, fault spans and control words.
 * - TRANSMITTER: give it packets and flow control at any time, and take bytes of lanes.
 * - INSPECTOR: feed it bytes of lanes; it returns wrong words, and locks declared and lost.
 * - GATHERER: feed it bytes of lanes; it returns their words in one order, each with its bit.
 * - CHECKER: give it the words of a sender; it returns each rule that a word breaks.
 * - DAMAGE: it inverts bits of lanes on their way, or forces them to 0.
 *
 * PLAN, the last chapter, has calls without a handle. They read the numbers of a plan, and find a
 * word on the lanes.
 *
 * interlaken(3) is this text with more: terms, threads, memory, stack, the order of channels. Its
 * further text is include/manual.txt. docs/REFERENCE.md has plans, docs/DEFINITIONS.md the
 * protocol. interlaken_text.h has the numbers of the enums in words. */
#ifndef INTERLAKEN_H
#define INTERLAKEN_H

#include <stddef.h>
#include <stdint.h>

#ifdef __cplusplus
extern "C" {
#endif

/* The version of the program, the library and the formats of files. The shared library has the
 * first number in its name. */
#define INTERLAKEN_VERSION "1.7.0"
#define INTERLAKEN_VERSION_MAJOR 1
#define INTERLAKEN_VERSION_MINOR 7
#define INTERLAKEN_VERSION_PATCH 0

/* Returns the version of the library that is linked or loaded: 10,000 * INTERLAKEN_VERSION_MAJOR +
 * 100 * INTERLAKEN_VERSION_MINOR + INTERLAKEN_VERSION_PATCH of its own header. */
uint32_t interlaken_version(void);

/* RESULTS
 *
 * All other calls return an enum interlaken_result. They are defined for all numbers and bytes, as
 * long as
 *
 * - each pointer is valid for what it points to, aligned for its type, and not null. A pointer to
 *   bytes, words or numbers may be null if their count is 0;
 * - no two pointers of one call lead to the same bytes;
 * - a handle is either all zeros, and has nothing, or exactly what the last call left in it. You
 *   may move it. If you copy it, use only one of the two afterwards;
 * - one call at a time uses a handle. Any thread may make the call, but no signal handler.
 *
 * Any other misuse returns an error and changes nothing. A comment lists the results of its call
 * after "Also", in the order of their numbers, except those that go without saying: DONE; the
 * NO_.. of its handle; NO_LANE, if it has a lane.
 *
 * A call writes its outputs whatever the result is. They are 0 if it is not DONE, except
 * `refusal`. Bytes and channels behind those that it counts stay unchanged. Lanes, words, bits and
 * bytes are counted from 0.
 *
 * A later version with the same first number may have further results, kinds, reasons and causes.
 * Pass over an event of an unknown kind, and take an unknown result for a failure. */

enum interlaken_result {
  INTERLAKEN_DONE = 0,            /* the call did what it was asked */
  INTERLAKEN_OUT_OF_MEMORY = 1,   /* no handle was opened, no row or packet added */
  INTERLAKEN_BAD_PLAN = 2,        /* the plan is refused */
  INTERLAKEN_NO_LANE = 3,         /* no lane has this number */
  INTERLAKEN_FINISHED = 4,        /* the lane, transmitter or words were finished before, or the
                                     packets closed */
  INTERLAKEN_TOO_MANY = 5,        /* the lane or the piece has 2^40 bytes or more, the channel
                                     would be given more than 2^60, or the checker has 2^57 words */
  INTERLAKEN_NO_PACKET = 6,       /* the last event was not a packet */
  INTERLAKEN_NO_RECEIVER = 7,     /* the handle has no receiver */
  INTERLAKEN_IN_USE = 8,          /* the handle is open already, and stays as it is */
  INTERLAKEN_NO_DAMAGE = 9,       /* the handle has no damage */
  INTERLAKEN_OUT_OF_RANGE = 10,   /* a number is not allowed; the call says which */
  INTERLAKEN_PASSED = 11,         /* all named bits have passed */
  INTERLAKEN_NO_TRANSMITTER = 12, /* the handle has no transmitter */
  INTERLAKEN_NO_CHANNEL = 13,     /* the plan does not list the channel */
  INTERLAKEN_BAD_LENGTH = 14,     /* the packet has no bytes, or more than `max_packet` */
  INTERLAKEN_NO_INSPECTOR = 15,   /* the handle has no inspector */
  INTERLAKEN_NO_CHECKER = 16,     /* the handle has no checker */
  INTERLAKEN_WAITING = 17,        /* faults wait for `next`: nothing was taken */
  INTERLAKEN_NO_GATHERER = 18,    /* the handle has no gatherer */
  INTERLAKEN_PART_BYTE = 19       /* a part of a byte of the lane is left */
};

/* OPENING
 *
 * `new` opens a handle that has nothing. `plan` is the text of a plan file, of any length; it is
 * not kept. All its rows are read, and refused if they are wrong, but no file that they name is
 * opened or written. `refusal` has the cause INTERLAKEN_NO_CAUSE if the plan is not refused. Also
 * OUT_OF_MEMORY, BAD_PLAN, IN_USE.
 *
 * `free` frees all memory of a handle, which has nothing afterwards. Both members of a handle
 * belong to the library. */

/* Causes of a refusal, as in docs/REFERENCE.md. Rows are counted from 1; empty lines do not
 * count. */
enum interlaken_cause {
  INTERLAKEN_NO_CAUSE = 0,    /* the plan is not refused */
  INTERLAKEN_TEXT = 1,        /* a field is not UTF-8 */
  INTERLAKEN_UNKNOWN_KEY = 2, /* the first field is not a key */
  INTERLAKEN_FIELDS = 3,      /* another number of fields */
  INTERLAKEN_NUMBER = 4,      /* a field lacks its form */
  INTERLAKEN_RANGE = 5,       /* a number, length or count is out of range */
  INTERLAKEN_REPEAT = 6,      /* a second row of its kind */
  INTERLAKEN_MISSING = 7,     /* no row has the key */
  INTERLAKEN_CLASH = 8        /* the row contradicts others */
};

/* Keys that a plan must have. */
enum interlaken_key {
  INTERLAKEN_NO_KEY = 0,        /* no key is missing */
  INTERLAKEN_KEY_LANES = 1,     /* `lanes` */
  INTERLAKEN_KEY_METAFRAME = 2, /* `metaframe` */
  INTERLAKEN_KEY_CHANNEL = 3,   /* `channel` */
  INTERLAKEN_KEY_OUT = 4        /* `out` */
};

/* Why a plan is refused. */
typedef struct interlaken_refusal {
  uint32_t cause; /* an enum interlaken_cause */
  uint32_t row;   /* the row; 0 if a key is missing, or without a cause */
  uint32_t key;   /* an enum interlaken_key: the missing key */
} interlaken_refusal;

/* LANES IN
 *
 * A receiver, an inspector and a gatherer take lanes by the same calls, in pieces of any length and
 * in any order. What they return does not depend on the pieces.
 *
 * - `feed` takes the next bytes of a lane, first bit first: a prefix of `bytes`, of `taken` bytes.
 *   Call `next`, and feed the others again. Also FINISHED, TOO_MANY, PART_BYTE.
 * - `feed_bits` takes the next `count` bits of a lane, 0 to 64: the low `count` bits of `bits`,
 *   most significant first. It feeds the bytes that they complete. The last bits, at most seven,
 *   wait for the rest of their byte. `taken` is how many bits are taken: all, or those that
 *   complete the bytes that are taken. If there are whole bytes and none is taken, no bit is. Feed
 *   the others again. Also FINISHED, TOO_MANY, OUT_OF_RANGE (`count` is above 64).
 * - `finish` ends a lane: no byte of it follows. Also FINISHED, PART_BYTE.
 * - `next` writes what is due, or the kind 0.
 * - `report` writes the report of a lane.
 *
 * `feed` and `finish` return PART_BYTE while a part of a byte waits: feed the missing bits, or
 * zeros, with which a lane file fills its last byte.
 *
 * A receiver and a gatherer use their lanes in step, a byte of each unfinished lane at a time. Each
 * lane has a ring of 4,096 bytes for those that are not used yet, and `feed` takes as many as there
 * is room for. `next` makes room, but only as far as the other lanes were fed.
 *
 * - The kind 0 means that an unfinished lane has an empty ring: feed or finish that lane. Other
 *   rings may be full.
 * - `next` returns what byte n of a lane shows once n + 1 bytes of each unfinished lane were fed. A
 *   lane that is fed further than the others does not bring it sooner.
 * - Once all lanes are finished and all else was returned, `next` writes the kind ..ENDED once,
 *   then 0. */

/* The place of a word that is not a framing word. A group is the words of a metaframe of all lanes,
 * without framing words. */
typedef struct interlaken_place {
  uint32_t known; /* 1 if there is a place; otherwise 0, and so are index and group */
  uint32_t index; /* the word in its group */
  uint64_t group; /* the group: the received bit of lane 0 at which its Sync word begins */
} interlaken_place;

/* The locks of a lane and the wrong words that they cover, in the bytes that were used so far. An
 * inspector uses all bytes that it takes. */
typedef struct interlaken_report {
  uint64_t locks;     /* declared locks */
  uint64_t has_first; /* 1 if a lock was declared; otherwise 0 */
  uint64_t first;     /* the bit of the Sync word that declared the first lock; 0 without one */
  uint64_t lost;      /* declared locks that were lost */
  uint64_t unframed;  /* word locks lost, and searches given up, before a declaration */
  uint64_t bad;       /* bad words */
  uint64_t sync;      /* wrong Sync words */
  uint64_t state;     /* wrong Scrambler State words */
  uint64_t diag;      /* wrong Diagnostic words */
} interlaken_report;

/* RECEIVER
 *
 * It returns what the command `receive` finds in the lanes. */

typedef struct interlaken_receiver {
  void *at;
  uint8_t live;
} interlaken_receiver;

/* Kinds of events. */
enum interlaken_kind {
  INTERLAKEN_NONE = 0,    /* no event: a lane needs bytes, or the end was returned */
  INTERLAKEN_PACKET = 1,  /* a packet: channel, length, first, last; read its bytes before the
                             next call of `next` */
  INTERLAKEN_DROPPED = 2, /* a fragment of a packet is dropped: channel, why (interlaken_drop) */
  INTERLAKEN_SPAN = 3,    /* a fault span: first, last, why (interlaken_fault) */
  INTERLAKEN_FLOW = 4,    /* every verified control word: first, word; it carries flow control */
  INTERLAKEN_ENDED = 5    /* the end */
};

/* Why a fragment of a packet is dropped. BAD, CRC, LOST and END came before it was whole. */
enum interlaken_drop {
  INTERLAKEN_DROP_BAD = 0,         /* a bad word */
  INTERLAKEN_DROP_CRC = 1,         /* a wrong CRC24 */
  INTERLAKEN_DROP_PROTOCOL = 2,    /* the words broke the rules; or a packet began inside another,
                                      or without SOP */
  INTERLAKEN_DROP_LOST = 3,        /* a lane lost its lock */
  INTERLAKEN_DROP_END = 4,         /* the words ended */
  INTERLAKEN_DROP_TOO_LONG = 5,    /* longer than the plan's `max_packet` */
  INTERLAKEN_DROP_UNLISTED = 6,    /* the plan does not list the channel */
  INTERLAKEN_DROP_SENDER_ERROR = 7 /* the sender ended it with an error */
};

/* Why there is a fault span: the first reason, as in docs/REFERENCE.md. */
enum interlaken_fault {
  INTERLAKEN_FAULT_START = 0,    /* no control word was verified before */
  INTERLAKEN_FAULT_BAD = 1,      /* a bad word */
  INTERLAKEN_FAULT_CRC = 2,      /* a wrong CRC24 */
  INTERLAKEN_FAULT_PROTOCOL = 3, /* broken rules of bursts and ends */
  INTERLAKEN_FAULT_LOST = 4,     /* a lane lost its lock */
  INTERLAKEN_FAULT_END = 5       /* a lane's bits, or the words, ended */
};

/* How far the search for the locks of a lane is. */
enum interlaken_lane_state {
  INTERLAKEN_LANE_SEARCHING = 0, /* no word lock: not yet, lost or given up */
  INTERLAKEN_LANE_WORD_LOCK = 1, /* in a word lock, without a declared lock */
  INTERLAKEN_LANE_DECLARED = 2   /* in a declared lock */
};

/* An event. A member that its kind lacks is 0. */
typedef struct interlaken_event {
  uint32_t kind;          /* an enum interlaken_kind */
  uint32_t channel;       /* 0 to 65535 */
  uint32_t length;        /* bytes of the packet */
  uint32_t why;           /* an enum interlaken_drop or enum interlaken_fault */
  interlaken_place first; /* a packet's SOP word; the verified word before a span; a control word */
  interlaken_place last;  /* the word that ends a packet; the verified word after a span */
  uint64_t word;          /* a control word */
} interlaken_event;

/* OPENING has these. The receiver has the plan's lanes and channels. */
uint32_t interlaken_receiver_new(interlaken_receiver *receiver, const uint8_t *plan, size_t count,
                                 interlaken_refusal *refusal);
uint32_t interlaken_receiver_free(interlaken_receiver *receiver);

/* LANES IN has these. */
uint32_t interlaken_receiver_feed(interlaken_receiver *receiver, uint32_t lane,
                                  const uint8_t *bytes, size_t count, size_t *taken);
uint32_t interlaken_receiver_feed_bits(interlaken_receiver *receiver, uint32_t lane,
                                       uint64_t bits, uint32_t count, uint32_t *taken);
uint32_t interlaken_receiver_finish(interlaken_receiver *receiver, uint32_t lane);
uint32_t interlaken_receiver_next(interlaken_receiver *receiver, interlaken_event *event);
uint32_t interlaken_receiver_report(interlaken_receiver *receiver, uint32_t lane,
                                    interlaken_report *report);

/* Copies bytes of the packet that `next` returned last, from `offset` on: as many as exist and as
 * `count` allows. `copied` is how many. Also NO_PACKET. */
uint32_t interlaken_receiver_read(interlaken_receiver *receiver, uint32_t offset, uint8_t *bytes,
                                  size_t count, size_t *copied);

/* Writes how far the search for the locks of a lane is in the bytes that were used so far: an enum
 * interlaken_lane_state. */
uint32_t interlaken_receiver_lane_state(interlaken_receiver *receiver, uint32_t lane,
                                        uint32_t *state);

/* Writes whether the far end lets packets be sent on a channel: 1 or 0. It does by the plan's
 * calendar and the control words that `next` returned as INTERLAKEN_FLOW. A channel is on until an
 * entry turns it off; a listed channel without an entry stays on. After a fault span no word counts
 * up to the next with Reset Calendar. Also NO_CHANNEL. */
uint32_t interlaken_receiver_is_on(interlaken_receiver *receiver, uint16_t channel, uint32_t *on);

/* TRANSMITTER
 *
 * The words of the link are made one by one, when bytes of its lanes are taken. So what is given
 * counts from the next word on.
 *
 * All lanes are in step. Up to 4,096 bytes of each wait until they are taken. A lane that is not
 * taken holds back the others, so take all lanes in turn. As long as no packet waits, or none may
 * be sent, idle words are made: the lanes go on until `finish`.
 *
 * After `finish`, take each lane until its status has `ended` 1 and `waiting` 0. If `take` returns
 * 0 bytes before, take the other lanes. A lane that is taken by bits may then have up to seven bits
 * left: call `take_bits` until it takes none. */

typedef struct interlaken_transmitter {
  void *at;
  uint8_t live;
} interlaken_transmitter;

/* What a transmitter was given on a channel, and what it sent of it. A burst is sent once its
 * control word was made. From then on all its bytes count; its packet counts, too, if the burst is
 * the packet's last. */
typedef struct interlaken_counts {
  uint64_t packets_given;
  uint64_t packets_sent;
  uint64_t bytes_given; /* 2^60 at most */
  uint64_t bytes_sent;
} interlaken_counts;

/* The state of a lane of a transmitter, and what is left to send. */
typedef struct interlaken_transmitter_status {
  uint64_t waiting; /* bytes of the lane that were made and not taken, without a part of a byte */
  uint64_t left;    /* packets of all channels that were given and are not sent; 2^64 - 1 at most */
  uint32_t ended;   /* 1 if no byte more is made; otherwise 0. It becomes 1 in a call of `take` or
                       `take_bits` that finds the last word made and no lane full; until then it is
                       0, though no word may follow */
  uint32_t held;    /* 1 if a lane is full: 4,088 bytes or more of it wait; otherwise 0. No word is
                       made before some of them are taken */
} interlaken_transmitter_status;

/* OPENING has these. The transmitter has the plan's lanes, channels and calendar. All channels are
 * on. What was not sent is lost when it is freed. */
uint32_t interlaken_transmitter_new(interlaken_transmitter *transmitter, const uint8_t *plan,
                                    size_t count, interlaken_refusal *refusal);
uint32_t interlaken_transmitter_free(interlaken_transmitter *transmitter);

/* Queues a packet of 1 to `max_packet` bytes on a channel, after the channel's others. The bytes
 * are copied. Also OUT_OF_MEMORY, FINISHED (after `close` or `finish`), TOO_MANY, NO_CHANNEL,
 * BAD_LENGTH; then it is not queued. */
uint32_t interlaken_transmitter_packet(interlaken_transmitter *transmitter, uint16_t channel,
                                       const uint8_t *bytes, size_t count);

/* Passes on a control word of the far end, as INTERLAKEN_FLOW has it; its CRC24 is not looked at.
 * The word turns channels off and on by the plan's calendar. On a channel that is off no burst
 * begins. A channel keeps the state of its most recent calendar entry.
 *
 * No word counts until one with Reset Calendar. After a fault span, in which words may be missing,
 * pass 0, which is not a control word: it turns no channel, and no word counts up to the next with
 * Reset Calendar. Also FINISHED (after `finish`). */
uint32_t interlaken_transmitter_flow(interlaken_transmitter *transmitter, uint64_t word);

/* Says whether the far end may send on a channel: it may if `on` is not 0. The control words carry
 * this by the plan's calendar. A channel is on until a call turns it off. A listed channel without
 * an entry is accepted, and nothing carries its state. Also FINISHED (after `finish`),
 * NO_CHANNEL. */
uint32_t interlaken_transmitter_local(interlaken_transmitter *transmitter, uint16_t channel,
                                      uint32_t on);

/* Takes the next bytes of a lane, first bit first: `taken` is how many. While fewer than `count`
 * wait, it makes words, unless a lane is full or the lanes have ended. Fewer bytes do not mean the
 * end: `status_of` has that. Also PART_BYTE, while `take_bits` has left a part of a byte. */
uint32_t interlaken_transmitter_take(interlaken_transmitter *transmitter, uint32_t lane,
                                     uint8_t *bytes, size_t count, size_t *taken);

/* Takes the next `count` bits of a lane, 0 to 64, as the low bits of `bits`, first bit highest.
 * `taken` is how many. Bytes are taken as by `take`, as many as complete the bits. The last bits
 * of the last byte, at most seven, wait for the next call. Also OUT_OF_RANGE (`count` is above
 * 64). */
uint32_t interlaken_transmitter_take_bits(interlaken_transmitter *transmitter, uint32_t lane,
                                          uint32_t count, uint64_t *bits, uint32_t *taken);

/* Closes the packets: none may follow. `flow` and `local` count as before, and the lanes go on. So
 * packets on a channel that is off can still be sent. Go on until `left` is 0, then `finish`. A
 * second call, or one after `finish`, changes nothing. */
uint32_t interlaken_transmitter_close(interlaken_transmitter *transmitter);

/* Ends the input: no packet or flow control may follow. Queued packets are sent on channels that
 * are on, and no others. The lanes end a few metaframes later. A second call changes nothing. */
uint32_t interlaken_transmitter_finish(interlaken_transmitter *transmitter);

/* Writes what was given on a channel so far, and what was sent of it. Also NO_CHANNEL. */
uint32_t interlaken_transmitter_sent(interlaken_transmitter *transmitter, uint16_t channel,
                                     interlaken_counts *counts);

/* Writes the state of a lane, and how many packets are left. It takes time for each channel of the
 * plan. */
uint32_t interlaken_transmitter_status_of(interlaken_transmitter *transmitter, uint32_t lane,
                                          interlaken_transmitter_status *status);

/* Writes how many payload words of all lanes were made so far: the number of the next one. */
uint32_t interlaken_transmitter_slots(interlaken_transmitter *transmitter, uint64_t *slots);

/* INSPECTOR
 *
 * It looks at each lane by itself, and shows what a receiver only counts or does not look at. The
 * events of a lane are the events of the command `inspect`, in its order. They do not depend on the
 * other lanes. */

typedef struct interlaken_inspector {
  void *at;
  uint8_t live;
} interlaken_inspector;

/* What a lane shows at a word, as docs/REFERENCE.md has it (inspect). The first seven are of words
 * that a declared lock covers. */
enum interlaken_lane_kind {
  INTERLAKEN_NO_LANE_EVENT = 0,             /* no event is due on any lane */
  INTERLAKEN_LANE_EVENT_BAD_WORD = 1,       /* a bad word */
  INTERLAKEN_LANE_EVENT_BAD_SYNC = 2,       /* a wrong Sync word */
  INTERLAKEN_LANE_EVENT_BAD_STATE = 3,      /* a wrong Scrambler State word */
  INTERLAKEN_LANE_EVENT_BAD_SKIP = 4,       /* a wrong Skip word */
  INTERLAKEN_LANE_EVENT_BAD_DIAGNOSTIC = 5, /* a wrong Diagnostic word */
  INTERLAKEN_LANE_EVENT_HEALTH = 6,         /* health bits not both 1 */
  INTERLAKEN_LANE_EVENT_BALANCE = 7,        /* ones and zeros too unequal */
  INTERLAKEN_LANE_EVENT_LOCK = 8,           /* a lock is declared */
  INTERLAKEN_LANE_EVENT_LOST_HEADERS = 9,   /* lock lost for headers */
  INTERLAKEN_LANE_EVENT_LOST_SYNC = 10,     /* lock lost for Sync words */
  INTERLAKEN_LANE_EVENT_LOST_STATE = 11,    /* lock lost for Scrambler States */
  INTERLAKEN_LANE_EVENT_UNFRAMED = 12       /* lost or given up, undeclared */
};

/* An event of a lane. All is 0 if there is none. */
typedef struct interlaken_lane_event {
  uint32_t kind; /* an enum interlaken_lane_kind */
  uint32_t lane; /* the lane */
  uint64_t bit;  /* the first bit of the word, counted in the bytes of the lane */
} interlaken_lane_event;

/* OPENING has these. The inspector has the plan's `lanes`, `metaframe` and `skips`. */
uint32_t interlaken_inspector_new(interlaken_inspector *inspector, const uint8_t *plan,
                                  size_t count, interlaken_refusal *refusal);
uint32_t interlaken_inspector_free(interlaken_inspector *inspector);

/* LANES IN has these. `feed` takes all bytes, or those up to the end of a word that shows events,
 * and at most six more. While events of the lane are due, it takes none. An event is due as soon as
 * the last bit of its word was taken. `next` writes the first event of the lowest lane that has
 * one. */
uint32_t interlaken_inspector_feed(interlaken_inspector *inspector, uint32_t lane,
                                   const uint8_t *bytes, size_t count, size_t *taken);
uint32_t interlaken_inspector_feed_bits(interlaken_inspector *inspector, uint32_t lane,
                                        uint64_t bits, uint32_t count, uint32_t *taken);
uint32_t interlaken_inspector_finish(interlaken_inspector *inspector, uint32_t lane);
uint32_t interlaken_inspector_next(interlaken_inspector *inspector, interlaken_lane_event *event);
uint32_t interlaken_inspector_report(interlaken_inspector *inspector, uint32_t lane,
                                     interlaken_report *report);

/* GATHERER
 *
 * It aligns the lanes as a receiver does, and returns the words of each group in the order in which
 * they were sent. An epoch is a row of groups, each a metaframe after the one before. It ends with
 * a break when a lane loses its lock, or has no more bits. The words and breaks are those that the
 * command `gather` writes to `OUT.words` and `OUT.places.csv`. */

typedef struct interlaken_gatherer {
  void *at;
  uint8_t live;
} interlaken_gatherer;

/* What a gatherer returns. */
enum interlaken_gathered_kind {
  INTERLAKEN_GATHERED_NONE = 0,  /* nothing: a lane needs bytes, or the end was returned */
  INTERLAKEN_GATHERED_WORD = 1,  /* a word */
  INTERLAKEN_GATHERED_BREAK = 2, /* an epoch ends */
  INTERLAKEN_GATHERED_ENDED = 3  /* the end */
};

/* Kinds of words: the tags of a words file. */
enum interlaken_word_kind {
  INTERLAKEN_WORD_DATA = 1,    /* a data word */
  INTERLAKEN_WORD_CONTROL = 2, /* a word with a control header */
  INTERLAKEN_WORD_BAD = 3      /* a bad word; its 64 bits are ignored */
};

/* A word, a break, the end, or nothing. A field that its kind lacks is 0. */
typedef struct interlaken_gathered {
  uint32_t kind;       /* an enum interlaken_gathered_kind */
  uint32_t word_kind;  /* of a word: an enum interlaken_word_kind */
  uint32_t lane;       /* of a word: the lane on which it came */
  uint32_t why;        /* of a break: INTERLAKEN_FAULT_LOST or INTERLAKEN_FAULT_END */
  interlaken_place at; /* the place of the word, or that at which the epoch ends */
  uint64_t bit;        /* of a word: the first bit of its code, counted in the bytes of the lane */
  uint64_t number;     /* of a word: its number in `OUT.words`; of a break: that of the bad word
                          which stands for it there if an epoch follows */
  uint64_t word;       /* of a word: its 64 bits; 0 if it is bad */
} interlaken_gathered;

/* OPENING has these. The gatherer has the plan's `lanes`, `metaframe`, `skips` and `deskew`. */
uint32_t interlaken_gatherer_new(interlaken_gatherer *gatherer, const uint8_t *plan, size_t count,
                                 interlaken_refusal *refusal);
uint32_t interlaken_gatherer_free(interlaken_gatherer *gatherer);

/* LANES IN has these. */
uint32_t interlaken_gatherer_feed(interlaken_gatherer *gatherer, uint32_t lane,
                                  const uint8_t *bytes, size_t count, size_t *taken);
uint32_t interlaken_gatherer_feed_bits(interlaken_gatherer *gatherer, uint32_t lane,
                                       uint64_t bits, uint32_t count, uint32_t *taken);
uint32_t interlaken_gatherer_finish(interlaken_gatherer *gatherer, uint32_t lane);
uint32_t interlaken_gatherer_next(interlaken_gatherer *gatherer, interlaken_gathered *gathered);

/* Writes what up to `room` calls of `next` write, up to the first INTERLAKEN_GATHERED_NONE, which
 * is not written. `count` is how many these are. If it is below `room`, all that is known so far
 * was returned. */
uint32_t interlaken_gatherer_words(interlaken_gatherer *gatherer, interlaken_gathered *gathered,
                                   size_t room, size_t *count);

uint32_t interlaken_gatherer_report(interlaken_gatherer *gatherer, uint32_t lane,
                                    interlaken_report *report);

/* CHECKER
 *
 * It checks the words that a sender makes by the rules of the command `check`. The words are those
 * of all lanes in turn, without framing words: `word` takes them one by one, word 0 first, and
 * `words` many at once.
 *
 * The faults of a word are due as soon as it was given, in the order of the rules. Take all with
 * `next` before you give the next word: until then `word`, `words` and `flow` return WAITING. Only
 * INTERLAKEN_RULE_EMPTY comes with the next word, before that word's own faults. Apart from this
 * the faults are the rows of OUT.faults.csv. */

typedef struct interlaken_checker {
  void *at;
  uint8_t live;
} interlaken_checker;

/* The rules of a sender's words, in their order. docs/DEFINITIONS.md has them in full, and the
 * channel of each. */
enum interlaken_rule {
  INTERLAKEN_RULE_NONE = 0,      /* no fault is due */
  INTERLAKEN_RULE_BAD = 1,       /* the word is bad */
  INTERLAKEN_RULE_CONTROL = 2,   /* control word no receiver accepts */
  INTERLAKEN_RULE_CRC = 3,       /* the CRC24 is wrong */
  INTERLAKEN_RULE_DATA = 4,      /* data outside a burst */
  INTERLAKEN_RULE_MAX = 5,       /* burst longer than BurstMax */
  INTERLAKEN_RULE_EMPTY = 6,     /* burst word without data */
  INTERLAKEN_RULE_SHORT = 7,     /* burst words within BurstShort */
  INTERLAKEN_RULE_END = 8,       /* end format without data */
  INTERLAKEN_RULE_FILL = 9,      /* bytes behind the end */
  INTERLAKEN_RULE_PART = 10,     /* part not of 32-byte multiples */
  INTERLAKEN_RULE_MIN = 11,      /* part shorter than BurstMin */
  INTERLAKEN_RULE_SOP = 12,      /* SOP inside a packet */
  INTERLAKEN_RULE_OPEN = 13,     /* no SOP, none open */
  INTERLAKEN_RULE_CHANNEL = 14,  /* channel is not listed */
  INTERLAKEN_RULE_LONG = 15,     /* packet longer than `max_packet` */
  INTERLAKEN_RULE_IDLE = 16,     /* idle word with fields set */
  INTERLAKEN_RULE_MULTI = 17,    /* multiple use, channels of 8 bits */
  INTERLAKEN_RULE_CALENDAR = 18, /* calendar not in its order */
  INTERLAKEN_RULE_OFF = 19       /* burst on an off channel */
};

/* A fault: a word that breaks a rule. All members are 0 if no fault is due. */
typedef struct interlaken_rule_fault {
  uint32_t rule;        /* an enum interlaken_rule */
  uint32_t has_channel; /* 1 if the rule is on a channel; otherwise 0 */
  uint32_t channel;     /* the channel; 0 without one */
  uint32_t reserved;    /* 0 */
  uint64_t word;        /* the number of the word */
} interlaken_rule_fault;

/* A word of a sender. */
typedef struct interlaken_word {
  uint64_t number;   /* its 64 bits */
  uint32_t kind;     /* an enum interlaken_word_kind */
  uint32_t reserved; /* ignored */
} interlaken_word;

/* OPENING has these. The checker has the plan's sizes of bursts and packets, its channels and its
 * calendar. All channels are on. */
uint32_t interlaken_checker_new(interlaken_checker *checker, const uint8_t *plan, size_t count,
                                interlaken_refusal *refusal);
uint32_t interlaken_checker_free(interlaken_checker *checker);

/* Gives the next word: `kind` is an enum interlaken_word_kind, and `number` has the 64 bits. Also
 * FINISHED, TOO_MANY, OUT_OF_RANGE (no such kind), WAITING. */
uint32_t interlaken_checker_word(interlaken_checker *checker, uint32_t kind, uint64_t number);

/* Gives the next words, as `word` gives each, but much faster. It ends after the first that shows a
 * fault, or before the first that `word` would refuse; `taken` is how many were given. Take the
 * faults, which are of the last word that was taken, and give the other words again. The result is
 * what `word` returns for the first word. With no words it is DONE unless `word` would return
 * FINISHED, TOO_MANY or WAITING for any. */
uint32_t interlaken_checker_words(interlaken_checker *checker, const interlaken_word *words,
                                  size_t count, size_t *taken);

/* Passes on a control word of the far end, as `interlaken_transmitter_flow` does, for
 * INTERLAKEN_RULE_OFF from the next word on. Also FINISHED, WAITING. */
uint32_t interlaken_checker_flow(interlaken_checker *checker, uint64_t word);

/* Ends the words: no word and no flow control may follow. Faults that are due stay due, and none is
 * added. A second call changes nothing. */
uint32_t interlaken_checker_finish(interlaken_checker *checker);

/* Writes the next fault that is due, or INTERLAKEN_RULE_NONE. */
uint32_t interlaken_checker_next(interlaken_checker *checker, interlaken_rule_fault *fault);

/* DAMAGE
 *
 * The bytes of each lane pass through `apply`, in pieces of any length; feed the result to a
 * receiver, or to a device. Bits of a lane are counted over all its pieces, as in the rows of a
 * schedule file. Bit n is bit 7 - n % 8 of byte n / 8. It is 0 if a dark stretch covers it;
 * otherwise it is inverted if an odd number of flips names it. Rows may be added at any time, also
 * between pieces. */

typedef struct interlaken_damage {
  void *at;
  uint8_t live;
} interlaken_damage;

/* Opens the damage of 1 to 64 lanes. Nothing happens to them so far. Also OUT_OF_MEMORY, IN_USE,
 * OUT_OF_RANGE. */
uint32_t interlaken_damage_new(interlaken_damage *damage, uint32_t lanes);
uint32_t interlaken_damage_free(interlaken_damage *damage);

/* Inverts a bit of a lane once more. Also OUT_OF_MEMORY, OUT_OF_RANGE (from bit 2^44 on), PASSED
 * (it was in an earlier piece). */
uint32_t interlaken_damage_flip(interlaken_damage *damage, uint32_t lane, uint64_t bit);

/* Forces `bits` bits of a lane to 0, from bit `first` on. Bits that have passed stay as they were.
 * Also OUT_OF_MEMORY, OUT_OF_RANGE (first + bits is above 2^44), PASSED (all bits below
 * first + bits have passed). */
uint32_t interlaken_damage_dark(interlaken_damage *damage, uint32_t lane, uint64_t first,
                                uint64_t bits);

/* Damages the next bytes of a lane in place. Each byte of the lane passes once: if a receiver did
 * not take all of a piece, feed the rest again as it is. A call costs time for its bytes and for
 * the rows ahead. Also TOO_MANY. */
uint32_t interlaken_damage_apply(interlaken_damage *damage, uint32_t lane, uint8_t *bytes,
                                 size_t count);

/* PLAN
 *
 * These calls have no handle. Those that read a plan do so as `new` does, and may also return
 * OUT_OF_MEMORY and BAD_PLAN. */

/* The numbers of a plan. */
typedef struct interlaken_plan {
  uint32_t lanes;       /* lanes: 1 to 64 */
  uint32_t metaframe;   /* words of a metaframe on each lane: 32 to 8,192 */
  uint32_t skips;       /* Skip words of a metaframe: 1 to 4 */
  uint32_t wide;        /* 1 if channel numbers have 16 bits; 0 if they have 8 */
  uint32_t deskew;      /* words by which lanes may be apart: 1 to below half of `metaframe` */
  uint32_t max_packet;  /* bytes of the longest packet: 1 to 262,144 */
  uint32_t link_type;   /* link type of the captures that the program writes: 0 to 65,535 */
  uint32_t entries;     /* entries of the calendar: 1 to 1,024 */
  uint32_t warmup;      /* groups of idle words before the first burst: 4 to 64 */
  uint32_t channels;    /* listed channels: 1 to 1,024, or to 256 if `wide` is 0 */
  uint32_t burst_max;   /* bytes of the longest burst: a multiple of 64 in 64 to 4,096 */
  uint32_t burst_short; /* least bytes from one burst word to the next: a multiple of 8 in 32 to
                           `burst_max` */
  uint32_t burst_min;   /* least bytes of a burst whose packet has as many: a multiple of 32 in 0 to
                           half of `burst_max` */
  uint32_t window;      /* pieces that may be sent ahead of the acknowledged ones: 1 to 255 */
} interlaken_plan;

/* Reads the numbers of a plan of `size` bytes. */
uint32_t interlaken_plan_read(const uint8_t *plan, size_t size, interlaken_plan *numbers,
                              interlaken_refusal *refusal);

/* Writes the numbers of the channels that a plan lists, in rising order, as many as there is `room`
 * for. `count` is how many are listed. */
uint32_t interlaken_plan_channels(const uint8_t *plan, size_t size, uint16_t *channels, size_t room,
                                  size_t *count, interlaken_refusal *refusal);

/* Finds the word at a place of an event: its lane, and the bit of that lane at which its code would
 * begin if no lane were skewed: the bit of the group, and 67 for each word since. If the lane's
 * Sync words come some bits later than those of lane 0, so does the code. Also OUT_OF_RANGE: a
 * number of the plan is out of its range above, `known` is not 1, the group has no word `index`, or
 * `group` is 2^44 or more. */
uint32_t interlaken_plan_place(const interlaken_plan *numbers, const interlaken_place *place,
                               uint32_t *lane, uint64_t *bit);

/* Finds payload word number `slot` of a transmitter, as `interlaken_transmitter_slots` counts them:
 * its lane, and the bit at which its code begins in the lane's taken bytes. Also OUT_OF_RANGE: a
 * number of the plan is out of its range above, or `slot` is 2^56 or more. */
uint32_t interlaken_plan_slot(const interlaken_plan *numbers, uint64_t slot, uint32_t *lane,
                              uint64_t *bit);

#ifdef __cplusplus
}
#endif
#endif
