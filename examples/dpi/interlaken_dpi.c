/* Both ends of an Interlaken link, damage between them, and checks of lanes and words, for a bench in SystemVerilog: the functions that
 * interlaken_dpi.sv imports, over the C library of interlaken.h. It is C99 and C++. Of a simulator it only needs svdpi.h, which each
 * has. The calls are said in interlaken_dpi.sv.
 *
 * A handle is the address of a `live`, a `drive`, a `hurt`, a `look`, a `judge` or a `crop`, which stays until the simulation ends: a call
 * on a closed one has the result NO_RECEIVER, NO_TRANSMITTER, NO_DAMAGE, NO_INSPECTOR, NO_CHECKER or NO_GATHERER, as one on null has. */
#include "interlaken.h"
#include "svdpi.h"
#include <stdlib.h>
#include <string.h>

#define LANES 64
#define LONGEST 262144 /* bytes of a packet */
#define NO_ROOM 100    /* one result more than those of interlaken.h: INTERLAKEN_NO_ROOM of the package */

/* The bits of a lane that the library has not taken: the lowest `count` of a number, the first of them highest. */
struct lane {
  unsigned long long bits;
  unsigned count;
  int finished;
};

struct live {
  interlaken_receiver receiver;
  struct lane lanes[LANES];
  interlaken_plan numbers; /* of the plan */
  uint8_t *packet; /* the one that came last */
  uint32_t length; /* of it; 0 if the last event was none */
  struct live *other;
};

static struct live *all; /* the handles of this simulation */

/* Bits of a lane that were taken and not passed on, since fewer came than were asked for: the lowest `count` of a number. */
struct ahead {
  unsigned long long bits;
  unsigned count;
};

/* A transmitter, and the bytes of the packet that is put together for it. */
struct drive {
  interlaken_transmitter transmitter;
  struct ahead lanes[LANES];
  uint8_t *packet;
  uint32_t length;
  struct drive *other;
};

static struct drive *drives;

struct hurt {
  interlaken_damage damage;
  struct hurt *other;
};

static struct hurt *hurts;

struct look {
  interlaken_inspector inspector;
  struct lane lanes[LANES];
  unsigned count; /* of lanes; 0 if it is closed */
  struct look *other;
};

static struct look *looks;

struct judge {
  interlaken_checker checker;
  struct judge *other;
};

static struct judge *judges;

struct crop {
  interlaken_gatherer gatherer;
  struct lane lanes[LANES];
  unsigned count; /* of lanes; 0 if it is closed */
  struct crop *other;
};

static struct crop *crops;

#ifdef __cplusplus
extern "C" {
#endif

void *interlaken_dpi_open(const char *plan, unsigned int *cause, unsigned int *row, unsigned int *key);
int interlaken_dpi_plan(void *receiver, unsigned int *lanes, unsigned int *metaframe, unsigned int *burst_max);
int interlaken_dpi_close(void *receiver);
int interlaken_dpi_feed(void *receiver, unsigned int lane, unsigned long long bits, unsigned int count);
int interlaken_dpi_finish(void *receiver, unsigned int lane);
int interlaken_dpi_next(void *receiver, unsigned int *kind, unsigned int *channel, unsigned int *length, unsigned int *why,
                        unsigned int *first_known, unsigned int *first_index, unsigned long long *first_group, unsigned int *last_known,
                        unsigned int *last_index, unsigned long long *last_group, unsigned long long *word);
int interlaken_dpi_byte(void *receiver, unsigned int offset, unsigned char *value);
int interlaken_dpi_packet_bytes(void *receiver, const svOpenArrayHandle data, unsigned int *copied);
int interlaken_dpi_is_on(void *receiver, unsigned int channel, unsigned int *on);
int interlaken_dpi_report(void *receiver, unsigned int lane, unsigned long long *locks, unsigned long long *has_first,
                          unsigned long long *first, unsigned long long *lost, unsigned long long *unframed, unsigned long long *bad,
                          unsigned long long *sync, unsigned long long *state, unsigned long long *diag);
int interlaken_dpi_lane_state(void *receiver, unsigned int lane, unsigned int *state);
int interlaken_dpi_place(void *receiver, unsigned int known, unsigned int index, unsigned long long group, unsigned int *lane,
                         unsigned long long *bit);
int interlaken_dpi_arrival(void *receiver, unsigned int known, unsigned int index, unsigned long long group, unsigned int *lane,
                           unsigned long long *bit);

void *interlaken_dpi_open_transmitter(const char *plan, unsigned int *cause, unsigned int *row, unsigned int *key);
int interlaken_dpi_close_transmitter(void *transmitter);
int interlaken_dpi_put_byte(void *transmitter, unsigned char value);
int interlaken_dpi_send_packet(void *transmitter, unsigned int channel);
int interlaken_dpi_send_bytes(void *transmitter, unsigned int channel, const svOpenArrayHandle data, unsigned int count);
int interlaken_dpi_sent(void *transmitter, unsigned int channel, unsigned long long *packets_given, unsigned long long *packets_sent,
                        unsigned long long *bytes_given, unsigned long long *bytes_sent);
int interlaken_dpi_flow(void *transmitter, unsigned long long word);
int interlaken_dpi_local(void *transmitter, unsigned int channel, unsigned int on);
int interlaken_dpi_take_byte(void *transmitter, unsigned int lane, unsigned char *value);
int interlaken_dpi_take_bits(void *transmitter, unsigned int lane, unsigned int count, unsigned long long *bits);
int interlaken_dpi_slots(void *transmitter, unsigned long long *slots);
int interlaken_dpi_finish_packets(void *transmitter);

void *interlaken_dpi_open_damage(unsigned int lanes);
int interlaken_dpi_close_damage(void *damage);
int interlaken_dpi_flip(void *damage, unsigned int lane, unsigned long long bit);
int interlaken_dpi_dark(void *damage, unsigned int lane, unsigned long long first, unsigned long long bits);
int interlaken_dpi_damage_byte(void *damage, unsigned int lane, unsigned char value, unsigned char *damaged);
int interlaken_dpi_damage_bytes(void *damage, unsigned int lane, const svOpenArrayHandle data, unsigned int count);

void *interlaken_dpi_open_inspector(const char *plan, unsigned int *cause, unsigned int *row, unsigned int *key);
int interlaken_dpi_close_inspector(void *inspector);
int interlaken_dpi_inspect_bits(void *inspector, unsigned int lane, unsigned long long bits, unsigned int count);
int interlaken_dpi_inspect_bytes(void *inspector, unsigned int lane, const svOpenArrayHandle data, unsigned int count,
                                 unsigned int *taken);
int interlaken_dpi_finish_inspection(void *inspector, unsigned int lane);
int interlaken_dpi_next_lane_event(void *inspector, unsigned int *kind, unsigned int *lane, unsigned long long *bit);
int interlaken_dpi_inspector_report(void *inspector, unsigned int lane, unsigned long long *locks, unsigned long long *has_first,
                                    unsigned long long *first, unsigned long long *lost, unsigned long long *unframed,
                                    unsigned long long *bad, unsigned long long *sync, unsigned long long *state,
                                    unsigned long long *diag);

void *interlaken_dpi_open_checker(const char *plan, unsigned int *cause, unsigned int *row, unsigned int *key);
int interlaken_dpi_close_checker(void *checker);
int interlaken_dpi_check_word(void *checker, unsigned int kind, unsigned long long word);
int interlaken_dpi_check_flow(void *checker, unsigned long long word);
int interlaken_dpi_finish_words(void *checker);
int interlaken_dpi_next_fault(void *checker, unsigned int *rule, unsigned int *has_channel, unsigned int *channel,
                              unsigned long long *number);

void *interlaken_dpi_open_gatherer(const char *plan, unsigned int *cause, unsigned int *row, unsigned int *key);
int interlaken_dpi_close_gatherer(void *gatherer);
int interlaken_dpi_gather_bits(void *gatherer, unsigned int lane, unsigned long long bits, unsigned int count);
int interlaken_dpi_finish_gathering(void *gatherer, unsigned int lane);
int interlaken_dpi_next_gathered(void *gatherer, unsigned int *kind, unsigned int *word_kind, unsigned int *lane, unsigned int *why,
                                 unsigned int *known, unsigned int *index, unsigned long long *group, unsigned long long *bit,
                                 unsigned long long *number, unsigned long long *word);
int interlaken_dpi_gatherer_report(void *gatherer, unsigned int lane, unsigned long long *locks, unsigned long long *has_first,
                                   unsigned long long *first, unsigned long long *lost, unsigned long long *unframed,
                                   unsigned long long *bad, unsigned long long *sync, unsigned long long *state,
                                   unsigned long long *diag);

#ifdef __cplusplus
}
#endif

/* The bytes of an array in their order, if the simulator keeps them so; otherwise NULL. */
static uint8_t *whole(const svOpenArrayHandle array) {
  return svSizeOfArray(array) == svSize(array, 1) ? (uint8_t *)svGetArrayPtr(array) : NULL;
}

/* A byte of an array, counted from its lowest index. */
static uint8_t *byte_of(const svOpenArrayHandle array, size_t place) {
  return (uint8_t *)svGetArrElemPtr1(array, svLow(array, 1) + (int)place);
}

static void write_array(const svOpenArrayHandle array, const uint8_t *bytes, size_t count) {
  uint8_t *to = whole(array);
  size_t i;
  if (to != NULL) memcpy(to, bytes, count);
  else for (i = 0; i < count; i++) *byte_of(array, i) = bytes[i];
}

/* The first bytes of an array: in their place, or copied to `room`, which has so many. */
static uint8_t *read_array(const svOpenArrayHandle array, uint8_t *room, size_t count) {
  uint8_t *from = whole(array);
  size_t i;
  if (from != NULL) return from;
  for (i = 0; i < count; i++) room[i] = *byte_of(array, i);
  return room;
}

/* Puts bits on a lane on which none wait. */
static void put_bits(struct lane *lane, unsigned long long bits, unsigned int count) {
  lane->bits = bits;
  lane->count = count;
}

/* Keeps the bits that were not taken: NO_ROOM if there are some. */
static int keep_rest(struct lane *lane, uint32_t taken) {
  lane->count -= taken;
  return lane->count == 0 ? INTERLAKEN_DONE : NO_ROOM;
}

static void write_report(const interlaken_report *report, unsigned long long *locks, unsigned long long *has_first,
                         unsigned long long *first, unsigned long long *lost, unsigned long long *unframed, unsigned long long *bad,
                         unsigned long long *sync, unsigned long long *state, unsigned long long *diag) {
  *locks = report->locks;
  *has_first = report->has_first;
  *first = report->first;
  *lost = report->lost;
  *unframed = report->unframed;
  *bad = report->bad;
  *sync = report->sync;
  *state = report->state;
  *diag = report->diag;
}

static void write_refusal(const interlaken_refusal *refusal, unsigned int *cause, unsigned int *row, unsigned int *key) {
  *cause = refusal->cause;
  *row = refusal->row;
  *key = refusal->key;
}

void *interlaken_dpi_open(const char *plan, unsigned int *cause, unsigned int *row, unsigned int *key) {
  struct live *live = (struct live *)calloc(1, sizeof *live);
  interlaken_refusal refusal = {0, 0, 0};
  if (live != NULL) live->packet = (uint8_t *)malloc(LONGEST);
  if (live == NULL || live->packet == NULL ||
      interlaken_plan_read((const uint8_t *)plan, strlen(plan), &live->numbers, &refusal) != INTERLAKEN_DONE ||
      interlaken_receiver_new(&live->receiver, (const uint8_t *)plan, strlen(plan), &refusal) != INTERLAKEN_DONE) {
    if (live != NULL) free(live->packet);
    free(live);
    live = NULL;
  } else {
    live->other = all;
    all = live;
  }
  write_refusal(&refusal, cause, row, key);
  return live;
}

int interlaken_dpi_plan(void *receiver, unsigned int *lanes, unsigned int *metaframe, unsigned int *burst_max) {
  struct live *live = (struct live *)receiver;
  int is_open = live != NULL && live->packet != NULL;
  *lanes = is_open ? live->numbers.lanes : 0;
  *metaframe = is_open ? live->numbers.metaframe : 0;
  *burst_max = is_open ? live->numbers.burst_max : 0;
  return is_open ? INTERLAKEN_DONE : INTERLAKEN_NO_RECEIVER;
}

int interlaken_dpi_close(void *receiver) {
  struct live *live = (struct live *)receiver;
  if (live == NULL) return INTERLAKEN_NO_RECEIVER;
  free(live->packet);
  live->packet = NULL;
  live->length = 0;
  return (int)interlaken_receiver_free(&live->receiver);
}

/* The lane of this number, if the handle has a receiver with such a lane that is not finished. */
static int find_lane(struct live *live, unsigned int number, struct lane **lane) {
  if (live == NULL || live->packet == NULL) return INTERLAKEN_NO_RECEIVER;
  if (number >= live->numbers.lanes) return INTERLAKEN_NO_LANE;
  *lane = &live->lanes[number];
  return (*lane)->finished ? INTERLAKEN_FINISHED : INTERLAKEN_DONE;
}

/* Has the receiver take the bits: NO_ROOM if it does not take all. */
static int push(struct live *live, unsigned int number, struct lane *lane) {
  uint32_t taken = 0, result;
  if (lane->count == 0) return INTERLAKEN_DONE;
  result = interlaken_receiver_feed_bits(&live->receiver, number, lane->bits, lane->count, &taken);
  return result == INTERLAKEN_DONE ? keep_rest(lane, taken) : (int)result;
}

int interlaken_dpi_feed(void *receiver, unsigned int number, unsigned long long bits, unsigned int count) {
  struct live *live = (struct live *)receiver;
  struct lane *lane;
  int result = find_lane(live, number, &lane);
  if (result != INTERLAKEN_DONE) return result;
  if (count > 64) return INTERLAKEN_TOO_MANY;
  result = push(live, number, lane);
  if (result != INTERLAKEN_DONE) return result;
  put_bits(lane, bits, count);
  result = push(live, number, lane);
  return result == NO_ROOM ? INTERLAKEN_DONE : result; /* what it did not take waits here */
}

int interlaken_dpi_finish(void *receiver, unsigned int number) {
  struct live *live = (struct live *)receiver;
  struct lane *lane;
  int result = find_lane(live, number, &lane);
  if (result == INTERLAKEN_DONE) result = push(live, number, lane);
  while (result == INTERLAKEN_DONE && (result = (int)interlaken_receiver_finish(&live->receiver, number)) == INTERLAKEN_PART_BYTE) {
    put_bits(lane, 0, 1); /* fills the last byte up with zeros */
    result = push(live, number, lane);
  }
  if (result == INTERLAKEN_DONE) lane->finished = 1;
  return result;
}

int interlaken_dpi_next(void *receiver, unsigned int *kind, unsigned int *channel, unsigned int *length, unsigned int *why,
                        unsigned int *first_known, unsigned int *first_index, unsigned long long *first_group, unsigned int *last_known,
                        unsigned int *last_index, unsigned long long *last_group, unsigned long long *word) {
  struct live *live = (struct live *)receiver;
  interlaken_event event;
  uint32_t result = INTERLAKEN_NO_RECEIVER;
  size_t copied = 0;
  memset(&event, 0, sizeof event);
  if (live != NULL) result = interlaken_receiver_next(&live->receiver, &event);
  if (event.kind == INTERLAKEN_PACKET) result = interlaken_receiver_read(&live->receiver, 0, live->packet, LONGEST, &copied);
  if (live != NULL) live->length = (uint32_t)copied;
  *kind = event.kind;
  *channel = event.channel;
  *length = event.length;
  *why = event.why;
  *first_known = event.first.known;
  *first_index = event.first.index;
  *first_group = event.first.group;
  *last_known = event.last.known;
  *last_index = event.last.index;
  *last_group = event.last.group;
  *word = event.word;
  return (int)result;
}

int interlaken_dpi_byte(void *receiver, unsigned int offset, unsigned char *value) {
  const struct live *live = (const struct live *)receiver;
  *value = 0;
  if (live == NULL || live->packet == NULL) return INTERLAKEN_NO_RECEIVER;
  if (offset >= live->length) return INTERLAKEN_NO_PACKET;
  *value = live->packet[offset];
  return INTERLAKEN_DONE;
}

int interlaken_dpi_packet_bytes(void *receiver, const svOpenArrayHandle data, unsigned int *copied) {
  const struct live *live = (const struct live *)receiver;
  unsigned int room = (unsigned int)svSize(data, 1);
  *copied = 0;
  if (live == NULL || live->packet == NULL) return INTERLAKEN_NO_RECEIVER;
  if (live->length == 0) return INTERLAKEN_NO_PACKET;
  *copied = live->length < room ? live->length : room;
  write_array(data, live->packet, *copied);
  return INTERLAKEN_DONE;
}

int interlaken_dpi_is_on(void *receiver, unsigned int channel, unsigned int *on) {
  struct live *live = (struct live *)receiver;
  uint32_t found = 0, result = INTERLAKEN_NO_RECEIVER;
  if (live != NULL && live->packet != NULL) result = INTERLAKEN_NO_CHANNEL;
  if (live != NULL && channel <= 65535) result = interlaken_receiver_is_on(&live->receiver, (uint16_t)channel, &found);
  *on = found;
  return (int)result;
}

int interlaken_dpi_report(void *receiver, unsigned int lane, unsigned long long *locks, unsigned long long *has_first,
                          unsigned long long *first, unsigned long long *lost, unsigned long long *unframed, unsigned long long *bad,
                          unsigned long long *sync, unsigned long long *state, unsigned long long *diag) {
  struct live *live = (struct live *)receiver;
  interlaken_report report;
  uint32_t result = INTERLAKEN_NO_RECEIVER;
  memset(&report, 0, sizeof report);
  if (live != NULL) result = interlaken_receiver_report(&live->receiver, lane, &report);
  write_report(&report, locks, has_first, first, lost, unframed, bad, sync, state, diag);
  return (int)result;
}

int interlaken_dpi_lane_state(void *receiver, unsigned int lane, unsigned int *state) {
  struct live *live = (struct live *)receiver;
  uint32_t found = INTERLAKEN_LANE_SEARCHING, result = INTERLAKEN_NO_RECEIVER;
  if (live != NULL) result = interlaken_receiver_lane_state(&live->receiver, lane, &found);
  *state = found;
  return (int)result;
}

int interlaken_dpi_place(void *receiver, unsigned int known, unsigned int index, unsigned long long group, unsigned int *lane,
                         unsigned long long *bit) {
  struct live *live = (struct live *)receiver;
  interlaken_place place;
  uint32_t number = 0, result = INTERLAKEN_NO_RECEIVER;
  uint64_t first = 0;
  place.known = known, place.index = index, place.group = group;
  if (live != NULL && live->packet != NULL) result = interlaken_plan_place(&live->numbers, &place, &number, &first);
  *lane = number;
  *bit = first;
  return (int)result;
}

/* How many bits later a lane comes than lane 0, by the first locks of both. The lanes of a group are less than half a metaframe apart. */
static long long lateness(struct live *live, unsigned int lane) {
  interlaken_report of_lane, of_first;
  long long bits = 67 * (long long)live->numbers.metaframe, late;
  if (interlaken_receiver_report(&live->receiver, lane, &of_lane) != INTERLAKEN_DONE || !of_lane.has_first) return 0;
  if (interlaken_receiver_report(&live->receiver, 0, &of_first) != INTERLAKEN_DONE || !of_first.has_first) return 0;
  late = ((long long)of_lane.first - (long long)of_first.first) % bits;
  if (late < 0) late += bits;
  return 2 * late > bits ? late - bits : late;
}

int interlaken_dpi_arrival(void *receiver, unsigned int known, unsigned int index, unsigned long long group, unsigned int *lane,
                           unsigned long long *bit) {
  int result = interlaken_dpi_place(receiver, known, index, group, lane, bit);
  if (result == INTERLAKEN_DONE) *bit = (unsigned long long)((long long)*bit + lateness((struct live *)receiver, *lane));
  return result;
}

void *interlaken_dpi_open_transmitter(const char *plan, unsigned int *cause, unsigned int *row, unsigned int *key) {
  struct drive *drive = (struct drive *)calloc(1, sizeof *drive);
  interlaken_refusal refusal = {0, 0, 0};
  if (drive != NULL) drive->packet = (uint8_t *)malloc(LONGEST);
  if (drive == NULL || drive->packet == NULL ||
      interlaken_transmitter_new(&drive->transmitter, (const uint8_t *)plan, strlen(plan), &refusal) != INTERLAKEN_DONE) {
    if (drive != NULL) free(drive->packet);
    free(drive);
    drive = NULL;
  } else {
    drive->other = drives;
    drives = drive;
  }
  write_refusal(&refusal, cause, row, key);
  return drive;
}

int interlaken_dpi_close_transmitter(void *transmitter) {
  struct drive *drive = (struct drive *)transmitter;
  if (drive == NULL) return INTERLAKEN_NO_TRANSMITTER;
  free(drive->packet);
  drive->packet = NULL;
  return (int)interlaken_transmitter_free(&drive->transmitter);
}

int interlaken_dpi_put_byte(void *transmitter, unsigned char value) {
  struct drive *drive = (struct drive *)transmitter;
  if (drive == NULL || drive->packet == NULL) return INTERLAKEN_NO_TRANSMITTER;
  if (drive->length == LONGEST) return INTERLAKEN_TOO_MANY;
  drive->packet[drive->length++] = value;
  return INTERLAKEN_DONE;
}

int interlaken_dpi_send_packet(void *transmitter, unsigned int channel) {
  struct drive *drive = (struct drive *)transmitter;
  uint32_t length;
  if (drive == NULL || drive->packet == NULL) return INTERLAKEN_NO_TRANSMITTER;
  length = drive->length;
  drive->length = 0;
  if (channel > 65535) return INTERLAKEN_NO_CHANNEL;
  return (int)interlaken_transmitter_packet(&drive->transmitter, (uint16_t)channel, drive->packet, length);
}

int interlaken_dpi_send_bytes(void *transmitter, unsigned int channel, const svOpenArrayHandle data, unsigned int count) {
  struct drive *drive = (struct drive *)transmitter;
  uint8_t *room;
  int result;
  if (drive == NULL || drive->packet == NULL) return INTERLAKEN_NO_TRANSMITTER;
  if (channel > 65535) return INTERLAKEN_NO_CHANNEL;
  if (count > (unsigned int)svSize(data, 1) || count > LONGEST) return INTERLAKEN_BAD_LENGTH;
  room = (uint8_t *)malloc((size_t)count + 1);
  if (room == NULL) return INTERLAKEN_OUT_OF_MEMORY;
  result = (int)interlaken_transmitter_packet(&drive->transmitter, (uint16_t)channel, read_array(data, room, count), count);
  free(room);
  return result;
}

int interlaken_dpi_sent(void *transmitter, unsigned int channel, unsigned long long *packets_given, unsigned long long *packets_sent,
                        unsigned long long *bytes_given, unsigned long long *bytes_sent) {
  struct drive *drive = (struct drive *)transmitter;
  interlaken_counts counts;
  uint32_t result = INTERLAKEN_NO_TRANSMITTER;
  memset(&counts, 0, sizeof counts);
  if (drive != NULL && drive->packet != NULL) result = INTERLAKEN_NO_CHANNEL;
  if (drive != NULL && channel <= 65535) result = interlaken_transmitter_sent(&drive->transmitter, (uint16_t)channel, &counts);
  *packets_given = counts.packets_given;
  *packets_sent = counts.packets_sent;
  *bytes_given = counts.bytes_given;
  *bytes_sent = counts.bytes_sent;
  return (int)result;
}

int interlaken_dpi_flow(void *transmitter, unsigned long long word) {
  struct drive *drive = (struct drive *)transmitter;
  if (drive == NULL) return INTERLAKEN_NO_TRANSMITTER;
  return (int)interlaken_transmitter_flow(&drive->transmitter, word);
}

int interlaken_dpi_local(void *transmitter, unsigned int channel, unsigned int on) {
  struct drive *drive = (struct drive *)transmitter;
  if (drive == NULL) return INTERLAKEN_NO_TRANSMITTER;
  if (channel > 65535) return INTERLAKEN_NO_CHANNEL;
  return (int)interlaken_transmitter_local(&drive->transmitter, (uint16_t)channel, on);
}

int interlaken_dpi_take_byte(void *transmitter, unsigned int lane, unsigned char *value) {
  unsigned long long bits;
  int result = interlaken_dpi_take_bits(transmitter, lane, 8, &bits);
  *value = (unsigned char)bits;
  return result;
}

int interlaken_dpi_take_bits(void *transmitter, unsigned int number, unsigned int count, unsigned long long *bits) {
  struct drive *drive = (struct drive *)transmitter;
  struct ahead *lane;
  uint64_t more = 0;
  uint32_t taken = 0, result = INTERLAKEN_NO_TRANSMITTER;
  *bits = 0;
  if (drive != NULL) result = interlaken_transmitter_take_bits(&drive->transmitter, number, 0, &more, &taken);
  if (result != INTERLAKEN_DONE) return (int)result;
  if (count > 64) return INTERLAKEN_TOO_MANY;
  lane = &drive->lanes[number];
  if (count > lane->count) {
    result = interlaken_transmitter_take_bits(&drive->transmitter, number, count - lane->count, &more, &taken);
    lane->bits = taken == 64 ? more : lane->bits << taken | more;
    lane->count += taken;
  }
  if (result != INTERLAKEN_DONE || count > lane->count) return result != INTERLAKEN_DONE ? (int)result : NO_ROOM;
  lane->count -= count;
  *bits = lane->bits >> lane->count & (count == 64 ? ~0ull : (1ull << count) - 1);
  return INTERLAKEN_DONE;
}

int interlaken_dpi_slots(void *transmitter, unsigned long long *slots) {
  struct drive *drive = (struct drive *)transmitter;
  uint64_t made = 0;
  uint32_t result = INTERLAKEN_NO_TRANSMITTER;
  if (drive != NULL) result = interlaken_transmitter_slots(&drive->transmitter, &made);
  *slots = made;
  return (int)result;
}

int interlaken_dpi_finish_packets(void *transmitter) {
  struct drive *drive = (struct drive *)transmitter;
  if (drive == NULL) return INTERLAKEN_NO_TRANSMITTER;
  return (int)interlaken_transmitter_finish(&drive->transmitter);
}

void *interlaken_dpi_open_damage(unsigned int lanes) {
  struct hurt *hurt = (struct hurt *)calloc(1, sizeof *hurt);
  if (hurt == NULL || interlaken_damage_new(&hurt->damage, lanes) != INTERLAKEN_DONE) {
    free(hurt);
    return NULL;
  }
  hurt->other = hurts;
  hurts = hurt;
  return hurt;
}

int interlaken_dpi_close_damage(void *damage) {
  struct hurt *hurt = (struct hurt *)damage;
  return hurt == NULL ? INTERLAKEN_NO_DAMAGE : (int)interlaken_damage_free(&hurt->damage);
}

int interlaken_dpi_flip(void *damage, unsigned int lane, unsigned long long bit) {
  struct hurt *hurt = (struct hurt *)damage;
  return hurt == NULL ? INTERLAKEN_NO_DAMAGE : (int)interlaken_damage_flip(&hurt->damage, lane, bit);
}

int interlaken_dpi_dark(void *damage, unsigned int lane, unsigned long long first, unsigned long long bits) {
  struct hurt *hurt = (struct hurt *)damage;
  return hurt == NULL ? INTERLAKEN_NO_DAMAGE : (int)interlaken_damage_dark(&hurt->damage, lane, first, bits);
}

int interlaken_dpi_damage_byte(void *damage, unsigned int lane, unsigned char value, unsigned char *damaged) {
  struct hurt *hurt = (struct hurt *)damage;
  *damaged = value;
  return hurt == NULL ? INTERLAKEN_NO_DAMAGE : (int)interlaken_damage_apply(&hurt->damage, lane, damaged, 1);
}

int interlaken_dpi_damage_bytes(void *damage, unsigned int lane, const svOpenArrayHandle data, unsigned int count) {
  struct hurt *hurt = (struct hurt *)damage;
  uint8_t *room, *bytes;
  int result;
  if (hurt == NULL) return INTERLAKEN_NO_DAMAGE;
  if (count > (unsigned int)svSize(data, 1)) return INTERLAKEN_TOO_MANY;
  room = (uint8_t *)malloc((size_t)count + 1);
  if (room == NULL) return INTERLAKEN_OUT_OF_MEMORY;
  bytes = read_array(data, room, count);
  result = (int)interlaken_damage_apply(&hurt->damage, lane, bytes, count);
  if (bytes == room) write_array(data, room, count);
  free(room);
  return result;
}

void *interlaken_dpi_open_inspector(const char *plan, unsigned int *cause, unsigned int *row, unsigned int *key) {
  struct look *look = (struct look *)calloc(1, sizeof *look);
  interlaken_refusal refusal = {0, 0, 0};
  interlaken_plan numbers;
  if (look == NULL || interlaken_plan_read((const uint8_t *)plan, strlen(plan), &numbers, &refusal) != INTERLAKEN_DONE ||
      interlaken_inspector_new(&look->inspector, (const uint8_t *)plan, strlen(plan), &refusal) != INTERLAKEN_DONE) {
    free(look);
    look = NULL;
  } else {
    look->count = numbers.lanes;
    look->other = looks;
    looks = look;
  }
  write_refusal(&refusal, cause, row, key);
  return look;
}

int interlaken_dpi_close_inspector(void *inspector) {
  struct look *look = (struct look *)inspector;
  if (look == NULL) return INTERLAKEN_NO_INSPECTOR;
  look->count = 0;
  return (int)interlaken_inspector_free(&look->inspector);
}

/* The lane of this number, if the handle has an inspector with such a lane that is not finished. */
static int find_inspected(struct look *look, unsigned int number, struct lane **lane) {
  if (look == NULL || look->count == 0) return INTERLAKEN_NO_INSPECTOR;
  if (number >= look->count) return INTERLAKEN_NO_LANE;
  *lane = &look->lanes[number];
  return (*lane)->finished ? INTERLAKEN_FINISHED : INTERLAKEN_DONE;
}

/* Has the inspector take the bits: NO_ROOM if it does not take all, since events are due. */
static int push_inspected(struct look *look, unsigned int number, struct lane *lane) {
  uint32_t taken = 0, result;
  if (lane->count == 0) return INTERLAKEN_DONE;
  result = interlaken_inspector_feed_bits(&look->inspector, number, lane->bits, lane->count, &taken);
  return result == INTERLAKEN_DONE ? keep_rest(lane, taken) : (int)result;
}

int interlaken_dpi_inspect_bits(void *inspector, unsigned int number, unsigned long long bits, unsigned int count) {
  struct look *look = (struct look *)inspector;
  struct lane *lane;
  int result = find_inspected(look, number, &lane);
  if (result != INTERLAKEN_DONE) return result;
  if (count > 64) return INTERLAKEN_TOO_MANY;
  result = push_inspected(look, number, lane);
  if (result != INTERLAKEN_DONE) return result;
  put_bits(lane, bits, count);
  result = push_inspected(look, number, lane);
  return result == NO_ROOM ? INTERLAKEN_DONE : result; /* what it did not take waits here */
}

int interlaken_dpi_inspect_bytes(void *inspector, unsigned int lane, const svOpenArrayHandle data, unsigned int count,
                                 unsigned int *taken) {
  int result = interlaken_dpi_inspect_bits(inspector, lane, 0, 0);
  *taken = 0;
  if (result == NO_ROOM) return INTERLAKEN_DONE;
  if (result == INTERLAKEN_DONE && count > (unsigned int)svSize(data, 1)) result = INTERLAKEN_TOO_MANY;
  while (result == INTERLAKEN_DONE && *taken < count) {
    result = interlaken_dpi_inspect_bits(inspector, lane, *byte_of(data, *taken), 8);
    *taken += result == INTERLAKEN_DONE;
  }
  return result == NO_ROOM ? INTERLAKEN_DONE : result;
}

int interlaken_dpi_finish_inspection(void *inspector, unsigned int number) {
  struct look *look = (struct look *)inspector;
  struct lane *lane;
  int result = find_inspected(look, number, &lane);
  if (result == INTERLAKEN_DONE) result = push_inspected(look, number, lane);
  while (result == INTERLAKEN_DONE && (result = (int)interlaken_inspector_finish(&look->inspector, number)) == INTERLAKEN_PART_BYTE) {
    put_bits(lane, 0, 1); /* fills the last byte up with zeros */
    result = push_inspected(look, number, lane);
  }
  if (result == INTERLAKEN_DONE) lane->finished = 1;
  return result;
}

int interlaken_dpi_next_lane_event(void *inspector, unsigned int *kind, unsigned int *lane, unsigned long long *bit) {
  struct look *look = (struct look *)inspector;
  interlaken_lane_event event;
  uint32_t result = INTERLAKEN_NO_INSPECTOR;
  unsigned i;
  memset(&event, 0, sizeof event);
  if (look != NULL) result = interlaken_inspector_next(&look->inspector, &event);
  if (result == INTERLAKEN_DONE && event.kind == INTERLAKEN_NO_LANE_EVENT) { /* bits that wait may show one */
    for (i = 0; i < look->count; i++) (void)push_inspected(look, i, &look->lanes[i]);
    result = interlaken_inspector_next(&look->inspector, &event);
  }
  *kind = event.kind;
  *lane = event.lane;
  *bit = event.bit;
  return (int)result;
}

int interlaken_dpi_inspector_report(void *inspector, unsigned int lane, unsigned long long *locks, unsigned long long *has_first,
                                    unsigned long long *first, unsigned long long *lost, unsigned long long *unframed,
                                    unsigned long long *bad, unsigned long long *sync, unsigned long long *state,
                                    unsigned long long *diag) {
  struct look *look = (struct look *)inspector;
  interlaken_report report;
  uint32_t result = INTERLAKEN_NO_INSPECTOR;
  memset(&report, 0, sizeof report);
  if (look != NULL) result = interlaken_inspector_report(&look->inspector, lane, &report);
  write_report(&report, locks, has_first, first, lost, unframed, bad, sync, state, diag);
  return (int)result;
}

void *interlaken_dpi_open_checker(const char *plan, unsigned int *cause, unsigned int *row, unsigned int *key) {
  struct judge *judge = (struct judge *)calloc(1, sizeof *judge);
  interlaken_refusal refusal = {0, 0, 0};
  if (judge == NULL || interlaken_checker_new(&judge->checker, (const uint8_t *)plan, strlen(plan), &refusal) != INTERLAKEN_DONE) {
    free(judge);
    judge = NULL;
  } else {
    judge->other = judges;
    judges = judge;
  }
  write_refusal(&refusal, cause, row, key);
  return judge;
}

int interlaken_dpi_close_checker(void *checker) {
  struct judge *judge = (struct judge *)checker;
  return judge == NULL ? INTERLAKEN_NO_CHECKER : (int)interlaken_checker_free(&judge->checker);
}

int interlaken_dpi_check_word(void *checker, unsigned int kind, unsigned long long word) {
  struct judge *judge = (struct judge *)checker;
  return judge == NULL ? INTERLAKEN_NO_CHECKER : (int)interlaken_checker_word(&judge->checker, kind, word);
}

int interlaken_dpi_check_flow(void *checker, unsigned long long word) {
  struct judge *judge = (struct judge *)checker;
  return judge == NULL ? INTERLAKEN_NO_CHECKER : (int)interlaken_checker_flow(&judge->checker, word);
}

int interlaken_dpi_finish_words(void *checker) {
  struct judge *judge = (struct judge *)checker;
  return judge == NULL ? INTERLAKEN_NO_CHECKER : (int)interlaken_checker_finish(&judge->checker);
}

int interlaken_dpi_next_fault(void *checker, unsigned int *rule, unsigned int *has_channel, unsigned int *channel,
                              unsigned long long *number) {
  struct judge *judge = (struct judge *)checker;
  interlaken_rule_fault fault;
  uint32_t result = INTERLAKEN_NO_CHECKER;
  memset(&fault, 0, sizeof fault);
  if (judge != NULL) result = interlaken_checker_next(&judge->checker, &fault);
  *rule = fault.rule;
  *has_channel = fault.has_channel;
  *channel = fault.channel;
  *number = fault.word;
  return (int)result;
}

void *interlaken_dpi_open_gatherer(const char *plan, unsigned int *cause, unsigned int *row, unsigned int *key) {
  struct crop *crop = (struct crop *)calloc(1, sizeof *crop);
  interlaken_refusal refusal = {0, 0, 0};
  interlaken_plan numbers;
  if (crop == NULL || interlaken_plan_read((const uint8_t *)plan, strlen(plan), &numbers, &refusal) != INTERLAKEN_DONE ||
      interlaken_gatherer_new(&crop->gatherer, (const uint8_t *)plan, strlen(plan), &refusal) != INTERLAKEN_DONE) {
    free(crop);
    crop = NULL;
  } else {
    crop->count = numbers.lanes;
    crop->other = crops;
    crops = crop;
  }
  write_refusal(&refusal, cause, row, key);
  return crop;
}

int interlaken_dpi_close_gatherer(void *gatherer) {
  struct crop *crop = (struct crop *)gatherer;
  if (crop == NULL) return INTERLAKEN_NO_GATHERER;
  crop->count = 0;
  return (int)interlaken_gatherer_free(&crop->gatherer);
}

/* The lane of this number, if the handle has a gatherer with such a lane that is not finished. */
static int find_gathered(struct crop *crop, unsigned int number, struct lane **lane) {
  if (crop == NULL || crop->count == 0) return INTERLAKEN_NO_GATHERER;
  if (number >= crop->count) return INTERLAKEN_NO_LANE;
  *lane = &crop->lanes[number];
  return (*lane)->finished ? INTERLAKEN_FINISHED : INTERLAKEN_DONE;
}

/* Has the gatherer take the bits: NO_ROOM if it does not take all. */
static int push_gathered(struct crop *crop, unsigned int number, struct lane *lane) {
  uint32_t taken = 0, result;
  if (lane->count == 0) return INTERLAKEN_DONE;
  result = interlaken_gatherer_feed_bits(&crop->gatherer, number, lane->bits, lane->count, &taken);
  return result == INTERLAKEN_DONE ? keep_rest(lane, taken) : (int)result;
}

int interlaken_dpi_gather_bits(void *gatherer, unsigned int number, unsigned long long bits, unsigned int count) {
  struct crop *crop = (struct crop *)gatherer;
  struct lane *lane;
  int result = find_gathered(crop, number, &lane);
  if (result != INTERLAKEN_DONE) return result;
  if (count > 64) return INTERLAKEN_TOO_MANY;
  result = push_gathered(crop, number, lane);
  if (result != INTERLAKEN_DONE) return result;
  put_bits(lane, bits, count);
  result = push_gathered(crop, number, lane);
  return result == NO_ROOM ? INTERLAKEN_DONE : result; /* what it did not take waits here */
}

int interlaken_dpi_finish_gathering(void *gatherer, unsigned int number) {
  struct crop *crop = (struct crop *)gatherer;
  struct lane *lane;
  int result = find_gathered(crop, number, &lane);
  if (result == INTERLAKEN_DONE) result = push_gathered(crop, number, lane);
  while (result == INTERLAKEN_DONE && (result = (int)interlaken_gatherer_finish(&crop->gatherer, number)) == INTERLAKEN_PART_BYTE) {
    put_bits(lane, 0, 1); /* fills the last byte up with zeros */
    result = push_gathered(crop, number, lane);
  }
  if (result == INTERLAKEN_DONE) lane->finished = 1;
  return result;
}

int interlaken_dpi_next_gathered(void *gatherer, unsigned int *kind, unsigned int *word_kind, unsigned int *lane, unsigned int *why,
                                 unsigned int *known, unsigned int *index, unsigned long long *group, unsigned long long *bit,
                                 unsigned long long *number, unsigned long long *word) {
  struct crop *crop = (struct crop *)gatherer;
  interlaken_gathered found;
  uint32_t result = INTERLAKEN_NO_GATHERER;
  memset(&found, 0, sizeof found);
  if (crop != NULL) result = interlaken_gatherer_next(&crop->gatherer, &found);
  *kind = found.kind;
  *word_kind = found.word_kind;
  *lane = found.lane;
  *why = found.why;
  *known = found.at.known;
  *index = found.at.index;
  *group = found.at.group;
  *bit = found.bit;
  *number = found.number;
  *word = found.word;
  return (int)result;
}

int interlaken_dpi_gatherer_report(void *gatherer, unsigned int lane, unsigned long long *locks, unsigned long long *has_first,
                                   unsigned long long *first, unsigned long long *lost, unsigned long long *unframed,
                                   unsigned long long *bad, unsigned long long *sync, unsigned long long *state,
                                   unsigned long long *diag) {
  struct crop *crop = (struct crop *)gatherer;
  interlaken_report report;
  uint32_t result = INTERLAKEN_NO_GATHERER;
  memset(&report, 0, sizeof report);
  if (crop != NULL) result = interlaken_gatherer_report(&crop->gatherer, lane, &report);
  write_report(&report, locks, has_first, first, lost, unframed, bad, sync, state, diag);
  return (int)result;
}
