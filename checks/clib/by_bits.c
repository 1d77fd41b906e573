/* Lanes in drawn pieces of 0 to 64 bits beside the same lanes in bytes: a receiver, an inspector, a gatherer and a transmitter.
 *
 *     by_bits PLAN SEED LANE..
 *
 * PLAN is a plan file, and each LANE the file of a lane, from lane 0 on. It prints a line that begins with `wrong` for each thing that is
 * not so, and at the end how many calls on bits were made. Between the pieces it tries the calls on whole bytes, which have the result
 * PART_BYTE exactly while a part of a byte is left, and pieces of more than 64 bits. */
#include "interlaken.h"
#include <stdio.h>
#include <stdlib.h>
#include <string.h>

#define LANES 64
#define ROOM 65536

enum kind { RECEIVER, INSPECTOR, GATHERER, KINDS };

/* What a handle returned of all lanes, or an inspector of one. */
struct log {
  uint8_t *bytes;
  size_t count, room;
};

struct side {
  enum kind kind;
  interlaken_receiver receiver;
  interlaken_inspector inspector;
  interlaken_gatherer gatherer;
  struct log logs[LANES];
};

struct file {
  uint8_t *bytes;
  size_t count;
};

static struct file plan, lanes[LANES];
static uint32_t lane_count;
static uint64_t drawn = 1;
static unsigned long calls;

static unsigned below(unsigned bound) {
  drawn ^= drawn << 13, drawn ^= drawn >> 7, drawn ^= drawn << 17;
  return (unsigned)(drawn >> 20) % bound;
}

static void want(const char *what, int holds) {
  if (!holds) printf("wrong: %s\n", what);
}

static void *held(void *room) {
  if (room == NULL) exit(2);
  return room;
}

static struct file load(const char *name) {
  FILE *from = fopen(name, "rb");
  struct file file = {NULL, 0};
  size_t more;
  if (from == NULL) exit(2);
  do {
    file.bytes = (uint8_t *)held(realloc(file.bytes, file.count + ROOM));
    more = fread(file.bytes + file.count, 1, ROOM, from);
    file.count += more;
  } while (more > 0);
  fclose(from);
  return file;
}

static void append(struct log *log, const void *bytes, size_t count) {
  if (log->count + count > log->room) {
    log->room = 2 * log->room + count;
    log->bytes = (uint8_t *)held(realloc(log->bytes, log->room));
  }
  memcpy(log->bytes + log->count, bytes, count);
  log->count += count;
}

static void compare(const char *what, const struct log *found, const struct log *wanted) {
  want(what, found->count == wanted->count && (found->count == 0 || memcmp(found->bytes, wanted->bytes, found->count) == 0));
}

/* So many bits of a lane, from one on. */
static uint64_t bits_at(const struct file *lane, size_t first, unsigned count) {
  uint64_t bits = 0;
  size_t at;
  for (at = first; at < first + count; at++) bits = bits << 1 | (unsigned)(lane->bytes[at / 8] >> (7 - at % 8) & 1);
  return bits;
}

static uint32_t feed(struct side *side, uint32_t lane, const uint8_t *bytes, size_t count, size_t *taken) {
  switch (side->kind) {
    case RECEIVER: return interlaken_receiver_feed(&side->receiver, lane, bytes, count, taken);
    case INSPECTOR: return interlaken_inspector_feed(&side->inspector, lane, bytes, count, taken);
    default: return interlaken_gatherer_feed(&side->gatherer, lane, bytes, count, taken);
  }
}

static uint32_t feed_bits(struct side *side, uint32_t lane, uint64_t bits, uint32_t count, uint32_t *taken) {
  calls++;
  switch (side->kind) {
    case RECEIVER: return interlaken_receiver_feed_bits(&side->receiver, lane, bits, count, taken);
    case INSPECTOR: return interlaken_inspector_feed_bits(&side->inspector, lane, bits, count, taken);
    default: return interlaken_gatherer_feed_bits(&side->gatherer, lane, bits, count, taken);
  }
}

static uint32_t finish(struct side *side, uint32_t lane) {
  switch (side->kind) {
    case RECEIVER: return interlaken_receiver_finish(&side->receiver, lane);
    case INSPECTOR: return interlaken_inspector_finish(&side->inspector, lane);
    default: return interlaken_gatherer_finish(&side->gatherer, lane);
  }
}

static void open_side(struct side *side, enum kind kind) {
  interlaken_refusal refusal;
  uint32_t result;
  memset(side, 0, sizeof *side);
  side->kind = kind;
  if (kind == RECEIVER) result = interlaken_receiver_new(&side->receiver, plan.bytes, plan.count, &refusal);
  else if (kind == INSPECTOR) result = interlaken_inspector_new(&side->inspector, plan.bytes, plan.count, &refusal);
  else result = interlaken_gatherer_new(&side->gatherer, plan.bytes, plan.count, &refusal);
  want("new", result == INTERLAKEN_DONE);
}

static void close_side(struct side *side) {
  uint32_t i;
  (void)interlaken_receiver_free(&side->receiver);
  (void)interlaken_inspector_free(&side->inspector);
  (void)interlaken_gatherer_free(&side->gatherer);
  for (i = 0; i < LANES; i++) free(side->logs[i].bytes);
}

/* Takes what there is. Events of different lanes of an inspector come in the order in which the lanes are fed. */
static void drain(struct side *side) {
  static uint8_t packet[ROOM];
  interlaken_event event;
  interlaken_lane_event shown;
  interlaken_gathered found;
  size_t copied;
  if (side->kind == RECEIVER) {
    while (interlaken_receiver_next(&side->receiver, &event) == INTERLAKEN_DONE && event.kind != INTERLAKEN_NONE) {
      append(&side->logs[0], &event, sizeof event);
      if (interlaken_receiver_read(&side->receiver, 0, packet, sizeof packet, &copied) == INTERLAKEN_DONE) append(&side->logs[0], packet, copied);
    }
  } else if (side->kind == INSPECTOR) {
    while (interlaken_inspector_next(&side->inspector, &shown) == INTERLAKEN_DONE && shown.kind != INTERLAKEN_NO_LANE_EVENT)
      append(&side->logs[shown.lane], &shown, sizeof shown);
  } else {
    while (interlaken_gatherer_next(&side->gatherer, &found) == INTERLAKEN_DONE && found.kind != INTERLAKEN_GATHERED_NONE)
      append(&side->logs[0], &found, sizeof found);
  }
}

/* The calls on whole bytes of a lane of which so many bits were taken, and a piece of too many bits. */
static void misuse(struct side *side, uint32_t lane, size_t bits) {
  uint8_t none = 0;
  size_t taken = 7;
  uint32_t few = 7;
  want("feed while a part of a byte is left", feed(side, lane, &none, 0, &taken) == (uint32_t)(bits % 8 != 0 ? INTERLAKEN_PART_BYTE : INTERLAKEN_DONE) && taken == 0);
  if (bits % 8 != 0) want("finish while a part of a byte is left", finish(side, lane) == INTERLAKEN_PART_BYTE);
  want("65 bits", feed_bits(side, lane, 0, 65 + below(1000), &few) == INTERLAKEN_OUT_OF_RANGE && few == 0);
  want("bits of no lane", feed_bits(side, lane_count, 0, below(65), &few) == INTERLAKEN_NO_LANE && few == 0);
}

/* Feeds a lane with its next bytes or bits, of which it took `at` bits; returns how many bits it takes. */
static size_t step(struct side *side, uint32_t lane, size_t at, int by_bits) {
  size_t left = 8 * lanes[lane].count - at, bytes = 0;
  unsigned count = below(65);
  uint64_t above;
  uint32_t bits = 0;
  if (!by_bits) {
    count = below(600);
    want("feed", feed(side, lane, lanes[lane].bytes + at / 8, count < left / 8 ? count : left / 8, &bytes) == INTERLAKEN_DONE);
    return 8 * bytes;
  }
  if (below(50) == 0) misuse(side, lane, at);
  if (count > left) count = (unsigned)left;
  above = count == 64 ? 0 : (drawn | 1) << count; /* bits above the lowest ones do not count */
  want("feed_bits", feed_bits(side, lane, bits_at(&lanes[lane], at, count) | above, count, &bits) == INTERLAKEN_DONE && bits <= count);
  want("bits that complete bytes", bits == count || (at + bits) % 8 == 0 || bits == 0);
  return bits;
}

/* Feeds all lanes to their ends, and keeps what comes. */
static void run(struct side *side, enum kind kind, int by_bits) {
  size_t at[LANES] = {0};
  int over[LANES] = {0};
  uint32_t lane, left = lane_count;
  unsigned i;
  open_side(side, kind);
  while (left > 0) {
    lane = below(lane_count);
    for (i = below(200); i > 0 && !over[lane]; i--) {
      at[lane] += step(side, lane, at[lane], by_bits);
      if (kind == INSPECTOR) drain(side);
      if (at[lane] < 8 * lanes[lane].count) continue;
      want("finish", finish(side, lane) == INTERLAKEN_DONE);
      over[lane] = 1, left--;
    }
    drain(side);
  }
  drain(side);
}

static void receive(enum kind kind) {
  static const char *const names[] = {"events of a receiver", "events of an inspector", "words of a gatherer"};
  static struct side bytes, bits;
  uint32_t i;
  run(&bytes, kind, 0);
  run(&bits, kind, 1);
  for (i = 0; i < LANES; i++) compare(names[kind], &bits.logs[i], &bytes.logs[i]);
  want("what comes", bytes.logs[0].count > 0);
  close_side(&bytes);
  close_side(&bits);
}

/* A transmitter with some packets, to be finished. */
static void open_transmitter(interlaken_transmitter *transmitter) {
  static uint8_t packet[1000];
  interlaken_refusal refusal;
  uint16_t channels[256];
  size_t count = 0;
  unsigned i;
  memset(transmitter, 0, sizeof *transmitter);
  want("transmitter", interlaken_transmitter_new(transmitter, plan.bytes, plan.count, &refusal) == INTERLAKEN_DONE);
  want("channels", interlaken_plan_channels(plan.bytes, plan.count, channels, 256, &count, &refusal) == INTERLAKEN_DONE && count > 0 && count <= 256);
  for (i = 0; i < 40; i++) {
    memset(packet, (int)i, sizeof packet);
    want("packet", interlaken_transmitter_packet(transmitter, channels[i % count], packet, 1 + 17 * i) == INTERLAKEN_DONE);
  }
  want("finish", interlaken_transmitter_finish(transmitter) == INTERLAKEN_DONE);
}

static int is_over(interlaken_transmitter *transmitter) {
  interlaken_transmitter_status status;
  uint32_t i;
  for (i = 0; i < lane_count; i++)
    if (interlaken_transmitter_status_of(transmitter, i, &status) != INTERLAKEN_DONE || !status.ended || status.waiting > 0) return 0;
  return 1;
}

static void take_bytes(interlaken_transmitter *transmitter, struct log *logs) {
  uint8_t bytes[500];
  size_t taken;
  uint32_t lane;
  while (!is_over(transmitter)) {
    lane = below(lane_count);
    want("take", interlaken_transmitter_take(transmitter, lane, bytes, 1 + below(500), &taken) == INTERLAKEN_DONE);
    append(&logs[lane], bytes, taken);
  }
}

/* Takes drawn counts of bits; each bit is a byte of the log. */
static void take_bits(interlaken_transmitter *transmitter, struct log *logs) {
  uint32_t lane, count, taken, i;
  uint64_t bits;
  uint8_t none = 0, bit;
  size_t bytes;
  int last = 0;
  for (lane = 0; !is_over(transmitter) || last < 64 * LANES; lane = below(lane_count)) {
    last += is_over(transmitter);
    count = below(65), bits = 7, taken = 7, calls++;
    want("take_bits", interlaken_transmitter_take_bits(transmitter, lane, count, &bits, &taken) == INTERLAKEN_DONE && taken <= count);
    want("bits above those that are taken", taken == 64 || bits >> taken == 0);
    for (i = taken; i > 0; i--) bit = (uint8_t)(bits >> (i - 1) & 1), append(&logs[lane], &bit, 1);
    if (below(50) > 0) continue;
    want("take while a part of a byte is left", interlaken_transmitter_take(transmitter, lane, &none, 0, &bytes) ==
         (uint32_t)(logs[lane].count % 8 != 0 ? INTERLAKEN_PART_BYTE : INTERLAKEN_DONE) && bytes == 0);
    want("65 bits to take", interlaken_transmitter_take_bits(transmitter, lane, 65, &bits, &taken) == INTERLAKEN_OUT_OF_RANGE && bits == 0 && taken == 0);
    want("bits to take of no lane", interlaken_transmitter_take_bits(transmitter, lane_count, count, &bits, &taken) == INTERLAKEN_NO_LANE && bits == 0 && taken == 0);
  }
}

static void transmit(void) {
  interlaken_transmitter bytes, bits;
  struct log whole[LANES], single[LANES];
  struct file lane;
  uint32_t i;
  size_t at;
  memset(whole, 0, sizeof whole), memset(single, 0, sizeof single);
  open_transmitter(&bytes), open_transmitter(&bits);
  take_bytes(&bytes, whole);
  take_bits(&bits, single);
  for (i = 0; i < lane_count; i++) {
    lane.bytes = whole[i].bytes, lane.count = whole[i].count;
    want("how many bits are taken", single[i].count == 8 * whole[i].count && whole[i].count > 0);
    for (at = 0; at < single[i].count && at < 8 * lane.count && single[i].bytes[at] == bits_at(&lane, at, 1); at++) continue;
    want("bits that are taken", at == 8 * lane.count);
    free(whole[i].bytes), free(single[i].bytes);
  }
  (void)interlaken_transmitter_free(&bytes);
  (void)interlaken_transmitter_free(&bits);
}

int main(int count, char **words) {
  int i;
  if (count < 4 || count > 3 + LANES) return 2;
  plan = load(words[1]);
  drawn = strtoull(words[2], NULL, 10) + 1;
  for (i = 3; i < count; i++) lanes[lane_count++] = load(words[i]);
  receive(RECEIVER), receive(INSPECTOR), receive(GATHERER), transmit();
  for (i = 3; i < count; i++) free(lanes[i - 3].bytes);
  free(plan.bytes);
  printf("calls on bits: %s\n", calls > 1000 ? "many" : "few");
  return 0;
}
