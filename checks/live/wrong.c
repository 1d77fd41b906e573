/* Wrong libraries: calls that are wrapped when the driver is linked. WRONG in the environment is the number of the fault that one of them
 * has, as checks/live.sh lists them; with 0 none has. */
#include "interlaken.h"
#include <stdlib.h>
#include <string.h>

static int is_wrong(int number) {
  static int wrong = -1;
  if (wrong < 0) wrong = getenv("WRONG") != NULL ? atoi(getenv("WRONG")) : 0;
  return wrong == number;
}

/* ---- a receiver */

#define HANDLES 8

/* What is kept of a handle: a byte of each lane, an event, and the answers of `is_on`. */
static struct kept {
  const void *handle;
  uint8_t has_byte[64], byte[64], answered[65536], answer[65536];
  int has_event;
  interlaken_event event;
} kept[HANDLES];

static struct kept *kept_of(const void *handle) {
  int n = 0;
  while (n < HANDLES - 1 && kept[n].handle != NULL && kept[n].handle != handle) n++;
  kept[n].handle = handle;
  return &kept[n];
}

uint32_t __real_interlaken_receiver_new(interlaken_receiver *r, const uint8_t *plan, size_t count, interlaken_refusal *refusal);
uint32_t __wrap_interlaken_receiver_new(interlaken_receiver *r, const uint8_t *plan, size_t count, interlaken_refusal *refusal) {
  uint32_t result = __real_interlaken_receiver_new(r, plan, count, refusal);
  struct kept *k = kept_of(r);
  if (result == INTERLAKEN_DONE) memset(k, 0, sizeof *k), k->handle = r;
  if (is_wrong(1) && refusal->row > 1) refusal->row--;
  return result;
}

uint32_t __real_interlaken_receiver_feed(interlaken_receiver *r, uint32_t lane, const uint8_t *bytes, size_t count, size_t *taken);

/* A byte alone is given with the next one. */
static uint32_t feed_late(interlaken_receiver *r, uint32_t lane, const uint8_t *bytes, size_t count, size_t *taken) {
  struct kept *k = kept_of(r);
  uint32_t result = __real_interlaken_receiver_feed(r, lane, bytes, 0, taken);
  if (result != INTERLAKEN_DONE) return result;
  if (k->has_byte[lane]) result = __real_interlaken_receiver_feed(r, lane, &k->byte[lane], 1, taken);
  k->has_byte[lane] = count == 1;
  if (count != 1) return __real_interlaken_receiver_feed(r, lane, bytes, count, taken);
  k->byte[lane] = *bytes, *taken = 1;
  return result;
}

uint32_t __wrap_interlaken_receiver_feed(interlaken_receiver *r, uint32_t lane, const uint8_t *bytes, size_t count, size_t *taken) {
  size_t before = *taken;
  uint32_t result;
  if (is_wrong(2)) return feed_late(r, lane, bytes, count, taken);
  result = __real_interlaken_receiver_feed(r, lane, bytes, count, taken);
  if (is_wrong(3) && *taken > 1) --*taken;
  if (is_wrong(4) && result != INTERLAKEN_DONE) *taken = before;
  return result;
}

uint32_t __real_interlaken_receiver_finish(interlaken_receiver *r, uint32_t lane);
uint32_t __wrap_interlaken_receiver_finish(interlaken_receiver *r, uint32_t lane) {
  struct kept *k = kept_of(r);
  size_t taken;
  if (is_wrong(2) && lane < 64 && k->has_byte[lane]) __real_interlaken_receiver_feed(r, lane, &k->byte[lane], 1, &taken);
  if (lane < 64) k->has_byte[lane] = 0;
  return __real_interlaken_receiver_finish(r, lane);
}

uint32_t __real_interlaken_receiver_next(interlaken_receiver *r, interlaken_event *e);

/* A control word comes after the event that follows it, if there is one. */
static uint32_t next_late(interlaken_receiver *r, interlaken_event *e) {
  struct kept *k = kept_of(r);
  interlaken_event first;
  uint32_t result;
  if (k->has_event) return *e = k->event, k->has_event = 0, INTERLAKEN_DONE;
  result = __real_interlaken_receiver_next(r, e);
  if (e->kind != INTERLAKEN_FLOW) return result;
  first = *e, result = __real_interlaken_receiver_next(r, e);
  if (e->kind == INTERLAKEN_NONE) *e = first;
  else k->event = first, k->has_event = 1;
  return result;
}

uint32_t __wrap_interlaken_receiver_next(interlaken_receiver *r, interlaken_event *e) {
  uint32_t result = is_wrong(5) ? next_late(r, e) : __real_interlaken_receiver_next(r, e);
  if (is_wrong(6) && e->kind == INTERLAKEN_SPAN && e->why == INTERLAKEN_FAULT_CRC) e->why = INTERLAKEN_FAULT_PROTOCOL;
  if (is_wrong(7) && e->kind == INTERLAKEN_DROPPED) e->channel ^= 1;
  return result;
}

uint32_t __real_interlaken_receiver_read(interlaken_receiver *r, uint32_t offset, uint8_t *bytes, size_t count, size_t *copied);
uint32_t __wrap_interlaken_receiver_read(interlaken_receiver *r, uint32_t offset, uint8_t *bytes, size_t count, size_t *copied) {
  uint32_t result = __real_interlaken_receiver_read(r, offset, bytes, count, copied);
  if (is_wrong(8) && *copied > 64) bytes[64] ^= 1;
  return result;
}

uint32_t __real_interlaken_receiver_report(interlaken_receiver *r, uint32_t lane, interlaken_report *report);
uint32_t __wrap_interlaken_receiver_report(interlaken_receiver *r, uint32_t lane, interlaken_report *report) {
  uint32_t result = __real_interlaken_receiver_report(r, lane, report);
  if (is_wrong(9) && report->state > 0) report->state--;
  return result;
}

uint32_t __real_interlaken_receiver_is_on(interlaken_receiver *r, uint16_t channel, uint32_t *on);
uint32_t __wrap_interlaken_receiver_is_on(interlaken_receiver *r, uint16_t channel, uint32_t *on) {
  struct kept *k = kept_of(r);
  uint32_t result = __real_interlaken_receiver_is_on(r, channel, on), now = *on;
  if (is_wrong(10) && k->answered[channel]) *on = k->answer[channel];
  k->answered[channel] = 1, k->answer[channel] = (uint8_t)now;
  return result;
}

/* ---- a transmitter */

static const void *told;
static uint64_t told_word;

uint32_t __real_interlaken_transmitter_packet(interlaken_transmitter *t, uint16_t channel, const uint8_t *bytes, size_t count);
uint32_t __wrap_interlaken_transmitter_packet(interlaken_transmitter *t, uint16_t channel, const uint8_t *bytes, size_t count) {
  uint32_t result = __real_interlaken_transmitter_packet(t, channel, bytes, count);
  if (is_wrong(11) && result == INTERLAKEN_OUT_OF_MEMORY) __real_interlaken_transmitter_packet(t, channel, bytes, count);
  if (is_wrong(12) && result == INTERLAKEN_NO_CHANNEL && (count == 0 || count > 262144)) return INTERLAKEN_BAD_LENGTH;
  return result;
}

/* What `flow` gives, without anything that it does: a packet without bytes is refused first if the transmitter is finished. */
static uint32_t flow_result(interlaken_transmitter *t) {
  uint8_t byte = 0;
  uint32_t result = __real_interlaken_transmitter_packet(t, 0, &byte, 0);
  return result == INTERLAKEN_FINISHED || result == INTERLAKEN_NO_TRANSMITTER ? result : INTERLAKEN_DONE;
}

uint32_t __real_interlaken_transmitter_flow(interlaken_transmitter *t, uint64_t word);
uint32_t __wrap_interlaken_transmitter_flow(interlaken_transmitter *t, uint64_t word) {
  uint32_t end = (uint32_t)(word >> 57) & 15, result = flow_result(t);
  if (is_wrong(13) && (!(word >> 63) || (end > 1 && end < 8))) return result;
  if (is_wrong(14) && told == NULL && result == INTERLAKEN_DONE) return told = t, told_word = word, result;
  return __real_interlaken_transmitter_flow(t, word);
}

uint32_t __real_interlaken_transmitter_local(interlaken_transmitter *t, uint16_t channel, uint32_t on);
uint32_t __wrap_interlaken_transmitter_local(interlaken_transmitter *t, uint16_t channel, uint32_t on) {
  return __real_interlaken_transmitter_local(t, channel, is_wrong(15) ? on == 1 : on);
}

uint32_t __real_interlaken_transmitter_slots(interlaken_transmitter *t, uint64_t *slots);
uint32_t __real_interlaken_transmitter_take(interlaken_transmitter *t, uint32_t lane, uint8_t *bytes, size_t count, size_t *taken);

/* The word of the far end counts from the word after the next on. */
static uint32_t take_late(interlaken_transmitter *t, uint32_t lane, uint8_t *bytes, size_t count, size_t *taken) {
  uint64_t before, after;
  size_t first = 0;
  uint32_t result;
  __real_interlaken_transmitter_slots(t, &before);
  do {
    result = __real_interlaken_transmitter_take(t, lane, bytes + first, first < count, taken);
    first += *taken;
    __real_interlaken_transmitter_slots(t, &after);
  } while (*taken == 1 && after == before);
  if (after != before) told = NULL, __real_interlaken_transmitter_flow(t, told_word);
  if (result == INTERLAKEN_DONE) result = __real_interlaken_transmitter_take(t, lane, bytes + first, count - first, taken), *taken += first;
  return result;
}

uint32_t __wrap_interlaken_transmitter_take(interlaken_transmitter *t, uint32_t lane, uint8_t *bytes, size_t count, size_t *taken) {
  static unsigned long all;
  uint32_t result;
  if (is_wrong(14) && told == t) return take_late(t, lane, bytes, count, taken);
  result = __real_interlaken_transmitter_take(t, lane, bytes, count, taken);
  all += *taken;
  if (is_wrong(16) && *taken > 0 && all % 5 == 0) bytes[*taken - 1] ^= 1;
  if (is_wrong(17) && *taken > 0 && *taken < count) bytes[*taken] = 0;
  return result;
}

uint32_t __real_interlaken_transmitter_sent(interlaken_transmitter *t, uint16_t channel, interlaken_counts *counts);
uint32_t __wrap_interlaken_transmitter_sent(interlaken_transmitter *t, uint16_t channel, interlaken_counts *counts) {
  uint32_t result = __real_interlaken_transmitter_sent(t, channel, counts);
  if (is_wrong(18) && counts->bytes_sent > 0) counts->bytes_sent--;
  return result;
}

uint32_t __wrap_interlaken_transmitter_slots(interlaken_transmitter *t, uint64_t *slots) {
  uint32_t result = __real_interlaken_transmitter_slots(t, slots);
  if (is_wrong(19) && *slots > 0) --*slots;
  return result;
}

/* ---- damage */

uint32_t __real_interlaken_damage_flip(interlaken_damage *d, uint32_t lane, uint64_t bit);
uint32_t __wrap_interlaken_damage_flip(interlaken_damage *d, uint32_t lane, uint64_t bit) {
  return __real_interlaken_damage_flip(d, lane, is_wrong(20) && bit % 8 != 7 ? bit + 1 : bit);
}

uint32_t __real_interlaken_damage_dark(interlaken_damage *d, uint32_t lane, uint64_t first, uint64_t bits);
uint32_t __wrap_interlaken_damage_dark(interlaken_damage *d, uint32_t lane, uint64_t first, uint64_t bits) {
  return __real_interlaken_damage_dark(d, lane, first, is_wrong(21) && bits > 1 && (first + bits) % 8 != 1 ? bits - 1 : bits);
}

uint32_t __real_interlaken_damage_apply(interlaken_damage *d, uint32_t lane, uint8_t *bytes, size_t count);
uint32_t __wrap_interlaken_damage_apply(interlaken_damage *d, uint32_t lane, uint8_t *bytes, size_t count) {
  static unsigned calls;
  uint32_t result = __real_interlaken_damage_apply(d, lane, bytes, count);
  if (is_wrong(22) && count > 0 && ++calls % 40 == 0) bytes[0] ^= 16;
  return result;
}
