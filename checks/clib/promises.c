/* What interlaken.h says besides the results of calls: null with a count of 0, when an event comes, how many bytes `take` gives, which
 * channel is next, and what threads may do.
 *
 *     promises PLAN LANE LANE
 *
 * PLAN is a plan of two lanes, and each LANE the file of one. It prints a line for each thing that is not so, and at the end how many
 * were looked at. */
#include "interlaken.h"
#include <pthread.h>
#include <stdio.h>
#include <stdlib.h>
#include <string.h>

#define MOST 20000 /* events of the lanes */

static struct {
  uint8_t at[65536];
  size_t count;
} plan, lanes[2];

static unsigned tried, wrong;

static void want(const char *what, uint64_t found, uint64_t wanted) {
  tried++;
  if (found == wanted) return;
  wrong++;
  printf("%s: %llu and not %llu\n", what, (unsigned long long)found, (unsigned long long)wanted);
}

static size_t load(const char *name, uint8_t *at, size_t most) {
  FILE *in = fopen(name, "rb");
  size_t count = in == NULL ? 0 : fread(at, 1, most, in);
  if (count == 0 || count == most) exit(2);
  fclose(in);
  return count;
}

static void try_null(void) {
  interlaken_receiver receiver = {0};
  interlaken_transmitter transmitter = {0};
  interlaken_damage damage = {0};
  interlaken_refusal why;
  interlaken_event event;
  size_t count = 1, fed[2] = {0, 0};
  want("a receiver of no plan", interlaken_receiver_new(&receiver, NULL, 0, &why), INTERLAKEN_BAD_PLAN);
  want("its cause", why.cause, INTERLAKEN_MISSING);
  want("a transmitter of no plan", interlaken_transmitter_new(&transmitter, NULL, 0, &why), INTERLAKEN_BAD_PLAN);
  want("its key", why.key, INTERLAKEN_KEY_LANES);
  want("a receiver", interlaken_receiver_new(&receiver, plan.at, plan.count, &why), INTERLAKEN_DONE);
  want("a transmitter", interlaken_transmitter_new(&transmitter, plan.at, plan.count, &why), INTERLAKEN_DONE);
  want("damage", interlaken_damage_new(&damage, 2), INTERLAKEN_DONE);
  want("apply", interlaken_damage_apply(&damage, 1, NULL, 0), INTERLAKEN_DONE);
  want("packet", interlaken_transmitter_packet(&transmitter, 1, NULL, 0), INTERLAKEN_BAD_LENGTH);
  want("take", interlaken_transmitter_take(&transmitter, 0, NULL, 0, &count), INTERLAKEN_DONE);
  want("taken", count, 0);
  do {
    for (uint32_t lane = 0; lane < 2; lane++) {
      count = 1;
      want("feed", interlaken_receiver_feed(&receiver, lane, NULL, 0, &count), INTERLAKEN_DONE);
      want("fed", count, 0);
      (void)interlaken_receiver_feed(&receiver, lane, lanes[lane].at + fed[lane], 64, &count);
      fed[lane] += count;
    }
    do want("next", interlaken_receiver_next(&receiver, &event), INTERLAKEN_DONE);
    while (event.kind != INTERLAKEN_NONE && event.kind != INTERLAKEN_PACKET);
  } while (event.kind != INTERLAKEN_PACKET && fed[0] + 64 < lanes[0].count && fed[1] + 64 < lanes[1].count);
  count = 1;
  want("read", interlaken_receiver_read(&receiver, 0, NULL, 0, &count), INTERLAKEN_DONE);
  want("read bytes", count, 0);
  (void)interlaken_receiver_free(&receiver), (void)interlaken_transmitter_free(&transmitter), (void)interlaken_damage_free(&damage);
}

/* Feeds the lanes a byte at a time, lane `ahead` by so many bytes further than the other, and writes for each event how many bytes of
 * the other lane were fed when it came; how many events there were. */
static size_t times_of(uint32_t ahead, size_t by, size_t *times) {
  interlaken_receiver receiver = {0};
  interlaken_refusal why;
  interlaken_event event;
  size_t taken, count = 0, end = lanes[0].count < lanes[1].count ? lanes[0].count : lanes[1].count;
  want("a receiver", interlaken_receiver_new(&receiver, plan.at, plan.count, &why), INTERLAKEN_DONE);
  (void)interlaken_receiver_feed(&receiver, ahead, lanes[ahead].at, by, &taken);
  for (size_t at = 0; at + by < end; at++) {
    (void)interlaken_receiver_feed(&receiver, ahead, lanes[ahead].at + at + by, 1, &taken);
    (void)interlaken_receiver_feed(&receiver, 1 - ahead, lanes[1 - ahead].at + at, 1, &taken);
    while (interlaken_receiver_next(&receiver, &event) == INTERLAKEN_DONE && event.kind != INTERLAKEN_NONE) {
      if (count < MOST) times[count++] = at;
    }
  }
  (void)interlaken_receiver_free(&receiver);
  return count;
}

static void try_times(void) {
  static size_t in_step[MOST], one_ahead[MOST];
  size_t all = times_of(0, 0, in_step);
  want("events that come before the end", all > 10, 1);
  for (uint32_t ahead = 0; ahead < 2; ahead++) {
    for (size_t by = 1; by < 1000; by *= 9) {
      size_t count = times_of(ahead, by, one_ahead);
      want("fewer events than in step, by what is not fed", count <= all && count > 0, 1);
      for (size_t i = 0; i < count; i++) want("the byte at which an event comes", one_ahead[i], in_step[i]);
    }
  }
}

static void try_take(void) {
  static const char one[] = "lanes,1\nmetaframe,32\nchannel,1\nout,one\n";
  static uint8_t bytes[10000];
  interlaken_transmitter transmitter = {0};
  interlaken_refusal why;
  size_t taken;
  want("a transmitter of one lane", interlaken_transmitter_new(&transmitter, (const uint8_t *)one, strlen(one), &why), INTERLAKEN_DONE);
  for (size_t i = 0; i < 400; i++) {
    (void)interlaken_transmitter_take(&transmitter, 0, bytes, i % 2 != 0 ? 4088 : 4088 - i, &taken);
    want("bytes up to 4,088", taken, i % 2 != 0 ? 4088 : 4088 - i);
    (void)interlaken_transmitter_take(&transmitter, 0, bytes, sizeof bytes, &taken);
    want("at least 4,088 bytes of 10,000, and a ring at most", taken >= 4088 && taken <= 4096, 1);
  }
  (void)interlaken_transmitter_free(&transmitter);
}

/* Bursts go to the ready channels in turn: those that had none first, by their numbers, and then the one that has waited longest. */
static void try_order(void) {
  static const char three[] = "lanes,1\nmetaframe,32\nwarmup,4\nchannel,3\nchannel,1\nchannel,2\nout,three\n";
  static const unsigned wanted[] = {3, 1, 2, 3, 1, 2, 3};
  interlaken_transmitter transmitter = {0};
  interlaken_receiver receiver = {0};
  interlaken_counts counts = {0, 0, 0, 0};
  interlaken_refusal why;
  interlaken_event event;
  uint8_t piece[8];
  size_t taken;
  unsigned came = 0;
  want("a transmitter", interlaken_transmitter_new(&transmitter, (const uint8_t *)three, strlen(three), &why), INTERLAKEN_DONE);
  want("a receiver", interlaken_receiver_new(&receiver, (const uint8_t *)three, strlen(three), &why), INTERLAKEN_DONE);
  for (int i = 0; i < 3; i++) (void)interlaken_transmitter_packet(&transmitter, 3, plan.at, 64);
  for (int turn = 0; turn < 5000 && came < 7; turn++) {
    uint64_t before = counts.packets_sent;
    (void)interlaken_transmitter_take(&transmitter, 0, piece, sizeof piece, &taken);
    (void)interlaken_receiver_feed(&receiver, 0, piece, taken, &taken);
    (void)interlaken_transmitter_sent(&transmitter, 3, &counts);
    for (int i = 0; i < 4 && before == 0 && counts.packets_sent == 1; i++) {
      (void)interlaken_transmitter_packet(&transmitter, (uint16_t)(2 - i % 2), plan.at, 64);
    }
    while (interlaken_receiver_next(&receiver, &event) == INTERLAKEN_DONE && event.kind != INTERLAKEN_NONE) {
      if (event.kind == INTERLAKEN_PACKET && came < 7) want("the channel of the next packet", event.channel, wanted[came++]);
    }
  }
  want("packets of three channels", came, 7);
  (void)interlaken_transmitter_free(&transmitter), (void)interlaken_receiver_free(&receiver);
}

/* One end of a loop: packets are given and their lanes received, in one thread or in several that follow one another. */
struct end {
  interlaken_transmitter transmitter;
  interlaken_receiver receiver;
  unsigned packets;
};

static void *open_end(void *word) {
  struct end *end = (struct end *)word;
  interlaken_refusal why;
  if (interlaken_transmitter_new(&end->transmitter, plan.at, plan.count, &why) != INTERLAKEN_DONE) return NULL;
  if (interlaken_receiver_new(&end->receiver, plan.at, plan.count, &why) != INTERLAKEN_DONE) return NULL;
  for (unsigned i = 0; i < 50; i++) {
    (void)interlaken_transmitter_packet(&end->transmitter, (uint16_t)(1 + i % 2), plan.at, 1 + i % plan.count);
  }
  return word;
}

static void *go_on(void *word) {
  struct end *end = (struct end *)word;
  interlaken_event event;
  uint8_t piece[64];
  size_t taken;
  for (unsigned turn = 0; turn < 400; turn++) {
    for (uint32_t lane = 0; lane < 2; lane++) {
      (void)interlaken_transmitter_take(&end->transmitter, lane, piece, sizeof piece, &taken);
      (void)interlaken_receiver_feed(&end->receiver, lane, piece, taken, &taken);
    }
    while (interlaken_receiver_next(&end->receiver, &event) == INTERLAKEN_DONE && event.kind != INTERLAKEN_NONE) {
      end->packets += event.kind == INTERLAKEN_PACKET;
    }
  }
  return word;
}

static void *close_end(void *word) {
  struct end *end = (struct end *)word;
  (void)interlaken_transmitter_free(&end->transmitter);
  (void)interlaken_receiver_free(&end->receiver);
  return word;
}

/* Four ends at once. Each is opened, used and closed by threads of its own, one after another. */
static void try_threads(void) {
  static void *(*const steps[])(void *) = {open_end, go_on, go_on, close_end};
  static struct end ends[4];
  pthread_t threads[4];
  for (unsigned step = 0; step < 4; step++) {
    for (unsigned i = 0; i < 4; i++) want("a thread", (uint64_t)pthread_create(&threads[i], NULL, steps[step], &ends[i]), 0);
    for (unsigned i = 0; i < 4; i++) want("its end", (uint64_t)pthread_join(threads[i], NULL), 0);
  }
  for (unsigned i = 0; i < 4; i++) want("packets of an end", ends[i].packets, 50);
}

int main(int count, char **words) {
  if (count != 4) return 2;
  plan.count = load(words[1], plan.at, sizeof plan.at);
  for (int lane = 0; lane < 2; lane++) lanes[lane].count = load(words[lane + 2], lanes[lane].at, sizeof lanes[lane].at);
  try_null();
  try_times();
  try_take();
  try_order();
  try_threads();
  printf("%u tried, %u wrong\n", tried, wrong);
  return wrong != 0;
}
