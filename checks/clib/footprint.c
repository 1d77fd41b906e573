/* What a call of the library costs: prints the bytes of stack that it uses, the bytes of memory that it keeps, and the most that it has
 * at once.
 *
 *     footprint CALL PLAN
 *
 * CALL is receiver, transmitter, inspector, checker, gatherer or damage, whose `new` is called; plan_read or plan_channels; or calls.
 * That makes all other calls on handles of the plan, and prints the most stack that one of them uses. */
#include "interlaken.h"
#include "interlaken_alloc.h"

#include <pthread.h>
#include <stdio.h>
#include <stdlib.h>
#include <string.h>

#define WORDS (1 << 15) /* of eight bytes of stack: four times what the header asks for */
#define PAINT UINT64_C(0x9e3779b97f4a7c15)
#define HEADER 16

static size_t kept, most;

static void *counted(void *block, size_t size) {
  if (block == NULL) return NULL;
  memcpy(block, &size, sizeof size);
  kept += size;
  if (kept > most) most = kept;
  return (uint8_t *)block + HEADER;
}

static struct rattle_tried tried(void *at) {
  struct rattle_tried result = {at != NULL, at != NULL ? at : (void *)&kept};
  return result;
}

struct rattle_tried rattle_alloc(size_t size, size_t align) {
  if (size == 0) size = align;
  return tried(counted(malloc(HEADER + size), size));
}

struct rattle_tried rattle_realloc(void *at, size_t used, size_t size, size_t align) {
  struct rattle_tried made = rattle_alloc(size, align);
  if (!made.memory) return made;
  memcpy(made.at, at, used);
  rattle_dealloc(at);
  return made;
}

void rattle_dealloc(void *at) {
  size_t size;
  memcpy(&size, (uint8_t *)at - HEADER, sizeof size);
  kept -= size;
  free((uint8_t *)at - HEADER);
}

static uint64_t *stack;
static const uint8_t *plan;
static size_t plan_size;
static const char *asked;
static uint32_t result;
static char *top; /* where the stack of the thread was when it made the call */

static interlaken_receiver receiver;
static interlaken_transmitter transmitter;
static interlaken_inspector inspector;
static interlaken_checker checker;
static interlaken_gatherer gatherer;
static interlaken_damage damage;

static void make(void) {
  interlaken_refusal why;
  interlaken_plan numbers;
  uint16_t channels[4];
  size_t count;
  if (strcmp(asked, "receiver") == 0) result = interlaken_receiver_new(&receiver, plan, plan_size, &why);
  else if (strcmp(asked, "transmitter") == 0) result = interlaken_transmitter_new(&transmitter, plan, plan_size, &why);
  else if (strcmp(asked, "inspector") == 0) result = interlaken_inspector_new(&inspector, plan, plan_size, &why);
  else if (strcmp(asked, "checker") == 0) result = interlaken_checker_new(&checker, plan, plan_size, &why);
  else if (strcmp(asked, "gatherer") == 0) result = interlaken_gatherer_new(&gatherer, plan, plan_size, &why);
  else if (strcmp(asked, "damage") == 0) result = interlaken_damage_new(&damage, 64);
  else if (strcmp(asked, "plan_read") == 0) result = interlaken_plan_read(plan, plan_size, &numbers, &why);
  else if (strcmp(asked, "plan_channels") == 0) result = interlaken_plan_channels(plan, plan_size, channels, 4, &count, &why);
  else result = 1;
}

/* The lanes of a transmitter with a packet on each channel of up to 65,536, damaged, to a receiver, an inspector and a gatherer with a
 * checker, to their end. */
static void go_on(void) {
  static uint8_t bytes[4096];
  interlaken_transmitter_status status;
  interlaken_event event;
  interlaken_lane_event shown;
  interlaken_gathered found;
  interlaken_rule_fault fault;
  interlaken_report report;
  interlaken_counts counts;
  uint64_t slots;
  uint32_t lane = 0, over = 0, on;
  size_t taken, at;
  for (uint32_t channel = 0; channel < 65536; channel++) interlaken_transmitter_packet(&transmitter, (uint16_t)channel, bytes, 700);
  interlaken_transmitter_finish(&transmitter);
  for (uint32_t flip = 0; flip < 40; flip++) interlaken_damage_flip(&damage, flip % 2, 40000 + 977 * flip);
  while (!over) {
    over = 1;
    for (lane = 0; interlaken_transmitter_status_of(&transmitter, lane, &status) == INTERLAKEN_DONE; lane++) {
      interlaken_transmitter_take(&transmitter, lane, bytes, 512, &taken);
      interlaken_damage_apply(&damage, lane, bytes, taken);
      over &= status.ended && taken == 0;
      for (at = 0; at < taken;) {
        size_t fed;
        interlaken_inspector_feed(&inspector, lane, bytes + at, taken - at, &fed), at += fed;
        while (interlaken_inspector_next(&inspector, &shown), shown.kind != INTERLAKEN_NO_LANE_EVENT) {}
      }
      interlaken_receiver_feed(&receiver, lane, bytes, taken, &at), interlaken_gatherer_feed(&gatherer, lane, bytes, taken, &at);
      while (interlaken_receiver_next(&receiver, &event), event.kind != INTERLAKEN_NONE)
        if (event.kind == INTERLAKEN_PACKET) interlaken_receiver_read(&receiver, 0, bytes, sizeof bytes, &at);
      while (interlaken_gatherer_next(&gatherer, &found), found.kind != INTERLAKEN_GATHERED_NONE) {
        interlaken_checker_word(&checker, found.word_kind, found.word), interlaken_checker_flow(&checker, found.word);
        while (interlaken_checker_next(&checker, &fault), fault.rule != INTERLAKEN_RULE_NONE) {}
      }
    }
  }
  for (lane = 0; interlaken_receiver_finish(&receiver, lane) == INTERLAKEN_DONE; lane++)
    interlaken_receiver_report(&receiver, lane, &report), interlaken_gatherer_finish(&gatherer, lane), interlaken_inspector_finish(&inspector, lane);
  while (interlaken_receiver_next(&receiver, &event), event.kind != INTERLAKEN_ENDED) {}
  while (interlaken_gatherer_next(&gatherer, &found), found.kind != INTERLAKEN_GATHERED_ENDED) {}
  interlaken_receiver_is_on(&receiver, 1, &on), interlaken_transmitter_sent(&transmitter, 1, &counts), interlaken_transmitter_slots(&transmitter, &slots);
  interlaken_checker_finish(&checker);
  result = interlaken_receiver_free(&receiver) | interlaken_transmitter_free(&transmitter) | interlaken_inspector_free(&inspector) |
           interlaken_checker_free(&checker) | interlaken_gatherer_free(&gatherer) | interlaken_damage_free(&damage);
}

static void *run(void *call) {
  char here;
  top = &here;
  if (call != NULL) go_on();
  else make();
  return NULL;
}

/* Runs a call in a thread with a painted stack, and returns how many bytes of it the call has written. */
static size_t stack_of(void *call) {
  pthread_attr_t attributes;
  pthread_t thread;
  size_t at = 0;
  for (size_t word = 0; word < WORDS; word++) stack[word] = PAINT;
  pthread_attr_init(&attributes);
  if (pthread_attr_setstack(&attributes, stack, WORDS * sizeof *stack) != 0 || pthread_create(&thread, &attributes, run, call) != 0) exit(3);
  pthread_join(thread, NULL);
  while (stack[at] == PAINT) at++;
  return (size_t)(top - (char *)(stack + at));
}

int main(int count, char **words) {
  static const char *const handles[] = {"receiver", "transmitter", "inspector", "checker", "gatherer", "damage"};
  static uint8_t text[1 << 20];
  FILE *file = count == 3 ? fopen(words[2], "rb") : NULL;
  size_t used;
  if (file == NULL) return 2;
  plan_size = fread(text, 1, sizeof text, file), plan = text;
  fclose(file);
  if (posix_memalign((void **)&stack, 1 << 16, WORDS * sizeof *stack) != 0) return 3;
  if (strcmp(words[1], "calls") == 0) {
    for (size_t handle = 0; handle < 6; handle++)
      if (asked = handles[handle], make(), result != 0) return 4;
    used = stack_of(&result);
  } else {
    asked = words[1];
    used = stack_of(NULL);
  }
  if (result != INTERLAKEN_DONE) return 4;
  printf("%zu %zu %zu\n", used, kept, most);
  return 0;
}
