/* Threads with an inspector, a gatherer and a checker each, over the same lanes at once: each finds what one single thread finds. And each
 * allocation of each `new` fails once, after which the handle has nothing, and a second call of `new` opens it.
 *
 *     together PLAN PREFIX LANES */
#include "../../examples/c/files.h"
#include "interlaken_alloc.h"

#include <pthread.h>

#define THREADS 4

static struct bytes plan, data[LANES];
static uint32_t lanes;
static long left = -1; /* allocations until one fails; none does if it is negative. Threads run only while it is -1 */

static struct rattle_tried tried(void *at) {
  static char none;
  struct rattle_tried answer = {at != NULL, at != NULL ? at : &none};
  return answer;
}

static int fails(void) {
  return left >= 0 && left-- == 0;
}

struct rattle_tried rattle_alloc(size_t size, size_t align) {
  return tried(fails() ? NULL : malloc(size != 0 ? size : align));
}

struct rattle_tried rattle_realloc(void *at, size_t kept, size_t size, size_t align) {
  (void)kept;
  return tried(fails() ? NULL : realloc(at, size != 0 ? size : align));
}

void rattle_dealloc(void *at) {
  free(at);
}

/* A sum of bytes, continued. */
static uint64_t summed(uint64_t sum, const void *what, size_t size) {
  const uint8_t *bytes = (const uint8_t *)what;
  for (size_t at = 0; at < size; at++) sum = (sum ^ bytes[at]) * UINT64_C(0x100000001b3);
  return sum;
}

static uint64_t inspected(uint64_t sum) {
  interlaken_inspector inspector = {0};
  interlaken_refusal why;
  interlaken_lane_event event;
  size_t taken;
  must_open("plan", interlaken_inspector_new(&inspector, plan.at, plan.count, &why), &why);
  for (uint32_t lane = 0; lane < lanes; lane++) {
    for (size_t at = 0; at < data[lane].count; at += taken) {
      must("feed", interlaken_inspector_feed(&inspector, lane, data[lane].at + at, data[lane].count - at, &taken));
      while (must("next", interlaken_inspector_next(&inspector, &event)), event.kind != INTERLAKEN_NO_LANE_EVENT) sum = summed(sum, &event, sizeof event);
    }
  }
  must("free", interlaken_inspector_free(&inspector));
  return sum;
}

static uint64_t checked(interlaken_checker *checker, const interlaken_gathered *found, uint64_t sum) {
  interlaken_rule_fault fault;
  must("word", interlaken_checker_word(checker, found->word_kind, found->word));
  while (must("fault", interlaken_checker_next(checker, &fault)), fault.rule != INTERLAKEN_RULE_NONE) sum = summed(sum, &fault, sizeof fault);
  return sum;
}

static uint64_t gathered(uint64_t sum) {
  interlaken_gatherer gatherer = {0};
  interlaken_checker checker = {0};
  interlaken_refusal why;
  interlaken_gathered found = {0};
  size_t fed[LANES] = {0}, taken;
  must_open("plan", interlaken_gatherer_new(&gatherer, plan.at, plan.count, &why), &why);
  must_open("plan", interlaken_checker_new(&checker, plan.at, plan.count, &why), &why);
  while (found.kind != INTERLAKEN_GATHERED_ENDED) {
    for (uint32_t lane = 0; lane < lanes; lane++) {
      if (fed[lane] > data[lane].count) continue;
      must("feed", interlaken_gatherer_feed(&gatherer, lane, data[lane].at + fed[lane], data[lane].count - fed[lane], &taken));
      fed[lane] += taken;
      if (fed[lane] == data[lane].count) must("finish", interlaken_gatherer_finish(&gatherer, lane)), fed[lane]++;
    }
    while (must("next", interlaken_gatherer_next(&gatherer, &found)), found.kind == INTERLAKEN_GATHERED_WORD || found.kind == INTERLAKEN_GATHERED_BREAK) {
      sum = summed(sum, &found, sizeof found);
      if (found.kind == INTERLAKEN_GATHERED_WORD) sum = checked(&checker, &found, sum);
    }
  }
  must("free", interlaken_gatherer_free(&gatherer)), must("free", interlaken_checker_free(&checker));
  return sum;
}

static void *run(void *sum) {
  *(uint64_t *)sum = gathered(inspected(UINT64_C(0xcbf29ce484222325)));
  return NULL;
}

/* How often `new` of a handle lacks memory, each time at a later allocation. */
#define REFUSED(what, tries)                                                                                              \
  do {                                                                                                                    \
    interlaken_##what handle = {0};                                                                                       \
    interlaken_refusal why;                                                                                               \
    uint32_t result = INTERLAKEN_OUT_OF_MEMORY;                                                                           \
    for (tries = 0; result == INTERLAKEN_OUT_OF_MEMORY; tries++) {                                                        \
      left = tries, result = interlaken_##what##_new(&handle, plan.at, plan.count, &why), left = -1;                      \
      if (result != INTERLAKEN_DONE && (result != INTERLAKEN_OUT_OF_MEMORY || handle.live != 0)) fail(#what, "is opened"); \
    }                                                                                                                     \
    must(#what, interlaken_##what##_free(&handle)), tries--;                                                              \
  } while (0)

int main(int argc, char **argv) {
  pthread_t threads[THREADS];
  uint64_t alone, sums[THREADS];
  long inspectors, gatherers, checkers;
  if (argc != 4) fail("usage", "together PLAN PREFIX LANES");
  plan = load(argv[1]), lanes = (uint32_t)strtoul(argv[3], NULL, 10);
  for (uint32_t lane = 0; lane < lanes; lane++) data[lane] = load_lane(argv[2], lane);
  run(&alone);
  for (int thread = 0; thread < THREADS; thread++)
    if (pthread_create(&threads[thread], NULL, run, &sums[thread]) != 0) fail("thread", "not started");
  for (int thread = 0; thread < THREADS; thread++) {
    pthread_join(threads[thread], NULL);
    if (sums[thread] != alone) fail("thread", "it finds something else");
  }
  REFUSED(inspector, inspectors);
  REFUSED(gatherer, gatherers);
  REFUSED(checker, checkers);
  if (inspectors < 2 || gatherers < 2 || checkers < 2) fail("new", "too few allocations");
  printf("%d threads alike\n", THREADS);
  for (uint32_t lane = 0; lane < lanes; lane++) free(data[lane].at);
  free(plan.at);
  return 0;
}
