/* What the inspector, the gatherer and the checker of the library find in the lanes of a link, as the tables of `inspect`, `gather` and
 * `check`: the lanes come in random pieces, in a random order.
 *
 *     handles PLAN PREFIX LANES SEED OUT [FLOW]
 *
 * PREFIX.lane.0, .. are the lanes. It writes OUT.inspected and OUT.gathered, with the lines of lanes that `inspect` and `gather` print, and
 * then events and breaks; OUT.words; and OUT.faults. Each row of FLOW, as `412,81ffff0000188177`, counts from the checker's word 412 on. */
#include "../../examples/c/files.h"

static uint64_t state;
static uint32_t lanes;
static struct bytes data[LANES];
static size_t fed[LANES];
static int over[LANES];
static interlaken_checker checker;
static FILE *words, *faults, *flow;
static uint64_t flow_number, flow_word, count, checked; /* the next row of FLOW; words so far, and those that were checked */
static interlaken_word batch[300];                       /* words that are not checked yet */
static size_t waiting;                                   /* how many these are */

/* A random number below n. */
static uint64_t drawn(uint64_t n) {
  state ^= state << 13, state ^= state >> 7, state ^= state << 17;
  return (state >> 11) % n;
}

static FILE *created(const char *out, const char *what) {
  char name[4096];
  FILE *file;
  snprintf(name, sizeof name, "%s.%s", out, what);
  if ((file = fopen(name, "wb")) == NULL) fail(name, "not written");
  return file;
}

/* A lane that is not over, and the length of a piece of it; or none. */
static int next_piece(uint32_t *lane, size_t *piece) {
  static const size_t sizes[] = {0, 1, 2, 7, 8, 9, 64, 300, 900, 4096, 9000};
  uint32_t left = 0, pick;
  for (*lane = 0; *lane < lanes; ++*lane) left += !over[*lane];
  if (left == 0) return 0;
  pick = (uint32_t)drawn(left);
  for (*lane = 0; over[*lane] || pick-- > 0; ++*lane) {}
  *piece = sizes[drawn(sizeof sizes / sizeof *sizes)];
  if (*piece > data[*lane].count - fed[*lane]) *piece = data[*lane].count - fed[*lane];
  return 1;
}

static void begin(void) {
  memset(fed, 0, sizeof fed), memset(over, 0, sizeof over);
}

static void put_report(FILE *out, uint32_t lane, const interlaken_report *r) {
  fprintf(out, "lane %" PRIu32 " locks=%" PRIu64 " first=", lane, r->locks);
  if (r->has_first) fprintf(out, "%" PRIu64, r->first);
  else fputc('-', out);
  fprintf(out, " lost=%" PRIu64 " unframed=%" PRIu64 " bad=%" PRIu64 " sync=%" PRIu64 " state=%" PRIu64 " diag=%" PRIu64 "\n", r->lost, r->unframed,
          r->bad, r->sync, r->state, r->diag);
}

static void inspect(interlaken_inspector *inspector, FILE *out) {
  interlaken_lane_event event;
  interlaken_report report;
  uint32_t lane;
  size_t piece, taken;
  for (begin(); next_piece(&lane, &piece);) {
    must("feed", interlaken_inspector_feed(inspector, lane, data[lane].at + fed[lane], piece, &taken));
    fed[lane] += taken;
    if (fed[lane] == data[lane].count) must("finish", interlaken_inspector_finish(inspector, lane)), over[lane] = 1;
    for (uint64_t most = drawn(30); most > 0; most--) {
      must("next", interlaken_inspector_next(inspector, &event));
      if (event.kind == INTERLAKEN_NO_LANE_EVENT) break;
      fprintf(out, "%" PRIu32 ",%" PRIu64 ",%s\n", event.lane, event.bit, interlaken_lane_kind_text(event.kind));
    }
  }
  while (must("next", interlaken_inspector_next(inspector, &event)), event.kind != INTERLAKEN_NO_LANE_EVENT)
    fprintf(out, "%" PRIu32 ",%" PRIu64 ",%s\n", event.lane, event.bit, interlaken_lane_kind_text(event.kind));
  for (lane = 0; lane < lanes; lane++) must("report", interlaken_inspector_report(inspector, lane, &report)), put_report(out, lane, &report);
}

/* The faults that are due: of the last word that was taken, or `empty` of the word before it. How many. */
static uint32_t put_faults(void) {
  interlaken_rule_fault fault;
  uint32_t found = 0;
  for (; must("fault", interlaken_checker_next(&checker, &fault)), fault.rule != INTERLAKEN_RULE_NONE; found++) {
    if (fault.word + 1 + (fault.rule == INTERLAKEN_RULE_EMPTY) != checked) fail("checker", "a fault with a later word");
    fprintf(faults, "%" PRIu64 ",%" PRIu32 ",%s,", fault.word, fault.rule, interlaken_rule_text(fault.rule));
    if (fault.has_channel) fprintf(faults, "%" PRIu32 "\n", fault.channel);
    else fputs("-\n", faults);
  }
  return found;
}

/* Checks the words that wait, one at a time or many. */
static void check_waiting(void) {
  size_t at = 0, most, taken = 1;
  for (; at < waiting; at += taken) {
    most = 1 + (size_t)drawn(waiting - at);
    if (drawn(4) == 0) most = taken = 1, must("word", interlaken_checker_word(&checker, batch[at].kind, batch[at].number));
    else must("words", interlaken_checker_words(&checker, batch + at, most, &taken));
    checked += taken;
    if (put_faults() == 0 && taken < most) fail("words", "it stops at a word without a fault");
    if (taken == 0) fail("words", "none is taken");
  }
  waiting = 0;
}

static void next_flow(void) {
  if (flow == NULL || fscanf(flow, "%" SCNu64 ",%" SCNx64, &flow_number, &flow_word) != 2) flow_number = UINT64_MAX;
}

/* Writes and checks the next word, whose number the gatherer tells. */
static void put_word(uint32_t kind, uint64_t number, uint64_t told) {
  if (told != count) fail("gatherer", "a wrong number");
  fputc((int)kind, words);
  for (int place = 56; place >= 0; place -= 8) fputc((int)(number >> place & 255), words);
  if (flow_number <= count || waiting == sizeof batch / sizeof *batch) check_waiting();
  for (; flow_number <= count; next_flow()) must("flow", interlaken_checker_flow(&checker, flow_word));
  batch[waiting].number = number, batch[waiting].kind = kind, waiting++, count++;
}

static void put_gathered(const interlaken_gathered *found, FILE *out) {
  static interlaken_gathered gap; /* a break, after which no word has come */
  if (found->kind == INTERLAKEN_GATHERED_ENDED) return;
  if (gap.kind != INTERLAKEN_GATHERED_NONE) put_word(INTERLAKEN_WORD_BAD, 0, gap.number);
  gap.kind = INTERLAKEN_GATHERED_NONE;
  if (found->kind == INTERLAKEN_GATHERED_WORD) {
    put_word(found->word_kind, found->word, found->number);
  } else {
    gap = *found;
    fprintf(out, "%" PRIu64 ",%" PRIu64 ",%" PRIu32 ",%s\n", found->number, found->at.group, found->at.index, interlaken_fault_text(found->why));
  }
}

/* Takes up to so many words and breaks, in random pieces: 0 if none is left. */
static int take_gathered(interlaken_gatherer *gatherer, uint64_t most, FILE *out) {
  static interlaken_gathered found[600];
  size_t room, count, at;
  for (; most > 0; most -= count) {
    room = 1 + (size_t)drawn(sizeof found / sizeof *found);
    if (room > most) room = (size_t)most;
    must("words", interlaken_gatherer_words(gatherer, found, room, &count));
    for (at = 0; at < count; at++) put_gathered(&found[at], out);
    if (count < room) return 0;
  }
  return 1;
}

static void gather(interlaken_gatherer *gatherer, FILE *out) {
  interlaken_report report;
  uint32_t lane;
  size_t piece, taken;
  for (begin(); next_piece(&lane, &piece);) {
    must("feed", interlaken_gatherer_feed(gatherer, lane, data[lane].at + fed[lane], piece, &taken));
    fed[lane] += taken;
    if (fed[lane] == data[lane].count) must("finish", interlaken_gatherer_finish(gatherer, lane)), over[lane] = 1;
    take_gathered(gatherer, drawn(4) == 0 ? 20000 : drawn(900), out);
  }
  while (take_gathered(gatherer, 20000, out)) {}
  for (lane = 0; lane < lanes; lane++) must("report", interlaken_gatherer_report(gatherer, lane, &report)), put_report(out, lane, &report);
}

int main(int argc, char **argv) {
  interlaken_inspector inspector = {0};
  interlaken_gatherer gatherer = {0};
  interlaken_refusal why;
  struct bytes plan;
  FILE *out;
  if (argc < 6 || argc > 7) fail("usage", "handles PLAN PREFIX LANES SEED OUT [FLOW]");
  plan = load(argv[1]), lanes = (uint32_t)strtoul(argv[3], NULL, 10);
  state = (strtoull(argv[4], NULL, 10) + 1) * UINT64_C(0x9e3779b97f4a7c15);
  for (uint32_t lane = 0; lane < lanes; lane++) data[lane] = load_lane(argv[2], lane);
  if (argc == 7 && (flow = fopen(argv[6], "r")) == NULL) fail(argv[6], "not read");
  next_flow();
  words = created(argv[5], "words"), faults = created(argv[5], "faults");
  must_open(argv[1], interlaken_inspector_new(&inspector, plan.at, plan.count, &why), &why);
  must_open(argv[1], interlaken_gatherer_new(&gatherer, plan.at, plan.count, &why), &why);
  must_open(argv[1], interlaken_checker_new(&checker, plan.at, plan.count, &why), &why);
  inspect(&inspector, out = created(argv[5], "inspected")), finish_file(out, "inspected");
  gather(&gatherer, out = created(argv[5], "gathered")), finish_file(out, "gathered");
  check_waiting(), must("finish", interlaken_checker_finish(&checker));
  if (put_faults() != 0) fail("checker", "faults after the last word");
  finish_file(words, "words"), finish_file(faults, "faults");
  must("free", interlaken_inspector_free(&inspector)), must("free", interlaken_gatherer_free(&gatherer));
  must("free", interlaken_checker_free(&checker));
  return 0;
}
