/* Tells what the lanes of a link break, while they come: a receiver, an inspector and a gatherer with a checker over the same bytes.
 *
 *     monitor PLAN PREFIX PIECE WHAT [FLOW]
 *
 * PREFIX.lane.0, PREFIX.lane.1, .. are the files of the lanes of PLAN. They come in pieces of PIECE bytes. WHAT names what is asked for,
 * with commas between: of lanes, rules, packets, drops and spans. Each has a line as soon as it is known; of one piece, first lane events,
 * then rules, and then what the receiver returns. Lanes begin anywhere in the traffic, or with from_start in WHAT at the first word sent.
 *
 * Each row of the file FLOW is a verified control word of the far end, and from which word on it counts: `412,81ffff0000188177`. */
#include "files.h"

struct lane {
  struct bytes file;
  size_t came, shown, gathered, received; /* bytes that have come, and those of them that each handle has taken */
  int over;                               /* it is finished */
  uint64_t late;                          /* bits by which its words come later than without skew, modulo 2^64 */
};

static interlaken_inspector inspector;
static interlaken_gatherer gatherer;
static interlaken_checker checker;
static interlaken_receiver receiver;
static interlaken_plan numbers;
static struct lane lanes[LANES];
static interlaken_gathered words[2]; /* the last two that were checked, by the checker's numbers; a fault is of one of them */
static interlaken_gathered gap = {.word_kind = INTERLAKEN_WORD_BAD}; /* after the last epoch; its kind is NONE if a word has come since */
static uint64_t checked, ahead; /* words that the checker has, and of them bad ones before all others */
static const char *asked;
static FILE *flow;
static uint64_t flow_number, flow_word; /* its next row */

/* The word at a place, at the bit at which its lane brings it. */
static void find(const interlaken_place *place, uint32_t *lane, uint64_t *bit) {
  must("place", interlaken_plan_place(&numbers, place, lane, bit));
  *bit += lanes[*lane].late;
}

static void print_place(const interlaken_place *place, const char *end) {
  uint32_t lane;
  uint64_t bit;
  if (place->known) find(place, &lane, &bit), printf(" lane %" PRIu32 " bit %" PRIu64 "%s", lane, bit, end);
  else printf(" -%s", end);
}

static void next_flow(void) {
  if (flow == NULL || fscanf(flow, "%" SCNu64 ",%" SCNx64, &flow_number, &flow_word) != 2) flow_number = UINT64_MAX;
}

/* Checks the next word, and before it the flow control that counts from it on. */
static void check(const interlaken_gathered *word) {
  interlaken_rule_fault fault;
  for (; flow_number <= word->number; next_flow()) must("flow", interlaken_checker_flow(&checker, flow_word));
  words[checked++ % 2] = *word;
  must("word", interlaken_checker_word(&checker, word->word_kind, word->word));
  while (must("fault", interlaken_checker_next(&checker, &fault)), fault.rule != INTERLAKEN_RULE_NONE) {
    if (strstr(asked, "rules") == NULL || fault.word < ahead) continue;
    printf("rule %s word %" PRIu64, interlaken_rule_text(fault.rule), fault.word - ahead);
    if (fault.has_channel) printf(" channel %" PRIu32, fault.channel);
    printf(" lane %" PRIu32 " bit %" PRIu64 "\n", words[fault.word % 2].lane, words[fault.word % 2].bit);
  }
}

/* Words, each checked. Between epochs a bad word stands for what is missing; its bit may be by the skew of an earlier epoch. */
static void take_gathered(void) {
  interlaken_gathered found;
  uint32_t lane;
  uint64_t bit;
  do {
    must("next of the gatherer", interlaken_gatherer_next(&gatherer, &found));
    if (found.kind == INTERLAKEN_GATHERED_BREAK) {
      gap = found, gap.word_kind = INTERLAKEN_WORD_BAD;
      find(&gap.at, &gap.lane, &gap.bit);
    } else if (found.kind == INTERLAKEN_GATHERED_WORD) {
      if (gap.kind != INTERLAKEN_GATHERED_NONE || checked < ahead) check(&gap);
      gap.kind = INTERLAKEN_GATHERED_NONE;
      find(&found.at, &lane, &bit);
      lanes[lane].late += found.bit - bit;
      check(&found);
    }
  } while (found.kind != INTERLAKEN_GATHERED_NONE && found.kind != INTERLAKEN_GATHERED_ENDED);
}

static void take_shown(void) {
  interlaken_lane_event event;
  while (must("next of the inspector", interlaken_inspector_next(&inspector, &event)), event.kind != INTERLAKEN_NO_LANE_EVENT) {
    if (strstr(asked, "lanes") == NULL) continue;
    printf("lane %" PRIu32 " bit %" PRIu64 " %s\n", event.lane, event.bit, interlaken_lane_kind_text(event.kind));
  }
}

static void take_received(void) {
  interlaken_event event;
  do {
    must("next of the receiver", interlaken_receiver_next(&receiver, &event));
    if (event.kind == INTERLAKEN_PACKET && strstr(asked, "packets") != NULL) {
      printf("packet channel %" PRIu32 " bytes %" PRIu32, event.channel, event.length);
      print_place(&event.first, ""), print_place(&event.last, "\n");
    } else if (event.kind == INTERLAKEN_SPAN && strstr(asked, "spans") != NULL) {
      printf("span %s", interlaken_fault_text(event.why)), print_place(&event.first, ""), print_place(&event.last, "\n");
    } else if (event.kind == INTERLAKEN_DROPPED && strstr(asked, "drops") != NULL) {
      printf("dropped %s channel %" PRIu32 "\n", interlaken_drop_text(event.why), event.channel);
    }
  } while (event.kind != INTERLAKEN_NONE && event.kind != INTERLAKEN_ENDED);
}

/* Feeds each handle with what it has not taken of a lane. If all have taken all, the next piece comes. 0 if the lane is over. */
static int feed_lane(uint32_t number, size_t piece) {
  struct lane *lane = &lanes[number];
  size_t came = lane->came, left = lane->file.count - came, taken;
  const uint8_t *bytes = lane->file.at;
  if (lane->over) return 0;
  must("feed", interlaken_inspector_feed(&inspector, number, bytes + lane->shown, came - lane->shown, &taken));
  lane->shown += taken, take_shown();
  must("feed", interlaken_gatherer_feed(&gatherer, number, bytes + lane->gathered, came - lane->gathered, &taken));
  lane->gathered += taken, take_gathered();
  must("feed", interlaken_receiver_feed(&receiver, number, bytes + lane->received, came - lane->received, &taken));
  lane->received += taken, take_received();
  if (lane->shown < came || lane->gathered < came || lane->received < came) return 1;
  lane->came += piece < left ? piece : left;
  if (left > 0) return 1;
  must("finish", interlaken_inspector_finish(&inspector, number));
  must("finish", interlaken_gatherer_finish(&gatherer, number)), take_gathered();
  must("finish", interlaken_receiver_finish(&receiver, number)), take_received();
  return lane->over = 1;
}

int main(int argc, char **argv) {
  size_t piece = argc > 3 ? (size_t)strtoull(argv[3], NULL, 10) : 0;
  struct bytes plan;
  interlaken_refusal why;
  if (argc < 5 || argc > 6 || piece == 0) fail("usage", "monitor PLAN PREFIX PIECE WHAT [FLOW]");
  plan = load(argv[1]), asked = argv[4], ahead = strstr(asked, "from_start") == NULL;
  if (argc == 6 && (flow = fopen(argv[5], "r")) == NULL) fail(argv[5], "not read");
  next_flow();
  must_open(argv[1], interlaken_plan_read(plan.at, plan.count, &numbers, &why), &why);
  must_open(argv[1], interlaken_inspector_new(&inspector, plan.at, plan.count, &why), &why);
  must_open(argv[1], interlaken_gatherer_new(&gatherer, plan.at, plan.count, &why), &why);
  must_open(argv[1], interlaken_checker_new(&checker, plan.at, plan.count, &why), &why);
  must_open(argv[1], interlaken_receiver_new(&receiver, plan.at, plan.count, &why), &why);
  free(plan.at);
  for (uint32_t number = 0; number < numbers.lanes; number++) lanes[number].file = load_lane(argv[2], number);
  for (int more = 1; more != 0; fflush(stdout)) {
    more = 0;
    for (uint32_t number = 0; number < numbers.lanes; number++) more |= feed_lane(number, piece);
  }
  must("free", interlaken_inspector_free(&inspector)), must("free", interlaken_gatherer_free(&gatherer));
  must("free", interlaken_checker_free(&checker)), must("free", interlaken_receiver_free(&receiver));
  return 0;
}
