/* Calls of the C library in drawn sequences, wrong ones among them, with the result of each as the header states it; and each
 * allocation failing. It is C and C++.
 *
 *     calls PLAN LANE0 LANE1 SEQUENCES
 *
 * PLAN is a plan of two lanes, and LANE0 and LANE1 are the files of its lanes. */
#define _GNU_SOURCE 1
#include "interlaken.h"
#include "interlaken_alloc.h"
#include <stdio.h>
#include <stdlib.h>
#include <string.h>
#include <sys/mman.h>

static long allocations, live, failing = -1;
static char none;

static struct rattle_tried tried(void *at) {
  struct rattle_tried answer;
  answer.memory = at != NULL;
  answer.at = at != NULL ? at : &none;
  return answer;
}

struct rattle_tried rattle_alloc(size_t size, size_t align) {
  void *at = allocations++ == failing ? NULL : malloc(size != 0 ? size : align);
  live += at != NULL;
  return tried(at);
}

struct rattle_tried rattle_realloc(void *at, size_t kept, size_t size, size_t align) {
  (void)kept;
  return tried(allocations++ == failing ? NULL : realloc(at, size != 0 ? size : align));
}

void rattle_dealloc(void *at) {
  live--;
  free(at);
}

static long wrong, tries;

static void want(const char *what, int holds) {
  tries++;
  if (holds) return;
  if (wrong++ < 20) printf("%s\n", what);
}

struct bytes {
  uint8_t *at;
  size_t count;
};

static struct bytes load(const char *name) {
  struct bytes file;
  FILE *in = fopen(name, "rb");
  if (in == NULL) exit(2);
  fseek(in, 0, SEEK_END);
  file.count = (size_t)ftell(in);
  rewind(in);
  file.at = (uint8_t *)malloc(file.count + 1);
  if (fread(file.at, 1, file.count, in) != file.count) exit(2);
  fclose(in);
  return file;
}

/* The same rows and one more. */
static struct bytes with_row(struct bytes rows, const char *row) {
  struct bytes more;
  more.count = rows.count + strlen(row);
  more.at = (uint8_t *)malloc(more.count);
  memcpy(more.at, rows.at, rows.count);
  memcpy(more.at + rows.count, row, strlen(row));
  return more;
}

static uint64_t state;

static uint32_t below(uint32_t bound) {
  state ^= state << 13, state ^= state >> 7, state ^= state << 17;
  return (uint32_t)(state >> 20) % bound;
}

#define LONGEST 2048
#define LONG_PIECE ((size_t)1 << 40)

/* A handle, and what is known of it. */
struct known {
  interlaken_receiver receiver;
  int has, lends, over[2], ended;
  int off[2]; /* channels 1 and 2, the entries of the calendar, by the control words that came */
  uint32_t length;
  uint8_t packet[LONGEST]; /* the last packet, read as a whole after `next` */
  size_t fed[2];
};

static struct known absent;
static struct bytes plan, sender_plan, lanes[2];
static const uint8_t *long_piece; /* LONG_PIECE bytes, or NULL if no address space is left for so many */

static uint32_t lane_result(const struct known *k, uint32_t lane) {
  if (!k->has) return INTERLAKEN_NO_RECEIVER;
  if (lane >= 2) return INTERLAKEN_NO_LANE;
  return k->over[lane] ? INTERLAKEN_FINISHED : INTERLAKEN_DONE;
}

static uint32_t some_lane(void) {
  static const uint32_t few[] = {0, 1, 0, 1, 0, 1, 2, 63, 64, 0xffffffff};
  return few[below(10)];
}

static void try_new(struct known *k) {
  interlaken_refusal refusal;
  int bad = below(4) == 0;
  uint32_t result = interlaken_receiver_new(&k->receiver, bad ? (const uint8_t *)"lanes,x\n" : plan.at, bad ? below(9) : plan.count, &refusal);
  want("new", result == (uint32_t)(k->has ? INTERLAKEN_IN_USE : bad ? INTERLAKEN_BAD_PLAN : INTERLAKEN_DONE));
  want("refusal", (refusal.cause != 0) == (result == INTERLAKEN_BAD_PLAN));
  if (result == INTERLAKEN_DONE) k->has = 1;
}

static void try_free(struct known *k) {
  uint32_t result = interlaken_receiver_free(&k->receiver);
  want("free", result == (uint32_t)(k->has ? INTERLAKEN_DONE : INTERLAKEN_NO_RECEIVER));
  want("freed", k->receiver.live == 0);
  *k = absent;
}

static void try_feed(struct known *k) {
  uint32_t lane = some_lane(), wanted = lane_result(k, lane), from = lane < 2 ? lane : 0, result;
  size_t left = lanes[from].count - k->fed[from], count = below(6000), taken = 99;
  int is_long = below(50) == 0 && long_piece != NULL;
  if (count > left) count = left;
  if (wanted == INTERLAKEN_DONE && is_long) wanted = INTERLAKEN_TOO_MANY;
  result = interlaken_receiver_feed(&k->receiver, lane, is_long ? long_piece : lanes[from].at + k->fed[from], is_long ? LONG_PIECE : count, &taken);
  want("feed", result == wanted);
  want("taken", result == INTERLAKEN_DONE ? taken <= count && (taken == count || taken <= 4096) : taken == 0);
  if (result == INTERLAKEN_DONE) k->fed[from] += taken;
}

static void try_finish(struct known *k) {
  uint32_t lane = some_lane(), wanted = lane_result(k, lane);
  want("finish", interlaken_receiver_finish(&k->receiver, lane) == wanted);
  if (wanted == INTERLAKEN_DONE) k->over[lane] = 1;
}

static void try_next(struct known *k) {
  interlaken_event event;
  uint32_t result = interlaken_receiver_next(&k->receiver, &event);
  want("next", result == (uint32_t)(k->has ? INTERLAKEN_DONE : INTERLAKEN_NO_RECEIVER));
  want("kind", event.kind <= (uint32_t)(k->has ? INTERLAKEN_ENDED : INTERLAKEN_NONE));
  want("end", event.kind != INTERLAKEN_ENDED || (k->over[0] && k->over[1] && !k->ended));
  want("none after the end", !k->ended || event.kind == INTERLAKEN_NONE);
  if (event.kind == INTERLAKEN_ENDED) k->ended = 1;
  if (event.kind == INTERLAKEN_FLOW && (event.word >> 56 & 1) != 0) k->off[0] = !(event.word >> 55 & 1), k->off[1] = !(event.word >> 54 & 1);
  k->lends = event.kind == INTERLAKEN_PACKET;
  k->length = event.length;
  if (k->lends) {
    size_t copied = 0;
    want("short packet", event.length <= LONGEST);
    result = interlaken_receiver_read(&k->receiver, 0, k->packet, LONGEST, &copied);
    want("whole packet", result == INTERLAKEN_DONE && copied == event.length);
  }
}

static void try_read(struct known *k) {
  uint8_t bytes[300];
  size_t copied = 99, count = below(301), left, i;
  uint32_t offset = below(8) == 0 ? 0xffffffff - below(2) : below(400), result;
  int stay = 1;
  memset(bytes, 0xa5, sizeof bytes);
  result = interlaken_receiver_read(&k->receiver, offset, bytes, count, &copied);
  want("read", result == (uint32_t)(!k->has ? INTERLAKEN_NO_RECEIVER : k->lends ? INTERLAKEN_DONE : INTERLAKEN_NO_PACKET));
  left = k->length > offset ? k->length - offset : 0;
  want("copied", copied == (result == INTERLAKEN_DONE ? (count < left ? count : left) : 0));
  if (copied > count) return;
  want("bytes of the packet", copied == 0 || memcmp(bytes, k->packet + offset, copied) == 0);
  for (i = copied; i < sizeof bytes; i++) stay = stay && bytes[i] == 0xa5;
  want("the other bytes stay", stay);
}

static void try_report(struct known *k) {
  interlaken_report report;
  uint32_t lane = some_lane(), result = interlaken_receiver_report(&k->receiver, lane, &report);
  want("report", result == (uint32_t)(!k->has ? INTERLAKEN_NO_RECEIVER : lane < 2 ? INTERLAKEN_DONE : INTERLAKEN_NO_LANE));
}

/* A lane is in a declared lock if it has more locks than lost ones. */
static void try_state(struct known *k) {
  interlaken_report report;
  uint32_t lane = some_lane(), found = 99, result = interlaken_receiver_lane_state(&k->receiver, lane, &found);
  want("state", result == (uint32_t)(!k->has ? INTERLAKEN_NO_RECEIVER : lane < 2 ? INTERLAKEN_DONE : INTERLAKEN_NO_LANE));
  want("a state", found <= (uint32_t)(result == INTERLAKEN_DONE ? INTERLAKEN_LANE_DECLARED : INTERLAKEN_LANE_SEARCHING));
  want("report of it", interlaken_receiver_report(&k->receiver, lane, &report) == result);
  want("a declared lock", (found == INTERLAKEN_LANE_DECLARED) == (report.locks > report.lost));
}

/* A word of this calendar has all its entries, so each with Reset Calendar tells of both channels, and no other of any. */
static void try_channel(struct known *k) {
  uint32_t on = 99, result;
  uint16_t channel = (uint16_t)(below(10) == 0 ? 0xffff : below(4));
  int listed = channel == 1 || channel == 2;
  result = interlaken_receiver_is_on(&k->receiver, channel, &on);
  want("channel", result == (uint32_t)(!k->has ? INTERLAKEN_NO_RECEIVER : listed ? INTERLAKEN_DONE : INTERLAKEN_NO_CHANNEL));
  want("on", on == (uint32_t)(k->has && listed && !k->off[channel - 1]));
}

static void sequence(void) {
  struct known two[2] = {absent, absent};
  uint32_t calls = 20 + below(200);
  while (calls-- > 0) {
    struct known *k = &two[below(2)];
    long before = allocations;
    switch (below(40)) {
      case 0: case 1: try_new(k); before = allocations; break;
      case 2: if (below(4) == 0) try_free(k); break;
      case 3: if (below(3) == 0) try_finish(k); break;
      case 4: case 5: case 6: try_read(k); break;
      case 7: case 8: try_report(k); break;
      case 9: case 10: try_state(k); break;
      case 11: case 12: try_channel(k); break;
      default: if (below(2)) try_feed(k); else try_next(k); break;
    }
    want("no allocation after new", allocations == before);
  }
  try_free(&two[0]), try_free(&two[1]);
  want("nothing leaks", live == 0);
}

/* If an allocation fails the call has no memory, or does without it. */
static void each_allocation(void) {
  long fails, refused = 0, taken = 1;
  for (fails = 0; fails < taken; fails++) {
    struct known k = absent;
    interlaken_refusal refusal;
    uint32_t result;
    failing = fails, allocations = 0;
    result = interlaken_receiver_new(&k.receiver, plan.at, plan.count, &refusal);
    failing = -1, taken = allocations > fails ? fails + 2 : fails;
    want("no cause", refusal.cause == 0);
    if (result == INTERLAKEN_DONE) {
      interlaken_receiver_free(&k.receiver);
    } else {
      want("out of memory", result == INTERLAKEN_OUT_OF_MEMORY && k.receiver.live == 0);
      refused++;
    }
    want("nothing leaks", live == 0);
  }
  want("it needs memory", refused > 10);
}

/* ---- damage */

#define BYTES 3000
#define ROWS 200

struct rows {
  uint64_t flips[ROWS], first[ROWS], end[ROWS];
  int flip_count, dark_count;
};

/* A handle of the damage of some lanes, and what is known of two of them: rows that were accepted, and the bytes that went in and out. */
struct injured {
  interlaken_damage damage;
  uint32_t lanes;
  struct rows rows[2];
  uint8_t in[2][BYTES], out[2][BYTES];
  size_t passed[2];
};

static int bit_of(const uint8_t *bytes, uint64_t n) { return bytes[n / 8] >> (7 - n % 8) & 1; }

/* Bit n as it is received, where b was sent. */
static int received(const struct rows *rows, uint64_t n, int b) {
  int i, dark = 0;
  for (i = 0; i < rows->dark_count; i++) dark = dark || (rows->first[i] <= n && n < rows->end[i]);
  for (i = 0; i < rows->flip_count; i++) b ^= rows->flips[i] == n;
  return dark ? 0 : b;
}

static int is_damaged(const struct rows *rows, uint64_t start, const uint8_t *in, const uint8_t *out, size_t count) {
  uint64_t n;
  for (n = 0; n < 8 * (uint64_t)count; n++)
    if (bit_of(out, n) != received(rows, start + n, bit_of(in, n))) return 0;
  return 1;
}

static uint32_t damage_lane_result(const struct injured *k, uint32_t lane) {
  if (k->lanes == 0) return INTERLAKEN_NO_DAMAGE;
  return lane >= k->lanes ? INTERLAKEN_NO_LANE : INTERLAKEN_DONE;
}

/* A bit near the next one of the lane, most often. */
static uint64_t some_bit(const struct injured *k, uint32_t lane) {
  static const uint64_t far[] = {0, ((uint64_t)1 << 44) - 1, (uint64_t)1 << 44, ~(uint64_t)0};
  uint64_t next = 8 * (uint64_t)k->passed[lane & 1];
  if (below(12) == 0) return far[below(4)];
  return next + below(800) < 40 ? 0 : next + below(800) - 40;
}

static uint32_t row_result(const struct injured *k, uint32_t lane, uint64_t end, int in_range) {
  uint32_t result = damage_lane_result(k, lane);
  if (result != INTERLAKEN_DONE) return result;
  if (!in_range) return INTERLAKEN_OUT_OF_RANGE;
  return end <= (lane < 2 ? 8 * (uint64_t)k->passed[lane] : 0) ? INTERLAKEN_PASSED : INTERLAKEN_DONE;
}

/* Where memory is to run out in the next call, the call may still do without it. */
static int may_fail(void) {
  failing = below(6) == 0 ? allocations : -1;
  return failing >= 0;
}

static uint32_t settled(uint32_t result, uint32_t wanted, int fails) {
  failing = -1;
  return fails && wanted == INTERLAKEN_DONE && result == INTERLAKEN_OUT_OF_MEMORY ? result : wanted;
}

static void try_damage_new(struct injured *k) {
  static const uint32_t few[] = {2, 2, 2, 1, 64, 0, 65, 0xffffffff};
  uint32_t lanes = few[below(8)], wanted, result;
  int fails = may_fail();
  result = interlaken_damage_new(&k->damage, lanes);
  wanted = k->lanes != 0 ? INTERLAKEN_IN_USE : lanes < 1 || lanes > 64 ? INTERLAKEN_OUT_OF_RANGE : INTERLAKEN_DONE;
  want("damage new", result == settled(result, wanted, fails));
  if (result == INTERLAKEN_DONE) memset(k->rows, 0, sizeof k->rows), k->passed[0] = k->passed[1] = 0, k->lanes = lanes;
  want("damage is live", (k->damage.live != 0) == (k->lanes != 0));
}

static void try_flip(struct injured *k) {
  uint32_t lane = some_lane(), result, wanted;
  uint64_t bit = some_bit(k, lane);
  struct rows *rows = &k->rows[lane & 1];
  int fails;
  if (rows->flip_count == ROWS) return;
  if (rows->flip_count > 0 && below(4) == 0) bit = rows->flips[below((uint32_t)rows->flip_count)];
  fails = may_fail();
  wanted = row_result(k, lane, bit + 1, bit < (uint64_t)1 << 44);
  result = interlaken_damage_flip(&k->damage, lane, bit);
  want("flip", result == settled(result, wanted, fails));
  if (result == INTERLAKEN_DONE && lane < 2) rows->flips[rows->flip_count++] = bit;
}

static void try_dark(struct injured *k) {
  uint32_t lane = some_lane(), result, wanted;
  uint64_t first = some_bit(k, lane), bits = below(10) == 0 ? ~(uint64_t)below(3) : below(3) == 0 ? below(2000) : below(60);
  struct rows *rows = &k->rows[lane & 1];
  int fails;
  if (rows->dark_count == ROWS) return;
  fails = may_fail();
  wanted = row_result(k, lane, first + bits, first <= (uint64_t)1 << 44 && bits <= ((uint64_t)1 << 44) - first);
  result = interlaken_damage_dark(&k->damage, lane, first, bits);
  want("dark", result == settled(result, wanted, fails));
  if (result != INTERLAKEN_DONE || lane >= 2) return;
  /* What has passed stays as it came out. */
  rows->end[rows->dark_count] = first + bits;
  rows->first[rows->dark_count++] = first > 8 * (uint64_t)k->passed[lane] ? first : 8 * (uint64_t)k->passed[lane];
}

static void try_apply(struct injured *k) {
  uint32_t lane = some_lane(), wanted = damage_lane_result(k, lane), result;
  size_t passed = k->passed[lane & 1], count = below(3) == 0 ? below(300) : below(12), i;
  uint8_t piece[300];
  if (lane < 2 && count > BYTES - passed) count = BYTES - passed;
  if (lane >= 2 && wanted == INTERLAKEN_DONE) return;
  if (below(50) == 0 && long_piece != NULL) {
    result = interlaken_damage_apply(&k->damage, lane, (uint8_t *)long_piece, LONG_PIECE);
    if (wanted == INTERLAKEN_DONE) wanted = INTERLAKEN_TOO_MANY;
    want("a long piece", result == wanted);
    return;
  }
  for (i = 0; i < count; i++) piece[i] = (uint8_t)below(256);
  if (wanted == INTERLAKEN_DONE) memcpy(k->in[lane] + passed, piece, count);
  result = interlaken_damage_apply(&k->damage, lane, piece, count);
  want("apply", result == wanted);
  if (result != INTERLAKEN_DONE) return;
  memcpy(k->out[lane] + passed, piece, count);
  want("damaged", is_damaged(&k->rows[lane], 8 * (uint64_t)passed, k->in[lane] + passed, piece, count));
  k->passed[lane] += count;
}

static void try_damage_free(struct injured *k) {
  uint32_t lane, result = interlaken_damage_free(&k->damage);
  want("damage free", result == (uint32_t)(k->lanes != 0 ? INTERLAKEN_DONE : INTERLAKEN_NO_DAMAGE));
  want("damage freed", k->damage.live == 0);
  for (lane = 0; lane < 2 && k->lanes != 0; lane++) want("damaged lane", is_damaged(&k->rows[lane], 0, k->in[lane], k->out[lane], k->passed[lane]));
  k->lanes = 0;
}

static void damage_sequence(void) {
  static struct injured one;
  uint32_t calls = 20 + below(300);
  while (calls-- > 0) {
    long before = allocations;
    switch (below(40)) {
      case 0: case 1: case 2: try_damage_new(&one); break;
      case 3: if (below(4) == 0) try_damage_free(&one); break;
      case 4: case 5: case 6: case 7: case 8: case 9: try_flip(&one); break;
      case 10: case 11: case 12: case 13: case 14: try_dark(&one); break;
      default: try_apply(&one); want("no allocation of a piece", allocations == before); break;
    }
  }
  try_damage_free(&one);
  want("nothing of damage leaks", live == 0);
}

/* ---- a checker */

/* Words of a few kinds, whose faults are foretold here: with BurstMax 256, BurstShort 64, BurstMin 0, and channel 1 as the first of two
 * entries. A burst word has SOP and no word an end format. */
#define IDLE 0x81ffff0000000000u
#define BURST 0xe1ffff0100000000u
#define BURST_WORDS 32
#define SHORT_WORDS 8

/* A handle of a checker, the faults of the last word, and what the rules read of the words before. */
struct judged {
  interlaken_checker checker;
  int has, over, off;
  uint64_t words;
  interlaken_rule_fault due[8];
  uint32_t count, given;
  uint32_t crc;        /* of the data words after the last control word */
  int empty;           /* the last word is a burst word */
  int burst, after_bad; /* what stands right before the last data words: a burst word, a bad word */
  uint32_t data;       /* how many these are */
  int opened;          /* a burst word came after the last bad word */
  uint32_t since;      /* how many words came after the last of them */
};

static uint32_t crc24(uint32_t crc, uint64_t word) {
  int n;
  for (n = 63; n >= 0; n--) crc = (crc << 1 & 0xffffff) ^ (((crc >> 23) ^ (uint32_t)(word >> n)) & 1 ? 0x328b63 : 0);
  return crc;
}

static void add_fault(struct judged *k, uint32_t rule, uint64_t word, uint32_t channel) {
  interlaken_rule_fault *fault = &k->due[k->count++];
  fault->rule = rule, fault->word = word, fault->has_channel = channel != 0, fault->channel = channel, fault->reserved = 0;
}

/* A control word as its sender makes it: with the CRC24 of the data before it. */
static uint64_t sealed(const struct judged *k, uint64_t word) { return word | (~crc24(k->crc, word) & 0xffffff); }

static void after_control(struct judged *k, int burst) {
  k->crc = 0xffffff, k->data = 0, k->after_bad = 0, k->burst = k->empty = burst;
  if (burst) k->opened = 1, k->since = 0;
  else k->since++;
}

static void judge_data(struct judged *k, uint64_t number) {
  if (k->data == 0 && !k->burst && !k->after_bad) add_fault(k, INTERLAKEN_RULE_DATA, k->words, 0);
  if (k->burst && k->data == BURST_WORDS) add_fault(k, INTERLAKEN_RULE_MAX, k->words, 1);
  k->crc = crc24(k->crc, number), k->data++, k->since++, k->empty = 0;
}

static void judge_bad(struct judged *k) {
  add_fault(k, INTERLAKEN_RULE_BAD, k->words, 0);
  k->data = 0, k->burst = k->empty = k->opened = 0, k->after_bad = 1;
}

/* It is not a control word that a receiver accepts. */
static void judge_zero(struct judged *k) {
  if (k->empty) add_fault(k, INTERLAKEN_RULE_EMPTY, k->words - 1, 1);
  add_fault(k, INTERLAKEN_RULE_CONTROL, k->words, 0);
  if (!k->after_bad) add_fault(k, INTERLAKEN_RULE_CRC, k->words, 0);
  after_control(k, 0);
}

static void judge_control(struct judged *k, int burst) {
  if (k->empty) add_fault(k, INTERLAKEN_RULE_EMPTY, k->words - 1, 1);
  if (burst && k->opened && k->since < SHORT_WORDS) add_fault(k, INTERLAKEN_RULE_SHORT, k->words, 1);
  if (k->burst && k->data % 4 != 0) add_fault(k, INTERLAKEN_RULE_PART, k->words, 1);
  if (burst && k->opened) add_fault(k, INTERLAKEN_RULE_SOP, k->words, 1);
  if (burst && k->off) add_fault(k, INTERLAKEN_RULE_OFF, k->words, 1);
  after_control(k, burst);
}

static uint32_t checker_result(const struct judged *k) {
  if (!k->has) return INTERLAKEN_NO_CHECKER;
  if (k->over) return INTERLAKEN_FINISHED;
  return k->given < k->count ? INTERLAKEN_WAITING : INTERLAKEN_DONE;
}

static void try_checker_new(struct judged *k) {
  static struct judged none_of_it;
  interlaken_checker old = k->checker;
  interlaken_refusal refusal;
  int bad = below(4) == 0, fails = may_fail();
  uint32_t wanted = k->has ? INTERLAKEN_IN_USE : bad ? INTERLAKEN_BAD_PLAN : INTERLAKEN_DONE, result;
  result = interlaken_checker_new(&k->checker, bad ? (const uint8_t *)"lanes,x\n" : plan.at, bad ? 8 : plan.count, &refusal);
  failing = -1;
  want("checker new", result == wanted || (fails && !k->has && result == INTERLAKEN_OUT_OF_MEMORY));
  want("checker refusal", (refusal.cause != 0) == (result == INTERLAKEN_BAD_PLAN));
  want("a checker stays", !k->has || k->checker.at == old.at);
  if (result != INTERLAKEN_DONE) return;
  old = k->checker;
  *k = none_of_it;
  k->checker = old, k->has = 1, k->crc = 0xffffff;
}

static void try_checker_free(struct judged *k) {
  want("checker free", interlaken_checker_free(&k->checker) == (uint32_t)(k->has ? INTERLAKEN_DONE : INTERLAKEN_NO_CHECKER));
  want("checker freed", k->checker.live == 0);
  k->has = 0;
}

static void try_checker_finish(struct judged *k) {
  want("checker finish", interlaken_checker_finish(&k->checker) == (uint32_t)(k->has ? INTERLAKEN_DONE : INTERLAKEN_NO_CHECKER));
  if (k->has) k->over = 1;
}

/* A word that may come next; one of no kind now and then. */
static interlaken_word drawn_word(const struct judged *k) {
  static const uint32_t no_kind[] = {0, 4, 5, 0xffffffff};
  uint32_t drawn = k->burst && k->data > 12 && below(8) > 0 ? 19 : below(20);
  interlaken_word word = {0, INTERLAKEN_WORD_CONTROL, 0};
  word.reserved = below(3);
  if (drawn == 0) word.kind = no_kind[below(4)];
  else if (drawn == 1) word.kind = INTERLAKEN_WORD_BAD, word.number = below(1000);
  else if (drawn == 2) word.number = 0;
  else if (drawn < 5) word.number = sealed(k, IDLE);
  else if (drawn < 7) word.number = sealed(k, BURST);
  else word.kind = INTERLAKEN_WORD_DATA, word.number = (uint64_t)below(0x7fffffff) << 33 | below(0x7fffffff);
  return word;
}

static int has_kind(const interlaken_word *word) {
  return word->kind >= INTERLAKEN_WORD_DATA && word->kind <= INTERLAKEN_WORD_BAD;
}

/* What a word that is taken makes due. */
static void judge(struct judged *k, const interlaken_word *word) {
  k->count = k->given = 0;
  if (word->kind == INTERLAKEN_WORD_DATA) judge_data(k, word->number);
  else if (word->kind == INTERLAKEN_WORD_BAD) judge_bad(k);
  else if (word->number == 0) judge_zero(k);
  else judge_control(k, (int)(word->number >> 62 & 1));
  k->words++;
}

static void try_word(struct judged *k) {
  interlaken_word word = drawn_word(k);
  uint32_t wanted = checker_result(k), result;
  if (wanted == INTERLAKEN_DONE && !has_kind(&word)) wanted = INTERLAKEN_OUT_OF_RANGE;
  result = interlaken_checker_word(&k->checker, word.kind, word.number);
  want("word", result == wanted);
  if (result == INTERLAKEN_DONE) judge(k, &word);
}

/* Many words at once: as many are taken as one after another. */
static void try_words(struct judged *k) {
  interlaken_word words[100];
  struct judged after = *k;
  size_t count = below(3) == 0 ? below(100) : below(12), taken = 77, foretold = 0, n;
  uint32_t wanted = checker_result(k), result;
  for (n = 0; n < count; n++) {
    words[n] = drawn_word(&after);
    if (foretold == n && has_kind(&words[n]) && checker_result(&after) == INTERLAKEN_DONE) judge(&after, &words[n]), foretold++;
  }
  if (wanted == INTERLAKEN_DONE && count > 0 && foretold == 0) wanted = INTERLAKEN_OUT_OF_RANGE;
  result = interlaken_checker_words(&k->checker, count > 0 ? words : NULL, count, &taken);
  want("words", result == wanted);
  want("words that are taken", taken == (result == INTERLAKEN_DONE ? foretold : 0));
  if (result != INTERLAKEN_DONE) return;
  after.checker = k->checker;
  *k = after;
}

/* The word's checksum is not looked at. Without Reset Calendar it tells of no channel here. */
static void try_heard(struct judged *k) {
  static const uint64_t words[] = {0x8100000000000000u, 0x8180000000000000u, 0x8140000000000000u, 0x81c0000000000000u, 0, 0x8000000000000000u};
  uint64_t word = words[below(6)] | below(0x1000000);
  uint32_t wanted = checker_result(k), result;
  if (word < 0x1000000) word = 0;
  result = interlaken_checker_flow(&k->checker, word);
  want("heard", result == wanted);
  if (result == INTERLAKEN_DONE && (word >> 56 & 1) != 0) k->off = !(word >> 55 & 1);
}

static void try_fault(struct judged *k) {
  interlaken_rule_fault fault, none_of_it;
  memset(&fault, 0xa5, sizeof fault), memset(&none_of_it, 0, sizeof none_of_it);
  want("fault", interlaken_checker_next(&k->checker, &fault) == (uint32_t)(k->has ? INTERLAKEN_DONE : INTERLAKEN_NO_CHECKER));
  if (!k->has || k->given == k->count) want("no fault is due", memcmp(&fault, &none_of_it, sizeof fault) == 0);
  else want("the fault that is due", memcmp(&fault, &k->due[k->given++], sizeof fault) == 0);
}

static void checker_sequence(void) {
  static struct judged one;
  uint32_t calls = 20 + below(1000);
  while (calls-- > 0) {
    long before = allocations;
    int takes_memory = 0;
    switch (below(60)) {
      case 0: case 1: try_checker_new(&one), takes_memory = 1; break;
      case 2: if (below(10) == 0) try_checker_free(&one); break;
      case 3: if (below(10) == 0) try_checker_finish(&one); break;
      case 4: case 5: case 6: case 7: try_heard(&one); break;
      case 8: case 9: case 10: case 11: case 12: try_words(&one); break;
      default: if (below(5) < 3) try_word(&one); else try_fault(&one); break;
    }
    want("no allocation but of checker new", takes_memory || allocations == before);
  }
  try_checker_free(&one);
  want("nothing of a checker leaks", live == 0);
}

/* ---- a transmitter */

#define GIVEN 30
#define SENT_BYTES 300
#define TAKEN_BYTES 400000
#define MAX_PACKET 250 /* of the plan of the transmitter */
#define TOO_LONG 262145
#define FULL 4088 /* a lane of which so many bytes wait holds the others */
#define TOLD 300
#define GROUP (2 * 28) /* slots of a group: 32 words of each lane, less 4 */
#define GROUP_BITS (32 * 67)

/* What `sent` said when so many words were made. */
struct told {
  uint64_t slot;
  uint32_t channel;
  interlaken_counts counts;
};

/* A handle of a transmitter, whether its packets were closed and whether it was finished, the packets that it took, the words that it was
 * told by the far end, and the bytes that were taken of its lanes. */
struct sender {
  interlaken_transmitter transmitter;
  int has, closed, finished, ended;
  uint32_t given, channel[GIVEN], length[GIVEN];
  uint8_t bytes[GIVEN][SENT_BYTES], lane[2][TAKEN_BYTES];
  size_t taken[2];
  int off[3]; /* channels 1 and 2, the entries of the calendar */
  uint32_t turns, counted;
  uint64_t turned_at[TOLD];
  int turned[TOLD][3];
  struct told told[TOLD];
  uint64_t slots, whole; /* the bytes of each lane, once they have ended */
};

static uint32_t sender_result(const struct sender *k) {
  if (!k->has) return INTERLAKEN_NO_TRANSMITTER;
  return k->finished ? INTERLAKEN_FINISHED : INTERLAKEN_DONE;
}

static uint64_t slots_of(struct sender *k) {
  uint64_t slots = 99;
  want("slots", interlaken_transmitter_slots(&k->transmitter, &slots) == (uint32_t)(k->has ? INTERLAKEN_DONE : INTERLAKEN_NO_TRANSMITTER));
  want("no slots", k->has || slots == 0);
  want("words are not unmade", !k->has || slots >= k->slots);
  if (k->has) k->slots = slots;
  return slots;
}

static void try_sender_new(struct sender *k) {
  interlaken_refusal refusal;
  int bad = below(4) == 0, fails = may_fail();
  uint32_t wanted = k->has ? INTERLAKEN_IN_USE : bad ? INTERLAKEN_BAD_PLAN : INTERLAKEN_DONE, result;
  result = interlaken_transmitter_new(&k->transmitter, bad ? (const uint8_t *)"lanes,x\n" : sender_plan.at, bad ? 8 : sender_plan.count, &refusal);
  failing = -1;
  want("transmitter new", result == wanted || (fails && !k->has && result == INTERLAKEN_OUT_OF_MEMORY));
  want("transmitter refusal", (refusal.cause != 0) == (result == INTERLAKEN_BAD_PLAN));
  if (result == INTERLAKEN_DONE) {
    k->has = 1, k->closed = k->finished = k->ended = 0, k->given = 0, k->taken[0] = k->taken[1] = 0, k->off[1] = k->off[2] = 0;
    k->turns = k->counted = 0, k->slots = 0;
    want("no word is made yet", slots_of(k) == 0);
  }
  want("transmitter is live", (k->transmitter.live != 0) == (k->has != 0));
}

static void try_packet(struct sender *k) {
  static const uint16_t few[] = {1, 2, 1, 2, 1, 2, 0, 3, 258, 0xffff};
  static uint8_t zeros[TOO_LONG];
  uint32_t wanted = sender_result(k), length = below(20) == 0 ? MAX_PACKET : below(SENT_BYTES), n, result;
  uint16_t channel = few[below(10)];
  int is_long = below(20) == 0, fails;
  uint8_t *bytes = is_long ? zeros : k->bytes[k->given % GIVEN];
  if (k->given == GIVEN) return;
  for (n = 0; n < length && !is_long; n++) bytes[n] = (uint8_t)below(256);
  if (is_long) length = TOO_LONG;
  if (wanted == INTERLAKEN_DONE && k->closed) wanted = INTERLAKEN_FINISHED;
  if (wanted == INTERLAKEN_DONE && channel != 1 && channel != 2) wanted = INTERLAKEN_NO_CHANNEL;
  if (wanted == INTERLAKEN_DONE && (length == 0 || length > MAX_PACKET)) wanted = INTERLAKEN_BAD_LENGTH;
  fails = may_fail();
  result = interlaken_transmitter_packet(&k->transmitter, channel, bytes, length);
  want("packet", result == settled(result, wanted, fails));
  if (result == INTERLAKEN_DONE) k->channel[k->given] = channel, k->length[k->given] = length, k->given++;
}

/* The word's checksum is not looked at. One without Reset Calendar goes on after the two entries, so it tells of none. */
static void give_flow(struct sender *k, uint64_t word) {
  uint32_t format, channel;
  want("flow", interlaken_transmitter_flow(&k->transmitter, word) == sender_result(k));
  format = (uint32_t)(word >> 57) & 15;
  if (sender_result(k) != INTERLAKEN_DONE || !(word >> 63) || (format > 1 && format < 8) || !(word >> 56 & 1)) return;
  for (channel = 1; channel <= 2; channel++) k->off[channel] = !(word >> (56 - channel) & 1);
  memcpy(k->turned[k->turns], k->off, sizeof k->off);
  k->turned_at[k->turns++] = slots_of(k);
}

static void try_flow(struct sender *k) {
  uint64_t word = (uint64_t)below(0xffff) << 48 | (uint64_t)below(0xffff) << 32 | below(0xffff) << 8 | below(256);
  if (below(4) > 0) word |= (uint64_t)1 << 63 | (uint64_t)1 << 60;
  if (below(3) > 0) word |= (uint64_t)3 << 54;
  if (below(8) == 0) word = 0;
  if (k->turns < TOLD) give_flow(k, word);
}

static void try_local(struct sender *k) {
  uint16_t channel = (uint16_t)(below(10) == 0 ? 0xffff : below(4));
  uint32_t wanted = sender_result(k);
  if (wanted == INTERLAKEN_DONE && channel != 1 && channel != 2) wanted = INTERLAKEN_NO_CHANNEL;
  want("local", interlaken_transmitter_local(&k->transmitter, channel, below(3)) == wanted);
}

static void try_sent(struct sender *k) {
  interlaken_counts counts;
  uint16_t channel = (uint16_t)(below(10) == 0 ? 0xffff : below(4));
  int listed = channel == 1 || channel == 2;
  uint32_t wanted = !k->has ? INTERLAKEN_NO_TRANSMITTER : listed ? INTERLAKEN_DONE : INTERLAKEN_NO_CHANNEL, n;
  uint64_t packets = 0, bytes = 0;
  memset(&counts, 0xa5, sizeof counts);
  want("sent", interlaken_transmitter_sent(&k->transmitter, channel, &counts) == wanted);
  for (n = 0; n < k->given && wanted == INTERLAKEN_DONE; n++)
    if (k->channel[n] == channel) packets++, bytes += k->length[n];
  want("packets and bytes given", counts.packets_given == packets && counts.bytes_given == bytes);
  want("no more is sent than given", counts.packets_sent <= packets && counts.bytes_sent <= bytes);
  want("all bytes with all packets", (counts.packets_sent == packets) == (counts.bytes_sent == bytes));
  if (wanted != INTERLAKEN_DONE || k->counted == TOLD) return;
  k->told[k->counted].slot = slots_of(k), k->told[k->counted].channel = channel, k->told[k->counted++].counts = counts;
}

/* The packets given and not sent, by `sent`. */
static uint64_t left_of(struct sender *k) {
  interlaken_counts counts;
  uint64_t left = 0;
  uint16_t channel;
  for (channel = 1; channel <= 2; channel++)
    if (interlaken_transmitter_sent(&k->transmitter, channel, &counts) == INTERLAKEN_DONE) left += counts.packets_given - counts.packets_sent;
  return left;
}

/* How many bytes of each lane were made so far. Lanes are in step, so those that wait of one tell those that wait of the other. */
static uint64_t try_status(struct sender *k, uint32_t lane) {
  interlaken_transmitter_status status, other;
  uint32_t wanted = !k->has ? INTERLAKEN_NO_TRANSMITTER : lane >= 2 ? INTERLAKEN_NO_LANE : INTERLAKEN_DONE;
  uint64_t made;
  memset(&status, 0xa5, sizeof status);
  want("status", interlaken_transmitter_status_of(&k->transmitter, lane, &status) == wanted);
  if (wanted != INTERLAKEN_DONE) {
    want("no status", status.waiting == 0 && status.left == 0 && status.ended == 0 && status.held == 0);
    return 0;
  }
  want("status of the other lane", interlaken_transmitter_status_of(&k->transmitter, 1 - lane, &other) == INTERLAKEN_DONE);
  made = k->taken[lane] + status.waiting;
  want("lanes are in step", made == k->taken[1 - lane] + other.waiting);
  want("packets left", status.left == left_of(k) && other.left == status.left);
  want("held", status.held == (uint32_t)(status.waiting >= FULL || other.waiting >= FULL) && other.held == status.held);
  want("ended", status.ended <= (uint32_t)k->finished && other.ended == status.ended && status.ended >= (uint32_t)k->ended);
  want("no byte is made after the end", !k->ended || made == k->whole);
  want("ended after whole metaframes", !status.ended || made == (slots_of(k) / GROUP * GROUP_BITS + 7) / 8);
  k->ended = (int)status.ended, k->whole = made;
  return made;
}

/* How many bytes of a lane a transmitter that is not finished gives, where so many of each were made. */
static size_t foretold(const struct sender *k, uint32_t lane, size_t count, uint64_t made) {
  uint64_t words = (8 * made + 66) / 67;
  want("bytes of whole words", 67 * words / 8 == made);
  while (made - k->taken[lane] < count && made - k->taken[0] < FULL && made - k->taken[1] < FULL) words++, made = 67 * words / 8;
  return made - k->taken[lane] < count ? (size_t)(made - k->taken[lane]) : count;
}

static size_t try_take(struct sender *k, uint32_t lane, size_t count) {
  uint32_t from = lane < 2 ? lane : 0, result;
  uint32_t wanted = !k->has ? INTERLAKEN_NO_TRANSMITTER : lane >= 2 ? INTERLAKEN_NO_LANE : INTERLAKEN_DONE;
  size_t taken = 99, most;
  if (count > TAKEN_BYTES - k->taken[from]) count = TAKEN_BYTES - k->taken[from];
  most = wanted == INTERLAKEN_DONE && !k->finished ? foretold(k, lane, count, try_status(k, lane)) : count;
  result = interlaken_transmitter_take(&k->transmitter, lane, k->lane[from] + k->taken[from], count, &taken);
  want("take", result == wanted);
  want("taken of a lane", result == INTERLAKEN_DONE ? taken <= count && taken <= 4096 : taken == 0);
  if (result == INTERLAKEN_DONE && !k->finished) want("as many as the words that were made give", taken == most);
  if (result == INTERLAKEN_DONE && !k->finished && count <= FULL && k->taken[lane] <= k->taken[1 - lane]) want("all that is asked of the lane behind", taken == count);
  if (result == INTERLAKEN_DONE) k->taken[lane] += taken;
  return result == INTERLAKEN_DONE ? taken : 0;
}

/* ---- what a receiver makes of its lanes */

#define BURSTS 4000

/* The burst words, and the packets by the slot of the last burst word of each. */
struct decoded {
  uint32_t bursts, packets, channel[BURSTS], packet_channel[GIVEN];
  uint64_t slot[BURSTS], packet_slot[GIVEN];
};

static uint64_t slot_of(interlaken_place place) { return place.group / GROUP_BITS * GROUP + place.index; }

static int is_off(const struct sender *k, uint32_t channel, uint64_t slot) {
  uint32_t n = k->turns;
  while (n > 0 && k->turned_at[n - 1] > slot) n--;
  return n > 0 && k->turned[n - 1][channel];
}

/* On a channel that was turned off before this word none begins. */
static void see_word(const struct sender *k, struct decoded *d, const interlaken_event *event) {
  uint32_t channel = (uint32_t)(event->word >> 32) & 255;
  uint64_t slot = slot_of(event->first);
  if (!(event->word >> 62 & 1)) return;
  want("a burst on a listed channel", channel == 1 || channel == 2);
  want("no burst on a channel that is off", !is_off(k, channel, slot));
  if (d->bursts < BURSTS) d->channel[d->bursts] = channel, d->slot[d->bursts++] = slot;
}

/* It is the next one that was given on its channel. */
static void see_packet(const struct sender *k, struct decoded *d, interlaken_receiver *receiver, const interlaken_event *event) {
  uint32_t n, passed = 0, before;
  uint8_t bytes[SENT_BYTES];
  size_t copied;
  for (n = 0; n < d->packets; n++) passed += d->packet_channel[n] == event->channel;
  for (n = 0; n < k->given && (k->channel[n] != event->channel || passed-- > 0); n++) {}
  interlaken_receiver_read(receiver, 0, bytes, sizeof bytes, &copied);
  want("delivered", n < k->given && event->length == k->length[n] && memcmp(bytes, k->bytes[n], copied) == 0);
  for (before = d->bursts; before > 0 && d->slot[before - 1] >= slot_of(event->last); before--) {}
  want("its last burst", before > 0 && d->channel[before - 1] == event->channel);
  if (d->packets == GIVEN || before == 0) return;
  d->packet_slot[d->packets] = d->slot[before - 1], d->packet_channel[d->packets++] = event->channel;
}

static void decode(struct sender *k, struct decoded *d) {
  interlaken_receiver receiver = {0, 0};
  interlaken_refusal refusal;
  interlaken_event event;
  size_t fed[2] = {0, 0}, taken;
  uint32_t lane;
  want("receiver", interlaken_receiver_new(&receiver, sender_plan.at, sender_plan.count, &refusal) == INTERLAKEN_DONE);
  do {
    for (lane = 0; lane < 2; lane++) {
      if (fed[lane] > k->taken[lane]) continue;
      interlaken_receiver_feed(&receiver, lane, k->lane[lane] + fed[lane], k->taken[lane] - fed[lane], &taken);
      fed[lane] += taken;
      if (fed[lane] == k->taken[lane]) interlaken_receiver_finish(&receiver, lane), fed[lane]++;
    }
    while (interlaken_receiver_next(&receiver, &event) == INTERLAKEN_DONE && event.kind != INTERLAKEN_NONE && event.kind != INTERLAKEN_ENDED) {
      want("only a packet of a channel that stays off is cut", event.kind != INTERLAKEN_DROPPED || (event.why == INTERLAKEN_DROP_END && k->off[event.channel % 3]));
      if (event.kind == INTERLAKEN_FLOW) see_word(k, d, &event);
      if (event.kind == INTERLAKEN_PACKET) see_packet(k, d, &receiver, &event);
    }
  } while (event.kind != INTERLAKEN_ENDED);
  interlaken_receiver_free(&receiver);
}

/* The packets that a receiver of its lanes gives are those that it took, of each channel in their order: all if the channel is on at the
 * end. What `sent` said is so by the words that were made then. */
static void try_delivery(struct sender *k) {
  static struct decoded decoded;
  interlaken_counts counts;
  uint32_t n, packets, came;
  uint16_t channel;
  while (try_take(k, 0, 3000) + try_take(k, 1, 3000) > 0) {}
  want("it ends", k->taken[0] == k->taken[1] && k->taken[0] < TAKEN_BYTES);
  want("all bytes were taken", try_status(k, 0) == k->taken[0] && k->ended);
  want("all words are on the lanes", slots_of(k) == 8 * (uint64_t)k->taken[0] / GROUP_BITS * GROUP);
  memset(&decoded, 0, sizeof decoded);
  decode(k, &decoded);
  for (channel = 1; channel <= 2; channel++) {
    for (came = n = 0; n < decoded.packets; n++) came += decoded.packet_channel[n] == channel;
    want("counts at the end", interlaken_transmitter_sent(&k->transmitter, channel, &counts) == INTERLAKEN_DONE && counts.packets_sent == came);
    want("all are delivered", k->off[channel] || (came == counts.packets_given && counts.bytes_sent == counts.bytes_given));
  }
  for (n = 0; n < k->counted; n++) {
    for (came = packets = 0; packets < decoded.packets; packets++)
      came += decoded.packet_channel[packets] == k->told[n].channel && decoded.packet_slot[packets] < k->told[n].slot;
    want("packets sent by then", k->told[n].counts.packets_sent == came);
  }
}

static void try_sender_free(struct sender *k) {
  want("transmitter free", interlaken_transmitter_free(&k->transmitter) == (uint32_t)(k->has ? INTERLAKEN_DONE : INTERLAKEN_NO_TRANSMITTER));
  want("transmitter freed", k->transmitter.live == 0);
  k->has = 0;
}

static void try_sender_finish(struct sender *k) {
  want("transmitter finish", interlaken_transmitter_finish(&k->transmitter) == (uint32_t)(k->has ? INTERLAKEN_DONE : INTERLAKEN_NO_TRANSMITTER));
  k->finished = k->has;
}

static void try_sender_close(struct sender *k) {
  want("transmitter close", interlaken_transmitter_close(&k->transmitter) == (uint32_t)(k->has ? INTERLAKEN_DONE : INTERLAKEN_NO_TRANSMITTER));
  k->closed = k->has;
}

/* The packets are closed, and all are sent before the end, since the far end turns its channels on. */
static void try_drain(struct sender *k) {
  uint32_t rounds = 0;
  if (k->finished || k->turns == TOLD) return;
  try_sender_close(k);
  give_flow(k, (uint64_t)1 << 63 | (uint64_t)1 << 60 | (uint64_t)1 << 56 | (uint64_t)3 << 54);
  while (left_of(k) > 0 && rounds++ < 400) try_take(k, 0, 300), try_take(k, 1, 300);
  want("all are sent before the end", left_of(k) == 0 && !k->ended);
  try_packet(k);
}

/* One lane alone: up to so many bytes are given as asked for, and fewer of more do not mean the end. */
static void one_lane(void) {
  static const char *text = "lanes,1\nmetaframe,32\nchannel,1,a\nout,b\n";
  static uint8_t bytes[10000];
  interlaken_transmitter transmitter = {0, 0};
  interlaken_transmitter_status status;
  interlaken_refusal refusal;
  size_t taken, count;
  int turn;
  want("one lane", interlaken_transmitter_new(&transmitter, (const uint8_t *)text, strlen(text), &refusal) == INTERLAKEN_DONE);
  for (turn = 0; turn < 300; turn++) {
    count = turn % 3 == 0 ? 10000 : turn % 3 == 1 ? FULL : below(FULL + 1);
    want("take of one lane", interlaken_transmitter_take(&transmitter, 0, bytes, count, &taken) == INTERLAKEN_DONE);
    want("as many as one lane has", count <= FULL ? taken == count : taken >= FULL && taken <= 4096);
    want("status of one lane", interlaken_transmitter_status_of(&transmitter, 0, &status) == INTERLAKEN_DONE && status.ended == 0);
  }
  interlaken_transmitter_free(&transmitter);
}

static void sender_sequence(void) {
  static struct sender one;
  uint32_t calls = 20 + below(200);
  while (calls-- > 0) {
    long before = allocations;
    int takes_memory = 0;
    switch (below(40)) {
      case 0: case 1: try_sender_new(&one), takes_memory = 1; break;
      case 2: if (below(8) == 0) try_sender_free(&one); break;
      case 3: if (below(8) == 0) try_sender_finish(&one); else if (below(8) == 0) try_sender_close(&one); break;
      case 4: case 5: case 6: try_flow(&one); break;
      case 7: try_local(&one); break;
      case 8: case 9: case 10: try_sent(&one); break;
      case 11: slots_of(&one); try_status(&one, some_lane()); break;
      case 12: case 13: case 14: case 15: case 16: case 17: case 18: try_packet(&one), takes_memory = 1; break;
      default: try_take(&one, some_lane(), below(below(3) == 0 ? 5000 : 300)); break;
    }
    want("no allocation but of new and packet", takes_memory || allocations == before);
  }
  if (one.has) {
    if (below(2)) try_drain(&one);
    try_sender_finish(&one);
    try_delivery(&one);
  }
  try_sender_free(&one);
  want("nothing of a transmitter leaks", live == 0);
}

/* ---- plans */

static interlaken_plan none_read;

/* The numbers and the channels of the plan, and of one that is refused. */
static void try_numbers(interlaken_plan *numbers) {
  interlaken_refusal refusal;
  uint16_t channels[4] = {9, 9, 9, 9};
  size_t room = below(5), count = 99, i;
  int bad = below(4) == 0;
  const uint8_t *text = bad ? (const uint8_t *)"lanes,x\n" : plan.at;
  uint32_t wanted = bad ? INTERLAKEN_BAD_PLAN : INTERLAKEN_DONE;
  want("plan", interlaken_plan_read(text, bad ? 8 : plan.count, numbers, &refusal) == wanted && (refusal.cause != 0) == bad);
  if (bad) want("no numbers", memcmp(numbers, &none_read, sizeof none_read) == 0);
  else want("numbers", numbers->lanes == 2 && numbers->metaframe == 32 && numbers->skips == 1 && numbers->wide == 0 && numbers->deskew == 7
    && numbers->max_packet == 262144 && numbers->link_type == 1 && numbers->entries == 2 && numbers->warmup == 4 && numbers->channels == 2
    && numbers->burst_max == 256 && numbers->burst_short == 64 && numbers->burst_min == 0 && numbers->window == 64);
  want("channels", interlaken_plan_channels(text, bad ? 8 : plan.count, channels, room, &count, &refusal) == wanted && count == (bad ? 0u : 2u));
  for (i = 0; i < 4; i++) want("a channel", channels[i] == (bad || i >= room || i >= 2 ? 9 : i + 1));
}

/* Each allocation of both calls fails in turn: nothing is read, and nothing leaks. */
static void each_plan_allocation(void) {
  long fails, refused = 0, taken = 1;
  for (fails = 0; fails < taken; fails++) {
    interlaken_plan numbers;
    interlaken_refusal refusal;
    uint16_t channels[2] = {9, 9};
    size_t count = 99;
    uint32_t result;
    failing = fails, allocations = 0;
    result = interlaken_plan_read(plan.at, plan.count, &numbers, &refusal);
    failing = -1, taken = allocations > fails ? fails + 2 : fails;
    want("a plan, or no memory", result == INTERLAKEN_DONE || (result == INTERLAKEN_OUT_OF_MEMORY && memcmp(&numbers, &none_read, sizeof none_read) == 0));
    want("no cause of a plan", refusal.cause == 0);
    failing = fails, allocations = 0;
    result = interlaken_plan_channels(plan.at, plan.count, channels, 2, &count, &refusal);
    if (allocations > fails) taken = fails + 2;
    failing = -1;
    want("channels, or no memory", result == INTERLAKEN_DONE ? count == 2 && channels[1] == 2 : result == INTERLAKEN_OUT_OF_MEMORY && count == 0 && channels[0] == 9);
    refused += result != INTERLAKEN_DONE;
    want("nothing of a plan leaks without memory", live == 0);
  }
  want("a plan needs memory", refused > 5);
}

/* Numbers of other links, some of them of none; `are` is whether a plan has them. */
static void draw_numbers(interlaken_plan *numbers, int *are) {
  uint32_t *const wrong_ones[] = {&numbers->lanes, &numbers->metaframe, &numbers->skips, &numbers->wide, &numbers->deskew, &numbers->max_packet,
    &numbers->link_type, &numbers->entries, &numbers->warmup, &numbers->channels, &numbers->burst_max, &numbers->burst_short,
    &numbers->burst_min, &numbers->window};
  static const uint32_t least[] = {1, 32, 1, 0, 1, 1, 0, 1, 4, 1, 64, 32, 0, 1}, most[] = {64, 8192, 4, 1, 15, 262144, 65535, 1024, 64, 256, 4096, 64, 32, 255};
  static const uint32_t step[] = {1, 1, 1, 1, 1, 1, 1, 1, 1, 1, 64, 8, 32, 1};
  uint32_t i;
  for (i = 0; i < 14; i++) *wrong_ones[i] = least[i] + step[i] * below((most[i] - least[i]) / step[i] + 1);
  *are = below(3) != 0;
  if (*are) return;
  i = below(14);
  if (least[i] > 0 && below(2) == 0) *wrong_ones[i] = 0;
  else if (i == 4) numbers->deskew = numbers->metaframe / 2 + numbers->metaframe % 2;
  else if (i == 9 && numbers->wide) numbers->channels = 1025;
  else if (i == 11) numbers->burst_short = numbers->burst_max + 8;
  else if (i == 12) numbers->burst_min = numbers->burst_max / 2 + 32;
  else *wrong_ones[i] = most[i] + 1 + below(9);
}

/* Where a word is, word by word: its lane, and the word of its lane. */
static void count_words(const interlaken_plan *numbers, uint64_t word, uint32_t *lane, uint64_t *position) {
  *lane = 0, *position = numbers->skips + 2;
  while (word-- > 0) {
    if (++*lane < numbers->lanes) continue;
    *lane = 0;
    if (++*position % numbers->metaframe == numbers->metaframe - 1) *position += numbers->skips + 3;
  }
}

static void plan_sequence(void) {
  interlaken_plan numbers;
  interlaken_place place;
  uint32_t lane = 99, wanted_lane, turns = 10, group;
  uint64_t bit = 99, position, slot;
  int are, there;
  try_numbers(&numbers);
  want("nothing of a plan leaks", live == 0);
  while (turns-- > 0) {
    long before = allocations;
    draw_numbers(&numbers, &are);
    slot = below(20) == 0 ? ((uint64_t)1 << 56) - below(2) : below(9000);
    there = are && slot < (uint64_t)1 << 56;
    want("slot", interlaken_plan_slot(&numbers, slot, &lane, &bit) == (uint32_t)(there ? INTERLAKEN_DONE : INTERLAKEN_OUT_OF_RANGE));
    count_words(&numbers, there && slot < 9000 ? slot : 0, &wanted_lane, &position);
    if (!there) want("no slot", lane == 0 && bit == 0);
    else if (slot < 9000) want("lane and bit of a slot", lane == wanted_lane && bit == 67 * position);
    group = numbers.lanes * (numbers.metaframe - numbers.skips - 3);
    place.known = below(20) == 0 ? below(2) * 7 : 1, place.index = below(10) == 0 ? group - below(2) : below(are ? group : 9);
    place.group = below(20) == 0 ? ((uint64_t)1 << 44) - below(2) : below(1u << 31);
    there = are && place.known == 1 && place.index < group && place.group < (uint64_t)1 << 44;
    want("place", interlaken_plan_place(&numbers, &place, &lane, &bit) == (uint32_t)(there ? INTERLAKEN_DONE : INTERLAKEN_OUT_OF_RANGE));
    count_words(&numbers, there && place.index < 9000 ? place.index : 0, &wanted_lane, &position);
    if (!there) want("no place", lane == 0 && bit == 0);
    else if (place.index < 9000) want("lane and bit of a place", lane == wanted_lane && bit == place.group + 67 * position);
    want("no allocation for a place", allocations == before);
  }
}

/* ---- an inspector */

#define INSPECTED 12000
#define SHOWN 6000

/* Two lanes with some bits inverted, and some made 0. */
static uint8_t struck[2][INSPECTED];
static size_t struck_count[2];

/* The events of a lane, each with the number of bytes of the lane that show it. */
struct shown {
  uint32_t count;
  interlaken_lane_event event[SHOWN];
  size_t after[SHOWN];
};

static struct shown shown[2];

/* A handle of an inspector, and what is known of it: the events that it returned, and the bytes that it took. */
struct inspected {
  interlaken_inspector inspector;
  int has, over[2];
  size_t fed[2];
  uint32_t given[2];
};

static void strike(void) {
  uint32_t lane, flips, bytes;
  for (lane = 0; lane < 2; lane++) {
    struck_count[lane] = lanes[lane].count < INSPECTED ? lanes[lane].count : INSPECTED;
    memcpy(struck[lane], lanes[lane].at, struck_count[lane]);
    for (flips = below(3) == 0 ? 0 : below(90); flips > 0; flips--) struck[lane][below((uint32_t)struck_count[lane])] ^= (uint8_t)(1u << below(8));
    if (below(3) > 0 || struck_count[lane] < 1000) continue;
    bytes = 1 + below(400);
    memset(struck[lane] + below((uint32_t)struck_count[lane] - bytes), 0, bytes);
  }
}

/* The events as they come byte by byte. Those of one byte are of one word. */
static void learn(void) {
  interlaken_inspector one = {0, 0};
  interlaken_refusal refusal;
  interlaken_lane_event event;
  size_t n, taken;
  uint32_t lane;
  want("inspector of bytes", interlaken_inspector_new(&one, plan.at, plan.count, &refusal) == INTERLAKEN_DONE);
  for (lane = 0; lane < 2; lane++) {
    shown[lane].count = 0;
    for (n = 0; n < struck_count[lane]; n++) {
      want("a byte is taken", interlaken_inspector_feed(&one, lane, struck[lane] + n, 1, &taken) == INTERLAKEN_DONE && taken == 1);
      while (interlaken_inspector_next(&one, &event) == INTERLAKEN_DONE && event.kind != INTERLAKEN_NO_LANE_EVENT) {
        want("an event of this lane", event.lane == lane && event.kind <= INTERLAKEN_LANE_EVENT_UNFRAMED);
        want("a word that has ended", event.bit + 67 <= 8 * (uint64_t)(n + 1) && event.bit + 67 > 8 * (uint64_t)n);
        if (shown[lane].count < SHOWN) shown[lane].after[shown[lane].count] = n + 1, shown[lane].event[shown[lane].count++] = event;
      }
    }
  }
  interlaken_inspector_free(&one);
}

/* How many events these bytes of a lane show. */
static uint32_t shown_by(uint32_t lane, size_t count) {
  uint32_t n = shown[lane].count;
  while (n > 0 && shown[lane].after[n - 1] > count) n--;
  return n;
}

static uint32_t due(const struct inspected *k, uint32_t lane) { return shown_by(lane, k->fed[lane]) - k->given[lane]; }

static uint32_t inspector_lane_result(const struct inspected *k, uint32_t lane) {
  if (!k->has) return INTERLAKEN_NO_INSPECTOR;
  if (lane >= 2) return INTERLAKEN_NO_LANE;
  return k->over[lane] ? INTERLAKEN_FINISHED : INTERLAKEN_DONE;
}

static void try_inspector_new(struct inspected *k) {
  interlaken_refusal refusal;
  int bad = below(4) == 0, fails = may_fail();
  uint32_t wanted = k->has ? INTERLAKEN_IN_USE : bad ? INTERLAKEN_BAD_PLAN : INTERLAKEN_DONE, result;
  result = interlaken_inspector_new(&k->inspector, bad ? (const uint8_t *)"lanes,x\n" : plan.at, bad ? 8 : plan.count, &refusal);
  failing = -1;
  want("inspector new", result == wanted || (fails && !k->has && result == INTERLAKEN_OUT_OF_MEMORY));
  want("inspector refusal", (refusal.cause != 0) == (result == INTERLAKEN_BAD_PLAN));
  if (result == INTERLAKEN_DONE) k->has = 1;
  want("inspector is live", (k->inspector.live != 0) == (k->has != 0));
}

static void try_inspector_free(struct inspected *k) {
  static struct inspected none_of_it;
  want("inspector free", interlaken_inspector_free(&k->inspector) == (uint32_t)(k->has ? INTERLAKEN_DONE : INTERLAKEN_NO_INSPECTOR));
  want("inspector freed", k->inspector.live == 0);
  *k = none_of_it;
}

static void try_inspector_feed(struct inspected *k) {
  uint32_t lane = some_lane(), wanted = inspector_lane_result(k, lane), from = lane < 2 ? lane : 0, result, before = due(k, from);
  size_t left = struck_count[from] - k->fed[from], count = below(3) == 0 ? below(3000) : below(40), taken = 99;
  int is_long = below(50) == 0 && long_piece != NULL;
  if (count > left) count = left;
  if (wanted == INTERLAKEN_DONE && is_long) wanted = INTERLAKEN_TOO_MANY;
  result = interlaken_inspector_feed(&k->inspector, lane, is_long ? long_piece : struck[from] + k->fed[from], is_long ? LONG_PIECE : count, &taken);
  want("inspector feed", result == wanted);
  if (result != INTERLAKEN_DONE) {
    want("no byte is inspected", taken == 0);
    return;
  }
  want("no more bytes than there are", taken <= count);
  if (taken > count) return;
  k->fed[from] += taken;
  want("no byte past an event that is due", before == 0 || taken == 0);
  want("all bytes, or up to an event", before > 0 || taken == count || due(k, from) > 0);
  want("no byte but the last seven shows one", before > 0 || taken < 7 || shown_by(from, k->fed[from] - 7) == k->given[from]);
}

static void try_inspector_finish(struct inspected *k) {
  uint32_t lane = some_lane(), wanted = inspector_lane_result(k, lane);
  want("inspector finish", interlaken_inspector_finish(&k->inspector, lane) == wanted);
  if (wanted == INTERLAKEN_DONE) k->over[lane] = 1;
}

static void try_inspector_next(struct inspected *k) {
  interlaken_lane_event event, *first;
  uint32_t lane = due(k, 0) > 0 ? 0 : due(k, 1) > 0 ? 1 : 2;
  memset(&event, 0xa5, sizeof event);
  want("inspector next", interlaken_inspector_next(&k->inspector, &event) == (uint32_t)(k->has ? INTERLAKEN_DONE : INTERLAKEN_NO_INSPECTOR));
  if (!k->has || lane == 2) {
    want("no event is due", event.kind == INTERLAKEN_NO_LANE_EVENT && event.lane == 0 && event.bit == 0);
    return;
  }
  first = &shown[lane].event[k->given[lane]];
  want("the event that is due", event.kind == first->kind && event.lane == lane && event.bit == first->bit);
  k->given[lane]++;
}

/* A report counts the events of the bytes that were taken. */
static void try_inspector_report(struct inspected *k) {
  interlaken_report report;
  uint64_t count[13] = {0};
  uint32_t lane = some_lane(), n, result;
  memset(&report, 0xa5, sizeof report);
  result = interlaken_inspector_report(&k->inspector, lane, &report);
  want("inspector report", result == (uint32_t)(!k->has ? INTERLAKEN_NO_INSPECTOR : lane < 2 ? INTERLAKEN_DONE : INTERLAKEN_NO_LANE));
  for (n = 0; result == INTERLAKEN_DONE && n < shown_by(lane, k->fed[lane]); n++) count[shown[lane].event[n].kind]++;
  want("bad, sync, state and diag", report.bad == count[INTERLAKEN_LANE_EVENT_BAD_WORD] && report.sync == count[INTERLAKEN_LANE_EVENT_BAD_SYNC] &&
       report.state == count[INTERLAKEN_LANE_EVENT_BAD_STATE] && report.diag == count[INTERLAKEN_LANE_EVENT_BAD_DIAGNOSTIC]);
  want("locks", report.locks == count[INTERLAKEN_LANE_EVENT_LOCK] && report.unframed == count[INTERLAKEN_LANE_EVENT_UNFRAMED] &&
       report.lost == count[INTERLAKEN_LANE_EVENT_LOST_HEADERS] + count[INTERLAKEN_LANE_EVENT_LOST_SYNC] + count[INTERLAKEN_LANE_EVENT_LOST_STATE]);
}

/* If an allocation fails, `new` has no memory, or does without it. */
static void each_inspector_allocation(void) {
  long fails, refused = 0, taken = 1;
  for (fails = 0; fails < taken; fails++) {
    interlaken_inspector one = {0, 0};
    interlaken_refusal refusal;
    uint32_t result;
    failing = fails, allocations = 0;
    result = interlaken_inspector_new(&one, plan.at, plan.count, &refusal);
    failing = -1, taken = allocations > fails ? fails + 2 : fails;
    want("no cause of an inspector", refusal.cause == 0);
    want("memory of an inspector", (result == INTERLAKEN_DONE) == (one.live != 0) && (result == INTERLAKEN_DONE || result == INTERLAKEN_OUT_OF_MEMORY));
    refused += result == INTERLAKEN_OUT_OF_MEMORY;
    interlaken_inspector_free(&one);
    want("nothing of an inspector leaks", live == 0);
  }
  want("an inspector needs memory", refused > 5);
}

static void inspector_sequence(void) {
  static struct inspected one;
  static uint32_t turn;
  uint32_t calls = 20 + below(400);
  if (turn++ % 8 == 0) strike(), learn();
  while (calls-- > 0) {
    long before = allocations;
    switch (below(40)) {
      case 0: case 1: try_inspector_new(&one), before = allocations; break;
      case 2: if (below(8) == 0) try_inspector_free(&one); break;
      case 3: if (below(8) == 0) try_inspector_finish(&one); break;
      case 4: case 5: try_inspector_report(&one); break;
      default: if (below(2)) try_inspector_feed(&one); else try_inspector_next(&one); break;
    }
    want("no allocation but of inspector new", allocations == before);
  }
  try_inspector_free(&one);
  want("nothing of an inspector leaks", live == 0);
}

/* ---- a gatherer */

#define GATHERED 4000

/* The two struck lanes, as they were when they were learned. */
static uint8_t joined[2][INSPECTED];
static size_t joined_count[2];

/* All that a gatherer returns of them. */
static interlaken_gathered gathered_of[GATHERED];
static uint32_t gathered_count;

/* A handle of a gatherer, and what is known of it. It is cut if a lane was finished before its end. */
struct gathering {
  interlaken_gatherer gatherer;
  int has, over[2], cut, ended;
  size_t fed[2];
  uint32_t given;
};

static int same_gathered(const interlaken_gathered *one, const interlaken_gathered *other) {
  return one->kind == other->kind && one->word_kind == other->word_kind && one->lane == other->lane && one->why == other->why &&
         one->at.known == other->at.known && one->at.index == other->at.index && one->at.group == other->at.group && one->bit == other->bit &&
         one->number == other->number && one->word == other->word;
}

/* A word's lane is that of its index, and the bytes of the lane have the header of its kind where its code begins. */
static void look_at_word(const interlaken_gathered *word) {
  const uint8_t *bytes = joined[word->lane < 2 ? word->lane : 0];
  uint64_t bit = word->bit + 1;
  uint32_t header;
  want("the lane of a word", word->lane < 2 && word->lane == word->at.index % 2);
  want("a code in the lane", word->lane < 2 && word->bit + 67 <= 8 * (uint64_t)joined_count[word->lane < 2 ? word->lane : 0]);
  if (word->lane >= 2 || word->bit + 67 > 8 * (uint64_t)joined_count[word->lane]) return;
  header = (uint32_t)(bytes[bit / 8] >> (7 - bit % 8) & 1) << 1;
  bit++;
  header |= (uint32_t)(bytes[bit / 8] >> (7 - bit % 8) & 1);
  want("the header of a word", word->word_kind == (uint32_t)(header == 1 ? INTERLAKEN_WORD_DATA : header == 2 ? INTERLAKEN_WORD_CONTROL : INTERLAKEN_WORD_BAD));
}

static void feed_rest(interlaken_gatherer *gatherer, const uint8_t *bytes, uint32_t lane, size_t count, size_t *fed, int *over) {
  size_t taken;
  if (*over) return;
  want("a gatherer is fed", interlaken_gatherer_feed(gatherer, lane, bytes + *fed, count - *fed, &taken) == INTERLAKEN_DONE);
  *fed += taken;
  if (*fed < count) return;
  want("a gatherer's lane is finished", interlaken_gatherer_finish(gatherer, lane) == INTERLAKEN_DONE);
  *over = 1;
}

/* What is returned if both lanes are fed as fast as they are taken. */
static void learn_gathered(void) {
  interlaken_gatherer one = {0, 0};
  interlaken_refusal refusal;
  interlaken_gathered next;
  size_t fed[2] = {0, 0};
  int over[2] = {0, 0};
  uint64_t numbers = 0, broken = 0;
  want("a gatherer of lanes", interlaken_gatherer_new(&one, plan.at, plan.count, &refusal) == INTERLAKEN_DONE);
  for (gathered_count = 0, next.kind = INTERLAKEN_GATHERED_NONE; next.kind != INTERLAKEN_GATHERED_ENDED && gathered_count < GATHERED;) {
    feed_rest(&one, joined[0], 0, joined_count[0], &fed[0], &over[0]);
    feed_rest(&one, joined[1], 1, joined_count[1], &fed[1], &over[1]);
    while (interlaken_gatherer_next(&one, &next) == INTERLAKEN_DONE && next.kind != INTERLAKEN_GATHERED_NONE && gathered_count < GATHERED) {
      gathered_of[gathered_count++] = next;
      if (next.kind == INTERLAKEN_GATHERED_ENDED) break;
      want("the numbers of words rise by one, and one for each break", next.number == numbers + broken);
      numbers = next.number + (next.kind == INTERLAKEN_GATHERED_WORD), broken = next.kind == INTERLAKEN_GATHERED_BREAK;
      if (next.kind == INTERLAKEN_GATHERED_WORD) look_at_word(&next);
    }
  }
  want("a gatherer ends", next.kind == INTERLAKEN_GATHERED_ENDED);
  interlaken_gatherer_free(&one);
}

static uint32_t gatherer_lane_result(const struct gathering *k, uint32_t lane) {
  if (!k->has) return INTERLAKEN_NO_GATHERER;
  if (lane >= 2) return INTERLAKEN_NO_LANE;
  return k->over[lane] ? INTERLAKEN_FINISHED : INTERLAKEN_DONE;
}

static void try_gatherer_new(struct gathering *k) {
  interlaken_refusal refusal;
  int bad = below(4) == 0, fails = may_fail();
  uint32_t wanted = k->has ? INTERLAKEN_IN_USE : bad ? INTERLAKEN_BAD_PLAN : INTERLAKEN_DONE, result;
  result = interlaken_gatherer_new(&k->gatherer, bad ? (const uint8_t *)"lanes,x\n" : plan.at, bad ? 8 : plan.count, &refusal);
  failing = -1;
  want("gatherer new", result == wanted || (fails && !k->has && result == INTERLAKEN_OUT_OF_MEMORY));
  want("gatherer refusal", (refusal.cause != 0) == (result == INTERLAKEN_BAD_PLAN));
  if (result == INTERLAKEN_DONE) k->has = 1;
  want("gatherer is live", (k->gatherer.live != 0) == (k->has != 0));
}

static void try_gatherer_free(struct gathering *k) {
  static struct gathering none_of_it;
  want("gatherer free", interlaken_gatherer_free(&k->gatherer) == (uint32_t)(k->has ? INTERLAKEN_DONE : INTERLAKEN_NO_GATHERER));
  want("gatherer freed", k->gatherer.live == 0);
  *k = none_of_it;
}

static void try_gatherer_feed(struct gathering *k) {
  uint32_t lane = some_lane(), wanted = gatherer_lane_result(k, lane), from = lane < 2 ? lane : 0, result;
  size_t left = joined_count[from] - k->fed[from], count = below(3) == 0 ? below(6000) : below(400), taken = 99;
  int is_long = below(50) == 0 && long_piece != NULL;
  if (count > left) count = left;
  if (wanted == INTERLAKEN_DONE && is_long) wanted = INTERLAKEN_TOO_MANY;
  result = interlaken_gatherer_feed(&k->gatherer, lane, is_long ? long_piece : joined[from] + k->fed[from], is_long ? LONG_PIECE : count, &taken);
  want("gatherer feed", result == wanted);
  if (result != INTERLAKEN_DONE) {
    want("no byte is gathered", taken == 0);
    return;
  }
  want("as many bytes as there is room for", taken <= count && (taken == count || k->fed[from] + taken >= 4096));
  if (taken <= count) k->fed[from] += taken;
}

static void try_gatherer_finish(struct gathering *k) {
  uint32_t lane = some_lane(), wanted = gatherer_lane_result(k, lane);
  want("gatherer finish", interlaken_gatherer_finish(&k->gatherer, lane) == wanted);
  if (wanted != INTERLAKEN_DONE) return;
  k->over[lane] = 1;
  if (k->fed[lane] < joined_count[lane]) k->cut = 1;
}

/* The next word or break, or the end. */
static void took_gathered(struct gathering *k, const interlaken_gathered *next) {
  want("something of a gatherer", k->has && !k->ended && next->kind >= INTERLAKEN_GATHERED_WORD && next->kind <= INTERLAKEN_GATHERED_ENDED);
  if (next->kind == INTERLAKEN_GATHERED_ENDED) want("the end of lanes that are finished", k->over[0] && k->over[1]), k->ended = 1;
  if (next->kind == INTERLAKEN_GATHERED_WORD) look_at_word(next);
  if (!k->cut) want("the next word or break", k->given < gathered_count && same_gathered(next, &gathered_of[k->given]));
  k->given++;
}

/* Returns whether something was returned. */
static int try_gatherer_next(struct gathering *k) {
  static interlaken_gathered nothing;
  interlaken_gathered next;
  memset(&next, 0xa5, sizeof next);
  want("gatherer next", interlaken_gatherer_next(&k->gatherer, &next) == (uint32_t)(k->has ? INTERLAKEN_DONE : INTERLAKEN_NO_GATHERER));
  if (next.kind == INTERLAKEN_GATHERED_NONE) {
    want("nothing is all 0", same_gathered(&next, &nothing));
    want("nothing while a lane lacks bytes", !k->has || k->ended || !k->over[0] || !k->over[1]);
    return 0;
  }
  took_gathered(k, &next);
  return 1;
}

/* Many calls of `next` at once. What lies behind the last of them stays. */
static void try_gatherer_words(struct gathering *k) {
  static interlaken_gathered many[300], nothing;
  size_t room = below(4) == 0 ? below(4) : below(300), count = 99, at;
  uint32_t result;
  memset(many, 0xa5, sizeof many);
  nothing = many[0];
  result = interlaken_gatherer_words(&k->gatherer, room == 0 ? NULL : many, room, &count);
  want("gatherer words", result == (uint32_t)(k->has ? INTERLAKEN_DONE : INTERLAKEN_NO_GATHERER));
  want("as many words as there is room for", count <= room && (k->has || count == 0));
  for (at = 0; at < count && at < room; at++) took_gathered(k, &many[at]);
  for (; at < room; at++) want("no word behind the last", same_gathered(&many[at], &nothing));
  if (count < room && k->has) want("no word is left", !try_gatherer_next(k));
}

static void try_gatherer_report(struct gathering *k) {
  static interlaken_report nothing;
  interlaken_report report;
  uint32_t lane = some_lane(), result;
  memset(&report, 0xa5, sizeof report);
  result = interlaken_gatherer_report(&k->gatherer, lane, &report);
  want("gatherer report", result == (uint32_t)(!k->has ? INTERLAKEN_NO_GATHERER : lane < 2 ? INTERLAKEN_DONE : INTERLAKEN_NO_LANE));
  if (result != INTERLAKEN_DONE) want("no report", report.locks == nothing.locks && report.first == nothing.first && report.bad == nothing.bad);
}

/* Once all is fed and finished, all comes that was not returned. */
static void gather_rest(struct gathering *k) {
  if (!k->has || k->cut) return;
  while (!k->ended) {
    feed_rest(&k->gatherer, joined[0], 0, joined_count[0], &k->fed[0], &k->over[0]);
    feed_rest(&k->gatherer, joined[1], 1, joined_count[1], &k->fed[1], &k->over[1]);
    while (try_gatherer_next(k)) continue;
  }
  want("all words and breaks", k->given == gathered_count);
}

/* If an allocation fails, `new` has no memory, or does without it. */
static void each_gatherer_allocation(void) {
  long fails, refused = 0, taken = 1;
  for (fails = 0; fails < taken; fails++) {
    interlaken_gatherer one = {0, 0};
    interlaken_refusal refusal;
    uint32_t result;
    failing = fails, allocations = 0;
    result = interlaken_gatherer_new(&one, plan.at, plan.count, &refusal);
    failing = -1, taken = allocations > fails ? fails + 2 : fails;
    want("no cause of a gatherer", refusal.cause == 0);
    want("memory of a gatherer", (result == INTERLAKEN_DONE) == (one.live != 0) && (result == INTERLAKEN_DONE || result == INTERLAKEN_OUT_OF_MEMORY));
    refused += result == INTERLAKEN_OUT_OF_MEMORY;
    interlaken_gatherer_free(&one);
    want("nothing of a gatherer leaks", live == 0);
  }
  want("a gatherer needs memory", refused > 5);
}

static void gatherer_sequence(void) {
  static struct gathering one;
  static uint32_t turn;
  uint32_t calls = 20 + below(400);
  if (turn++ % 8 == 0) memcpy(joined, struck, sizeof joined), memcpy(joined_count, struck_count, sizeof joined_count), learn_gathered();
  while (calls-- > 0) {
    long before = allocations;
    switch (below(40)) {
      case 0: case 1: try_gatherer_new(&one), before = allocations; break;
      case 2: if (below(8) == 0) try_gatherer_free(&one); break;
      case 3: if (below(30) == 0) try_gatherer_finish(&one); break;
      case 4: case 5: try_gatherer_report(&one); break;
      case 6: case 7: while (try_gatherer_next(&one)) continue; break;
      case 8: case 9: case 10: case 11: try_gatherer_words(&one); break;
      default: if (below(2)) try_gatherer_feed(&one); else try_gatherer_next(&one); break;
    }
    want("no allocation but of gatherer new", allocations == before);
  }
  gather_rest(&one);
  try_gatherer_free(&one);
  want("nothing of a gatherer leaks", live == 0);
}

int main(int argc, char **argv) {
  long left;
  void *many = mmap(NULL, LONG_PIECE, PROT_READ, MAP_PRIVATE | MAP_ANONYMOUS | MAP_NORESERVE, -1, 0);
  if (argc != 5) return 2;
  if (many != MAP_FAILED) long_piece = (const uint8_t *)many;
  else printf("not tried, no address space: a piece of 2^40 bytes\n");
  plan = load(argv[1]), lanes[0] = load(argv[2]), lanes[1] = load(argv[3]);
  sender_plan = with_row(plan, "max_packet,250\n"); /* MAX_PACKET */
  each_allocation();
  one_lane();
  each_inspector_allocation();
  each_gatherer_allocation();
  each_plan_allocation();
  for (left = atol(argv[4]); left > 0; left--) {
    state = (uint64_t)left * 2654435761u + 88172645463325252u;
    sequence();
    checker_sequence();
    damage_sequence();
    sender_sequence();
    plan_sequence();
    inspector_sequence();
    gatherer_sequence();
  }
  printf("%ld tried, %ld wrong\n", tries, wrong);
  free(plan.at), free(sender_plan.at), free(lanes[0].at), free(lanes[1].at);
  return wrong != 0;
}
