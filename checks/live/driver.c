/* Makes the calls of the C library that a script has, and prints what each gives, a line for a call.
 *
 *     driver [-u] SCRIPT OUT [SCRIPT OUT]..
 *
 * Several scripts run at once, each in a thread of its own with handles of its own. What a call writes has other bytes before, and with
 * -u none that are initialised, for a tool that sees those. A piece of memory that a call is given has exactly the bytes that it may
 * use.
 *
 * A line has a call, H being the number of a handle and B of a buffer:
 *
 *     load B FILE, hold B HEX         the bytes of a buffer
 *     rnew H B, rfree H, rfin H LANE, rnext H, rread H OFFSET COUNT, rreport H LANE, rstate H LANE, rison H CHANNEL
 *     rfeed H LANE B COUNT            the next bytes of a lane, which has the bytes of the buffer
 *     rwatch H CHANNEL..              from now on each control word and each span shows `is_on` of these
 *     rall H                          `next` up to the first that gives nothing, or the end; packets are read
 *     rstep H B LANES                 a byte of each lane in turn, lane 0 in buffer B and so on, each with `rall` after it
 *     tnew H B, tfree H, tpacket H CHANNEL B OFFSET COUNT, tflow H WORD, tlocal H CHANNEL ON, ttake H LANE COUNT, tfin H,
 *     tsent H CHANNEL, tslots H
 *     dnew H LANES, dfree H, dflip H LANE BIT, ddark H LANE FIRST BITS, dapply H LANE B OFFSET COUNT
 *
 * `? CALL` makes the call with its first allocation failing. `! CALL` makes it with each of its allocations failing, one after another,
 * and then as it is; and `!! CALL` also with all from each on. A line `# refused CALL N` then says how many calls had no memory. A line
 * `# CALL allocates` is for a call that should not. */
#define _GNU_SOURCE 1
#include "interlaken.h"
#include "interlaken_alloc.h"
#include <pthread.h>
#include <stdarg.h>
#include <stdio.h>
#include <stdlib.h>
#include <string.h>

#define HANDLES 4
#define BUFFERS 100
#define LANES 64
#define WORDS 80

/* ---- memory: what each thread allocated, and which allocation of it fails */

static __thread long made, blocks, failing = -1;
static __thread int fails_on; /* all from that one on fail */
static char none;

static int refuses(void) {
  long number = made++;
  return failing >= 0 && (number == failing || (fails_on && number > failing));
}

static struct rattle_tried tried(void *at) {
  struct rattle_tried answer;
  answer.memory = at != NULL;
  answer.at = at != NULL ? at : &none;
  return answer;
}

struct rattle_tried rattle_alloc(size_t size, size_t align) {
  void *at = refuses() ? NULL : malloc(size != 0 ? size : align);
  blocks += at != NULL;
  return tried(at);
}

struct rattle_tried rattle_realloc(void *at, size_t kept, size_t size, size_t align) {
  (void)kept;
  return tried(refuses() ? NULL : realloc(at, size != 0 ? size : align));
}

void rattle_dealloc(void *at) {
  blocks--;
  free(at);
}

/* ---- a script */

struct bytes {
  uint8_t *at;
  size_t count;
};

struct script {
  const char *from, *to;
  FILE *out;
  char *said; /* the line that the last call said, without its end */
  size_t room, used;
  interlaken_receiver receiver[HANDLES];
  interlaken_transmitter transmitter[HANDLES];
  interlaken_damage damage[HANDLES];
  struct bytes held[BUFFERS];
  size_t fed[HANDLES][LANES];
  uint16_t watched[HANDLES][LANES];
  unsigned watches[HANDLES];
};

static int is_raw; /* what is only written is not initialised before */

static void fails(const char *why) {
  fprintf(stderr, "driver: %s\n", why);
  exit(2);
}

static void *room_for(size_t count) {
  void *at = malloc(count != 0 ? count : 1);
  if (at == NULL) fails("no memory");
  return at;
}

/* Memory that a call only writes. */
static void *fresh(size_t count) {
  void *at = room_for(count);
  if (!is_raw) memset(at, 0xa5, count);
  return at;
}

/* A piece of a buffer of its own; it ends with the buffer. */
static struct bytes piece_of(const struct bytes *all, size_t offset, size_t count) {
  struct bytes piece;
  if (offset > all->count) offset = all->count;
  piece.count = count < all->count - offset ? count : all->count - offset;
  piece.at = (uint8_t *)room_for(piece.count);
  if (piece.count != 0) memcpy(piece.at, all->at + offset, piece.count);
  return piece;
}

static void reserve(struct script *s, size_t more) {
  if (s->used + more + 1 <= s->room) return;
  s->room = 2 * (s->used + more + 1);
  s->said = (char *)realloc(s->said, s->room);
  if (s->said == NULL) fails("no memory");
}

static void say(struct script *s, const char *format, ...) {
  va_list words;
  reserve(s, 512);
  va_start(words, format);
  s->used += (size_t)vsnprintf(s->said + s->used, 512, format, words);
  va_end(words);
}

static void say_bytes(struct script *s, const uint8_t *bytes, size_t count) {
  static const char digits[] = "0123456789abcdef";
  size_t n;
  reserve(s, 2 * count + 1);
  s->said[s->used++] = ' ';
  for (n = 0; n < count; n++) s->said[s->used++] = digits[bytes[n] >> 4], s->said[s->used++] = digits[bytes[n] & 15];
  s->said[s->used] = 0;
}

/* Says so if a call wrote past what it gave. */
static void say_rest(struct script *s, const uint8_t *bytes, size_t given, size_t count) {
  size_t n;
  for (n = given; n < count && !is_raw; n++)
    if (bytes[n] != 0xa5) { say(s, " rest changed"); return; }
}

static unsigned long long number(const char *word) { return strtoull(word, NULL, 0); }
static int count_of(char **w) { int n = 0; while (w[n] != NULL) n++; return n; }

/* ---- buffers */

static uint32_t load(struct script *s, char **w) {
  struct bytes *held = &s->held[number(w[1]) % BUFFERS];
  FILE *in = fopen(w[2], "rb");
  if (in == NULL) fails(w[2]);
  fseek(in, 0, SEEK_END);
  held->count = (size_t)ftell(in);
  rewind(in);
  free(held->at);
  held->at = (uint8_t *)room_for(held->count);
  if (fread(held->at, 1, held->count, in) != held->count) fails(w[2]);
  fclose(in);
  return 0;
}

static uint32_t hold(struct script *s, char **w) {
  struct bytes *held = &s->held[number(w[1]) % BUFFERS];
  size_t n;
  unsigned byte;
  held->count = w[2] != NULL ? strlen(w[2]) / 2 : 0;
  free(held->at);
  held->at = (uint8_t *)room_for(held->count);
  for (n = 0; n < held->count && sscanf(w[2] + 2 * n, "%2x", &byte) == 1; n++) held->at[n] = (uint8_t)byte;
  return 0;
}

/* ---- a receiver */

#define HANDLE (number(w[1]) % HANDLES)
#define RECEIVER (&s->receiver[HANDLE])

static void say_new(struct script *s, uint32_t result, uint8_t live, interlaken_refusal *refusal) {
  say(s, "%u %u %u %u %u", result, live, refusal->cause, refusal->row, refusal->key);
}

static uint32_t rnew(struct script *s, char **w) {
  struct bytes plan = piece_of(&s->held[number(w[2]) % BUFFERS], 0, SIZE_MAX);
  interlaken_refusal *refusal = (interlaken_refusal *)fresh(sizeof *refusal);
  uint32_t result = interlaken_receiver_new(RECEIVER, plan.at, plan.count, refusal);
  say_new(s, result, RECEIVER->live, refusal);
  if (result == INTERLAKEN_DONE) memset(s->fed[HANDLE], 0, sizeof s->fed[HANDLE]), s->watches[HANDLE] = 0;
  free(plan.at), free(refusal);
  return result;
}

static uint32_t rfree(struct script *s, char **w) {
  uint32_t result = interlaken_receiver_free(RECEIVER);
  say(s, "%u %u", result, RECEIVER->live);
  return result;
}

static uint32_t feed(struct script *s, char **w, uint32_t lane, const struct bytes *all, size_t count) {
  size_t *fed = &s->fed[HANDLE][lane % LANES], *taken = (size_t *)fresh(sizeof *taken);
  struct bytes piece = piece_of(all, *fed, count);
  uint32_t result = interlaken_receiver_feed(RECEIVER, lane, piece.at, piece.count, taken);
  say(s, "%u %zu", result, *taken);
  if (result == INTERLAKEN_DONE) *fed += *taken;
  free(piece.at), free(taken);
  return result;
}

static uint32_t rfeed(struct script *s, char **w) {
  return feed(s, w, (uint32_t)number(w[2]), &s->held[number(w[3]) % BUFFERS], number(w[4]));
}

static uint32_t rfin(struct script *s, char **w) {
  uint32_t result = interlaken_receiver_finish(RECEIVER, (uint32_t)number(w[2]));
  say(s, "%u", result);
  return result;
}

static void say_place(struct script *s, const interlaken_place *place) {
  say(s, " %u %u %llu", place->known, place->index, (unsigned long long)place->group);
}

static void say_packet(struct script *s, char **w, uint32_t offset, size_t count) {
  uint8_t *bytes = (uint8_t *)fresh(count);
  size_t *copied = (size_t *)fresh(sizeof *copied);
  uint32_t result = interlaken_receiver_read(RECEIVER, offset, bytes, count, copied);
  say(s, " %u %zu", result, *copied);
  if (*copied <= count) {
    say_bytes(s, bytes, *copied);
    say_rest(s, bytes, *copied, count);
  }
  free(bytes), free(copied);
}

static void say_watched(struct script *s, char **w) {
  unsigned n;
  uint32_t *on = (uint32_t *)fresh(sizeof *on);
  if (s->watches[HANDLE] != 0) say(s, " ");
  for (n = 0; n < s->watches[HANDLE]; n++) {
    if (!is_raw) *on = 7;
    interlaken_receiver_is_on(RECEIVER, s->watched[HANDLE][n], on);
    say(s, "%u", *on);
  }
  free(on);
}

/* Says the next event. */
static void next(struct script *s, char **w, interlaken_event *e) {
  uint32_t result = interlaken_receiver_next(RECEIVER, e);
  say(s, "%u %u %u %u %u", result, e->kind, e->channel, e->length, e->why);
  say_place(s, &e->first), say_place(s, &e->last);
  say(s, " %llx", (unsigned long long)e->word);
}

static uint32_t rnext(struct script *s, char **w) {
  interlaken_event *e = (interlaken_event *)fresh(sizeof *e);
  next(s, w, e);
  free(e);
  return 0;
}

static uint32_t rread(struct script *s, char **w) {
  say_packet(s, w, (uint32_t)number(w[2]), number(w[3]));
  return 0;
}

static uint32_t rreport(struct script *s, char **w) {
  interlaken_report *r = (interlaken_report *)fresh(sizeof *r);
  uint64_t *each = (uint64_t *)(void *)r;
  uint32_t result = interlaken_receiver_report(RECEIVER, (uint32_t)number(w[2]), r);
  size_t n;
  say(s, "%u", result);
  for (n = 0; n < sizeof *r / sizeof *each; n++) say(s, " %llu", (unsigned long long)each[n]);
  free(r);
  return result;
}

static uint32_t rstate(struct script *s, char **w) {
  uint32_t *state = (uint32_t *)fresh(sizeof *state), result = interlaken_receiver_lane_state(RECEIVER, (uint32_t)number(w[2]), state);
  say(s, "%u %u", result, *state);
  free(state);
  return result;
}

static uint32_t rison(struct script *s, char **w) {
  uint32_t *on = (uint32_t *)fresh(sizeof *on), result = interlaken_receiver_is_on(RECEIVER, (uint16_t)number(w[2]), on);
  say(s, "%u %u", result, *on);
  free(on);
  return result;
}

static uint32_t rwatch(struct script *s, char **w) {
  unsigned n;
  s->watches[HANDLE] = (unsigned)count_of(w) - 2;
  for (n = 0; n < s->watches[HANDLE] && n < LANES; n++) s->watched[HANDLE][n] = (uint16_t)number(w[n + 2]);
  return 0;
}

static void end_line(struct script *s) { fprintf(s->out, "%.*s\n", (int)s->used, s->used != 0 ? s->said : ""), s->used = 0; }

/* A line for each event, with a number before it. Gives the kind that ends them. */
static uint32_t all(struct script *s, char **w, size_t mark) {
  interlaken_event *e = (interlaken_event *)fresh(sizeof *e);
  uint32_t kind;
  do {
    say(s, "%zu ", mark);
    next(s, w, e);
    kind = e->kind;
    if (kind == INTERLAKEN_FLOW || kind == INTERLAKEN_SPAN) say_watched(s, w);
    if (kind == INTERLAKEN_PACKET) say_packet(s, w, 0, (size_t)e->length + 1);
    if (kind != INTERLAKEN_NONE) end_line(s);
  } while (kind != INTERLAKEN_NONE && kind != INTERLAKEN_ENDED);
  s->used = 0;
  free(e);
  return kind;
}

static uint32_t rall(struct script *s, char **w) {
  say(s, "%u", all(s, w, 0));
  return 0;
}

/* Round n feeds byte n of each lane that has one; a lane whose bytes are over is finished before. */
static uint32_t rstep(struct script *s, char **w) {
  uint32_t lane, first = (uint32_t)number(w[2]), lanes = (uint32_t)number(w[3]), open = lanes, kind = 0;
  size_t n;
  for (n = 0; open > 0; n++) {
    for (lane = 0; lane < lanes; lane++) {
      const struct bytes *bytes = &s->held[first + lane];
      if (n == bytes->count) interlaken_receiver_finish(RECEIVER, lane), open--;
      if (n < bytes->count) feed(s, w, lane, bytes, 1), s->used = 0;
    }
    kind = all(s, w, n + 1);
  }
  say(s, "%u", kind);
  return 0;
}

/* ---- a transmitter */

#define TRANSMITTER (&s->transmitter[HANDLE])

static uint32_t tnew(struct script *s, char **w) {
  struct bytes plan = piece_of(&s->held[number(w[2]) % BUFFERS], 0, SIZE_MAX);
  interlaken_refusal *refusal = (interlaken_refusal *)fresh(sizeof *refusal);
  uint32_t result = interlaken_transmitter_new(TRANSMITTER, plan.at, plan.count, refusal);
  say_new(s, result, TRANSMITTER->live, refusal);
  free(plan.at), free(refusal);
  return result;
}

static uint32_t tfree(struct script *s, char **w) {
  uint32_t result = interlaken_transmitter_free(TRANSMITTER);
  say(s, "%u %u", result, TRANSMITTER->live);
  return result;
}

static uint32_t tpacket(struct script *s, char **w) {
  struct bytes piece = piece_of(&s->held[number(w[3]) % BUFFERS], number(w[4]), number(w[5]));
  uint32_t result = interlaken_transmitter_packet(TRANSMITTER, (uint16_t)number(w[2]), piece.at, piece.count);
  say(s, "%u", result);
  free(piece.at);
  return result;
}

static uint32_t tflow(struct script *s, char **w) {
  uint32_t result = interlaken_transmitter_flow(TRANSMITTER, number(w[2]));
  say(s, "%u", result);
  return result;
}

static uint32_t tlocal(struct script *s, char **w) {
  uint32_t result = interlaken_transmitter_local(TRANSMITTER, (uint16_t)number(w[2]), (uint32_t)number(w[3]));
  say(s, "%u", result);
  return result;
}

static uint32_t ttake(struct script *s, char **w) {
  size_t count = number(w[3]), *taken = (size_t *)fresh(sizeof *taken);
  uint8_t *bytes = (uint8_t *)fresh(count);
  uint32_t result = interlaken_transmitter_take(TRANSMITTER, (uint32_t)number(w[2]), bytes, count, taken);
  say(s, "%u %zu", result, *taken);
  if (*taken <= count) say_bytes(s, bytes, *taken), say_rest(s, bytes, *taken, count);
  free(bytes), free(taken);
  return result;
}

static uint32_t tfin(struct script *s, char **w) {
  uint32_t result = interlaken_transmitter_finish(TRANSMITTER);
  say(s, "%u", result);
  return result;
}

static uint32_t tsent(struct script *s, char **w) {
  interlaken_counts *c = (interlaken_counts *)fresh(sizeof *c);
  uint32_t result = interlaken_transmitter_sent(TRANSMITTER, (uint16_t)number(w[2]), c);
  say(s, "%u %llu %llu", result, (unsigned long long)c->packets_given, (unsigned long long)c->packets_sent);
  say(s, " %llu %llu", (unsigned long long)c->bytes_given, (unsigned long long)c->bytes_sent);
  free(c);
  return result;
}

static uint32_t tslots(struct script *s, char **w) {
  uint64_t *slots = (uint64_t *)fresh(sizeof *slots);
  uint32_t result = interlaken_transmitter_slots(TRANSMITTER, slots);
  say(s, "%u %llu", result, (unsigned long long)*slots);
  free(slots);
  return result;
}

/* ---- damage */

#define DAMAGE (&s->damage[HANDLE])

static uint32_t dnew(struct script *s, char **w) {
  uint32_t result = interlaken_damage_new(DAMAGE, (uint32_t)number(w[2]));
  say(s, "%u %u", result, DAMAGE->live);
  return result;
}

static uint32_t dfree(struct script *s, char **w) {
  uint32_t result = interlaken_damage_free(DAMAGE);
  say(s, "%u %u", result, DAMAGE->live);
  return result;
}

static uint32_t dflip(struct script *s, char **w) {
  uint32_t result = interlaken_damage_flip(DAMAGE, (uint32_t)number(w[2]), number(w[3]));
  say(s, "%u", result);
  return result;
}

static uint32_t ddark(struct script *s, char **w) {
  uint32_t result = interlaken_damage_dark(DAMAGE, (uint32_t)number(w[2]), number(w[3]), number(w[4]));
  say(s, "%u", result);
  return result;
}

static uint32_t dapply(struct script *s, char **w) {
  struct bytes piece = piece_of(&s->held[number(w[3]) % BUFFERS], number(w[4]), number(w[5]));
  uint32_t result = interlaken_damage_apply(DAMAGE, (uint32_t)number(w[2]), piece.at, piece.count);
  say(s, "%u", result);
  say_bytes(s, piece.at, piece.count);
  free(piece.at);
  return result;
}

/* ---- lines */

typedef uint32_t call(struct script *s, char **w);

/* The words after the handle that a call needs, and what frees what it opened. */
static const struct entry {
  const char *name;
  call *run;
  int words;
  call *undo;
} entries[] = {
    {"load", load, 2, NULL},       {"hold", hold, 1, NULL},       {"rnew", rnew, 2, rfree},      {"rfree", rfree, 1, NULL},
    {"rfeed", rfeed, 4, NULL},     {"rfin", rfin, 2, NULL},       {"rnext", rnext, 1, NULL},     {"rread", rread, 3, NULL},
    {"rreport", rreport, 2, NULL}, {"rstate", rstate, 2, NULL},   {"rison", rison, 2, NULL},     {"rwatch", rwatch, 1, NULL},
    {"rall", rall, 1, NULL},       {"rstep", rstep, 3, NULL},     {"tnew", tnew, 2, tfree},      {"tfree", tfree, 1, NULL},
    {"tpacket", tpacket, 5, NULL}, {"tflow", tflow, 2, NULL},     {"tlocal", tlocal, 3, NULL},   {"ttake", ttake, 3, NULL},
    {"tfin", tfin, 1, NULL},       {"tsent", tsent, 2, NULL},     {"tslots", tslots, 1, NULL},   {"dnew", dnew, 2, dfree},
    {"dfree", dfree, 1, NULL},     {"dflip", dflip, 3, NULL},     {"ddark", ddark, 4, NULL},     {"dapply", dapply, 5, NULL},
};

static const struct entry *entry_of(const char *name) {
  size_t n;
  for (n = 0; n < sizeof entries / sizeof *entries; n++)
    if (strcmp(entries[n].name, name) == 0) return &entries[n];
  fails(name);
  return NULL;
}

static uint32_t make(struct script *s, const struct entry *e, char **w, long fail, int on) {
  uint32_t result;
  s->used = 0, made = 0, failing = fail, fails_on = on;
  result = e->run(s, w);
  failing = -1;
  if (made != 0 && e->undo == NULL && e->run != tpacket && e->run != dflip && e->run != ddark) fprintf(s->out, "# %s allocates\n", e->name);
  return result;
}

/* What a transmitter tells of itself; nothing of another handle. */
static void say_state(struct script *s, const struct entry *e, char **w, char *state, size_t room) {
  s->used = 0;
  if (e->run == tpacket) tsent(s, w), say(s, " "), tslots(s, w);
  snprintf(state, room, "%.*s", (int)s->used, s->used != 0 ? s->said : "");
  s->used = 0;
}

/* Makes a call with one allocation failing. Gives whether it reached that one and can be made again. */
static int make_refused(struct script *s, const struct entry *e, char **w, long fail, int on, long *refused) {
  char before[200], after[200];
  long kept = blocks;
  uint32_t result;
  int reached;
  say_state(s, e, w, before, sizeof before);
  result = make(s, e, w, fail, on);
  reached = made > fail;
  if (!reached) return 0;
  if (result == INTERLAKEN_OUT_OF_MEMORY) {
    ++*refused;
    if (blocks != kept) fprintf(s->out, "# a refused %s keeps %ld blocks\n", e->name, blocks - kept);
    if (e->undo != NULL && strncmp(s->said, "1 0", 3) != 0) fprintf(s->out, "# a refused %s opens a handle\n", e->name);
    say_state(s, e, w, after, sizeof after);
    if (strcmp(before, after) != 0) fprintf(s->out, "# a refused %s changes %s to %s\n", e->name, before, after);
    return 1;
  }
  if (e->undo != NULL && result == INTERLAKEN_DONE) return s->used = 0, e->undo(s, w), 1; /* it did without */
  return 0;
}

/* Each allocation of a call fails, and then none if it was not done before. */
static void make_each(struct script *s, const struct entry *e, char **w, int modes) {
  long fail, refused = 0;
  int mode, again = 1;
  for (fail = 0; again; fail++)
    for (mode = modes - 1; mode >= 0 && again; mode--) again = make_refused(s, e, w, fail, mode, &refused);
  fprintf(s->out, "# refused %s %ld\n", e->name, refused);
}

static void run_line(struct script *s, char **w) {
  int modes = strcmp(w[0], "!") == 0 ? 1 : strcmp(w[0], "!!") == 0 ? 2 : 0, doubted = strcmp(w[0], "?") == 0;
  const struct entry *e;
  if (modes != 0 || doubted) w++;
  if (w[0] == NULL) fails("a line without a call");
  e = entry_of(w[0]);
  if (count_of(w) <= e->words) fails(w[0]);
  if (modes != 0) make_each(s, e, w, modes);
  else make(s, e, w, doubted ? 0 : -1, 0);
  if (e->run != load && e->run != hold && e->run != rwatch) end_line(s);
}

static void *run(void *at) {
  struct script *s = (struct script *)at;
  static const size_t longest = 1 << 20;
  char *line = (char *)room_for(longest), *w[WORDS + 1], *rest;
  FILE *in = fopen(s->from, "r");
  s->out = fopen(s->to, "w");
  if (in == NULL || s->out == NULL) fails(s->from);
  while (fgets(line, (int)longest, in) != NULL) {
    int n = 0;
    for (w[0] = strtok_r(line, " \n", &rest); w[n] != NULL && n < WORDS; w[n] = strtok_r(NULL, " \n", &rest)) n++;
    w[WORDS] = NULL;
    if (w[0] != NULL) run_line(s, w);
  }
  fprintf(s->out, "# blocks %ld\n", blocks);
  fclose(in), fclose(s->out), free(line), free(s->said);
  for (size_t n = 0; n < BUFFERS; n++) free(s->held[n].at);
  return NULL;
}

int main(int argc, char **argv) {
  int first = 1, n, count;
  struct script *scripts;
  pthread_t *threads;
  if (argc > 1 && strcmp(argv[1], "-u") == 0) is_raw = 1, first = 2;
  count = (argc - first) / 2;
  if (count < 1 || (argc - first) % 2 != 0) fails("SCRIPT OUT");
  scripts = (struct script *)calloc((size_t)count, sizeof *scripts);
  threads = (pthread_t *)calloc((size_t)count, sizeof *threads);
  if (scripts == NULL || threads == NULL) fails("no memory");
  for (n = 0; n < count; n++) scripts[n].from = argv[first + 2 * n], scripts[n].to = argv[first + 2 * n + 1];
  if (count == 1) run(scripts);
  for (n = 0; n < count && count > 1; n++)
    if (pthread_create(&threads[n], NULL, run, &scripts[n]) != 0) fails("no thread");
  for (n = 0; n < count && count > 1; n++) pthread_join(threads[n], NULL);
  free(scripts), free(threads);
  return 0;
}
