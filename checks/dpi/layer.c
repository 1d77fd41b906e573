/* The functions of examples/dpi/interlaken_dpi.c without a simulator: lanes in drawn pieces and orders, a transmitter whose lanes come
 * back, words of a sender, and each misuse. Its prototypes are those that verilator made of the imports.
 *
 *     layer PLAN SEED WORDS LANE..
 *
 * PLAN is a plan file, WORDS a words file, and each LANE the file of a lane, from lane 0 on. It prints a line for each packet, fault span
 * and dropped piece and for each lane, for each event of a lane, for each word of the lanes, for each fault of the words, and a line that
 * begins with `wrong` for each call with another result than it should have. */
#include <stdint.h>
#include <stdio.h>
#include <stdlib.h>
#include <string.h>

enum { DONE, NO_LANE = 3, FINISHED, TOO_MANY, NO_PACKET, NO_RECEIVER, NO_DAMAGE = 9, OUT_OF_RANGE, PASSED, NO_TRANSMITTER, NO_CHANNEL,
       BAD_LENGTH, NO_INSPECTOR, NO_CHECKER, WAITING, NO_GATHERER, NO_ROOM = 100 };
enum { NONE, PACKET, DROPPED, SPAN, FLOW, ENDED };

struct file {
  uint8_t *at;
  size_t bits, fed;
  int over;
};

static uint64_t drawn;

static unsigned below(unsigned bound) {
  drawn ^= drawn << 13, drawn ^= drawn >> 7, drawn ^= drawn << 17;
  return (unsigned)(drawn >> 20) % bound;
}

static void want(const char *what, int found, int wanted) {
  if (found != wanted) printf("wrong: %s gives %d and not %d\n", what, found, wanted);
}

/* An array of a simulator: its bytes in a row, or each in a word of its own, from some lowest index on. */
struct array {
  uint8_t *bytes;
  int low, count, stride;
};

static int is_index(const struct array *array, int index) {
  if (index >= array->low && index < array->low + array->count) return 1;
  printf("wrong: index %d of an array of %d from %d on\n", index, array->count, array->low);
  return 0;
}

int svSize(const svOpenArrayHandle h, int d) {
  want("the dimension", d, 1);
  return ((const struct array *)h)->count;
}

int svLow(const svOpenArrayHandle h, int d) {
  want("the dimension", d, 1);
  return ((const struct array *)h)->low;
}

int svSizeOfArray(const svOpenArrayHandle h) {
  const struct array *array = (const struct array *)h;
  return array->count * array->stride;
}

void *svGetArrayPtr(const svOpenArrayHandle h) {
  return ((const struct array *)h)->bytes;
}

void *svGetArrElemPtr1(const svOpenArrayHandle h, int index) {
  struct array *array = (struct array *)h;
  return is_index(array, index) ? array->bytes + (index - array->low) * array->stride : array->bytes;
}

/* An array of so many bytes, which are all 238, in one of the two forms. */
static struct array make_array(int count) {
  struct array array;
  array.count = count;
  array.low = (int)below(5) - 2;
  array.stride = below(2) == 0 ? 1 : 4;
  array.bytes = malloc((size_t)(count * array.stride) + 1);
  if (array.bytes == NULL) exit(2);
  memset(array.bytes, 238, (size_t)(count * array.stride) + 1);
  return array;
}

/* The packet that came last as arrays of several sizes have it. */
static void try_arrays(void *receiver, unsigned length) {
  static const unsigned more[] = {0, 1, 100};
  for (unsigned i = 0; i < 4; i++) {
    unsigned count = i < 3 ? length + more[i] : length / 2, copied = 9999, wanted = count < length ? count : length;
    struct array array = make_array((int)count);
    unsigned char byte;
    want("packet_bytes", interlaken_dpi_packet_bytes(receiver, &array, &copied), DONE);
    want("copied", (int)copied, (int)wanted);
    for (unsigned k = 0; k < count; k++) {
      if (k < wanted) want("a byte of the packet", interlaken_dpi_byte(receiver, k, &byte), DONE);
      want("a byte of the array", array.bytes[k * (unsigned)array.stride], k < wanted ? byte : 238);
    }
    free(array.bytes);
  }
}

static void no_packet(void *receiver, int wanted) {
  struct array array = make_array(3);
  unsigned copied = 9;
  want("packet_bytes without a packet", interlaken_dpi_packet_bytes(receiver, &array, &copied), wanted);
  want("copied without a packet", (int)copied, 0);
  want("the array without a packet", array.bytes[0], 238);
  free(array.bytes);
}

static struct file load(const char *name) {
  struct file file = {NULL, 0, 0, 0};
  FILE *in = fopen(name, "rb");
  size_t count;
  if (in == NULL) exit(2);
  fseek(in, 0, SEEK_END);
  count = (size_t)ftell(in);
  rewind(in);
  file.at = calloc(count + 1, 1);
  if (fread(file.at, 1, count, in) != count) exit(2);
  fclose(in);
  file.bits = 8 * count;
  return file;
}

/* The next bits of a file, at most `count`, the highest first; above them are ones that do not count. */
static unsigned piece(const struct file *file, unsigned count, unsigned long long *bits) {
  unsigned i, left = file->bits - file->fed < count ? (unsigned)(file->bits - file->fed) : count;
  *bits = ~0ull;
  for (i = 0; i < left; i++) {
    size_t at = file->fed + i;
    *bits = *bits << 1 | (unsigned)(file->at[at / 8] >> (7 - at % 8) & 1);
  }
  return left;
}

/* Takes all events that there are; 1 if the end is among them. */
static int take(void *receiver) {
  for (;;) {
    unsigned kind, channel, length, why, known[2], index[2];
    unsigned long long group[2], word;
    unsigned char byte;
    int result = interlaken_dpi_next(receiver, &kind, &channel, &length, &why, &known[0], &index[0], &group[0], &known[1], &index[1],
                                     &group[1], &word);
    want("next", result, DONE);
    if (kind == PACKET) {
      printf("packet %u ", channel);
      for (unsigned i = 0; i < length; i++) {
        want("a byte", interlaken_dpi_byte(receiver, i, &byte), DONE);
        printf("%02x", byte);
      }
      putchar('\n');
      try_arrays(receiver, length);
    } else {
      no_packet(receiver, NO_PACKET);
    }
    want("a byte after the last", interlaken_dpi_byte(receiver, length, &byte), NO_PACKET);
    if (kind == SPAN) printf("span %u %u %llu %u %u %llu %u\n", known[0], index[0], group[0], known[1], index[1], group[1], why);
    if (kind == DROPPED) printf("dropped %u\n", why);
    if (kind == NONE || kind == ENDED || result != DONE) return kind != NONE;
  }
}

static void print_lane(void *receiver, unsigned lane) {
  unsigned long long n[9];
  unsigned state;
  want("report", interlaken_dpi_report(receiver, lane, &n[0], &n[1], &n[2], &n[3], &n[4], &n[5], &n[6], &n[7], &n[8]), DONE);
  want("lane_state", interlaken_dpi_lane_state(receiver, lane, &state), DONE);
  printf("lane %u locks=%llu first=", lane, n[0]);
  if (n[1]) printf("%llu", n[2]);
  else putchar('-');
  printf(" lost=%llu unframed=%llu bad=%llu sync=%llu state=%llu diag=%llu\n", n[3], n[4], n[5], n[6], n[7], n[8]);
}

/* All that a handle without a receiver answers. */
static void try_none(void *receiver) {
  unsigned u[8];
  unsigned long long n[9];
  unsigned char byte;
  want("close of none", interlaken_dpi_close(receiver), NO_RECEIVER);
  want("feed of none", interlaken_dpi_feed(receiver, 0, 1, 1), NO_RECEIVER);
  want("finish of none", interlaken_dpi_finish(receiver, 0), NO_RECEIVER);
  want("next of none", interlaken_dpi_next(receiver, &u[0], &u[1], &u[2], &u[3], &u[4], &u[5], &n[0], &u[6], &u[7], &n[1], &n[2]), NO_RECEIVER);
  want("the event of none", (int)u[0], NONE);
  want("a byte of none", interlaken_dpi_byte(receiver, 0, &byte), NO_RECEIVER);
  no_packet(receiver, NO_RECEIVER);
  want("is_on of none", interlaken_dpi_is_on(receiver, 1, &u[0]), NO_RECEIVER);
  want("the state of none", (int)u[0], 0);
  want("is_on of none, a number that is none", interlaken_dpi_is_on(receiver, 65536, &u[0]), NO_RECEIVER);
  want("report of none", interlaken_dpi_report(receiver, 0, &n[0], &n[1], &n[2], &n[3], &n[4], &n[5], &n[6], &n[7], &n[8]), NO_RECEIVER);
  want("state of none", interlaken_dpi_lane_state(receiver, 0, &u[0]), NO_RECEIVER);
  want("plan of none", interlaken_dpi_plan(receiver, &u[0], &u[1], &u[2]), NO_RECEIVER);
  want("its numbers", u[0] == 0 && u[1] == 0 && u[2] == 0, 1);
  want("place of none", interlaken_dpi_place(receiver, 1, 0, 0, &u[0], &n[0]), NO_RECEIVER);
  want("arrival of none", interlaken_dpi_arrival(receiver, 1, 0, 0, &u[0], &n[0]), NO_RECEIVER);
}

static void try_plan(const char *plan, unsigned wanted_cause, unsigned wanted_row, unsigned wanted_key) {
  unsigned cause = 99, row = 99, key = 99;
  void *receiver = interlaken_dpi_open(plan, &cause, &row, &key);
  want("a plan that is refused", receiver != NULL, 0);
  want("its cause", (int)cause, (int)wanted_cause);
  want("its row", (int)row, (int)wanted_row);
  want("its key", (int)key, (int)wanted_key);
}

/* All that a handle without a transmitter answers. */
static void try_no_transmitter(void *transmitter) {
  struct array none = make_array(1);
  unsigned char byte;
  unsigned long long slots, n[4];
  want("close of no transmitter", interlaken_dpi_close_transmitter(transmitter), NO_TRANSMITTER);
  want("put_byte of none", interlaken_dpi_put_byte(transmitter, 1), NO_TRANSMITTER);
  want("send_packet of none", interlaken_dpi_send_packet(transmitter, 1), NO_TRANSMITTER);
  want("flow of none", interlaken_dpi_flow(transmitter, 0), NO_TRANSMITTER);
  want("local of none", interlaken_dpi_local(transmitter, 1, 0), NO_TRANSMITTER);
  want("take_byte of none", interlaken_dpi_take_byte(transmitter, 0, &byte), NO_TRANSMITTER);
  want("send_bytes of none", interlaken_dpi_send_bytes(transmitter, 1, &none, 1), NO_TRANSMITTER);
  want("sent of none", interlaken_dpi_sent(transmitter, 1, &n[0], &n[1], &n[2], &n[3]), NO_TRANSMITTER);
  want("sent of none, a number that is none", interlaken_dpi_sent(transmitter, 65536, &n[0], &n[1], &n[2], &n[3]), NO_TRANSMITTER);
  free(none.bytes);
  want("take_bits of none", interlaken_dpi_take_bits(transmitter, 0, 1, &slots), NO_TRANSMITTER);
  want("slots of none", interlaken_dpi_slots(transmitter, &slots), NO_TRANSMITTER);
  want("finish of no transmitter", interlaken_dpi_finish_packets(transmitter), NO_TRANSMITTER);
}

/* A packet byte by byte, or as an array, which may be longer. */
static void give_packet(void *transmitter, unsigned channel, unsigned length, int wanted) {
  unsigned i, more = below(3);
  struct array array;
  if (below(2) == 0) {
    for (i = 0; i < length; i++) want("put_byte", interlaken_dpi_put_byte(transmitter, (unsigned char)(length + i)), DONE);
    want("send_packet", interlaken_dpi_send_packet(transmitter, channel), wanted);
    return;
  }
  array = make_array((int)(length + more));
  for (i = 0; i < length; i++) array.bytes[i * (unsigned)array.stride] = (uint8_t)(length + i);
  if (wanted == DONE) want("an array that is too short", interlaken_dpi_send_bytes(transmitter, channel, &array, length + more + 1), BAD_LENGTH);
  want("send_bytes", interlaken_dpi_send_bytes(transmitter, channel, &array, length), wanted);
  free(array.bytes);
}

static void want_sent(void *transmitter, unsigned channel, int wanted, unsigned long long given, unsigned long long sent) {
  unsigned long long n[4] = {9, 9, 9, 9};
  want("sent", interlaken_dpi_sent(transmitter, channel, &n[0], &n[1], &n[2], &n[3]), wanted);
  want("packets that were given", (int)n[0], (int)given);
  want("packets that were sent", (int)n[1], (int)sent);
  want("bytes of them", n[2] >= n[3] && (n[2] == n[3]) == (given == sent), 1);
}

static void try_wrong_packets(void *transmitter, unsigned count) {
  unsigned long long bits;
  unsigned char byte;
  unsigned i;
  give_packet(transmitter, 1, 0, BAD_LENGTH);
  give_packet(transmitter, 9, 3, NO_CHANNEL);
  give_packet(transmitter, 65537, 3, NO_CHANNEL);
  for (i = 0; i < 262144; i++) (void)interlaken_dpi_put_byte(transmitter, 1);
  want("a byte too many", interlaken_dpi_put_byte(transmitter, 1), TOO_MANY);
  want("send_packet on no channel", interlaken_dpi_send_packet(transmitter, 3), NO_CHANNEL);
  want("local of a number that is none", interlaken_dpi_local(transmitter, 65537, 0), NO_CHANNEL);
  want("take_byte of no lane", interlaken_dpi_take_byte(transmitter, count, &byte), NO_LANE);
  want("take_bits of no lane", interlaken_dpi_take_bits(transmitter, count, 0, &bits), NO_LANE);
  want("take_bits of 65", interlaken_dpi_take_bits(transmitter, 0, 65, &bits), TOO_MANY);
  want("take_bits of none", interlaken_dpi_take_bits(transmitter, 0, 0, &bits), DONE);
}

/* The bits of a lane to the receiver, so many bytes at most, in pieces of any bits; 1 if some came. */
static int pass(void *transmitter, void *receiver, unsigned lane, unsigned most) {
  unsigned long long bits;
  unsigned char byte;
  unsigned i, count;
  for (i = 0; i < 8 * most; i += count) {
    int result;
    count = below(4) == 0 ? 8 : 1 + below(most < 2000 ? 64 : 3);
    if (count == 8) {
      result = interlaken_dpi_take_byte(transmitter, lane, &byte);
      bits = byte;
    } else {
      result = interlaken_dpi_take_bits(transmitter, lane, count, &bits);
    }
    if (result != DONE) want("take_bits", result, NO_ROOM);
    if (result != DONE) want("bits that are none", bits == 0, 1);
    if (result != DONE) break;
    want("feed", interlaken_dpi_feed(receiver, lane, bits, count), DONE);
  }
  return i > 0;
}

/* The packets that come, each as `give_packet` made it. */
static unsigned count_packets(void *receiver) {
  unsigned kind, channel, length, u[5], i, packets = 0;
  unsigned long long n[3];
  unsigned char byte;
  do {
    (void)interlaken_dpi_next(receiver, &kind, &channel, &length, &u[0], &u[1], &u[2], &n[0], &u[3], &u[4], &n[1], &n[2]);
    packets += kind == PACKET;
    for (i = 0; i < length; i++) {
      (void)interlaken_dpi_byte(receiver, i, &byte);
      want("a byte that was sent", byte, (length + i) & 255);
    }
  } while (kind != NONE && kind != ENDED);
  return packets;
}

static void try_transmitter(const char *plan, unsigned count) {
  unsigned cause, row, key, packets = 0, came = 0, lane, passed, on, channel, of_channel[2] = {0, 0};
  unsigned long long slots = 1;
  void *receiver = interlaken_dpi_open(plan, &cause, &row, &key), *transmitter = interlaken_dpi_open_transmitter("lanes,x\n", &cause, &row, &key);
  want("a refused plan of a transmitter", transmitter == NULL && cause == 4 && row == 1, 1);
  transmitter = interlaken_dpi_open_transmitter(plan, &cause, &row, &key);
  if (transmitter == NULL || receiver == NULL) exit(1);
  want("slots", interlaken_dpi_slots(transmitter, &slots), DONE);
  want("no word so far", slots == 0, 1);
  try_wrong_packets(transmitter, count);
  want_sent(transmitter, 1, DONE, 0, 0);
  want_sent(transmitter, 3, NO_CHANNEL, 0, 0);
  want_sent(transmitter, 65537, NO_CHANNEL, 0, 0);
  want("is_on before a word", interlaken_dpi_is_on(receiver, 1, &on), DONE);
  want("a channel before a word", (int)on, 1);
  want("is_on of a number that is none", interlaken_dpi_is_on(receiver, 65537, &on), NO_CHANNEL);
  want("flow", interlaken_dpi_flow(transmitter, 0), DONE);
  want("local", interlaken_dpi_local(transmitter, 1, 0), DONE);
  give_packet(transmitter, 2, 10, DONE);
  of_channel[1]++, packets++;
  want_sent(transmitter, 2, DONE, 1, 0);
  while (packets < 40) {
    if (below(3) == 0) {
      channel = below(2);
      give_packet(transmitter, 1 + channel, 1 + below(300), DONE);
      of_channel[channel]++, packets++;
    }
    lane = below(count);
    (void)pass(transmitter, receiver, lane, below(600));
    came += count_packets(receiver);
  }
  want("finish_packets", interlaken_dpi_finish_packets(transmitter), DONE);
  give_packet(transmitter, 1, 1, FINISHED);
  want("flow after the finish", interlaken_dpi_flow(transmitter, 0), FINISHED);
  do {
    for (passed = lane = 0; lane < count; lane++) {
      passed |= (unsigned)pass(transmitter, receiver, lane, 2000);
      came += count_packets(receiver);
    }
  } while (passed);
  for (lane = 0; lane < count; lane++) want("finish of a lane", interlaken_dpi_finish(receiver, lane), DONE);
  came += count_packets(receiver);
  want("packets that came back", (int)came, (int)packets);
  for (channel = 0; channel < 2; channel++) want_sent(transmitter, 1 + channel, DONE, of_channel[channel], of_channel[channel]);
  want("is_on", interlaken_dpi_is_on(receiver, 1, &on), DONE);
  want("the channel that is off", (int)on, 0);
  want("is_on", interlaken_dpi_is_on(receiver, 2, &on), DONE);
  want("the channel that is on", (int)on, 1);
  want("close of the receiver", interlaken_dpi_close(receiver), DONE);
  want("close of the transmitter", interlaken_dpi_close_transmitter(transmitter), DONE);
  try_no_transmitter(transmitter);
}

/* All that a handle without damage answers. */
static void try_no_damage(void *damage) {
  struct array array = make_array(1);
  unsigned char byte = 0;
  want("close of no damage", interlaken_dpi_close_damage(damage), NO_DAMAGE);
  want("flip of none", interlaken_dpi_flip(damage, 0, 0), NO_DAMAGE);
  want("dark of none", interlaken_dpi_dark(damage, 0, 0, 1), NO_DAMAGE);
  want("a byte of none", interlaken_dpi_damage_byte(damage, 0, 7, &byte), NO_DAMAGE);
  want("the byte of none", byte, 7);
  want("bytes of none", interlaken_dpi_damage_bytes(damage, 0, &array, 1), NO_DAMAGE);
  want("the bytes of none", array.bytes[0], 238);
  free(array.bytes);
}

/* Bytes through damage of two lanes, one by one and in arrays, beside what the rows say. */
static void try_damage(void) {
  enum { BYTES = 400 };
  uint8_t wanted[BYTES];
  void *damage = interlaken_dpi_open_damage(2);
  unsigned at, i, bit;
  want("damage of no lanes", interlaken_dpi_open_damage(0) == NULL && interlaken_dpi_open_damage(65) == NULL, 1);
  if (damage == NULL) exit(1);
  memset(wanted, 238, sizeof wanted);
  for (i = 0; i < 60; i++) {
    bit = below(8 * BYTES);
    want("flip", interlaken_dpi_flip(damage, 1, bit), DONE);
    wanted[bit / 8] ^= (uint8_t)(128 >> bit % 8);
  }
  want("dark", interlaken_dpi_dark(damage, 1, 800, 80), DONE);
  memset(wanted + 100, 0, 10);
  for (at = 0; at < BYTES; at += i) {
    unsigned count = 1 + below(9);
    struct array array = make_array((int)count);
    unsigned char byte;
    if (count > BYTES - at) count = BYTES - at;
    if (count == 1) {
      want("damage_byte", interlaken_dpi_damage_byte(damage, 1, 238, &byte), DONE);
      want("a damaged byte", byte, wanted[at]);
    } else {
      want("damage_bytes", interlaken_dpi_damage_bytes(damage, 1, &array, count), DONE);
      for (i = 0; i < count; i++) want("a damaged byte of an array", array.bytes[i * (unsigned)array.stride], wanted[at + i]);
    }
    want("damage_bytes of a short array", interlaken_dpi_damage_bytes(damage, 0, &array, (unsigned)array.count + 1), TOO_MANY);
    free(array.bytes);
    i = count;
  }
  want("a bit that has passed", interlaken_dpi_flip(damage, 1, 8 * BYTES - 1), PASSED);
  want("bits that have passed", interlaken_dpi_dark(damage, 1, 0, 9), PASSED);
  want("a bit of the other lane", interlaken_dpi_flip(damage, 0, 0), DONE);
  want("a bit out of range", interlaken_dpi_flip(damage, 0, 1ull << 44), OUT_OF_RANGE);
  want("flip of no lane", interlaken_dpi_flip(damage, 2, 0), NO_LANE);
  want("close_damage", interlaken_dpi_close_damage(damage), DONE);
  try_no_damage(damage);
}

static int report_of(void *inspector, unsigned lane, unsigned long long *n) {
  return interlaken_dpi_inspector_report(inspector, lane, &n[0], &n[1], &n[2], &n[3], &n[4], &n[5], &n[6], &n[7], &n[8]);
}

/* All that a handle without an inspector answers. */
static void try_no_inspector(void *inspector) {
  struct array array = make_array(1);
  unsigned kind = 9, lane = 9, taken = 9;
  unsigned long long n[9];
  want("close of no inspector", interlaken_dpi_close_inspector(inspector), NO_INSPECTOR);
  want("bits of none", interlaken_dpi_inspect_bits(inspector, 0, 1, 65), NO_INSPECTOR);
  want("bytes of none", interlaken_dpi_inspect_bytes(inspector, 0, &array, 1, &taken), NO_INSPECTOR);
  want("taken by none", (int)taken, 0);
  want("finish of none", interlaken_dpi_finish_inspection(inspector, 0), NO_INSPECTOR);
  want("an event of none", interlaken_dpi_next_lane_event(inspector, &kind, &lane, &n[0]), NO_INSPECTOR);
  want("the event of none", kind == 0 && lane == 0 && n[0] == 0, 1);
  want("report of none", report_of(inspector, 0, n), NO_INSPECTOR);
  free(array.bytes);
}

/* Prints the events that are due, each after its last bit, and none later than the last byte of its word allows. */
static void show_events(void *inspector, const struct file *lanes, unsigned count) {
  static size_t seen[64];
  unsigned kind, lane;
  unsigned long long bit;
  for (;;) {
    want("next_lane_event", interlaken_dpi_next_lane_event(inspector, &kind, &lane, &bit), DONE);
    if (kind == 0) break;
    want("an event before its word", bit + 67 <= lanes[lane].fed, 1);
    want("an event that was due before", bit + 67 <= seen[lane], 0);
    printf("shows %u %llu %u\n", lane, bit, kind);
  }
  for (lane = 0; lane < count; lane++) seen[lane] = lanes[lane].fed / 8 * 8;
}

/* The next bytes of a lane, as an array; 1 if all were taken. */
static int inspect_array(void *inspector, struct file *file, unsigned lane, unsigned count) {
  struct array array = make_array((int)count);
  unsigned long long bits;
  unsigned i, taken;
  for (i = 0; i < count; i++, file->fed += 8) {
    (void)piece(file, 8, &bits);
    array.bytes[i * (unsigned)array.stride] = (uint8_t)bits;
  }
  want("an array that is too short", interlaken_dpi_inspect_bytes(inspector, lane, &array, count + 1, &taken) == TOO_MANY || taken == 0, 1);
  want("inspect_bytes", interlaken_dpi_inspect_bytes(inspector, lane, &array, count, &taken), DONE);
  file->fed -= 8 * (count - taken);
  free(array.bytes);
  return taken == count;
}

/* Bits or bytes of a lane up to its end, or up to events, which are taken now or later; 1 if the lane is finished. */
static int inspect_some(void *inspector, struct file *file, unsigned lane) {
  unsigned long long bits;
  unsigned most = 1 + below(64), pieces = below(300), length;
  int result = DONE;
  while (result == DONE && pieces-- > 0 && file->fed < file->bits) {
    if (below(4) == 0 && file->bits - file->fed >= 8 * most) result = inspect_array(inspector, file, lane, most) ? DONE : NO_ROOM;
    else {
      length = piece(file, 1 + below(most), &bits);
      result = interlaken_dpi_inspect_bits(inspector, lane, bits, length);
      if (result == DONE) file->fed += length;
      else want("inspect_bits", result, NO_ROOM);
    }
  }
  if (result != DONE || file->fed < file->bits) return 0;
  result = interlaken_dpi_finish_inspection(inspector, lane);
  if (result != NO_ROOM) want("finish_inspection", result, DONE);
  return result == DONE;
}

/* Lanes through an inspector, in drawn pieces and orders. */
static void try_inspector(const char *plan, const struct file *lanes, unsigned count) {
  static struct file own[64];
  unsigned cause, row, key, left = count, lane;
  unsigned long long n[9];
  void *inspector = interlaken_dpi_open_inspector("lanes,x\n", &cause, &row, &key);
  want("a refused plan of an inspector", inspector == NULL && cause == 4 && row == 1, 1);
  inspector = interlaken_dpi_open_inspector(plan, &cause, &row, &key);
  if (inspector == NULL) exit(1);
  memcpy(own, lanes, count * sizeof *own);
  want("bits of no lane", interlaken_dpi_inspect_bits(inspector, count, 1, 1), NO_LANE);
  want("65 bits", interlaken_dpi_inspect_bits(inspector, 0, 1, 65), TOO_MANY);
  want("finish of no lane", interlaken_dpi_finish_inspection(inspector, ~0u), NO_LANE);
  want("report of no lane", report_of(inspector, count, n), NO_LANE);
  while (left > 0) {
    lane = below(count);
    if (!own[lane].over) left -= (unsigned)(own[lane].over = inspect_some(inspector, &own[lane], lane));
    if (below(3) == 0) show_events(inspector, own, count);
  }
  show_events(inspector, own, count);
  want("bits of a finished lane", interlaken_dpi_inspect_bits(inspector, 0, 1, 1), FINISHED);
  want("finish of a finished lane", interlaken_dpi_finish_inspection(inspector, 0), FINISHED);
  for (lane = 0; lane < count; lane++) {
    want("inspector_report", report_of(inspector, lane, n), DONE);
    printf("inspected %u locks=%llu lost=%llu unframed=%llu ", lane, n[0], n[3], n[4]);
    printf("bad=%llu sync=%llu state=%llu diag=%llu\n", n[5], n[6], n[7], n[8]);
  }
  want("close_inspector", interlaken_dpi_close_inspector(inspector), DONE);
  try_no_inspector(inspector);
}

static int gatherer_report(void *gatherer, unsigned lane, unsigned long long *n) {
  return interlaken_dpi_gatherer_report(gatherer, lane, &n[0], &n[1], &n[2], &n[3], &n[4], &n[5], &n[6], &n[7], &n[8]);
}

static int next_gathered(void *gatherer, unsigned *u, unsigned long long *n) {
  return interlaken_dpi_next_gathered(gatherer, &u[0], &u[1], &u[2], &u[3], &u[4], &u[5], &n[0], &n[1], &n[2], &n[3]);
}

/* All that a handle without a gatherer answers. */
static void try_no_gatherer(void *gatherer) {
  unsigned u[6] = {9, 9, 9, 9, 9, 9};
  unsigned long long n[9] = {9, 9, 9, 9};
  want("close of no gatherer", interlaken_dpi_close_gatherer(gatherer), NO_GATHERER);
  want("bits of no gatherer", interlaken_dpi_gather_bits(gatherer, 0, 1, 1), NO_GATHERER);
  want("finish of no gatherer", interlaken_dpi_finish_gathering(gatherer, 0), NO_GATHERER);
  want("a word of no gatherer", next_gathered(gatherer, u, n), NO_GATHERER);
  want("the word of none", u[0] == 0 && u[2] == 0 && u[4] == 0 && n[0] == 0 && n[3] == 0, 1);
  want("report of no gatherer", gatherer_report(gatherer, 0, n), NO_GATHERER);
}

/* Prints the words and breaks that there are; 1 if the end is among them. */
static int show_gathered(void *gatherer) {
  unsigned u[6];
  unsigned long long n[4];
  for (;;) {
    want("next_gathered", next_gathered(gatherer, u, n), DONE);
    want("the place", (int)u[4], u[0] == 1 || u[0] == 2);
    if (u[0] == 0 || u[0] == 3) return u[0] == 3;
    printf("gathered %u %u %u %u %llu %u %llu %llu %llx\n", u[0], u[1], u[2], u[3], n[0], u[5], n[1], n[2], n[3]);
  }
}

/* Bits of a lane up to its end, or as long as there is room; 1 if the lane is finished. */
static int gather_some(void *gatherer, struct file *file, unsigned lane) {
  unsigned long long bits;
  unsigned most = 1 + below(64), pieces = below(1500), length;
  int result = DONE;
  while (result == DONE && pieces-- > 0 && file->fed < file->bits) {
    length = piece(file, 1 + below(most), &bits);
    result = interlaken_dpi_gather_bits(gatherer, lane, bits, length);
    if (result == DONE) file->fed += length;
    else want("gather_bits", result, NO_ROOM), puts("no room of a gatherer");
  }
  if (result != DONE || file->fed < file->bits) return 0;
  result = interlaken_dpi_finish_gathering(gatherer, lane);
  if (result != NO_ROOM) want("finish_gathering", result, DONE);
  return result == DONE;
}

/* Lanes through a gatherer, in drawn pieces and orders. */
static void try_gatherer(const char *plan, const struct file *lanes, unsigned count) {
  static struct file own[64];
  unsigned cause, row, key, lane;
  unsigned long long n[9];
  void *gatherer = interlaken_dpi_open_gatherer("lanes,x\n", &cause, &row, &key);
  want("a refused plan of a gatherer", gatherer == NULL && cause == 4 && row == 1, 1);
  gatherer = interlaken_dpi_open_gatherer(plan, &cause, &row, &key);
  if (gatherer == NULL) exit(1);
  memcpy(own, lanes, count * sizeof *own);
  want("bits of no lane to gather", interlaken_dpi_gather_bits(gatherer, count, 1, 1), NO_LANE);
  want("65 bits to gather", interlaken_dpi_gather_bits(gatherer, 0, 1, 65), TOO_MANY);
  want("finish of no lane to gather", interlaken_dpi_finish_gathering(gatherer, ~0u), NO_LANE);
  want("report of no lane to gather", gatherer_report(gatherer, count, n), NO_LANE);
  while (!show_gathered(gatherer)) {
    lane = below(count);
    if (!own[lane].over) own[lane].over = gather_some(gatherer, &own[lane], lane);
  }
  want("a second end", show_gathered(gatherer), 0);
  want("bits of a finished lane to gather", interlaken_dpi_gather_bits(gatherer, 0, 1, 1), FINISHED);
  want("finish of a finished lane to gather", interlaken_dpi_finish_gathering(gatherer, 0), FINISHED);
  for (lane = 0; lane < count; lane++) {
    want("gatherer_report", gatherer_report(gatherer, lane, n), DONE);
    printf("reported %u locks=%llu lost=%llu unframed=%llu ", lane, n[0], n[3], n[4]);
    printf("bad=%llu sync=%llu state=%llu diag=%llu\n", n[5], n[6], n[7], n[8]);
  }
  want("close_gatherer", interlaken_dpi_close_gatherer(gatherer), DONE);
  try_no_gatherer(gatherer);
}

/* All that a handle without a checker answers. */
static void try_no_checker(void *checker) {
  unsigned u[3] = {9, 9, 9};
  unsigned long long number = 9;
  want("close of no checker", interlaken_dpi_close_checker(checker), NO_CHECKER);
  want("a word of none", interlaken_dpi_check_word(checker, 0, 1), NO_CHECKER);
  want("flow of none", interlaken_dpi_check_flow(checker, 1), NO_CHECKER);
  want("finish of no checker", interlaken_dpi_finish_words(checker), NO_CHECKER);
  want("a fault of none", interlaken_dpi_next_fault(checker, &u[0], &u[1], &u[2], &number), NO_CHECKER);
  want("the fault of none", u[0] == 0 && u[1] == 0 && u[2] == 0 && number == 0, 1);
}

/* Takes the faults that are due, and prints them if they have a name; the rule and the channel of the last. */
static unsigned take_faults(void *checker, const char *name, unsigned *channel) {
  unsigned rule, has_channel, of_last = 0, found;
  unsigned long long number;
  for (;; of_last = rule, *channel = found) {
    want("next_fault", interlaken_dpi_next_fault(checker, &rule, &has_channel, &found, &number), DONE);
    if (rule == 0) return of_last;
    if (name != NULL) printf("%s %llu %u %s%u\n", name, number, rule, has_channel ? "" : "-", found);
  }
}

/* The words of a file, and then a burst word on a channel that is off. */
static void try_checker(const char *plan, const struct file *words) {
  unsigned cause, row, key, channel = 0;
  size_t at;
  unsigned long long number, i;
  void *checker = interlaken_dpi_open_checker("lanes,x\n", &cause, &row, &key);
  want("a refused plan of a checker", checker == NULL && cause == 4 && row == 1, 1);
  checker = interlaken_dpi_open_checker(plan, &cause, &row, &key);
  if (checker == NULL) exit(1);
  want("a kind of word that is none", interlaken_dpi_check_word(checker, 4, 0), OUT_OF_RANGE);
  for (at = 0; at + 9 <= words->bits / 8; at += 9) {
    int result;
    for (number = i = 0; i < 8; i++) number = number << 8 | words->at[at + 1 + i];
    result = interlaken_dpi_check_word(checker, words->at[at], number);
    if (result == WAITING) {
      want("flow while faults are due", interlaken_dpi_check_flow(checker, 0), WAITING);
      want("faults that are due", take_faults(checker, "fault", &channel) != 0, 1);
      result = interlaken_dpi_check_word(checker, words->at[at], number);
    }
    want("check_word", result, DONE);
    if (below(2) == 0) (void)take_faults(checker, "fault", &channel);
  }
  (void)take_faults(checker, "fault", &channel);
  want("check_flow", interlaken_dpi_check_flow(checker, 0x8100000000000000u), DONE);
  want("a burst word", interlaken_dpi_check_word(checker, 2, 0xe1ffff0100000000u), DONE);
  want("the rule of channels that are off", (int)take_faults(checker, NULL, &channel), 19);
  want("the channel that is off", (int)channel, 1);
  want("finish_words", interlaken_dpi_finish_words(checker), DONE);
  want("a word after the last", interlaken_dpi_check_word(checker, 1, 0), FINISHED);
  want("close_checker", interlaken_dpi_close_checker(checker), DONE);
  try_no_checker(checker);
}

int main(int argc, char **argv) {
  static struct file lanes[64], plan, words;
  unsigned count = (unsigned)argc - 4, cause, row, key, i;
  unsigned long long bits, n;
  unsigned state;
  void *receiver;
  if (argc < 5) return 2;
  drawn = strtoull(argv[2], NULL, 10) * 2654435761u + 88172645463325252u;
  plan = load(argv[1]);
  words = load(argv[3]);
  for (i = 0; i < count; i++) lanes[i] = load(argv[i + 4]);
  try_none(NULL);
  try_no_transmitter(NULL);
  try_no_damage(NULL);
  try_no_inspector(NULL);
  try_no_checker(NULL);
  try_no_gatherer(NULL);
  try_damage();
  try_inspector((const char *)plan.at, lanes, count);
  try_gatherer((const char *)plan.at, lanes, count);
  try_checker((const char *)plan.at, &words);
  try_transmitter((const char *)plan.at, count);
  try_plan("lanes,2\nlanes,3\n", 6, 2, 0);
  try_plan("lanes,2\n", 7, 0, 2);
  receiver = interlaken_dpi_open((const char *)plan.at, &cause, &row, &key);
  if (receiver == NULL) return 1;
  want("the cause of none", (int)cause, 0);
  want("feed of no lane", interlaken_dpi_feed(receiver, count, 1, 1), NO_LANE);
  want("finish of no lane", interlaken_dpi_finish(receiver, ~0u), NO_LANE);
  want("state of no lane", interlaken_dpi_lane_state(receiver, count, &state), NO_LANE);
  want("no place", interlaken_dpi_place(receiver, 0, 0, 0, &state, &n), OUT_OF_RANGE);
  want("a place", interlaken_dpi_place(receiver, 1, count, 9, &state, &n), DONE);
  want("its lane", (int)state, 0);
  want("an arrival before locks", interlaken_dpi_arrival(receiver, 1, count + 1, 9, &state, &n), DONE);
  want("its lane", (int)state, 1);
  want("report of no lane", interlaken_dpi_report(receiver, count, &n, &n, &n, &n, &n, &n, &n, &n, &n), NO_LANE);
  want("feed of 65 bits", interlaken_dpi_feed(receiver, 0, 1, 65), TOO_MANY);
  want("feed of no bits", interlaken_dpi_feed(receiver, 0, 1, 0), DONE);
  while (!take(receiver)) {
    /* Many pieces of one lane, so that some find no room. */
    unsigned lane = below(count), most = 1 + below(64), pieces = below(1500);
    while (pieces-- > 0) {
      unsigned length = piece(&lanes[lane], 1 + below(most), &bits);
      int result;
      if (length == 0) {
        result = interlaken_dpi_finish(receiver, lane);
        if (lanes[lane].over) want("finish of a finished lane", result, FINISHED);
        else if (result != NO_ROOM) want("finish", result, DONE);
        lanes[lane].over |= result == DONE;
        if (lanes[lane].over) want("feed of a finished lane", interlaken_dpi_feed(receiver, lane, 1, 1), FINISHED);
        break;
      }
      result = interlaken_dpi_feed(receiver, lane, bits, length);
      if (result == DONE) lanes[lane].fed += length;
      else {
        want("feed", result, NO_ROOM);
        puts("no room");
        break;
      }
    }
  }
  for (i = 0; i < count; i++) print_lane(receiver, i);
  want("close", interlaken_dpi_close(receiver), DONE);
  try_none(receiver);
  for (i = 0; i < count; i++) free(lanes[i].at);
  free(plan.at);
  free(words.at);
  return 0;
}
