/* What the programs of this folder share: the end at a call that fails, whole files, and captures. */
#ifndef FILES_H
#define FILES_H

#include "interlaken.h"
#include "interlaken_text.h"
#include <inttypes.h>
#include <stdio.h>
#include <stdlib.h>
#include <string.h>

#define LANES 64 /* the most of a link */

struct bytes {
  uint8_t *at;
  size_t count;
};

/* Ends the program with one line. */
static inline void fail(const char *what, const char *why) {
  fprintf(stderr, "%s: %s\n", what, why);
  exit(1);
}

/* Ends the program if a call did not do what it was asked. */
static inline void must(const char *call, uint32_t result) {
  if (result != INTERLAKEN_DONE) fail(call, interlaken_result_text(result));
}

/* Ends the program if `new` opened nothing, with what is wrong with the plan. */
static inline void must_open(const char *plan, uint32_t result, const interlaken_refusal *why) {
  if (result != INTERLAKEN_BAD_PLAN) must(plan, result);
  else if (why->key != INTERLAKEN_NO_KEY) fprintf(stderr, "%s: missing %s\n", plan, interlaken_key_text(why->key)), exit(1);
  else fprintf(stderr, "%s: row %" PRIu32 ": %s\n", plan, why->row, interlaken_cause_text(why->cause)), exit(1);
}

/* Reads a file whole. */
static inline struct bytes load(const char *name) {
  struct bytes file = {NULL, 0};
  FILE *in = fopen(name, "rb");
  long size = -1;
  if (in == NULL || fseek(in, 0, SEEK_END) != 0 || (size = ftell(in)) < 0) fail(name, "not read");
  rewind(in);
  file.count = (size_t)size;
  file.at = (uint8_t *)malloc(file.count + 1);
  if (file.at == NULL || fread(file.at, 1, file.count, in) != file.count) fail(name, "not read");
  fclose(in);
  file.at[file.count] = 0;
  return file;
}

/* Reads the file of a lane whole. */
static inline struct bytes load_lane(const char *prefix, uint32_t number) {
  char name[4096];
  snprintf(name, sizeof name, "%s.lane.%" PRIu32, prefix, number);
  return load(name);
}

/* Creates the file PREFIX.MIDDLE.NUMBER, or PREFIX.NUMBER.pcap if there is no middle. */
static inline FILE *create(const char *prefix, const char *middle, uint32_t number) {
  char name[4096];
  FILE *file;
  snprintf(name, sizeof name, middle != NULL ? "%s.%s.%" PRIu32 : "%s%.0s.%" PRIu32 ".pcap", prefix, middle != NULL ? middle : "", number);
  file = fopen(name, "wb");
  if (file == NULL) fail(name, "not written");
  return file;
}

static inline void finish_file(FILE *file, const char *name) {
  int failed = ferror(file);
  if (fclose(file) != 0 || failed) fail(name, "not written");
}

static inline void put_u32(FILE *out, uint32_t n) {
  fputc((int)(n & 255), out), fputc((int)(n >> 8 & 255), out), fputc((int)(n >> 16 & 255), out), fputc((int)(n >> 24), out);
}

/* The header of a capture. */
static inline void put_header(FILE *out, uint32_t link_type) {
  put_u32(out, 0xa1b2c3d4), put_u32(out, 2 | 4 << 16), put_u32(out, 0), put_u32(out, 0), put_u32(out, 262144), put_u32(out, link_type);
}

/* The header of a packet of a capture; its bytes follow. */
static inline void put_record(FILE *out, uint32_t length) {
  put_u32(out, 0), put_u32(out, 0), put_u32(out, length), put_u32(out, length);
}

/* The next packet of a capture from `at` on, which begins at 0: NULL at the end. */
static inline const uint8_t *next_packet(const struct bytes *capture, size_t *at, size_t *length) {
  const uint8_t *from = capture->at;
  int high = capture->count >= 4 && from[0] == 0xa1; /* whether numbers have their high byte first */
  size_t head = *at == 0 ? 24 : *at, place, byte;
  if (capture->count < head + 16) return NULL;
  for (*length = 0, place = 0; place < 4; place++) {
    byte = head + 8 + (high ? place : 3 - place);
    *length = *length << 8 | from[byte];
  }
  if (capture->count - head - 16 < *length) fail("capture", "it ends within a packet");
  *at = head + 16 + *length;
  return from + head + 16;
}

/* A word of the command line that is a channel. */
static inline uint16_t channel_of(const char *word) {
  char *end;
  unsigned long number = strtoul(word, &end, 10);
  if (*end != 0 || end == word || number > 65535) fail(word, "no channel");
  return (uint16_t)number;
}

/* Gives a transmitter the packets of a capture. */
static inline void give_packets(interlaken_transmitter *transmitter, uint16_t channel, const char *name) {
  struct bytes capture = load(name);
  const uint8_t *packet;
  size_t at = 0, length;
  while ((packet = next_packet(&capture, &at, &length)) != NULL) {
    must(name, interlaken_transmitter_packet(transmitter, channel, packet, length));
  }
  free(capture.at);
}

/* How many lanes a transmitter has. No byte is taken, so no word is made. */
static inline uint32_t count_lanes(interlaken_transmitter *transmitter) {
  uint8_t none[1];
  size_t taken;
  uint32_t count = 0;
  while (count < LANES && interlaken_transmitter_take(transmitter, count, none, 0, &taken) == INTERLAKEN_DONE) count++;
  return count;
}

#endif
