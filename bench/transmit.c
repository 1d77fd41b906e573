/* Sends the packets of a capture by the C library on channel 0, and takes the lanes in pieces of a given size, a piece of each lane in
 * turn. Packets are given as they are sent, so that few wait.
 *
 *     transmit PLAN CAPTURE LANES PIECE
 *
 * The capture is a classic one, of this machine's byte order. It prints the packets, the bytes of all lanes, and the calls of the library. */
#include "interlaken.h"
#include <stdio.h>
#include <stdlib.h>
#include <string.h>

/* So many bytes of packets wait to be sent, if there are some. */
#define WAITING 65536

static uint8_t *load(const char *name, size_t *count) {
  FILE *in = fopen(name, "rb");
  uint8_t *at;
  if (in == NULL) exit(2);
  fseek(in, 0, SEEK_END);
  *count = (size_t)ftell(in);
  rewind(in);
  at = malloc(*count + 1);
  if (at == NULL || fread(at, 1, *count, in) != *count) exit(2);
  fclose(in);
  return at;
}

int main(int argc, char **argv) {
  static uint8_t bytes[1 << 16];
  interlaken_transmitter transmitter = {0};
  interlaken_refusal refusal;
  interlaken_counts counts = {0, 0, 0, 0};
  size_t plan_count, count, at = 24, piece, taken, most;
  uint8_t *plan, *capture;
  uint32_t lanes, lane, length;
  unsigned long long made = 0, calls = 0;
  if (argc != 5) return 2;
  plan = load(argv[1], &plan_count);
  capture = load(argv[2], &count);
  lanes = (uint32_t)atoi(argv[3]);
  piece = strtoul(argv[4], NULL, 10);
  if (piece > sizeof bytes) return 2;
  if (interlaken_transmitter_new(&transmitter, plan, plan_count, &refusal) != INTERLAKEN_DONE) return 1;
  do {
    while (at < count && counts.bytes_given - counts.bytes_sent < WAITING) {
      memcpy(&length, capture + at + 8, sizeof length);
      if (interlaken_transmitter_packet(&transmitter, 0, capture + at + 16, length) != INTERLAKEN_DONE) return 1;
      at += 16 + length;
      counts.bytes_given += length;
      calls++;
    }
    if (at >= count) calls++, interlaken_transmitter_finish(&transmitter);
    most = 0;
    for (lane = 0; lane < lanes; lane++) {
      if (interlaken_transmitter_take(&transmitter, lane, bytes, piece, &taken) != INTERLAKEN_DONE) return 1;
      made += taken;
      calls++;
      if (taken > most) most = taken;
    }
    if (at < count) calls++, interlaken_transmitter_sent(&transmitter, 0, &counts);
  } while (most > 0);
  interlaken_transmitter_sent(&transmitter, 0, &counts);
  printf("packets %llu bytes %llu calls %llu\n", (unsigned long long)counts.packets_sent, made, calls);
  interlaken_transmitter_free(&transmitter);
  return 0;
}
