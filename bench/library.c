/* Receives the lanes of a link by the C library, in pieces of a given size, each lane in turn, and reads each packet.
 *
 *     library PLAN PREFIX LANES PIECE
 *
 * It prints the packets, their bytes, and the calls of the library. */
#include "interlaken.h"
#include <stdio.h>
#include <stdlib.h>

struct lane {
  uint8_t *at;
  size_t count, fed;
  int over;
};

static struct lane load(const char *name) {
  struct lane lane = {NULL, 0, 0, 0};
  FILE *in = fopen(name, "rb");
  if (in == NULL) exit(2);
  fseek(in, 0, SEEK_END);
  lane.count = (size_t)ftell(in);
  rewind(in);
  lane.at = malloc(lane.count + 1);
  if (lane.at == NULL || fread(lane.at, 1, lane.count, in) != lane.count) exit(2);
  fclose(in);
  return lane;
}

int main(int argc, char **argv) {
  static struct lane lanes[64];
  static uint8_t packet[262144];
  interlaken_receiver receiver = {0};
  interlaken_refusal refusal;
  interlaken_event event;
  struct lane plan;
  uint32_t count, i;
  size_t piece, taken;
  unsigned long long packets = 0, bytes = 0, calls = 0;
  if (argc != 5) return 2;
  plan = load(argv[1]);
  count = (uint32_t)atoi(argv[3]);
  piece = strtoul(argv[4], NULL, 10);
  for (i = 0; i < count; i++) {
    char name[4096];
    snprintf(name, sizeof name, "%s.lane.%u", argv[2], (unsigned)i);
    lanes[i] = load(name);
  }
  if (interlaken_receiver_new(&receiver, plan.at, plan.count, &refusal) != INTERLAKEN_DONE) return 1;
  do {
    if (interlaken_receiver_next(&receiver, &event) != INTERLAKEN_DONE) return 1;
    calls++;
    if (event.kind == INTERLAKEN_PACKET) {
      interlaken_receiver_read(&receiver, 0, packet, sizeof packet, &taken);
      calls++, packets++, bytes += taken;
    }
    for (i = 0; event.kind == INTERLAKEN_NONE && i < count; i++) {
      size_t left = lanes[i].count - lanes[i].fed;
      if (lanes[i].over) continue;
      if (left == 0) lanes[i].over = interlaken_receiver_finish(&receiver, i) == INTERLAKEN_DONE;
      else if (interlaken_receiver_feed(&receiver, i, lanes[i].at + lanes[i].fed, left < piece ? left : piece, &taken) == INTERLAKEN_DONE) {
        lanes[i].fed += taken;
      }
      calls++;
    }
  } while (event.kind != INTERLAKEN_ENDED);
  printf("packets %llu bytes %llu calls %llu\n", packets, bytes, calls);
  interlaken_receiver_free(&receiver);
  return 0;
}
