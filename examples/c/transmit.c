/* Sends packets on the lanes of a link, as the command `send` does, by the library.
 *
 *     transmit PLAN OUT [CHANNEL CAPTURE]..
 *
 * PLAN is a plan file, and the packets of each CAPTURE are sent on its CHANNEL. It writes the lanes to OUT.lane.0, OUT.lane.1, .. and
 * prints the lines that `send` prints. */
#include "files.h"

#define PIECE 4096

/* The next bytes of a lane to its file: 1 if there were some. */
static int take_lane(interlaken_transmitter *transmitter, uint32_t lane, FILE *out) {
  uint8_t piece[PIECE];
  size_t taken;
  must("take", interlaken_transmitter_take(transmitter, lane, piece, sizeof piece, &taken));
  fwrite(piece, 1, taken, out);
  return taken != 0;
}

/* Takes the lanes in turn. One that gives nothing may wait for the others; the end is a turn in which none gives a byte. */
static void take_all(interlaken_transmitter *transmitter, uint32_t count, FILE *const *out) {
  int came = 1;
  while (came) {
    came = 0;
    for (uint32_t lane = 0; lane < count; lane++) came |= take_lane(transmitter, lane, out[lane]);
  }
}

static void print_sent(interlaken_transmitter *transmitter, uint16_t channel) {
  interlaken_counts counts;
  must("sent", interlaken_transmitter_sent(transmitter, channel, &counts));
  printf("sent channel=%u packets=%" PRIu64 " bytes=%" PRIu64 " left=%" PRIu64 "\n", (unsigned)channel, counts.packets_sent,
         counts.bytes_sent, counts.packets_given - counts.packets_sent);
}

int main(int argc, char **argv) {
  interlaken_transmitter transmitter = {0};
  interlaken_refusal why;
  FILE *out[LANES];
  uint64_t slots;
  struct bytes plan;
  uint32_t count;
  if (argc < 3 || argc % 2 == 0) {
    fprintf(stderr, "usage: transmit PLAN OUT [CHANNEL CAPTURE]..\n");
    return 2;
  }
  plan = load(argv[1]);
  must_open(argv[1], interlaken_transmitter_new(&transmitter, plan.at, plan.count, &why), &why);
  free(plan.at);
  for (int i = 3; i < argc; i += 2) give_packets(&transmitter, channel_of(argv[i]), argv[i + 1]);
  /* No packet follows. What a far end turns off from now on is not heard: a link with flow control is in loop.c. */
  must("finish", interlaken_transmitter_finish(&transmitter));
  count = count_lanes(&transmitter);
  for (uint32_t lane = 0; lane < count; lane++) out[lane] = create(argv[2], "lane", lane);
  take_all(&transmitter, count, out);
  for (uint32_t lane = 0; lane < count; lane++) finish_file(out[lane], argv[2]);
  for (int i = 3; i < argc; i += 2) print_sent(&transmitter, channel_of(argv[i]));
  must("slots", interlaken_transmitter_slots(&transmitter, &slots));
  printf("slots %" PRIu64 "\n", slots);
  must("free", interlaken_transmitter_free(&transmitter));
  return 0;
}
