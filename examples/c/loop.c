/* Two ends of a link in a loop, with flow control between them.
 *
 *     loop PLAN OUT BIT [CHANNEL CAPTURE]..
 *
 * The near end sends the packets of each CAPTURE on its CHANNEL. The far end writes them to OUT.CHANNEL.pcap. At each packet it
 * turns the channel off, for a while. Bit number BIT of lane 0 is inverted on its way in both directions; with `-` none is. It prints
 * what arrived, how many fault spans each end saw, and how often a channel was turned off. */
#include "files.h"

#define CHANNELS 65536
#define PIECE 64  /* bytes of each lane that pass in a turn */
#define OFF 100   /* turns for which a channel is off */

/* One end, and the way of its lanes to the other end. */
struct end {
  interlaken_transmitter transmitter;
  interlaken_receiver receiver;
  interlaken_damage way;
  unsigned spans;
};

struct channel {
  FILE *out;
  unsigned packets, bytes, left; /* left: turns until it is turned on; 0 if it is on */
};

static struct channel channels[CHANNELS];
static unsigned turned_off;

static void open_end(struct end *end, const char *name, const struct bytes *plan, const char *bit) {
  interlaken_refusal why;
  must_open(name, interlaken_transmitter_new(&end->transmitter, plan->at, plan->count, &why), &why);
  must_open(name, interlaken_receiver_new(&end->receiver, plan->at, plan->count, &why), &why);
  must("damage", interlaken_damage_new(&end->way, count_lanes(&end->transmitter)));
  if (strcmp(bit, "-") != 0) must("flip", interlaken_damage_flip(&end->way, 0, strtoull(bit, NULL, 10)));
}

static void close_end(struct end *end) {
  must("free", interlaken_transmitter_free(&end->transmitter));
  must("free", interlaken_receiver_free(&end->receiver));
  must("free", interlaken_damage_free(&end->way));
}

/* Gives the packets of a channel, and creates its capture. */
static void open_channel(struct end *near, const char *out, uint16_t number, const char *capture) {
  give_packets(&near->transmitter, number, capture);
  channels[number].out = create(out, NULL, number);
  put_header(channels[number].out, 1);
}

/* The next bytes of each lane from one end to the other: 0 if there were none of any lane, so that the transmitter has ended. */
static size_t pass(struct end *from, struct end *to, uint32_t lanes) {
  uint8_t piece[PIECE];
  size_t came, taken, all = 0;
  for (uint32_t lane = 0; lane < lanes; lane++) {
    must("take", interlaken_transmitter_take(&from->transmitter, lane, piece, sizeof piece, &came));
    must("apply", interlaken_damage_apply(&from->way, lane, piece, came));
    must("feed", interlaken_receiver_feed(&to->receiver, lane, piece, came, &taken));
    if (taken != came) fail("feed", "a lane is too far ahead");
    all += came;
  }
  return all;
}

/* What the near end hears: each control word, and 0 for a fault span, in which words may be missing. */
static void hear(struct end *near, uint32_t finished) {
  interlaken_event event;
  do {
    must("next", interlaken_receiver_next(&near->receiver, &event));
    near->spans += event.kind == INTERLAKEN_SPAN;
    if (finished) continue;
    if (event.kind == INTERLAKEN_FLOW) must("flow", interlaken_transmitter_flow(&near->transmitter, event.word));
    if (event.kind == INTERLAKEN_SPAN) must("flow", interlaken_transmitter_flow(&near->transmitter, 0));
  } while (event.kind != INTERLAKEN_NONE && event.kind != INTERLAKEN_ENDED);
}

static void keep_packet(struct end *far, const interlaken_event *event) {
  static uint8_t bytes[262144];
  struct channel *channel = &channels[event->channel];
  size_t copied;
  must("read", interlaken_receiver_read(&far->receiver, 0, bytes, sizeof bytes, &copied));
  if (channel->out == NULL) fail("packet", "on a channel without a capture");
  put_record(channel->out, event->length);
  fwrite(bytes, 1, copied, channel->out);
  channel->packets++, channel->bytes += event->length;
  turned_off += channel->left == 0;
  channel->left = OFF;
  must("local", interlaken_transmitter_local(&far->transmitter, (uint16_t)event->channel, 0));
}

/* What arrives at the far end. */
static void receive(struct end *far) {
  interlaken_event event;
  do {
    must("next", interlaken_receiver_next(&far->receiver, &event));
    far->spans += event.kind == INTERLAKEN_SPAN;
    if (event.kind == INTERLAKEN_PACKET) keep_packet(far, &event);
  } while (event.kind != INTERLAKEN_NONE && event.kind != INTERLAKEN_ENDED);
}

/* Turns channels on in time. */
static void turn_on(struct end *far) {
  for (uint32_t number = 0; number < CHANNELS; number++) {
    if (channels[number].left == 0 || --channels[number].left != 0) continue;
    must("local", interlaken_transmitter_local(&far->transmitter, (uint16_t)number, 1));
  }
}

/* Whether all packets of these channels are sent. */
static int all_sent(struct end *near, char **words) {
  for (interlaken_counts counts; *words != NULL; words += 2) {
    must("sent", interlaken_transmitter_sent(&near->transmitter, channel_of(*words), &counts));
    if (counts.packets_sent < counts.packets_given) return 0;
  }
  return 1;
}

int main(int argc, char **argv) {
  static struct end near, far;
  struct bytes plan;
  uint32_t lanes, finished = 0;
  if (argc < 4 || argc % 2 != 0) return fprintf(stderr, "usage: loop PLAN OUT BIT [CHANNEL CAPTURE]..\n"), 2;
  plan = load(argv[1]);
  open_end(&near, argv[1], &plan, argv[3]), open_end(&far, argv[1], &plan, argv[3]);
  free(plan.at);
  lanes = count_lanes(&near.transmitter);
  for (int i = 4; i < argc; i += 2) open_channel(&near, argv[2], channel_of(argv[i]), argv[i + 1]);
  /* After `finish` nothing is heard: it comes once all is sent. The lanes then go on to their end. */
  while (pass(&near, &far, lanes) != 0) {
    (void)pass(&far, &near, lanes);
    receive(&far), hear(&near, finished), turn_on(&far);
    if (!finished && all_sent(&near, argv + 4)) must("finish", interlaken_transmitter_finish(&near.transmitter)), finished = 1;
  }
  must("finish", interlaken_transmitter_finish(&far.transmitter));
  while (pass(&far, &near, lanes) != 0) hear(&near, finished);
  for (uint32_t lane = 0; lane < lanes; lane++) {
    must("finish", interlaken_receiver_finish(&far.receiver, lane));
    must("finish", interlaken_receiver_finish(&near.receiver, lane));
  }
  receive(&far), hear(&near, finished);
  for (int i = 4; i < argc; i += 2) {
    struct channel *channel = &channels[channel_of(argv[i])];
    printf("got channel=%s packets=%u bytes=%u\n", argv[i], channel->packets, channel->bytes);
    finish_file(channel->out, argv[2]);
  }
  printf("spans %u far, %u near\nturned off %u times\n", far.spans, near.spans, turned_off);
  close_end(&near), close_end(&far);
  return 0;
}
