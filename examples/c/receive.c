/* Receives the lanes of a link, as the command `receive` does, by the library.
 *
 *     receive PLAN PREFIX OUT [SEED]
 *
 * PLAN is a plan file, and PREFIX.lane.0, PREFIX.lane.1, .. are the files of its lanes. It prints the lines that `receive` prints, and
 * writes the packets of channel C to OUT.C.pcap and the fault spans to OUT.spans.csv, as `receive` does. With a SEED the lanes come in
 * pieces and in an order that are drawn; the result is the same. */
#include "files.h"

#define CHANNELS 65536
#define PIECE 4096
#define MOST_LISTED 1024
#define DROPS 8 /* reasons of drops */

struct lane {
  struct bytes file;
  size_t fed; /* bytes that were taken of it */
  int over;   /* it is finished */
};

struct channel {
  int listed;
  FILE *out;
  uint64_t packets, bytes;
};

static struct channel channels[CHANNELS];
static struct lane lanes[LANES];
static interlaken_plan numbers; /* of the plan */
static uint64_t drops[DROPS], span_count;
static const char *out_prefix;
static uint64_t drawn; /* the state of the drawn numbers; 0 if none are drawn */

static FILE *create_spans(const char *out) {
  char name[4096];
  FILE *file;
  snprintf(name, sizeof name, "%s.spans.csv", out);
  file = fopen(name, "wb");
  if (file == NULL) fail(name, "not written");
  return file;
}

/* The capture of a channel, with the header of a file. */
static void open_channel(uint32_t number) {
  struct channel *channel = &channels[number];
  if (channel->out != NULL) return;
  channel->listed = 1;
  channel->out = create(out_prefix, NULL, number);
  put_header(channel->out, numbers.link_type);
}

/* Opens the captures of the channels of the plan. */
static void open_channels(const char *name, const struct bytes *plan) {
  static uint16_t listed[MOST_LISTED];
  interlaken_refusal refusal;
  size_t count;
  must_open(name, interlaken_plan_channels(plan->at, plan->count, listed, MOST_LISTED, &count, &refusal), &refusal);
  for (size_t i = 0; i < count; i++) open_channel(listed[i]);
}

static void take_packet(interlaken_receiver *receiver, const interlaken_event *event) {
  static uint8_t piece[1000];
  struct channel *channel = &channels[event->channel];
  uint32_t offset = 0;
  open_channel(event->channel);
  put_record(channel->out, event->length);
  while (offset < event->length) {
    size_t copied;
    must("read", interlaken_receiver_read(receiver, offset, piece, sizeof piece, &copied));
    if (copied == 0) fail("read", "no bytes of a packet");
    fwrite(piece, 1, copied, channel->out);
    offset += (uint32_t)copied;
  }
  channel->packets++;
  channel->bytes += event->length;
}

static void put_place(FILE *out, const interlaken_place *place) {
  if (place->known) fprintf(out, "%" PRIu64 ",%" PRIu32 ",", place->group, place->index);
  else fputs("-,-,", out);
}

static void take_span(FILE *out, const interlaken_event *event) {
  put_place(out, &event->first);
  put_place(out, &event->last);
  fprintf(out, "%s\n", interlaken_fault_text(event->why));
  span_count++;
}

/* Takes all events that there are; 1 if the end is among them. Kinds of later versions are passed over. */
static int take_events(interlaken_receiver *receiver, FILE *spans) {
  interlaken_event event;
  for (;;) {
    must("next", interlaken_receiver_next(receiver, &event));
    switch (event.kind) {
      case INTERLAKEN_PACKET: take_packet(receiver, &event); break;
      case INTERLAKEN_DROPPED: drops[event.why % DROPS]++; break;
      case INTERLAKEN_SPAN: take_span(spans, &event); break;
      case INTERLAKEN_ENDED: return 1;
      case INTERLAKEN_NONE: return 0;
      default: break;
    }
  }
}

static uint32_t below(uint32_t bound) {
  drawn ^= drawn << 13, drawn ^= drawn >> 7, drawn ^= drawn << 17;
  return (uint32_t)(drawn >> 20) % bound;
}

/* Feeds a piece of a lane, or finishes it if all its bytes were taken. */
static void feed_lane(interlaken_receiver *receiver, uint32_t number) {
  struct lane *lane = &lanes[number];
  size_t left = lane->file.count - lane->fed, taken;
  size_t piece = drawn != 0 ? 1 + below(2 * PIECE) : PIECE;
  if (lane->over) return;
  if (left == 0) {
    must("finish", interlaken_receiver_finish(receiver, number));
    lane->over = 1;
    return;
  }
  must("feed", interlaken_receiver_feed(receiver, number, lane->file.at + lane->fed, piece < left ? piece : left, &taken));
  lane->fed += taken;
}

static void receive(interlaken_receiver *receiver, FILE *spans) {
  fputs("after_group,after_index,before_group,before_index,why\n", spans);
  while (!take_events(receiver, spans)) {
    if (drawn != 0) feed_lane(receiver, below(numbers.lanes));
    else for (uint32_t number = 0; number < numbers.lanes; number++) feed_lane(receiver, number);
  }
}

static void print_lane(interlaken_receiver *receiver, uint32_t number) {
  interlaken_report r;
  must("report", interlaken_receiver_report(receiver, number, &r));
  printf("lane %" PRIu32 " locks=%" PRIu64 " first=", number, r.locks);
  if (r.has_first) printf("%" PRIu64, r.first);
  else putchar('-');
  printf(" lost=%" PRIu64 " unframed=%" PRIu64 " bad=%" PRIu64 " sync=%" PRIu64 " state=%" PRIu64 " diag=%" PRIu64 "\n", r.lost,
         r.unframed, r.bad, r.sync, r.state, r.diag);
}

static void print_all(interlaken_receiver *receiver) {
  for (uint32_t number = 0; number < numbers.lanes; number++) print_lane(receiver, number);
  for (uint32_t number = 0; number < CHANNELS; number++) {
    const struct channel *channel = &channels[number];
    if (!channel->listed) continue;
    printf("got channel=%" PRIu32 " packets=%" PRIu64 " bytes=%" PRIu64 "\n", number, channel->packets, channel->bytes);
    finish_file(channel->out, "capture");
  }
  printf("spans %" PRIu64 "\ndropped", span_count);
  for (uint32_t why = 0; why < DROPS; why++) printf(" %s=%" PRIu64, interlaken_drop_text(why), drops[why]);
  putchar('\n');
}

int main(int argc, char **argv) {
  interlaken_receiver receiver = {0};
  interlaken_refusal refusal;
  struct bytes plan;
  FILE *spans;
  if (argc != 4 && argc != 5) {
    fprintf(stderr, "usage: receive PLAN PREFIX OUT [SEED]\n");
    return 2;
  }
  if (argc == 5) drawn = strtoull(argv[4], NULL, 10) * 2654435761u + 88172645463325252u;
  plan = load(argv[1]);
  must_open(argv[1], interlaken_receiver_new(&receiver, plan.at, plan.count, &refusal), &refusal);
  out_prefix = argv[3];
  must_open(argv[1], interlaken_plan_read(plan.at, plan.count, &numbers, &refusal), &refusal);
  open_channels(argv[1], &plan);
  for (uint32_t number = 0; number < numbers.lanes; number++) {
    char name[4096];
    snprintf(name, sizeof name, "%s.lane.%" PRIu32, argv[2], number);
    lanes[number].file = load(name);
  }
  spans = create_spans(argv[3]);
  receive(&receiver, spans);
  finish_file(spans, "spans.csv");
  print_all(&receiver);
  interlaken_receiver_free(&receiver);
  for (uint32_t number = 0; number < numbers.lanes; number++) free(lanes[number].file.at);
  free(plan.at);
  return 0;
}
