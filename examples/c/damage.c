/* Damages lanes on their way, as the command `damage` does, by the library.
 *
 *     damage SCHEDULE PREFIX OUT LANES
 *
 * SCHEDULE has rows `flip,LANE,BIT` and `dark,LANE,FIRST,BITS`, and PREFIX.lane.0, PREFIX.lane.1, .. are the files of so many LANES. It
 * writes the damaged lanes to OUT.lane.0, OUT.lane.1, ... A row may be given at any time, as long as one of its bits has not passed:
 * here those of a lane are given when it is about to pass. */
#include "files.h"

#define PIECE 1000

/* The row at `at`, which ends with its line: 1 if it is of this kind, with its numbers. */
static int read_row(const char *at, const char *kind, int fields, uint64_t *numbers) {
  size_t length = strlen(kind);
  if (strncmp(at, kind, length) != 0) return 0;
  at += length;
  for (int i = 0; i < fields; i++) {
    char *end;
    if (*at != ',') return 0;
    numbers[i] = strtoull(at + 1, &end, 10);
    if (end == at + 1) return 0;
    at = end;
  }
  return *at == '\n' || *at == '\r' || *at == 0;
}

/* Gives the rows of one lane. */
static void give_rows(interlaken_damage *damage, const char *rows, uint32_t lane) {
  uint64_t n[3];
  for (const char *row = rows; row != NULL && *row != 0; row = strchr(row, '\n')) {
    if (*row == '\n' && *++row == 0) break;
    if (read_row(row, "flip", 2, n)) {
      if (n[0] == lane) must("flip", interlaken_damage_flip(damage, lane, n[1]));
    } else if (read_row(row, "dark", 3, n)) {
      if (n[0] == lane) must("dark", interlaken_damage_dark(damage, lane, n[1], n[2]));
    } else if (*row != '\n') {
      fail("schedule", "a row that is no flip and no dark stretch");
    }
  }
}

/* A lane passes piece by piece. */
static void pass_lane(interlaken_damage *damage, uint32_t lane, struct bytes file, FILE *out) {
  for (size_t at = 0; at < file.count; at += PIECE) {
    size_t count = file.count - at < PIECE ? file.count - at : PIECE;
    must("apply", interlaken_damage_apply(damage, lane, file.at + at, count));
    fwrite(file.at + at, 1, count, out);
  }
}

int main(int argc, char **argv) {
  interlaken_damage damage = {0};
  struct bytes rows;
  uint32_t lanes;
  if (argc != 5) {
    fprintf(stderr, "usage: damage SCHEDULE PREFIX OUT LANES\n");
    return 2;
  }
  lanes = (uint32_t)strtoul(argv[4], NULL, 10);
  must("lanes", interlaken_damage_new(&damage, lanes));
  rows = load(argv[1]);
  for (uint32_t lane = 0; lane < lanes; lane++) {
    struct bytes file = load_lane(argv[2], lane);
    FILE *out;
    give_rows(&damage, (const char *)rows.at, lane);
    out = create(argv[3], "lane", lane);
    pass_lane(&damage, lane, file, out);
    finish_file(out, argv[3]);
    free(file.at);
  }
  free(rows.at);
  must("free", interlaken_damage_free(&damage));
  return 0;
}
