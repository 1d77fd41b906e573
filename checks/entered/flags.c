/* Notes which functions of a program were entered, for checks/entered.py. The compiler gives each function a flag, which is set when it
 * is entered, and a place. At the end the set flags are set in the file that ENTERED names. With PLACES the distance of each function's
 * place from the start of the program is written there, in the order of the flags. */
#define _GNU_SOURCE 1
#include <fcntl.h>
#include <stdint.h>
#include <stdio.h>
#include <stdlib.h>
#include <unistd.h>

extern const char __executable_start;

static const char *flags;
static const uintptr_t *places;
static size_t count;

void __sanitizer_cov_bool_flag_init(const char *start, const char *end) {
  flags = start, count = (size_t)(end - start);
}

void __sanitizer_cov_pcs_init(const uintptr_t *start, const uintptr_t *end) {
  places = start;
  (void)end;
}

static void write_places(const char *name) {
  FILE *file = fopen(name, "w");
  if (file == NULL) _exit(99);
  for (size_t i = 0; i < count; i++) fprintf(file, "%lx\n", (unsigned long)(places[2 * i] - (uintptr_t)&__executable_start));
  if (fclose(file) != 0) _exit(99);
}

__attribute__((destructor)) static void save(void) {
  const char *entered = getenv("ENTERED"), *of_places = getenv("PLACES");
  int file = entered == NULL ? -1 : open(entered, O_WRONLY | O_CREAT, 0666);
  if (of_places != NULL) write_places(of_places);
  if (entered == NULL) return;
  if (file < 0) _exit(99);
  for (size_t i = 0; i < count; i++)
    if (flags[i] && pwrite(file, "1", 1, (off_t)i) != 1) _exit(99);
  close(file);
}
