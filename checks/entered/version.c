/* Asks the library for its version, for checks/entered.py. */
#include "interlaken.h"

int main(void) {
  return interlaken_version() == 0;
}
