/* The numbers of interlaken.h in words, for messages and logs. Causes, drops, faults, lane events
 * and rules have the names that the program's files and lines have. A number without a text, such
 * as one of a later version, has the text "unknown". */
#ifndef INTERLAKEN_TEXT_H
#define INTERLAKEN_TEXT_H

#include <stddef.h>
#include <stdint.h>

/* The text of a number in a table. */
static inline const char *interlaken_text_of(const char *const *texts, size_t count,
                                             uint32_t number) {
  return number < count ? texts[number] : "unknown";
}

/* An enum interlaken_result. */
static inline const char *interlaken_result_text(uint32_t result) {
  static const char *const texts[] = {
      "done", "memory ran out", "the plan is refused", "no such lane", "finished before",
      "too many bytes", "the last event was no packet", "no receiver", "the handle is open already",
      "no damage", "out of range", "the bits have passed", "no transmitter",
      "the plan does not list the channel", "the packet has no bytes or too many", "no inspector",
      "no checker", "faults wait to be taken", "no gatherer", "a part of a byte is left"};
  return interlaken_text_of(texts, sizeof texts / sizeof *texts, result);
}

/* An enum interlaken_cause: what the line `plan refused` says after the row. */
static inline const char *interlaken_cause_text(uint32_t cause) {
  static const char *const texts[] = {
      "none", "text", "key", "fields", "number", "range", "repeat", "missing", "clash"};
  return interlaken_text_of(texts, sizeof texts / sizeof *texts, cause);
}

/* An enum interlaken_key. */
static inline const char *interlaken_key_text(uint32_t key) {
  static const char *const texts[] = {"none", "lanes", "metaframe", "channel", "out"};
  return interlaken_text_of(texts, sizeof texts / sizeof *texts, key);
}

/* An enum interlaken_kind. */
static inline const char *interlaken_kind_text(uint32_t kind) {
  static const char *const texts[] = {"none", "packet", "dropped", "span", "flow", "ended"};
  return interlaken_text_of(texts, sizeof texts / sizeof *texts, kind);
}

/* An enum interlaken_drop: a name of the line `dropped`. */
static inline const char *interlaken_drop_text(uint32_t drop) {
  static const char *const texts[] = {
      "bad", "crc", "protocol", "lost", "end", "toolong", "unlisted", "sender"};
  return interlaken_text_of(texts, sizeof texts / sizeof *texts, drop);
}

/* An enum interlaken_fault: a `why` of a span table. */
static inline const char *interlaken_fault_text(uint32_t fault) {
  static const char *const texts[] = {"start", "bad", "crc", "protocol", "lost", "end"};
  return interlaken_text_of(texts, sizeof texts / sizeof *texts, fault);
}

/* An enum interlaken_lane_state. */
static inline const char *interlaken_lane_state_text(uint32_t state) {
  static const char *const texts[] = {"searching", "word lock", "declared"};
  return interlaken_text_of(texts, sizeof texts / sizeof *texts, state);
}

/* An enum interlaken_lane_kind: an `event` of OUT.events.csv. */
static inline const char *interlaken_lane_kind_text(uint32_t kind) {
  static const char *const texts[] = {
      "none", "bad", "sync", "state", "skip", "diag", "health", "balance", "lock", "lost-headers",
      "lost-sync", "lost-state", "unframed"};
  return interlaken_text_of(texts, sizeof texts / sizeof *texts, kind);
}

/* An enum interlaken_rule: a `rule` of OUT.faults.csv. */
static inline const char *interlaken_rule_text(uint32_t rule) {
  static const char *const texts[] = {
      "none", "bad", "control", "crc", "data", "max", "empty", "short", "end", "fill", "part",
      "min", "sop", "open", "channel", "long", "idle", "multi", "calendar", "off"};
  return interlaken_text_of(texts, sizeof texts / sizeof *texts, rule);
}

/* An enum interlaken_word_kind: the kind of a word, by its tag in a words file. */
static inline const char *interlaken_word_kind_text(uint32_t kind) {
  static const char *const texts[] = {"unknown", "data", "control", "bad"};
  return interlaken_text_of(texts, sizeof texts / sizeof *texts, kind);
}

/* An enum interlaken_gathered_kind. */
static inline const char *interlaken_gathered_kind_text(uint32_t kind) {
  static const char *const texts[] = {"none", "word", "break", "ended"};
  return interlaken_text_of(texts, sizeof texts / sizeof *texts, kind);
}

#endif
