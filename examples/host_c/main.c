/* A host in C: runs a definition over a file of event lines and prints what `ui run` prints, with its status.
 *
 *   main DEFINITION EVENTS [STEPS]
 *
 * With STEPS each event is carried out in parts of so many counted steps, and what it says is printed after each part.
 */
#include "gelvopaun.h"

#include <stdio.h>
#include <stdlib.h>
#include <string.h>

/* Reads a whole file, which the caller frees. There is none where it cannot be read. */
static uint8_t *read_file(const char *name, size_t *length) {
  FILE *file = fopen(name, "rb");
  if (file == NULL) return NULL;
  size_t room = 4096;
  uint8_t *bytes = malloc(room);
  *length = 0;
  while (bytes != NULL) {
    *length += fread(bytes + *length, 1, room - *length, file);
    if (*length < room) break;
    room *= 2;
    uint8_t *more = realloc(bytes, room);
    if (more == NULL) free(bytes);
    bytes = more;
  }
  fclose(file);
  return bytes;
}

static void print_lines(gelvopaun_ui *ui) {
  uint8_t piece[4096];
  size_t count;
  while ((count = gelvopaun_take_lines(ui, piece, sizeof piece)) > 0) fwrite(piece, 1, count, stdout);
}

static bool is_blank(const uint8_t *line, size_t length) {
  for (size_t i = 0; i < length; i++)
    if (strchr(" \t\r", line[i]) == NULL || line[i] == 0) return false;
  return true;
}

/* Carries out one line, whole or in parts of so many steps, and prints what it leads to. */
static uint8_t run_line(gelvopaun_ui *ui, const uint8_t *line, size_t length, uint64_t steps, char *refusal, size_t room) {
  uint8_t outcome = steps == 0 ? gelvopaun_dispatch(ui, line, length, (uint8_t *)refusal, room)
                               : gelvopaun_begin(ui, line, length, (uint8_t *)refusal, room);
  print_lines(ui);
  while (outcome == GELVOPAUN_UNDER_WAY) {
    outcome = gelvopaun_advance(ui, steps);
    print_lines(ui);
  }
  return outcome;
}

/* Carries out each line and prints what it leads to. It answers the status. */
static int run_lines(gelvopaun_ui *ui, const uint8_t *events, size_t length, uint64_t steps) {
  int status = GELVOPAUN_DONE;
  unsigned long number = 0;
  for (size_t at = 0; at < length; number++) {
    const uint8_t *line = events + at, *end = memchr(line, '\n', length - at);
    size_t count = end == NULL ? length - at : (size_t)(end - line);
    at += count + 1;
    if (is_blank(line, count)) continue;
    char refusal[64];
    uint8_t outcome = run_line(ui, line, count, steps, refusal, sizeof refusal);
    if (outcome == GELVOPAUN_STOPPED || outcome == GELVOPAUN_NO_MEMORY) {
      printf("line %lu stopped: OutOfMemory\n", number + 1);
      return GELVOPAUN_STOPPED;
    }
    if (outcome == GELVOPAUN_LINE_REFUSED) {
      printf("line %lu refused: %.*s\n", number + 1, (int)sizeof refusal, refusal);
      status = outcome;
    }
  }
  return status;
}

int main(int count, char **words) {
  size_t definition_length, events_length;
  bool is_usage = count == 3 || count == 4;
  uint8_t *definition = is_usage ? read_file(words[1], &definition_length) : NULL;
  uint8_t *events = is_usage ? read_file(words[2], &events_length) : NULL;
  uint64_t steps = count == 4 ? strtoull(words[3], NULL, 10) : 0;
  if (definition == NULL || events == NULL) return 64;
  gelvopaun_ui ui = {0};
  char refusal[256];
  int status = gelvopaun_start(definition, definition_length, &ui, (uint8_t *)refusal, sizeof refusal);
  print_lines(&ui);
  if (status == GELVOPAUN_DEFINITION_REFUSED) printf("refused: %.*s\n", (int)sizeof refusal, refusal);
  if (status == GELVOPAUN_STOPPED) puts("stopped: OutOfMemory");
  if (status == GELVOPAUN_DONE) status = run_lines(&ui, events, events_length, steps);
  gelvopaun_finish(&ui);
  free(definition);
  free(events);
  return status;
}
