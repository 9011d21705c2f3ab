/* Calls the functions in a random order, with lines that are whole, cut or changed, and with buffers that are too small. Each buffer ends where the
 * memory of the process does, so that a byte too much ends the program. It says where an answer is none that the header gives, where a byte was
 * written that should not have been, and where a refusal has changed the session. Status 1 where one has.
 *
 *   misuse DEFINITION EVENTS CALLS
 */
#define _DEFAULT_SOURCE
#include "gelvopaun.h"

#include <stdio.h>
#include <stdlib.h>
#include <string.h>
#include <sys/mman.h>

enum { REGION = 1 << 16, PAGE = 1 << 12, FREE = 0xAA };

static gelvopaun_ui ui;
static int failed;
#define FIRST_SUM UINT64_C(14695981039346656037) /* the sum of no session */
static const char *properties[] = {"active", "text", "label", "value", "sensitive", "title", "before", ""};

static void fail(const char *what, unsigned long is) {
  if (failed++ < 20) printf("%s: %lu\n", what, is);
}

static uint32_t pick(uint32_t below) {
  static uint32_t state = 72;
  state = state * 1664525 + 1013904223;
  return (state >> 8) % below;
}

/* ---- buffers */

typedef struct {
  uint8_t *region, *bytes; /* `bytes` is followed by memory that is not the program's */
  size_t room;
} Buffer;

static Buffer new_buffer(void) {
  uint8_t *region = mmap(NULL, REGION + PAGE, PROT_READ | PROT_WRITE, MAP_PRIVATE | MAP_ANONYMOUS, -1, 0);
  if (region == MAP_FAILED || mprotect(region + REGION, PAGE, PROT_NONE) != 0) exit(2);
  return (Buffer){region, region + REGION, 0};
}

/* Gives the buffer so much room, and fills it. */
static void make_room(Buffer *buffer, size_t room) {
  buffer->room = room;
  buffer->bytes = buffer->region + REGION - room;
  memset(buffer->bytes - 64, FREE, room + 64);
}

static void put(Buffer *buffer, const void *bytes, size_t length) {
  make_room(buffer, length);
  memcpy(buffer->bytes, bytes, length);
}

/* No byte is to be written in front of the buffer, nor behind the first `written` ones and their zero byte. */
static void see_rest(const Buffer *buffer, size_t written, const char *what) {
  for (size_t i = 1; i <= 64; i++)
    if (buffer->bytes[-(ptrdiff_t)i] != FREE) fail(what, i);
  if (written < buffer->room && buffer->bytes[written] != 0 && buffer->bytes[written] != FREE) fail(what, written);
  for (size_t i = written + 1; i < buffer->room; i++)
    if (buffer->bytes[i] != FREE) fail(what, i);
}

/* ---- what there is of the session */

static uint64_t mixed(uint64_t sum, const uint8_t *bytes, size_t length) {
  for (size_t i = 0; i < length; i++) sum = (sum ^ bytes[i]) * 1099511628211u;
  return sum;
}

/* A sum of all objects and of some properties of each. */
static uint64_t session_sum(void) {
  uint8_t out[4096];
  uint64_t sum = FIRST_SUM;
  for (uint64_t object = gelvopaun_next_object(&ui, 1); object != 0; object = gelvopaun_next_object(&ui, object + 1)) {
    sum = mixed(sum, out, gelvopaun_describe(&ui, object, out, sizeof out));
    for (const char **it = properties; **it != 0; it++)
      sum = mixed(sum, out, gelvopaun_get(&ui, object, (const uint8_t *)*it, strlen(*it), out, sizeof out));
  }
  return sum;
}

/* ---- calls */

static Buffer in, out;
static char *definition, *events;
static uint64_t last = FIRST_SUM; /* of the session as the last call has left it */

/* Puts an event line into `in`: whole, cut, or with a changed byte. */
static void put_line(void) {
  size_t length = strlen(events), at = pick(length);
  while (at > 0 && events[at - 1] != '\n') at--;
  size_t count = strcspn(events + at, "\n");
  put(&in, events + at, pick(4) == 0 ? pick(count + 1) : count);
  if (pick(4) == 0 && in.room > 0) in.bytes[pick(in.room)] = pick(256);
}

static void put_definition(void) {
  size_t length = strlen(definition);
  put(&in, definition, pick(3) == 0 ? pick(length) : length);
  if (pick(3) == 0 && in.room > 0) in.bytes[pick(in.room)] = pick(256);
}

/* A status is to be one of these; after all but those of `changing` the session is as it was. */
static void see_status(const char *what, uint8_t status, const char *allowed, const char *changing) {
  char digit = '0' + status;
  uint64_t sum = session_sum();
  if (strchr(allowed, digit) == NULL) fail(what, status);
  if (strchr(changing, digit) == NULL && sum != last) fail("a refusal has changed the session", status);
  last = sum;
  see_rest(&out, strchr("15", digit) == NULL ? 0 : strnlen((char *)out.bytes, out.room), what);
}

static void call_once(void) {
  uint64_t object = pick(30), moment = 0;
  make_room(&out, pick(3) == 0 ? pick(8) : pick(300));
  switch (pick(12)) {
  case 0:
    if (last != FIRST_SUM && pick(20) != 0) break;
    put_definition();
    see_status("start", gelvopaun_start(in.bytes, in.room, &ui, out.bytes, out.room), "01", "01");
    break;
  case 1:
  case 2:
    put_line();
    see_status("dispatch", gelvopaun_dispatch(&ui, in.bytes, in.room, out.bytes, out.room), "0257", "0");
    break;
  case 3:
  case 4:
    put_line();
    see_status("begin", gelvopaun_begin(&ui, in.bytes, in.room, out.bytes, out.room), "02567", "06");
    break;
  case 5:
  case 6:
    see_status("advance", gelvopaun_advance(&ui, pick(2) == 0 ? 1000 : pick(6)), "0269", "06");
    break;
  case 7:
    if (gelvopaun_next_due(&ui, &moment) > GELVOPAUN_DUE_AT) fail("next due", 0);
    break;
  case 8: {
    size_t count = gelvopaun_take_lines(&ui, out.bytes, out.room);
    if (count > out.room) fail("taken", count);
    else see_rest(&out, count, "take lines");
    break;
  }
  case 9:
    put(&in, "nobody", pick(7));
    if (gelvopaun_object(&ui, in.bytes, in.room) != 0) fail("an object that is not there", in.room);
    break;
  case 10: {
    size_t length = gelvopaun_describe(&ui, object, out.bytes, out.room);
    see_rest(&out, length < out.room ? length : out.room, "describe");
    break;
  }
  default: {
    const char *name = properties[pick(8)];
    put(&in, name, strlen(name));
    size_t length = gelvopaun_get(&ui, object, in.bytes, in.room, out.bytes, out.room);
    see_rest(&out, length < out.room ? length : out.room, "get");
  }
  }
  if (pick(500) != 0) return;
  gelvopaun_finish(&ui);
  last = session_sum();
}

static char *read_text(const char *name) {
  FILE *file = fopen(name, "rb");
  char *text = calloc(1, REGION);
  if (file == NULL || text == NULL || fread(text, 1, REGION - 1, file) == 0) exit(2);
  fclose(file);
  return text;
}

int main(int count, char **words) {
  if (count != 4) return 64;
  definition = read_text(words[1]);
  events = read_text(words[2]);
  in = new_buffer(), out = new_buffer();
  for (long left = strtol(words[3], NULL, 10); left > 0; left--) call_once();
  gelvopaun_finish(&ui);
  free(definition), free(events);
  return failed > 0;
}
