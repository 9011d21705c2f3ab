/* The session: read by the library's calls, and given its events in parts from idle callbacks of the toolkit's loop. */
#define _POSIX_C_SOURCE 200809L
#include "host.h"

#include <stdio.h>
#include <stdlib.h>
#include <string.h>

/* How long a part should take, the time between two drawings of an event that takes long, both in microseconds, and the counted steps of the
 * first part. */
enum { SHORT = 1000, LONG = 4000, BETWEEN_DRAWINGS = 100000, FIRST_STEPS = 1000 };

static gelvopaun_ui ui;
static GQueue waiting = G_QUEUE_INIT; /* the lines of events that have not begun */
static Course at = {.is_resting = true};
static bool is_under_way;
static uint64_t steps = FIRST_STEPS;
static guint parts, turns; /* the sources that go on with an event, and that make a turn */
static gint64 began, drawn; /* when the session was started, and when it was drawn or an event began */
static void (*draw_session)(void);

const Course *course(void) { return &at; }

/* The moment of a turn, in milliseconds since the start. */
static uint64_t moment(void) { return (uint64_t)(g_get_monotonic_time() - began) / 1000; }

/* ---- reading */

/* What the library tells of an object, or of a property of it, as JSON. NULL where there is nothing to tell. */
static char *told_text(uint64_t object, const char *property) {
  size_t room = 256, length = room;
  char *text = NULL;
  while (length >= room) { /* a text that did not fit is asked for again, with room for it and its zero byte */
    room = length + 1;
    text = g_realloc(text, room);
    length = property == NULL ? gelvopaun_describe(&ui, object, (uint8_t *)text, room)
                              : gelvopaun_get(&ui, object, (const uint8_t *)property, strlen(property), (uint8_t *)text, room);
  }
  if (length == 0) g_clear_pointer(&text, g_free);
  return text;
}

/* Reads an object's text. Names and ids have no escapes, and the members come in this order. */
static void read_told(const char *text, Told *told) {
  char made[6] = "", *parent = NULL;
  int children = 0;
  sscanf(text, "{\"id\":\"%m[^\"]\",\"prototype\":%5[a-z],\"class\":\"%m[^\"]\",\"parent\":%m[^,],\"children\":[%n", &told->id, made, &told->class,
         &parent, &children);
  told->is_made = g_str_equal(made, "true");
  told->parent = strtoull(parent, NULL, 10); /* 0 where it is `null` */
  told->children = g_array_new(FALSE, FALSE, sizeof(uint64_t));
  for (const char *rest_of = text + children; *rest_of != ']';) {
    char *end;
    uint64_t child = strtoull(rest_of, &end, 10);
    g_array_append_val(told->children, child);
    rest_of = end + (*end == ',');
  }
  told->is_disposed = strstr(text + children, "\"disposed\":true") != NULL;
  free(parent);
}

void free_told(Told *told) {
  free(told->id), free(told->class);
  g_array_unref(told->children);
}

uint64_t next_told(uint64_t from, Told *told) {
  for (uint64_t object = from; (object = gelvopaun_next_object(&ui, object)) != 0; object++) {
    char *text = told_text(object, NULL);
    if (text == NULL) continue;
    read_told(text, told);
    g_free(text);
    if (!told->is_disposed) return object;
    free_told(told);
  }
  return 0;
}

/* The number that four hexadecimal digits write. */
static gunichar four_digits(const char *digits) {
  char four[5] = {0};
  memcpy(four, digits, 4);
  return strtoul(four, NULL, 16);
}

/* Reads the escape behind a backslash, appends what it stands for, and answers the place behind it. */
static const char *read_escape(const char *escape, GString *out) {
  static const char *letters = "bfnrt", *meanings = "\b\f\n\r\t";
  if (*escape == 'u') {
    gunichar unit = four_digits(escape + 1);
    g_string_append_unichar(out, unit == 0 ? 0xfffd : unit); /* a widget's text has no zero byte */
    return escape + 5;
  }
  const char *letter = strchr(letters, *escape);
  g_string_append_c(out, letter == NULL ? *escape : meanings[letter - letters]);
  return escape + 1;
}

char *read_value(uint64_t object, const char *property) {
  char *json = told_text(object, property);
  if (json == NULL || (*json != '"' && !g_str_equal(json, "null"))) return json;
  GString *out = g_string_new(NULL);
  for (const char *it = json + 1; *json == '"' && *it != '"';) {
    const char *next = g_utf8_next_char(it);
    if (*it == '\\') next = read_escape(it + 1, out);
    else g_string_append_len(out, it, next - it);
    it = next;
  }
  g_free(json);
  return g_string_free(out, FALSE);
}

char *quoted(const char *text) {
  GString *out = g_string_new("\"");
  for (; *text != 0; text++) {
    if (*text == '"' || *text == '\\') g_string_append_c(out, '\\');
    if ((unsigned char)*text < 32) g_string_append_printf(out, "\\u%04x", *text);
    else g_string_append_c(out, *text);
  }
  g_string_append_c(out, '"');
  return g_string_free(out, FALSE);
}

/* ---- events */

static gboolean go_on(gpointer data);

/* Below the priority of input and of drawing, so that both come first. */
static void go_on_soon(void) {
  if (parts == 0) parts = g_idle_add(go_on, NULL);
}

/* Takes the lines that were said, so that the session need not keep them. The host reads the session instead. */
static void take_lines(void) {
  uint8_t piece[4096];
  while (gelvopaun_take_lines(&ui, piece, sizeof piece) > 0) continue;
}

static uint8_t begin_next(void) {
  char refusal[64], *line = g_queue_pop_head(&waiting);
  uint8_t outcome = gelvopaun_begin(&ui, (const uint8_t *)line, strlen(line), (uint8_t *)refusal, sizeof refusal);
  if (outcome == GELVOPAUN_LINE_REFUSED) g_message("refused: %.*s: %s", (int)sizeof refusal, refusal, line);
  if (outcome == GELVOPAUN_LINE_REFUSED) at.refused++;
  drawn = g_get_monotonic_time();
  at.events++;
  at.parts = at.steps = 0;
  g_free(line);
  return outcome;
}

/* Makes the next part of the event that is under way, with more or fewer steps than this one where it was short or long. */
static uint8_t advance(void) {
  gint64 before = g_get_monotonic_time();
  uint8_t outcome = gelvopaun_advance(&ui, steps);
  gint64 taken = g_get_monotonic_time() - before;
  at.parts++, at.steps += steps;
  if (taken > LONG && steps > 1) steps /= 2;
  if (taken < SHORT && outcome == GELVOPAUN_UNDER_WAY) steps *= 2;
  return outcome;
}

static gboolean make_turn(gpointer data) {
  turns = 0;
  at.turns++;
  send_event(g_strdup_printf("{\"turn\":%" G_GUINT64_FORMAT "}", moment()));
  return G_SOURCE_REMOVE;
}

/* Has the loop make a turn of the session when something is due there. */
static void wait_for_turn(void) {
  uint64_t due = 0;
  uint8_t when = gelvopaun_next_due(&ui, &due);
  if (turns != 0) g_source_remove(turns);
  turns = 0;
  if (when == GELVOPAUN_DUE_NOW) turns = g_idle_add(make_turn, NULL);
  if (when == GELVOPAUN_DUE_AT) turns = g_timeout_add(CLAMP((gint64)(due - moment()), 0, G_MAXINT32), make_turn, NULL);
}

/* Whether the session is to be drawn: once it is at rest, and now and then while an event takes long. Where another event waits it is not drawn,
 * since a widget would be put back on which a person has acted. */
static bool is_drawing_due(void) {
  return g_queue_is_empty(&waiting) && (at.is_resting || g_get_monotonic_time() - drawn > BETWEEN_DRAWINGS);
}

/* Begins the next event or makes a part of the one that is under way. Between two of these calls the loop hears of input and draws. */
static gboolean go_on(gpointer data) {
  uint8_t outcome = is_under_way ? advance() : begin_next();
  take_lines();
  is_under_way = outcome == GELVOPAUN_UNDER_WAY;
  if (outcome == GELVOPAUN_STOPPED) {
    g_message("stopped: OutOfMemory");
    at.is_stopped = true;
    g_queue_clear_full(&waiting, g_free);
  }
  at.is_resting = !is_under_way && g_queue_is_empty(&waiting);
  if (is_drawing_due()) draw_session(), drawn = g_get_monotonic_time();
  if (!at.is_resting) return G_SOURCE_CONTINUE;
  parts = 0;
  if (!at.is_stopped) wait_for_turn();
  return G_SOURCE_REMOVE;
}

void send_event(char *line) {
  at.is_resting = false;
  g_queue_push_tail(&waiting, line);
  go_on_soon();
}

char *start_session(const char *definition, size_t length, void (*drawing)(void)) {
  char refusal[256];
  began = g_get_monotonic_time();
  draw_session = drawing;
  uint8_t outcome = gelvopaun_start((const uint8_t *)definition, length, &ui, (uint8_t *)refusal, sizeof refusal);
  if (outcome == GELVOPAUN_DEFINITION_REFUSED) return g_strdup_printf("refused: %.*s", (int)sizeof refusal, refusal);
  if (outcome != GELVOPAUN_DONE) return g_strdup("stopped: OutOfMemory");
  take_lines();
  draw_session();
  wait_for_turn();
  return NULL;
}

void finish_session(void) {
  if (parts != 0) g_source_remove(parts);
  if (turns != 0) g_source_remove(turns);
  parts = turns = 0;
  g_queue_clear_full(&waiting, g_free);
  gelvopaun_finish(&ui);
}
