/* How long an event takes through the library, beside the same by real GObject in the same run, and how much memory the process has as events go
 * on: a property is set that has one handler.
 *
 *   speed EVENTS
 */
#include "gelvopaun.h"

#include <glib-object.h>
#include <stdio.h>
#include <stdlib.h>
#include <string.h>

static const char *panel =
    "{\"format\":1,\"classes\":[{\"name\":\"Box\",\"properties\":[{\"name\":\"n\",\"kind\":\"int\"}]}],\"programs\":["
    "{\"name\":\"hear\",\"params\":[\"some:Box\"],\"registers\":1,\"blocks\":[{\"code\":[[\"return\",null]]}]}],"
    "\"objects\":[{\"id\":\"b\",\"class\":\"Box\",\"signals\":[{\"name\":\"notify\",\"detail\":\"n\",\"handler\":\"hear\"}]}]}";

/* ---- the same class with GObject */

typedef struct {
  GObject parent;
  int n;
} Box;
typedef struct {
  GObjectClass parent;
} BoxClass;
G_DEFINE_TYPE(Box, box, G_TYPE_OBJECT)

static void box_set_property(GObject *object, guint id, const GValue *value, GParamSpec *spec) {
  (void)id, (void)spec;
  ((Box *)object)->n = g_value_get_int(value);
}

static void box_get_property(GObject *object, guint id, GValue *value, GParamSpec *spec) {
  (void)id, (void)spec;
  g_value_set_int(value, ((Box *)object)->n);
}

static void box_class_init(BoxClass *class) {
  G_OBJECT_CLASS(class)->set_property = box_set_property;
  G_OBJECT_CLASS(class)->get_property = box_get_property;
  g_object_class_install_property(G_OBJECT_CLASS(class), 1, g_param_spec_int("n", NULL, NULL, G_MININT, G_MAXINT, 0, G_PARAM_READWRITE));
}

static void box_init(Box *box) { box->n = 0; }

static void hear(Box *box, GParamSpec *spec, gpointer count) {
  (void)box, (void)spec;
  ++*(long *)count;
}

static double time_gobject(long events) {
  long heard = 0;
  Box *box = g_object_new(box_get_type(), NULL);
  g_signal_connect(box, "notify::n", G_CALLBACK(hear), &heard);
  gint64 began = g_get_monotonic_time();
  for (long i = 0; i < events; i++) g_object_set(box, "n", (int)i, NULL);
  double taken = g_get_monotonic_time() - began;
  g_object_unref(box);
  if (heard != events) exit(1);
  return taken / events;
}

/* ---- the library */

/* The kilobytes of memory that the process has. */
static long resident(void) {
  char line[128];
  long found = 0;
  FILE *file = fopen("/proc/self/status", "r");
  while (file != NULL && fgets(line, sizeof line, file) != NULL) sscanf(line, "VmRSS: %ld", &found);
  if (file != NULL) fclose(file);
  return found;
}

static void set_once(gelvopaun_ui *ui, long i) {
  char line[64];
  uint8_t lines[256], nothing[1];
  int length = snprintf(line, sizeof line, "{\"set\":[\"b\",\"n\",%d]}", (int)i);
  if (gelvopaun_dispatch(ui, (const uint8_t *)line, length, nothing, 0) != GELVOPAUN_DONE) exit(1);
  while (gelvopaun_take_lines(ui, lines, sizeof lines) > 0) continue;
}

/* Prints the memory after a tenth of the events, and after all. Status 1 where it has grown by more than 256 KB. */
int main(int count, char **words) {
  long events = count == 2 ? strtol(words[1], NULL, 10) : 0, early = 0;
  if (events < 10) return 64;
  gelvopaun_ui ui = {0};
  uint8_t nothing[1];
  if (gelvopaun_start((const uint8_t *)panel, strlen(panel), &ui, nothing, 0) != GELVOPAUN_DONE) return 1;
  gint64 began = g_get_monotonic_time();
  for (long i = 0; i < events; i++) {
    set_once(&ui, i);
    if (i == events / 10) early = resident();
  }
  double taken = (double)(g_get_monotonic_time() - began) / events;
  long late = resident();
  gelvopaun_finish(&ui);
  double beside = time_gobject(events);
  printf("%ld events: %.2f microseconds each, and %.2f with g_object_set; %ld KB of memory after a tenth of them, %ld KB after all\n", events, taken,
         beside, early, late);
  return late > early + 256;
}
