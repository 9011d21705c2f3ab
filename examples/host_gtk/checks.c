/* The host's test of itself: it acts on the widgets as a person, by the toolkit's own calls, and compares them with the session. */
#include "host.h"

#include <stdio.h>
#include <string.h>

static unsigned compared, differ;

static void differs(const View *view, const char *what, const char *shown, const char *wanted) {
  differ++;
  printf("#%" G_GUINT64_FORMAT " %s.%s: the widget has %s, and the session %s\n", view->number, view->id, what, shown, wanted);
}

static unsigned pick(unsigned below) {
  static guint32 state = 20260701;
  state = state * 1664525 + 1013904223;
  return (state >> 8) % below;
}

/* ---- comparing */

/* Compares each property that is drawn. */
static void compare_properties(View *view) {
  for (const char *const *it = drawn_properties(view); *it != NULL; it++) {
    char *wanted = read_value(view->number, *it), *shown = shown_value(view, *it);
    if (wanted != NULL) compared++;
    if (wanted != NULL && !g_str_equal(wanted, shown)) differs(view, *it, shown, wanted);
    g_free(wanted), g_free(shown);
  }
}

/* The view whose whole widget this is, or NULL. */
static View *view_of(GtkWidget *whole) {
  GHashTableIter it;
  gpointer view;
  g_hash_table_iter_init(&it, views);
  while (g_hash_table_iter_next(&it, NULL, &view))
    if (((View *)view)->whole == whole) return view;
  return NULL;
}

/* Compares the widgets inside an object's widget with its children, by number and in order. */
static void compare_children(View *view, const Told *told) {
  GString *shown = g_string_new("["), *wanted = g_string_new("[");
  for (GtkWidget *it = gtk_widget_get_first_child(view->inside); it != NULL; it = gtk_widget_get_next_sibling(it))
    if (view_of(it) != NULL) g_string_append_printf(shown, "%" G_GUINT64_FORMAT " ", view_of(it)->number);
  for (guint i = 0; i < told->children->len; i++)
    g_string_append_printf(wanted, "%" G_GUINT64_FORMAT " ", g_array_index(told->children, uint64_t, i));
  compared++;
  if (!g_str_equal(shown->str, wanted->str)) differs(view, "children", shown->str, wanted->str);
  g_string_free(shown, TRUE), g_string_free(wanted, TRUE);
}

/* Compares all widgets with the session: there is one for each object, with its properties and children. */
static void compare(void) {
  Told told;
  guint count = 0;
  for (uint64_t object = 0; (object = next_told(object + 1, &told)) != 0; free_told(&told), count++) {
    View *view = g_hash_table_lookup(views, &object);
    if (view == NULL) {
      printf("#%" G_GUINT64_FORMAT " %s: there is no widget\n", object, told.id);
      differ++;
      continue;
    }
    compare_properties(view);
    compare_children(view, &told);
  }
  if (count == g_hash_table_size(views)) return;
  printf("%u objects, and %u widgets\n", count, g_hash_table_size(views));
  differ++;
}

/* ---- acting */

/* The widgets on which a person can act now, in the order of their objects; those that emit a signal too, or not. */
static GPtrArray *usable_views(bool with_emits) {
  GPtrArray *found = g_ptr_array_new();
  Told told;
  for (uint64_t object = 0; (object = next_told(object + 1, &told)) != 0; free_told(&told)) {
    View *view = g_hash_table_lookup(views, &object);
    bool is_acted = view != NULL && !view->is_made && (view->class->set != NULL || (with_emits && view->class->emit != NULL));
    if (is_acted && gtk_widget_is_sensitive(view->control) && gtk_widget_get_mapped(view->control)) g_ptr_array_add(found, view);
  }
  return found;
}

static void type(GtkEditable *entry) {
  static const char *texts[] = {"", "Ada", "correct horse", "a \"b\" \\ é☃", "Laptop", "\t", "<b>x</b>"};
  gtk_editable_set_text(entry, texts[pick(G_N_ELEMENTS(texts))]);
}

static void act_on(View *view) {
  GtkWidget *control = view->control;
  if (GTK_IS_BUTTON(control)) g_signal_emit_by_name(control, "clicked");
  else if (GTK_IS_SPIN_BUTTON(control)) gtk_spin_button_set_value(GTK_SPIN_BUTTON(control), (double)pick(90) - 15);
  else if (GTK_IS_SWITCH(control)) gtk_switch_set_active(GTK_SWITCH(control), !gtk_switch_get_active(GTK_SWITCH(control)));
  else if (GTK_IS_CHECK_BUTTON(control)) gtk_check_button_set_active(GTK_CHECK_BUTTON(control), !gtk_check_button_get_active(GTK_CHECK_BUTTON(control)));
  else if (pick(4) == 0) g_signal_emit_by_name(control, "activate");
  else type(GTK_EDITABLE(control));
}

/* Acts on one of the widgets, if there is one on which a person can. */
static bool act_once(bool with_emits) {
  GPtrArray *usable = usable_views(with_emits);
  bool can_act = usable->len > 0;
  if (can_act) act_on(g_ptr_array_index(usable, pick(usable->len)));
  g_ptr_array_unref(usable);
  return can_act;
}

/* Has the loop go on for so many milliseconds, and until the session is at rest. */
static void go_on_for(unsigned milliseconds) {
  gint64 until = g_get_monotonic_time() + 1000 * (gint64)milliseconds;
  do {
    if (!g_main_context_iteration(NULL, FALSE)) g_usleep(1000);
  } while (!course()->is_resting || g_get_monotonic_time() < until);
}

int check_widgets(GtkWidget *root, unsigned acts) {
  unsigned acted = 0;
  for (unsigned i = 0; i < acts; i++) {
    acted += act_once(true);
    go_on_for(i % 25 == 24 ? 400 : 0); /* so that some turns are made too */
    compare();
  }
  printf("%u acts, %u events and %u turns, %u of them refused; %u values of widgets compared with the session, %u differ\n", acted,
         course()->events - course()->turns, course()->turns, course()->refused, compared, differ);
  return differ > 0 || acted < acts;
}

/* ---- turns of the loop */

static gint64 turn_began, longest, longest_own;

/* The microseconds that the system has kept this thread waiting while it could run. */
static gint64 waited(void) {
  unsigned long long ran = 0, waited = 0;
  FILE *file = fopen("/proc/thread-self/schedstat", "r");
  if (file == NULL) return 0;
  int found = fscanf(file, "%llu %llu", &ran, &waited);
  fclose(file);
  return found == 2 ? (gint64)(waited / 1000) : 0;
}

/* What the loop calls once in each turn to hear of input. The time between two calls is that in which the window is not alive. */
static int poll_timed(GPollFD *files, guint count, int timeout) {
  static gint64 waited_before;
  gint64 busy = g_get_monotonic_time() - turn_began, own = busy - (waited() - waited_before);
  if (turn_began != 0) longest = MAX(longest, busy), longest_own = MAX(longest_own, own);
  int found = g_poll(files, count, timeout);
  turn_began = g_get_monotonic_time();
  waited_before = waited();
  return found;
}

static gboolean count_frame(GtkWidget *widget, GdkFrameClock *clock, gpointer frames) {
  ++*(unsigned *)frames;
  return G_SOURCE_CONTINUE;
}

static void press(const char *id) {
  GHashTableIter it;
  gpointer view;
  g_hash_table_iter_init(&it, views);
  while (g_hash_table_iter_next(&it, NULL, &view))
    if (g_str_equal(((View *)view)->id, id)) act_on(view);
}

/* In the first quarter of the time nothing waits, so the event is drawn while it is under way. */
int check_turns(GtkWidget *root, const char *id, unsigned seconds) {
  unsigned turns = 0, acts = 0, frames = 0;
  gint64 began = g_get_monotonic_time(), until = began + (gint64)seconds * 1000000;
  g_main_context_set_poll_func(NULL, poll_timed);
  gtk_widget_add_tick_callback(root, count_frame, &frames, NULL);
  press(id);
  for (; !course()->is_resting && g_get_monotonic_time() < until; turns++) {
    g_main_context_iteration(NULL, TRUE);
    if (turns % 100 == 99 && g_get_monotonic_time() > began + (until - began) / 4) acts += act_once(false);
  }
  printf("%.0f s of one event%s: %" G_GUINT64_FORMAT " counted steps in %" G_GUINT64_FORMAT " parts, %u turns of the loop, %u frames, %u acts\n",
         (g_get_monotonic_time() - began) / 1e6, course()->is_resting ? "" : ", which has not ended", course()->steps, course()->parts, turns, frames,
         acts);
  printf("the greatest gap between two turns: %.1f ms, and %.1f ms without what the system gave to other processes\n", longest / 1e3,
         longest_own / 1e3);
  if (course()->is_resting) compare();
  return longest_own > 50000 || turns < 10 || differ > 0;
}
