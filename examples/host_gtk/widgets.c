/* The widgets: one for each object, of the widget that has the name of the object's class, with the properties of the same names. */
#include "host.h"

/* The classes that are drawn as widgets. An object of any other class is a box for its children. */
static const Class classes[] = {
    {"Box", gtk_box_get_type, {"orientation"}, NULL, NULL},
    {"Button", gtk_button_get_type, {"label"}, NULL, "clicked"},
    {"CheckButton", gtk_check_button_get_type, {"active", "label"}, "active", NULL},
    {"Entry", gtk_entry_get_type, {"text", "placeholder-text"}, "text", "activate"},
    {"Group", gtk_box_get_type, {NULL}, NULL, NULL},
    {"Label", gtk_label_get_type, {"label"}, NULL, NULL},
    {"LevelBar", gtk_level_bar_get_type, {"max-value", "value"}, NULL, NULL},
    {"PasswordEntry", gtk_password_entry_get_type, {"text"}, "text", "activate"},
    {"SpinButton", gtk_spin_button_get_type, {"value"}, "value", NULL},
    {"Switch", gtk_switch_get_type, {"active"}, "active", NULL},
    {"", gtk_box_get_type, {NULL}, NULL, NULL},
};

GHashTable *views;
static bool is_drawing; /* what a widget says of its properties is then no act of a person */

static const Class *class_named(const char *name) {
  const Class *class = classes;
  while (class->name[0] != 0 && !g_str_equal(class->name, name)) class++;
  return class;
}

/* ---- properties */

const char *const *drawn_properties(const View *view) {
  static const char *all[7];
  int count = 0;
  for (const char *const *it = view->class->properties; count < 3 && it[count] != NULL; count++) all[count] = it[count];
  all[count++] = "visible", all[count++] = "sensitive";
  if (view->title != NULL) all[count++] = "title";
  all[count] = NULL;
  return all;
}

/* The widget that has a property of an object, and the property's name there. */
static GtkWidget *widget_of(View *view, const char **property) {
  if (g_str_equal(*property, "title")) {
    *property = "label";
    return view->title;
  }
  return g_str_equal(*property, "visible") || g_str_equal(*property, "sensitive") ? view->whole : view->control;
}

/* A plain text as a value of a widget's property. */
static void read_plain(const char *text, GValue *value) {
  if (G_VALUE_HOLDS_BOOLEAN(value)) g_value_set_boolean(value, g_str_equal(text, "true"));
  if (G_VALUE_HOLDS_STRING(value)) g_value_set_string(value, text);
  if (G_VALUE_HOLDS_DOUBLE(value)) g_value_set_double(value, g_ascii_strtod(text, NULL));
  if (G_VALUE_HOLDS_ENUM(value)) {
    GEnumValue *member = g_enum_get_value_by_nick(g_type_class_peek(G_VALUE_TYPE(value)), text);
    if (member != NULL) g_value_set_enum(value, member->value);
  }
}

static char *plain(const GValue *value) {
  if (G_VALUE_HOLDS_BOOLEAN(value)) return g_strdup(g_value_get_boolean(value) ? "true" : "false");
  if (G_VALUE_HOLDS_DOUBLE(value)) return g_strdup_printf("%.0f", g_value_get_double(value));
  if (G_VALUE_HOLDS_ENUM(value)) return g_strdup(g_enum_get_value(g_type_class_peek(G_VALUE_TYPE(value)), g_value_get_enum(value))->value_nick);
  return g_strdup(g_value_get_string(value) == NULL ? "" : g_value_get_string(value));
}

char *shown_value(View *view, const char *property) {
  GValue value = G_VALUE_INIT;
  GtkWidget *widget = widget_of(view, &property);
  g_object_get_property(G_OBJECT(widget), property, &value);
  char *text = plain(&value);
  g_value_unset(&value);
  return text;
}

/* Draws a property as the session has it, if it has it and the widget shows something else. */
static void draw_property(View *view, const char *property) {
  char *wanted = read_value(view->number, property), *shown = wanted == NULL ? NULL : shown_value(view, property);
  if (wanted != NULL && !g_str_equal(wanted, shown)) {
    GtkWidget *widget = widget_of(view, &property);
    GValue value = G_VALUE_INIT;
    g_value_init(&value, g_object_class_find_property(G_OBJECT_GET_CLASS(widget), property)->value_type);
    read_plain(wanted, &value);
    g_object_set_property(G_OBJECT(widget), property, &value);
    g_value_unset(&value);
  }
  g_free(wanted), g_free(shown);
}

/* ---- what a person does */

static void set(GObject *control, GParamSpec *spec, View *view) {
  if (is_drawing) return;
  char *text = shown_value(view, spec->name), *json = G_IS_PARAM_SPEC_STRING(spec) ? quoted(text) : g_strdup(text);
  send_event(g_strdup_printf("{\"set\":[\"%s\",\"%s\",%s]}", view->id, spec->name, json));
  g_free(text), g_free(json);
}

static void emit(GtkWidget *control, View *view) {
  send_event(g_strdup_printf("{\"emit\":[\"%s\",\"%s\",[]]}", view->id, view->class->emit));
}

static void hear(View *view) {
  if (view->is_made) { /* no event can name it */
    gtk_widget_set_can_target(view->control, FALSE);
    gtk_widget_set_focusable(view->control, FALSE);
    return;
  }
  char *notify = g_strconcat("notify::", view->class->set, NULL);
  if (view->class->set != NULL) g_signal_connect(view->control, notify, G_CALLBACK(set), view);
  if (view->class->emit != NULL) g_signal_connect(view->control, view->class->emit, G_CALLBACK(emit), view);
  g_free(notify);
}

/* ---- views */

static GtkWidget *make_control(const Class *class) {
  if (class->type() == GTK_TYPE_BOX) return g_object_new(GTK_TYPE_BOX, "orientation", GTK_ORIENTATION_VERTICAL, NULL);
  GtkWidget *control = g_object_new(class->type(), "valign", GTK_ALIGN_CENTER, NULL);
  if (GTK_IS_SPIN_BUTTON(control)) { /* the session says what is in the range, and the widget follows it */
    gtk_spin_button_set_range(GTK_SPIN_BUTTON(control), -G_MAXINT32, G_MAXINT32);
    gtk_spin_button_set_increments(GTK_SPIN_BUTTON(control), 1, 10);
    gtk_editable_set_width_chars(GTK_EDITABLE(control), 6);
  }
  if (GTK_IS_LABEL(control)) gtk_label_set_xalign(GTK_LABEL(control), 0);
  if (GTK_IS_LEVEL_BAR(control)) gtk_widget_set_size_request(control, 170, -1);
  return control;
}

/* Puts the widget into a line behind its title, and that into a box, in which the children follow. */
static void put_together(View *view) {
  bool is_box = GTK_IS_BOX(view->control);
  GtkWidget *line = gtk_box_new(is_box ? GTK_ORIENTATION_VERTICAL : GTK_ORIENTATION_HORIZONTAL, 8);
  view->whole = gtk_box_new(GTK_ORIENTATION_VERTICAL, 0);
  char *title = read_value(view->number, "title");
  if (title != NULL) {
    view->title = gtk_label_new("");
    gtk_label_set_xalign(GTK_LABEL(view->title), 0);
    gtk_widget_set_hexpand(view->title, !is_box);
    gtk_box_append(GTK_BOX(line), view->title);
  }
  gtk_widget_set_hexpand(view->control, GTK_IS_EDITABLE(view->control) && (title == NULL || *title == 0));
  g_free(title);
  gtk_widget_add_css_class(line, is_box ? "part" : "line");
  gtk_widget_add_css_class(view->control, view->class->name[0] == 0 ? "other" : view->class->name);
  gtk_box_append(GTK_BOX(line), view->control);
  gtk_box_append(GTK_BOX(view->whole), line);
  view->inside = is_box ? view->control : view->whole;
}

static View *make_view(uint64_t number, const Told *told) {
  View *view = g_new0(View, 1);
  view->number = number;
  view->id = g_strdup(told->id);
  view->is_made = told->is_made;
  view->class = class_named(told->class);
  view->control = make_control(view->class);
  put_together(view);
  g_object_ref_sink(view->whole);
  hear(view);
  g_hash_table_insert(views, &view->number, view);
  return view;
}

static void free_view(void *data) {
  View *view = data;
  GtkWidget *parent = gtk_widget_get_parent(view->whole);
  if (parent != NULL) gtk_box_remove(GTK_BOX(parent), view->whole);
  g_signal_handlers_disconnect_by_data(view->control, view);
  g_object_unref(view->whole);
  g_free(view->id), g_free(view);
}

/* ---- drawing */

/* Puts a view into a box, behind a widget there, or first. */
static void place(View *view, GtkWidget *box, GtkWidget *behind) {
  GtkWidget *parent = gtk_widget_get_parent(view->whole);
  if (parent == box && gtk_widget_get_prev_sibling(view->whole) == behind) return;
  if (parent != NULL && parent != box) gtk_box_remove(GTK_BOX(parent), view->whole);
  if (parent != box) gtk_box_append(GTK_BOX(box), view->whole);
  gtk_box_reorder_child_after(GTK_BOX(box), view->whole, behind);
}

/* Puts the views of an object's children into its box, in their order. */
static void place_children(View *view, const Told *told) {
  GtkWidget *behind = view->inside == view->whole ? gtk_widget_get_first_child(view->whole) : NULL;
  for (guint i = 0; i < told->children->len; i++) {
    View *child = g_hash_table_lookup(views, &g_array_index(told->children, uint64_t, i));
    if (child == NULL) continue;
    place(child, view->inside, behind);
    behind = child->whole;
  }
}

static gboolean is_gone(gpointer number, gpointer view, gpointer data) { return !((View *)view)->is_seen; }

/* Sees that each object has a view, and no other does. */
static void match_views(void) {
  GHashTableIter it;
  gpointer any;
  g_hash_table_iter_init(&it, views);
  while (g_hash_table_iter_next(&it, NULL, &any)) ((View *)any)->is_seen = false;
  Told told;
  for (uint64_t object = 0; (object = next_told(object + 1, &told)) != 0; free_told(&told)) {
    View *view = g_hash_table_lookup(views, &object);
    if (view == NULL) view = make_view(object, &told);
    view->is_seen = true;
  }
  g_hash_table_foreach_remove(views, is_gone, NULL);
}

void draw(GtkWidget *root) {
  if (views == NULL) views = g_hash_table_new_full(g_int64_hash, g_int64_equal, NULL, free_view);
  is_drawing = true;
  match_views();
  Told told;
  GtkWidget *behind = NULL;
  for (uint64_t object = 0; (object = next_told(object + 1, &told)) != 0; free_told(&told)) {
    View *view = g_hash_table_lookup(views, &object);
    for (const char *const *it = drawn_properties(view); *it != NULL; it++) draw_property(view, *it);
    if (view->title != NULL) gtk_widget_set_visible(view->title, *gtk_label_get_label(GTK_LABEL(view->title)) != 0);
    place_children(view, &told);
    if (told.parent != 0) continue;
    place(view, root, behind);
    behind = view->whole;
  }
  is_drawing = false;
}
