/* A host for panels of strangers, with GTK 4: it starts a session from a definition, and draws its objects as widgets.
 *
 *   host_gtk DEFINITION [--events FILE] [--picture FILE | --check ACTS | --turns ID [--seconds N]]
 *
 * --events sends the lines of a file first. The other words end the host: when it has drawn, with a picture in a file; when it has acted so many
 * times and compared all widgets with the session; when it has pressed a button, and gone on acting while its event was under way, for at most so many seconds. */
#include "host.h"

static const char *style =
    "window { background: #f2f2f4; } .part > label { font-weight: bold; margin-top: 8px; }"
    ".root > box > .part, .Box { padding: 6px 12px; } .line { padding: 6px; min-height: 34px; }"
    ".Group { background: white; border-radius: 12px; border: 1px solid #d8d8dc; padding: 4px 10px; }"
    ".Group > box:not(:first-child) > .line { border-top: 1px solid #ececef; } .Box .line, .Box.line { padding: 2px; }";

static char *definition, *events, *picture, *press;
static int acts, seconds = 10, status;
static GtkWidget *window, *root;

static void draw_all(void) { draw(root); }

/* Has the loop go on until the session is at rest. */
static void come_to_rest(void) {
  while (!course()->is_resting) g_main_context_iteration(NULL, TRUE);
}

static void send_lines(const char *file) {
  char *bytes;
  if (!g_file_get_contents(file, &bytes, NULL, NULL)) g_error("cannot read %s", file);
  char **lines = g_strsplit(bytes, "\n", -1);
  for (char **line = lines; *line != NULL; line++)
    if (**line != 0) send_event(g_strdup(*line));
  g_strfreev(lines);
  g_free(bytes);
}

/* Writes a picture of the window as it is now. */
static void save_picture(const char *file) {
  for (gint64 until = g_get_monotonic_time() + 700000; g_get_monotonic_time() < until;) g_main_context_iteration(NULL, FALSE);
  int width = gtk_widget_get_width(window), height = gtk_widget_get_height(window);
  GdkPaintable *paintable = gtk_widget_paintable_new(window);
  GtkSnapshot *snapshot = gtk_snapshot_new();
  gdk_paintable_snapshot(paintable, snapshot, width, height);
  GskRenderNode *node = gtk_snapshot_free_to_node(snapshot);
  GdkTexture *texture = gsk_renderer_render_texture(gtk_native_get_renderer(GTK_NATIVE(window)), node, &GRAPHENE_RECT_INIT(0, 0, width, height));
  if (!gdk_texture_save_to_png(texture, file)) status = 1;
  g_object_unref(texture), g_object_unref(paintable);
  gsk_render_node_unref(node);
}

/* Does what the words ask for, and ends the host, where they ask for something. */
static gboolean act(gpointer is_refused) {
  bool ends = picture != NULL || acts > 0 || press != NULL;
  if (!is_refused) {
    if (events != NULL) send_lines(events);
    come_to_rest();
    if (acts > 0) status = check_widgets(root, acts);
    if (press != NULL) status = check_turns(root, press, seconds);
  }
  if (picture != NULL) save_picture(picture);
  if (ends) gtk_window_destroy(GTK_WINDOW(window));
  return G_SOURCE_REMOVE;
}

static void open_window(GtkApplication *app, gpointer data) {
  GtkCssProvider *provider = gtk_css_provider_new();
  gtk_css_provider_load_from_data(provider, style, -1);
  gtk_style_context_add_provider_for_display(gdk_display_get_default(), GTK_STYLE_PROVIDER(provider), GTK_STYLE_PROVIDER_PRIORITY_APPLICATION);
  g_object_unref(provider);
  window = gtk_application_window_new(app);
  g_signal_connect(window, "destroy", G_CALLBACK(finish_session), NULL);
  root = gtk_box_new(GTK_ORIENTATION_VERTICAL, 0);
  gtk_widget_add_css_class(root, "root");
  gtk_window_set_child(GTK_WINDOW(window), root);
  gtk_window_set_default_size(GTK_WINDOW(window), 460, -1);
  gtk_window_set_decorated(GTK_WINDOW(window), picture == NULL);
  char *bytes;
  size_t length;
  if (!g_file_get_contents(definition, &bytes, &length, NULL)) g_error("cannot read %s", definition);
  char *reason = start_session(bytes, length, draw_all);
  g_free(bytes);
  if (reason != NULL) {
    gtk_box_append(GTK_BOX(root), gtk_label_new(reason));
    g_printerr("%s\n", reason);
    status = 1;
  }
  g_idle_add(act, GINT_TO_POINTER(reason != NULL));
  g_free(reason);
  gtk_window_present(GTK_WINDOW(window));
}

int main(int count, char **words) {
  const GOptionEntry options[] = {{"events", 0, 0, G_OPTION_ARG_FILENAME, &events, NULL, NULL},
                                  {"picture", 0, 0, G_OPTION_ARG_FILENAME, &picture, NULL, NULL},
                                  {"check", 0, 0, G_OPTION_ARG_INT, &acts, NULL, NULL},
                                  {"turns", 0, 0, G_OPTION_ARG_STRING, &press, NULL, NULL},
                                  {"seconds", 0, 0, G_OPTION_ARG_INT, &seconds, NULL, NULL},
                                  {NULL, 0, 0, 0, NULL, NULL, NULL}};
  GOptionContext *context = g_option_context_new("DEFINITION");
  g_option_context_add_main_entries(context, options, NULL);
  if (!g_option_context_parse(context, &count, &words, NULL) || count != 2) return 64;
  g_option_context_free(context);
  definition = words[1];
  GtkApplication *app = gtk_application_new(NULL, G_APPLICATION_NON_UNIQUE);
  g_signal_connect(app, "activate", G_CALLBACK(open_window), NULL);
  g_application_run(G_APPLICATION(app), 1, words);
  g_object_unref(app);
  return status;
}
