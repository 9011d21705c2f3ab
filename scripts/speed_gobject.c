/* The work of scripts/speed on real GObject: a class with int properties and signals, objects of it, and lines that set, read and emit.
 *
 *     speed_gobject DEF EVENTS
 *
 * It reads the same two files as `ui run` and writes the same transcript, for definitions with one class at most whose properties are
 * of the kind int and whose signals have no arguments, for programs of one block with `const`, `set`, `add`, `idle`, `timeout` and
 * `return` over whole numbers and truth values, for bindings without flags, and for the events set, get, emit and turn. Anything else
 * ends it with status 1, so that nothing is compared that it can't do. The moments of turns are those of the events, so its timeouts are
 * sources of its own kind, with GLib's priorities and order.
 */
#include <glib-object.h>
#include <json-glib/json-glib.h>
#include <stdio.h>
#include <stdlib.h>
#include <string.h>
#include <sys/types.h>

typedef struct {
  GObject parent;
  guint identity;
  gint *values;
} Box;

typedef struct {
  GObjectClass parent;
} BoxClass;

static guint property_count;
static const char **property_names;
static guint counted;
static GHashTable *programs;
static gint64 moment;

static void give_up(const char *why) {
  fprintf(stderr, "speed_gobject: %s\n", why);
  exit(1);
}

static void box_set_property(GObject *object, guint id, const GValue *value, GParamSpec *spec) {
  Box *box = (Box *)object;
  box->values[id - 1] = g_value_get_int(value);
  printf("set #%u.%s %d\n", box->identity, spec->name, box->values[id - 1]);
}

static void box_get_property(GObject *object, guint id, GValue *value, GParamSpec *spec) {
  (void)spec;
  g_value_set_int(value, ((Box *)object)->values[id - 1]);
}

static void box_finalize(GObject *object) {
  GObjectClass *parent = g_type_class_peek(G_TYPE_OBJECT);
  g_free(((Box *)object)->values);
  parent->finalize(object);
}

static void box_class_init(gpointer class, gpointer data) {
  GObjectClass *objects = class;
  (void)data;
  objects->set_property = box_set_property;
  objects->get_property = box_get_property;
  objects->finalize = box_finalize;
  for (guint i = 0; i < property_count; i++)
    g_object_class_install_property(
        objects, i + 1, g_param_spec_int(property_names[i], NULL, NULL, G_MININT, G_MAXINT, 0, G_PARAM_READWRITE));
}

static void box_init(GTypeInstance *instance, gpointer class) {
  (void)class;
  ((Box *)instance)->values = g_new0(gint, property_count);
}

static void on_notify(GObject *object, GParamSpec *spec, gpointer data) {
  (void)data;
  printf("notify #%u.%s\n", ((Box *)object)->identity, spec->name);
  counted++;
}

/* An instruction, with what it names looked up. */
typedef struct {
  enum { CONST, SET, ADD, IDLE, TIMEOUT } word;
  gint a, b;
  gint64 c;
  const char *name;
} Instruction;

typedef struct {
  const char *name;
  guint length;
  Instruction *code;
  gint result; /* the register of the result, or -1 */
} Program;

static Program *read_program(JsonObject *entry) {
  JsonArray *blocks = json_object_get_array_member(entry, "blocks");
  JsonArray *code = json_object_get_array_member(json_array_get_object_element(blocks, 0), "code");
  Program *program = g_new0(Program, 1);
  program->name = json_object_get_string_member(entry, "name");
  program->result = -1;
  program->code = g_new0(Instruction, json_array_get_length(code));
  for (guint i = 0; i < json_array_get_length(code); i++) {
    JsonArray *words = json_array_get_array_element(code, i);
    const char *word = json_array_get_string_element(words, 0);
    Instruction *instruction = &program->code[program->length];
    if (strcmp(word, "return") == 0) {
      if (!json_array_get_null_element(words, 1))
        program->result = json_array_get_int_element(words, 1);
      break;
    }
    instruction->a = json_array_get_int_element(words, 1);
    if (strcmp(word, "const") == 0) {
      gboolean is_bool = strcmp(json_array_get_string_element(words, 2), "bool") == 0;
      instruction->word = CONST;
      instruction->b = is_bool ? json_array_get_boolean_element(words, 3) : json_array_get_int_element(words, 3);
    } else if (strcmp(word, "idle") == 0 || strcmp(word, "timeout") == 0) {
      gboolean is_timeout = *word == 't';
      instruction->word = is_timeout ? TIMEOUT : IDLE;
      instruction->name = json_array_get_string_element(words, 2);
      instruction->b = json_array_get_int_element(words, 3);
      if (is_timeout)
        instruction->c = json_array_get_int_element(words, 4);
      if (!json_array_get_null_element(words, is_timeout ? 5 : 4))
        give_up("a source has data");
    } else if (strcmp(word, "set") == 0) {
      instruction->word = SET;
      instruction->name = json_array_get_string_element(words, 2);
      instruction->b = json_array_get_int_element(words, 3);
    } else if (strcmp(word, "add") == 0) {
      instruction->word = ADD;
      instruction->b = json_array_get_int_element(words, 2);
      instruction->c = json_array_get_int_element(words, 3);
    } else {
      give_up("an instruction is another than const, set, add, idle, timeout and return");
    }
    program->length++;
  }
  return program;
}

/* A source of the main loop that is ready from a moment of turns on. */
typedef struct {
  GSource source;
  const Program *program;
  gboolean is_idle;
  gint64 due, interval;
} Attached;

static gboolean is_ready(GSource *source) {
  Attached *attached = (Attached *)source;
  return attached->is_idle || attached->due <= moment;
}

static gboolean prepare_attached(GSource *source, gint *timeout) {
  *timeout = -1;
  return is_ready(source);
}

static gint carry_out(GObject *object, const Program *program);

static gboolean dispatch_attached(GSource *source, GSourceFunc callback, gpointer data) {
  Attached *attached = (Attached *)source;
  (void)callback;
  (void)data;
  counted = 0;
  gboolean stays = carry_out(NULL, attached->program);
  attached->due = moment + attached->interval;
  printf("end %u\n", counted);
  return stays;
}

static GSourceFuncs attached_funcs = {prepare_attached, is_ready, dispatch_attached, NULL, NULL, NULL};

static void attach(const Instruction *instruction) {
  Attached *attached = (Attached *)g_source_new(&attached_funcs, sizeof(Attached));
  attached->program = g_hash_table_lookup(programs, instruction->name);
  attached->is_idle = instruction->word == IDLE;
  attached->interval = instruction->c;
  attached->due = moment + instruction->c;
  if (!attached->program)
    give_up("a source has no program");
  g_source_set_priority(&attached->source, instruction->b);
  g_source_attach(&attached->source, NULL);
  g_source_unref(&attached->source);
}

/* The result of a program: a number, or 0 where it has none. */
static gint carry_out(GObject *object, const Program *program) {
  GValue registers[32] = {G_VALUE_INIT};
  printf("run %s\n", program->name);
  for (guint i = 0; i < program->length; i++) {
    const Instruction *instruction = &program->code[i];
    GValue *to = &registers[instruction->a];
    counted++;
    if (instruction->word == SET) {
      g_object_set_property(object, instruction->name, &registers[instruction->b]);
      continue;
    }
    if (!G_IS_VALUE(to))
      g_value_init(to, G_TYPE_INT);
    if (instruction->word == IDLE || instruction->word == TIMEOUT) {
      attach(instruction);
      g_value_set_int(to, TRUE);
    } else if (instruction->word == CONST)
      g_value_set_int(to, instruction->b);
    else
      g_value_set_int(to, (gint)((guint)g_value_get_int(&registers[instruction->b]) + (guint)g_value_get_int(&registers[instruction->c])));
  }
  counted++;
  return program->result < 0 ? 0 : g_value_get_int(&registers[program->result]);
}

static void run_program(GObject *object, gpointer data) { carry_out(object, data); }

static void connect_signals(Box *box, JsonObject *entry) {
  if (!json_object_has_member(entry, "signals"))
    return;
  JsonArray *signals = json_object_get_array_member(entry, "signals");
  for (guint i = 0; i < json_array_get_length(signals); i++) {
    JsonObject *signal = json_array_get_object_element(signals, i);
    gpointer program = g_hash_table_lookup(programs, json_object_get_string_member(signal, "handler"));
    g_signal_connect(box, json_object_get_string_member(signal, "name"), G_CALLBACK(run_program), program);
  }
}

static void read_programs(JsonObject *root) {
  programs = g_hash_table_new(g_str_hash, g_str_equal);
  if (!json_object_has_member(root, "programs"))
    return;
  JsonArray *entries = json_object_get_array_member(root, "programs");
  for (guint i = 0; i < json_array_get_length(entries); i++) {
    Program *program = read_program(json_array_get_object_element(entries, i));
    g_hash_table_insert(programs, (gpointer)program->name, program);
  }
}

/* What a binding does with a value: a counted step. */
static gboolean transfer(GBinding *binding, const GValue *from, GValue *to, gpointer data) {
  (void)binding;
  (void)data;
  counted++;
  g_value_copy(from, to);
  return TRUE;
}

static void bind_properties(GHashTable *ids, Box *box, JsonObject *entry) {
  if (!json_object_has_member(entry, "properties"))
    return;
  JsonArray *properties = json_object_get_array_member(entry, "properties");
  for (guint i = 0; i < json_array_get_length(properties); i++) {
    JsonObject *property = json_array_get_object_element(properties, i);
    if (!json_object_has_member(property, "bind"))
      give_up("a property is given");
    const char *name = json_object_get_string_member(property, "name");
    JsonObject *bind = json_object_get_object_member(property, "bind");
    if (json_object_get_size(bind) != 1)
      give_up("a binding has more than a source");
    Box *source = g_hash_table_lookup(ids, json_object_get_string_member(bind, "source"));
    if (!source)
      give_up("a binding has no source");
    g_object_bind_property_full(source, name, box, name, G_BINDING_DEFAULT, transfer, NULL, NULL, NULL);
  }
}

static void add_signals(GType type, JsonObject *class) {
  if (!json_object_has_member(class, "signals"))
    return;
  JsonArray *signals = json_object_get_array_member(class, "signals");
  for (guint i = 0; i < json_array_get_length(signals); i++)
    g_signal_new(json_object_get_string_member(json_array_get_object_element(signals, i), "name"), type, G_SIGNAL_RUN_LAST, 0, NULL, NULL,
                 NULL, G_TYPE_NONE, 0);
}

static GType register_class(JsonObject *class) {
  static const GTypeInfo info = {
      .class_size = sizeof(BoxClass), .class_init = box_class_init, .instance_size = sizeof(Box), .instance_init = box_init};
  JsonArray *properties = json_object_get_array_member(class, "properties");
  property_count = json_array_get_length(properties);
  property_names = g_new0(const char *, property_count);
  for (guint i = 0; i < property_count; i++) {
    JsonObject *property = json_array_get_object_element(properties, i);
    if (strcmp(json_object_get_string_member(property, "kind"), "int") != 0)
      give_up("a property is of another kind than int");
    property_names[i] = json_object_get_string_member(property, "name");
  }
  GType type = g_type_register_static(G_TYPE_OBJECT, json_object_get_string_member(class, "name"), &info, 0);
  g_type_class_ref(type);
  add_signals(type, class);
  return type;
}

static GHashTable *build(JsonObject *root) {
  GHashTable *ids = g_hash_table_new(g_str_hash, g_str_equal);
  puts("build");
  if (json_object_has_member(root, "objects")) {
    JsonArray *classes = json_object_get_array_member(root, "classes");
    if (json_array_get_length(classes) != 1)
      give_up("there is not one class");
    GType type = register_class(json_array_get_object_element(classes, 0));
    read_programs(root);
    JsonArray *objects = json_object_get_array_member(root, "objects");
    for (guint i = 0; i < json_array_get_length(objects); i++) {
      JsonObject *entry = json_array_get_object_element(objects, i);
      Box *box = g_object_new(type, NULL);
      box->identity = i + 1;
      printf("construct #%u %s\n", box->identity, G_OBJECT_TYPE_NAME(box));
      g_signal_connect(box, "notify", G_CALLBACK(on_notify), NULL);
      connect_signals(box, entry);
      g_hash_table_insert(ids, (gpointer)json_object_get_string_member(entry, "id"), box);
    }
    for (guint i = 0; i < json_array_get_length(objects); i++) {
      JsonObject *entry = json_array_get_object_element(objects, i);
      bind_properties(ids, g_hash_table_lookup(ids, json_object_get_string_member(entry, "id")), entry);
    }
  }
  puts("end 0");
  return ids;
}

static void emit(GHashTable *ids, JsonArray *words) {
  Box *box = g_hash_table_lookup(ids, json_array_get_string_element(words, 0));
  const char *name = json_array_get_string_element(words, 1);
  if (!box || json_array_get_length(json_array_get_array_element(words, 2)) != 0)
    give_up("an emission is by no object, or has arguments");
  counted = 1;
  printf("emit #%u.%s()\n", box->identity, name);
  g_signal_emit_by_name(box, name);
  printf("end %u\n", counted);
}

static void turn(gint64 at) {
  moment = at;
  printf("turn %" G_GINT64_FORMAT "\n", moment);
  g_main_context_iteration(NULL, FALSE);
}

static void serve(GHashTable *ids, JsonObject *event) {
  if (json_object_has_member(event, "turn")) {
    turn(json_object_get_int_member(event, "turn"));
    return;
  }
  if (json_object_has_member(event, "emit")) {
    emit(ids, json_object_get_array_member(event, "emit"));
    return;
  }
  gboolean sets = json_object_has_member(event, "set");
  JsonArray *words = json_object_get_array_member(event, sets ? "set" : "get");
  Box *box = words ? g_hash_table_lookup(ids, json_array_get_string_element(words, 0)) : NULL;
  if (!box)
    give_up("an event is no set, get or emission of an object");
  const char *name = json_array_get_string_element(words, 1);
  GValue value = G_VALUE_INIT;
  g_value_init(&value, G_TYPE_INT);
  counted = 0;
  if (sets) {
    g_value_set_int(&value, (gint)json_array_get_int_element(words, 2));
    g_object_set_property(G_OBJECT(box), name, &value);
  } else {
    g_object_get_property(G_OBJECT(box), name, &value);
    printf("get #%u.%s %d\n", box->identity, name, g_value_get_int(&value));
  }
  g_value_unset(&value);
  printf("end %u\n", counted);
}

static JsonObject *object_of(JsonParser *parser) {
  JsonNode *root = json_parser_get_root(parser);
  if (!root || !JSON_NODE_HOLDS_OBJECT(root))
    give_up("a text is no object");
  return json_node_get_object(root);
}

int main(int count, char **words) {
  if (count != 3)
    give_up("usage: speed_gobject DEF EVENTS");
  JsonParser *definition = json_parser_new();
  if (!json_parser_load_from_file(definition, words[1], NULL))
    give_up("the definition can't be read");
  GHashTable *ids = build(object_of(definition));
  FILE *events = fopen(words[2], "r");
  if (!events)
    give_up("the events can't be read");
  JsonParser *parser = json_parser_new();
  char *line = NULL;
  size_t room = 0;
  ssize_t length;
  while ((length = getline(&line, &room, events)) > 0) {
    if (!json_parser_load_from_data(parser, line, length, NULL))
      give_up("a line is no JSON");
    serve(ids, object_of(parser));
  }
  return fflush(stdout) == 0 ? 0 : 1;
}
