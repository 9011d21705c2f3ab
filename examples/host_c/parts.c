/* Calls the functions of the library in many orders, and says where one answers otherwise than the header says. Status 1 where one does. */
#include "gelvopaun.h"

#include <stdio.h>
#include <stdlib.h>
#include <string.h>

static const char *emits =
    "{\"format\":1,\"classes\":[{\"name\":\"Box\",\"signals\":[{\"name\":\"s\"},{\"name\":\"t\"},{\"name\":\"wait\"},{\"name\":\"rest\"}],"
    "\"class-handlers\":[[\"s\",\"c\"],[\"t\",\"e\"],[\"wait\",\"w\"],[\"rest\",\"r\"]]}],\"programs\":["
    "{\"name\":\"c\",\"params\":[\"some:Box\"],\"registers\":1,\"blocks\":[{\"code\":[[\"emit\",null,0,\"t\",null,[]],[\"return\",null]]}]},"
    "{\"name\":\"e\",\"params\":[\"some:Box\"],\"registers\":1,\"blocks\":[{\"code\":[[\"return\",null]]}]},"
    "{\"name\":\"w\",\"params\":[\"some:Box\"],\"registers\":2,\"blocks\":[{\"code\":[[\"timeout\",1,\"tick\",0,10,null],[\"return\",null]]}]},"
    "{\"name\":\"r\",\"params\":[\"some:Box\"],\"registers\":2,\"blocks\":[{\"code\":[[\"idle\",1,\"tick\",0,null],[\"return\",null]]}]},"
    "{\"name\":\"tick\",\"registers\":1,\"result\":\"bool\",\"blocks\":[{\"code\":[[\"const\",0,\"bool\",true],[\"return\",0]]}]}],"
    "\"objects\":[{\"id\":\"b\",\"class\":\"Box\"}]}";

static int failed = 0;
static gelvopaun_ui ui;
static char text[1024];

static void want(const char *what, unsigned long is, unsigned long wanted) {
  if (is == wanted) return;
  printf("%s: %lu, and not %lu\n", what, is, wanted);
  failed = 1;
}

static uint8_t dispatch(const char *line) { return gelvopaun_dispatch(&ui, (const uint8_t *)line, strlen(line), (uint8_t *)text, sizeof text); }
static uint8_t begin(const char *line) { return gelvopaun_begin(&ui, (const uint8_t *)line, strlen(line), (uint8_t *)text, sizeof text); }

static void take(const char *what, const char *wanted) {
  size_t count = gelvopaun_take_lines(&ui, (uint8_t *)text, sizeof text);
  if (count == strlen(wanted) && memcmp(text, wanted, count) == 0) return;
  printf("%s: said %.*s\n", what, (int)count, text);
  failed = 1;
}

/* Without a session, with one at rest, and with an event under way. */
static void call_in_all_orders(void) {
  want("without a session: begin", begin("{\"turn\":1}"), GELVOPAUN_NO_SESSION);
  want("without a session: advance", gelvopaun_advance(&ui, 1), GELVOPAUN_NO_SESSION);
  want("start", gelvopaun_start((const uint8_t *)emits, strlen(emits), &ui, (uint8_t *)text, sizeof text), GELVOPAUN_DONE);
  take("build", "build\nconstruct #1 Box\nend 0\n");
  want("at rest: advance", gelvopaun_advance(&ui, 1), GELVOPAUN_AT_REST);
  want("begin a refused line", begin("{\"emit\":[\"b\",\"u\",[]]}"), GELVOPAUN_LINE_REFUSED);
  want("its reason", strcmp(text, "Unknown"), 0);
  want("begin", begin("{\"emit\":[\"b\",\"s\",[]]}"), GELVOPAUN_UNDER_WAY);
  want("under way: no reason", strlen(text), 0);
  want("under way: begin", begin("{\"turn\":1}"), GELVOPAUN_BUSY);
  want("under way: dispatch", dispatch("{\"turn\":1}"), GELVOPAUN_BUSY);
  want("no step", gelvopaun_advance(&ui, 0), GELVOPAUN_UNDER_WAY);
  want("two steps", gelvopaun_advance(&ui, 2), GELVOPAUN_UNDER_WAY);
  take("two steps", "emit #1.s()\nrun c\n");
  want("three more", gelvopaun_advance(&ui, UINT64_MAX), GELVOPAUN_DONE);
  take("three more", "emit #1.t()\nrun e\nend 5\n");
  want("after it: advance", gelvopaun_advance(&ui, 1), GELVOPAUN_AT_REST);
  want("a turn of nothing", begin("{\"turn\":5}"), GELVOPAUN_DONE);
}

static void wait_for_turns(void) {
  uint64_t moment = 7;
  want("nothing waits", gelvopaun_next_due(&ui, &moment), GELVOPAUN_DUE_NEVER);
  want("nothing waits: the moment stays", moment, 7);
  want("wait", dispatch("{\"emit\":[\"b\",\"wait\",[]]}"), GELVOPAUN_DONE);
  want("a timeout", gelvopaun_next_due(&ui, &moment), GELVOPAUN_DUE_AT);
  want("its moment", moment, 15);
  want("a turn after it", dispatch("{\"turn\":17}"), GELVOPAUN_DONE);
  want("again", gelvopaun_next_due(&ui, &moment), GELVOPAUN_DUE_AT);
  want("its next moment", moment, 27);
  want("rest", dispatch("{\"emit\":[\"b\",\"rest\",[]]}"), GELVOPAUN_DONE);
  want("an idle", gelvopaun_next_due(&ui, &moment), GELVOPAUN_DUE_NOW);
}

static void tell(const char *what, size_t length, const char *wanted) {
  if (length == strlen(wanted) && strcmp(text, wanted) == 0) return;
  printf("%s: %s, and not %s\n", what, text, wanted);
  failed = 1;
}

static size_t describe(uint64_t object) { return gelvopaun_describe(&ui, object, (uint8_t *)text, sizeof text); }
static size_t get(uint64_t object, const char *property) { return gelvopaun_get(&ui, object, (const uint8_t *)property, strlen(property), (uint8_t *)text, sizeof text); }
static size_t tell_class(const char *name) { return gelvopaun_class(&ui, (const uint8_t *)name, strlen(name), (uint8_t *)text, sizeof text); }

/* What there is of a session and its classes, also while an event is under way. */
static void read_objects(void) {
  static const char *panel =
      "{\"format\":1,\"enums\":[{\"name\":\"Mode\",\"members\":[[\"MODE_NULL\",\"null\",0]]}],"
      "\"classes\":[{\"name\":\"Box\",\"properties\":[{\"name\":\"on\",\"kind\":\"bool\"},{\"name\":\"label\",\"kind\":\"text\",\"default\":\"a\\\"b\"},"
      "{\"name\":\"mode\",\"kind\":\"enum:Mode\"},{\"name\":\"to\",\"kind\":\"object:Box\"}]}],"
      "\"objects\":[{\"id\":\"a\",\"class\":\"Box\",\"properties\":[{\"name\":\"to\",\"value\":\"b\"}],\"children\":[{\"id\":\"b\",\"class\":\"Box\"}]}]}";
  want("without a session: next", gelvopaun_next_object(&ui, 1), 0);
  tell("without a session: describe", describe(1), "");
  want("start", gelvopaun_start((const uint8_t *)panel, strlen(panel), &ui, (uint8_t *)text, sizeof text), GELVOPAUN_DONE);
  want("the first", gelvopaun_next_object(&ui, 0), 1);
  want("the second", gelvopaun_next_object(&ui, 2), 2);
  want("no third", gelvopaun_next_object(&ui, 3), 0);
  want("by id", gelvopaun_object(&ui, (const uint8_t *)"b", 1), 2);
  want("by no id", gelvopaun_object(&ui, (const uint8_t *)"c", 1), 0);
  tell("a", describe(1), "{\"id\":\"a\",\"prototype\":false,\"class\":\"Box\",\"parent\":null,\"children\":[2],\"disposed\":false}");
  tell("b", describe(2), "{\"id\":\"b\",\"prototype\":false,\"class\":\"Box\",\"parent\":1,\"children\":[],\"disposed\":false}");
  tell("on", get(1, "on"), "false");
  tell("label", get(1, "label"), "\"a\\\"b\"");
  tell("mode", get(1, "mode"), "\"null\"");
  tell("to", get(1, "to"), "{\"object\":2}");
  tell("no such property", get(1, "off"), "");
  want("no room", gelvopaun_get(&ui, 1, (const uint8_t *)"on", 2, (uint8_t *)text, 0), 5);
  tell("Box", tell_class("Box"),
       "{\"name\":\"Box\",\"parent\":\"GObject\",\"abstract\":false,\"final\":false,\"interfaces\":[],\"properties\":["
       "{\"name\":\"on\",\"owner\":\"Box\",\"kind\":\"bool\",\"flags\":[\"readable\",\"writable\"],\"default\":false},"
       "{\"name\":\"label\",\"owner\":\"Box\",\"kind\":\"text\",\"flags\":[\"readable\",\"writable\"],\"default\":\"a\\\"b\"},"
       "{\"name\":\"mode\",\"owner\":\"Box\",\"kind\":\"enum:Mode\",\"flags\":[\"readable\",\"writable\"],\"default\":\"null\"},"
       "{\"name\":\"to\",\"owner\":\"Box\",\"kind\":\"object:Box\",\"flags\":[\"readable\",\"writable\"],\"weak\":false,\"default\":null}],"
       "\"signals\":[{\"name\":\"notify\",\"owner\":\"GObject\",\"params\":[],\"result\":\"none\",\"flags\":[\"run-first\",\"detailed\"]}]}");
  tell("no such class", tell_class("Mode"), "");
  gelvopaun_finish(&ui);
  tell("without a session: class", tell_class("Box"), "");
}

/* A report that was cut has no zero byte, and one that is whole has one behind it. */
static void cut_report(void) {
  static char report[4096], cut[4096];
  want("verify", gelvopaun_verify((const uint8_t *)emits, strlen(emits), (uint8_t *)report, sizeof report), GELVOPAUN_DONE);
  size_t length = strlen(report);
  for (size_t room = 0; room <= length + 7; room += 7) {
    memset(cut, 1, sizeof cut);
    want("verify again", gelvopaun_verify((const uint8_t *)emits, strlen(emits), (uint8_t *)cut, room), GELVOPAUN_DONE);
    want("cut: a zero byte", memchr(cut, 0, sizeof cut) != NULL, room > length);
    want("cut: as the whole", memcmp(cut, report, room < length ? room : length), 0);
    size_t whole = 0;
    want("report", gelvopaun_report((const uint8_t *)emits, strlen(emits), (uint8_t *)cut, room, &whole), GELVOPAUN_DONE);
    want("report: its length", whole, length);
  }
}

static uint8_t start_within(uint64_t most) { return gelvopaun_start_within((const uint8_t *)emits, strlen(emits), &ui, most, (uint8_t *)text, sizeof text); }

/* The greatest bound of a report. A definition starts with this limit, and not with a lower one. */
static uint64_t greatest_bound(void) {
  static char report[4096];
  uint64_t greatest = 0;
  want("verify", gelvopaun_verify((const uint8_t *)emits, strlen(emits), (uint8_t *)report, sizeof report), GELVOPAUN_DONE);
  for (const char *at = strstr(report, " bound "); at != NULL; at = strstr(at, " bound ")) {
    at += strlen(" bound ");
    uint64_t bound = strtoull(at, NULL, 10);
    if (bound > greatest) greatest = bound;
  }
  return greatest;
}

static void start_with_limits(void) {
  uint64_t greatest = greatest_bound();
  want("within", start_within(greatest), GELVOPAUN_DONE);
  tell("within: no refusal", strlen(text), "");
  want("beyond", start_within(greatest - 1), GELVOPAUN_DEFINITION_REFUSED);
  tell("beyond: the reason", strlen(text), "StepLimit");
  want("beyond: no session", gelvopaun_next_object(&ui, 1), 0);
  want("not read", gelvopaun_start_within((const uint8_t *)"[", 1, &ui, 0, (uint8_t *)text, sizeof text), GELVOPAUN_DEFINITION_REFUSED);
  gelvopaun_finish(&ui);
}

/* A session can be ended while an event is under way. */
static void end_midway(void) {
  want("begin", begin("{\"emit\":[\"b\",\"s\",[]]}"), GELVOPAUN_UNDER_WAY);
  gelvopaun_finish(&ui);
  want("ended: advance", gelvopaun_advance(&ui, 1), GELVOPAUN_NO_SESSION);
  gelvopaun_finish(&ui);
}

int main(void) {
  tell("version", gelvopaun_version((uint8_t *)text, sizeof text), GELVOPAUN_VERSION);
  call_in_all_orders();
  wait_for_turns();
  end_midway();
  read_objects();
  cut_report();
  start_with_limits();
  return failed;
}
