// A host in C++: the session is a value that frees itself, and what a call tells is a std::string. It says where the library answers otherwise
// than the header says, with status 1.
#include <gelvopaun.h>

#include <cstring>
#include <iostream>
#include <string>

namespace {

// A session of a definition, or none.
class Session {
public:
  explicit Session(const std::string &definition) {
    char refusal[256];
    status = gelvopaun_start(bytes(definition), definition.size(), &ui, reinterpret_cast<std::uint8_t *>(refusal), sizeof refusal);
    reason = status == GELVOPAUN_DEFINITION_REFUSED ? refusal : "";
  }
  ~Session() { gelvopaun_finish(&ui); }
  Session(const Session &) = delete;
  Session &operator=(const Session &) = delete;

  // Carries an event out in parts of so many counted steps, and answers how it ended.
  std::uint8_t carry_out(const std::string &line, std::uint64_t steps) {
    std::uint8_t outcome = gelvopaun_begin(&ui, bytes(line), line.size(), nothing, 0);
    while (outcome == GELVOPAUN_UNDER_WAY) outcome = gelvopaun_advance(&ui, steps);
    return outcome;
  }

  std::uint64_t object(const std::string &id) { return gelvopaun_object(&ui, bytes(id), id.size()); }

  std::string describe(std::uint64_t object) {
    return told([&](std::uint8_t *out, std::size_t room) { return gelvopaun_describe(&ui, object, out, room); });
  }

  std::string get(std::uint64_t object, const std::string &property) {
    return told([&](std::uint8_t *out, std::size_t room) { return gelvopaun_get(&ui, object, bytes(property), property.size(), out, room); });
  }

  std::string lines() {
    std::string said;
    std::uint8_t piece[16];
    while (std::size_t count = gelvopaun_take_lines(&ui, piece, sizeof piece)) said.append(reinterpret_cast<char *>(piece), count);
    return said;
  }

  std::uint8_t status = GELVOPAUN_NO_SESSION;
  std::string reason;

private:
  static const std::uint8_t *bytes(const std::string &text) { return reinterpret_cast<const std::uint8_t *>(text.data()); }

  // What a call writes: first it is asked how long that is.
  template <typename Call> std::string told(Call call) {
    std::string text(call(nothing, 0), '\0');
    call(reinterpret_cast<std::uint8_t *>(&text[0]), text.size());
    return text;
  }

  gelvopaun_ui ui = {};
  std::uint8_t nothing[1] = {};
};

bool failed = false;

template <typename A, typename B> void want(const char *what, const A &is, const B &wanted) {
  if (is == wanted) return;
  std::cout << what << ": " << is << ", and not " << wanted << "\n";
  failed = true;
}

const char *panel = R"({"format":1,"classes":[
  {"name":"Switch","properties":[{"name":"active","kind":"bool"}]},
  {"name":"Entry","properties":[{"name":"sensitive","kind":"bool"},{"name":"text","kind":"text","default":"a \"b\""}]}],
 "objects":[{"id":"protect","class":"Switch"},{"id":"password","class":"Entry","properties":[
  {"name":"sensitive","bind":{"source":"protect","property":"active","flags":["sync-create"]}}]}]})";

} // namespace

int main() {
  want("the version", GELVOPAUN_CHECK_VERSION(0, 36, 0) && !GELVOPAUN_CHECK_VERSION(GELVOPAUN_VERSION_MAJOR + 1, 0, 0), true);
  want("a refusal", Session("{}").reason, "Shape /format");
  Session session(panel);
  want("start", +session.status, +GELVOPAUN_DONE);
  want("the field", session.get(session.object("password"), "sensitive"), "false");
  session.lines();
  want("a set", +session.carry_out(R"({"set":["protect","active",true]})", 1), +GELVOPAUN_DONE);
  want("its lines", session.lines(), "set #1.active TRUE\nnotify #1.active\nset #2.sensitive TRUE\nnotify #2.sensitive\nend 3\n");
  want("the field then", session.get(session.object("password"), "sensitive"), "true");
  want("a text", session.get(2, "text"), R"("a \"b\"")");
  want("an object", session.describe(1), R"({"id":"protect","prototype":false,"class":"Switch","parent":null,"children":[],"disposed":false})");
  want("a wrong line", +session.carry_out("{", 1), +GELVOPAUN_LINE_REFUSED);
  return failed;
}
