// Tries include/vizhoniku.hpp: packaging/try builds it over the installed library, and runs it under valgrind too. The
// last line counts what was compared; the status is 1 where something differs.
#include <iostream>
#include <map>
#include <unordered_set>

#include "vizhoniku.hpp"

using vizhoniku::document;
using vizhoniku::key_view;
using vizhoniku::mode;

static int compared = 0, differing = 0;

template <typename Found, typename Wanted>
static void same(const char *what, const Found &found, const Wanted &wanted) {
  compared++;
  if (found == wanted) return;
  differing++;
  std::cout << what << ": " << found << ", not " << wanted << "\n";
}

// The status of the error that a call throws.
template <typename Call>
static std::uint32_t thrown(Call call) {
  try {
    call();
  } catch (const vizhoniku::error &error) {
    return error.status;
  }
  return VIZHONIKU_ACCEPTED;
}

static void texts() {
  same("text", vizhoniku::text("{b: 0x1F, /* x */ a: [, +.5]} // end", mode::extended), R"({"a":[null,0.5],"b":31})");
  same("text of exponents", vizhoniku::text("[1e5, 1.50e-7]", mode::json), "[100000,0.000000150]");
  same("text of nothing", vizhoniku::text("", mode::extended), "null");
  same("equal", vizhoniku::compare("16.00", "0x10", mode::extended), 0);
  same("below", vizhoniku::compare("[1, 2]", "[1, 3]", mode::standard) < 0, true);
  same("above", vizhoniku::compare("true", "false", mode::standard) > 0, true);
  same("keys", vizhoniku::sort_key("1.50", mode::json) == vizhoniku::sort_key("1.5", mode::json), true);
  // Each character takes six of the text, so that the first buffer is too short.
  const std::string text = '"' + std::string(1000, 'x') + "\\u0001" + '"';
  std::string controls = "\"";
  for (int count = 0; count < 1000; count++) controls += "\\u0001";
  same("long text", vizhoniku::text(text, mode::json), text);
  const document of_controls(controls + '"', mode::json);
  same("text of controls", of_controls.text(), controls + '"');
  same("key of controls", of_controls.key().string()->size(), 1000u);
}

static void errors() {
  try {
    vizhoniku::check("{\n  \"port\": 8080,\n  \"port\": 8081\n}", mode::standard);
    same("rejected", false, true);
  } catch (const vizhoniku::rejected &error) {
    same("message", std::string(error.what()), "line 3, column 8: duplicate object attribute \"port\"");
    same("code", error.code, VIZHONIKU_OBJECT_DUPLICATE_KEY);
    same("path", error.path, "/port");
    same("offset", error.location.index, 25u);
    same("which", error.which, 1u);
  }
  try {
    vizhoniku::compare("1", "[\n[x", mode::extended);
    same("rejected", false, true);
  } catch (const vizhoniku::rejected &error) {
    same("message of the second", std::string(error.what()), "line 2, column 2: expected value");
    same("second", error.which, 2u);
  }
  same("no mode", thrown([] { vizhoniku::check("1", static_cast<mode>(4)); }), VIZHONIKU_UNKNOWN_MODE);
  same("no mode for a text", thrown([] { vizhoniku::text("1", static_cast<mode>(4)); }), VIZHONIKU_UNKNOWN_MODE);
  same("no key", thrown([] { key_view("x"); }), VIZHONIKU_NO_KEY);
  same("no document", thrown([] { document(std::string("x")); }), VIZHONIKU_NO_DOCUMENT);
  const document one("[1]", mode::json);
  same("no path", thrown([&] { one.key().pointer("0"); }), VIZHONIKU_NO_PATH);
  const document deep(std::string(512, '[') + std::string(512, ']'), mode::json);
  same("too deep", thrown([&] { one.push(deep); }), VIZHONIKU_TOO_DEEP);
}

static void keys() {
  const document order(R"({"id": 17, "open": true, "tags": ["x", 2.50], "user": {"name": "ann"}})", mode::json);
  const key_view key = order.key();
  same("kind", key.kind() == vizhoniku::kind::object, true);
  same("count", key.count(), 4u);
  same("count of a scalar", key.get("id")->count(), 0u);
  same("integer", key.get("id")->integer().value_or(0), 17);
  same("no integer", key.pointer("/tags/1")->integer().has_value(), false);
  same("boolean", key.get("open")->boolean().value_or(false), true);
  same("string", key.pointer("/user/name")->string().value_or(""), "ann");
  same("no string", key.get("id")->string().has_value(), false);
  same("item", key.get("tags")->item(-1)->text(), "2.5");
  same("no item", key.get("tags")->item(2).has_value(), false);
  same("no member", key.get("none").has_value(), false);
  same("no path", key.pointer("/user/none").has_value(), false);
  const document some(R"({"tags": ["x"]})", mode::json), other(R"({"tags": ["y"]})", mode::json);
  same("contains", key.contains(some.key()), true);
  same("doesn't contain", key.contains(other.key()), false);
  std::string parts;
  for (const auto &[name, value] : key.parts()) parts += name + "=" + value.text() + ";";
  for (const auto &[name, value] : key.get("tags")->parts()) parts += name + value.text() + ";";
  same("parts", parts, R"(id=17;open=true;tags=["x",2.5];user={"name":"ann"};"x";2.5;)");
  same("parts of a scalar", key.get("id")->parts().size(), 0u);
  same("key of its bytes", key_view(key.bytes()) == key, true);
}

static void documents() {
  const document order(R"({"price": 1.50, "tags": []})", mode::json);
  same("digits", order.text(), R"({"price":1.50,"tags":[]})");
  same("document of its bytes", document(order.bytes()).text(), order.text());
  same("part", order.pointer("/price")->text(), "1.50");
  same("no part", order.pointer("/none").has_value(), false);
  const document two("2.0", mode::json);
  same("set", order.set("/price", two)->text(), R"({"price":2.0,"tags":[]})");
  same("added", order.set("/count", two)->text(), R"({"count":2.0,"price":1.50,"tags":[]})");
  same("not added", order.set("/count", two, false).has_value(), false);
  same("removed", order.remove("/tags")->text(), R"({"price":1.50})");
  same("nothing removed", order.remove("/none").has_value(), false);
  same("put", order.put("a~b", two)->text(), R"({"a~b":2.0,"price":1.50,"tags":[]})");
  same("pushed", order.pointer("/tags")->push(two)->text(), "[2.0]");
  same("not pushed", order.push(two).has_value(), false);
  same("merged", order.merge(document(R"({"tags": null})", mode::json)).text(), R"({"price":1.50,"tags":null})");

  // By value, and of equal values by the zeros.
  const document shorter("1.5", mode::json), longer("1.50", mode::json);
  same("equal keys", shorter.key() == longer.key(), true);
  same("documents of equal values", shorter == longer, false);
  std::map<document, int> sorted;
  for (const char *text : {"null", "\"a\"", "10", "9.5", "{\"a\": 1}", "[]", "true"})
    sorted.emplace(document(text, mode::json), 1);
  std::string texts;
  for (const auto &[value, count] : sorted) texts += value.text() + ";";
  same("order", texts, R"(true;9.5;10;"a";{"a":1};[];null;)");
  const std::unordered_set<document> distinct = {order, document(order.bytes()), two};
  same("distinct", distinct.size(), 2u);
  same("hashes", std::hash<key_view>()(shorter.key()) == std::hash<key_view>()(longer.key()), true);
}

int main() {
  texts();
  errors();
  keys();
  documents();
  std::cout << compared << " compared, " << differing << " differ\n";
  return differing ? 1 : 0;
}
