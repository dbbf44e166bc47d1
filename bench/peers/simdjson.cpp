// The operations of the benchmark, done by simdjson's DOM. They take and return what those of bench_calls do. One parser
// serves all texts, as simdjson's users do it, and copies each text, since it reads some bytes past its end.
#include <simdjson.h>
#include <algorithm>
#include <cstdio>
#include <string>
#include <string_view>
#include <utility>
#include <vector>

using simdjson::dom::element;
using simdjson::dom::element_type;

static simdjson::dom::parser parser;

static bool parse(const unsigned char *text, size_t len, element &document) {
  return !parser.parse(reinterpret_cast<const char *>(text), len).get(document);
}

extern "C" size_t simdjson_bench_read(const unsigned char *text, size_t len, size_t rounds) {
  for (size_t round = 0; round < rounds; round++) {
    element document;
    if (!parse(text, len, document)) return round;
  }
  return rounds;
}

extern "C" size_t simdjson_bench_write(const unsigned char *text, size_t len, size_t rounds) {
  element document;
  if (!parse(text, len, document)) return 0;
  for (size_t round = 0; round < rounds; round++) {
    std::string written = simdjson::minify(document);
    if (written.empty()) return round;
  }
  return rounds;
}

extern "C" size_t simdjson_bench_part(const unsigned char *path, size_t path_len, const unsigned char *text, size_t len,
                                      size_t rounds) {
  std::string_view pointer(reinterpret_cast<const char *>(path), path_len);
  for (size_t round = 0; round < rounds; round++) {
    element document, part;
    if (!parse(text, len, document) || document.at_pointer(pointer).get(part)) return round;
    std::string written = simdjson::minify(part);
    if (written.empty()) return round;
  }
  return rounds;
}

// ---- text with sorted members, which simdjson doesn't write

using member = std::pair<std::string_view, element>;

static std::string written;
static std::vector<member> members;
static char digits[32];

static void append_escape(unsigned char byte) {
  switch (byte) {
    case '"': written += "\\\""; break;
    case '\\': written += "\\\\"; break;
    case '\n': written += "\\n"; break;
    case '\r': written += "\\r"; break;
    case '\t': written += "\\t"; break;
    default: written.append(digits, snprintf(digits, sizeof digits, "\\u%04x", byte));
  }
}

static void append_quoted(std::string_view string) {
  written.push_back('"');
  size_t from = 0;
  for (size_t i = 0; i < string.size(); i++) {
    unsigned char byte = string[i];
    if (byte >= 0x20 && byte != '"' && byte != '\\') continue;
    written.append(string.data() + from, i - from);
    append_escape(byte);
    from = i + 1;
  }
  written.append(string.data() + from, string.size() - from);
  written.push_back('"');
}

static bool append_sorted(element value);

static bool append_array(simdjson::dom::array items) {
  char mark = '[';
  for (element item : items) {
    written.push_back(mark);
    mark = ',';
    if (!append_sorted(item)) return false;
  }
  if (mark == '[') written.push_back(mark);
  written.push_back(']');
  return true;
}

static bool is_below(const member &left, const member &right) { return left.first < right.first; }

static bool append_object(simdjson::dom::object object) {
  size_t from = members.size();
  for (auto member : object) members.emplace_back(member.key, member.value);
  size_t end = members.size();
  auto first = members.begin() + from;
  if (!std::is_sorted(first, members.end(), is_below)) std::sort(first, members.end(), is_below);
  written.push_back('{');
  for (size_t i = from; i < end; i++) {
    if (i > from) {
      if (members[i].first == members[i - 1].first) return false;
      written.push_back(',');
    }
    append_quoted(members[i].first);
    written.push_back(':');
    element inner = members[i].second;
    if (!append_sorted(inner)) return false;
  }
  written.push_back('}');
  members.resize(from);
  return true;
}

static bool append_sorted(element value) {
  switch (value.type()) {
    case element_type::ARRAY: return append_array(simdjson::dom::array(value));
    case element_type::OBJECT: return append_object(simdjson::dom::object(value));
    case element_type::STRING: append_quoted(std::string_view(value)); return true;
    case element_type::INT64: written += std::to_string(int64_t(value)); return true;
    case element_type::UINT64: written += std::to_string(uint64_t(value)); return true;
    case element_type::BOOL: written += bool(value) ? "true" : "false"; return true;
    case element_type::NULL_VALUE: written += "null"; return true;
    default: return false;
  }
}

extern "C" size_t simdjson_bench_sorted(const unsigned char *text, size_t len, size_t rounds) {
  for (size_t round = 0; round < rounds; round++) {
    element document;
    written.clear();
    members.clear();
    if (!parse(text, len, document) || !append_sorted(document)) return round;
  }
  return rounds;
}
