// The operations of the benchmark, done by RapidJSON's DOM. They take and return what those of bench_calls do.
#include <rapidjson/document.h>
#include <rapidjson/pointer.h>
#include <rapidjson/stringbuffer.h>
#include <rapidjson/writer.h>
#include <algorithm>
#include <string_view>

using rapidjson::Document;
using rapidjson::StringBuffer;
using rapidjson::Value;

static bool parse(const unsigned char *text, size_t len, Document &document) {
  document.Parse(reinterpret_cast<const char *>(text), len);
  return !document.HasParseError();
}

static bool write(const Value &value, StringBuffer &written) {
  written.Clear();
  rapidjson::Writer<StringBuffer> writer(written);
  return value.Accept(writer);
}

extern "C" size_t rapidjson_bench_read(const unsigned char *text, size_t len, size_t rounds) {
  for (size_t round = 0; round < rounds; round++) {
    Document document;
    if (!parse(text, len, document)) return round;
  }
  return rounds;
}

extern "C" size_t rapidjson_bench_write(const unsigned char *text, size_t len, size_t rounds) {
  Document document;
  if (!parse(text, len, document)) return 0;
  StringBuffer written;
  for (size_t round = 0; round < rounds; round++)
    if (!write(document, written)) return round;
  return rounds;
}

extern "C" size_t rapidjson_bench_part(const unsigned char *path, size_t path_len, const unsigned char *text, size_t len,
                                       size_t rounds) {
  StringBuffer written;
  for (size_t round = 0; round < rounds; round++) {
    Document document;
    if (!parse(text, len, document)) return round;
    const Value *part = rapidjson::Pointer(reinterpret_cast<const char *>(path), path_len).Get(document);
    if (!part || !write(*part, written)) return round;
  }
  return rounds;
}

// ---- text with sorted members, which RapidJSON doesn't write

static std::string_view name_of(const Value::Member &member) {
  return { member.name.GetString(), member.name.GetStringLength() };
}

static bool is_below(const Value::Member &left, const Value::Member &right) { return name_of(left) < name_of(right); }

/* Sorts the members of all objects. False where a key is repeated. */
static bool sort_members(Value &value) {
  if (value.IsArray()) {
    for (auto &item : value.GetArray())
      if (!sort_members(item)) return false;
  } else if (value.IsObject()) {
    auto from = value.MemberBegin(), to = value.MemberEnd();
    if (!std::is_sorted(from, to, is_below)) std::sort(from, to, is_below);
    for (auto at = from; at != to; ++at) {
      if (at != from && name_of(*at) == name_of(*(at - 1))) return false;
      if (!sort_members(at->value)) return false;
    }
  }
  return true;
}

extern "C" size_t rapidjson_bench_sorted(const unsigned char *text, size_t len, size_t rounds) {
  StringBuffer written;
  for (size_t round = 0; round < rounds; round++) {
    Document document;
    if (!parse(text, len, document) || !sort_members(document) || !write(document, written)) return round;
  }
  return rounds;
}
