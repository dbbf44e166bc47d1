// Vizhoniku for C++17: the calls of vizhoniku.h with strings that own what is written, the order of values as
// operators, and exceptions. docs/C.md has an example.
//
// A text, a name and a path are any bytes. Where memory runs out a call throws std::bad_alloc, and else a
// vizhoniku::error: of a text that is no document of its mode vizhoniku::rejected, which tells where and why.
#ifndef VIZHONIKU_HPP
#define VIZHONIKU_HPP

#include <cstddef>
#include <cstdint>
#include <functional>
#include <new>
#include <optional>
#include <stdexcept>
#include <string>
#include <string_view>
#include <utility>
#include <vector>

#include "vizhoniku.h"

namespace vizhoniku {

enum class mode : std::uint32_t {
  standard = VIZHONIKU_STANDARD,
  extended = VIZHONIKU_EXTENDED,
  json = VIZHONIKU_JSON,
  extended_json = VIZHONIKU_EXTENDED_JSON
};

enum class kind : std::uint32_t {
  none = VIZHONIKU_NO_KIND,
  null = VIZHONIKU_NULL,
  boolean = VIZHONIKU_BOOLEAN,
  number = VIZHONIKU_NUMBER,
  string = VIZHONIKU_STRING,
  array = VIZHONIKU_ARRAY,
  object = VIZHONIKU_OBJECT
};

// A call that failed, with its status of enum vizhoniku_status.
struct error : std::runtime_error {
  error(std::uint32_t number, const std::string &why) : std::runtime_error(why), status(number) {}
  std::uint32_t status;
};

// A text that is no document of its mode. what() is such as `line 3, column 8: duplicate object attribute "port"`.
struct rejected : error {
  rejected(const vizhoniku_error &found, const vizhoniku_location &shown, const std::string &reason, std::string part)
      : error(VIZHONIKU_REJECTED, "line " + std::to_string(shown.line) + ", column " + std::to_string(shown.column) +
                                      ": " + reason),
        code(static_cast<vizhoniku_code>(found.code)), which(found.which), location(shown), path(std::move(part)) {}
  vizhoniku_code code;
  std::uint32_t which;          // 1 for the only or the first text, 2 for the second
  vizhoniku_location location;  // the byte to show
  std::string path;             // the path (RFC 6901) of the part with the fault
};

namespace detail {

inline const unsigned char *start(std::string_view bytes) {
  return reinterpret_cast<const unsigned char *>(bytes.data());
}

[[noreturn]] inline void fail(std::uint32_t status) {
  if (status == VIZHONIKU_OUT_OF_MEMORY) throw std::bad_alloc();
  throw error(status, status == VIZHONIKU_UNKNOWN_MODE  ? "no mode has this number"
                      : status == VIZHONIKU_NO_PATH     ? "the path isn't a JSON Pointer (RFC 6901), or not UTF-8"
                      : status == VIZHONIKU_NO_KEY      ? "the bytes aren't the sort key of a value"
                      : status == VIZHONIKU_TOO_DEEP    ? "more than 512 arrays and objects would be nested"
                      : status == VIZHONIKU_NO_DOCUMENT ? "the bytes aren't the document of a value"
                                                        : "the call failed");
}

inline void expect(std::uint32_t status) {
  if (status != VIZHONIKU_ACCEPTED) fail(status);
}

// What a call writes to a buffer, which first has this size: nothing where it says that there is no such part.
template <typename Call>
std::optional<std::string> written(std::size_t size, Call call) {
  std::string made;
  std::uint32_t status;
  do {
    made.resize(size);
    status = call(reinterpret_cast<unsigned char *>(made.data()), made.size(), &size);
  } while (status == VIZHONIKU_TOO_SHORT);
  if (status == VIZHONIKU_NO_PART) return std::nullopt;
  expect(status == VIZHONIKU_REJECTED ? std::uint32_t{VIZHONIKU_ACCEPTED} : status);
  made.resize(size);
  return made;
}

// The same of a call over bytes, that is passed these words.
template <typename Call, typename... Words>
std::optional<std::string> made(std::size_t size, Call call, Words... words) {
  return written(size, [&](unsigned char *to, std::size_t capacity, std::size_t *needed) {
    return call(words..., to, capacity, needed);
  });
}

// Throws where the text isn't accepted.
inline void expect(std::uint32_t status, mode mode, std::string_view text, const vizhoniku_error &error) {
  if (status != VIZHONIKU_REJECTED) return expect(status);
  const auto number = static_cast<std::uint32_t>(mode);
  vizhoniku_location location;
  vizhoniku_locate(start(text), text.size(), &error, &location);
  throw rejected(error, location, *made(64, vizhoniku_reason, number, start(text), text.size()),
                 *made(64, vizhoniku_error_path, number, start(text), text.size(), &error));
}

// What a call makes of a text.
template <typename Call>
std::string of_text(Call call, std::string_view text, mode mode) {
  vizhoniku_error error;
  std::uint32_t status = VIZHONIKU_ACCEPTED;
  auto made = written(text.size() + 16, [&](unsigned char *to, std::size_t capacity, std::size_t *size) {
    return status = call(static_cast<std::uint32_t>(mode), start(text), text.size(), to, capacity, size, &error);
  });
  expect(status, mode, text, error);
  return *std::move(made);
}

}  // namespace detail

// Throws where the text is no document of the mode.
inline void check(std::string_view text, mode mode) {
  vizhoniku_error error;
  detail::expect(vizhoniku_check(static_cast<std::uint32_t>(mode), detail::start(text), text.size(), &error), mode,
                 text, error);
}

// The text of the value: without whitespace, and the members of objects in the order of their names.
inline std::string text(std::string_view text, mode mode) { return detail::of_text(vizhoniku_text, text, mode); }

// The bytes of the value's sort key.
inline std::string sort_key(std::string_view text, mode mode) {
  return detail::of_text(vizhoniku_sort_key, text, mode);
}

// Below 0, 0 or above 0, as the value of the left text is below, equal to or above that of the right one.
inline int compare(std::string_view left, std::string_view right, mode mode) {
  vizhoniku_error error;
  std::int32_t order;
  const auto status = vizhoniku_compare(static_cast<std::uint32_t>(mode), detail::start(left), left.size(),
                                        detail::start(right), right.size(), &order, &error);
  detail::expect(status, mode, error.which == 2 ? right : left, error);
  return order;
}

// The sort key of a value, or of a part in it: bytes that are borrowed, as of std::string_view. No text is parsed for a
// part, and no memory taken.
class key_view {
 public:
  // The key that these bytes are; a second argument false leaves out the check, of bytes that a call here wrote.
  explicit key_view(std::string_view bytes, bool is_checked = true) : bytes_(bytes) {
    if (is_checked) detail::expect(vizhoniku_key_check(start(), size()));
  }
  std::string_view bytes() const { return bytes_; }
  // With the fewest digits in each number.
  std::string text() const { return *detail::made(2 * size() + 16, vizhoniku_key_text, start(), size()); }
  vizhoniku::kind kind() const { return static_cast<vizhoniku::kind>(vizhoniku_key_kind(start(), size())); }
  // How many items or members: 0 of a scalar.
  std::size_t count() const {
    std::size_t count;
    return vizhoniku_key_count(start(), size(), &count) == VIZHONIKU_ACCEPTED ? count : 0;
  }

  // The value of the member of this name, the item of an index (-1 is the last), the part at a path (RFC 6901).
  std::optional<key_view> get(std::string_view name) const {
    return part(vizhoniku_key_member, detail::start(name), name.size());
  }
  std::optional<key_view> item(std::int64_t index) const { return part(vizhoniku_key_item, index); }
  std::optional<key_view> pointer(std::string_view path) const {
    return part(vizhoniku_key_part, detail::start(path), path.size());
  }

  // The items of an array, with empty names, or the members of an object in the order of their names.
  std::vector<std::pair<std::string, key_view>> parts() const {
    std::vector<std::pair<std::string, key_view>> found;
    vizhoniku_key_cursor cursor;
    vizhoniku_key_entry entry;
    if (vizhoniku_key_begin(start(), size(), &cursor) != VIZHONIKU_ACCEPTED) return found;
    while (vizhoniku_key_next(start(), size(), &cursor, &entry) == VIZHONIKU_ACCEPTED) {
      const auto *at = start() + entry.name_offset;
      found.emplace_back(entry.name_size ? *detail::made(entry.name_size, vizhoniku_key_name, at, entry.name_size) : "",
                         key_view(bytes_.substr(entry.offset, entry.size), false));
    }
    return found;
  }

  // The value, where it is of this kind, and an integer only where it has 64 bits.
  std::optional<std::string> string() const { return detail::made(size(), vizhoniku_key_string, start(), size()); }
  std::optional<bool> boolean() const {
    std::uint32_t value;
    return vizhoniku_key_boolean(start(), size(), &value) ? std::nullopt : std::optional(value == 1);
  }
  std::optional<std::int64_t> integer() const {
    std::int64_t value;
    return vizhoniku_key_integer(start(), size(), &value) ? std::nullopt : std::optional(value);
  }

  // Whether the value has all of the other, as @> of PostgreSQL's jsonb.
  bool contains(key_view other) const {
    return vizhoniku_key_contains(start(), size(), other.start(), other.size()) == VIZHONIKU_ACCEPTED;
  }

 private:
  const unsigned char *start() const { return detail::start(bytes_); }
  std::size_t size() const { return bytes_.size(); }

  template <typename Call, typename... Words>
  std::optional<key_view> part(Call call, Words... words) const {
    std::size_t offset, part_size;
    const std::uint32_t status = call(start(), size(), words..., &offset, &part_size);
    if (status == VIZHONIKU_NO_PART) return std::nullopt;
    detail::expect(status);
    return key_view(bytes_.substr(offset, part_size), false);
  }

  std::string_view bytes_;
};

// The document of a value, which owns its bytes: the sort key, and the zeros that end decimals, so that 1.50 stays.
class document {
 public:
  document(std::string_view text, mode mode) : bytes_(detail::of_text(vizhoniku_document, text, mode)) {}
  // The document that these bytes are; a second argument false leaves out the check, of bytes that a call here wrote.
  explicit document(std::string bytes, bool is_checked = true) : bytes_(std::move(bytes)) {
    if (is_checked) detail::expect(vizhoniku_document_check(start(), size()));
  }
  const std::string &bytes() const { return bytes_; }
  std::string text() const { return *detail::made(2 * size() + 16, vizhoniku_document_text, start(), size()); }
  // The key of the value, in the bytes of this document.
  key_view key() const & {
    return key_view(std::string_view(bytes_).substr(0, vizhoniku_document_key(start(), size())), false);
  }
  key_view key() const && = delete;

  // The part at a path; and the changed document, or nothing where nothing changes, as where the path leads nowhere.
  std::optional<document> pointer(std::string_view path) const {
    return changed(0, vizhoniku_document_part, detail::start(path), path.size());
  }
  std::optional<document> set(std::string_view path, const document &part, bool create = true) const {
    return changed(path.size() + part.size(), vizhoniku_document_set, detail::start(path), path.size(), part.start(),
                   part.size(), std::uint32_t{create});
  }
  std::optional<document> remove(std::string_view path) const {
    return changed(0, vizhoniku_document_remove, detail::start(path), path.size());
  }
  std::optional<document> put(std::string_view name, const document &value) const {
    return changed(name.size() + value.size(), vizhoniku_document_put, detail::start(name), name.size(), value.start(),
                   value.size());
  }
  std::optional<document> push(const document &item) const {
    return changed(item.size(), vizhoniku_document_push, item.start(), item.size());
  }
  document merge(const document &right) const {
    return *changed(right.size(), vizhoniku_document_merge, right.start(), right.size());
  }

 private:
  const unsigned char *start() const { return detail::start(bytes_); }
  std::size_t size() const { return bytes_.size(); }

  template <typename Call, typename... Words>
  std::optional<document> changed(std::size_t more, Call call, Words... words) const {
    auto bytes = detail::made(size() + more + 16, call, start(), size(), words...);
    return bytes ? std::optional(document(*std::move(bytes), false)) : std::nullopt;
  }

  std::string bytes_;
};

// Values in their order. Documents of equal values are in that of their zeros.
#define VIZHONIKU_OPERATOR(sign)                                                                               \
  inline bool operator sign(const key_view &left, const key_view &right) { return left.bytes() sign right.bytes(); } \
  inline bool operator sign(const document &left, const document &right) { return left.bytes() sign right.bytes(); }
VIZHONIKU_OPERATOR(==)
VIZHONIKU_OPERATOR(!=)
VIZHONIKU_OPERATOR(<)
VIZHONIKU_OPERATOR(<=)
VIZHONIKU_OPERATOR(>)
VIZHONIKU_OPERATOR(>=)
#undef VIZHONIKU_OPERATOR

}  // namespace vizhoniku

template <>
struct std::hash<vizhoniku::key_view> {
  std::size_t operator()(const vizhoniku::key_view &key) const { return hash<string_view>()(key.bytes()); }
};

template <>
struct std::hash<vizhoniku::document> {
  std::size_t operator()(const vizhoniku::document &document) const { return hash<string>()(document.bytes()); }
};

#endif
