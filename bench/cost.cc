// Makes one call of versions.h, or a comparison of librpm or libapt-pkg, on the lines of standard input, for bench/cost
// to count its instructions:
//   cost CALL ROUNDS
// A round makes the call for each line. A comparison takes a line and the next, and the last line and the first.
// A round of versions_keys or versions_sort is one call for all lines. A round of qsort is versions_keys and
// the C library's sort by the keys, with ties by place.
#include <versions.h>

#include <algorithm>
#include <cstdlib>
#include <cstring>
#include <iostream>
#include <string>
#include <vector>
#ifdef WITH_RPM
#include <rpm/rpmver.h>
#endif
#ifdef WITH_APT
#include <apt-pkg/debversion.h>
#endif

// The sum of the results, so that the compiler leaves no call out.
static volatile long answers;

// The result of a call for a line and the next.
using Call = long (*)(const std::string &, const std::string &);

static long kind(const std::string &a, const std::string &) { return versions_kind(a.data(), a.size()); }

static long sort_key(const std::string &a, const std::string &) {
  static uint8_t key[1 << 16];
  size_t length = 0;
  versions_key(VERSIONS_MIXED, a.data(), a.size(), key, sizeof key, &length);
  return static_cast<long>(length);
}

static long compare(const std::string &a, const std::string &b) {
  int32_t order = 0;
  versions_compare(VERSIONS_MIXED, a.data(), a.size(), b.data(), b.size(), &order);
  return order;
}

static long compare_total(const std::string &a, const std::string &b) {
  int32_t order = 0;
  versions_compare_total(a.data(), a.size(), b.data(), b.size(), &order);
  return order;
}

static long matches(const std::string &a, const std::string &) {
  bool matches = false;
  versions_matches(">=1.2.3,<2.0.0", 14, a.data(), a.size(), &matches);
  return matches;
}

// The range of a list: its bounds and its flags.
static uint8_t low[64], high[64];
static size_t low_length, high_length;
static uint32_t flags;

static long range_of(const std::string &, const std::string &) {
  versions_range(">=1.2.3,<2.0.0", 14, low, sizeof low, &low_length, high, sizeof high, &high_length, &flags);
  return static_cast<long>(flags);
}

static long in_range(const std::string &a, const std::string &b) {
  bool is_in = false;
  if (flags == 0) range_of(a, b);
  versions_in_range(a.data(), a.size(), low, low_length, high, high_length, flags, &is_in);
  return is_in;
}

// The form of a set.
static std::vector<uint8_t> form_of(const std::string &text) {
  size_t length = 0;
  versions_set_bound(VERSIONS_MIXED, text.data(), text.size(), &length);
  std::vector<uint8_t> form(length);
  versions_set(VERSIONS_MIXED, text.data(), text.size(), form.data(), form.size(), &length);
  form.resize(length);
  return form;
}

static long set_of_two(const std::string &, const std::string &) {
  static uint8_t form[1024];
  size_t length = 0;
  versions_set(VERSIONS_MIXED, ">=1.2.3, <2.0.0", 15, form, sizeof form, &length);
  return static_cast<long>(length);
}

static long has(const std::vector<uint8_t> &form, const std::string &text) {
  bool has = false;
  versions_set_has(form.data(), form.size(), text.data(), text.size(), &has);
  return has;
}

static long has_one(const std::string &a, const std::string &) {
  static const std::vector<uint8_t> form = form_of(">=1.2.3, <2.0.0");
  return has(form, a);
}

static long has_sixteen(const std::string &a, const std::string &) {
  static const std::vector<uint8_t> form = [] {
    std::string text = ">=0.1 <0.2";
    for (int i = 1; i < 16; i++) text += " || >=" + std::to_string(i) + ".1 <" + std::to_string(i) + ".2";
    return form_of(text);
  }();
  return has(form, a);
}

static const struct {
  const char *name;
  Call call;
} calls[] = {
    {"versions_kind", kind},
    {"versions_key", sort_key},
    {"versions_compare", compare},
    {"versions_compare_total", compare_total},
    {"versions_matches", matches},
    {"versions_range", range_of},
    {"versions_in_range", in_range},
    {"versions_set", set_of_two},
    {"versions_set_has_of_one", has_one},
    {"versions_set_has_of_sixteen", has_sixteen},
#ifdef WITH_RPM
    {"rpmvercmp", [](const std::string &a, const std::string &b) -> long { return rpmvercmp(a.c_str(), b.c_str()); }},
#endif
#ifdef WITH_APT
    {"libapt-pkg",
     [](const std::string &a, const std::string &b) -> long {
       return debVS.DoCmpVersion(a.data(), a.data() + a.size(), b.data(), b.data() + b.size());
     }},
#endif
};

// All lines in one buffer, and the buffers for the results.
static std::string texts;
static std::vector<int64_t> offsets{0}, key_offsets;
static std::vector<uint8_t> keys;
static std::vector<uint64_t> order;

static long sort_keys() {
  return versions_keys(VERSIONS_MIXED, texts.data(), texts.size(), offsets.data(), offsets.size(), keys.data(),
                       keys.size(), key_offsets.data(), key_offsets.size());
}

static long sort() {
  versions_sort(VERSIONS_MIXED, texts.data(), texts.size(), offsets.data(), offsets.size(), keys.data(), keys.size(),
                key_offsets.data(), key_offsets.size(), order.data(), order.size());
  return static_cast<long>(order[0]);
}

static int by_key(const void *a, const void *b) {
  uint64_t x = *static_cast<const uint64_t *>(a), y = *static_cast<const uint64_t *>(b);
  int64_t length = key_offsets[x + 1] - key_offsets[x], other = key_offsets[y + 1] - key_offsets[y];
  int bytes = std::memcmp(&keys[key_offsets[x]], &keys[key_offsets[y]], std::min(length, other));
  if (bytes != 0) return bytes;
  return length != other ? (length > other) - (length < other) : (x > y) - (x < y);
}

static long sort_by_qsort() {
  sort_keys();
  for (size_t i = 0; i < order.size(); i++) order[i] = i;
  std::qsort(order.data(), order.size(), sizeof(uint64_t), by_key);
  return static_cast<long>(order[0]);
}

static const struct {
  const char *name;
  long (*call)();
} calls_for_all[] = {{"versions_keys", sort_keys}, {"versions_sort", sort}, {"qsort", sort_by_qsort}};

int main(int count, char **words) {
  std::vector<std::string> lines;
  for (std::string line; std::getline(std::cin, line);) {
    lines.push_back(line);
    texts += line;
    offsets.push_back(static_cast<int64_t>(texts.size()));
  }
  if (count != 3 || lines.empty()) return 2;
  keys.resize(3 * texts.size() + 5 * lines.size());
  key_offsets.resize(offsets.size());
  order.resize(lines.size());
  for (const auto &[name, call] : calls_for_all) {
    if (words[1] != std::string(name)) continue;
    for (int rounds = std::atoi(words[2]); rounds > 0; rounds--) answers = answers + call();
    return 0;
  }
  lines.push_back(lines.front());
  for (const auto &[name, call] : calls) {
    if (words[1] != std::string(name)) continue;
    for (int rounds = std::atoi(words[2]); rounds > 0; rounds--) {
      for (size_t i = 0; i + 1 < lines.size(); i++) answers = answers + call(lines[i], lines[i + 1]);
    }
    return 0;
  }
  return 2;
}
