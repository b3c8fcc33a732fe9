// Times the calls of versions.h on the lines of standard input, in nanoseconds of processor time, and the comparisons
// of librpm and of libapt-pkg if bench/c found their headers. A comparison takes a line and the next.
#include <versions.h>

#include <cstdio>
#include <ctime>
#include <iostream>
#include <iterator>
#include <string>
#include <vector>
#ifdef WITH_RPM
#include <rpm/rpmver.h>
#endif
#ifdef WITH_APT
#include <apt-pkg/debversion.h>
#endif

static std::vector<std::string> lines;

// The sum of the results, so that the compiler leaves no call out.
static volatile long answers;

static double seconds() {
  timespec now;
  clock_gettime(CLOCK_PROCESS_CPUTIME_ID, &now);
  return now.tv_sec + now.tv_nsec * 1e-9;
}

// The best of nine times for one line.
template <typename Work>
static double nanoseconds(Work work) {
  double best = 1e9;
  for (int run = 0; run < 9; run++) {
    double begin = seconds();
    answers = answers + work();
    double took = seconds() - begin;
    if (took < best) best = took;
  }
  return best / lines.size() * 1e9;
}

// The time for a comparison of each line with the next.
template <typename Compare>
static double compared(Compare compare) {
  return nanoseconds([&] {
    long sum = 0;
    for (size_t i = 0; i + 1 < lines.size(); i++) sum += compare(lines[i], lines[i + 1]);
    return sum;
  });
}

static void show(const char *name, double time) { printf("%-24s %8.1f ns\n", name, time); }

int main() {
  std::string line, texts;
  std::vector<int64_t> offsets{0};
  while (std::getline(std::cin, line)) {
    texts += line;
    offsets.push_back(static_cast<int64_t>(texts.size()));
    lines.push_back(line);
  }
  size_t count = lines.size(), bound = 3 * texts.size() + 5 * count;
  std::vector<uint8_t> keys(bound), kinds(count);
  std::vector<int64_t> key_offsets(count + 1);

  double compare = compared([](const std::string &a, const std::string &b) {
    int32_t order = 0;
    versions_compare(VERSIONS_MIXED, a.data(), a.size(), b.data(), b.size(), &order);
    return order;
  });
  show("versions_compare", compare);
  double total = compared([](const std::string &a, const std::string &b) {
    int32_t order = 0;
    versions_compare_total(a.data(), a.size(), b.data(), b.size(), &order);
    return order;
  });
  show("versions_compare_total", total);

  double key = nanoseconds([&] {
    long sum = 0;
    for (const std::string &text : lines) {
      size_t length = 0;
      versions_key(VERSIONS_MIXED, text.data(), text.size(), keys.data(), bound, &length);
      sum += length;
    }
    return sum;
  });
  show("versions_key", key);
  double key_of_many = nanoseconds([&] {
    versions_keys(VERSIONS_MIXED, texts.data(), texts.size(), offsets.data(), count + 1, keys.data(), bound,
                  key_offsets.data(), count + 1);
    return key_offsets[count];
  });
  show("versions_keys", key_of_many);

  double kind = nanoseconds([] {
    long sum = 0;
    for (const std::string &text : lines) sum += versions_kind(text.data(), text.size());
    return sum;
  });
  show("versions_kind", kind);
  double kind_of_many = nanoseconds([&] {
    versions_kinds(texts.data(), texts.size(), offsets.data(), count + 1, kinds.data(), count);
    return kinds[count - 1];
  });
  show("versions_kinds", kind_of_many);

  const std::string list = ">=1.2.3,<2.0.0";
  double match = nanoseconds([&] {
    long sum = 0;
    for (const std::string &text : lines) {
      bool matches = false;
      versions_matches(list.data(), list.size(), text.data(), text.size(), &matches);
      sum += matches;
    }
    return sum;
  });
  show("versions_matches", match);
  double match_of_many = nanoseconds([&] {
    versions_match_all(list.data(), list.size(), texts.data(), texts.size(), offsets.data(), count + 1, kinds.data(),
                       count);
    return kinds[count - 1];
  });
  show("versions_match_all", match_of_many);

  printf("an item of many, by a single call: sort_key %.2f, kind %.2f, matches %.2f\n", key_of_many / key,
         kind_of_many / kind, match_of_many / match);
#ifdef WITH_RPM
  double rpm = compared([](const std::string &a, const std::string &b) { return rpmvercmp(a.c_str(), b.c_str()); });
  show("rpmvercmp", rpm);
  printf("by rpmvercmp: compare %.2f, sort_key %.2f\n", compare / rpm, key / rpm);
#endif
#ifdef WITH_APT
  double apt = compared([](const std::string &a, const std::string &b) {
    return debVS.DoCmpVersion(a.data(), a.data() + a.size(), b.data(), b.data() + b.size());
  });
  show("libapt-pkg's comparison", apt);
  printf("by libapt-pkg's: compare %.2f, sort_key %.2f\n", compare / apt, key / apt);
#endif
}
