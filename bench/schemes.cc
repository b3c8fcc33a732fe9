// Makes one call of versions.h, or of a peer, on the lines of standard input, for bench/schemes to count its
// instructions:
//   schemes CALL SCHEME ROUNDS
// A round makes the call for each line. A comparison takes a line and the next, and the last line and the first.
#include <versions.h>

#include <cstdlib>
#include <iostream>
#include <string>
#include <vector>
#ifdef WITH_RPM
#include <rpm/rpmver.h>
#endif
#ifdef WITH_APT
#include <apt-pkg/debversion.h>
#endif

// The sum of the results, so that the compiler leaves no call out.
static volatile long answers;

static uint32_t scheme;

// The result of a call for a line and the next.
using Call = long (*)(const std::string &, const std::string &);

static long has(const std::string &a, const std::string &) {
  bool has = false;
  versions_has(scheme, a.data(), a.size(), &has);
  return has;
}

static long compare(const std::string &a, const std::string &b) {
  int32_t order = 0;
  versions_compare(scheme, a.data(), a.size(), b.data(), b.size(), &order);
  return order;
}

static long key(const std::string &a, const std::string &) {
  static uint8_t key[4096];
  size_t length = 0;
  versions_key(scheme, a.data(), a.size(), key, sizeof key, &length);
  return static_cast<long>(length);
}

static const struct {
  const char *name;
  Call call;
} calls[] = {
    {"has", has},
    {"compare", compare},
    {"key", key},
#ifdef WITH_RPM
    {"rpmvercmp", [](const std::string &a, const std::string &b) -> long { return rpmvercmp(a.c_str(), b.c_str()); }},
#endif
#ifdef WITH_APT
    {"libapt-pkg",
     [](const std::string &a, const std::string &b) -> long {
       return debVS.DoCmpVersion(a.data(), a.data() + a.size(), b.data(), b.data() + b.size());
     }},
#endif
};

int main(int count, char **words) {
  std::vector<std::string> lines;
  for (std::string line; std::getline(std::cin, line);) lines.push_back(line);
  if (count != 4 || lines.empty()) return 2;
  std::string name = words[2];
  if (versions_scheme(name.data(), name.size(), &scheme) != VERSIONS_OK) return 2;
  lines.push_back(lines.front());
  for (const auto &[name, call] : calls) {
    if (words[1] != std::string(name)) continue;
    for (int rounds = std::atoi(words[3]); rounds > 0; rounds--) {
      for (size_t i = 0; i + 1 < lines.size(); i++) answers = answers + call(lines[i], lines[i + 1]);
    }
    return 0;
  }
  return 2;
}
