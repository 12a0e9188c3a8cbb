// The audit of a test's own conversation: recorders for its vats, the case file, and what `vataudit check` says.
//
//     vataudit::Audit audit;
//     {
//       vataudit::TwoPartyClient server(audit.vat(2), *pipe.ends[1], 0, audit.vat(2).host<FooImpl>(), Side::SERVER);
//       vataudit::TwoPartyClient client(audit.vat(1), *pipe.ends[0], 0);
//       ..
//     }
//     EXPECT_EQ("", audit.check());                         // GoogleTest
//     KJ_EXPECT(audit.check() == "", audit.check());        // KJ_TEST
//
// The program is the one that VATAUDIT in the environment names, or the `vataudit` on the PATH. The logs lie in a
// folder of their own, under TMPDIR or /tmp, and stay there if the audit has something to say.
#pragma once

#include "recorder.h"

#include <map>

#include <sys/wait.h>

namespace vataudit {

class Audit {
public:
  Audit() {
    const char* under = getenv("TMPDIR");
    std::string pattern = std::string(under == nullptr ? "/tmp" : under) + "/vataudit-XXXXXX";
    if (mkdtemp(&pattern[0]) != nullptr) place = pattern;
  }
  ~Audit() {
    vats.clear();
    if (isGood) removeAll();
  }
  KJ_DISALLOW_COPY(Audit);

  // The recorder of a vat, which is made when it is first asked for.
  Recorder& vat(uint32_t number) {
    auto& recorder = vats[number];
    if (recorder == nullptr) recorder.reset(new Recorder((place + "/" + log(number)).c_str(), number));
    return *recorder;
  }

  // Where the logs and the case file lie.
  const std::string& folder() const { return place; }

  // Has the conversation audited, as far as it is recorded. Empty if all is well, or else the line of `vataudit check`
  // with its notes, or what kept the audit from running. Two vats are linked where both have the connection.
  std::string check() {
#ifdef VATAUDIT_OFF
    return "";
#else
    std::string said = stopped();
    if (said.empty()) said = writeCase() ? run() : "the case file can't be written";
    isGood = said.empty();
    return isGood ? said : said + "\nthe logs are in " + place;
#endif
  }

private:
  std::string place = "no folder";
  std::map<uint32_t, std::unique_ptr<Recorder>> vats;
  bool isGood = true;

  static std::string log(uint32_t number) { return "vat" + std::to_string(number) + ".log"; }

  void removeAll() {
    for (auto name: names) unlink((place + "/" + name).c_str());
    rmdir(place.c_str());
  }
  std::vector<std::string> names { "case.json" };

#ifndef VATAUDIT_OFF
  std::string stopped() {
    std::string all;
    for (auto& vat: vats) {
      vat.second->flush();
      names.push_back(log(vat.first));
      if (vat.second->isRecording()) continue;
      all += "vat " + std::to_string(vat.first) + " is recorded " + vat.second->whyStopped() + "\n";
    }
    return all;
  }

  // The vats of each connection.
  std::map<uint32_t, std::vector<uint32_t>> connections() {
    std::map<uint32_t, std::vector<uint32_t>> all;
    for (auto& vat: vats) {
      for (uint32_t connection: vat.second->connections()) all[connection].push_back(vat.first);
    }
    return all;
  }

  bool writeCase() {
    std::string logs, links;
    for (auto& vat: vats) logs += (logs.empty() ? "\"" : ", \"") + log(vat.first) + "\"";
    for (auto& link: connections()) {
      if (link.second.size() != 2) continue;
      links += (links.empty() ? "[" : ", [") + std::to_string(link.first);
      for (uint32_t vat: link.second) links += ", " + std::to_string(vat);
      links += "]";
    }
    FILE* file = fopen((place + "/case.json").c_str(), "w");
    if (file == nullptr) return false;
    fprintf(file, "{\"logs\": [%s], \"links\": [%s]}\n", logs.c_str(), links.c_str());
    return fclose(file) == 0;
  }

  std::string run() {
    const char* named = getenv("VATAUDIT");
    const char* program = named == nullptr ? "vataudit" : named;
    int ends[2];
    if (pipe(ends) != 0) return std::string("the audit can't run: ") + strerror(errno);
    pid_t child = fork();
    if (child == 0) {
      dup2(ends[1], 1);
      dup2(ends[1], 2);
      ::close(ends[0]);
      ::close(ends[1]);
      if (chdir(place.c_str()) == 0) execlp(program, program, "check", "case.json", nullptr);
      _exit(127);
    }
    ::close(ends[1]);
    std::string said = readAll(ends[0]);
    int status = 0;
    if (child < 0 || waitpid(child, &status, 0) != child || (WIFEXITED(status) && WEXITSTATUS(status) == 127)) {
      return std::string("the audit can't run: no program ") + program + " (VATAUDIT in the environment names it)";
    }
    return WIFEXITED(status) && WEXITSTATUS(status) == 0 ? "" : said;
  }

  static std::string readAll(int file) {
    std::string all;
    char bytes[4096];
    for (;;) {
      ssize_t count = read(file, bytes, sizeof bytes);
      if (count > 0) {
        all.append(bytes, count);
      } else if (count == 0 || errno != EINTR) {
        break;
      }
    }
    ::close(file);
    return all;
  }
#endif
};

}  // namespace vataudit
