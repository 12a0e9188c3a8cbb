// Programs that end before their recorders do: `ends FOLDER HOW` writes FOLDER/HOW-VERSION.vat1.log and the one of vat 2,
// and ends as HOW says. Each log has to be good then, with as many records as the program says there are: it adds
// a line `LOG RECORDS` for each to FOLDER/ended.

#include "world.h"

#include <csignal>
#include <cstdlib>
#include <fstream>
#include <iterator>
#include <sys/resource.h>
#include <unistd.h>

namespace {

// Its method `nothing` does what the program gave it.
class EndingObject: public CounterObject {
public:
  EndingObject(vataudit::Recorder& recorder, std::function<void()> end): CounterObject(recorder), end(kj::mv(end)) {}

protected:
  kj::Promise<void> nothing(NothingContext) override {
    end();
    return kj::READY_NOW;
  }

private:
  std::function<void()> end;
};

// Vat 1 asks vat 2, whose object may end the program.
struct Ending: TwoVats {
  explicit Ending(World& world): TwoVats(world) {}

  std::function<void()> end;
  vataudit::TwoPartyClient server { second, *pipe.ends[1], 0, second.host<EndingObject>(second, [this]() { end(); }),
                                    Side::SERVER };
  vataudit::TwoPartyClient client { first, *pipe.ends[0], 0 };
  Counter::Client counter = client.bootstrap().castAs<Counter>();

  void count() {
    FILE* file = fopen((prefix.substr(0, prefix.rfind('/')) + "/ended").c_str(), "a");
    fprintf(file, "%s %llu\n", log(1).c_str(), static_cast<unsigned long long>(first.records()));
    fprintf(file, "%s %llu\n", log(2).c_str(), static_cast<unsigned long long>(second.records()));
    fclose(file);
  }
  void endInMethod() {
    next(counter, 1);
    wait(counter.nothingRequest().send());
  }
};

// An exception that nobody catches.
void throws(Ending& two) {
  two.next(two.counter, 1);
  auto failing = two.counter.failRequest().send();
  two.settle();
  two.count();
  two.wait(failing);
}

void exits(Ending& two) {
  two.end = [&two]() { two.count(), exit(3); };
  two.endInMethod();
}

void killed(Ending& two) {
  two.end = [&two]() { two.count(), kill(getpid(), SIGKILL); };
  two.endInMethod();
}

// What was recorded since `flush` is lost.
void keeps(Ending& two) {
  two.first.bufferRecords(65536);
  two.second.bufferRecords(65536);
  two.next(two.counter, 1);
  two.first.flush();
  two.second.flush();
  two.count();
  two.end = []() { kill(getpid(), SIGKILL); };
  two.endInMethod();
}

// The logs may have 700 bytes and no more, which is in the middle of a record. The program goes on to its end.
void fills(Ending& two) {
  signal(SIGXFSZ, SIG_IGN);
  rlimit most;
  KJ_SYSCALL(getrlimit(RLIMIT_FSIZE, &most));
  most.rlim_cur = 700;
  KJ_SYSCALL(setrlimit(RLIMIT_FSIZE, &most));
  for (int times = 0; times < 10; times++) two.next(two.counter, 1);
  KJ_ASSERT(!two.first.isRecording() && !two.second.isRecording());
  most.rlim_cur = most.rlim_max;
  KJ_SYSCALL(setrlimit(RLIMIT_FSIZE, &most));
  two.count();
}

std::string textOf(const std::string& path) {
  std::ifstream file(path, std::ios::binary);
  return std::string(std::istreambuf_iterator<char>(file), std::istreambuf_iterator<char>());
}

// Recorders of one log, one after the other: those before it keep what they wrote, under numbers. Each records as many
// promises as were made before it; then three are stopped.
int again(World& world, const std::string& folder) {
  std::string path = folder + "/log";
  std::vector<std::string> written;
  for (size_t times = 0; times < 3; times++) {
    vataudit::Recorder recorder(path.c_str(), 1);
    for (size_t each = 0; each < times; each++) recorder.promise(kj::Promise<Counter::Client>(kj::NEVER_DONE));
    recorder.flush();
    written.push_back(textOf(path));
    KJ_ASSERT(recorder.records() == times);
  }
  KJ_ASSERT(textOf(path) == written[2] && textOf(path + ".1") == written[0] && textOf(path + ".2") == written[1]);
  for (size_t times = 0; times < 3; times++) {
    vataudit::Recorder recorder(path.c_str(), 2 + times);
    auto unknown = recorder.promise(kj::Promise<Counter::Client>(Counter::Client(kj::heap<CounterObject>(recorder))));
    world.settle();
    KJ_ASSERT(!recorder.isRecording());
  }
  KJ_ASSERT(access(path.c_str(), F_OK) != 0 && textOf(path + ".3") == written[2]);
  for (auto name: { ".stopped.1", ".stopped.2", ".stopped" }) written.push_back(textOf(path + name));
  for (char vat = 2; vat < 5; vat++) KJ_ASSERT(written[1 + vat].size() > 12 && written[1 + vat][8] == vat);
  return 0;
}

const std::map<std::string, void (*)(Ending&)> ends = {
  { "throws", throws }, { "exits", exits }, { "killed", killed }, { "keeps", keeps }, { "fills", fills },
};

}  // namespace

int main(int count, char** words) {
  if (count != 3) return 2;
  auto io = kj::setupAsyncIo();
  if (std::string(words[2]) == "again") {
    World world(io, "");
    return again(world, words[1]);
  }
  if (ends.count(words[2]) == 0) return 2;
  World world(io, std::string(words[1]) + "/" + words[2] + "-" + capnpVersion());
  Ending two(world);
  ends.at(words[2])(two);
  return 0;
}
