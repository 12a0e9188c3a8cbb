// Runs a script of tests/storm/README.md.
//
//     storm SCRIPT FOLDER                    all vats in this process, in one loop
//     storm --vat V --folder FOLDER          one vat, which is told by lines on standard input what to do
//
// Before all that may stand `--plant exchange`, `--plant embargo` or `--plant release`: a fault of planted.h.
//
// FOLDER gets the vats' logs, the bytes that each vat wrote on each connection (linkC.vatV), and with the first form a
// case file and the trace.

#include "vat.h"

#include <fstream>
#include <iostream>
#include <set>

#include <sys/un.h>

namespace {

Words split(const std::string& line) {
  std::istringstream stream(line.substr(0, line.find('#')));
  Words words;
  for (std::string each; stream >> each;) words.push_back(each);
  return words;
}

// What waits for what. A program in which something waits for itself isn't legal: the runtime spins for ever.
class Waits {
public:
  // Notes what the line makes, or answers whether that would close a circle.
  bool closes(const Words& words) {
    auto& verb = words[0];
    if (verb == "fulfil") {
      if (reaches(made(word(words, 3)), words[2])) return true;
      edges[words[2]].insert(made(word(words, 3)));
    }
    if (verb == "call" || verb == "only") {
      auto& after = edges[words[2]];
      after.insert(made(word(words, 3)));
      auto& kept = word(words, 4) == "hold" ? edges[words[2] + ".h"] : after;
      for (std::string operand = word(words, 5); operand != "" && operand != "-";) {
        auto slash = operand.find('/');
        kept.insert(made(operand.substr(0, slash)));
        operand = slash == std::string::npos ? "" : operand.substr(slash + 1);
      }
    }
    return false;
  }

private:
  std::map<std::string, std::set<std::string>> edges;

  // The call, the promise, or what was given to keep.
  static std::string made(const std::string& name) {
    auto dot = name.find('.');
    return dot != std::string::npos && name.substr(dot) == ".h" ? name : name.substr(0, dot);
  }
  bool reaches(const std::string& from, const std::string& to) {
    std::set<std::string> seen;
    std::vector<std::string> next {from};
    while (!next.empty()) {
      auto at = next.back();
      next.pop_back();
      if (at == to) return true;
      if (!seen.insert(at).second) continue;
      for (auto& after: edges[at]) next.push_back(after);
    }
    return false;
  }
};

struct Link {
  uint32_t connection, client, server;
};

std::vector<Link> linksOf(const Words& words) {
  std::vector<Link> links { {0, 1, 2} };
  if (word(words, 1) == "3") links.push_back({1, 2, 3});
  if (word(words, 2) == "triangle") links.push_back({2, 1, 3});
  return links;
}

void writeCase(const std::string& folder, size_t vats, const std::vector<Link>& links) {
  std::ofstream file(folder + "/case.json");
  file << "{\"logs\": [";
  for (size_t vat = 1; vat <= vats; vat++) file << (vat > 1 ? ", " : "") << "\"vat" << vat << ".log\"";
  file << "], \"links\": [";
  for (auto& link: links) {
    file << (link.connection > 0 ? ", [" : "[") << link.connection << ", " << link.client << ", " << link.server << "]";
  }
  file << "]}\n";
}

// What `say` says of an exception, on one line.
std::string oneLine(kj::StringPtr text) {
  std::string line = text.cStr();
  for (char& byte: line) {
    if (byte == '\n') byte = ' ';
  }
  return line.substr(0, 300);
}

// ---------------------------------------------------------------------------- all vats in one loop

int runScript(const std::string& script, const std::string& folder, const std::string& fault) {
  std::ifstream file(script);
  KJ_REQUIRE(file.good(), "no such script", script);
  std::vector<Words> lines;
  for (std::string line; std::getline(file, line);) {
    auto words = split(line);
    if (!words.empty()) lines.push_back(words);
  }
  KJ_REQUIRE(!lines.empty() && lines[0][0] == "vats", "a script begins with its vats");

  File trace(folder + "/trace");
  auto tell = [&](const std::string& text) { trace.line(text); };
  kj::EventLoop loop;
  kj::WaitScope scope(loop);
  auto links = linksOf(lines[0]);
  size_t count = std::stoul(word(lines[0], 1));
  writeCase(folder, count, links);
  std::vector<std::unique_ptr<Vat>> vats;
  for (size_t number = 1; number <= count; number++) vats.push_back(std::make_unique<Vat>(number, folder, fault, tell));
  for (auto& link: links) {
    auto pipe = kj::newTwoWayPipe();
    vats[link.client - 1]->join(link.connection, link.server, Side::CLIENT, kj::mv(pipe.ends[0]));
    vats[link.server - 1]->join(link.connection, link.client, Side::SERVER, kj::mv(pipe.ends[1]));
  }

  Waits waits;
  auto step = [&](const Words& words) {
    auto& verb = words[0];
    if (verb == "vats") return;
    if (verb == "settle") return scope.poll(), void();
    if (verb == "turn") return loop.run(std::stoul(words[1])), void();
    size_t number = std::stoul(word(words, 1));
    KJ_REQUIRE(number >= 1 && number <= count, "no such vat", number);
    auto legal = words;
    if (waits.closes(words)) legal[3] = "o" + word(words, 1);
    vats[number - 1]->run(legal);
  };
  for (auto& words: lines) {
    KJ_IF_MAYBE(exception, kj::runCatchingExceptions([&]() { step(words); })) {
      tell("threw " + words[0] + " " + oneLine(exception->getDescription()));
    }
  }
  scope.poll();
  for (auto& vat: vats) vat->tellStuck();
  for (auto& vat: vats) vat->dropAll();
  scope.poll();
  tell("bye");
  _exit(0);
}

// ---------------------------------------------------------------------------- one vat of several processes

kj::Own<Socket> connectTo(const std::string& path) {
  int fd;
  KJ_SYSCALL(fd = socket(AF_UNIX, SOCK_STREAM, 0));
  sockaddr_un address {};
  address.sun_family = AF_UNIX;
  KJ_REQUIRE(path.size() < sizeof address.sun_path, "the socket's path is too long", path);
  memcpy(address.sun_path, path.data(), path.size());
  KJ_SYSCALL(connect(fd, reinterpret_cast<sockaddr*>(&address), sizeof address), path);
  return kj::heap<Socket>(fd);
}

// Lines in, each answered by one line behind the `said` lines of what happened. `link C PEER client|server SOCKET`,
// `turn N`, `settle`, the lines of a script, `end`.
int runVat(uint32_t number, const std::string& folder, const std::string& fault) {
  kj::EventLoop loop;
  kj::WaitScope scope(loop);
  auto tell = [](const std::string& text) { std::cout << "said " << text << "\n"; };
  auto vat = std::make_unique<Vat>(number, folder, fault, tell);
  std::vector<Socket*> sockets;
  auto pump = [&]() {
    bool isBusy = false;
    for (auto socket: sockets) isBusy |= socket->pump();
    return isBusy;
  };
  auto step = [&](const Words& words) -> std::string {
    auto& verb = words[0];
    if (verb == "link") {
      auto socket = connectTo(word(words, 4));
      sockets.push_back(socket.get());
      bool isClient = word(words, 3) == "client";
      vat->join(std::stoul(words[1]), std::stoul(words[2]), isClient ? Side::CLIENT : Side::SERVER, kj::mv(socket));
      return "ok";
    }
    if (verb == "turn") return pump(), loop.run(std::stoul(word(words, 1))), "ok";
    if (verb == "settle") {
      bool isBusy = pump();
      scope.poll();
      return pump() || isBusy ? "busy" : "idle";
    }
    if (verb == "stuck") return vat->tellStuck(), "ok";
    if (verb == "dropall") return vat->dropAll(), "ok";
    return vat->run(words) ? "ok" : "skip";
  };
  for (std::string line; std::getline(std::cin, line);) {
    auto words = split(line);
    if (words.empty()) continue;
    std::string answer = "threw";
    if (words[0] == "end") {
      std::cout << "bye" << std::endl;
      _exit(0);
    }
    KJ_IF_MAYBE(exception, kj::runCatchingExceptions([&]() { answer = step(words); })) {
      answer = "threw " + oneLine(exception->getDescription());
    }
    std::cout << answer << std::endl;
  }
  _exit(0);
}

}  // namespace

int main(int count, char** words) {
  Words given(words + 1, words + count);
  if (given.size() == 1 && given[0] == "--version") {
    printf("%d.%d.%d\n", CAPNP_VERSION_MAJOR, CAPNP_VERSION_MINOR, CAPNP_VERSION_MICRO);
    return 0;
  }
  std::string fault;
  if (given.size() > 2 && given[0] == "--plant") {
    fault = given[1];
    given.erase(given.begin(), given.begin() + 2);
  }
  if (given.size() == 4 && given[0] == "--vat" && given[2] == "--folder") {
    return runVat(std::stoul(given[1]), given[3], fault);
  }
  if (given.size() == 2) return runScript(given[0], given[1], fault);
  std::cerr << "usage: storm SCRIPT FOLDER, or storm --vat V --folder FOLDER\n";
  return 2;
}
