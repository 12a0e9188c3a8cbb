// What lies below the two-party network: a tap that keeps the bytes that a vat writes, and a socket that is read when
// the driver says so.
#pragma once

#include <kj/async-io.h>
#include <kj/debug.h>

#include <cerrno>
#include <deque>
#include <string>
#include <utility>

#include <fcntl.h>
#include <sys/socket.h>
#include <unistd.h>

// A file that has each piece as soon as it is written.
class File {
public:
  explicit File(const std::string& path) { KJ_SYSCALL(fd = open(path.c_str(), O_WRONLY | O_CREAT | O_TRUNC, 0644), path); }
  KJ_DISALLOW_COPY(File);
  ~File() { close(fd); }

  void write(const void* data, size_t size) {
    auto at = static_cast<const char*>(data);
    while (size > 0) {
      ssize_t written;
      KJ_SYSCALL(written = ::write(fd, at, size));
      at += written, size -= written;
    }
  }
  void line(const std::string& text) { write((text + "\n").data(), text.size() + 1); }

private:
  int fd;
};

// Keeps what is written to the stream.
class Tap final: public kj::AsyncIoStream {
public:
  Tap(kj::Own<kj::AsyncIoStream> inner, const std::string& path): inner(kj::mv(inner)), file(path) {}

  kj::Promise<size_t> tryRead(void* buffer, size_t least, size_t most) override {
    return inner->tryRead(buffer, least, most);
  }
  kj::Promise<void> write(const void* buffer, size_t size) override {
    file.write(buffer, size);
    return inner->write(buffer, size);
  }
  kj::Promise<void> write(kj::ArrayPtr<const kj::ArrayPtr<const kj::byte>> pieces) override {
    for (auto& piece: pieces) file.write(piece.begin(), piece.size());
    return inner->write(pieces);
  }
  kj::Promise<void> whenWriteDisconnected() override { return inner->whenWriteDisconnected(); }
  void shutdownWrite() override { inner->shutdownWrite(); }

private:
  kj::Own<kj::AsyncIoStream> inner;
  File file;
};

// A socket of a vat that is a process of its own. What is written goes out at once; what came in is looked at by `pump`
// alone, so that a vat does nothing between the lines that it is told.
class Socket final: public kj::AsyncIoStream {
public:
  explicit Socket(int fd): fd(fd) { KJ_SYSCALL(fcntl(fd, F_SETFL, O_NONBLOCK)); }
  ~Socket() noexcept { close(fd); }

  // Takes what came in, and answers whether anything did or was written since the last time.
  bool pump() {
    char piece[65536];
    ssize_t length = 0;
    while (!isEnded && (length = recv(fd, piece, sizeof piece, MSG_DONTWAIT)) > 0) {
      came.insert(came.end(), piece, piece + length);
      isBusy = true;
    }
    if (!isEnded && (length == 0 || (errno != EAGAIN && errno != EWOULDBLOCK))) isEnded = true;
    give();
    return std::exchange(isBusy, false);
  }

  kj::Promise<size_t> tryRead(void* buffer, size_t least, size_t most) override {
    KJ_REQUIRE(into == nullptr, "two readers of one socket");
    auto paf = kj::newPromiseAndFulfiller<size_t>();
    into = static_cast<kj::byte*>(buffer), wanted = least, room = most, reader = kj::mv(paf.fulfiller);
    give();
    return kj::mv(paf.promise);
  }
  kj::Promise<void> write(const void* buffer, size_t size) override {
    auto at = static_cast<const char*>(buffer);
    isBusy = true;
    while (size > 0) {
      ssize_t sent = send(fd, at, size, MSG_NOSIGNAL | MSG_DONTWAIT);
      if (sent < 0) return KJ_EXCEPTION(DISCONNECTED, "the socket takes no more", errno);
      at += sent, size -= sent;
    }
    return kj::READY_NOW;
  }
  kj::Promise<void> write(kj::ArrayPtr<const kj::ArrayPtr<const kj::byte>> pieces) override {
    std::string all;
    for (auto& piece: pieces) all.append(reinterpret_cast<const char*>(piece.begin()), piece.size());
    return write(all.data(), all.size());
  }
  kj::Promise<void> whenWriteDisconnected() override { return kj::NEVER_DONE; }
  void shutdownWrite() override { shutdown(fd, SHUT_WR); }

private:
  int fd;
  std::deque<char> came;
  bool isEnded = false, isBusy = false;
  kj::byte* into = nullptr;
  size_t wanted = 0, room = 0;
  kj::Own<kj::PromiseFulfiller<size_t>> reader;

  void give() {
    if (into == nullptr || (came.size() < wanted && !isEnded)) return;
    size_t length = kj::min(room, came.size());
    std::copy(came.begin(), came.begin() + length, into);
    came.erase(came.begin(), came.begin() + length);
    into = nullptr;
    reader->fulfill(kj::mv(length));
  }
};
