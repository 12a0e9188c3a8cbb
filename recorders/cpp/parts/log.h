// The log
#pragma once

#include "base.h"

namespace vataudit {
namespace inside {

using capnp::AnyList;
using capnp::AnyPointer;
using capnp::AnyStruct;
using capnp::ClientHook;

// From 1.0 on a call comes with hints. They go along with it untouched: a hook of the recorder is a template over
// what comes besides.
#if CAPNP_VERSION >= 1000000
template <template <typename...> class Hook>
using OfVersion = Hook<ClientHook::CallHints>;
#else
template <template <typename...> class Hook>
using OfVersion = Hook<>;
#endif

// The bytes of a log of version 3, little-endian, as docs/FORMATS.md has them. Of whichever capnp: a vat of 0.9 too
// receives light Returns, from a peer of 1.x. What is written ends with a whole record, also where a write fails.
class Log {
public:
  Log(const char* path, uint32_t vat): file(begun(path)) {
    add("VATLOG03", 8);
    number<uint32_t>(vat);
  }
  ~Log() { close(); }
  KJ_DISALLOW_COPY(Log);

  bool isOpen() const { return file >= 0; }
  void kind(uint8_t kind) { number<uint8_t>(kind); }

  template <typename Number>
  void number(Number value) {
    char* bytes = more(sizeof(Number));
#if __BYTE_ORDER__ == __ORDER_LITTLE_ENDIAN__
    memcpy(bytes, &value, sizeof(Number));
#else
    for (size_t place = 0; place < sizeof(Number); place++) {
      bytes[place] = static_cast<char>(static_cast<uint64_t>(value) >> (8 * place));
    }
#endif
  }

  void add(const void* bytes, size_t length) {
    if (length > 0) memcpy(more(length), bytes, length);
  }

  // How many a list has. A log has room for so many.
  static constexpr size_t mostCounted = 1048576;
  void count(size_t count) {
    isTooLong = isTooLong || count > mostCounted;
    number(static_cast<uint32_t>(count));
  }

  // Takes back the bytes of a record that begins at this place of what is not yet written, where one of its lists is
  // too long; and whether it was.
  size_t unwritten() const { return filled; }
  bool dropTooLong(size_t begin) {
    if (isTooLong) filled = begin;
    return isTooLong;
  }

  // The bytes of a record are all there.
  void endRecord() { records++; }

  // Writes what there is no room to keep. Whether that went well.
  bool settle() { return filled < room || flush(); }

  // Writes what is kept. What the system takes in part is taken back, and `errno` says why.
  bool flush() {
    size_t done = 0;
    while (done < filled) {
      ssize_t count = write(file, buffer.data() + done, filled - done);
      if (count > 0) {
        done += count;
      } else if (count == 0 || errno != EINTR) {
        takeBack();
        return false;
      }
    }
    filled = 0;
    length += done;
    written = records;
    return true;
  }

  void close() {
    if (!isOpen()) return;
    flush();
    ::close(file);
    file = -1;
  }

  // Gives the log another name, so that nobody takes it for a whole one. Where it lies afterwards.
  std::string setAside() {
    struct stat mine, there;
    bool isStillThere = isOpen() && fstat(file, &mine) == 0 && S_ISREG(mine.st_mode) &&
        stat(path.c_str(), &there) == 0 && mine.st_dev == there.st_dev && mine.st_ino == there.st_ino;
    close();
    if (isStillThere && moveOn(path + ".stopped") && rename(path.c_str(), (path + ".stopped").c_str()) == 0) {
      path += ".stopped";
    }
    return path;
  }

  size_t room = 0;       // how many bytes may be kept
  uint64_t records = 0;  // that were made; where a write failed, that were written

private:
  std::string path;      // from the root, if the system knows it: the program may change its folder
  int file;
  std::vector<char> buffer;
  size_t filled = 0;     // of the buffer: what is not yet written
  bool isTooLong = false;
  uint64_t length = 0, written = 0;

  // Where so many bytes more go.
  KJ_ALWAYS_INLINE(char* more(size_t length)) {
    if (buffer.size() - filled < length) grow(length);
    char* place = buffer.data() + filled;
    filled += length;
    return place;
  }

  KJ_NOINLINE void grow(size_t length) { buffer.resize(std::max(2 * buffer.size(), filled + length + 256)); }

  // Makes the file, behind those that are there. -1 where that can't be, and `errno` says why.
  int begun(const char* given) {
    std::string place = known(given);
    if (!moveOn(place) || !moveOn(place + ".stopped")) return -1;
    int made = open(place.c_str(), O_WRONLY | O_CREAT | O_TRUNC | O_CLOEXEC, 0666);
    if (made >= 0) path = known(place.c_str());
    return made;
  }

  static std::string known(const char* given) {
    char* place = realpath(given, nullptr);
    std::string path = place == nullptr ? given : place;
    free(place);
    return path;
  }

  // Gives a file that is there the first number behind its name that is free, so that nothing is lost. Whether none is
  // there any more.
  static bool moveOn(const std::string& path) {
    struct stat there;
    if (stat(path.c_str(), &there) != 0 || !S_ISREG(there.st_mode)) return true;
    for (uint32_t number = 1;; number++) {
      std::string numbered = path + "." + std::to_string(number);
      if (link(path.c_str(), numbered.c_str()) == 0) return unlink(path.c_str()) == 0;
      if (errno != EEXIST) return access(numbered.c_str(), F_OK) != 0 && rename(path.c_str(), numbered.c_str()) == 0;
    }
  }

  void takeBack() {
    int reason = errno;
    if (ftruncate(file, length) != 0) {
      // it isn't a file that has a length
    }
    filled = 0;
    records = written;
    errno = reason;
  }
};

}  // namespace inside
}  // namespace vataudit
