// What a program makes
#pragma once

#include "base.h"

namespace vataudit {

class Network;

namespace inside {
class Outgoing;
class Vat;
}  // namespace inside

// The log of one vat. Make one at the start of the program, before all that it records.
class Recorder {
public:
  // Begins the log `path` of vat `vat`. A log that is there becomes `path`.1, or where that is there `path`.2 and so
  // on; so does `path`.stopped. Where it can't be made, the recorder says so and records nothing.
  Recorder(const char* path, uint32_t vat);

  // Writes what is buffered, and ends the log. What happens afterwards isn't recorded.
  ~Recorder();
  KJ_DISALLOW_COPY(Recorder);

  // Makes an object of this vat and records HOST. Its calls are recorded as they are delivered (DELIVER) and
  // as they end (ANSWER or FAULT). `Implementation` is a server class that isn't final.
  template <typename Implementation, typename... Arguments>
  typename Implementation::Serves::Client host(Arguments&&... arguments);

  // A client for a capability that isn't there yet: records VOW now, and FULFIL or BREAK when the promise is
  // settled, before each call that waits for it goes on.
  template <typename Client>
  Client promise(kj::Promise<Client>&& promised);

  // From now on records are kept until they take up so many bytes, and are then written at once. That is faster; but
  // a program that is killed, or ends without this recorder's destructor, loses those that it still keeps.
  void bufferRecords(size_t bytes);

  // Writes the records that are kept.
  void flush();

  // Whether it still records, and how many records there are. Why it stopped: empty if it didn't.
  bool isRecording() const;
  uint64_t records() const;
  std::string whyStopped() const;

  // The numbers of its connections, also of those that are gone.
  std::vector<uint32_t> connections() const;

private:
  std::shared_ptr<inside::Vat> vat;
  friend class Network;
};

}  // namespace vataudit
