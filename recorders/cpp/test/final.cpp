// Doesn't compile: `host` says why. test.sh looks for that line.

#include "test.capnp.h"
#include "vataudit/recorder.h"

class FinalObject final: public Counter::Server {};

Counter::Client hosted(vataudit::Recorder& recorder) {
  return recorder.host<FinalObject>();
}
