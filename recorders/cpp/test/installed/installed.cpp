// Makes a log without a conversation: vat 1 hosts nothing and calls nothing.
#include <vataudit/recorder.h>

int main(int, char** words) {
  vataudit::Recorder recorder(words[1], 1);
  return recorder.isRecording() ? 0 : 1;
}
