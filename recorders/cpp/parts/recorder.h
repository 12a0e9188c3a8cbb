// Records what a vat of Cap'n Proto's C++ runtime does, for `vataudit` to audit.
//
// One header, C++14 or later, for capnp 0.9 to 1.1. Nothing else is linked. The log is of version 3 of
// docs/FORMATS.md; docs/RECORDING.md says which record stands where, and why. RECV, SEND, FULFIL and so on are
// the records' names there; Call, Return and so on are messages of rpc.capnp.
//
// How a program is recorded:
//
//     vataudit::Recorder recorder("client.log", 1);               // vat 1: a number that no other vat has
//     vataudit::TwoPartyClient client(recorder, *stream, 0);      // connection 0, at both of its ends
//     auto foo = client.bootstrap().castAs<Foo>();
//     Bar::Client bar = recorder.host<BarImpl>(..);               // in the place of kj::heap<BarImpl>(..)
//     Baz::Client baz = recorder.promise(kj::mv(promisedBaz));    // in the place of Baz::Client(kj::mv(promisedBaz))
//
// Calls, results, pipelined calls and capabilities in parameters are then recorded without a word of yours.
// What is left to say: each object that goes out or is called has to come from `host`, each promise for a
// capability from `promise`, each connection from `TwoPartyClient`, `TwoPartyServer` or `Network`.
//
// Recording never changes what the program does. The runtime gets the hooks that it would get without a recorder;
// only the program holds wrapped ones. Each record is in the system's hands before the program goes on: one that
// throws, exits or is killed leaves all that it recorded.
//
// Where a record would make a bad log, or the log can't be written, the recorder stops, and the program goes on. The
// log ends before that record, and is renamed to `client.log.stopped`: nobody takes it for a whole one. The
// recorder says why on standard error, then and at its end; `isRecording` and `whyStopped` say it to the program.
//
// One recorder belongs to one event loop, as all of capnp's objects do.
//
// What it can't do:
// - EzRpcClient and EzRpcServer let no recorder in.
// - An object that overrides `shortenPath` goes out as a promise, which the audit refuses (DESC).
// - A bootstrap object that is made anew for each client (BootstrapFactory) has to be given by `asBootstrap`.
// - Where a method names its results beforehand by `setPipeline`, no record says so before they are there. A call that
//   goes on to such a result before is told `no .. rule GOAL`. A method that ends by `tailCall` is recorded, by
//   ANSWERBY.
// - Two things that sound programs do get a `no`: docs/RECORDING.md, "Where C++ gets `no`".
//
// This file is made: recorders/cpp/parts has what it is made of. With VATAUDIT_OFF defined nothing of it is left but
// capnp's own classes under these names.

#pragma once

#include "base.h"
#ifdef VATAUDIT_OFF
#include "off.h"
#else
#include "front.h"
#include "log.h"
#include "known.h"
#include "vat.h"
#include "end.h"
#include "hooks.h"
#include "calls.h"
#include "objects.h"
#include "messages.h"
#include "network.h"
#include "own.h"
#endif
#include "twoparty.h"
