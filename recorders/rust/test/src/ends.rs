//! Programs that end before their recorders do: by an exit, by SIGKILL, and by SIGKILL with records that are kept. Each
//! says how many records there are. And one that begins the same log again and again.

#[allow(dead_code)]
mod world;

use std::fs;
use std::path::{Path, PathBuf};
use std::process::Command;
use support::turns::Loop;
use vataudit_recorder::Recorder;
use world::{host, Two, World};

/// Begins a log a few times, each time with more records, and stops two of them. Nothing that was there is lost.
fn again(folder: &Path) {
    let log = |ending: &str| folder.join(format!("log{}", ending));
    let mut written = Vec::new();
    for times in 0..3 {
        let recorder = Recorder::new(log(""), 1).expect("the log begins");
        let _objects: Vec<_> = (0..times).map(|_| host(&recorder, 0)).collect();
        assert_eq!(recorder.records(), times);
        written.push(fs::read(log("")).expect("the log is there"));
    }
    for (ending, wanted) in [".1", ".2", ""].iter().zip(&written) {
        assert_eq!(&fs::read(log(ending)).expect("a log is there"), wanted);
    }
    let other = Recorder::new(folder.join("other"), 9).expect("the other log begins");
    for vat in 2..4 {
        let recorder = Recorder::new(log(""), vat).expect("the log begins");
        let mut request = host(&recorder, 0).hold_request();
        request.get().set_capability(0, host(&other, 0).client);
        let _ = request.send();
        assert!(!recorder.is_recording());
    }
    assert!(!log("").exists());
    assert_eq!(
        fs::read(log(".3")).expect("the third log is there"),
        written[2]
    );
    for (ending, vat) in [(".stopped.1", 2), (".stopped", 3)] {
        assert_eq!(
            fs::read(log(ending)).expect("a stopped log is there")[8],
            vat
        );
    }
}

fn main() {
    let words: Vec<String> = std::env::args().collect();
    if words[2] == "again" {
        return again(&PathBuf::from(&words[1]));
    }
    let name = match words[2].as_str() {
        "exits" => "exits",
        "killed" => "killed",
        _ => "keeps",
    };
    let two = Two::new(World {
        folder: PathBuf::from(&words[1]),
        name,
        turns: Loop::default(),
    });
    two.next(&two.counter, 1);
    two.settle();
    if name == "keeps" {
        for recorder in [&two.first, &two.second] {
            recorder.buffer_records(1 << 20);
        }
    }
    let counts = || [two.first.records(), two.second.records()];
    let written = counts();
    two.next(&two.counter, 1);
    let records = if name == "keeps" { written } else { counts() };
    println!("{}.vat1.log {}", name, records[0]);
    println!("{}.vat2.log {}", name, records[1]);
    if name == "exits" {
        std::process::exit(3);
    }
    let _ = Command::new("sh").args(["-c", "kill -KILL $PPID"]).status();
}
