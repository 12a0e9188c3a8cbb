//! Runs a script of tests/storm.
//!
//!     storm SCRIPT FOLDER                    all vats in this process, in one loop
//!     storm --vat V --folder FOLDER          one vat, which is told by lines on standard input what to do
//!
//!     storm --version                        which runtime it is
//!
//! FOLDER gets the vats' logs, the bytes that each vat wrote on each connection (linkC.vatV), the order in which its messages
//! passed (order.vatV), and with the first form a case file and the trace. Under a name that ends with `-plain` it runs without a recorder.

mod passing;
mod recording;
mod streams;
mod thing;
mod vat;

use capnp_rpc::rpc_twoparty_capnp::Side;
use std::cell::RefCell;
use std::fs::{self, File};
use std::io::{self, BufRead, Write};
use std::path::Path;
use std::rc::Rc;
use streams::Socket;
use support::turns::{pipe, Loop};
use vat::{word, Vat};

/// More turns than a script takes that comes to rest.
const MOST_TURNS: usize = 1_000_000;

fn split(line: &str) -> Vec<String> {
    let line = line.split('#').next().unwrap_or("");
    line.split_whitespace().map(str::to_string).collect()
}

/// (connection, client, server) of each connection.
fn links_of(words: &[String]) -> Vec<(u32, u32, u32)> {
    let mut links = vec![(0, 1, 2)];
    if word(words, 1) == "3" {
        links.push((1, 2, 3));
    }
    if word(words, 2) == "triangle" {
        links.push((2, 1, 3));
    }
    links
}

fn write_case(folder: &Path, vats: u32, links: &[(u32, u32, u32)]) -> io::Result<()> {
    let logs: Vec<String> = (1..=vats)
        .map(|vat| format!("\"vat{}.log\"", vat))
        .collect();
    let links: Vec<String> = links
        .iter()
        .map(|link| format!("[{}, {}, {}]", link.0, link.1, link.2))
        .collect();
    let text = format!(
        "{{\"logs\": [{}], \"links\": [{}]}}\n",
        logs.join(", "),
        links.join(", ")
    );
    fs::write(folder.join("case.json"), text)
}

/// Runs a script with all its vats in one loop.
fn run_script(script: &str, folder: &Path, is_recorded: bool) -> io::Result<()> {
    let text = fs::read_to_string(script)?;
    let lines: Vec<Vec<String>> = text
        .lines()
        .map(split)
        .filter(|one| !one.is_empty())
        .collect();
    assert!(
        word(&lines[0], 0) == "vats",
        "a script begins with its vats"
    );
    let links = links_of(&lines[0]);
    let count: u32 = word(&lines[0], 1).parse().expect("a number of vats");
    write_case(folder, count, &links)?;
    let trace = RefCell::new(File::create(folder.join("trace"))?);
    let tell: Rc<dyn Fn(&str)> = Rc::new(move |text: &str| {
        writeln!(trace.borrow_mut(), "{}", text).expect("the trace can be written");
    });
    let turns = Loop::default();
    let vats: Vec<Vat> = (1..=count)
        .map(|number| Vat::new(number, folder, is_recorded, &turns, tell.clone()))
        .collect();
    for (connection, client, server) in links {
        let (to_server, to_client) = (pipe(), pipe());
        let ends = [(to_client.0, to_server.1), (to_server.0, to_client.1)];
        let [client_end, server_end] = ends;
        vats[client as usize - 1].join(connection, server, Side::Client, client_end);
        vats[server as usize - 1].join(connection, client, Side::Server, server_end);
    }
    for vat in &vats {
        vat.start();
    }
    for words in &lines[1..] {
        step(&vats, &turns, words);
    }
    turns.settle(MOST_TURNS);
    for vat in &vats {
        vat.tell_stuck();
    }
    for vat in &vats {
        vat.drop_all();
    }
    turns.settle(MOST_TURNS);
    tell("bye");
    std::process::exit(0);
}

fn step(vats: &[Vat], turns: &Loop, words: &[String]) {
    match words[0].as_str() {
        "settle" => {
            turns.settle(MOST_TURNS);
        }
        "turn" => {
            let count: usize = word(words, 1).parse().expect("a number of turns");
            turns.settle(count);
        }
        _ => {
            let number: usize = word(words, 1).parse().expect("a vat");
            vats[number - 1].run(words);
        }
    }
}

/// One vat of several processes. Lines in, each answered by one line behind the `said` lines of what happened:
/// `link C PEER client|server SOCKET`, `turn N`, `settle`, the lines of a script, `end`.
struct Process {
    vat: Vat,
    turns: Loop,
    sockets: Vec<Socket>,
    is_started: bool,
}

impl Process {
    fn step(&mut self, words: &[String]) -> io::Result<&'static str> {
        if words[0] == "link" {
            self.link(words)?;
            return Ok("ok");
        }
        if !self.is_started {
            self.is_started = true;
            self.vat.start();
        }
        Ok(match words[0].as_str() {
            "turn" => {
                self.pump();
                let count = word(words, 1).parse().expect("a number of turns");
                self.turns.settle(count);
                "ok"
            }
            "settle" => {
                let is_busy = self.pump() | self.turns.turn();
                self.turns.settle(MOST_TURNS);
                match self.pump() || is_busy {
                    true => "busy",
                    false => "idle",
                }
            }
            "stuck" => {
                self.vat.tell_stuck();
                "ok"
            }
            "dropall" => {
                self.vat.drop_all();
                "ok"
            }
            _ if self.vat.run(words) => "ok",
            _ => "skip",
        })
    }

    fn link(&mut self, words: &[String]) -> io::Result<()> {
        let (socket, ends) = Socket::connect(word(words, 4))?;
        self.sockets.push(socket);
        let side = match word(words, 3) {
            "client" => Side::Client,
            _ => Side::Server,
        };
        let connection = word(words, 1).parse().expect("a connection");
        let peer = word(words, 2).parse().expect("a vat");
        self.vat.join(connection, peer, side, ends);
        Ok(())
    }

    fn pump(&mut self) -> bool {
        self.sockets
            .iter_mut()
            .fold(false, |is_any, socket| socket.pump() | is_any)
    }
}

fn run_vat(number: u32, folder: &Path, is_recorded: bool) -> io::Result<()> {
    let turns = Loop::default();
    let tell: Rc<dyn Fn(&str)> = Rc::new(|text: &str| println!("said {}", text));
    let mut process = Process {
        vat: Vat::new(number, folder, is_recorded, &turns, tell),
        turns,
        sockets: Vec::new(),
        is_started: false,
    };
    for line in io::stdin().lock().lines() {
        let words = split(&line?);
        if words.is_empty() {
            continue;
        }
        if words[0] == "end" {
            println!("bye");
            break;
        }
        println!("{}", process.step(&words)?);
        io::stdout().flush()?;
    }
    io::stdout().flush()?;
    std::process::exit(0);
}

fn main() -> io::Result<()> {
    std::panic::set_hook(Box::new(|info| {
        let place = info
            .location()
            .map_or(String::new(), |place| place.to_string());
        let text = match info.payload().downcast_ref::<&str>() {
            Some(text) => text.to_string(),
            None => info
                .payload()
                .downcast_ref::<String>()
                .cloned()
                .unwrap_or_default(),
        };
        eprintln!("Fatal: {} in {}", text.replace('\n', " "), place);
        std::process::exit(101);
    }));
    let words: Vec<String> = std::env::args().collect();
    let is_recorded = !words[0].ends_with("-plain");
    match &words[1..] {
        [vat, number, folder, path] if vat == "--vat" && folder == "--folder" => {
            run_vat(number.parse().expect("a vat"), Path::new(path), is_recorded)
        }
        [version] if version == "--version" => {
            println!("rust-0.14");
            Ok(())
        }
        [script, folder] => run_script(script, Path::new(folder), is_recorded),
        _ => {
            eprintln!("usage: storm SCRIPT FOLDER, or storm --vat V --folder FOLDER");
            std::process::exit(2);
        }
    }
}
