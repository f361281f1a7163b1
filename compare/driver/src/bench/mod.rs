//! Time per call, library against fire.rs, as tables.

pub mod count;
pub mod rounds;
pub mod shape;
pub mod sides;
mod ticks;

use rounds::{Lengths, Median, Medians, Sort};
use shape::Shape;

use crate::c;

const INCLUDES: &str = "\
What is timed. fire.rs alone: the call itself (`start_signing_round`, `process`, `process_timeout`), given
packets that are already decoded into the structs of net.rs, giving structs back. It hashes what it sends
(SHA-256) to sign it; the signature itself is a stand-in. Its aggregator is a stand-in that answers at once.
Signatures are not tested. It is optimised, with overflow checks.
fire.rs that survives a crash: the same, and around it all that a host needs to go on after a crash. The
packet's bytes are decoded by serde (bincode) into net.rs's structs, what goes out is serialised, `save()`
copies the state, and the copy is serialised field by field. Nothing is loaded: it keeps its state in memory.
The library: the whole call through C. It reads the packet's bytes (questions 8 and 9), reads the
state from its bytes and writes it back, copies to and from the store, and writes the packet's
bytes. The host's signing is not in it. Where a job comes, `rc_process` and `rc_aggregated` together.
On no side: writing to a disk; freeing what a call gave or was given.
Same inputs, rounds in turns, and the shapes of a table in turns; medians. The clock of fire.rs is the test clock.";

/// The rows of a table.
const ROWS: [(Sort, &str); 9] = [
    (Sort::Start, "start"),
    (Sort::Refused, "a packet that is refused (17)"),
    (Sort::Timeout, "a timeout that does not fire"),
    (Sort::Dropped, "a packet of kind 3, read and not gathered"),
    (Sort::Response, "a response recorded"),
    (Sort::Completing, "the response that completes the threshold: kind 3 goes out"),
    (Sort::Share, "a share response"),
    (Sort::LastShare, "the last share, with its job"),
    (Sort::Aggregated, "of that, `rc_aggregated`"),
];

/// The rows of ../../../instructions.txt that are timed here, by the names that they have there.
const MEASURED: [(Sort, &str); 9] = [
    (Sort::Start, "start"),
    (Sort::Refused, "a packet that is refused (17)"),
    (Sort::Timeout, "a timeout that does not fire"),
    (Sort::Dropped, "a packet of kind 3, read and not gathered"),
    (Sort::Response, "a response recorded (the sixth)"),
    (Sort::Completing, "the response that completes the threshold"),
    (Sort::Share, "a share (the sixth)"),
    (Sort::Job, "the last share, with its job"),
    (Sort::Aggregated, "aggregated"),
];
const ROUND: &str = "a whole round";

struct Printer {
    scale: f64,
}

impl Printer {
    fn time(&self, ticks: Option<u64>) -> String {
        ticks.map_or("-".into(), |t| format!("{:.2}", t as f64 * self.scale))
    }

    fn against(&self, name: &str, fire: &Median, library: &Median) {
        println!("\n| call | {name}, µs | library, µs | library / fire.rs |\n|---|---:|---:|---:|");
        let row = |name: &str, fire: Option<u64>, library: Option<u64>| {
            let ratio = match (fire, library) {
                (Some(f), Some(l)) if f > 0 => format!("{:.1}", l as f64 / f as f64),
                _ => "-".into(),
            };
            println!("| {name} | {} | {} | {ratio} |", self.time(fire), self.time(library));
        };
        for (sort, name) in ROWS {
            let both = sort != Sort::Aggregated;
            row(name, fire[sort as usize].filter(|_| both), library[sort as usize]);
        }
        let (fire, library) = (whole_round(fire), whole_round(library));
        row("a whole round: the sum of 21 medians", Some(fire), Some(library));
    }

    fn sides(&self, title: &str, m: &Medians) {
        println!("\n{title}");
        self.against("fire.rs alone", &m.fire, &m.library);
        self.against("fire.rs that survives a crash", &m.surviving, &m.library);
    }

    fn growth(&self, title: &str, shapes: &[(u64, Shape)], rounds: u64) {
        const SHOWN: [Sort; 8] = [
            Sort::Start,
            Sort::Refused,
            Sort::Timeout,
            Sort::Response,
            Sort::Completing,
            Sort::Share,
            Sort::LastShare,
            Sort::Aggregated,
        ];
        println!("\n{title}: the library's time per call in µs\n");
        println!(
            "| | start | refused | timeout | response | completing | share | last share, job | \
             aggregated |\n|---:|---:|---:|---:|---:|---:|---:|---:|---:|"
        );
        let only: Vec<Shape> = shapes.iter().map(|s| s.1).collect();
        for ((n, _), m) in shapes.iter().zip(rounds::run(&only, rounds)) {
            let times = SHOWN.map(|sort| self.time(m.library[sort as usize]));
            println!("| {n} | {} |", times.join(" | "));
        }
    }
}

/// A start, ten responses, ten share responses.
fn whole_round(medians: &Median) -> u64 {
    let median = |sort: Sort| medians[sort as usize].unwrap_or(0);
    let once = [Sort::Start, Sort::Completing, Sort::LastShare].map(median);
    once.iter().sum::<u64>() + 9 * (median(Sort::Response) + median(Sort::Share))
}

fn sizes(longest: &Lengths) {
    println!("\nSizes in bytes\n\n| what | bytes |\n|---|---:|");
    println!("| state | {} |", c::STATE_LENGTH);
    println!("| store | {} |", c::STORE_LENGTH);
    println!("| answer buffer | {} |", c::ANSWER_LENGTH);
    println!("| longest packet in that is gathered, kind 2 | {} |", longest.response);
    println!("| longest packet of kind 4 in | {} |", longest.share);
    println!("| longest packet in, kind 3, and out | {} |", longest.share_request);
    println!("| longest packet out, the job (32) | {} |", longest.job);
}

/// The processor's name, where the system tells it.
fn machine(scale: f64) {
    let cpu = std::fs::read_to_string("/proc/cpuinfo").unwrap_or_default();
    let name = cpu.lines().find_map(|l| l.strip_prefix("model name")).unwrap_or("unknown");
    let name = name.trim_start_matches([' ', '\t', ':']);
    println!("Processor: {name}; its time stamp counts {:.0} MHz.", 1.0 / scale);
}

fn growths(p: &Printer, rounds: u64) {
    let full = Shape::full();
    let by = |list: &[u64], f: &dyn Fn(u64) -> Shape| -> Vec<(u64, Shape)> {
        list.iter().map(|n| (*n, f(*n))).collect()
    };
    let numbers: Vec<u64> = (1..=10).collect();
    let shapes = by(&numbers, &|n| Shape { signers: n as u32, ..full });
    p.growth("Signers, of 16 keys each", &shapes, rounds);
    let shapes = by(&[1, 2, 4, 8, 12, 16], &|n| Shape { keys: n as u32, ..full });
    p.growth("Keys of each of 10 signers", &shapes, rounds);
    let shapes = by(&[1, 2, 3, 4], &|n| Shape { messages: n as usize, ..full });
    p.growth("Recorded messages, 10 signers of 16 keys", &shapes, rounds);
    let shapes = by(&[0, 32, 128, 256], &|n| Shape { message_length: n as usize, ..full });
    p.growth("Bytes of the message, 10 signers of 16 keys", &shapes, rounds);
}

pub fn run(rounds: u64) -> bool {
    let rounds = rounds.max(10);
    wsts::harness::set_noting(false);
    let p = Printer { scale: ticks::microseconds_a_tick() };
    println!("{INCLUDES}");
    machine(p.scale);
    let (full, longest) = (Shape::full(), Shape::longest());
    let medians = rounds::run(&[full, longest], rounds);
    let title = "10 signers of 16 keys and 16 nonces, a message of 32 bytes, one share a signer";
    p.sides(title, &medians[0]);
    let title = "The longest packets: a message of 256 bytes, a root, 16 shares a signer";
    p.sides(title, &medians[1]);
    growths(&p, (rounds / 4).max(10));
    sizes(&rounds::lengths(&longest));
    true
}

/// For ../../../measure: a line for each row, its name and the microseconds of the three sides.
pub fn medians(rounds: u64) -> bool {
    wsts::harness::set_noting(false);
    let p = Printer { scale: ticks::microseconds_a_tick() };
    let m = &rounds::run(&[Shape::full()], rounds.max(10))[0];
    for (sort, name) in MEASURED {
        let alone = sort == Sort::Aggregated;
        let fire = |m: &Median| p.time(m[sort as usize].filter(|_| !alone));
        let library = p.time(m.library[sort as usize]);
        println!("{name}\t{}\t{}\t{library}", fire(&m.fire), fire(&m.surviving));
    }
    let [fire, surviving, library] =
        [&m.fire, &m.surviving, &m.library].map(|m| p.time(Some(whole_round(m))));
    println!("{ROUND}\t{fire}\t{surviving}\t{library}");
    true
}
