//! `compare run SEED CALLS [--break N]`, `compare run --replay FILE`, `compare bench [ROUNDS]`,
//! `compare medians ROUNDS`, `compare count`. README.md says what they do.

use std::{process::ExitCode, time::Instant};

use compare::{
    bench,
    both::Both,
    calls::Step,
    clock,
    faults::{Fault, FAULTS},
    fire::Fire,
    fire_fields,
    generate::{self, Found},
    library_fields, parse,
    reached::Reached,
    shrink::{self, Setting},
    text,
};

/// The run in the trace's form, with what fire.rs answered and left; then the difference and what
/// the library left. Gives whether there was none.
fn print_run(setting: Setting, steps: &[Step]) -> bool {
    let mut both = Both::new(setting.surplus, setting.fault);
    let mut fire = Fire::new();
    println!("{}", text::lent(setting.surplus));
    for step in steps {
        print!("{}", text::step(step));
        println!("answer {}", text::answer(&fire.call(step.now, &step.call)));
        if let Some(saved) = fire.saved() {
            println!("fields {}", text::fields(&fire_fields::fields(saved)));
        }
        if let Err(difference) = both.step(step) {
            println!("library fields {}", text::fields(&library_fields::fields(&both.view())));
            println!("DIFFERS: {}", difference.0);
            return false;
        }
    }
    true
}

fn report(found: &Found) {
    println!("a difference after {} calls; the smallest run that shows it:", found.steps.len());
    let small = shrink::shrink(found.setting, &found.steps, &found.difference);
    print_run(found.setting, &small);
    println!("({} calls of {} are left)", small.len(), found.steps.len());
}

fn run(seed: u64, calls: u64, fault: Option<Fault>) -> bool {
    if let Some(fault) = fault {
        println!("with a fault: {}", FAULTS[fault.0 as usize - 1]);
    }
    let begun = Instant::now();
    let mut reached = Reached::default();
    let (mut made, mut index) = (0, 0);
    while made < calls {
        match generate::sequence(seed, index, fault, &mut reached) {
            Ok(n) => made += n,
            Err(found) => {
                println!("seed {seed}, sequence {index}");
                report(&found);
                return false;
            }
        }
        index += 1;
    }
    reached.print();
    println!("\nseed {seed}: {made} calls, no difference, {:.1} s", begun.elapsed().as_secs_f64());
    true
}

fn replay(file: &str) -> Result<bool, String> {
    let lines = std::fs::read_to_string(file).map_err(|e| format!("{file}: {e}"))?;
    let setting = Setting { surplus: parse::lent(&lines)?, fault: None };
    Ok(print_run(setting, &parse::steps(&lines)?))
}

fn usage() -> bool {
    eprintln!("run SEED CALLS [--break N] | run --replay FILE | bench [ROUNDS]");
    eprintln!("medians ROUNDS | count");
    false
}

fn run_words(seed: &str, calls: &str, fault: Option<&str>) -> bool {
    let fault = fault.map(|n| n.parse().ok().and_then(Fault::new));
    match (seed.parse(), calls.parse(), fault) {
        (Ok(seed), Ok(calls), None) => run(seed, calls, None),
        (Ok(seed), Ok(calls), Some(Some(fault))) => run(seed, calls, Some(fault)),
        _ => usage(),
    }
}

fn main() -> ExitCode {
    clock::check();
    let args: Vec<String> = std::env::args().skip(1).collect();
    let words: Vec<&str> = args.iter().map(String::as_str).collect();
    let ok = match words[..] {
        ["run", "--replay", file] => replay(file).unwrap_or_else(|e| {
            eprintln!("{e}");
            false
        }),
        ["run", seed, calls] => run_words(seed, calls, None),
        ["run", seed, calls, "--break", n] => run_words(seed, calls, Some(n)),
        ["bench"] => bench::run(2_000),
        ["bench", rounds] => rounds.parse().map_or_else(|_| usage(), bench::run),
        ["count"] => bench::count::run(),
        ["medians", rounds] => rounds.parse().map_or_else(|_| usage(), bench::medians),
        _ => usage(),
    };
    if ok {
        ExitCode::SUCCESS
    } else {
        ExitCode::FAILURE
    }
}
