//! For ../../../measure: rounds on the two sides of fire.rs, run by callgrind, which counts what
//! runs inside `timed` and dumps after each. Here a line is printed for each dump: which side, in
//! which row it is shown, whether it is one of the round's calls, and how many calls it counts.

use super::{
    rounds::{self, Packets, Sort},
    shape::Shape,
    sides::{FireSide, Side, SurvivingSide, TIMEOUTS},
    MEASURED,
};

/// The rounds before it are warm-up.
const SHOWN: u64 = 3;
const SIXTH: usize = 6;

fn is_of_round(sort: Sort) -> bool {
    !matches!(sort, Sort::Refused | Sort::Timeout | Sort::Dropped)
}

fn side(name: &str, side: &mut dyn Side, timeouts: u64) {
    let shape = Shape::full();
    for iteration in 1..=SHOWN {
        let packets = Packets::new(&shape, iteration);
        let mut seen = Vec::new();
        rounds::round(side, &shape, &packets, &mut |sort, _| {
            // fire.rs ends a round in one call.
            if matches!(sort, Sort::LastShare | Sort::Aggregated) {
                return;
            }
            seen.push(sort);
            let times = seen.iter().filter(|s| **s == sort).count();
            let several = matches!(sort, Sort::Response | Sort::Share);
            let is_shown = iteration == SHOWN && (!several || times == SIXTH);
            let row = MEASURED.iter().find(|r| r.0 == sort && is_shown).map_or("-", |r| r.1);
            let of_round = (iteration == SHOWN && is_of_round(sort)) as u8;
            let calls = if sort == Sort::Timeout { timeouts } else { 1 };
            println!("{name}\t{row}\t{of_round}\t{calls}");
        });
    }
}

pub fn run() -> bool {
    wsts::harness::set_noting(false);
    let shape = Shape::full();
    side("alone", &mut FireSide::new(&shape), TIMEOUTS);
    side("surviving", &mut SurvivingSide::new(&shape), 1);
    true
}
