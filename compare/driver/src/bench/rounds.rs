//! Rounds on the three sides in turns, and the time of each sort of call.

use super::{
    shape::{Both, Ids, Shape},
    sides::{Came, FireSide, LibrarySide, Side, SurvivingSide, DKG_ID, SIGN_ID},
};

/// The sorts of calls that are timed.
#[derive(Clone, Copy, PartialEq, Eq)]
pub enum Sort {
    Start,
    Refused,
    Timeout,
    Dropped,
    Response,
    Completing,
    Share,
    /// The last share with its job, up to the round's end.
    LastShare,
    /// The library's two steps of it.
    Job,
    Aggregated,
}

pub const SORTS: [Sort; 10] = [
    Sort::Start,
    Sort::Refused,
    Sort::Timeout,
    Sort::Dropped,
    Sort::Response,
    Sort::Completing,
    Sort::Share,
    Sort::LastShare,
    Sort::Job,
    Sort::Aggregated,
];

/// The packets of one round, made before anything is timed.
pub struct Packets {
    pub refused: Both,
    pub dropped: Both,
    pub others: Vec<Both>,
    pub responses: Vec<Both>,
    pub shares: Vec<Both>,
}

impl Packets {
    pub fn new(shape: &Shape, sign_iter_id: u64) -> Self {
        let ids = Ids { dkg_id: DKG_ID, sign_id: SIGN_ID, sign_iter_id };
        let wrong = Ids { sign_id: SIGN_ID + 1, ..ids };
        Packets {
            refused: shape.response(wrong, 0, 0),
            dropped: shape.share_request(ids),
            others: (1..shape.messages).map(|m| shape.response(ids, 0, m)).collect(),
            responses: (0..shape.signers).map(|i| shape.response(ids, i, 0)).collect(),
            shares: (0..shape.signers).map(|i| shape.share(ids, i)).collect(),
        }
    }
}

/// Samples in ticks, for each sort.
pub type Samples = [Vec<u64>; SORTS.len()];

/// One round. Each call's ticks are noted right after it.
pub fn round(side: &mut dyn Side, shape: &Shape, p: &Packets, note: &mut dyn FnMut(Sort, u64)) {
    note(Sort::Start, side.start(shape));
    note(Sort::Refused, side.process(&p.refused, Came::Refused));
    note(Sort::Timeout, side.timeout());
    note(Sort::Dropped, side.process(&p.dropped, Came::Nothing));
    // Not timed: the first response to a message is another sort than the later ones.
    for other in &p.others {
        side.process(other, Came::Nothing);
    }
    let (last, before) = p.responses.split_last().expect("a signer");
    for response in before {
        note(Sort::Response, side.process(response, Came::Nothing));
    }
    note(Sort::Completing, side.process(last, Came::Packet));
    let (last, before) = p.shares.split_last().expect("a signer");
    for share in before {
        note(Sort::Share, side.process(share, Came::Nothing));
    }
    let job = side.process(last, Came::Job);
    let second = side.aggregated();
    note(Sort::LastShare, job + second);
    note(Sort::Job, job);
    note(Sort::Aggregated, second);
}

/// The median of each sort in ticks.
pub type Median = [Option<u64>; SORTS.len()];

/// fire.rs alone, fire.rs that survives a crash, the library.
pub struct Medians {
    pub fire: Median,
    pub surviving: Median,
    pub library: Median,
}

fn median(samples: Samples) -> Median {
    samples.map(|mut list| {
        list.sort();
        list.get(list.len() / 2).copied()
    })
}

/// The samples of the three sides.
type Sides = [Samples; 3];

/// Each side follows each other one equally often.
const TURNS: [[usize; 3]; 6] = [[0, 1, 2], [2, 1, 0], [1, 2, 0], [0, 2, 1], [2, 0, 1], [1, 0, 2]];

/// `rounds` rounds of this shape on each side, one after the other; who begins changes. The
/// samples are added to those of earlier passes.
fn pass(shape: &Shape, rounds: u64, samples: &mut Sides) {
    let mut sides: [Box<dyn Side>; 3] = [
        Box::new(FireSide::new(shape)),
        Box::new(SurvivingSide::new(shape)),
        Box::new(LibrarySide::new(shape)),
    ];
    let warm_up = rounds / 10 + 1;
    let mut unused = Sides::default();
    // All count the iteration from 1 on.
    for iteration in 1..=warm_up + rounds {
        let packets = Packets::new(shape, iteration);
        let to = if iteration <= warm_up { &mut unused } else { &mut *samples };
        for i in TURNS[iteration as usize % TURNS.len()] {
            let mut note = |sort: Sort, ticks| to[i][sort as usize].push(ticks);
            round(&mut *sides[i], shape, &packets, &mut note);
        }
    }
}

/// The shapes take turns too, in passes, so that a machine that changes its speed changes it for
/// all of them.
pub fn run(shapes: &[Shape], rounds: u64) -> Vec<Medians> {
    const PASSES: u64 = 20;
    let mut samples: Vec<Sides> = shapes.iter().map(|_| Default::default()).collect();
    for _ in 0..PASSES {
        for (shape, sides) in shapes.iter().zip(&mut samples) {
            pass(shape, rounds.div_ceil(PASSES), sides);
        }
    }
    let medians = |sides: Sides| {
        let [fire, surviving, library] = sides.map(median);
        Medians { fire, surviving, library }
    };
    samples.into_iter().map(medians).collect()
}

/// Lengths of the packets in and out of a round of this shape.
pub struct Lengths {
    pub response: usize,
    pub share: usize,
    pub share_request: usize,
    pub job: usize,
}

pub fn lengths(shape: &Shape) -> Lengths {
    let packets = Packets::new(shape, 1);
    let mut library = LibrarySide::new(shape);
    round(&mut library, shape, &packets, &mut |_, _| ());
    let out = library.out();
    // The job is the last packet written: its last pair says where it ends.
    let pairs = u16::from_le_bytes([out[2], out[3]]) as usize;
    let last = 32 + 8 * (pairs - 1);
    let end = crate::packet::u32_at(out, last) + crate::packet::u32_at(out, last + 4);
    Lengths {
        response: packets.responses[0].inbound.packet.len(),
        share: packets.shares[0].inbound.packet.len(),
        share_request: packets.dropped.inbound.packet.len(),
        job: end as usize,
    }
}
