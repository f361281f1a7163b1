//! The smallest run that shows a difference: calls are dropped while the difference stays.

use crate::{
    both::{Both, Difference},
    calls::Step,
    faults::Fault,
    library::Surplus,
    probes::Probe,
};

/// What every run of a list of calls begins with.
#[derive(Clone, Copy, Default)]
pub struct Setting {
    pub surplus: Surplus,
    pub fault: Option<Fault>,
}

/// The first difference in a run of these calls, and the call that it comes with.
pub fn first_difference(setting: Setting, steps: &[Step]) -> Option<(usize, Difference)> {
    let mut both = Both::new(setting.surplus, setting.fault);
    for (i, step) in steps.iter().enumerate() {
        if let Err(difference) = both.step(step) {
            return Some((i, difference));
        }
    }
    None
}

fn name(d: &Difference) -> &str {
    d.0.lines().next().unwrap_or("")
}

/// Drops runs of calls, long ones first, then single ones, until none can go.
pub fn shrink(setting: Setting, steps: &[Step], difference: &Difference) -> Vec<Step> {
    let stays = |steps: &[Step]| {
        first_difference(setting, steps)
            .filter(|(_, found)| name(found) == name(difference))
            .map(|(i, _)| steps[..=i].to_vec())
    };
    let mut kept = stays(steps).expect("the run shows the difference");
    let mut length = kept.len();
    while length > 0 {
        let before = kept.len();
        kept = drop_each(kept, length, stays);
        if kept.len() == before {
            length /= 2;
        }
    }
    without_probes(kept, stays)
}

/// Drops the probes that the difference does not need.
fn without_probes(mut kept: Vec<Step>, stays: impl Fn(&[Step]) -> Option<Vec<Step>>) -> Vec<Step> {
    for i in 0..kept.len() {
        let probe = std::mem::replace(&mut kept[i].probe, Probe::None);
        if stays(&kept).is_none() {
            kept[i].probe = probe;
        }
    }
    kept
}

/// Tries to drop each run of `length` calls in turn.
fn drop_each(
    mut kept: Vec<Step>,
    length: usize,
    stays: impl Fn(&[Step]) -> Option<Vec<Step>>,
) -> Vec<Step> {
    let mut at = 0;
    while at < kept.len() {
        let end = (at + length).min(kept.len());
        match stays(&[&kept[..at], &kept[end..]].concat()) {
            Some(shorter) => kept = shorter,
            None => at += length,
        }
    }
    kept
}
