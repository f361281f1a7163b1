//! The comparison itself: faults are found, what is compared field by field is equal as a whole,
//! and what is printed is read back.

use compare::{
    both::Both,
    c, clock,
    faults::{Fault, FAULTS},
    fire_fields, generate,
    library::Surplus,
    library_fields, parse,
    places::{layout, VERSION},
    reached::{corners, Reached},
    shrink::{self, Setting},
    text,
};

/// Every fault is found within some hundred sequences, and the run that shows it shrinks to a few
/// calls, which show nothing without it.
#[test]
fn faults_are_found_and_shrunk() {
    for number in 1..=FAULTS.len() as u8 {
        let fault = Fault::new(number);
        let mut reached = Reached::default();
        let found = (0..2_000)
            .find_map(|i| generate::sequence(1, i, fault, &mut reached).err())
            .unwrap_or_else(|| panic!("fault {number} was not found"));
        let small = shrink::shrink(found.setting, &found.steps, &found.difference);
        assert!(small.len() <= 12, "fault {number}: {} calls", small.len());
        assert!(shrink::first_difference(found.setting, &small).is_some());
        let sound = Setting { fault: None, ..found.setting };
        assert_eq!(shrink::first_difference(sound, &small), None, "fault {number}");
    }
}

/// `same::fields` looks at each field in place; here both sides are decoded whole.
#[test]
fn decoded_fields_are_equal() {
    for index in 0..300 {
        let mut both = Both::new(Surplus::default(), None);
        for step in generate::steps(9, index) {
            both.step(&step).unwrap();
            let held = fire_fields::fields(both.fire.saved().unwrap());
            assert_eq!(library_fields::fields(&both.view()), held);
        }
    }
}

#[test]
fn printed_calls_are_read_back() {
    for index in 0..50 {
        let steps = generate::steps(3, index);
        assert_eq!(steps, generate::steps(3, index), "a sequence depends on its seed alone");
        let printed: String = steps.iter().map(text::step).collect();
        assert_eq!(parse::steps(&printed).unwrap(), steps);
    }
}

/// No corner is out of the generator's reach.
#[test]
fn corners_are_reached() {
    let mut reached = Reached::default();
    for index in 0..6_000 {
        assert!(generate::sequence(5, index, None, &mut reached).is_ok(), "sequence {index}");
    }
    for name in corners::NAMES {
        assert!(reached.corners.count(name) > 0, "{name}");
    }
}

#[test]
fn the_clock_follows_the_reading() {
    clock::check();
    let begun = clock::kernel();
    assert!(clock::at(7, clock::kernel) >= begun, "the kernel's clock goes on beside it");
}

extern "C" {
    static rc_layout: [usize; 27];
}

/// c.rs and places.rs lay out what the header does.
#[test]
fn header_and_declarations_agree() {
    use std::mem::{offset_of, size_of};
    let declared = [
        VERSION as usize,
        layout::MESSAGE_LIMIT,
        layout::LIST_LIMIT,
        layout::SIGNER_LIMIT,
        c::STATE_LENGTH,
        c::STORE_LENGTH,
        c::ANSWER_LENGTH,
        c::SIGNER_PLACES,
        c::KEY_PLACES,
        c::NONCE_RESPONSE_LIMIT,
        c::SHARE_RESPONSE_LIMIT,
        size_of::<c::Answer>(),
        offset_of!(c::Answer, mark),
        offset_of!(c::Answer, length),
        size_of::<c::Timeout>(),
        size_of::<c::Signer>(),
        offset_of!(c::Signer, keys),
        size_of::<c::Config>(),
        offset_of!(c::Config, nonce_timeout),
        offset_of!(c::Config, signers),
        size_of::<c::Packet>(),
        offset_of!(c::Packet, sign_iter_id),
        size_of::<c::Part>(),
        size_of::<c::Written>(),
        offset_of!(c::Written, length),
        size_of::<c::ResponseHead>(),
        offset_of!(c::ResponseHead, signer_id),
    ];
    // SAFETY: layout.c defines it so.
    assert_eq!(declared, unsafe { rc_layout });
}
