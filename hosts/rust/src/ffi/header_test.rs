//! The structs, numbers and prototypes of this crate are the header's: a C program that includes it says so.

use super::*;
use crate::limits::*;
use std::mem::{align_of, offset_of, size_of, size_of_val};
use std::path::Path;
use std::process::Command;

/// A C expression, and what this crate has for it.
type Line = (String, usize);

macro_rules! layout_of {
    ($rust:ident, $c:literal, $($field:ident)*) => {{
        let value = $rust::default();
        let mut lines = vec![(format!("sizeof({})", $c), size_of::<$rust>()), (format!("_Alignof({})", $c), align_of::<$rust>())];
        $(
            let name = stringify!($field);
            lines.push((format!("offsetof({}, {name})", $c), offset_of!($rust, $field)));
            lines.push((format!("sizeof((({} *)0)->{name})", $c), size_of_val(&value.$field)));
        )*
        lines
    }};
}

fn structs() -> Vec<Line> {
    [
        layout_of!(RcAnswer, "rc_answer", class_ number first second values mark length),
        layout_of!(RcTimeout, "rc_timeout", given nanoseconds),
        layout_of!(RcSigner, "rc_signer", id has_keys key_count keys reserved),
        layout_of!(RcConfig, "rc_config", num_signers num_keys threshold dkg_threshold sign_threshold verify_packet_sigs
            dkg_public_timeout dkg_private_timeout dkg_end_timeout nonce_timeout sign_timeout signer_count signers),
        layout_of!(RcPacket, "rc_packet", refusal kind signature_type pairs signer_id reserved dkg_id sign_id sign_iter_id),
        layout_of!(RcPart, "rc_part", at length),
        layout_of!(RcWritten, "rc_written", refusal reserved length),
        layout_of!(RcHead, "rc_head", dkg_id sign_id sign_iter_id signature_type reserved root),
        layout_of!(RcSignerIds, "rc_signer_ids", ids count),
        layout_of!(RcArrival, "rc_arrival", signer_id reserved clock),
        layout_of!(RcArrivals, "rc_arrivals", arrivals count),
        layout_of!(RcPlace, "rc_place", at count),
        layout_of!(RcResponse, "rc_response", dkg_id sign_id sign_iter_id signer_id reserved message key_ids nonces),
        layout_of!(RcResponses, "rc_responses", places count),
        layout_of!(RcJobPlace, "rc_job_place", key_ids nonces shares share_keys_at share_key_counts),
        layout_of!(RcJobPlaces, "rc_job_places", places count),
        layout_of!(RcResponseHead, "rc_response_head", dkg_id sign_id sign_iter_id signer_id reserved),
    ]
    .concat()
}

fn numbers() -> Vec<Line> {
    let lengths = [
        ("RC_STATE_LENGTH", STATE_LENGTH),
        ("RC_STORE_LENGTH", STORE_LENGTH),
        ("RC_ANSWER_LENGTH", ANSWER_LENGTH),
        ("RC_MESSAGE_LIMIT", MESSAGE_LIMIT),
        ("RC_SIGNER_LIMIT", SIGNER_LIMIT),
        ("RC_KEY_LIMIT", KEY_LIMIT),
        ("RC_NONCE_RESPONSE_LIMIT", NONCE_RESPONSE_LIMIT),
        ("RC_SHARE_RESPONSE_LIMIT", SHARE_RESPONSE_LIMIT),
        ("RC_SIGNER_PLACES", SIGNER_PLACES),
        ("RC_KEY_PLACES", KEY_PLACES),
        ("RC_VERSION", crate::version() as usize),
        ("RC_STATE_VERSION", crate::STATE_VERSION as usize),
    ];
    let classes =
        [("RC_NOTHING", NOTHING), ("RC_PACKET", PACKET), ("RC_JOB", JOB), ("RC_RESULT", RESULT), ("RC_ERROR", ERROR)];
    let lengths = lengths.map(|(name, n)| (name.to_string(), n));
    let classes = classes.map(|(name, n)| (name.to_string(), n as usize));
    lengths.into_iter().chain(classes).chain(crate::names_test::numbers()).collect()
}

/// The prototypes of this crate, as C. Beside the header's, a C compiler takes them only where they are the same.
fn prototypes() -> String {
    let source = include_str!("../ffi.rs");
    let (_, rest) = source.split_once("extern \"C\" {\n").unwrap();
    let (block, _) = rest.split_once("\n}\n").unwrap();
    block.split(';').map(str::trim).filter(|f| !f.is_empty()).map(prototype).collect()
}

fn prototype(declared: &str) -> String {
    let (head, answer) = declared.rsplit_once(" -> ").unwrap();
    let (name, parameters) = head.strip_prefix("fn ").unwrap().split_once('(').unwrap();
    let types = parameters.trim_end_matches(')').split(',').filter_map(|p| Some(in_c(p.split_once(':')?.1.trim())));
    let types = types.collect::<Vec<_>>().join(", ");
    format!("{} {name}({});\n", in_c(answer), if types.is_empty() { "void" } else { &types })
}

fn in_c(rust: &str) -> &'static str {
    match rust {
        "*mut u8" => "uint8_t *",
        "*const u8" => "const uint8_t *",
        "*const u32" => "const uint32_t *",
        "usize" => "size_t",
        "u8" => "uint8_t",
        "u16" => "uint16_t",
        "u32" => "uint32_t",
        "u64" => "uint64_t",
        "RcConfig" => "rc_config",
        "RcAnswer" => "rc_answer",
        "RcPacket" => "rc_packet",
        "RcPart" => "rc_part",
        "RcWritten" => "rc_written",
        "RcHead" => "rc_head",
        "RcSignerIds" => "rc_signer_ids",
        "RcArrivals" => "rc_arrivals",
        "RcResponses" => "rc_responses",
        "RcJobPlaces" => "rc_job_places",
        "RcResponseHead" => "rc_response_head",
        other => panic!("a type without a C name: {other}"),
    }
}

/// Compiles a C program beside the header, runs it and gives what it prints.
fn run_c(name: &str, program: &str) -> String {
    let folder = Path::new(env!("OUT_DIR"));
    let (source, binary) = (folder.join(format!("{name}.c")), folder.join(name));
    std::fs::write(&source, program).unwrap();
    let include = Path::new(env!("CARGO_MANIFEST_DIR")).join("../../include");
    let compiler = std::env::var("CC").unwrap_or("cc".into());
    let mut compile = Command::new(compiler);
    compile.arg("-Werror").arg("-O1").arg("-I").arg(include).arg(&source).arg("-o").arg(&binary);
    assert!(compile.status().expect("a C compiler").success(), "a prototype or a name is not the header's");
    String::from_utf8(Command::new(binary).output().unwrap().stdout).unwrap()
}

#[test]
fn structs_numbers_and_prototypes_are_the_headers() {
    let lines = [structs(), numbers()].concat();
    let prints: String =
        lines.iter().map(|(c, _)| format!("    printf(\"%llu\\n\", (unsigned long long)({c}));\n")).collect();
    let includes = "#include \"roundcabinet.h\"\n#include <stdio.h>\n";
    let printed =
        run_c("numbers", &format!("{includes}{}int main(void) {{\n{prints}    return 0;\n}}\n", prototypes()));
    let found: Vec<Line> =
        lines.iter().map(|(c, _)| c.clone()).zip(printed.lines().map(|n| n.parse().unwrap())).collect();
    assert_eq!(lines, found);
}

#[test]
fn texts_are_the_headers_word_for_word() {
    let texts = crate::names_test::texts();
    let prints: String = texts.iter().map(|(c, _)| format!("    puts({c});\n")).collect();
    let includes = "#include \"roundcabinet.h\"\n#include <stdio.h>\n";
    let printed = run_c("texts", &format!("{includes}int main(void) {{\n{prints}    return 0;\n}}\n"));
    assert_eq!(texts.iter().map(|(_, words)| words.as_str()).collect::<Vec<_>>(), printed.lines().collect::<Vec<_>>());
    let names = HEADER.lines().filter(|l| l.starts_with("#define RC_REFUSED_") || l.starts_with("#define RC_KIND_"));
    assert_eq!(names.count(), texts.len());
}

#[test]
fn the_state_has_the_headers_version() {
    let coordinator = crate::Coordinator::commission(&crate::Config::new(0, 0, 0)).unwrap();
    assert_eq!(coordinator.state()[8..16], u64::from(crate::STATE_VERSION).to_le_bytes());
}

const HEADER: &str = include_str!(concat!(env!("CARGO_MANIFEST_DIR"), "/../../include/roundcabinet.h"));

#[test]
fn every_struct_of_the_header_is_compared() {
    let compared = structs();
    let names = HEADER.lines().filter_map(|l| l.strip_prefix("typedef struct ")?.strip_suffix(" {"));
    let names: Vec<&str> = names.collect();
    for name in &names {
        assert!(compared.iter().any(|(c, _)| *c == format!("sizeof({name})")), "{name}");
    }
    assert_eq!(names.len(), compared.iter().filter(|(c, _)| c.starts_with("_Alignof(")).count());
}

#[test]
fn every_function_of_the_header_is_declared() {
    let functions = HEADER.lines().filter(|l| l.starts_with("rc_") || l.starts_with("uint32_t rc_"));
    let names = functions.filter_map(|l| Some(l.split_once(' ')?.1.split_once('(')?.0));
    let declared = prototypes();
    let mut count = 0;
    for name in names {
        assert!(declared.contains(&format!(" {name}(")), "{name}");
        count += 1;
    }
    assert_eq!(count, declared.lines().count());
}
