//! The calls on the worked blob of docs/FORMATS.md, and the identifiers of clients/vectors.json.

use std::thread;

use walrus::{codes, envelope, hex, split, Axis, Error};

const SIX_WORDS: [u8; 12] = [0, 1, 0, 2, 0, 3, 0, 4, 0, 5, 0, 6];
const WORKED: &str = "e02bba4bcbf5e38690b9d44c477647094b390c35d101726424629de2f5ab48fa";
const WORKED_TWO: &str = "b3ec80782419d889e73d427e5f2976ee93d9fa6443aab3f6c2587307b49bd954";

/// Envelopes from nobody.
fn stream(payloads: &[&[u8]]) -> Vec<u8> {
    payloads.iter().flat_map(|payload| envelope(0, payload)).collect()
}

#[test]
fn identifiers_of_the_worked_blob() {
    assert_eq!(hex(&walrus::identifier(&SIX_WORDS, 1, 1).unwrap()), WORKED);
    assert_eq!(hex(&walrus::identifier(&SIX_WORDS, 1, 2).unwrap()), WORKED_TWO);
}

#[test]
fn a_blob_is_read_from_two_of_four() {
    let identifier = walrus::identifier(&SIX_WORDS, 1, 1).unwrap();
    let encoded = walrus::encode(&SIX_WORDS, 1, 1).unwrap();
    let frames = split(&encoded);
    assert_eq!((encoded.len(), frames.len()), (690, 9));
    let some = stream(&[b"noise", frames[0].1, frames[7].1, frames[3].1]);
    assert_eq!(walrus::read(&identifier, &some).unwrap(), SIX_WORDS);
    let fault = walrus::read(&identifier, &stream(&[frames[0].1, frames[7].1])).unwrap_err();
    assert_eq!((fault.status, fault.words().as_str()), (4, "short 1 of 2"));
    let text = "walrus read: short 1 of 2 (status 4): something is missing: ask further shards";
    assert_eq!(fault.to_string(), text);
}

#[test]
fn room_that_is_too_small() {
    let whole = walrus::encode(&SIX_WORDS, 1, 1).unwrap();
    let mut room = vec![0xee; 700];
    let call = walrus::run_into(&["encode", "1"], &SIX_WORDS, &mut room[..689]);
    assert_eq!((call.status, call.needed), (walrus::NO_ROOM, 690));
    assert_eq!(room[689..], [0xee; 11]);
    let call = walrus::run_into(&["encode", "1"], &SIX_WORDS, &mut room);
    assert_eq!((call.status, call.written, call.needed), (0, 690, 690));
    assert_eq!((&room[..690], &room[690..]), (&whole[..], &[0xee; 10][..]));
    assert_eq!(walrus::run(&["encode", "1"], &SIX_WORDS, 0).text, whole);
}

#[test]
fn a_sliver_is_recovered_from_what_shards_answer() {
    let identifier = walrus::identifier(&SIX_WORDS, 1, 1).unwrap();
    let encoded = walrus::encode(&SIX_WORDS, 1, 1).unwrap();
    let frames = split(&encoded);
    let mut heard = Vec::new();
    for shard in [0, 2] {
        let register = [&[0x40], &identifier[..], &[0, 0, 0, 9]].concat();
        let ask = [&[0x21], &identifier[..], &[1, 0, 3]].concat();
        let requests = stream(&[&register, frames[0].1, frames[1 + 2 * shard].1, &ask]);
        heard.extend(walrus::serve(1, shard as u32, 4, &requests).unwrap());
    }
    let found = walrus::recover(&identifier, Axis::Secondary, 3, &heard).unwrap();
    assert_eq!(found, frames[8].1);
    let fault = walrus::check(&identifier, &heard).unwrap_err();
    assert_eq!((fault.status, fault.words().as_str()), (4, "no proof"));
}

#[test]
fn bundles_and_challenges() {
    let blob = walrus::bundle(&stream(&[&[0xaa, 0xbb], &[0xcc]]), 1).unwrap();
    let identifier = walrus::identifier(&blob, 1, 1).unwrap();
    let encoded = walrus::encode(&blob, 1, 1).unwrap();
    assert_eq!(walrus::member(&identifier, 1, &encoded).unwrap(), [0xcc]);
    let fault = walrus::member(&identifier, 2, &encoded).unwrap_err();
    assert_eq!(fault.words(), "no member of 2");

    let frames = split(&encoded);
    let held = stream(&[frames[0].1, frames[3].1, frames[4].1]);
    let mut shown = envelope(0, frames[0].1);
    shown.extend(walrus::challenge(&identifier, 1, &[7; 32], 3, &held).unwrap());
    assert!(walrus::verify(&identifier, 1, &[7; 32], 3, &shown).unwrap().holds);
    assert!(!walrus::verify(&identifier, 1, &[8; 32], 3, &shown).unwrap().holds);
    assert_eq!(walrus::verify(&identifier, 1, &[7; 32], 4, &shown).unwrap_err().words(), "wrong count 3 of 4");
}

#[test]
fn words_that_are_none() {
    assert_eq!(walrus::identifier(b"", 0, 1).unwrap_err().status, 2);
    assert_eq!(walrus::encode(b"", 1, 3).unwrap_err().status, 2);
    assert_eq!(walrus::run(&[], b"", 0).status, 2);
    assert_eq!(walrus::read(&[0; 32], b"x").unwrap_err().words(), "malformed at 0");
}

#[test]
fn codes_of_refusals() {
    let identifier = walrus::identifier(&SIX_WORDS, 1, 1).unwrap();
    let encoded = walrus::encode(&SIX_WORDS, 1, 1).unwrap();
    let frames = split(&encoded);
    let lonely = stream(&[frames[0].1, frames[7].1]);
    assert_eq!(walrus::read(&identifier, b"").unwrap_err().code(), codes::NO_METADATA);
    assert_eq!(walrus::read(&identifier, &lonely).unwrap_err().code(), codes::TOO_FEW);
    assert_eq!(walrus::read(&identifier, b"x").unwrap_err().code(), codes::MALFORMED);
    assert_eq!(walrus::check(&identifier, &encoded).unwrap_err().code(), codes::NO_PROOF);
    assert_eq!(walrus::member(&identifier, 0, &encoded).unwrap_err().code(), codes::BAD_INDEX);
    assert_eq!(walrus::verify(&identifier, 4, &[7; 32], 1, &encoded).unwrap_err().code(), codes::NO_SHARD);
    assert_eq!(walrus::verify(&identifier, 0, &[7; 32], 3, &encoded).unwrap_err().code(), codes::DRAW_COUNT);
    assert_eq!(walrus::challenge(&identifier, 0, &[7; 32], 1, &lonely).unwrap_err().code(), codes::NO_PRIMARY);
    assert_eq!(walrus::bundle(&stream(&[b"", b"", b""]), 1).unwrap_err().code(), codes::TOO_MANY_MEMBERS);
    assert_eq!(walrus::identifier(b"", 0, 1).unwrap_err().code(), codes::USAGE);
    assert_eq!(walrus::serve(1, 0, 4, b"x").unwrap_err().code(), codes::BROKEN_REQUEST);
    let none = Error { command: String::new(), status: 0, text: Vec::new() };
    assert_eq!(none.code(), codes::NONE);
}

/// The numbers are those of the header, under the same names.
#[test]
fn codes_of_the_header() {
    let listed = |text: &str, front: &str| -> Vec<(String, u32)> {
        let rows = text.lines().filter_map(|line| line.trim_start().strip_prefix(front)?.split_once(" = "));
        let number = |text: &str| text.split(&[',', ';', ' '][..]).next().unwrap().parse().unwrap();
        rows.map(|(name, rest)| (name.trim_end_matches(": u32").to_string(), number(rest))).collect()
    };
    let here = listed(include_str!("../src/codes.rs"), "pub const ");
    assert_eq!(here.len(), 35);
    assert_eq!(here, listed(include_str!("../../c/walrus.h"), "WALRUS_CODE_"));
}

#[test]
fn eight_threads_at_once() {
    let work = |thread: u8| vec![thread; 1000 + 7000 * thread as usize];
    let alone: Vec<_> = (0..8).map(|thread| walrus::identifier(&work(thread), 1, 1).unwrap()).collect();
    let running: Vec<_> = (0..8)
        .map(|thread| {
            thread::spawn(move || {
                let blob = vec![thread; 1000 + 7000 * thread as usize];
                (0..20).map(|_| walrus::identifier(&blob, 1, 1).unwrap()).collect::<Vec<_>>()
            })
        })
        .collect();
    for (made, wanted) in running.into_iter().map(|thread| thread.join().unwrap()).zip(alone) {
        assert_eq!(made, vec![wanted; 20]);
    }
}

/// What stands behind a key on a line of JSON, up to a comma or a brace.
fn after<'a>(line: &'a str, key: &str) -> Option<&'a str> {
    let place = line.find(key)? + key.len();
    line[place..].split(&[',', '}'][..]).next().map(|found| found.trim_matches('"'))
}

/// Each blob that is generated stands on a line of its own.
#[test]
fn identifiers_of_the_vectors() {
    let path = concat!(env!("CARGO_MANIFEST_DIR"), "/../vectors.json");
    let text = std::fs::read_to_string(path).unwrap();
    let mut count = 0;
    for line in text.lines().filter(|line| line.contains("\"symbolSize\"") && line.contains("\"counting\"")) {
        let length: usize = after(line, "\"length\": ").unwrap().parse().unwrap();
        let faults: u32 = after(line, "\"faults\": ").unwrap().parse().unwrap();
        let blob: Vec<u8> = (0..length).map(|at| (at % 251) as u8).collect();
        let formats = &line[line.find("\"2\": ").unwrap()..];
        for (format, told) in [(1, line), (2, formats)] {
            let wanted = after(told, "\"identifier\": ").unwrap();
            assert_eq!(hex(&walrus::identifier(&blob, faults, format).unwrap()), wanted, "{} {}", faults, length);
        }
        count += 1;
    }
    assert!(count > 40);
}
