//! Blobs that outlive lost and lying shards: the program `walrus` as calls, with all that is proved of it.
//!
//! Each call is a command of the program (README.md, 'Which command for what'). It starts no process, keeps no state,
//! and may run in several threads at once. An [`Error`] has the program's status and words, and the code of the refusal.

use std::fmt;

pub mod codes;

extern "C" {
    fn walrus_run(
        words: *const u8,
        words_len: usize,
        input: *const u8,
        input_len: usize,
        output: *mut u8,
        output_len: usize,
        written: *mut u64,
        needed: *mut u64,
    ) -> u8;

    fn walrus_code(status: u8, output: *const u8, output_len: usize) -> u32;
}

/// The status of a call whose output has too little room.
pub const NO_ROOM: u8 = 7;
/// The most bytes that a blob has.
pub const LARGEST_BLOB: usize = 16_777_216;
/// The most shards that may lie.
pub const MOST_FAULTS: u32 = 333;

const ROOM: usize = 4_096; // where no more is known of what a command writes

/// What a call into room of the caller did.
#[derive(Clone, Copy, Debug, PartialEq, Eq)]
pub struct Call {
    /// The program's status, or [`NO_ROOM`].
    pub status: u8,
    /// How many bytes of the room were written, from its front.
    pub written: u64,
    /// How many bytes the whole text has.
    pub needed: u64,
}

/// How a command ended: the program's status, and the whole of what it wrote.
#[derive(Clone, Debug, PartialEq, Eq)]
pub struct Ran {
    pub status: u8,
    pub text: Vec<u8>,
}

/// A command that gave no result.
#[derive(Clone, Debug, PartialEq, Eq)]
pub struct Error {
    pub command: String,
    pub status: u8,
    /// What the program wrote: a line, a proof of bad encoding, or the answers before the fault.
    pub text: Vec<u8>,
}

impl Error {
    /// What the program wrote, as far as it is a short line.
    pub fn words(&self) -> String {
        let front = &self.text[..self.text.len().min(300)];
        String::from_utf8_lossy(front).trim().to_string()
    }

    /// Which refusal it is: one of [`codes`].
    pub fn code(&self) -> u32 {
        // The text is where it is said to be for the whole call, and the pointer of a vector is never null.
        unsafe { walrus_code(self.status, self.text.as_ptr(), self.text.len()) }
    }
}

impl fmt::Display for Error {
    fn fmt(&self, to: &mut fmt::Formatter) -> fmt::Result {
        let advice = match self.status {
            2 | 11 => "an argument is out of its range",
            3 => "the writer encoded it badly, or it is not what the identifier names",
            4 => "something is missing: ask further shards",
            5 => "there was too little memory",
            8 => "the input is cut or damaged at this place",
            9 => "the input is too long: split it",
            10 => "two texts have one digest: keep them, the digest is broken",
            _ => "this status is not known",
        };
        let words = if self.status == 2 { String::new() } else { self.words() };
        write!(to, "walrus {}: {} (status {}): {}", self.command, words, self.status, advice)
    }
}

impl std::error::Error for Error {}

/// What was found of a proof or of an answer to draws, with the program's words.
#[derive(Clone, Debug, PartialEq, Eq)]
pub struct Verdict {
    pub holds: bool,
    pub words: String,
}

/// The axis of a sliver.
#[derive(Clone, Copy, Debug, PartialEq, Eq)]
pub enum Axis {
    Primary,
    Secondary,
}

/// Runs a command into room of the caller: its words without the program's name, none with a zero byte in it.
///
/// # Panics
/// Where a word has a zero byte.
pub fn run_into(words: &[&str], input: &[u8], room: &mut [u8]) -> Call {
    let mut told = Vec::new();
    for word in words {
        assert!(!word.as_bytes().contains(&0), "a word has no zero byte");
        told.extend_from_slice(word.as_bytes());
        told.push(0);
    }
    let (mut written, mut needed) = (0, 0);
    // The slices are where they are said to be for the whole call, nothing else has the room or the two numbers, and a
    // slice's pointer is never null.
    let status = unsafe {
        walrus_run(
            told.as_ptr(),
            told.len(),
            input.as_ptr(),
            input.len(),
            room.as_mut_ptr(),
            room.len(),
            &mut written,
            &mut needed,
        )
    };
    Call { status, written, needed }
}

/// Runs a command. `room` is how many bytes it is likely to write: a better guess saves a second run.
pub fn run(words: &[&str], input: &[u8], mut room: usize) -> Ran {
    loop {
        let mut text = vec![0; room];
        let call = run_into(words, input, &mut text);
        if call.status != NO_ROOM {
            text.truncate(call.written as usize);
            return Ran { status: call.status, text };
        }
        assert!(call.needed > room as u64, "the library wants room that it has");
        room = call.needed as usize;
    }
}

fn result(words: &[&str], input: &[u8], room: usize) -> Result<Vec<u8>, Error> {
    let Ran { status, text } = run(words, input, room);
    match status {
        0 => Ok(text),
        _ => Err(Error { command: words[0].to_string(), status, text }),
    }
}

/// The digits of bytes.
pub fn hex(bytes: &[u8]) -> String {
    bytes.iter().map(|byte| format!("{:02x}", byte)).collect()
}

/// A payload in an envelope from a sender.
pub fn envelope(sender: u16, payload: &[u8]) -> Vec<u8> {
    let mut made = vec![0x57];
    made.extend_from_slice(&sender.to_be_bytes());
    made.extend_from_slice(&(payload.len() as u32).to_be_bytes());
    made.extend_from_slice(payload);
    made
}

/// The sender and the payload of each envelope of a stream, up to the first byte that no whole one covers.
pub fn split(mut stream: &[u8]) -> Vec<(u16, &[u8])> {
    let mut found = Vec::new();
    while stream.len() >= 7 && stream[0] == 0x57 {
        let size = u32::from_be_bytes([stream[3], stream[4], stream[5], stream[6]]) as usize;
        if stream.len() - 7 < size {
            break;
        }
        found.push((u16::from_be_bytes([stream[1], stream[2]]), &stream[7..7 + size]));
        stream = &stream[7 + size..];
    }
    found
}

/// A blob's identifier, for f faults and a format of identifiers, 1 or 2.
pub fn identifier(blob: &[u8], faults: u32, format: u32) -> Result<[u8; 32], Error> {
    let text = result(&["id", &faults.to_string(), "--format", &format.to_string()], blob, ROOM)?;
    let digit = |at: usize| (text[at] as char).to_digit(16).unwrap_or(0) as u8;
    let mut made = [0; 32];
    for (at, byte) in made.iter_mut().enumerate() {
        *byte = digit(2 * at) << 4 | digit(2 * at + 1);
    }
    Ok(made)
}

/// How many bytes all envelopes of a blob have at most.
fn encoded_size(size: usize, faults: u32) -> usize {
    if faults == 0 || faults > MOST_FAULTS || size > LARGEST_BLOB {
        return ROOM;
    }
    let faults = faults as usize;
    let cells = 2 * (faults + 1) * (2 * faults + 1);
    let symbol = 2 * ((size + cells - 1) / cells).max(1);
    19 + (3 * faults + 1) * (64 + 94 + (3 * faults + 2) * symbol)
}

/// All that shards hold of a blob, in envelopes: the metadata, then the two slivers of each shard.
pub fn encode(blob: &[u8], faults: u32, format: u32) -> Result<Vec<u8>, Error> {
    let words = ["encode", &faults.to_string(), "--format", &format.to_string()];
    result(&words, blob, encoded_size(blob.len(), faults))
}

/// The blob, from envelopes with its metadata and f+1 true primary slivers among whatever else.
pub fn read(identifier: &[u8; 32], envelopes: &[u8]) -> Result<Vec<u8>, Error> {
    result(&["read", &hex(identifier)], envelopes, envelopes.len() + ROOM)
}

/// A sliver, as a frame, from openings of it. Status 3 has the envelope of a proof that the blob was badly encoded.
pub fn recover(identifier: &[u8; 32], axis: Axis, index: u32, envelopes: &[u8]) -> Result<Vec<u8>, Error> {
    let axis = if axis == Axis::Primary { "primary" } else { "secondary" };
    let words = ["recover", &hex(identifier), axis, &index.to_string()];
    Ok(result(&words, envelopes, envelopes.len() + ROOM)?.split_off(7))
}

/// Whether the first proof among the payloads shows that the blob was badly encoded.
pub fn check(identifier: &[u8; 32], envelopes: &[u8]) -> Result<Verdict, Error> {
    let shown = match result(&["check", &hex(identifier)], envelopes, ROOM) {
        Ok(_) => unreachable!("a check never ends with status 0"),
        Err(shown) => shown,
    };
    let words = shown.words();
    match shown.code() {
        codes::INCONSISTENT => Ok(Verdict { holds: true, words }),
        codes::PROOF_COUNT | codes::PROOF_REPEATS | codes::BAD_OPENING | codes::CONSISTENT => {
            Ok(Verdict { holds: false, words })
        }
        _ => Err(shown),
    }
}

/// One blob of small ones, at most 2f, each in an envelope.
pub fn bundle(members: &[u8], faults: u32) -> Result<Vec<u8>, Error> {
    result(&["bundle", &faults.to_string()], members, LARGEST_BLOB + ROOM)
}

/// A member of a bundle, from envelopes with secondary slivers or openings of them.
pub fn member(identifier: &[u8; 32], number: u32, envelopes: &[u8]) -> Result<Vec<u8>, Error> {
    result(&["member", &hex(identifier), &number.to_string()], envelopes, envelopes.len() + ROOM)
}

/// The envelopes with which a shard that holds its slivers answers so many draws by a beacon.
pub fn challenge(
    identifier: &[u8; 32],
    shard: u32,
    beacon: &[u8; 32],
    count: u32,
    envelopes: &[u8],
) -> Result<Vec<u8>, Error> {
    let words = ["challenge", &hex(identifier), &shard.to_string(), &hex(beacon), &count.to_string()];
    result(&words, envelopes, envelopes.len() + ROOM)
}

/// Whether openings answer these draws.
pub fn verify(
    identifier: &[u8; 32],
    shard: u32,
    beacon: &[u8; 32],
    count: u32,
    envelopes: &[u8],
) -> Result<Verdict, Error> {
    let words = ["verify", &hex(identifier), &shard.to_string(), &hex(beacon), &count.to_string()];
    match result(&words, envelopes, ROOM) {
        Ok(_) => Ok(Verdict { holds: true, words: "accepted".to_string() }),
        Err(fault) if fault.code() == codes::WRONG_OPENING => Ok(Verdict { holds: false, words: fault.words() }),
        Err(fault) => Err(fault),
    }
}

/// The answers of a shard that begins empty, with so many pages, to all requests in turn.
pub fn serve(faults: u32, shard: u32, pages: u32, requests: &[u8]) -> Result<Vec<u8>, Error> {
    let words = ["serve", &faults.to_string(), &shard.to_string(), "--pages", &pages.to_string()];
    result(&words, requests, requests.len() + ROOM)
}
