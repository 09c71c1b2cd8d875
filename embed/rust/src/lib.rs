//! The commands of gkr on a case, called on bytes in memory.
//!
//! Each function runs one command as the program `gkr` does on its standard input, and gives the
//! number that the program ends with and its reply. They require nothing of the bytes, share
//! nothing and start no thread: any number of threads may call them at once. A call takes at most
//! 192 KiB of stack.
//!
//! ```ignore
//! let proved = gkr::prove(gkr::Kind::Lines2, &case);
//! assert_eq!(gkr::verify(&proved.text).status, gkr::Status::Done);
//! ```

/// How a call ended. Its number, by `as u8`, is the one that the program ends with.
#[derive(Clone, Copy, Debug, PartialEq, Eq, Hash)]
#[repr(u8)]
pub enum Status {
    /// Done; of `verify`: accepted.
    Done = 0,
    /// The proof fails an equation of acceptance.
    Rejected = 1,
    /// There is no such version; of `run`: the words are no command.
    Usage = 2,
    /// The input is no text of a case.
    BadCase = 3,
    /// The case's program is refused, or its circuit is too large.
    BadProgram = 4,
    /// Another number of inputs or outputs than the program has.
    BadCount = 5,
    /// The proof's bytes spell no messages of the circuit's shape.
    BadProof = 6,
    /// No memory was found for the reply; the text is a prefix of it.
    WriteFault = 8,
    /// No memory was found, or the circuit has more than 33,554,432 gates; the text is empty.
    Memory = 9,
    /// The input is longer than a case may be.
    TooLong = 10,
    /// Of `run`: the words are no text.
    Unreadable = 11,
    /// Of `run`: the words name a command that isn't on a case.
    NotHere = 12,
}

/// How a call ended, and the reply.
#[derive(Clone, Debug, PartialEq, Eq)]
pub struct Reply {
    pub status: Status,
    pub text: Vec<u8>,
}

/// The kinds of a proof: by lines in version 1 or 2, or by pairs.
#[derive(Clone, Copy, Debug, PartialEq, Eq, Hash)]
#[repr(u32)]
pub enum Kind {
    Lines1 = 1,
    Lines2 = 2,
    Pairs = 3,
}

// `gkr.h` says what these do and what they want of a caller.
extern "C" {
    fn gkr_c_eval(
        input: *const u8,
        size: usize,
        reply: *mut u8,
        room: usize,
        needed: *mut usize,
    ) -> u8;
    fn gkr_c_circuit(
        input: *const u8,
        size: usize,
        reply: *mut u8,
        room: usize,
        needed: *mut usize,
    ) -> u8;
    fn gkr_c_verify(
        input: *const u8,
        size: usize,
        reply: *mut u8,
        room: usize,
        needed: *mut usize,
    ) -> u8;
    fn gkr_c_audit(
        input: *const u8,
        size: usize,
        reply: *mut u8,
        room: usize,
        needed: *mut usize,
    ) -> u8;
    fn gkr_c_prove(
        kind: u32,
        input: *const u8,
        size: usize,
        reply: *mut u8,
        room: usize,
        needed: *mut usize,
    ) -> u8;
    fn gkr_c_convert(
        version: u32,
        input: *const u8,
        size: usize,
        reply: *mut u8,
        room: usize,
        needed: *mut usize,
    ) -> u8;
    fn gkr_c_run(
        words: *const u8,
        count: usize,
        input: *const u8,
        size: usize,
        reply: *mut u8,
        room: usize,
        needed: *mut usize,
    ) -> u8;
}

/// Room that most replies fit in, in bytes; a longer one is asked for again.
const ROOM: usize = 4096;

/// Room that every reply of `prove` and `convert` fits in, so that a proof is made once.
const MOST: usize = 8 << 20;

fn status_of(number: u8) -> Status {
    match number {
        0 => Status::Done,
        1 => Status::Rejected,
        2 => Status::Usage,
        3 => Status::BadCase,
        4 => Status::BadProgram,
        5 => Status::BadCount,
        6 => Status::BadProof,
        8 => Status::WriteFault,
        9 => Status::Memory,
        10 => Status::TooLong,
        11 => Status::Unreadable,
        12 => Status::NotHere,
        _ => unreachable!("the library returns no other number"),
    }
}

/// Calls with room for so many bytes, and with more where the reply needs it.
fn called(room: usize, call: impl Fn(*mut u8, usize, *mut usize) -> u8) -> Reply {
    let mut text = vec![0; room];
    loop {
        let mut needed = 0;
        let status = status_of(call(text.as_mut_ptr(), text.len(), &mut needed));
        let fits = needed <= text.len();
        text.resize(needed, 0);
        if fits {
            text.shrink_to_fit();
            return Reply { status, text };
        }
    }
}

/// The outputs of a case without outputs: `output C y1 .. yC`.
pub fn eval(case: &[u8]) -> Reply {
    // SAFETY: here and below, the pointers and lengths are those of slices that are borrowed for
    // the call and overlap nowhere.
    called(ROOM, |reply, room, needed| unsafe {
        gkr_c_eval(case.as_ptr(), case.len(), reply, room, needed)
    })
}

/// The sizes of the circuit of a case without outputs.
pub fn circuit(case: &[u8]) -> Reply {
    called(ROOM, |reply, room, needed| unsafe {
        gkr_c_circuit(case.as_ptr(), case.len(), reply, room, needed)
    })
}

/// The verdict on the proof of a case: `accepted`, or the first equation that fails.
pub fn verify(case: &[u8]) -> Reply {
    called(ROOM, |reply, room, needed| unsafe {
        gkr_c_verify(case.as_ptr(), case.len(), reply, room, needed)
    })
}

/// What an audit finds in the proof of a case, which is by lines.
pub fn audit(case: &[u8]) -> Reply {
    called(ROOM, |reply, room, needed| unsafe {
        gkr_c_audit(case.as_ptr(), case.len(), reply, room, needed)
    })
}

/// The case with its outputs and a proof of them.
pub fn prove(kind: Kind, case: &[u8]) -> Reply {
    called(MOST, |reply, room, needed| unsafe {
        gkr_c_prove(kind as u32, case.as_ptr(), case.len(), reply, room, needed)
    })
}

/// The case with its proof by lines in version 1 or 2.
pub fn convert(version: u32, case: &[u8]) -> Reply {
    called(MOST, |reply, room, needed| unsafe {
        gkr_c_convert(version, case.as_ptr(), case.len(), reply, room, needed)
    })
}

/// Any command on a case, by the words of a command line, as
/// `run(&["prove", "--proof", "pair"], case)`.
pub fn run(words: &[&str], case: &[u8]) -> Reply {
    let words = words.join("\0");
    let room = if words.starts_with("prove") || words.starts_with("convert") {
        MOST
    } else {
        ROOM
    };
    called(room, |reply, room, needed| unsafe {
        gkr_c_run(
            words.as_ptr(),
            words.len(),
            case.as_ptr(),
            case.len(),
            reply,
            room,
            needed,
        )
    })
}
