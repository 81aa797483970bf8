//! gate for Rust: the proved admission gate of a Bitcoin node's mempool, in the process.
//!
//! ```no_run
//! use gate::{Gate, Keys, Reply};
//!
//! let mut gate = Gate::open(Keys::random(), "times 101 1000 600\nverdict * ok\n")?;
//! if let Some(Reply::Entered { flags }) = gate.ask("peer 1 enter 192.0.2.1")? {
//!     println!("{} permissions", flags.len());
//! }
//! # Ok::<(), gate::Error>(())
//! ```
//!
//! The crate links `libgate_c.a`, which `make lib` builds: `build.rs` says where it is looked for.
#![warn(missing_docs)]

mod calls;
mod changes;
mod reply;

pub use calls::Keys;
pub use changes::Changes;
pub use reply::{Member, NotAReply, Reply, Rule, Then, Txid};

use calls::{gate_answer, gate_answer_event, gate_changes, gate_check, gate_close, gate_copy};
use calls::{gate_event_close, gate_explain, gate_explanation, gate_open, gate_read, gate_reply, gate_version};
use calls::{EventHandle, EventSlot, Handle, Slot, Status};
use std::collections::hash_map::RandomState;
use std::fmt;
use std::hash::{BuildHasher, Hasher};

/// Why a call gave no text.
#[derive(Clone, Debug, PartialEq, Eq)]
#[non_exhaustive]
pub enum Error {
    /// Nothing has changed.
    OutOfMemory,
    /// The opening has a fault.
    OpeningRefused {
        /// The line of the opening, from 1; 0 for the opening as a whole.
        line: u64,
        /// The reason, as `bad-line`.
        token: String,
    },
    /// The line has more than 16,777,216 bytes, and nothing has changed.
    LineTooLong,
    /// The line is answered, and memory ran out in the text of its reply, which [`Gate::reply`] gives.
    ReplyKept,
    /// The line is answered, and this crate does not know the form of its reply, or of what it moved: the library is of another
    /// version.
    UnknownReply(NotAReply),
    /// The call ended with a status that is not one of its own: the library is of another version.
    UnknownStatus(u32),
}

impl fmt::Display for Error {
    fn fmt(&self, f: &mut fmt::Formatter<'_>) -> fmt::Result {
        match self {
            Error::OutOfMemory => f.write_str("out of memory"),
            Error::OpeningRefused { line, token } => write!(f, "opening {} {}", line, token),
            Error::LineTooLong => f.write_str("the line is too long"),
            Error::ReplyKept => f.write_str("out of memory in the text of a reply"),
            Error::UnknownReply(reply) => reply.fmt(f),
            Error::UnknownStatus(status) => write!(f, "unknown status {}", status),
        }
    }
}

impl std::error::Error for Error {}

impl From<NotAReply> for Error {
    fn from(reply: NotAReply) -> Error {
        Error::UnknownReply(reply)
    }
}

impl fmt::Debug for Keys {
    /// Without the keys, which stay secret.
    fn fmt(&self, f: &mut fmt::Formatter<'_>) -> fmt::Result {
        f.debug_struct("Keys").finish_non_exhaustive()
    }
}

impl Keys {
    /// Keys that nobody knows, from the random numbers of the standard library's hash tables.
    pub fn random() -> Keys {
        let number = || RandomState::new().build_hasher().finish();
        Keys { first: number(), second: number() }
    }
}

/// Makes a call with a buffer, and once more with a greater one where its text has no room. Gives the status and the text.
fn text_of(
    mut call: impl FnMut(&mut [u8], &mut usize) -> u32,
    mut again: impl FnMut(&mut [u8], &mut usize) -> u32,
) -> Result<(Status, String), Error> {
    let mut out = vec![0; 256];
    let mut size = 0;
    let mut code = call(&mut out, &mut size);
    if Status::of(code) == Some(Status::BufferTooSmall) {
        out.resize(size, 0);
        code = again(&mut out, &mut size);
    }
    out.truncate(size);
    let status = Status::of(code).ok_or(Error::UnknownStatus(code))?;
    Ok((status, String::from_utf8(out).expect("a text of the library is UTF-8")))
}

fn fault_of(status: Status) -> Error {
    match status {
        Status::OutOfMemory => Error::OutOfMemory,
        Status::LineTooLong => Error::LineTooLong,
        Status::ReplyKept => Error::ReplyKept,
        _ => Error::UnknownStatus(status as u32),
    }
}

fn reply_of((status, text): (Status, String)) -> Result<String, Error> {
    match status {
        Status::Done => Ok(text),
        _ => Err(fault_of(status)),
    }
}

/// Whether a call that gives no text is done.
fn done(code: u32) -> Result<(), Error> {
    match Status::of(code) {
        Some(Status::Done) => Ok(()),
        Some(status) => Err(fault_of(status)),
        None => Err(Error::UnknownStatus(code)),
    }
}

/// A reply line in its parts; `None` where there is none.
fn parts_of(text: String) -> Result<Option<Reply>, Error> {
    match text.as_str() {
        "" => Ok(None),
        reply => Ok(Some(reply.parse()?)),
    }
}

/// The fault that the line `opening LINE TOKEN` names.
fn refusal_of(text: &str) -> Error {
    let mut words = text.trim_end().splitn(3, ' ').skip(1);
    let line = words.next().and_then(|word| word.parse().ok());
    match (line, words.next()) {
        (Some(line), Some(token)) => Error::OpeningRefused { line, token: token.to_string() },
        _ => Error::UnknownReply(NotAReply(text.to_string())),
    }
}

/// What a line asks for, read before a gate is asked: a transaction in it is decoded and hashed, and the rules on it alone are
/// tested. Threads may read at the same time, without a lock, and an event may go to another thread.
pub struct Event(EventHandle);

// The library proves of what an event owns that it may go to another thread. An event isn't `Sync`: it serves one call at a time.
unsafe impl Send for Event {}

impl Event {
    /// Reads a line, which is given without its newline.
    pub fn read(line: impl AsRef<[u8]>) -> Result<Event, Error> {
        let mut event = Event(EventHandle { slot: EventSlot { reading: std::ptr::null_mut() }, is_open: false });
        let line = line.as_ref();
        done(unsafe { gate_read(&mut event.0, line.as_ptr(), line.len()) })?;
        Ok(event)
    }
}

impl fmt::Debug for Event {
    fn fmt(&self, f: &mut fmt::Formatter<'_>) -> fmt::Result {
        f.debug_struct("Event").finish_non_exhaustive()
    }
}

impl Drop for Event {
    fn drop(&mut self) {
        unsafe { gate_event_close(&mut self.0) }
    }
}

/// An open gate. It may go to another thread; threads that share it lock a `Mutex` round it.
pub struct Gate(Handle);

// The library proves of what a handle owns that it may go to another thread. A handle isn't `Sync`: it serves one call at a time.
unsafe impl Send for Gate {}

impl Gate {
    fn closed() -> Gate {
        Gate(Handle { slot: Slot { session: std::ptr::null_mut() }, is_open: false })
    }

    /// Opens a gate from the lines of an opening.
    pub fn open(keys: Keys, opening: impl AsRef<[u8]>) -> Result<Gate, Error> {
        let mut gate = Gate::closed();
        let (handle, opening): (*mut Handle, _) = (&mut gate.0, opening.as_ref());
        let call = |out: &mut [u8], size: &mut usize| unsafe {
            gate_open(handle, &keys, opening.as_ptr(), opening.len(), out.as_mut_ptr(), out.len(), size)
        };
        match text_of(call, call)? {
            (Status::Done, _) => Ok(gate),
            (Status::OpeningRefused, line) => Err(refusal_of(&line)),
            (status, _) => Err(fault_of(status)),
        }
    }

    /// The reply to a line, in its parts; `None` where the line asks for nothing.
    pub fn ask(&mut self, line: impl AsRef<[u8]>) -> Result<Option<Reply>, Error> {
        parts_of(self.answer(line)?)
    }

    /// The same for a line that was read beforehand.
    pub fn ask_event(&mut self, event: &mut Event) -> Result<Option<Reply>, Error> {
        parts_of(self.answer_event(event)?)
    }

    /// The reply to a line as text, with its newline; nothing where the line asks for nothing. The line is given without one.
    pub fn answer(&mut self, line: impl AsRef<[u8]>) -> Result<String, Error> {
        let (gate, line): (*mut Handle, _) = (&mut self.0, line.as_ref());
        reply_of(text_of(
            |out, size| unsafe { gate_answer(gate, line.as_ptr(), line.len(), out.as_mut_ptr(), out.len(), size) },
            |out, size| unsafe { gate_reply(gate, out.as_mut_ptr(), out.len(), size) },
        )?)
    }

    /// The same for a line that was read beforehand.
    pub fn answer_event(&mut self, event: &mut Event) -> Result<String, Error> {
        let (gate, event): (*mut Handle, *mut EventHandle) = (&mut self.0, &mut event.0);
        reply_of(text_of(
            |out, size| unsafe { gate_answer_event(gate, event, out.as_mut_ptr(), out.len(), size) },
            |out, size| unsafe { gate_reply(gate, out.as_mut_ptr(), out.len(), size) },
        )?)
    }

    /// A second gate with the same state and the same last reply. Both answer alike from then on, and neither knows what the
    /// other is asked.
    pub fn copy(&mut self) -> Result<Gate, Error> {
        let mut copy = Gate::closed();
        done(unsafe { gate_copy(&mut self.0, &mut copy.0) })?;
        Ok(copy)
    }

    /// The reply to the last line once more.
    pub fn reply(&mut self) -> Result<String, Error> {
        let gate: *mut Handle = &mut self.0;
        let call = |out: &mut [u8], size: &mut usize| unsafe { gate_reply(gate, out.as_mut_ptr(), out.len(), size) };
        reply_of(text_of(call, call)?)
    }

    /// What the last line moved in the pool. What left and came back by one line is in neither list. Nothing has moved in a gate
    /// that was opened or copied just now, nor by a line that is no event or was not answered.
    pub fn changes(&mut self) -> Result<Changes, Error> {
        let gate: *mut Handle = &mut self.0;
        let call = |out: &mut [u8], size: &mut usize| unsafe { gate_changes(gate, out.as_mut_ptr(), out.len(), size) };
        Ok(reply_of(text_of(call, call)?)?.parse()?)
    }

    /// Lets the gate explain its lines from the next one on, which gets this number; 0 lets it explain none. No reply depends on it.
    pub fn explain(&mut self, line: u64) -> Result<(), Error> {
        done(unsafe { gate_explain(&mut self.0, line) })
    }

    /// What is said of the reply to the last line: a JSON object, as a text with a newline; empty where nothing is said. After
    /// [`Error::OutOfMemory`] the line is answered all the same, and what is said of it is lost.
    pub fn explanation(&mut self) -> Result<String, Error> {
        let gate: *mut Handle = &mut self.0;
        let call = |out: &mut [u8], size: &mut usize| unsafe { gate_explanation(gate, out.as_mut_ptr(), out.len(), size) };
        reply_of(text_of(call, call)?)
    }
}

impl fmt::Debug for Gate {
    fn fmt(&self, f: &mut fmt::Formatter<'_>) -> fmt::Result {
        f.debug_struct("Gate").finish_non_exhaustive()
    }
}

impl Drop for Gate {
    fn drop(&mut self) {
        unsafe { gate_close(&mut self.0) }
    }
}

/// What `gate check -` prints.
#[derive(Clone, Debug, PartialEq, Eq)]
pub struct Check {
    /// Whether the transaction is standard.
    pub is_standard: bool,
    /// The lines.
    pub lines: String,
}

/// Checks by itself the transaction that a text of hexadecimal has.
pub fn check(digits: impl AsRef<[u8]>) -> Result<Check, Error> {
    let digits = digits.as_ref();
    let call = |out: &mut [u8], size: &mut usize| unsafe {
        gate_check(digits.as_ptr(), digits.len(), out.as_mut_ptr(), out.len(), size)
    };
    match text_of(call, call)? {
        (Status::Done, lines) => Ok(Check { is_standard: true, lines }),
        (Status::Denied, lines) => Ok(Check { is_standard: false, lines }),
        (status, _) => Err(fault_of(status)),
    }
}

/// The version of the gate.
pub fn version() -> Result<String, Error> {
    let call = |out: &mut [u8], size: &mut usize| unsafe { gate_version(out.as_mut_ptr(), out.len(), size) };
    reply_of(text_of(call, call)?)
}
