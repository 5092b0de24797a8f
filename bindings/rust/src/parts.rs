//! A stream of any length, part by part.
use crate::{
    failure, same_version, CAnswer, CCatalog, CLimits, Catalog, Error, Limits, Profile, Reason,
    Refusal,
};
use std::fmt;
use std::io::{self, ErrorKind, Read, Write};
use std::mem::size_of;

// How many bytes are read at a time, and the room for their output: it grows where that is longer.
const CHUNK: usize = 1 << 18;

// What waits is tried after each read, so that a value is given as soon as all of it was read, until the tries had so many bytes
// together; then it is doubled between two tries, so that the time stays linear.
const TRIES: usize = 1 << 20;

// The first room for what is kept: a version marker and a short table.
const LEAST_KEPT: u64 = 64;

// The statuses that a call of the crate itself looks at.
const ACCEPTED: u32 = 0;
const REFUSED: u32 = 1;
const NO_ROOM: u32 = 7;

#[repr(C)]
struct CPart {
    size: u32,
    profile: u32,
    to: u32,
    last: u32,
    kept: u64,
    taken: u64,
    keeps: u64,
}

extern "C" {
    fn cozgelt_part(
        limits: *const CLimits,
        loaded: *mut CCatalog,
        part: *mut CPart,
        bytes: *const u8,
        bytes_len: usize,
        kept: *mut u8,
        kept_len: usize,
        room: *mut u8,
        room_len: usize,
        answer: *mut CAnswer,
    ) -> u32;
}

/// As what a stream in parts is written.
#[derive(Clone, Copy, Debug, PartialEq, Eq, Hash)]
#[non_exhaustive]
pub enum To {
    /// Canonical text.
    Text = 0,
    /// Pretty text.
    Pretty = 1,
    /// Canonical binary, of a text. One that is binary is refused as `SameForm`.
    Binary = 2,
    /// Canonical binary, of either.
    Rewritten = 3,
    /// Nothing: it is checked.
    Nothing = 4,
}

/// Why a stream in parts has no further output.
#[derive(Debug)]
#[non_exhaustive]
pub enum PartsError {
    /// The reader or the writer failed.
    Io(io::Error),
    /// The stream is refused, or a call failed. A place is counted from the first byte of the stream.
    Call(Error),
}

impl fmt::Display for PartsError {
    fn fmt(&self, f: &mut fmt::Formatter<'_>) -> fmt::Result {
        match self {
            PartsError::Io(error) => error.fmt(f),
            PartsError::Call(error) => error.fmt(f),
        }
    }
}

impl std::error::Error for PartsError {
    fn source(&self) -> Option<&(dyn std::error::Error + 'static)> {
        match self {
            PartsError::Io(error) => error.source(),
            PartsError::Call(error) => error.source(),
        }
    }
}

impl From<io::Error> for PartsError {
    fn from(error: io::Error) -> PartsError {
        PartsError::Io(error)
    }
}

impl From<Error> for PartsError {
    fn from(error: Error) -> PartsError {
        PartsError::Call(error)
    }
}

/// Makes a buffer so long, if it is shorter.
fn grow(buffer: &mut Vec<u8>, size: u64) -> Result<(), Error> {
    let size = usize::try_from(size).map_err(|_| Error::NoMemory)?;
    let more = size.saturating_sub(buffer.len());
    buffer
        .try_reserve_exact(more)
        .map_err(|_| Error::NoMemory)?;
    buffer.resize(buffer.len() + more, 0);
    Ok(())
}

/// The outputs of a stream of any length, as it is read; joined they are what [`to_text`](crate::to_text) and so on give for the
/// whole. As binary of a text they show what the text shows, where it is accepted, the limit on depth is at least 2, and that on scalars
/// at least 16 and that on symbols; of binary of binary ([`To::Rewritten`]) that is only tested.
///
/// After each output [`place`](Parts::place) and [`kept`](Parts::kept) are a checkpoint, at which another one begins, by
/// [`at`](Parts::at):
///
/// ```
/// use cozgelt::{Limits, Parts, To};
///
/// let stream = b"{a: 1.50}\n[2, x]\n";
/// let mut parts = Parts::new(&stream[..10], To::Text, &Limits::default())?;
/// assert_eq!(parts.next().unwrap()?, b"{a:1.50}\n");
/// assert_eq!((parts.place(), parts.values()), (10, 1));
/// let rest = &stream[parts.place() as usize..];
/// let rest = Parts::new(rest, To::Text, &Limits::default())?.at(parts.kept(), parts.place());
/// assert_eq!(rest.collect::<Result<Vec<_>, _>>()?.concat(), b"[2,x]\n");
/// # Ok::<(), cozgelt::PartsError>(())
/// ```
///
/// Text is cut at ends of lines, and binary between values. What ends is given as soon as it was read, but for a symbol or string at the
/// end of a text, which may go on. That is tried after each read, and once the tries had a MiB together, as for 1,400 bytes one by one, or
/// 50 KB by 1,400, only when twice as many bytes wait. A fault is told at the latest where the stream ends, or where more bytes wait than
/// [`hold`](Parts::hold) lets.
///
/// Where the reader fails nothing is lost, and the next call reads again. After an [`Error`] of a call nothing comes, and place and kept
/// are no checkpoint of what was given: the output before the place may be lost, for want of memory.
///
/// [`profile`](Parts::profile), [`catalog`](Parts::catalog), [`at`](Parts::at) and [`hold`](Parts::hold) belong before the first output:
/// all parts of a stream have the same.
pub struct Parts<R> {
    reader: R,
    limits: CLimits,
    handle: CCatalog,
    part: CPart,
    // What the library asks to keep stands at the front.
    kept: Vec<u8>,
    // From `start` to `end` stand those that were read and not taken; a call is made for as many as are wanted.
    bytes: Vec<u8>,
    start: usize,
    end: usize,
    wanted: usize,
    // How many all calls had since one took some.
    tried: usize,
    hold: usize,
    room: Vec<u8>,
    is_read: bool,
    is_over: bool,
    place: u64,
    values: u64,
}

impl<R> fmt::Debug for Parts<R> {
    fn fmt(&self, f: &mut fmt::Formatter<'_>) -> fmt::Result {
        f.debug_struct("Parts")
            .field("place", &self.place)
            .field("values", &self.values)
            .finish_non_exhaustive()
    }
}

impl<R: Read> Parts<R> {
    /// Those of a stream from its beginning, without floats and without a catalogue.
    pub fn new(reader: R, to: To, limits: &Limits) -> Result<Parts<R>, Error> {
        same_version()?;
        let (mut kept, mut room) = (Vec::new(), Vec::new());
        grow(&mut kept, LEAST_KEPT)?;
        if to != To::Nothing {
            grow(&mut room, CHUNK as u64)?;
        }
        Ok(Parts {
            reader,
            limits: CLimits::of(limits),
            handle: CCatalog::new(),
            part: CPart {
                size: size_of::<CPart>() as u32,
                profile: Profile::Strict as u32,
                to: to as u32,
                last: 0,
                kept: 0,
                taken: 0,
                keeps: 0,
            },
            kept,
            bytes: Vec::new(),
            start: 0,
            end: 0,
            wanted: 1,
            tried: 0,
            hold: 1 << 26,
            room,
            is_read: false,
            is_over: false,
            place: 0,
            values: 0,
        })
    }

    /// The same, read by a profile.
    #[must_use]
    pub fn profile(mut self, profile: Profile) -> Parts<R> {
        self.part.profile = profile as u32;
        self
    }

    /// The same, with the tables of a catalogue.
    pub fn catalog(mut self, catalog: &Catalog) -> Result<Parts<R>, Error> {
        self.handle = catalog.shared()?;
        Ok(self)
    }

    /// The same from a checkpoint on, at which the reader has to stand. Its values are counted from there.
    #[must_use]
    pub fn at(mut self, kept: &[u8], place: u64) -> Parts<R> {
        self.kept = kept.to_vec();
        let size = kept.len().saturating_mul(2).max(LEAST_KEPT as usize);
        self.kept.resize(size, 0);
        self.part.kept = kept.len() as u64;
        self.place = place;
        self
    }

    /// The same, where so many bytes may wait for the end of a value or of its line, and so many may be kept, in place of 2^26. More
    /// are `InputLimit`, or `Refused`, where those that wait have a fault.
    #[must_use]
    pub fn hold(mut self, most: usize) -> Parts<R> {
        self.hold = most;
        self
    }

    /// How many bytes of the stream were taken, from its beginning on.
    pub fn place(&self) -> u64 {
        self.place
    }

    /// How many values at top level there were since this began: also at a checkpoint it begins with none.
    pub fn values(&self) -> u64 {
        self.values
    }

    /// What of them the rest needs.
    pub fn kept(&self) -> &[u8] {
        &self.kept[..self.part.kept as usize]
    }

    /// Reads until there are as many bytes as are wanted, or all.
    fn fill(&mut self) -> Result<(), PartsError> {
        while !self.is_read && self.end - self.start < self.wanted {
            if self.start > 0 {
                self.bytes.copy_within(self.start..self.end, 0);
                self.end -= self.start;
                self.start = 0;
            }
            if self.wanted > self.bytes.len() {
                let twice = self.bytes.len().saturating_mul(2).min(self.hold);
                grow(&mut self.bytes, self.wanted.max(twice).max(CHUNK) as u64)?;
            }
            match self.reader.read(&mut self.bytes[self.end..]) {
                Ok(0) => self.is_read = true,
                Ok(n) if n <= self.bytes.len() - self.end => self.end += n,
                Ok(_) => return Err(io::Error::from(ErrorKind::InvalidData).into()),
                Err(error) if error.kind() == ErrorKind::Interrupted => {}
                Err(error) => return Err(error.into()),
            }
        }
        Ok(())
    }

    /// Status and answer of a call, again with more room where there was too little, if it may.
    fn call(&mut self, last: bool, grows: bool) -> Result<(u32, CAnswer), Error> {
        let bytes = &self.bytes[self.start..self.end];
        if self.place.saturating_add(bytes.len() as u64) > self.limits.input {
            return Err(Error::InputLimit);
        }
        self.part.last = u32::from(last);
        loop {
            let mut answer = CAnswer::new();
            // SAFETY: each pointer is that of a whole slice or struct, which is borrowed for the call; handle, part, kept, room and
            // answer are borrowed mutably, so that they overlap nothing and nobody else uses them. The first `part.kept` bytes of
            // `kept` are those that the last call left there, or a checkpoint's.
            let status = unsafe {
                cozgelt_part(
                    &self.limits,
                    &mut self.handle,
                    &mut self.part,
                    bytes.as_ptr(),
                    bytes.len(),
                    self.kept.as_mut_ptr(),
                    self.kept.len(),
                    self.room.as_mut_ptr(),
                    self.room.len(),
                    &mut answer,
                )
            };
            let is_short = answer.needed > self.room.len() as u64;
            if !(status == NO_ROOM && grows || status == REFUSED && is_short) {
                return Ok((status, answer));
            }
            if is_short {
                let twice = self.room.len().saturating_mul(2) as u64;
                grow(&mut self.room, answer.needed.max(twice))?;
            }
            if status == NO_ROOM && self.part.keeps > self.kept.len() as u64 {
                if self.part.keeps > self.hold as u64 {
                    return Err(Error::InputLimit);
                }
                grow(&mut self.kept, self.part.keeps.saturating_mul(2))?;
            }
        }
    }

    /// The output that a call left in the room.
    fn output(&self, answer: &CAnswer) -> Result<Vec<u8>, Error> {
        let room = &self.room[..answer.needed as usize];
        let mut output = Vec::new();
        output
            .try_reserve_exact(room.len())
            .map_err(|_| Error::NoMemory)?;
        output.extend_from_slice(room);
        Ok(output)
    }

    /// What the status of a call says that has no output to go on with.
    fn failure(&self, status: u32, answer: &CAnswer) -> Error {
        if status != REFUSED {
            return failure(status, answer);
        }
        let Some(reason) = Reason::of(answer.reason) else {
            return Error::OtherVersion;
        };
        match self.output(answer) {
            Ok(output) => Error::Refused(Refusal {
                reason,
                place: self.place + answer.place,
                output,
            }),
            Err(error) => error,
        }
    }

    /// Nothing can be taken yet, so that more bytes are wanted. Where no more may wait they are judged as if the stream ended with
    /// them; what a longer one may yet mend is no refusal.
    fn wait(&mut self) -> Result<(), Error> {
        let length = self.end - self.start;
        if length < self.hold {
            self.tried = self.tried.saturating_add(length);
            self.wanted = if self.tried > TRIES {
                length.saturating_mul(2).min(self.hold)
            } else {
                length + 1
            };
            return Ok(());
        }
        let (status, answer) = self.call(true, false)?;
        let near = answer
            .place
            .saturating_add(self.limits.scalar)
            .saturating_add(64);
        if status == REFUSED && answer.reason != Reason::Truncated as u32 && near < length as u64 {
            return Err(self.failure(status, &answer));
        }
        Err(Error::InputLimit)
    }

    /// The output of what can be taken, if anything can be, or if the stream ends.
    fn take(&mut self) -> Result<Option<Vec<u8>>, Error> {
        let (status, answer) = self.call(self.is_read, true)?;
        if status != ACCEPTED {
            return Err(self.failure(status, &answer));
        }
        let taken = self.part.taken;
        if taken == 0 && !self.is_read {
            self.wait()?;
            return Ok(None);
        }
        // The call has changed what is kept, so that the place goes with it whatever comes.
        self.is_over = self.is_read;
        self.start += taken as usize;
        self.wanted = 1;
        self.tried = 0;
        self.place += taken;
        self.values += answer.values;
        let output = self.output(&answer)?;
        Ok(Some(output).filter(|output| taken > 0 || !output.is_empty()))
    }

    fn turn(&mut self) -> Result<Option<Vec<u8>>, PartsError> {
        while !self.is_over {
            self.fill()?;
            if let Some(output) = self.take()? {
                return Ok(Some(output));
            }
        }
        Ok(None)
    }

    /// Writes all outputs; how many values they have. Where the stream is refused what stands before the fault is written too, and
    /// the refusal's `output` is empty. Where reader or writer fail what was read is lost: whoever means to go on takes the outputs.
    pub fn write_to(mut self, mut writer: impl Write) -> Result<u64, PartsError> {
        for output in &mut self {
            match output {
                Ok(output) => writer.write_all(&output)?,
                Err(mut error) => {
                    if let PartsError::Call(Error::Refused(refusal)) = &mut error {
                        writer.write_all(&std::mem::take(&mut refusal.output))?;
                    }
                    return Err(error);
                }
            }
        }
        Ok(self.values)
    }
}

impl<R: Read> Iterator for Parts<R> {
    type Item = Result<Vec<u8>, PartsError>;

    /// The next output. It is empty for symbol tables alone, and where the stream is only checked. Nothing comes after an `Error`.
    fn next(&mut self) -> Option<Result<Vec<u8>, PartsError>> {
        let output = self.turn();
        self.is_over |= matches!(output, Err(PartsError::Call(_)));
        output.transpose()
    }
}

/// Converts a stream of any length while it is read; how many values it has. Where it is refused what stands before the fault is
/// written, and the refusal's `output` is empty. To go on where reader or writer failed, use [`Parts`].
///
/// ```
/// use cozgelt::{convert, Limits, To};
///
/// let mut text = Vec::new();
/// let values = convert(&b"{a: 1.50} [2, x]"[..], &mut text, To::Text, &Limits::default())?;
/// assert_eq!((values, &text[..]), (2, &b"{a:1.50}\n[2,x]\n"[..]));
/// # Ok::<(), cozgelt::PartsError>(())
/// ```
pub fn convert(
    reader: impl Read,
    writer: impl Write,
    to: To,
    limits: &Limits,
) -> Result<u64, PartsError> {
    Parts::new(reader, to, limits)?.write_to(writer)
}
