//! Amazon Ion 1.0 over slices, text or binary: as canonical text, as pretty text, as binary, or checked, by the proved library of
//! Cozgelt. What is accepted, what is refused, why and where, and every byte of the output are what its definitions say.
//!
//! It is a transcoder: no value can be read from it but out of what it writes. A float other than `null.float` is refused
//! ([`Reason::Float`]), unless a call is given [`Profile::Floats`].
//!
//! ```
//! use cozgelt::{check, to_binary, to_pretty, to_text, to_text_with, Error, Limits, Profile, Reason};
//!
//! let limits = Limits::default();
//! let binary = to_binary(b"{a: 1.50}", &[], &limits)?;
//! assert_eq!(to_text(&binary, &[], &limits)?, b"{a:1.50}\n");
//! assert_eq!(to_pretty(&binary, &[], &limits)?, b"{\n  a: 1.50\n}\n");
//! assert_eq!(check(b"1 2 3", &[], &limits)?, 3);
//! let Err(Error::Refused(refusal)) = check(b"[[1]]", &[], &limits.depth(1)) else { panic!() };
//! assert_eq!((refusal.reason, refusal.place), (Reason::DepthLimit, 1));
//! assert_eq!(to_text_with(Profile::Floats, b"[1.50e0, nan]", &[], &limits)?, b"[1.5e0,nan]\n");
//! # Ok::<(), Error>(())
//! ```
//!
//! Each call takes a stream and a catalogue, which is a stream of shared symbol tables for the imports of the other, and
//! empty where there are none; a [`Catalog`] has loaded one, for any number of calls. Calls have no state, and any number of threads
//! may make them at once. A stream of any length goes through [`convert`], or part by part through [`Parts`].
#![warn(missing_docs)]

use std::ffi::c_void;
use std::fmt;
use std::mem::size_of;
use std::ptr::null_mut;
use std::sync::{Mutex, PoisonError};

mod parts;
mod reason;

pub use parts::{convert, Parts, PartsError, To};
pub use reason::Reason;

/// How much a call may take: as the program has it by `Limits::default()`, and else by calls on that. A later version may have more
/// fields, so no list of them makes one:
///
/// ```
/// let limits = cozgelt::Limits::default().depth(100).value(1 << 20);
/// assert_eq!((limits.depth, limits.value), (100, 1 << 20));
/// ```
/// ```compile_fail
/// let limits = cozgelt::Limits { depth: 100, ..cozgelt::Limits::default() };
/// ```
#[derive(Clone, Copy, Debug, PartialEq, Eq, Hash)]
#[non_exhaustive]
pub struct Limits {
    /// Containers open at once: at most 65,535.
    pub depth: u32,
    /// Bytes of one scalar: at most 2^30.
    pub scalar: u64,
    /// Bytes of one symbol table, and of all tables of the catalogue: at most 2^30.
    pub symbols: u64,
    /// Bytes of one value at top level, written as binary: at most 2^30.
    pub value: u64,
    /// Bytes of the stream, and of the catalogue: at most 2^48.
    pub input: u64,
}

impl Default for Limits {
    /// Those of the program.
    fn default() -> Limits {
        Limits {
            depth: 64,
            scalar: 1 << 20,
            symbols: 1 << 20,
            value: 1 << 24,
            input: 1 << 48,
        }
    }
}

macro_rules! changed {
    ($($field:ident: $number:ty),*) => {
        impl Limits {
            $(#[doc = concat!("These limits, with another `", stringify!($field), "`.")]
            #[must_use]
            pub const fn $field(mut self, most: $number) -> Limits {
                self.$field = most;
                self
            })*
        }
    };
}

changed! { depth: u32, scalar: u64, symbols: u64, value: u64, input: u64 }

/// Which values a stream may have. The catalogue is always read by `Strict`.
#[derive(Clone, Copy, Debug, Default, PartialEq, Eq, Hash)]
#[non_exhaustive]
pub enum Profile {
    /// No float but `null.float`: any other is refused. The calls without a profile read so.
    #[default]
    Strict = 0,
    /// Floats too.
    Floats = 1,
}

/// A refusal of a stream.
#[derive(Clone, Debug, PartialEq, Eq)]
#[non_exhaustive]
pub struct Refusal {
    /// Why.
    pub reason: Reason,
    /// The first byte of the faulty part, counted from 0.
    pub place: u64,
    /// The output of what stands before it: of [`Parts`] since its last output, and none where [`convert`] has written it.
    pub output: Vec<u8>,
}

/// Why there is no answer.
#[derive(Clone, Debug, PartialEq, Eq)]
#[non_exhaustive]
pub enum Error {
    /// The stream is refused.
    Refused(Refusal),
    /// The catalogue is refused: why, and where.
    CatalogRefused(Reason, u64),
    /// There is no memory.
    NoMemory,
    /// The stream or the catalogue is longer than the limit on the input, or more bytes of a stream in parts wait than may.
    InputLimit,
    /// A limit is above its maximum.
    Invalid,
    /// The library that was linked is another version than this crate.
    OtherVersion,
}

impl fmt::Display for Error {
    fn fmt(&self, f: &mut fmt::Formatter<'_>) -> fmt::Result {
        match self {
            Error::Refused(refusal) => write!(f, "refused {} at {}", refusal.reason, refusal.place),
            Error::CatalogRefused(reason, place) => {
                write!(f, "catalog refused {reason} at {place}")
            }
            Error::NoMemory => f.write_str("no memory"),
            Error::InputLimit => f.write_str("longer than the limit on the input"),
            Error::Invalid => f.write_str("a limit is above its maximum"),
            Error::OtherVersion => f.write_str("libcozgelt is another version than the crate"),
        }
    }
}

impl std::error::Error for Error {}

// ---- what cozgelt.h declares

const VERSION: u32 = 200;

#[repr(C)]
struct CLimits {
    size: u32,
    depth: u32,
    scalar: u64,
    symbols: u64,
    value: u64,
    input: u64,
}

#[repr(C)]
struct CAnswer {
    size: u32,
    reason: u32,
    place: u64,
    values: u64,
    needed: u64,
}

#[repr(C)]
struct CCatalog {
    tables: *mut c_void,
}

// SAFETY: the library proves that a handle may go to another thread.
unsafe impl Send for CCatalog {}

type CallWith = unsafe extern "C" fn(
    u32,
    *const CLimits,
    *const u8,
    usize,
    *const u8,
    usize,
    *mut u8,
    usize,
    *mut CAnswer,
) -> u32;

type CallLoaded = unsafe extern "C" fn(
    u32,
    *const CLimits,
    *mut CCatalog,
    *const u8,
    usize,
    *mut u8,
    usize,
    *mut CAnswer,
) -> u32;

extern "C" {
    fn cozgelt_version() -> u32;
    fn cozgelt_to_text_with(
        profile: u32,
        limits: *const CLimits,
        catalog: *const u8,
        catalog_len: usize,
        stream: *const u8,
        stream_len: usize,
        room: *mut u8,
        room_len: usize,
        answer: *mut CAnswer,
    ) -> u32;
    fn cozgelt_to_pretty_with(
        profile: u32,
        limits: *const CLimits,
        catalog: *const u8,
        catalog_len: usize,
        stream: *const u8,
        stream_len: usize,
        room: *mut u8,
        room_len: usize,
        answer: *mut CAnswer,
    ) -> u32;
    fn cozgelt_to_binary_with(
        profile: u32,
        limits: *const CLimits,
        catalog: *const u8,
        catalog_len: usize,
        stream: *const u8,
        stream_len: usize,
        room: *mut u8,
        room_len: usize,
        answer: *mut CAnswer,
    ) -> u32;
    fn cozgelt_rewrite_with(
        profile: u32,
        limits: *const CLimits,
        catalog: *const u8,
        catalog_len: usize,
        stream: *const u8,
        stream_len: usize,
        room: *mut u8,
        room_len: usize,
        answer: *mut CAnswer,
    ) -> u32;
    fn cozgelt_check_with(
        profile: u32,
        limits: *const CLimits,
        catalog: *const u8,
        catalog_len: usize,
        stream: *const u8,
        stream_len: usize,
        room: *mut u8,
        room_len: usize,
        answer: *mut CAnswer,
    ) -> u32;
    fn cozgelt_to_text_loaded(
        profile: u32,
        limits: *const CLimits,
        loaded: *mut CCatalog,
        stream: *const u8,
        stream_len: usize,
        room: *mut u8,
        room_len: usize,
        answer: *mut CAnswer,
    ) -> u32;
    fn cozgelt_to_pretty_loaded(
        profile: u32,
        limits: *const CLimits,
        loaded: *mut CCatalog,
        stream: *const u8,
        stream_len: usize,
        room: *mut u8,
        room_len: usize,
        answer: *mut CAnswer,
    ) -> u32;
    fn cozgelt_to_binary_loaded(
        profile: u32,
        limits: *const CLimits,
        loaded: *mut CCatalog,
        stream: *const u8,
        stream_len: usize,
        room: *mut u8,
        room_len: usize,
        answer: *mut CAnswer,
    ) -> u32;
    fn cozgelt_rewrite_loaded(
        profile: u32,
        limits: *const CLimits,
        loaded: *mut CCatalog,
        stream: *const u8,
        stream_len: usize,
        room: *mut u8,
        room_len: usize,
        answer: *mut CAnswer,
    ) -> u32;
    fn cozgelt_check_loaded(
        profile: u32,
        limits: *const CLimits,
        loaded: *mut CCatalog,
        stream: *const u8,
        stream_len: usize,
        room: *mut u8,
        room_len: usize,
        answer: *mut CAnswer,
    ) -> u32;
    fn cozgelt_catalog_load(
        limits: *const CLimits,
        catalog: *const u8,
        catalog_len: usize,
        loaded: *mut CCatalog,
        answer: *mut CAnswer,
    ) -> u32;
    fn cozgelt_catalog_share(loaded: *mut CCatalog, other: *mut CCatalog) -> u32;
    fn cozgelt_catalog_free(loaded: *mut CCatalog);
}

// ---- the calls

impl CLimits {
    fn of(limits: &Limits) -> CLimits {
        let Limits {
            depth,
            scalar,
            symbols,
            value,
            input,
        } = *limits;
        CLimits {
            size: size_of::<CLimits>() as u32,
            depth,
            scalar,
            symbols,
            value,
            input,
        }
    }
}

impl CAnswer {
    fn new() -> CAnswer {
        CAnswer {
            size: size_of::<CAnswer>() as u32,
            reason: 0,
            place: 0,
            values: 0,
            needed: 0,
        }
    }
}

impl CCatalog {
    fn new() -> CCatalog {
        CCatalog { tables: null_mut() }
    }
}

impl Drop for CCatalog {
    fn drop(&mut self) {
        // SAFETY: this is a handle that `new` made and calls alone changed, and it is borrowed for the call.
        unsafe { cozgelt_catalog_free(self) }
    }
}

/// A call, with its catalogue: by its bytes, or by a handle.
enum Call<'a> {
    With(CallWith, &'a [u8]),
    Loaded(CallLoaded, CCatalog),
}

/// The status of one call with so much room, with the room and the answer.
fn once(
    call: &mut Call,
    profile: Profile,
    stream: &[u8],
    limits: &Limits,
    size: usize,
) -> Result<(u32, Vec<u8>, CAnswer), Error> {
    let limits = CLimits::of(limits);
    let mut answer = CAnswer::new();
    let mut room = Vec::new();
    room.try_reserve_exact(size).map_err(|_| Error::NoMemory)?;
    room.resize(size, 0);
    // SAFETY: each pointer is that of a whole slice or struct, which is borrowed for the call; room, answer and handle are
    // borrowed mutably, so that they overlap nothing and nobody else uses them.
    let status = unsafe {
        match call {
            Call::With(call, catalog) => call(
                profile as u32,
                &limits,
                catalog.as_ptr(),
                catalog.len(),
                stream.as_ptr(),
                stream.len(),
                room.as_mut_ptr(),
                room.len(),
                &mut answer,
            ),
            Call::Loaded(call, handle) => call(
                profile as u32,
                &limits,
                handle,
                stream.as_ptr(),
                stream.len(),
                room.as_mut_ptr(),
                room.len(),
                &mut answer,
            ),
        }
    };
    Ok((status, room, answer))
}

/// That the library is the one that this crate goes with.
fn same_version() -> Result<(), Error> {
    // SAFETY: it takes nothing, and answers a number.
    if unsafe { cozgelt_version() } == VERSION {
        Ok(())
    } else {
        Err(Error::OtherVersion)
    }
}

/// What a status says that is not of a stream.
fn failure(status: u32, answer: &CAnswer) -> Error {
    match status {
        2 | 4 => Error::NoMemory,
        3 => Error::InputLimit,
        5 => Error::Invalid,
        6 => Reason::of(answer.reason).map_or(Error::OtherVersion, |reason| {
            Error::CatalogRefused(reason, answer.place)
        }),
        _ => Error::OtherVersion,
    }
}

/// The room of a first try: for an output as long as the stream, and for a short one in any case.
fn first_room(stream: &[u8]) -> usize {
    stream.len().max(1024)
}

/// The output, and how many values there are. size: the room of the first try; where that is too little, the second has as much as is
/// needed. A call may hold as much again as its room.
fn run_whole(
    mut call: Call,
    profile: Profile,
    stream: &[u8],
    limits: &Limits,
    size: usize,
) -> Result<(Vec<u8>, u64), Error> {
    same_version()?;
    let (mut status, mut room, mut answer) = once(&mut call, profile, stream, limits, size)?;
    if status <= 1 && answer.needed > size as u64 {
        let needed = usize::try_from(answer.needed).map_err(|_| Error::NoMemory)?;
        drop(room);
        (status, room, answer) = once(&mut call, profile, stream, limits, needed)?;
    }
    room.truncate(answer.needed as usize);
    match status {
        0 => Ok((room, answer.values)),
        1 => Err(Error::Refused(Refusal {
            reason: Reason::of(answer.reason).ok_or(Error::OtherVersion)?,
            place: answer.place,
            output: room,
        })),
        _ => Err(failure(status, &answer)),
    }
}

/// The stream, text or binary, as canonical text: each value at top level is a line.
pub fn to_text(stream: &[u8], catalog: &[u8], limits: &Limits) -> Result<Vec<u8>, Error> {
    to_text_with(Profile::Strict, stream, catalog, limits)
}

/// The stream, text or binary, as pretty text: each member of a container begins a line.
pub fn to_pretty(stream: &[u8], catalog: &[u8], limits: &Limits) -> Result<Vec<u8>, Error> {
    to_pretty_with(Profile::Strict, stream, catalog, limits)
}

/// The stream, a text, as canonical binary. One that is binary is refused as `SameForm`.
pub fn to_binary(stream: &[u8], catalog: &[u8], limits: &Limits) -> Result<Vec<u8>, Error> {
    to_binary_with(Profile::Strict, stream, catalog, limits)
}

/// The stream, text or binary, as canonical binary.
pub fn rewrite(stream: &[u8], catalog: &[u8], limits: &Limits) -> Result<Vec<u8>, Error> {
    rewrite_with(Profile::Strict, stream, catalog, limits)
}

/// How many values the stream has at top level.
pub fn check(stream: &[u8], catalog: &[u8], limits: &Limits) -> Result<u64, Error> {
    check_with(Profile::Strict, stream, catalog, limits)
}

/// As [`to_text`], with a profile.
pub fn to_text_with(
    profile: Profile,
    stream: &[u8],
    catalog: &[u8],
    limits: &Limits,
) -> Result<Vec<u8>, Error> {
    let call = Call::With(cozgelt_to_text_with, catalog);
    Ok(run_whole(call, profile, stream, limits, first_room(stream))?.0)
}

/// As [`to_pretty`], with a profile.
pub fn to_pretty_with(
    profile: Profile,
    stream: &[u8],
    catalog: &[u8],
    limits: &Limits,
) -> Result<Vec<u8>, Error> {
    let call = Call::With(cozgelt_to_pretty_with, catalog);
    Ok(run_whole(call, profile, stream, limits, first_room(stream))?.0)
}

/// As [`to_binary`], with a profile.
pub fn to_binary_with(
    profile: Profile,
    stream: &[u8],
    catalog: &[u8],
    limits: &Limits,
) -> Result<Vec<u8>, Error> {
    let call = Call::With(cozgelt_to_binary_with, catalog);
    Ok(run_whole(call, profile, stream, limits, first_room(stream))?.0)
}

/// As [`rewrite`], with a profile.
pub fn rewrite_with(
    profile: Profile,
    stream: &[u8],
    catalog: &[u8],
    limits: &Limits,
) -> Result<Vec<u8>, Error> {
    let call = Call::With(cozgelt_rewrite_with, catalog);
    Ok(run_whole(call, profile, stream, limits, first_room(stream))?.0)
}

/// As [`check`], with a profile.
pub fn check_with(
    profile: Profile,
    stream: &[u8],
    catalog: &[u8],
    limits: &Limits,
) -> Result<u64, Error> {
    let call = Call::With(cozgelt_check_with, catalog);
    Ok(run_whole(call, profile, stream, limits, 0)?.1)
}

/// A catalogue that is loaded once, for any number of calls, also of several threads at once.
///
/// ```
/// use cozgelt::{Catalog, Limits, Profile};
///
/// let limits = Limits::default();
/// let tables = b"$ion_shared_symbol_table::{name: \"x\", version: 1, symbols: [\"p\"]}";
/// let catalog = Catalog::load(tables, &limits)?;
/// let stream = b"$ion_symbol_table::{imports: [{name: \"x\", version: 1, max_id: 1}]} $10";
/// assert_eq!(catalog.to_text(Profile::Strict, stream, &limits)?, b"p\n");
/// # Ok::<(), cozgelt::Error>(())
/// ```
pub struct Catalog {
    // A handle goes to one call at a time, so each call takes one of its own.
    handle: Mutex<CCatalog>,
}

impl fmt::Debug for Catalog {
    fn fmt(&self, f: &mut fmt::Formatter<'_>) -> fmt::Result {
        f.debug_struct("Catalog").finish_non_exhaustive()
    }
}

impl Catalog {
    /// Loads a catalogue, a stream of shared symbol tables. The limits bound the loading; those of a call bound its stream alone.
    pub fn load(tables: &[u8], limits: &Limits) -> Result<Catalog, Error> {
        same_version()?;
        let limits = CLimits::of(limits);
        let mut handle = CCatalog::new();
        let mut answer = CAnswer::new();
        // SAFETY: as in `once`.
        let status = unsafe {
            cozgelt_catalog_load(
                &limits,
                tables.as_ptr(),
                tables.len(),
                &mut handle,
                &mut answer,
            )
        };
        match status {
            0 => Ok(Catalog {
                handle: Mutex::new(handle),
            }),
            _ => Err(failure(status, &answer)),
        }
    }

    /// Another handle to the tables.
    fn shared(&self) -> Result<CCatalog, Error> {
        let mut other = CCatalog::new();
        let mut handle = self.handle.lock().unwrap_or_else(PoisonError::into_inner);
        // SAFETY: both handles are borrowed mutably, so that they do not overlap and nobody else uses them.
        match unsafe { cozgelt_catalog_share(&mut *handle, &mut other) } {
            0 => Ok(other),
            _ => Err(Error::NoMemory),
        }
    }

    fn convert(
        &self,
        call: CallLoaded,
        profile: Profile,
        stream: &[u8],
        limits: &Limits,
        size: usize,
    ) -> Result<(Vec<u8>, u64), Error> {
        let call = Call::Loaded(call, self.shared()?);
        run_whole(call, profile, stream, limits, size)
    }

    /// As [`to_text_with`], with these tables.
    pub fn to_text(
        &self,
        profile: Profile,
        stream: &[u8],
        limits: &Limits,
    ) -> Result<Vec<u8>, Error> {
        let size = first_room(stream);
        Ok(self
            .convert(cozgelt_to_text_loaded, profile, stream, limits, size)?
            .0)
    }

    /// As [`to_pretty_with`], with these tables.
    pub fn to_pretty(
        &self,
        profile: Profile,
        stream: &[u8],
        limits: &Limits,
    ) -> Result<Vec<u8>, Error> {
        let size = first_room(stream);
        Ok(self
            .convert(cozgelt_to_pretty_loaded, profile, stream, limits, size)?
            .0)
    }

    /// As [`to_binary_with`], with these tables.
    pub fn to_binary(
        &self,
        profile: Profile,
        stream: &[u8],
        limits: &Limits,
    ) -> Result<Vec<u8>, Error> {
        let size = first_room(stream);
        Ok(self
            .convert(cozgelt_to_binary_loaded, profile, stream, limits, size)?
            .0)
    }

    /// As [`rewrite_with`], with these tables.
    pub fn rewrite(
        &self,
        profile: Profile,
        stream: &[u8],
        limits: &Limits,
    ) -> Result<Vec<u8>, Error> {
        let size = first_room(stream);
        Ok(self
            .convert(cozgelt_rewrite_loaded, profile, stream, limits, size)?
            .0)
    }

    /// As [`check_with`], with these tables.
    pub fn check(&self, profile: Profile, stream: &[u8], limits: &Limits) -> Result<u64, Error> {
        Ok(self
            .convert(cozgelt_check_loaded, profile, stream, limits, 0)?
            .1)
    }
}

/// The version of the library, as three numbers.
pub fn version() -> (u32, u32, u32) {
    // SAFETY: it takes nothing, and answers a number.
    let number = unsafe { cozgelt_version() };
    (number / 10_000, number / 100 % 100, number % 100)
}
