//! Pouchkettle for a gateway in Rust: put this file beside your modules, and link libpouchkettle.a (README.md here says how).
//! What each call promises is in docs/PROMISES.md; the numbers that calls answer are in docs/AUDIT.md.

/// A network key under its number.
#[repr(C)]
#[derive(Clone, Copy, Debug, Default, PartialEq, Eq)]
pub struct NetworkKey {
    pub number: u8,
    pub key: [u8; 16],
}

/// At most two network keys; the first `used` rows are in use.
#[repr(C)]
#[derive(Clone, Copy, Debug, Default, PartialEq, Eq)]
pub struct NetworkKeys {
    pub rows: [NetworkKey; 2],
    pub used: usize,
}

/// The gateway's state for NWK: level (5), own address, number of the active key, keys.
#[repr(C)]
#[derive(Clone, Copy, Debug, Default, PartialEq, Eq)]
pub struct Nwk {
    pub level: u8,
    pub own: u64,
    pub active: u8,
    pub keys: NetworkKeys,
}

/// The counter of the last frame that opened, for a key number and a sender.
#[repr(C)]
#[derive(Clone, Copy, Debug, Default, PartialEq, Eq)]
pub struct CounterRow {
    pub number: u8,
    pub sender: u64,
    pub counter: u32,
}

/// The counter that the gateway sends next.
#[repr(C)]
#[derive(Clone, Copy, Debug, Default, PartialEq, Eq)]
pub struct Outgoing {
    pub next: u32,
}

/// A device's link key with its counters. Attribute 0 provisional, 1 unverified, 2 verified.
#[repr(C)]
#[derive(Clone, Copy, Debug, Default, PartialEq, Eq)]
pub struct PairRow {
    pub device: u64,
    pub attribute: u8,
    pub key: [u8; 16],
    pub kind: u8,
    pub outgoing: u32,
    pub incoming: u32,
}

/// Sixteen pair rows, of which the first `used` are in use.
#[repr(C)]
#[derive(Clone, Copy, Debug, Default, PartialEq, Eq)]
pub struct Pairs {
    pub rows: [PairRow; 16],
    pub used: usize,
}

/// The gateway's state for APS: level (5) and own address.
#[repr(C)]
#[derive(Clone, Copy, Debug, Default, PartialEq, Eq)]
pub struct Aps {
    pub level: u8,
    pub own: u64,
}

/// The number of an answer: 0 done, 1 plain, any other refused. Start and length of the payload, or of the finished frame; 0 and 0 if refused.
#[repr(C)]
#[derive(Clone, Copy, Debug, Default, PartialEq, Eq)]
pub struct Told {
    pub number: u8,
    pub start: usize,
    pub len: usize,
}

/// What opening an NWK frame tells, with the count of rows in use and the active number after it: both go into the next call.
#[repr(C)]
#[derive(Clone, Copy, Debug, Default, PartialEq, Eq)]
pub struct ToldNwk {
    pub told: Told,
    pub used: usize,
    pub active: u8,
}

/// A number, and the count of rows in use after the call.
#[repr(C)]
#[derive(Clone, Copy, Debug, Default, PartialEq, Eq)]
pub struct ToldRows {
    pub number: u8,
    pub used: usize,
}

/// What an APS call tells, and the pair rows after it: they go into the next call.
#[repr(C)]
#[derive(Clone, Copy, Debug, Default, PartialEq, Eq)]
pub struct ToldAps {
    pub told: Told,
    pub pairs: Pairs,
}

/// The hash of a firmware file so far: the value over its whole blocks, the bytes that wait, and how many there were in all.
#[repr(C)]
#[derive(Clone, Copy, Debug, Default, PartialEq, Eq)]
pub struct Hashing {
    pub value: [u8; 16],
    pub tail: [u8; 16],
    pub total: u32,
}

/// A number, and the state after the part: it goes into the next call.
#[repr(C)]
#[derive(Clone, Copy, Debug, Default, PartialEq, Eq)]
pub struct ToldHashing {
    pub number: u8,
    pub state: Hashing,
}

/// A number, and the value; zeros if refused.
#[repr(C)]
#[derive(Clone, Copy, Debug, Default, PartialEq, Eq)]
pub struct ToldDigest {
    pub number: u8,
    pub value: [u8; 16],
}

unsafe extern "C" {
    fn pouchkettle_open_nwk(nwk: Nwk, rows: *mut CounterRow, lent: usize, used: usize, frame: *mut u8, len: usize) -> ToldNwk;
    fn pouchkettle_secure_nwk(nwk: Nwk, outgoing: *mut Outgoing, plain: *const u8, len: usize, out: *mut u8, room: usize) -> Told;
    fn pouchkettle_forget(rows: *mut CounterRow, lent: usize, used: usize, number: u8) -> ToldRows;
    fn pouchkettle_reset(outgoing: Outgoing) -> Outgoing;
    fn pouchkettle_open_aps(aps: Aps, pairs: Pairs, frame: *mut u8, len: usize) -> ToldAps;
    fn pouchkettle_secure_aps(aps: Aps, pairs: Pairs, device: u64, extended: bool, plain: *const u8, len: usize, out: *mut u8, room: usize) -> ToldAps;
    fn pouchkettle_hash_start() -> Hashing;
    fn pouchkettle_hash_start_from(initial: *const u8, len: usize) -> Hashing;
    fn pouchkettle_hash_add(state: Hashing, part: *const u8, len: usize) -> ToldHashing;
    fn pouchkettle_hash_finish(state: Hashing) -> ToldDigest;
}

// Each call below is safe: a slice is passed with its own length, every struct is laid out as in the library, and the library asks nothing
// else of its caller.

/// Opens an NWK frame in place. Of `rows` the first `used` are in use; a new pair takes the next.
pub fn open_nwk(nwk: Nwk, rows: &mut [CounterRow], used: usize, frame: &mut [u8]) -> ToldNwk {
    unsafe { pouchkettle_open_nwk(nwk, rows.as_mut_ptr(), rows.len(), used, frame.as_mut_ptr(), frame.len()) }
}

/// Secures a plain NWK frame into `out` and takes a counter. Refused: neither changes.
pub fn secure_nwk(nwk: Nwk, outgoing: &mut Outgoing, plain: &[u8], out: &mut [u8]) -> Told {
    unsafe { pouchkettle_secure_nwk(nwk, outgoing, plain.as_ptr(), plain.len(), out.as_mut_ptr(), out.len()) }
}

/// Forgets the rows of a key number: for a key that goes.
pub fn forget(rows: &mut [CounterRow], used: usize, number: u8) -> ToldRows {
    unsafe { pouchkettle_forget(rows.as_mut_ptr(), rows.len(), used, number) }
}

/// The outgoing counter after a change of the active key.
pub fn reset(outgoing: Outgoing) -> Outgoing {
    unsafe { pouchkettle_reset(outgoing) }
}

/// Opens an APS frame in place.
pub fn open_aps(aps: Aps, pairs: Pairs, frame: &mut [u8]) -> ToldAps {
    unsafe { pouchkettle_open_aps(aps, pairs, frame.as_mut_ptr(), frame.len()) }
}

/// Secures a plain APS frame for a device into `out` and takes a counter of its row. Refused: neither changes.
pub fn secure_aps(aps: Aps, pairs: Pairs, device: u64, extended: bool, plain: &[u8], out: &mut [u8]) -> ToldAps {
    unsafe { pouchkettle_secure_aps(aps, pairs, device, extended, plain.as_ptr(), plain.len(), out.as_mut_ptr(), out.len()) }
}

/// The start of a firmware file's hash (AES-MMO, annex B.6).
pub fn hash_start() -> Hashing {
    unsafe { pouchkettle_hash_start() }
}

/// The same from an initial block, cut or filled with zeros to 16 bytes.
pub fn hash_start_from(initial: &[u8]) -> Hashing {
    unsafe { pouchkettle_hash_start_from(initial.as_ptr(), initial.len()) }
}

/// A part more. Past 536,870,911 bytes in all 7, the state as it was, and a shorter part may follow.
pub fn hash_add(state: Hashing, part: &[u8]) -> ToldHashing {
    unsafe { pouchkettle_hash_add(state, part.as_ptr(), part.len()) }
}

/// The value, which is the same for every cutting of the file into parts.
pub fn hash_finish(state: Hashing) -> ToldDigest {
    unsafe { pouchkettle_hash_finish(state) }
}
