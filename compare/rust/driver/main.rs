//! The published Rust, asked: cases on standard input, a line for each on standard output. The modules below are the published files, but
//! for those that say that they are stood in. Answers are document 01's numbers for the Rust's errors; a panic is caught and said.
#![allow(warnings)]
extern crate stands as byte;
extern crate stands as defmt_or_log;
extern crate stands as heapless;
extern crate stands as itertools;
extern crate stands as zigbee_types;
extern crate macros as thiserror;
extern crate macros as zigbee_macros;

mod case;
mod storage;

mod security;

mod nwk {
    pub mod frame;
    pub mod nib;
}

mod aps {
    pub mod aib;
    pub mod binding;
    pub mod frame;
    pub mod types;

    // stood in
    pub mod error {
        pub enum ApsError {
            InvalidValue,
        }
    }
}

use aead::{AeadInPlace, KeyInit};
use aps::aib::{Aib, DeviceKeyPairDescriptor, KeyAttribute, LinkKeyType};
use aps::frame::header::Header as ApsHeader;
use aps::frame::{Frame as ApsFrame, frame_control::FrameType as ApsType};
use aps::types::TxOptions;
use byte::{TryRead, TryWrite};
use case::{Case, Line, hex, number};
use nwk::frame::header::Header as NwkHeader;
use nwk::frame::{Frame as NwkFrame, frame_control::FrameType as NwkType};
use nwk::nib::{IncomingFrameCounterDescriptor, NetworkSecurityMaterialDescriptor, Nib, storage as nib_storage};
use security::frame::{AuxFrameHeader, KeyIdentifier, SecurityControl, SecurityLevel};
use security::primitives::{Aes128Mmo, HmacAes128Mmo};
use security::{Aes128Ccm, SecurityContext, SecurityError, TRUST_CENTER_LINK_KEY};
use std::io::{Read, Write};
use std::panic::{AssertUnwindSafe, catch_unwind};
use zigbee_types::{ByteArray, IeeeAddress};

/// Document 01's number for an error of the Rust.
fn class(error: &SecurityError) -> u8 {
    match error {
        SecurityError::ParseError(_) => 2,
        SecurityError::InvalidData => 3,
        SecurityError::Unspecified => 4,
        SecurityError::CcmError(_) => 5,
        SecurityError::FrameCounterExhausted => 6,
        SecurityError::InvalidKey => unreachable!("never made"),
    }
}

/// The frame handed to securing was read before: what cannot be parsed then is an output buffer that is too short.
fn secured(done: Result<usize, SecurityError>) -> Line {
    match done {
        Ok(len) => Line { span: Some((0, len)), ..Line::of(0) },
        Err(SecurityError::ParseError(_)) => Line::of(8),
        Err(error) => Line::of(class(&error)),
    }
}

/// The only error of the hashes is a size that they do not take.
fn hashed(done: Result<[u8; 16], SecurityError>) -> Line {
    match done {
        Ok(value) => Line { bytes: value.to_vec(), ..Line::of(0) },
        Err(_) => Line { bytes: vec![0; 16], ..Line::of(7) },
    }
}

fn nib_of(case: &Case) -> Nib {
    let nib = Nib::new();
    nib.update_security_level(|level| *level = SecurityLevel::from_bits(case.level));
    nib.update_ieee_address(|own| *own = IeeeAddress(case.own));
    nib.update_active_key_seq_number(|active| *active = case.active);
    nib.update_outgoing_frame_counter(|next| *next = case.outgoing);
    for row in case.keys.chunks(17) {
        let key = NetworkSecurityMaterialDescriptor {
            key_seq_number: row[0],
            key: ByteArray(row[1..].try_into().unwrap()),
            network_key_type: 1,
        };
        nib.security_material_set_mut().push(key).expect("at most 2 keys");
    }
    for row in case.rows.chunks(13) {
        let row = IncomingFrameCounterDescriptor {
            key_seq_number: row[0],
            sender_address: IeeeAddress(number(&row[1..9])),
            incoming_frame_counter: number(&row[9..]) as u32,
        };
        nib.incoming_frame_counters_mut().push(row).expect("at most 32 rows");
    }
    nib
}

fn rows_of(nib: &Nib) -> String {
    let row = |row: &IncomingFrameCounterDescriptor| {
        format!("{:02x}{:016x}{:08x}", row.key_seq_number, row.sender_address.0, row.incoming_frame_counter)
    };
    nib.incoming_frame_counters().iter().map(row).collect()
}

fn aib_of(case: &Case) -> Aib {
    let aib = Aib::new();
    for row in case.pairs.chunks(34) {
        let pair = DeviceKeyPairDescriptor {
            device_address: IeeeAddress(number(&row[..8])),
            key_attributes: KeyAttribute::try_read(&row[8..], ()).unwrap().0,
            link_key: ByteArray(row[9..25].try_into().unwrap()),
            link_key_type: LinkKeyType::try_read(&row[25..], ()).unwrap().0,
            outgoing_frame_counter: number(&row[26..30]) as u32,
            incoming_frame_counter: number(&row[30..]) as u32,
        };
        aib.device_key_pair_set_mut().push(pair).expect("at most 2 pairs");
    }
    aib
}

/// The number of an enum of one octet.
fn octet(value: impl TryWrite) -> u8 {
    let mut space = [0];
    value.try_write(&mut space, ()).unwrap();
    space[0]
}

fn pairs_of(aib: &Aib) -> String {
    let row = |pair: &DeviceKeyPairDescriptor| {
        let (attribute, kind) = (octet(pair.key_attributes), octet(pair.link_key_type.clone()));
        let counters = format!("{:08x}{:08x}", pair.outgoing_frame_counter, pair.incoming_frame_counter);
        format!("{:016x}{attribute:02x}{}{kind:02x}{counters}", pair.device_address.0, hex(&pair.link_key.0))
    };
    aib.device_key_pair_set().iter().map(row).collect()
}

/// The payload's start and length, where the frame is handed back with its payload.
fn span(frame: usize, payload: &[u8]) -> Option<(usize, usize)> {
    Some((payload.as_ptr() as usize - frame, payload.len()))
}

fn open_nwk(case: &Case) -> Line {
    let (nib, aib) = (nib_of(case), Aib::new());
    let mut frame = case.first.to_vec();
    let at = frame.as_ptr() as usize;
    // the Rust hands a plain frame back as it hands back one that it opened
    let plain = NwkHeader::try_read(case.first, ()).is_ok_and(|(header, _)| !header.frame_control.security_flag());
    let line = match SecurityContext::new(&nib, &aib).decrypt_nwk_frame_in_place(&mut frame) {
        Ok(NwkFrame::Data(data)) => Line { span: span(at, data.payload), ..Line::of(u8::from(plain)) },
        Ok(_) => Line { span: None, ..Line::of(u8::from(plain)) },
        Err(error) => Line::of(class(&error)),
    };
    Line { numbers: vec![nib.active_key_seq_number().into()], rows: rows_of(&nib), bytes: frame, ..line }
}

fn open_aps(case: &Case) -> Line {
    let (nib, aib) = (nib_of(case), aib_of(case));
    let mut frame = case.first.to_vec();
    let at = frame.as_ptr() as usize;
    let line = match SecurityContext::new(&nib, &aib).decrypt_aps_frame_in_place(&mut frame) {
        Ok(ApsFrame::Data(data)) => Line { span: span(at, data.payload), ..Line::of(0) },
        Ok(_) => Line { span: None, ..Line::of(0) },
        Err(error) => Line::of(class(&error)),
    };
    Line { rows: pairs_of(&aib), bytes: frame, ..line }
}

/// Whether a typed part, written out again, has the bytes that it was read from.
fn lasting(part: impl TryWrite, bytes: &[u8]) -> bool {
    let mut space = vec![0; bytes.len() + 64];
    part.try_write(&mut space, ()).is_ok_and(|len| space[..len] == *bytes)
}

fn secure_nwk(case: &Case) -> Line {
    let Ok((header, at)) = NwkHeader::try_read(case.first, ()) else { return Line::of("unread") };
    let Ok(frame) = NwkFrame::from_payload(header, &case.first[at..]) else { return Line::of("unread") };
    if let NwkFrame::NwkCommand(typed) = &frame {
        if !lasting(typed.command.clone(), &case.first[at..]) {
            return Line::of("reshaped");
        }
    }
    let (nib, aib) = (nib_of(case), Aib::new());
    let mut out = vec![0xee; case.room];
    let line = secured(SecurityContext::new(&nib, &aib).encrypt_nwk_frame_in_place(frame, &mut out));
    Line { numbers: vec![nib.outgoing_frame_counter().into()], bytes: out, ..line }
}

fn secure_aps(case: &Case) -> Line {
    let Ok((header, at)) = ApsHeader::try_read(case.first, ()) else { return Line::of("unread") };
    let Ok(frame) = ApsFrame::from_payload(header, &case.first[at..]) else { return Line::of("unread") };
    if let ApsFrame::ApsCommand(typed) = &frame {
        if !lasting(typed.command, &case.first[at..]) {
            return Line::of("reshaped");
        }
    }
    let (nib, aib) = (nib_of(case), aib_of(case));
    let mut out = vec![0xee; case.room];
    let options = if case.extended { TxOptions::IncludeExtendedNonce } else { TxOptions::SecurityEnabled };
    let context = SecurityContext::new(&nib, &aib);
    let line = secured(context.encrypt_aps_frame_in_place(frame, &mut out, IeeeAddress(case.device), options));
    Line { rows: pairs_of(&aib), bytes: out, ..line }
}

fn take(case: &Case) -> Line {
    let nib = nib_of(case);
    let (line, counter) = match nib_storage::take_outgoing_frame_counter(&nib) {
        Some(counter) => (Line::of(0), counter),
        None => (Line::of(6), 0),
    };
    Line { numbers: vec![counter.into(), nib.outgoing_frame_counter().into()], ..line }
}

fn reset(case: &Case) -> Line {
    let nib = nib_of(case);
    nib_storage::reset_outgoing_frame_counter_on_switch_key(&nib);
    Line { numbers: vec![nib.outgoing_frame_counter().into()], ..Line::of(0) }
}

fn record(case: &Case) -> Line {
    let nib = nib_of(case);
    let kept = nib_storage::record_incoming_frame_counter(&nib, case.number, IeeeAddress(case.device), case.counter);
    Line { rows: rows_of(&nib), ..Line::of(if kept { 0 } else { 4 }) }
}

fn forget(case: &Case) -> Line {
    let nib = nib_of(case);
    nib_storage::forget_incoming_frame_counters(&nib, case.number);
    Line { rows: rows_of(&nib), ..Line::of(0) }
}

/// The Rust's advance tells neither whether it raised a counter, nor which it was.
fn advance(case: &Case) -> Line {
    let aib = aib_of(case);
    aps::aib::storage::advance_outgoing_frame_counter(&aib, IeeeAddress(case.device));
    Line { rows: pairs_of(&aib), ..Line::of("?") }
}

fn record_aps(case: &Case) -> Line {
    let aib = aib_of(case);
    let device = IeeeAddress(case.device);
    let kept = aps::aib::storage::record_incoming_frame_counter(&aib, device, case.counter, TRUST_CENTER_LINK_KEY);
    Line { rows: pairs_of(&aib), ..Line::of(if kept { 0 } else { 4 }) }
}

fn control(case: &Case) -> Line {
    let control = SecurityControl(case.control);
    let mut filled = control;
    filled.set_security_level(SecurityLevel::from_bits(case.level));
    let numbers = vec![
        control.security_level().into_bits().into(),
        control.security_level().mic_length() as u64,
        control.key_identifier() as u64,
        control.extended_nonce().into(),
        control.is_network_key().into(),
        filled.0.into(),
    ];
    Line { numbers, ..Line::of(0) }
}

fn nwk_header(case: &Case) -> Line {
    let Ok((header, len)) = NwkHeader::try_read(case.first, ()) else { return Line::of(2) };
    let control = header.frame_control;
    Line { span: Some((0, len)), numbers: vec![control.frame_type() as u64, control.security_flag().into()], ..Line::of(0) }
}

fn aps_header(case: &Case) -> Line {
    let Ok((header, len)) = ApsHeader::try_read(case.first, ()) else { return Line::of(2) };
    let control = header.frame_control;
    let command = control.frame_type() == ApsType::Command;
    Line { span: Some((0, len)), numbers: vec![command.into(), control.security_flag().into()], ..Line::of(0) }
}

fn read_auxiliary(case: &Case) -> Line {
    let Ok((header, len)) = AuxFrameHeader::try_read(case.first, ()) else { return Line::of(2) };
    let numbers = vec![
        header.security_control.0.into(),
        header.frame_counter.into(),
        header.source_address.is_some().into(),
        header.source_address.map_or(0, |address| address.0),
        header.security_control.key_identifier() as u64,
        header.key_sequence_number.unwrap_or(0).into(),
    ];
    Line { span: Some((0, len)), numbers, ..Line::of(0) }
}

fn write_auxiliary(case: &Case) -> Line {
    let control = SecurityControl(case.control);
    let header = AuxFrameHeader {
        security_control: control,
        frame_counter: case.counter,
        source_address: control.extended_nonce().then_some(IeeeAddress(case.device)),
        key_sequence_number: control.is_network_key().then_some(case.number),
    };
    let mut out = vec![0xee; case.room];
    let answer = if header.try_write(&mut out, ()).is_ok() { 0 } else { 8 };
    Line { bytes: out, ..Line::of(answer) }
}

/// The stood-in cipher by itself: key, nonce and associated data, and the message. It makes frames for the runs.
fn seal(case: &Case) -> Line {
    let (key, rest) = case.first.split_at(16);
    let (nonce, associated) = rest.split_at(13);
    let mut message = case.second.to_vec();
    let tag = Aes128Ccm::new(key.into()).encrypt_in_place_detached(nonce.into(), associated, &mut message).unwrap();
    Line { bytes: [message.as_slice(), tag.as_slice()].concat(), ..Line::of(0) }
}

fn answer(case: &Case) -> Line {
    match case.call {
        1 => open_nwk(case),
        2 => secure_nwk(case),
        3 => open_aps(case),
        4 => secure_aps(case),
        5 => hashed(Aes128Mmo::digest(case.first)),
        6 => hashed(Aes128Mmo::digest_with_iv(case.first, case.second)),
        7 => hashed(HmacAes128Mmo::hmac(case.first, case.second)),
        8 => take(case),
        9 => reset(case),
        10 => record(case),
        11 => forget(case),
        12 => advance(case),
        13 => record_aps(case),
        14 => control(case),
        15 => nwk_header(case),
        16 => aps_header(case),
        17 => read_auxiliary(case),
        18 => write_auxiliary(case),
        19 => seal(case),
        _ => Line::of("unknown"),
    }
}

fn main() {
    std::panic::set_hook(Box::new(|_| {}));
    let mut input = vec![];
    std::io::stdin().read_to_end(&mut input).expect("standard input");
    let mut out = std::io::BufWriter::new(std::io::stdout().lock());
    let mut rest = input.as_slice();
    while let Some((case, after)) = Case::first_of(rest) {
        let line = catch_unwind(AssertUnwindSafe(|| answer(&case))).unwrap_or_else(|_| Line::of("panic"));
        writeln!(out, "{}", line.text(&case)).expect("standard output");
        rest = after;
    }
    if !rest.is_empty() {
        writeln!(out, "bad").expect("standard output");
    }
}
