//! What goes out comes in again: each exported call, and refusals that change nothing.
mod pouchkettle;

use pouchkettle::*;

const KEY: [u8; 16] = *b"sixteen octets!!";
const LOGGER: u64 = 0x0011_2233_4455_6677;
const GATEWAY: u64 = 0x8899_aabb_ccdd_eeff;

fn nwk(own: u64) -> Nwk {
    let row = NetworkKey { number: 7, key: KEY };
    Nwk { level: 5, own, active: 7, keys: NetworkKeys { rows: [row; 2], used: 1 } }
}

fn pairs(device: u64) -> Pairs {
    let mut pairs = Pairs::default();
    pairs.rows[0] = PairRow { device, attribute: 2, key: KEY, outgoing: 8, ..PairRow::default() };
    pairs.used = 1;
    pairs
}

// NWK: header of eight bytes with the security bit, and a payload of four
fn network() {
    let plain = [0x08, 0x02, 0, 0, 0x34, 0x12, 0x1e, 1, b'2', b'1', b'.', b'5'];
    let mut outgoing = Outgoing { next: 41 };
    let mut out = [0xee; 40];
    assert_eq!(secure_nwk(nwk(LOGGER), &mut outgoing, &plain, &mut out[..29]).number, 8);
    assert_eq!((outgoing.next, out), (41, [0xee; 40]));
    let sent = secure_nwk(nwk(LOGGER), &mut outgoing, &plain, &mut out);
    assert_eq!((sent.number, sent.start, sent.len, outgoing.next, &out[30..]), (0, 0, 30, 42, &[0xee; 10][..]));
    let mut rows = [CounterRow::default(); 3];
    let mut heard = out;
    let opened = open_nwk(nwk(GATEWAY), &mut rows, 0, &mut heard[..30]);
    assert_eq!((opened.told.number, opened.told.start, opened.told.len, opened.used, opened.active), (0, 22, 4, 1, 7));
    assert_eq!((&heard[22..26], rows[0]), (&b"21.5"[..], CounterRow { number: 7, sender: LOGGER, counter: 41 }));
    let (before, mut again) = (rows, out);
    let copy = open_nwk(nwk(GATEWAY), &mut rows, opened.used, &mut again[..30]);
    assert_eq!((copy.told, copy.used, rows, again), (Told { number: 33, ..Told::default() }, 1, before, out));
    assert_eq!(forget(&mut rows, 4, 7), ToldRows { number: 7, used: 4 });
    assert_eq!((forget(&mut rows, 1, 7), rows), (ToldRows::default(), [CounterRow::default(); 3]));
    assert_eq!((reset(Outgoing { next: 0x8000_0000 }).next, reset(Outgoing { next: 0x8000_0001 }).next), (0x8000_0000, 0));
}

// APS data with delivery to one endpoint: header of eight bytes with the security bit
fn application() {
    let plain = [0x20, 1, 6, 0, 4, 1, 1, 9, b'o', b'p', b'e', b'n'];
    let mut out = [0xee; 40];
    let logger = Aps { level: 5, own: LOGGER };
    let refused = secure_aps(logger, pairs(GATEWAY), LOGGER, true, &plain, &mut out);
    assert_eq!((refused.told, refused.pairs, out), (Told { number: 41, ..Told::default() }, pairs(GATEWAY), [0xee; 40]));
    let sent = secure_aps(logger, pairs(GATEWAY), GATEWAY, true, &plain, &mut out);
    assert_eq!((sent.told, sent.pairs.rows[0].outgoing), (Told { number: 0, start: 0, len: 29 }, 9));
    let mut heard = out;
    let opened = open_aps(Aps { level: 5, own: GATEWAY }, pairs(LOGGER), &mut heard[..29]);
    assert_eq!((opened.told, &heard[21..25], opened.pairs.rows[0].incoming), (Told { number: 0, start: 21, len: 4 }, &b"open"[..], 8));
    let mut forged = out;
    forged[28] ^= 1;
    assert_eq!(open_aps(Aps { level: 5, own: GATEWAY }, pairs(LOGGER), &mut forged[..29]).told.number, 5);
}

// A device that is not known gets a row of its own: every field of it is looked at.
fn newcomer() {
    let plain = [0x20, 1, 6, 0, 4, 1, 1, 9, b'o', b'p', b'e', b'n'];
    let key = *b"ZigBeeAlliance09";
    let mut known = pairs(GATEWAY);
    known.rows[0].key = key;
    let mut frame = [0; 29];
    assert_eq!(secure_aps(Aps { level: 5, own: LOGGER }, known, GATEWAY, true, &plain, &mut frame).told.number, 0);
    let opened = open_aps(Aps { level: 5, own: GATEWAY }, Pairs::default(), &mut frame);
    let row = PairRow { device: LOGGER, attribute: 2, key, kind: 1, outgoing: 0, incoming: 8 };
    assert_eq!((opened.told.number, opened.pairs.used, opened.pairs.rows[0]), (0, 1, row));
}

// The Zigbee specification's C.5.2 in two parts: 0xC0 to 0xCF. And the limit, every field looked at.
fn firmware() {
    let text: [u8; 16] = core::array::from_fn(|i| 0xc0 + i as u8);
    let first = hash_add(hash_start(), &text[..5]);
    let mut tail = [0; 16];
    tail[..5].copy_from_slice(&text[..5]);
    assert_eq!((hash_start(), first), (Hashing::default(), ToldHashing { number: 0, state: Hashing { value: [0; 16], tail, total: 5 } }));
    let second = hash_add(first.state, &text[5..]);
    let value = 0xa797_7e88_bc0b_61e8_2108_2710_9a22_8f2d_u128.to_be_bytes();
    assert_eq!((second.number, second.state.total, hash_finish(second.state)), (0, 16, ToldDigest { number: 0, value }));
    assert_eq!(hash_start_from(b"cut"), Hashing { value: *b"cut\0\0\0\0\0\0\0\0\0\0\0\0\0", ..Hashing::default() });
    let last = Hashing { value: [1; 16], tail: [2; 16], total: 536_870_911 };
    assert_eq!((hash_add(last, b"x"), hash_finish(last).number), (ToldHashing { number: 7, state: last }, 0));
    assert_eq!(hash_finish(Hashing { total: 536_870_912, ..last }), ToldDigest { number: 7, value: [0; 16] });
}

fn main() {
    network();
    application();
    newcomer();
    firmware();
    println!("the exported calls, done and refused: as promised");
}
