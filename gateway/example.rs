//! A gateway in Rust, in small: reads recorded fields (README.md, 'The frame reader') from standard input, keeps its own counter rows, and
//! prints what each NWK frame was answered. It takes its input to be right; `./frame-reader` also says where it is not.
mod pouchkettle;

use pouchkettle::{CounterRow, NetworkKey, Nwk};
use std::io::Read;

fn main() {
    let mut input = Vec::new();
    std::io::stdin().read_to_end(&mut input).expect("standard input");
    let mut nwk = Nwk { level: 5, ..Nwk::default() };
    let mut rows = [CounterRow::default(); 64];
    let (mut used, mut heard, mut rest) = (0, 0, &input[..]);
    while let [tag, low, high, after @ ..] = rest {
        let (body, next) = after.split_at(u16::from_le_bytes([*low, *high]).into());
        rest = next;
        match tag {
            0x01 => {
                nwk.keys.rows[nwk.keys.used] = NetworkKey { number: body[0], key: body[1..].try_into().unwrap() };
                nwk.keys.used += 1;
            }
            0x02 => {
                let sender = u64::from_le_bytes(body[1..9].try_into().unwrap());
                let counter = u32::from_le_bytes(body[9..].try_into().unwrap());
                rows[used] = CounterRow { number: body[0], sender, counter };
                used += 1;
            }
            0x03 => nwk.active = body[0],
            _ => {
                heard += 1;
                let mut frame = body.to_vec();
                let opened = pouchkettle::open_nwk(nwk, &mut rows, used, &mut frame);
                (used, nwk.active) = (opened.used, opened.active);
                println!("{heard} {} {} {}", opened.told.number, opened.told.start, opened.told.len);
            }
        }
    }
}
