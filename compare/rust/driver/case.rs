//! The cases, as compare/README.md lays them out, and the line that answers one.

/// How many bytes stand before the keys.
const HEAD: usize = 44;

#[derive(Clone, Copy)]
pub struct Case<'a> {
    pub call: u8,
    show: u8,
    pub level: u8,
    pub active: u8,
    pub own: u64,
    pub outgoing: u32,
    pub number: u8,
    pub control: u8,
    pub extended: bool,
    pub device: u64,
    pub counter: u32,
    pub room: usize,
    pub keys: &'a [u8],
    pub rows: &'a [u8],
    pub pairs: &'a [u8],
    pub first: &'a [u8],
    pub second: &'a [u8],
}

pub fn number(bytes: &[u8]) -> u64 {
    bytes.iter().rev().fold(0, |high, low| high << 8 | u64::from(*low))
}

pub fn hex(bytes: &[u8]) -> String {
    bytes.iter().map(|byte| format!("{byte:02x}")).collect()
}

impl<'a> Case<'a> {
    /// The first case of `bytes`, and what comes after it.
    pub fn first_of(bytes: &'a [u8]) -> Option<(Self, &'a [u8])> {
        let (head, mut rest) = bytes.split_at_checked(HEAD)?;
        let field = |at: usize, size: usize| number(&head[at..at + size]);
        let mut part = |size: u64| {
            let (part, after) = rest.split_at_checked(size as usize)?;
            rest = after;
            Some(part)
        };
        let case = Self {
            call: head[0],
            show: head[1],
            level: head[2],
            active: head[3],
            own: field(4, 8),
            outgoing: field(12, 4) as u32,
            number: head[16],
            control: head[17],
            extended: head[18] != 0,
            device: field(22, 8),
            counter: field(30, 4) as u32,
            room: field(34, 2) as usize,
            keys: part(17 * field(19, 1))?,
            rows: part(13 * field(20, 1))?,
            pairs: part(34 * field(21, 1))?,
            first: part(field(36, 4))?,
            second: part(field(40, 4))?,
        };
        Some((case, rest))
    }
}

/// What a call leaves; `?` where the Rust does not tell it.
pub struct Line {
    pub answer: String,
    pub span: Option<(usize, usize)>,
    pub numbers: Vec<u64>,
    pub rows: String,
    pub bytes: Vec<u8>,
}

impl Line {
    pub fn of(answer: impl ToString) -> Self {
        Self { answer: answer.to_string(), span: Some((0, 0)), numbers: vec![], rows: String::new(), bytes: vec![] }
    }

    pub fn text(&self, case: &Case) -> String {
        let shown = |bit: u8, text: String| match text.as_str() {
            _ if case.show & bit == 0 => ".".into(),
            "" => "-".into(),
            _ => text,
        };
        let (start, len) = match self.span {
            Some((start, len)) => (start.to_string(), len.to_string()),
            None => ("?".into(), "?".into()),
        };
        [
            shown(1, self.answer.clone()),
            shown(2, start),
            shown(2, len),
            shown(4, self.numbers.iter().map(u64::to_string).collect::<Vec<_>>().join(",")),
            shown(8, self.rows.clone()),
            shown(16, hex(&self.bytes)),
        ]
        .join(" ")
    }
}
