//! Reading a trace: its header, and the call of each further line.

use super::access::{Access, Kind, Mode};
use super::calls::{Call, GuestCall, HostCall};
use super::memory::MAX_FRAMES;

/// The header and the lines after it. Each line has its LF, but for a last one that has none.
pub fn split_header(trace: &[u8]) -> (&[u8], &[u8]) {
    let end = trace.iter().position(|&byte| byte == b'\n').map_or(trace.len(), |place| place + 1);
    trace.split_at(end)
}

/// The lines of a text, each with the LF that ends it.
pub fn lines(text: &[u8]) -> impl Iterator<Item = &[u8]> {
    text.split_inclusive(|&byte| byte == b'\n')
}

/// The lines after the header.
pub fn call_lines(trace: &[u8]) -> impl Iterator<Item = &[u8]> {
    lines(split_header(trace).1)
}

/// The number of frames that a header says.
pub fn read_header(line: &[u8]) -> Option<usize> {
    let digits = line.strip_prefix(b"frames=")?.strip_suffix(b"\n")?;
    if digits.first() == Some(&b'0') {
        return None;
    }
    let frames = digits.iter().try_fold(0, |number: usize, &digit| match digit {
        b'0'..=b'9' => number.checked_mul(10)?.checked_add(usize::from(digit - b'0')),
        _ => None,
    })?;
    (1..=MAX_FRAMES).contains(&frames).then_some(frames)
}

pub fn read_call(line: &[u8]) -> Call {
    parse(line).unwrap_or(Call::Unreadable)
}

fn parse(line: &[u8]) -> Option<Call> {
    let mut fields = Fields { rest: Some(line.strip_suffix(b"\n")?) };
    let call = match fields.value(b"op")? {
        b"l" => Call::Guest(GuestCall::Read { access: fields.access(Kind::Load)? }),
        b"f" => Call::Guest(GuestCall::Read { access: fields.access(Kind::Fetch)? }),
        b"s" => {
            let access = fields.access(Kind::Store)?;
            Call::Guest(GuestCall::Store { access, data: fields.word(b"data")? })
        }
        b"z" => {
            let va = or_all(fields.value(b"va")?, word)?;
            let asid = or_all(fields.value(b"asid")?, asid)?;
            Call::Guest(GuestCall::Fence { va, asid })
        }
        b"g" => Call::Guest(GuestCall::Root { register: fields.word(b"data")? }),
        b"x" => Call::Guest(GuestCall::Leave),
        b"r" => Call::Host(HostCall::Load { pa: fields.word(b"pa")? }),
        b"w" => Call::Host(HostCall::Store { pa: fields.word(b"pa")?, data: fields.word(b"data")? }),
        b"h" => Call::Host(HostCall::Root { register: fields.word(b"data")? }),
        b"y" => Call::Host(HostCall::Fence),
        b"e" => Call::Host(HostCall::Enter),
        _ => return None,
    };
    fields.rest.is_none().then_some(call)
}

/// The fields of a line that are still to be read, none after the last.
struct Fields<'a> {
    rest: Option<&'a [u8]>,
}

impl<'a> Fields<'a> {
    /// The value of the next field, which must have this key.
    fn value(&mut self, key: &[u8]) -> Option<&'a [u8]> {
        let rest = self.rest?;
        let field = match rest.iter().position(|&byte| byte == b' ') {
            Some(place) => {
                self.rest = Some(&rest[place + 1..]);
                &rest[..place]
            }
            None => {
                self.rest = None;
                rest
            }
        };
        field.strip_prefix(key)?.strip_prefix(b"=")
    }

    fn word(&mut self, key: &[u8]) -> Option<u64> {
        word(self.value(key)?)
    }

    fn bit(&mut self, key: &[u8]) -> Option<bool> {
        match self.value(key)? {
            b"0" => Some(false),
            b"1" => Some(true),
            _ => None,
        }
    }

    fn mode(&mut self) -> Option<Mode> {
        match self.value(b"mode")? {
            b"s" => Some(Mode::Supervisor),
            b"u" => Some(Mode::User),
            _ => None,
        }
    }

    fn access(&mut self, kind: Kind) -> Option<Access> {
        Some(Access { kind, mode: self.mode()?, sum: self.bit(b"sum")?, mxr: self.bit(b"mxr")?, va: self.word(b"va")? })
    }
}

/// None for `all`, else what the text says, if it says something.
fn or_all<T>(text: &[u8], read: impl Fn(&[u8]) -> Option<T>) -> Option<Option<T>> {
    if text == b"all" { Some(None) } else { read(text).map(Some) }
}

fn word(text: &[u8]) -> Option<u64> {
    hex::<16>(text)
}

fn asid(text: &[u8]) -> Option<u16> {
    hex::<4>(text).map(|number| number as u16)
}

/// A number of exactly so many lowercase hexadecimal digits.
fn hex<const DIGITS: usize>(text: &[u8]) -> Option<u64> {
    let digits: &[u8; DIGITS] = text.try_into().ok()?;
    digits.iter().try_fold(0, |number, &digit| {
        let value = match digit {
            b'0'..=b'9' => digit - b'0',
            b'a'..=b'f' => digit - b'a' + 10,
            _ => return None,
        };
        Some(number << 4 | u64::from(value))
    })
}
