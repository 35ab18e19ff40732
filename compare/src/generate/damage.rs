//! Damage to lines, headers and whole traces.

use super::rng::Rng;

/// Bytes that a reader may take for another.
pub const ODD_BYTES: &[u8] = b"\0\r\t\n  ==AFGaf0189zlsufx-+.:/@`g\x7f\x80\xff";

/// A line with one thing wrong with it, mostly. It may have several LF afterwards, or none.
pub fn damaged(rng: &mut Rng, line: &[u8]) -> Vec<u8> {
    let body = line.strip_suffix(b"\n").unwrap_or(line);
    let mut fields: Vec<Vec<u8>> = body.split(|&byte| byte == b' ').map(<[u8]>::to_vec).collect();
    match rng.below(16) {
        0 => return substituted(rng, line),
        1 => return without_a_byte(rng, line),
        2 => return with_a_byte(rng, line),
        3 => return [body, b"\r\n"].concat(),
        4 => return [body, b" \n"].concat(),
        5 => return [b" ", line].concat(),
        6 => return b"\n".to_vec(),
        7 => return line.to_ascii_uppercase(),
        8 => {
            let (one, other) = (rng.index(fields.len()), rng.index(fields.len()));
            fields.swap(one, other);
        }
        9 => {
            fields.remove(rng.index(fields.len()));
        }
        10 => {
            let copy = fields[rng.index(fields.len())].clone();
            fields.insert(rng.index(fields.len() + 1), copy);
        }
        11 => fields.insert(rng.index(fields.len() + 1), Vec::new()),
        12 => {
            let extra: &[u8] =
                rng.pick(&[b"x=1" as &[u8], b"op=y", b"data=0000000000000000", b"asid=0001", b"=", b"va"]);
            fields.push(extra.to_vec());
        }
        13 => {
            let place = rng.index(fields.len());
            fields[place] = with_value(rng, &fields[place]);
        }
        14 => {
            let letter = rng.pick(b"lsfzghexrwyabLSF01 ");
            fields[0] = vec![b'o', b'p', b'=', letter];
        }
        _ => {
            let place = rng.index(fields.len());
            let digit = rng.pick(b"0f9a");
            fields[place].push(digit);
        }
    }
    let mut damaged = fields.join(&b' ');
    damaged.push(b'\n');
    damaged
}

/// A field with its key and another value.
fn with_value(rng: &mut Rng, field: &[u8]) -> Vec<u8> {
    let key = field.split(|&byte| byte == b'=').next().unwrap_or_default();
    let values: &[&[u8]] = &[b"", b"all", b"s", b"u", b"0", b"1", b"2", b"al", b"ALL", b"00001", b"0001", b"000F"];
    let value = rng.pick(values);
    [key, b"=", value].concat()
}

fn substituted(rng: &mut Rng, line: &[u8]) -> Vec<u8> {
    let mut line = line.to_vec();
    let place = rng.index(line.len());
    line[place] = odd_byte(rng);
    line
}

fn without_a_byte(rng: &mut Rng, line: &[u8]) -> Vec<u8> {
    let mut line = line.to_vec();
    line.remove(rng.index(line.len()));
    line
}

fn with_a_byte(rng: &mut Rng, line: &[u8]) -> Vec<u8> {
    let mut line = line.to_vec();
    let byte = odd_byte(rng);
    line.insert(rng.index(line.len() + 1), byte);
    line
}

fn odd_byte(rng: &mut Rng) -> u8 {
    if rng.percent(30) { rng.next() as u8 } else { rng.pick(ODD_BYTES) }
}

/// A first line, sound or not, for a number of frames.
pub fn odd_header(rng: &mut Rng, frames: u64) -> Vec<u8> {
    let sound = format!("frames={frames}\n").into_bytes();
    match rng.below(14) {
        0 => format!("frames=0{frames}\n").into_bytes(),
        1 => format!("frames={}\n", frames + 1).into_bytes(),
        2 => format!("frames={}\n", frames.wrapping_add(1 << rng.pick(&[8, 16, 32, 63]))).into_bytes(),
        3 => format!("frames={}{frames}\n", u128::from(u64::MAX) + 1).into_bytes(),
        4 => format!("frames={}\n", rng.pick(&[0, 8, 9, 4_095, 4_096, 4_097, 9_999, 65_536])).into_bytes(),
        5 => format!("frames=+{frames}\n").into_bytes(),
        6 => format!("frames={frames}").into_bytes(),
        7 => b"\n".to_vec(),
        8 => Vec::new(),
        9 => format!("frames={frames}\r\n").into_bytes(),
        10 => format!("Frames={frames}\n").into_bytes(),
        11 => b"frames=\n".to_vec(),
        12 => format!("frames={frames:x} \n").into_bytes(),
        _ => damaged(rng, &sound),
    }
}

/// Changes some bytes of a trace anywhere.
pub fn scatter(rng: &mut Rng, trace: &mut [u8]) {
    if trace.is_empty() {
        return;
    }
    for _ in 0..rng.range(1, 8) {
        let place = rng.index(trace.len());
        trace[place] = odd_byte(rng);
    }
}
