//! Writing a report.

use super::calls::Answer;
use super::faults::FaultNumbers;

/// Writes lines into a buffer that has room for them.
pub struct ReportWriter<'a> {
    buffer: &'a mut [u8],
    length: usize,
}

impl<'a> ReportWriter<'a> {
    pub fn new(buffer: &'a mut [u8]) -> Self {
        Self { buffer, length: 0 }
    }

    /// How many bytes were written.
    pub fn length(&self) -> usize {
        self.length
    }

    /// Writes the line of the answer to call `n`.
    pub fn answer(&mut self, n: usize, answer: &Answer) {
        self.text(b"n=");
        self.decimal(n as u64);
        match answer {
            Answer::Done => self.text(b" ans=ok"),
            Answer::Word(word) => {
                self.text(b" ans=word data=");
                self.hex(*word);
            }
            Answer::Faulted(fault) => self.fault(&fault.numbers()),
            Answer::Refused(refusal) => {
                self.text(b" ans=refused number=");
                self.decimal(refusal.number());
            }
        }
        self.text(b"\n");
    }

    fn fault(&mut self, fault: &FaultNumbers) {
        self.text(b" ans=fault cause=");
        self.decimal(u64::from(fault.cause));
        self.text(b" va=");
        self.hex(fault.va);
        self.text(b" gpa=");
        self.hex(fault.gpa);
        self.text(b" stage=");
        self.decimal(u64::from(fault.stage));
        self.text(b" gl=");
        self.decimal(u64::from(fault.guest_level));
        self.text(b" hl=");
        self.decimal(u64::from(fault.host_level));
    }

    fn text(&mut self, text: &[u8]) {
        self.buffer[self.length..][..text.len()].copy_from_slice(text);
        self.length += text.len();
    }

    /// A number with no leading zero.
    fn decimal(&mut self, number: u64) {
        let mut digits = [0; 20];
        let mut start = digits.len();
        let mut rest = number;
        loop {
            start -= 1;
            digits[start] = b'0' + (rest % 10) as u8;
            rest /= 10;
            if rest == 0 {
                break;
            }
        }
        self.text(&digits[start..]);
    }

    /// A number of 16 hexadecimal digits.
    fn hex(&mut self, number: u64) {
        let digits: [u8; 16] = std::array::from_fn(|place| {
            let digit = number >> (60 - 4 * place) & 0xf;
            b"0123456789abcdef"[digit as usize]
        });
        self.text(&digits);
    }
}
