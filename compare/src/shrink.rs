//! Makes a trace that shows a difference small.

/// How many smaller traces are tried.
const TRIES: usize = 1_500;

/// Leaves lines after the first out, as long as the rest still shows the difference.
pub fn shrunk(trace: &[u8], shows: impl Fn(&[u8]) -> bool) -> Vec<u8> {
    let mut lines: Vec<&[u8]> = trace.split_inclusive(|&byte| byte == b'\n').collect();
    let mut tries = 0;
    let mut size = lines.len();
    while size > 0 {
        let mut start = 1;
        while start < lines.len() && tries < TRIES {
            tries += 1;
            let end = (start + size).min(lines.len());
            let rest = [&lines[..start], &lines[end..]].concat();
            if shows(&rest.concat()) {
                lines = rest;
            } else {
                start = end;
            }
        }
        size /= 2;
    }
    lines.concat()
}
