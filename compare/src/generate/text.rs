//! The lines of calls.

pub const ENTER: &str = "op=e\n";
pub const LEAVE: &str = "op=x\n";
pub const HOST_FENCE: &str = "op=y\n";

pub fn header(frames: u64) -> String {
    format!("frames={frames}\n")
}

pub fn host_load(pa: u64) -> String {
    format!("op=r pa={pa:016x}\n")
}

pub fn host_store(pa: u64, data: u64) -> String {
    format!("op=w pa={pa:016x} data={data:016x}\n")
}

pub fn host_root(register: u64) -> String {
    format!("op=h data={register:016x}\n")
}

pub fn guest_root(register: u64) -> String {
    format!("op=g data={register:016x}\n")
}

/// The mode of an access, with SUM and MXR.
#[derive(Clone, Copy)]
pub struct Rights {
    pub mode: char,
    pub sum: bool,
    pub mxr: bool,
}

/// Mode s with SUM and MXR 0.
pub const PLAIN: Rights = Rights { mode: 's', sum: false, mxr: false };

pub fn load(rights: Rights, va: u64) -> String {
    access('l', rights, va) + "\n"
}

pub fn fetch(rights: Rights, va: u64) -> String {
    access('f', rights, va) + "\n"
}

pub fn store(rights: Rights, va: u64, data: u64) -> String {
    access('s', rights, va) + &format!(" data={data:016x}\n")
}

fn access(op: char, rights: Rights, va: u64) -> String {
    let Rights { mode, sum, mxr } = rights;
    format!("op={op} mode={mode} sum={} mxr={} va={va:016x}", u8::from(sum), u8::from(mxr))
}

/// None stands for `all`.
pub fn guest_fence(va: Option<u64>, asid: Option<u64>) -> String {
    let va = va.map_or("all".to_string(), |va| format!("{va:016x}"));
    let asid = asid.map_or("all".to_string(), |asid| format!("{asid:04x}"));
    format!("op=z va={va} asid={asid}\n")
}
