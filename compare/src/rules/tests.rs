//! The worked samples, with values worked by hand from the rules.

use super::access::{Access, Kind, Mode};
use super::faults::FaultNumbers;
use super::loads::loads;
use super::machine::Machine;
use super::memory::{Memory, WordMemory};
use super::nested::Nested;
use super::play::{play, program};
use super::roots::{GuestRoot, HostRoot, Roots};
use super::shadow::Shadow;
use super::stages::World;
use super::tlb::Tlb;
use super::translator::Translator;

const GUEST_ROOT: u64 = 0x8000_1000_0000_0001;

/// Two frames of 0, but for a level 2 leaf with V, R, W, A, D and frame 0 at 0x1000.
fn two_frames() -> Vec<u64> {
    let mut words = vec![0; 1_024];
    words[512] = 0xc7;
    words
}

fn load(mode: Mode, va: u64) -> Access {
    Access { kind: Kind::Load, mode, sum: false, mxr: false, va }
}

/// The frame of a load, or the six numbers of its fault.
fn walked(words: &mut [u64], guest: u64, host: u64, access: &Access) -> Result<u64, FaultNumbers> {
    let roots = Roots { guest: GuestRoot::decode(guest).unwrap(), host: HostRoot::decode(host).unwrap() };
    let memory = WordMemory::new(words);
    let world = World { memory: &memory, roots };
    world.translate(access).map(|reached| reached.frame).map_err(|fault| fault.numbers())
}

fn fault(cause: u8, va: u64, gpa: u64, stage: u8, guest_level: u8, host_level: u8) -> FaultNumbers {
    FaultNumbers { cause, va, gpa, stage, guest_level, host_level }
}

#[test]
fn loads_of_two_frames() {
    let mut words = two_frames();
    let mut walked = |access| walked(&mut words, GUEST_ROOT, 0, &access);
    assert_eq!(walked(load(Mode::Supervisor, 8)), Ok(0));
    assert_eq!(walked(load(Mode::User, 8)), Err(fault(13, 8, 0, 1, 2, 3)));
    assert_eq!(walked(load(Mode::Supervisor, 4)), Err(fault(4, 4, 0, 0, 3, 3)));
    assert_eq!(walked(load(Mode::Supervisor, 0x40_0000_0000)), Err(fault(13, 0x40_0000_0000, 0, 1, 3, 3)));
}

#[test]
fn host_table_of_zeros() {
    let mut words = vec![0; 4_096];
    let answer = walked(&mut words, 0, 0x8000_0000_0000_0004, &load(Mode::Supervisor, 0x10));
    assert_eq!(answer, Err(fault(21, 0x10, 4, 2, 3, 2)));
}

/// An edited table is remembered until a fence of all.
fn remembers<T: Translator>(translator: &mut T) {
    let mut words = two_frames();
    let mut machine = Machine::new(WordMemory::new(&mut words), translator);
    machine.enter();
    machine.guest_root(GUEST_ROOT).unwrap();
    let at_8 = load(Mode::Supervisor, 8);
    let clear = Access { kind: Kind::Store, ..load(Mode::Supervisor, 0x1000) };
    assert_eq!(machine.read(&at_8), Ok(0));
    assert_eq!(machine.store(&clear, 0), Ok(()));
    assert_eq!(machine.read(&at_8), Ok(0));
    machine.guest_fence(None, None).unwrap();
    assert_eq!(machine.read(&at_8).map_err(|fault| fault.numbers()), Err(fault(13, 8, 0, 1, 2, 3)));
}

#[test]
fn a_tlb_remembers() {
    remembers(&mut Tlb::new(Nested));
}

#[test]
fn a_shadow_remembers() {
    remembers(&mut Shadow::new(vec![0; 2_048]));
}

/// MXR lets a load pass the guest's leaf, which has X and not R, and never the host's.
#[test]
fn mxr_is_the_guests_alone() {
    let mut words = vec![0; 8 * 512];
    words[2 * 512] = 0x49; // guest root: V, X, A, frame 0
    let mut load_by_mxr = |host_leaf| {
        words[4 * 512] = host_leaf;
        let access = Access { mxr: true, ..load(Mode::Supervisor, 8) };
        walked(&mut words, 0x8000_0000_0000_0002, 0x8000_0000_0000_0004, &access)
    };
    assert_eq!(load_by_mxr(0x5b), Ok(0)); // V, R, X, U, A
    assert_eq!(load_by_mxr(0x53), Ok(0)); // V, R, U, A
    // V, X, U, A: not even the guest's entry can be read
    assert_eq!(load_by_mxr(0x59), Err(fault(21, 8, 0x2000 >> 2, 2, 2, 2)));
}

/// A load that only MXR lets through leaves a grant with no right, which answers nothing.
#[test]
fn a_grant_without_rights_answers_nothing() {
    let mut words = vec![0; 8 * 512];
    words[2 * 512] = 0x49; // V, X, A
    words[4 * 512] = 0x53; // V, R, U, A
    let mut layered = Tlb::new(Shadow::new(vec![0; 2_048]));
    let mut machine = Machine::new(WordMemory::new(&mut words), &mut layered);
    machine.host_root(0x8000_0000_0000_0004).unwrap();
    machine.enter();
    machine.guest_root(0x8000_0000_0000_0002).unwrap();
    let by_mxr = Access { mxr: true, ..load(Mode::Supervisor, 8) };
    assert_eq!(machine.read(&by_mxr), Ok(0));
    assert_eq!(machine.read(&by_mxr), Ok(0));
    let numbers = machine.read(&load(Mode::Supervisor, 8)).map_err(|fault| fault.numbers());
    assert_eq!(numbers, Err(fault(13, 8, 0, 1, 2, 3)));
}

#[test]
fn loads_are_added_up() {
    let mut words = two_frames();
    words[1] = u64::MAX;
    words[2] = 3;
    assert_eq!(loads(&mut Nested, &mut words, GUEST_ROOT, 0, &[8, 16, 12, 8]), Ok(1));
}

#[test]
fn words_past_the_whole_frames_are_not_shown() {
    let mut words = vec![7; 1_025];
    let memory = WordMemory::new(&mut words);
    assert_eq!(memory.words(), 1_024);
    assert_eq!(memory.read(1_023), Ok(7));
    assert!(memory.read(1_024).is_err());
}

#[test]
fn the_first_report() {
    let trace = b"frames=2\nop=e\nop=g data=8000100000000001\nop=l mode=u sum=0 mxr=0 va=0000000000000008\n";
    let expected = b"n=1 ans=ok\nn=2 ans=ok\n\
        n=3 ans=fault cause=13 va=0000000000000008 gpa=0000000000000000 stage=1 gl=2 hl=3\n";
    let mut report = vec![b'?'; 64 + 128 * 3];
    let length = play(&mut vec![0; 8_192], &mut Nested, trace, &mut report).unwrap();
    assert_eq!(&report[..length], expected);
    assert!(report[length..].iter().all(|&byte| byte == b'?'));
}

#[test]
fn inputs_that_the_program_refuses() {
    for input in ["", "frames=1", "frames=0\n", "frames=01\n", "frames=9\n", "frames=+1\n", "frames=1 \n", "\n"] {
        assert_eq!(program(input.as_bytes()), b"refused=1\n", "{input:?}");
    }
    let calls = |count| format!("frames=8\n{}", "\n".repeat(count));
    assert_eq!(program(calls(501).as_bytes()), b"refused=9\n");
    assert!(program(calls(500).as_bytes()).starts_with(b"machine=nested frames=8\nn=1 ans=refused number=8\n"));
    let long = format!("frames=8\n{}", "y".repeat(16_384 - 9));
    assert!(program(long.as_bytes()).starts_with(b"machine=nested"));
    assert_eq!(program(format!("{long}y").as_bytes()), b"refused=9\n");
    assert_eq!(program(format!("frames={}", "1".repeat(20_000)).as_bytes()), b"refused=1\n");
}

#[test]
fn a_header_alone_is_a_whole_trace() {
    let expected = b"machine=nested frames=1\nmachine=shadow frames=1\nmachine=tlb+tlb+shadow frames=1\n";
    assert_eq!(program(b"frames=1\n"), expected);
}

/// The traces of examples/ give the reports beside them.
#[test]
fn examples() {
    let folder = concat!(env!("CARGO_MANIFEST_DIR"), "/../examples");
    let mut played = 0;
    for file in std::fs::read_dir(folder).unwrap() {
        let path = file.unwrap().path();
        if path.extension().is_some_and(|extension| extension == "trace") {
            let input = std::fs::read(&path).unwrap();
            let expected = std::fs::read(path.with_extension("report")).unwrap();
            assert_eq!(program(&input), expected, "{}", path.display());
            played += 1;
        }
    }
    assert!(played > 0);
}
