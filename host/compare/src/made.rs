//! Made-up states: random bytes, and states of real calls with bytes changed. A refusal leaves the state and what is lent as
//! they were; a state that is taken leads to an end, with no refusal on the way.

use std::mem::offset_of;
use std::ops::Range;
use std::time::Instant;

use crate::abi::{self, Block, Next, State};
use crate::choice::Choice;

/// No state was seen to take so many steps; one that did would count as not ending.
const LONGEST: u32 = 5_000_000;

const BYTES: usize = size_of::<State>();
/// The places of the bytes between the fields, which carry nothing: after those of one byte, and after those of four.
const BETWEEN: [Range<usize>; 2] =
    [offset_of!(State, b23) + 1..offset_of!(State, h0), offset_of!(State, w8) + 4..offset_of!(State, z0)];
/// 25 fields of one byte, 7 of two, 9 of four, one of eight.
const _: () = assert!(BYTES == 25 + 1 + 7 * 2 + 9 * 4 + 4 + 8);

const READ: u32 = 0;
const WAIT: u32 = 2;
const END: u32 = 3;
const REFUSED: u32 = 5;
const VALUE: u32 = 0;
const DONE: u32 = 1;
const FAILED: u32 = 2;

/// What is lent, by the number of the call.
#[derive(Clone, PartialEq, Eq)]
struct Lent {
    block: Vec<u32>,
    script: Vec<u8>,
    buffer: Vec<u8>,
}

const COMMAND: u8 = 8;
const SCRIPT: u8 = 9;
const PAGE: u8 = 10;

impl Lent {
    /// Mostly of lengths that are taken.
    fn draw(choice: &mut Choice) -> Self {
        const SCRIPTS: [&[u8]; 3] = [
            &[0x10, 0x20, 0xa0, 0x20, 0x00, 0x10, 0x20, 0xa1, 0x31, 0x40],
            &[0x10, 0x20, 0xa2, 0x20, 0x6e, 0x20, 0x08, 0x40],
            &[0x10, 0x20, 0xa1, 0x30, 0x30, 0x31, 0x40],
        ];
        let words = if choice.percent(95) { 1 + choice.below(64) } else { choice.one(&[0, 65]) };
        let bytes = if choice.percent(95) { 96 + choice.below(5) } else { choice.below(96) };
        let mut script = choice.one(&SCRIPTS).to_vec();
        if choice.percent(5) {
            script.truncate(choice.below(10) as usize);
        }
        Lent {
            block: (0..words).map(|_| choice.word()).collect(),
            script,
            buffer: (0..bytes).map(|_| choice.byte()).collect(),
        }
    }

    /// The step for what the state's call is lent; now and then that for something else.
    fn step(&mut self, call: u8, state: State, kind: u32, value: u32) -> Block {
        // SAFETY: the slices are lent for the step.
        unsafe {
            match call {
                COMMAND => {
                    abi::sulfryk_command_step(state, self.block.as_mut_ptr(), self.block.len(), kind, value)
                }
                SCRIPT => {
                    abi::sulfryk_script_step(state, self.script.as_ptr(), self.script.len(), kind, value)
                }
                PAGE => {
                    abi::sulfryk_page_step(state, self.buffer.as_mut_ptr(), self.buffer.len(), kind, value)
                }
                _ => abi::sulfryk_step(state, kind, value),
            }
        }
    }

    /// A call of this number, opened.
    fn open(&self, call: u8, choice: &mut Choice) -> Block {
        let (family, device, lan) = (choice.below(5), choice.one(&[0x1558, 0x10fb]), choice.below(2));
        let (attempts, sequence, flag) = (choice.below(256), choice.below(3), choice.flip());
        let (address, offset, word) = (choice.byte() & 0xfe, choice.byte(), choice.word());
        let mask = word & choice.word() | if choice.percent(40) { 1 << 30 } else { 0 };
        let (words, script, buffer) = (&self.block, &self.script, &self.buffer);
        // SAFETY: the slices are lent for the opening.
        unsafe {
            match (call, choice.below(4)) {
                (0, 0) => {
                    abi::sulfryk_write_byte_open(family, device, lan, address, offset, 5, flag, sequence)
                }
                (0, 1) => {
                    abi::sulfryk_read_combined_open(family, device, lan, address, word as u16, flag, sequence)
                }
                (0, 2) => abi::sulfryk_write_combined_open(
                    family,
                    device,
                    lan,
                    address,
                    word as u16,
                    7,
                    flag,
                    sequence,
                ),
                (0, _) => abi::sulfryk_read_byte_open(
                    family, device, lan, address, offset, attempts, flag, sequence,
                ),
                (1, _) => abi::sulfryk_qsfp_setup_open(),
                (2, 0 | 1) => abi::sulfryk_identify_open(family, device, lan, sequence),
                (2, _) => abi::sulfryk_identify_qsfp_open(family, device, lan, sequence),
                (3, _) => abi::sulfryk_soft_rate_select_open(family, device, lan, flag, sequence),
                (4, _) => abi::sulfryk_light_open(family, device, lan, attempts, sequence),
                (5, _) => abi::sulfryk_acquire_open(family, device, lan, mask),
                (6, _) => abi::sulfryk_release_open(family, device, lan, mask),
                (7, _) => abi::sulfryk_token_open(family, device, lan, flag),
                (COMMAND, _) => abi::sulfryk_command_open(family, device, lan, words.as_ptr(), words.len()),
                (SCRIPT, _) => abi::sulfryk_script_open(family, device, lan, script.as_ptr(), script.len()),
                (_, which) => {
                    let open = if which < 2 { abi::sulfryk_page_open } else { abi::sulfryk_qsfp_page_open };
                    open(family, device, lan, attempts, buffer.as_ptr(), buffer.len(), sequence)
                }
            }
        }
    }
}

/// An answer of the awaited kind, which fails in so many of 100 accesses. Values are mostly such that a call goes on.
fn answer(choice: &mut Choice, next: &Next, failing: u32) -> (u32, u32) {
    if next.kind != WAIT && choice.percent(failing) {
        return (FAILED, 0);
    }
    if next.kind != READ {
        return (DONE, 0);
    }
    let word = choice.word();
    if choice.percent(5) {
        return (VALUE, word);
    }
    let value = match next.first {
        // SCL high, SDA by chance.
        0x00028 => word & 4 | 1 | word & !0xf,
        0x15f5c => word & 0x1000 | 0x4000 | word & 0xff,
        // SMBI clear, SWESMBI set; nothing held; the grant; enabled and valid.
        0x10140 | 0x15f70 => 2,
        0x10160 | 0x15f78 => 0,
        0x00020 => 2,
        0x15f00 => 5,
        0x15800 => choice.below(8) << 8 | choice.one(&[0x01, 0x80]) << 16,
        _ => word,
    };
    (VALUE, value)
}

fn of_bytes(bytes: [u8; BYTES]) -> State {
    // SAFETY: a state is made of numbers alone.
    unsafe { std::mem::transmute(bytes) }
}

/// The fields' bytes; those between them are 0.
fn bytes_of(state: &State) -> [u8; BYTES] {
    let mut bytes = [0; BYTES];
    let whole = (&raw const *state).cast::<u8>();
    for (place, byte) in bytes.iter_mut().enumerate() {
        if !BETWEEN.iter().any(|range| range.contains(&place)) {
            // SAFETY: the place lies in a field.
            *byte = unsafe { whole.add(place).read() };
        }
    }
    bytes
}

/// A state and what is lent with it.
fn draw(choice: &mut Choice) -> (State, Lent) {
    let mut lent = Lent::draw(choice);
    let call = choice.below(11) as u8;
    let mut bytes = [0; BYTES];
    if choice.percent(30) {
        let most = choice.one(&[2, 4, 8, 64, 256]);
        bytes.fill_with(|| choice.below(most) as u8);
        bytes[0] = if choice.percent(98) { call } else { choice.byte() };
        // Another tag is that of a call that is over.
        bytes[1] = if choice.percent(80) { 0 } else { choice.byte() };
        return (of_bytes(bytes), lent);
    }
    let mut block = lent.open(call, choice);
    let failing = choice.one(&[0, 0, 2]);
    for _ in 0..choice.spread(11) {
        if block.next.kind >= END {
            break;
        }
        let (kind, value) = answer(choice, &block.next, failing);
        block = lent.step(call, block.state, kind, value);
    }
    bytes = bytes_of(&block.state);
    for _ in 0..choice.below(4) {
        let place = choice.below(BYTES as u32) as usize;
        bytes[place] = if choice.flip() { choice.below(8) as u8 } else { choice.byte() };
    }
    if choice.percent(5) {
        bytes[0] = choice.below(12) as u8;
    }
    (of_bytes(bytes), lent)
}

#[derive(Default)]
struct Tally {
    faults: u64,
    /// States by what became of them: no answer was taken; an end with a value or a failure.
    refused: u64,
    ended: [u64; 2],
    /// Of those taken, by the call's number.
    taken: [u64; 11],
    /// Refused steps by number.
    numbers: [u64; 14],
    /// States in which a failure is kept.
    kept: u64,
    steps: u64,
    longest: u32,
}

impl Tally {
    fn fault(&mut self, what: &str, state: &State) {
        self.faults += 1;
        if self.faults <= 10 {
            println!("{what}: {state:?}");
        }
    }

    /// A step whose refusal, where it is one, must leave everything.
    fn stepped(&mut self, lent: &mut Lent, call: u8, state: State, kind: u32, value: u32) -> Block {
        let before = lent.clone();
        let block = lent.step(call, state, kind, value);
        self.steps += 1;
        if block.next.kind == REFUSED {
            self.numbers[(block.next.first as usize).min(13)] += 1;
            if block.state != state || *lent != before {
                self.fault("a refusal altered something", &state);
            }
        }
        block
    }

    fn state(&mut self, choice: &mut Choice) {
        let (state, mut lent) = draw(choice);
        let call = if choice.percent(98) { state.call } else { choice.below(12) as u8 };
        self.kept += u64::from(abi::sulfryk_failure_kept(state));
        let odd = self.stepped(&mut lent, call, state, 3 + choice.spread(20), choice.word());
        if odd.next.kind != REFUSED || odd.next.first != 12 {
            self.fault("an answer of no kind was taken", &state);
        }
        for kind in choice.one(&[[VALUE, FAILED, DONE], [FAILED, VALUE, DONE], [DONE, FAILED, VALUE]]) {
            let block = self.stepped(&mut lent, call, state, kind, choice.word());
            if block.next.kind != REFUSED {
                self.taken[usize::from(state.call)] += 1;
                return self.followed(choice, call, state, lent, block);
            }
        }
        self.refused += 1;
    }

    /// From the first step that was taken to the end.
    fn followed(&mut self, choice: &mut Choice, call: u8, from: State, mut lent: Lent, mut block: Block) {
        let failing = choice.one(&[30, 30, 30, 30, 10, 10, 1, 0]);
        let mut steps = 1;
        while block.next.kind < END {
            if steps == LONGEST {
                return self.fault("a state does not end", &from);
            }
            let (kind, value) = answer(choice, &block.next, failing);
            block = lent.step(call, block.state, kind, value);
            steps += 1;
        }
        self.steps += u64::from(steps) - 1;
        self.longest = self.longest.max(steps);
        if block.next.kind == REFUSED {
            return self.fault("a state that was taken came to a refusal", &from);
        }
        self.ended[(block.next.kind - END) as usize] += 1;
        let over = self.stepped(&mut lent, call, block.state, DONE, 0);
        if over.next.kind != REFUSED || over.next.first != 11 {
            self.fault("a call that is over was stepped", &from);
        }
    }
}

/// The number of faults.
pub fn tried(seed: u64, count: u64) -> u64 {
    let began = Instant::now();
    let mut choice = Choice::new(seed);
    let mut tally = Tally::default();
    for _ in 0..count {
        tally.state(&mut choice);
    }
    let Tally { faults, refused, ended: [values, failures], taken, numbers, kept, steps, longest } = tally;
    println!("taken, by the call's number, 0 to 10: {taken:?}");
    println!("refused steps, by number, 0 to 13: {numbers:?}");
    println!(
        "{kept} keep an earlier failure; {steps} steps, at most {longest} of one state, {:.0} s",
        began.elapsed().as_secs_f64()
    );
    println!(
        "seed {seed}: {count} made-up states, {refused} refused, {} taken, of which {} ended ({values} with a value, {failures} with a failure), {faults} faults",
        taken.iter().sum::<u64>(),
        values + failures
    );
    faults
}
