//! The exports of the archive, by numbers: written by `crates/host/declare`.

/// Any numbers are a state. call: which call it is of, by its number below; of another number it is none.
///
///  0 `i2c::TransferCall`
///  1 `i2c::SetupCall`
///  2 `identify::IdentifyCall`
///  3 `softrate::RateCall`
///  4 `light::LightCall`
///  5 `acquire::AcquireCall`
///  6 `acquire::ReleaseCall`
///  7 `hostif::TokenCall`
///  8 `hostif::CommandCall`
///  9 `transfer::ScriptCall`
/// 10 `page::PageCall`
#[repr(C)]
#[derive(Clone, Copy, Debug, PartialEq, Eq)]
pub struct State {
    pub call: u8,
    pub tag: u8,
    pub b1: u8,
    pub b2: u8,
    pub b3: u8,
    pub b4: u8,
    pub b5: u8,
    pub b6: u8,
    pub b7: u8,
    pub b8: u8,
    pub b9: u8,
    pub b10: u8,
    pub b11: u8,
    pub b12: u8,
    pub b13: u8,
    pub b14: u8,
    pub b15: u8,
    pub b16: u8,
    pub b17: u8,
    pub b18: u8,
    pub b19: u8,
    pub b20: u8,
    pub b21: u8,
    pub b22: u8,
    pub b23: u8,
    pub h0: u16,
    pub h1: u16,
    pub h2: u16,
    pub h3: u16,
    pub h4: u16,
    pub h5: u16,
    pub h6: u16,
    pub w0: u32,
    pub w1: u32,
    pub w2: u32,
    pub w3: u32,
    pub w4: u32,
    pub w5: u32,
    pub w6: u32,
    pub w7: u32,
    pub w8: u32,
    pub z0: usize,
}

/// What is next. kind 0: read the register `first`. 1: write `second` to the register `first`. 2: wait `first` microseconds.
/// With these three `third` is 0, or, where a script has just read a byte, 256 and the byte. 3: the end; the result's values
/// are `first` to `sixth` and, of light, `temperature`. 4: the call failed with the number `first`, whose values are `second`
/// and `third`. 5: refused with the number `first`, the state as it was. transfers, slowest: at an end what was metered.
#[repr(C)]
#[derive(Clone, Copy, Debug, PartialEq, Eq)]
pub struct Next {
    pub kind: u32,
    pub first: u32,
    pub second: u32,
    pub third: u32,
    pub fourth: u32,
    pub fifth: u32,
    pub sixth: u32,
    pub transfers: u32,
    pub slowest: u32,
    pub temperature: i16,
}

#[repr(C)]
#[derive(Clone, Copy, Debug, PartialEq, Eq)]
pub struct Block {
    pub next: Next,
    pub state: State,
}

/// tenths: the level in tenths of a dBm. number: 0, or 30 where the count is 0, which has no level.
#[repr(C)]
#[derive(Clone, Copy, Debug, PartialEq, Eq)]
pub struct Decibels {
    pub number: u32,
    pub tenths: i16,
}

// No pointer crosses, and every value of the arguments is allowed. The archive has the System V convention on every target.
unsafe extern "sysv64" {
    pub safe fn sulfryk_read_byte_open(family: u32, device: u16, lan: u32, address: u8, offset: u8, attempts: u32, lock: bool, sequence: u32) -> Block;
    pub safe fn sulfryk_write_byte_open(family: u32, device: u16, lan: u32, address: u8, offset: u8, value: u8, lock: bool, sequence: u32) -> Block;
    pub safe fn sulfryk_read_combined_open(family: u32, device: u16, lan: u32, address: u8, reg: u16, lock: bool, sequence: u32) -> Block;
    pub safe fn sulfryk_write_combined_open(family: u32, device: u16, lan: u32, address: u8, reg: u16, value: u16, lock: bool, sequence: u32) -> Block;
    pub safe fn sulfryk_qsfp_setup_open() -> Block;
    pub safe fn sulfryk_identify_open(family: u32, device: u16, lan: u32, sequence: u32) -> Block;
    pub safe fn sulfryk_identify_qsfp_open(family: u32, device: u16, lan: u32, sequence: u32) -> Block;
    pub safe fn sulfryk_soft_rate_select_open(family: u32, device: u16, lan: u32, ten: bool, sequence: u32) -> Block;
    pub safe fn sulfryk_light_open(family: u32, device: u16, lan: u32, attempts: u32, sequence: u32) -> Block;
    pub safe fn sulfryk_acquire_open(family: u32, device: u16, lan: u32, mask: u32) -> Block;
    pub safe fn sulfryk_release_open(family: u32, device: u16, lan: u32, mask: u32) -> Block;
    pub safe fn sulfryk_token_open(family: u32, device: u16, lan: u32, take: bool) -> Block;
    pub safe fn sulfryk_step(state: State, kind: u32, value: u32) -> Block;
    pub safe fn sulfryk_failure_kept(state: State) -> bool;
    pub safe fn sulfryk_level(count: u16) -> Decibels;
}

// A pointer and a length are a slice that is lent for the call.
unsafe extern "sysv64" {
    pub fn sulfryk_command_open(family: u32, device: u16, lan: u32, block: *const u32, block_len: usize) -> Block;
    pub fn sulfryk_script_open(family: u32, device: u16, lan: u32, script: *const u8, script_len: usize) -> Block;
    pub fn sulfryk_page_open(family: u32, device: u16, lan: u32, attempts: u32, buffer: *const u8, buffer_len: usize, sequence: u32) -> Block;
    pub fn sulfryk_qsfp_page_open(family: u32, device: u16, lan: u32, attempts: u32, buffer: *const u8, buffer_len: usize, sequence: u32) -> Block;
    pub fn sulfryk_command_step(state: State, block: *mut u32, block_len: usize, kind: u32, value: u32) -> Block;
    pub fn sulfryk_script_step(state: State, script: *const u8, script_len: usize, kind: u32, value: u32) -> Block;
    pub fn sulfryk_page_step(state: State, buffer: *mut u8, buffer_len: usize, kind: u32, value: u32) -> Block;
}
