//! The words of the claim, by the bytes and the state at the start: class,
//! requests, extra.

use super::module::Module;
use crate::driver::sfp::Kind;

fn has(byte: u8, bits: u8) -> bool {
    byte & bits != 0
}

fn is_sfp(a0: &[u8; 256]) -> bool {
    a0[0] == 0x03
}

/// Byte 12 is requested.
fn asks_rate(a0: &[u8; 256]) -> bool {
    is_sfp(a0) && a0[3] == 0 && !has(a0[6], 0x0b) && !has(a0[8], 0x0c)
}

/// Bytes 14 and 15 are requested.
fn asks_reach(a0: &[u8; 256]) -> bool {
    asks_rate(a0) && a0[12] == 0x67
}

/// Byte 60 is requested: the cable is active and not passive.
fn asks_limiting(a0: &[u8; 256]) -> bool {
    is_sfp(a0) && !has(a0[8], 0x04) && has(a0[8], 0x08)
}

pub fn kind(a0: &[u8; 256]) -> Kind {
    let bx10g = asks_reach(a0) && (a0[14] > 0 || a0[15] >= 0x0a);
    if !is_sfp(a0) {
        Kind::Unknown
    } else if has(a0[8], 0x04) {
        Kind::DaCu
    } else if has(a0[8], 0x08) {
        if has(a0[60], 0x04) {
            Kind::DaActiveLimiting
        } else {
            Kind::Unknown
        }
    } else if has(a0[3], 0x10 | 0x20) {
        Kind::SrLr
    } else if has(a0[6], 0x08) {
        Kind::Cu1g
    } else if has(a0[6], 0x01) {
        Kind::Sx1g
    } else if has(a0[6], 0x02) {
        Kind::Lx1g
    } else if bx10g {
        Kind::Bx10g
    } else if has(a0[6], 0x40) {
        Kind::Bx1g
    } else {
        Kind::Unknown
    }
}

pub fn multispeed(a0: &[u8; 256]) -> bool {
    let short = has(a0[6], 0x01) && has(a0[3], 0x10);
    let long = has(a0[6], 0x02) && has(a0[3], 0x20);
    is_sfp(a0) && (short || long || matches!(kind(a0), Kind::DaCu | Kind::DaActiveLimiting))
}

pub fn requests(a0: &[u8; 256]) -> u32 {
    if !is_sfp(a0) {
        return 5;
    }
    4 + u32::from(asks_rate(a0)) + 2 * u32::from(asks_reach(a0)) + u32::from(asks_limiting(a0))
}

pub fn extra(module: &Module) -> u32 {
    u32::from(module.pulls_sda())
}
