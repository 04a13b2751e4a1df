//! The scripts of cases, made from a seed and a shape.

use crate::answers::Stream;

pub const MAX_BYTES: usize = 64;

/// One phrase of a shape: the bytes sent after an even address, or the bytes
/// read and acknowledged after an odd one, before the last.
#[derive(Clone, Copy)]
pub enum Phrase {
    Send(u32),
    Read(u32),
}

/// Four bytes, the first phrase lowest; 0 where there is none.
pub fn shape(phrases: &[Phrase]) -> u32 {
    let byte = |phrase: &Phrase| match phrase {
        Phrase::Send(count) => 1 + 2 * count,
        Phrase::Read(count) => 2 + 2 * count,
    };
    phrases.iter().rev().fold(0, |shape, phrase| shape << 8 | byte(phrase))
}

/// The script; `None` if the shape has no phrase or too many bytes.
pub fn script(seed: u32, shape: u32) -> Option<Vec<u8>> {
    let mut stream = Stream::new(seed);
    let mut script = Vec::new();
    for phrase in shape.to_le_bytes().into_iter().take_while(|p| *p != 0) {
        let (count, read) = ((phrase - 1) / 2, (phrase - 1) % 2);
        script.extend([0x10, 0x20, stream.next() as u8 & 0xfe | read]);
        for _ in 0..count {
            if read == 0 {
                script.extend([0x20, stream.next() as u8]);
            } else {
                script.push(0x30);
            }
        }
        if read == 1 {
            script.push(0x31);
        }
    }
    if script.is_empty() || script.len() >= MAX_BYTES {
        return None;
    }
    script.push(0x40);
    Some(script)
}
