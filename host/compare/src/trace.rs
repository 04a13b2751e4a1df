//! The accesses of a call with their answers, and their replay.

use sulfryk::Registers;

#[derive(Clone, Copy, Debug, PartialEq, Eq)]
pub enum Access {
    Read(u32),
    Write(u32, u32),
    Wait(u32),
}

/// An access and what it gave: the value of a read, and whether it failed.
#[derive(Clone, Copy, Debug)]
pub struct Step {
    pub access: Access,
    pub value: u32,
    pub failed: bool,
}

/// Answers as recorded, as long as the accesses are. From the first other one on every access fails.
pub struct Replay<'a> {
    pub trace: &'a [Step],
    pub made: usize,
    /// The first access that is not as recorded, with its number.
    pub other: Option<(usize, Access)>,
}

impl<'a> Replay<'a> {
    pub fn new(trace: &'a [Step]) -> Self {
        Replay { trace, made: 0, other: None }
    }

    /// Exactly the accesses recorded were made.
    pub fn whole(&self) -> bool {
        self.other.is_none() && self.made == self.trace.len()
    }

    /// A failed access has its number as its error.
    fn next(&mut self, access: Access) -> Result<u32, u32> {
        let number = self.made;
        self.made += 1;
        match self.trace.get(number) {
            Some(step) if step.access == access && self.other.is_none() => {
                if step.failed {
                    Err(number as u32)
                } else {
                    Ok(step.value)
                }
            }
            _ => {
                self.other.get_or_insert((number, access));
                Err(u32::MAX)
            }
        }
    }
}

impl Registers for Replay<'_> {
    type Error = u32;

    fn read(&mut self, register: u32) -> Result<u32, u32> {
        self.next(Access::Read(register))
    }

    fn write(&mut self, register: u32, value: u32) -> Result<(), u32> {
        self.next(Access::Write(register, value)).map(|_| ())
    }

    fn delay_us(&mut self, micros: usize) {
        // A wait does not fail; one that is not as recorded is noted.
        let _ = self.next(Access::Wait(u32::try_from(micros).expect("waits are below 2^32 us")));
    }
}
