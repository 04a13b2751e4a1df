// Appended to the original's `i2c` by changes.rs: its private functions, the
// count of transfers, the slowest acknowledgement, the clearing sequences by
// name and the run of a script.

/// The clearing sequences: the original's `clear`, and that of S-2.
#[derive(Clone, Copy, Debug, PartialEq, Eq)]
pub enum Sequence {
    Pulses,
    Rounds,
}

/// The runs of `attempt`, and of the bytes acknowledged the greatest sample, 1
/// to 10, that first read SDA low; 0 where there was none.
#[derive(Clone, Copy, Debug, PartialEq, Eq)]
pub struct Meter {
    pub transfers: u32,
    pub slowest: u32,
}

const BLANK: Meter = Meter { transfers: 0, slowest: 0 };

impl Meter {
    /// Both in one number.
    pub fn word(self) -> u32 {
        self.transfers + 65_536 * self.slowest
    }
}

thread_local! {
    static METER: std::cell::Cell<Meter> = const { std::cell::Cell::new(BLANK) };
    static SEQUENCE: std::cell::Cell<Sequence> = const { std::cell::Cell::new(Sequence::Pulses) };
}

/// Called at the head of `attempt`, by the line that changes.rs puts there.
fn probe_count() {
    let m = METER.get();
    METER.set(Meter { transfers: m.transfers + 1, ..m });
}

/// Called in `send`, by the line that changes.rs puts there.
fn probe_heard(sample: u32) {
    let m = METER.get();
    METER.set(Meter { slowest: m.slowest.max(sample), ..m });
}

/// What was metered since this was last asked.
pub fn probe_meter() -> Meter {
    METER.replace(BLANK)
}

/// The call with this sequence; any other call has the original's.
pub fn probe_with<T>(sequence: Sequence, call: impl FnOnce() -> T) -> T {
    SEQUENCE.set(sequence);
    let result = call();
    SEQUENCE.set(Sequence::Pulses);
    result
}

impl<'a, Io: Registers> Bus<'a, Io> {
    /// In `attempt`, where the original has `clear`.
    fn probe_clear(&mut self) -> R<(), Io::Error> {
        match SEQUENCE.get() {
            Sequence::Pulses => self.clear(),
            Sequence::Rounds => self.probe_rounds(),
        }
    }

    /// S-2: release SDA; up to ten times raise SCL and read SDA; if it is
    /// high, pull SDA low, lower SCL, make the stop and finish; otherwise
    /// lower SCL and go on. An I2c, which only the stop can give, is ignored.
    fn probe_rounds(&mut self) -> R<(), Io::Error> {
        self.release_sda()?;
        for _ in 0..10 {
            self.scl_high()?;
            self.delay(4);
            if self.get()? & self.l.sda_in != 0 {
                self.sda(false)?;
                self.delay(4);
                self.scl_low()?;
                self.delay(5);
                return match self.stop() { Err(Error::I2c { .. }) => Ok(()), other => other };
            }
            self.scl_low()?;
            self.delay(5);
        }
        Ok(())
    }
}

pub fn probe_x550em(family: Family) -> bool {
    x550em(family)
}

pub fn probe_mask(port: Port) -> u32 {
    mask(port)
}

pub fn probe_qsfp(port: Port) -> bool {
    qsfp(port)
}

pub fn probe_ones_add(a: u8, b: u8) -> u8 {
    ones_add(a, b)
}

/// Runs a well-formed script once. A byte goes to `out` once its
/// acknowledge bit is sent.
pub fn probe_script<Io: Registers>(
    io: &mut Io,
    port: Port,
    script: &[u8],
    out: &mut Vec<u8>,
) -> R<(), Io::Error> {
    let device = script[2] & 0xfe;
    attempt(io, port, device, &mut |bus| {
        let mut commands = script.iter();
        while let Some(command) = commands.next() {
            match command {
                0x10 => bus.start()?,
                0x20 => bus.send(device, *commands.next().expect("an operand"))?,
                0x30 | 0x31 => {
                    let byte = bus.in_byte()?;
                    bus.out_bit(*command == 0x31)?;
                    out.push(byte);
                }
                0x40 => bus.stop()?,
                other => panic!("no command {other:x}"),
            }
        }
        Ok(())
    })
}
