//! The types that the calls share with the rest of a driver, as the original's `hardware.rs` has them.

/// What touches the registers of a port.
pub trait Registers {
    /// The error of a failed access.
    type Error;
    /// The value of the register at `offset`.
    fn read(&mut self, offset: u32) -> Result<u32, Self::Error>;
    /// Writes `value` to the register at `offset`.
    fn write(&mut self, offset: u32, value: u32) -> Result<(), Self::Error>;
    /// Waits so many microseconds.
    fn delay_us(&mut self, micros: usize);
}

/// Why a call failed. The calls of this crate give [`Io`](Error::Io), [`Removed`](Error::Removed),
/// [`InvalidPort`](Error::InvalidPort), [`Semaphore`](Error::Semaphore), [`I2c`](Error::I2c),
/// [`HostInterface`](Error::HostInterface), [`Firmware`](Error::Firmware) and [`Refused`](Error::Refused); the other
/// variants are those of the original's enum, for the rest of a driver.
#[derive(Clone, Copy, Debug, PartialEq, Eq)]
pub enum Error<E> {
    /// An access failed with this error: the last that failed; but where the body of a firmware command failed, an access
    /// that fails while its lock is given back does not count.
    Io(E),
    /// A register was not as expected in time.
    Timeout {
        /// The register.
        register: u32,
        /// The bits that were awaited.
        mask: u32,
        /// What they were to be.
        expected: u32,
        /// The value last read.
        last: u32,
    },
    /// A register read FFFFFFFF: the card is gone.
    Removed,
    /// Virtual functions are enabled.
    VirtualizationActive,
    /// The port number is neither 0 nor 1.
    InvalidPort,
    /// The NVM is missing.
    MissingNvm,
    /// The NVM's MAC address is none.
    InvalidMac,
    /// A lock was still held after the bounded wait. It is never taken from its owner.
    Semaphore {
        /// The bits that were held.
        held: u32,
    },
    /// The X552's sideband gave an error.
    Sideband {
        /// The address.
        address: u32,
        /// The control word.
        ctrl: u32,
    },
    /// The module bus: a device did not acknowledge, or the bus was not granted or not free.
    I2c {
        /// Its 8-bit address.
        device: u8,
    },
    /// The CS4227 did not load its image.
    Cs4227 {
        /// The register.
        register: u16,
        /// The value last read.
        value: u16,
    },
    /// No external PHY answered.
    NoPhy,
    /// The firmware's host interface is disabled, a command did not complete, or its response did not fit.
    HostInterface {
        /// HICR as last read.
        hicr: u32,
    },
    /// A firmware command completed with a failing status.
    Firmware {
        /// The command.
        command: u8,
        /// The status.
        status: u8,
    },
    /// A reset of the PHY did not end.
    PhyReset,
    /// The NVM has no init sequence for the module.
    NoInitSequence {
        /// The key that was looked up.
        key: u16,
    },
    /// A pipeline reset of the 82599 did not start.
    PipelineReset,
    /// A frame of a length that is not allowed.
    FrameLength {
        /// The length in bytes.
        len: usize,
    },
    /// The call did not take its arguments; no access was made. See [`Next::Refused`](crate::Next::Refused) for the numbers;
    /// 2 appears as [`InvalidPort`](Error::InvalidPort). Or a failure that this crate does not know, which an archive that is
    /// not its own can give; the numbers of failures are 20 and above.
    Refused {
        /// The number of the question that was answered with no, or of the failure.
        number: u32,
    },
}

/// A value, or why there is none.
pub type R<T, E> = Result<T, Error<E>>;

/// Controller family.
#[derive(Clone, Copy, Debug, PartialEq, Eq)]
pub enum Family {
    /// 82599.
    F82599,
    /// X540.
    X540,
    /// X550.
    X550,
    /// X552.
    X552,
    /// X553.
    X553,
}

impl Family {
    /// The X540 and the X550, whose copper PHY is integrated.
    pub fn integrated_copper(self) -> bool {
        matches!(self, Family::X540 | Family::X550)
    }

    /// The X552 and the X553.
    pub(crate) fn x550em(self) -> bool {
        matches!(self, Family::X552 | Family::X553)
    }
}

/// The function of the card that a call is for.
#[derive(Clone, Copy, Debug, PartialEq, Eq)]
pub struct Port {
    /// Its family.
    pub family: Family,
    /// Its PCI device.
    pub device: u16,
    /// Its port number, 0 or 1.
    pub lan: u8,
}
