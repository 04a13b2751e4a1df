//! The identification of modules, as the original's `sfp.rs` has it.

use crate::call::{Call, Metered, Sequence, Value, number};
use crate::{Family, Port, R, Registers, abi, numbers};

/// The class of a module.
#[derive(Clone, Copy, Debug, PartialEq, Eq)]
pub enum Kind {
    /// A passive copper cable.
    DaCu,
    /// An active cable with a limiting amplifier.
    DaActiveLimiting,
    /// 10GBASE-SR or -LR.
    SrLr,
    /// 1000BASE-T.
    Cu1g,
    /// 1000BASE-SX.
    Sx1g,
    /// 1000BASE-LX.
    Lx1g,
    /// 10G in both directions on one fibre.
    Bx10g,
    /// 1G in both directions on one fibre.
    Bx1g,
    /// None of these.
    Unknown,
    /// Nothing answered.
    NotPresent,
}

impl Kind {
    fn of(number: u32) -> Self {
        match number {
            0 => Kind::DaCu,
            1 => Kind::DaActiveLimiting,
            2 => Kind::SrLr,
            3 => Kind::Cu1g,
            4 => Kind::Sx1g,
            5 => Kind::Lx1g,
            6 => Kind::Bx10g,
            7 => Kind::Bx1g,
            8 => Kind::Unknown,
            // 9; only an archive that is not this crate's has others.
            _ => Kind::NotPresent,
        }
    }
}

/// What is recorded of a module.
#[derive(Clone, Copy, Debug, PartialEq, Eq)]
pub struct Module {
    /// Its class.
    pub kind: Kind,
    /// 10G is tried and then 1G.
    pub multispeed: bool,
    /// Byte 0.
    pub identifier: u8,
    /// Byte 3 (QSFP: 83).
    pub comp_10g: u8,
    /// Byte 6 (QSFP: 86).
    pub comp_1g: u8,
    /// Byte 8 (QSFP: 0).
    pub cable: u8,
}

impl Module {
    /// Something answered.
    pub fn present(self) -> bool {
        self.kind != Kind::NotPresent
    }

    /// A module for 1G only.
    pub fn one_gig(self) -> bool {
        matches!(self.kind, Kind::Cu1g | Kind::Sx1g | Kind::Lx1g | Kind::Bx1g)
    }

    /// A passive copper cable.
    pub fn linear(self) -> bool {
        self.kind == Kind::DaCu
    }

    /// The family takes modules of this kind: all but `Unknown` and `NotPresent`, and on the X552 and the X553 not `Cu1g`.
    pub fn supported(self, family: Family) -> bool {
        match self.kind {
            Kind::Unknown | Kind::NotPresent => false,
            Kind::Cu1g => !family.x550em(),
            _ => true,
        }
    }

    /// The key of the 82599's init sequence in the NVM: passive copper has its own, every other supported kind that of SR and
    /// LR.
    pub fn nvm_key(self, lan: u8) -> Option<u16> {
        let first = match self.kind {
            Kind::Unknown | Kind::NotPresent => return None,
            Kind::DaCu => 3,
            _ => 5,
        };
        Some(first + u16::from(lan))
    }
}

impl Value for Module {
    fn of(next: &abi::Next) -> Module {
        Module {
            kind: Kind::of(next.first),
            multispeed: next.second != 0,
            identifier: next.third as u8,
            comp_10g: next.fourth as u8,
            comp_1g: next.fifth as u8,
            cable: next.sixth as u8,
        }
    }
}

/// Identifies an SFP+ module (SFF-8472).
pub fn identify<Io: Registers>(io: &mut Io, port: Port) -> R<Module, Io::Error> {
    identify_metered(io, port, None).result
}

/// [`identify`] with this sequence.
pub fn identify_with<Io: Registers>(io: &mut Io, port: Port, sequence: Sequence) -> R<Module, Io::Error> {
    identify_metered(io, port, Some(sequence)).result
}

/// [`identify`], metered.
pub fn identify_metered<Io: Registers>(
    io: &mut Io,
    port: Port,
    sequence: Option<Sequence>,
) -> Metered<R<Module, Io::Error>> {
    identify_open(port, sequence).run(io)
}

/// [`identify`], to be stepped.
pub fn identify_open(port: Port, sequence: Option<Sequence>) -> Call<Module> {
    let (family, pci, lan) = numbers(port);
    Call::of(abi::sulfryk_identify_open(family, pci, lan, number(sequence)))
}

/// Identifies a QSFP+ module (SFF-8636).
pub fn identify_qsfp<Io: Registers>(io: &mut Io, port: Port) -> R<Module, Io::Error> {
    identify_qsfp_metered(io, port, None).result
}

/// [`identify_qsfp`] with this sequence.
pub fn identify_qsfp_with<Io: Registers>(
    io: &mut Io,
    port: Port,
    sequence: Sequence,
) -> R<Module, Io::Error> {
    identify_qsfp_metered(io, port, Some(sequence)).result
}

/// [`identify_qsfp`], metered.
pub fn identify_qsfp_metered<Io: Registers>(
    io: &mut Io,
    port: Port,
    sequence: Option<Sequence>,
) -> Metered<R<Module, Io::Error>> {
    identify_qsfp_open(port, sequence).run(io)
}

/// [`identify_qsfp`], to be stepped.
pub fn identify_qsfp_open(port: Port, sequence: Option<Sequence>) -> Call<Module> {
    let (family, pci, lan) = numbers(port);
    Call::of(abi::sulfryk_identify_qsfp_open(family, pci, lan, number(sequence)))
}

/// Selects 10G (`ten`) or 1G by bit 3 of bytes 6E and 76 of page A2. A failure of the bus is no error: the result says
/// whether both bytes were written.
pub fn soft_rate_select<Io: Registers>(io: &mut Io, port: Port, ten: bool) -> R<bool, Io::Error> {
    soft_rate_select_metered(io, port, ten, None).result
}

/// [`soft_rate_select`] with this sequence.
pub fn soft_rate_select_with<Io: Registers>(
    io: &mut Io,
    port: Port,
    ten: bool,
    sequence: Sequence,
) -> R<bool, Io::Error> {
    soft_rate_select_metered(io, port, ten, Some(sequence)).result
}

/// [`soft_rate_select`], metered.
pub fn soft_rate_select_metered<Io: Registers>(
    io: &mut Io,
    port: Port,
    ten: bool,
    sequence: Option<Sequence>,
) -> Metered<R<bool, Io::Error>> {
    soft_rate_select_open(port, ten, sequence).run(io)
}

/// [`soft_rate_select`], to be stepped.
pub fn soft_rate_select_open(port: Port, ten: bool, sequence: Option<Sequence>) -> Call<bool> {
    let (family, pci, lan) = numbers(port);
    Call::of(abi::sulfryk_soft_rate_select_open(family, pci, lan, ten, number(sequence)))
}
