// Appended to the original's `sync` by changes.rs: its private functions.

pub fn probe_lock<Io: Registers>(io: &mut Io, family: Family) -> R<(), Io::Error> {
    lock(io, family)
}

pub fn probe_unlock<Io: Registers>(io: &mut Io, family: Family) -> R<(), Io::Error> {
    unlock(io, family)
}

pub fn probe_regs(family: Family) -> (u32, u32) {
    regs(family)
}

pub fn probe_bits(family: Family, mask: u32) -> (u32, u32, u32) {
    bits(family, mask)
}
