//! The groups of pages.

use super::sfp::*;
use super::transfers::*;
use super::*;
use crate::driver::STATUS;
use crate::page::BYTES;

pub const FORMS: [u32; 2] = [PAGE, QSFP_PAGE];

pub fn add(list: &mut List) {
    pages(list);
    page_attempts(list);
    page_faults(list);
    refused_bytes(list);
    lost_pages(list);
    unread_sums(list);
}

/// The ports, those of the 82599 with PCI device 1558 too.
pub fn ports() -> Vec<(Family, u32, u32)> {
    let usual_ports = every_port().map(|(family, lan)| (family, lan, usual(family)));
    usual_ports.chain([0, 1].map(|lan| (Family::F82599, lan, QSFP_DEVICE))).collect()
}

/// A port, another for each number.
pub fn port(number: usize) -> (Family, u32, u32) {
    let all = ports();
    all[number % all.len()]
}

impl List {
    /// A page going well; the sums are wrong by `shape`.
    pub fn page(&mut self, function: u32, port: (Family, u32, u32), attempts: u32, shape: u32) -> Case {
        let (family, lan, device) = port;
        let call = Call { function, args: [attempts, self.word(), shape] };
        self.over(call, family, lan, device, locks(family, lan))
    }
}

/// Both sums right, wrong singly and together, at every port.
fn pages(list: &mut List) {
    for port in ports() {
        for function in FORMS {
            for shape in 0..4 {
                let case = list.page(function, port, attempts(port.0), shape);
                list.push(case);
            }
        }
    }
}

/// The numbers of attempts: the page going well; one byte acknowledged at the
/// last attempt only.
fn page_attempts(list: &mut List) {
    for (i, port) in ports().into_iter().enumerate() {
        for attempts in [0, 1, 4, 11, 255] {
            let case = list.page(FORMS[i % 2], port, attempts, 0);
            list.push(case.clone());
            if attempts > 1 {
                let request = &requests(&case)[(7 * i + attempts as usize) % BYTES];
                list.push(refused(&case, request.number, attempts - 1));
            }
        }
    }
}

/// Each byte of each form: an access of its locks failing, one of its
/// transfer, and a read of its locks all ones.
fn page_faults(list: &mut List) {
    for (f, function) in FORMS.into_iter().enumerate() {
        for byte in 0..BYTES {
            let port = port(5 * byte + f);
            let case = list.page(function, port, attempts(port.0), 0);
            let log = log(&case);
            let all = requests(&case);
            let from = if byte == 0 { 0 } else { all[byte - 1].last + 1 };
            let fails = |at: &usize| !matches!(log[*at], Access::Wait(_));
            let reads = |at: &usize| matches!(log[*at], Access::Read(r, _) if r != STATUS);
            let before: Vec<usize> = (from..all[byte].first).collect();
            let Request { first, last, .. } = all[byte];
            let within = first + list.word() as usize % (last - first);
            let lock = before.iter().copied().filter(fails).nth(list.word() as usize % 4);
            for at in [lock, (within..=last).find(fails)].into_iter().flatten() {
                list.push(failing(&case, at));
            }
            if let Some(at) = before.iter().copied().rev().find(reads) {
                list.push(ones(&case, at));
            }
        }
    }
}

/// Each byte of each form not acknowledged at any attempt, of one and of four.
fn refused_bytes(list: &mut List) {
    for (f, function) in FORMS.into_iter().enumerate() {
        for byte in 0..BYTES {
            for attempts in [1, 4] {
                let case = list.page(function, port(7 * byte + f + attempts as usize), attempts, 0);
                let number = requests(&case)[byte].number;
                list.push(sda_high(&case, number, NEVER));
            }
        }
    }
}

/// The resource lost after some bytes, in each family.
fn lost_pages(list: &mut List) {
    for (f, family) in FAMILIES.into_iter().enumerate() {
        for (k, function) in [(0, PAGE), (1, QSFP_PAGE), (40, PAGE), (95, QSFP_PAGE)] {
            let lan = (f as u32 + k) % 2;
            let mut case = list.page(function, (family, lan, usual(family)), attempts(family), 0);
            let mask = transfer_mask(family, lan);
            let held = sync_held(family, mask, sync::phy(lan as u8));
            let reads = sync_reads(family) * 2 * k;
            case.rules = vec![
                always(swsm(family), swsm_granted(family)),
                until(sw_fw_sync(family), reads, sync_free(family, mask), held),
            ];
            list.push(case);
        }
    }
}

/// The first sum wrong, or both, and a byte behind it that is not read: never
/// acknowledged, or an access of its transfer failing.
fn unread_sums(list: &mut List) {
    for (f, function) in FORMS.into_iter().enumerate() {
        for (i, byte) in [64, 71, 80, 94, 95].into_iter().enumerate() {
            for shape in [1, 3] {
                let port = port(5 * f + 2 * i + shape as usize);
                let case = list.page(function, port, attempts(port.0), shape);
                let Request { first, number, .. } = requests(&case)[byte];
                let never = (f + i) % 2 == 0;
                let unread = if never { sda_high(&case, number, NEVER) } else { failing(&case, first) };
                list.push(unread);
            }
        }
    }
}
