//! The functions of the library, each also on another stack.

use crate::raw::Pages;
use second::loss::ROW_LENGTH;
use second::matching::pairs::Ask;
use second::Call;
use std::arch::asm;

type Function = unsafe extern "C" fn(*const u8, usize, *const u8, usize, *mut u8, usize) -> u64;
type Reader = unsafe extern "C" fn(*const u8, usize) -> u64;
type BurstFunction = unsafe extern "C" fn(
    *const u8,
    usize,
    *const u32,
    usize,
    *const u8,
    usize,
    *mut u8,
    usize,
    *mut u64,
    usize,
) -> u64;

/// `include/kawsarpa.h`.
mod header {
    extern "C" {
        pub fn kawsarpa_translate_ipv6(
            packet: *const u8,
            packet_len: usize,
            table: *const u8,
            table_len: usize,
            out: *mut u8,
            out_len: usize,
        ) -> u64;
        pub fn kawsarpa_translate_ipv4(
            packet: *const u8,
            packet_len: usize,
            table: *const u8,
            table_len: usize,
            out: *mut u8,
            out_len: usize,
        ) -> u64;
        pub fn kawsarpa_waypoint(
            packet: *const u8,
            packet_len: usize,
            table: *const u8,
            table_len: usize,
            out: *mut u8,
            out_len: usize,
        ) -> u64;
        pub fn kawsarpa_icmp_ipv6(
            packet: *const u8,
            packet_len: usize,
            table: *const u8,
            table_len: usize,
            out: *mut u8,
            out_len: usize,
        ) -> u64;
        pub fn kawsarpa_burst_ipv6(
            packets: *const u8,
            packets_len: usize,
            lengths: *const u32,
            count: usize,
            table: *const u8,
            table_len: usize,
            out: *mut u8,
            out_len: usize,
            answers: *mut u64,
            answers_count: usize,
        ) -> u64;
        pub fn kawsarpa_burst_ipv4(
            packets: *const u8,
            packets_len: usize,
            lengths: *const u32,
            count: usize,
            table: *const u8,
            table_len: usize,
            out: *mut u8,
            out_len: usize,
            answers: *mut u64,
            answers_count: usize,
        ) -> u64;
        pub fn kawsarpa_table_fault(table: *const u8, table_len: usize) -> u64;
        pub fn kawsarpa_loss_offer(rows: *mut u8, count: usize, teid: u32, number: u16) -> u64;
        pub fn kawsarpa_sequence_ipv6(packet: *const u8, packet_len: usize) -> u64;
        pub fn kawsarpa_sequence_ipv4(packet: *const u8, packet_len: usize) -> u64;
        pub fn kawsarpa_match_ipv6(
            near_table: *const u8,
            near_len: usize,
            index: usize,
            far_table: *const u8,
            far_len: usize,
        ) -> u64;
        pub fn kawsarpa_match_ipv4(
            near_table: *const u8,
            near_len: usize,
            index: usize,
            far_table: *const u8,
            far_len: usize,
        ) -> u64;
        pub fn kawsarpa_match_waypoint(
            table: *const u8,
            table_len: usize,
            sid: *const u8,
            sid_len: usize,
        ) -> u64;
    }
}

/// What the library exports for a packet, a table and an output.
#[derive(Clone, Copy, Debug, PartialEq, Eq)]
pub enum Export {
    Ipv6,
    Ipv4,
    Waypoint,
    /// The ICMPv6 message; the others translate.
    Icmp,
}

impl Export {
    pub const CALLS: [Export; 3] = [Export::Ipv6, Export::Ipv4, Export::Waypoint];

    pub fn name(self) -> &'static str {
        match self {
            Export::Ipv6 => "kawsarpa_translate_ipv6",
            Export::Ipv4 => "kawsarpa_translate_ipv4",
            Export::Waypoint => "kawsarpa_waypoint",
            Export::Icmp => "kawsarpa_icmp_ipv6",
        }
    }

    fn function(self) -> Function {
        match self {
            Export::Ipv6 => header::kawsarpa_translate_ipv6,
            Export::Ipv4 => header::kawsarpa_translate_ipv4,
            Export::Waypoint => header::kawsarpa_waypoint,
            Export::Icmp => header::kawsarpa_icmp_ipv6,
        }
    }

    pub fn call(self, packet: &[u8], table: &[u8], out: &mut [u8]) -> u64 {
        let (packet_len, table_len, out_len) = (packet.len(), table.len(), out.len());
        // SAFETY: slices are what the header asks for: not null, valid for their
        // counts, the output apart from the others, which do not change.
        unsafe {
            self.function()(
                packet.as_ptr(),
                packet_len,
                table.as_ptr(),
                table_len,
                out.as_mut_ptr(),
                out_len,
            )
        }
    }

    /// The call with the stack pointer at the end of these pages.
    pub fn call_on(self, stack: &mut Pages, packet: &[u8], table: &[u8], out: &mut [u8]) -> u64 {
        let arguments = [
            packet.as_ptr() as u64,
            packet.len() as u64,
            table.as_ptr() as u64,
            table.len() as u64,
            out.as_mut_ptr() as u64,
            out.len() as u64,
        ];
        // SAFETY: as in `call`.
        unsafe { call_on(stack, self.function() as *const (), arguments) }
    }
}

fn burst_function(call: Call) -> BurstFunction {
    match call {
        Call::Ipv6 => header::kawsarpa_burst_ipv6,
        Call::Ipv4 => header::kawsarpa_burst_ipv4,
    }
}

pub fn burst_name(call: Call) -> &'static str {
    match call {
        Call::Ipv6 => "kawsarpa_burst_ipv6",
        Call::Ipv4 => "kawsarpa_burst_ipv4",
    }
}

/// One call for all packets.
pub fn burst(
    call: Call,
    packets: &[u8],
    lengths: &[u32],
    table: &[u8],
    out: &mut [u8],
    answers: &mut [u64],
) -> u64 {
    // SAFETY: slices are what the header asks for, output and answers apart from the others
    // and from each other.
    unsafe {
        burst_function(call)(
            packets.as_ptr(),
            packets.len(),
            lengths.as_ptr(),
            lengths.len(),
            table.as_ptr(),
            table.len(),
            out.as_mut_ptr(),
            out.len(),
            answers.as_mut_ptr(),
            answers.len(),
        )
    }
}

/// Octets of the arguments that a burst has on the stack, in its caller's frame.
pub const BURST_STACKED: usize = 32;

/// The same with the stack pointer at the end of these pages, but for those arguments.
pub fn burst_on(
    stack: &mut Pages,
    call: Call,
    packets: &[u8],
    lengths: &[u32],
    table: &[u8],
    out: &mut [u8],
    answers: &mut [u64],
) -> u64 {
    let arguments = [
        packets.as_ptr() as u64,
        packets.len() as u64,
        lengths.as_ptr() as u64,
        lengths.len() as u64,
        table.as_ptr() as u64,
        table.len() as u64,
    ];
    let stacked = [
        out.as_mut_ptr() as u64,
        out.len() as u64,
        answers.as_mut_ptr() as u64,
        answers.len() as u64,
    ];
    let place = stack.octets().last_chunk_mut().expect("room for them");
    *place = stacked_octets(stacked);
    // SAFETY: as in `burst`; the other arguments lie where the ABI has them.
    unsafe {
        call_below(
            stack,
            BURST_STACKED,
            burst_function(call) as *const (),
            arguments,
        )
    }
}

fn stacked_octets(arguments: [u64; 4]) -> [u8; BURST_STACKED] {
    let mut octets = [0; BURST_STACKED];
    for (place, argument) in octets.chunks_exact_mut(8).zip(arguments) {
        place.copy_from_slice(&argument.to_le_bytes());
    }
    octets
}

/// The fault of a table.
pub fn table_fault(table: &[u8]) -> u64 {
    // SAFETY: a slice is what the header asks for: not null, valid for its count.
    unsafe { header::kawsarpa_table_fault(table.as_ptr(), table.len()) }
}

pub fn match_name(ask: Ask) -> &'static str {
    match ask {
        Ask::Ipv6 => "kawsarpa_match_ipv6",
        Ask::Ipv4 => "kawsarpa_match_ipv4",
        Ask::Waypoint => "kawsarpa_match_waypoint",
    }
}

/// The mismatch of two tables, or of a waypoint's table and a SID.
pub fn mismatch(ask: Ask, table: &[u8], index: u64, other: &[u8]) -> u64 {
    let (at, length) = (table.as_ptr(), table.len());
    let (other, other_length) = (other.as_ptr(), other.len());
    let index = index as usize;
    // SAFETY: slices are what the header asks for.
    unsafe {
        match ask {
            Ask::Ipv6 => header::kawsarpa_match_ipv6(at, length, index, other, other_length),
            Ask::Ipv4 => header::kawsarpa_match_ipv4(at, length, index, other, other_length),
            Ask::Waypoint => header::kawsarpa_match_waypoint(at, length, other, other_length),
        }
    }
}

/// The same with the stack pointer at the end of these pages.
pub fn mismatch_on(stack: &mut Pages, ask: Ask, table: &[u8], index: u64, other: &[u8]) -> u64 {
    let (at, length) = (table.as_ptr() as u64, table.len() as u64);
    let (other, other_length) = (other.as_ptr() as u64, other.len() as u64);
    let of_ends = [at, length, index, other, other_length, 0];
    let (function, arguments) = match ask {
        Ask::Ipv6 => (header::kawsarpa_match_ipv6 as *const (), of_ends),
        Ask::Ipv4 => (header::kawsarpa_match_ipv4 as *const (), of_ends),
        Ask::Waypoint => (
            header::kawsarpa_match_waypoint as *const (),
            [at, length, other, other_length, 0, 0],
        ),
    };
    // SAFETY: as in `mismatch`.
    unsafe { call_on(stack, function, arguments) }
}

/// How many rows the octets are. An offer is owed whole rows, aligned as the struct is.
fn row_count(octets: &[u8]) -> usize {
    assert!(octets.as_ptr().cast::<u64>().is_aligned());
    assert!(octets.len().is_multiple_of(ROW_LENGTH));
    octets.len() / ROW_LENGTH
}

pub const LOSS_OFFER: &str = "kawsarpa_loss_offer";

/// A number offered to the rows of these octets.
pub fn loss_offer(rows: &mut [u8], teid: u32, number: u16) -> u64 {
    let count = row_count(rows);
    // SAFETY: as the header asks: aligned, valid for the count, nobody else's.
    unsafe { header::kawsarpa_loss_offer(rows.as_mut_ptr(), count, teid, number) }
}

/// What stands in the upper half of a register with a shorter argument: by the ABI
/// anything, so nothing may depend on it.
const UPPER_HALF: u64 = 0xa5a5_a5a5 << 32;

/// The same with the stack pointer at the end of these pages.
pub fn loss_offer_on(stack: &mut Pages, rows: &mut [u8], teid: u32, number: u16) -> u64 {
    let arguments = [
        rows.as_mut_ptr() as u64,
        row_count(rows) as u64,
        UPPER_HALF | u64::from(teid),
        UPPER_HALF | u64::from(number),
        0,
        0,
    ];
    let function = header::kawsarpa_loss_offer as *const ();
    // SAFETY: as in `loss_offer`.
    unsafe { call_on(stack, function, arguments) }
}

/// The reader of sequence numbers in the packets of a call.
fn reader(call: Call) -> Reader {
    match call {
        Call::Ipv6 => header::kawsarpa_sequence_ipv6,
        Call::Ipv4 => header::kawsarpa_sequence_ipv4,
    }
}

pub fn reader_name(call: Call) -> &'static str {
    match call {
        Call::Ipv6 => "kawsarpa_sequence_ipv6",
        Call::Ipv4 => "kawsarpa_sequence_ipv4",
    }
}

/// What the reader gives.
pub fn sequence(call: Call, packet: &[u8]) -> u64 {
    // SAFETY: a slice is what the header asks for.
    unsafe { reader(call)(packet.as_ptr(), packet.len()) }
}

/// The same with the stack pointer at the end of these pages.
pub fn sequence_on(stack: &mut Pages, call: Call, packet: &[u8]) -> u64 {
    let (at, length) = (packet.as_ptr() as u64, packet.len() as u64);
    // SAFETY: as in `sequence`.
    unsafe { call_on(stack, reader(call) as *const (), [at, length, 0, 0, 0, 0]) }
}

/// Calls a function with the stack pointer at the end of these pages.
///
/// # Safety
/// The arguments, in the order of the ABI's registers, are what the function is owed.
unsafe fn call_on(stack: &mut Pages, function: *const (), arguments: [u64; 6]) -> u64 {
    // SAFETY: as of this function.
    unsafe { call_below(stack, 0, function, arguments) }
}

/// The same below so many octets at their end, a multiple of 16.
///
/// # Safety
/// As of `call_on`, and further arguments stand in those octets.
unsafe fn call_below(
    stack: &mut Pages,
    stacked: usize,
    function: *const (),
    arguments: [u64; 6],
) -> u64 {
    let used = stack.size() - stacked;
    let top = stack.octets()[..used].as_mut_ptr_range().end;
    let answer: u64;
    // SAFETY: the stack pointer is a multiple of 16 as the ABI asks, r12 keeps the old
    // one because a callee preserves it, and a call that needs more stack than the pages
    // have meets those before them.
    unsafe {
        asm!(
            "xchg rsp, r12",
            "call {function}",
            "mov rsp, r12",
            function = in(reg) function,
            inout("r12") top => _,
            in("rdi") arguments[0],
            in("rsi") arguments[1],
            in("rdx") arguments[2],
            in("rcx") arguments[3],
            in("r8") arguments[4],
            in("r9") arguments[5],
            lateout("rax") answer,
            clobber_abi("C"),
        );
    }
    answer
}
