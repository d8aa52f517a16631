//! The proved layout checks of datagrams, through the C function of
//! `libwire_c.a`. It requires nothing: any bytes and rooms get an answer.

/// The words that `layout` writes of what it finds.
pub const LAID_WORDS: usize = 6;

/// The words of the room for entries, at least.
pub const ENTRY_WORDS: usize = 110;

unsafe extern "C" {
    fn wire_layout(
        addressing: u32,
        datagram: *const u8,
        datagram_n: usize,
        entries: *mut u64,
        entries_n: usize,
        out: *mut u64,
        out_n: usize,
    ) -> u32;
}

/// The number of a datagram's layout under a method, whose number may be any:
/// all but that of bins count as ranges. Unless it is refused, `out` gets 1 for a
/// HANDSHAKE alone, 2 for messages without DATA or 3 for messages with DATA;
/// four words for the fields of that HANDSHAKE or DATA; and how many words of
/// `entries` are written.
#[inline]
pub fn layout(method: u32, datagram: &[u8], entries: &mut [u64], out: &mut [u64]) -> u32 {
    // SAFETY: each pointer stands for a slice of the length behind it, and
    // nothing else refers to those that are written.
    unsafe {
        wire_layout(
            method,
            datagram.as_ptr(),
            datagram.len(),
            entries.as_mut_ptr(),
            entries.len(),
            out.as_mut_ptr(),
            out.len(),
        )
    }
}
