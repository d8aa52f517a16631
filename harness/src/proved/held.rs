//! The proved search for the biggest complete interval of held chunks around a
//! chunk, through the C function of `libheld_c.a`. It requires nothing: any map
//! and numbers get an answer.

unsafe extern "C" {
    fn held_interval(addressing: u32, map: *const u32, map_n: usize, n: u32, c: u32) -> u64;
}

/// The first and the last chunk of the biggest complete interval around one of
/// `count` chunks, under a method, whose number may be any: all but that of bins
/// count as ranges. The map has a bit for each chunk, low bit first.
#[inline]
pub fn interval(method: u32, map: &[u32], count: u32, chunk: u32) -> (u32, u32) {
    // SAFETY: the pointer stands for a slice of the length behind it.
    let found = unsafe { held_interval(method, map.as_ptr(), map.len(), count, chunk) };
    (found as u32, (found >> 32) as u32)
}
