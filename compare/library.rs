//! The proved library as the linker finds it, behind one safe call.

extern "C" {
    fn volleyholly_run(
        pile: u32,
        memory: *mut u8,
        memory_len: usize,
        clocks: u32,
        list: *const u8,
        list_len: usize,
        results: *mut u8,
        results_len: usize,
    ) -> u32;
}

/// The host call of the library. It takes what the host call of the model takes.
#[allow(unsafe_code)]
pub fn host_call(pile: u32, memory: &mut [u8], clocks: u32, list: &[u8], results: &mut [u8]) -> u32 {
    // Slices are never null, and the borrows keep the three apart.
    unsafe {
        volleyholly_run(
            pile,
            memory.as_mut_ptr(),
            memory.len(),
            clocks,
            list.as_ptr(),
            list.len(),
            results.as_mut_ptr(),
            results.len(),
        )
    }
}
