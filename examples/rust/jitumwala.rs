//! The library's call with Rust's slices: the crate `face` of Jitumwala, linked as the archive `libface.a`.

/// Least lengths of what is lent: numbers of the store, bytes of the order, numbers of the answer.
pub const STORE: usize = 4608;
pub const ORDER: usize = 128;
pub const ANSWER: usize = 12;

extern "C" {
    fn jitumwala_judge(
        file: *const u8,
        file_length: usize,
        store: *mut u64,
        store_length: usize,
        order: *mut u8,
        order_length: usize,
        answer: *mut u32,
        answer_length: usize,
    ) -> bool;
}

/// Judges a drawing file; the twelve numbers are those of `include/jitumwala.h`.
pub fn judge(file: &[u8], store: &mut [u64], order: &mut [u8]) -> [u32; ANSWER] {
    let mut answer = [0; ANSWER];
    // Each pointer is a slice's, with its length, and no two overlap.
    let told = unsafe {
        jitumwala_judge(
            file.as_ptr(),
            file.len(),
            store.as_mut_ptr(),
            store.len(),
            order.as_mut_ptr(),
            order.len(),
            answer.as_mut_ptr(),
            answer.len(),
        )
    };
    assert!(told);
    answer
}
