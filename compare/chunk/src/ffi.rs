//! What libchunk.a, the archive of crates/chunk_c, and real.c export.

#[repr(C)]
#[derive(Clone, Copy, PartialEq, Eq, Debug)]
pub struct Counts {
    pub number: u64,
    pub place: u64,
    pub words: u64,
    pub constants: u64,
    pub names: u64,
}

#[repr(C)]
struct Shown {
    numbers: [u64; 5],
}

extern "C" {
    fn lawendeb_chunk_count(chunk: *const u8, n: usize, k: usize) -> Counts;
    #[allow(clippy::too_many_arguments)]
    fn lawendeb_chunk_fill(
        chunk: *const u8,
        n: usize,
        k: usize,
        words: *mut u32,
        words_n: usize,
        tags: *mut u8,
        tags_n: usize,
        payloads: *mut u64,
        payloads_n: usize,
        names: *mut u64,
        names_n: usize,
    ) -> Counts;
    #[allow(clippy::too_many_arguments)]
    fn lawendeb_upvalue_name(
        chunk: *const u8,
        n: usize,
        own: *const u64,
        own_n: usize,
        list: *const u8,
        list_n: usize,
        other: *const u64,
        other_n: usize,
        index: usize,
    ) -> Shown;
}

pub fn count(chunk: &[u8], k: usize) -> Counts {
    unsafe { lawendeb_chunk_count(chunk.as_ptr(), chunk.len(), k) }
}

pub fn fill(chunk: &[u8], k: usize, words: &mut [u32], tags: &mut [u8], payloads: &mut [u64], names: &mut [u64]) -> Counts {
    unsafe {
        lawendeb_chunk_fill(
            chunk.as_ptr(),
            chunk.len(),
            k,
            words.as_mut_ptr(),
            words.len(),
            tags.as_mut_ptr(),
            tags.len(),
            payloads.as_mut_ptr(),
            payloads.len(),
            names.as_mut_ptr(),
            names.len(),
        )
    }
}

pub fn shown(chunk: &[u8], own: &[u64], list: &[u8], other: &[u64], index: usize) -> [u64; 5] {
    unsafe {
        lawendeb_upvalue_name(
            chunk.as_ptr(),
            chunk.len(),
            own.as_ptr(),
            own.len(),
            list.as_ptr(),
            list.len(),
            other.as_ptr(),
            other.len(),
            index,
        )
        .numbers
    }
}

/// Lua's own loader, where it was built in.
#[cfg(lua)]
pub mod real {
    #[repr(C)]
    pub struct State {
        _private: [u8; 0],
    }

    extern "C" {
        fn real_load(bytes: *const u8, n: usize, out: *mut *mut u8, size: *mut usize) -> i32;
        fn real_free(p: *mut u8);
        fn real_compile(text: *const u8, n: usize, strip: i32, out: *mut *mut u8, size: *mut usize) -> i32;
        pub fn real_open() -> *mut State;
        pub fn real_again(state: *mut State, bytes: *const u8, n: usize) -> i32;
        pub fn real_close(state: *mut State);
    }

    unsafe fn taken(out: *mut u8, size: usize) -> Vec<u8> {
        let bytes = std::slice::from_raw_parts(out, size).to_vec();
        real_free(out);
        bytes
    }

    /// What the loader made of a chunk, or none.
    pub fn load(bytes: &[u8]) -> Option<Vec<u8>> {
        let (mut out, mut size) = (std::ptr::null_mut(), 0);
        unsafe { (real_load(bytes.as_ptr(), bytes.len(), &mut out, &mut size) == 0).then(|| taken(out, size)) }
    }

    pub fn compile(text: &[u8], strip: bool) -> Vec<u8> {
        let (mut out, mut size) = (std::ptr::null_mut(), 0);
        unsafe {
            assert!(real_compile(text.as_ptr(), text.len(), i32::from(strip), &mut out, &mut size) != 0, "a script does not compile");
            taken(out, size)
        }
    }
}
