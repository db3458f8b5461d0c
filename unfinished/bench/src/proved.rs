//! The proved engine, linked as a static library. The one place with `unsafe`.

/// Whether the library is linked.
pub const LINKED: bool = cfg!(feature = "proved");

#[cfg(feature = "proved")]
mod library {
    #![allow(unsafe_code)]

    unsafe extern "C" {
        // A `&[u8]` passes as a pointer and a length. Runs the script `repeat` times, each from a fresh workbook,
        // and writes the transcript into the front of `output`. Answers its length, or more than `output_len`
        // where it does not fit.
        fn batch_run(
            input: *const u8,
            input_len: usize,
            output: *mut u8,
            output_len: usize,
            repeat: usize,
        ) -> usize;
    }

    // A script of 60,000 bytes has at most 7,500 queries, each with at most 256 lines of 16 bytes behind its own.
    const ROOM: usize = 32 << 20;

    /// Puts the transcript of a script behind what is printed already.
    pub fn run(script: &[u8], out: &mut Vec<u8>) {
        let start = out.len();
        let mut room = out.capacity().max(start + 64) - start;
        loop {
            out.resize(start + room, 0);
            let place = &mut out[start..];
            // SAFETY: both slices are valid for their lengths, and the library keeps neither.
            let len = unsafe { batch_run(script.as_ptr(), script.len(), place.as_mut_ptr(), place.len(), 1) };
            if len <= room {
                out.truncate(start + len);
                return;
            }
            assert!(room < ROOM, "the proved engine printed more than a script can call for");
            room *= 4;
        }
    }
}

#[cfg(feature = "proved")]
pub use library::run;

#[cfg(not(feature = "proved"))]
pub fn run(_script: &[u8], _out: &mut Vec<u8>) {
    unreachable!("the engine is named only where it is linked");
}
