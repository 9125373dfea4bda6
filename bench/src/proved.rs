//! The proved library: what `crates/export` offers to a program that is not Rattle's.
//!
//! Each function hands over slices and numbers of its own and takes a number back, and none of them requires more than
//! its types say.

// As `crates/export/src` has them: a slice is a pointer and a length, and the `Global` that each takes first has no
// bytes, so nothing is passed for it.
mod foreign {
    extern "C" {
        pub fn export_rehearse(
            script: *const u8,
            script_len: usize,
            trace: *mut u8,
            trace_len: usize,
            size: &mut usize,
        ) -> u8;
        pub fn export_packets(length: usize, times: u64, sum: &mut u64) -> u8;
        pub fn export_through_ring(ring: usize, length: usize, times: u64, sum: &mut u64) -> u8;
        pub fn export_appends(memory: usize, length: usize, times: u64, sum: &mut u64) -> u8;
        pub fn export_reads(memory: usize, length: usize, times: u64, sum: &mut u64) -> u8;
        pub fn export_opens(memory: usize, length: usize, times: u64, sum: &mut u64) -> u8;
        pub fn export_copies(memory: usize, length: usize, times: u64, sum: &mut u64) -> u8;
        pub fn export_levels(memory: usize, length: usize, times: u64, sum: &mut u64) -> u8;
        pub fn export_levels_paced(
            pace: usize,
            memory: usize,
            length: usize,
            times: u64,
            sum: &mut u64,
        ) -> u8;
        pub fn export_lives(
            memory: usize,
            length: usize,
            held: usize,
            times: u64,
            sum: &mut u64,
        ) -> u8;
    }
}

/// What a call answered: what it made, or the number of its refusal.
pub type Answer<T> = Result<T, u8>;

const SHORT_BUFFER: u8 = 14;

/// The trace of a script, with words for people and its last line.
pub fn rehearse(script: &[u8]) -> Answer<Vec<u8>> {
    let mut trace = vec![0; 4 * script.len() + 65_536];
    loop {
        let mut size = 0;
        // SAFETY: both slices are whole, and are not used elsewhere during the call.
        let refusal = unsafe {
            foreign::export_rehearse(
                script.as_ptr(),
                script.len(),
                trace.as_mut_ptr(),
                trace.len(),
                &mut size,
            )
        };
        match refusal {
            0 => {
                trace.truncate(size);
                return Ok(trace);
            }
            SHORT_BUFFER => trace.resize(size, 0),
            number => return Err(number),
        }
    }
}

macro_rules! scenarios {
    ($($name:ident ( $($parameter:ident : $type:ty),* ) by $foreign:ident;)*) => {
        $(
            /// The scenario of this name.
            pub fn $name($($parameter: $type),*) -> Answer<u64> {
                let mut sum = 0;
                // SAFETY: it takes numbers, and a place for one that is not used elsewhere during the call.
                match unsafe { foreign::$foreign($($parameter,)* &mut sum) } {
                    0 => Ok(sum),
                    number => Err(number),
                }
            }
        )*
    };
}

scenarios! {
    packets(length: usize, times: u64) by export_packets;
    through_ring(ring: usize, length: usize, times: u64) by export_through_ring;
    appends(memory: usize, length: usize, times: u64) by export_appends;
    reads(memory: usize, length: usize, times: u64) by export_reads;
    opens(memory: usize, length: usize, times: u64) by export_opens;
    copies(memory: usize, length: usize, times: u64) by export_copies;
    levels(memory: usize, length: usize, times: u64) by export_levels;
    levels_paced(pace: usize, memory: usize, length: usize, times: u64) by export_levels_paced;
    lives(memory: usize, length: usize, held: usize, times: u64) by export_lives;
}
