//! The exports of libtest_probe.a. Two take lists of poses of seven doubles each, whatever numbers they have, and reply 0. Two obey a whole stream and
//! reply how many bytes it prints. Where the reply is 5 or 13 times 2^32 nothing is written: for doubles that are not seven a pose, or too little room.

mod ffi {
    extern "C" {
        pub fn probe_product(poses: *const f64, poses_len: usize, product: *mut f64, product_len: usize) -> u64;
        pub fn probe_inverses(poses: *const f64, poses_len: usize, inverses: *mut f64, inverses_len: usize) -> u64;
        pub fn probe_stream(stream: *const u8, stream_len: usize, text: *mut u8, text_len: usize) -> u64;
        pub fn probe_calls(stream: *const u8, stream_len: usize, text: *mut u8, text_len: usize) -> u64;
    }
}

/// The product of the poses, in order, into the first seven doubles; of none the identity.
pub fn product(poses: &[f64], product: &mut [f64]) -> u64 {
    unsafe { ffi::probe_product(poses.as_ptr(), poses.len(), product.as_mut_ptr(), product.len()) }
}

/// The inverse of each pose, each at its own place.
pub fn inverses(poses: &[f64], inverses: &mut [f64]) -> u64 {
    unsafe { ffi::probe_inverses(poses.as_ptr(), poses.len(), inverses.as_mut_ptr(), inverses.len()) }
}

/// The whole stream obeyed from a fresh session on, by calls of the whole-stream entry, which each print to the front of the text.
pub fn stream(stream: &[u8], text: &mut [u8]) -> u64 {
    unsafe { ffi::probe_stream(stream.as_ptr(), stream.len(), text.as_mut_ptr(), text.len()) }
}

/// The same by calls for one command each, which print one behind the other, and from the front again where the room may be too little.
pub fn calls(stream: &[u8], text: &mut [u8]) -> u64 {
    unsafe { ffi::probe_calls(stream.as_ptr(), stream.len(), text.as_mut_ptr(), text.len()) }
}
