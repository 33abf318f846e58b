//! The archive's functions as they are, and over slices with the numbers as they come. `include/yarvelow.h` says what each does.

extern "C" {
    /// Writes the image of a fresh table: number + 256 * the image's length.
    pub fn yarvelow_fresh(d: u64, room: *mut u8, length: usize) -> u64;
    /// The reader's answer. Of BAD TABLE here and below: 1 + 256 * kind + 65536 * port + 16777216 * place.
    pub fn yarvelow_check(image: *const u8, length: usize) -> u64;
    /// Carries out an event: number + 256 * cached + 65536 * distributed.
    pub fn yarvelow_event(image: *mut u8, length: usize, port: u64, event: u64) -> u64;
    /// The same with the image after the event at the start of `next`; `image` is only read.
    pub fn yarvelow_event_into(
        image: *const u8,
        length: usize,
        next: *mut u8,
        next_length: usize,
        port: u64,
        event: u64,
    ) -> u64;
    /// Carries out pairs of port and event, with one check: the reader's answer.
    pub fn yarvelow_run(
        image: *mut u8,
        length: usize,
        orders: *const u64,
        orders_length: usize,
        answers: *mut u64,
        answers_length: usize,
    ) -> u64;
}

// SAFETY of the calls: pointers and lengths are those of slices that are lent for the call.

/// `yarvelow_fresh` over a slice.
pub fn fresh(d: u64, room: &mut [u8]) -> u64 {
    unsafe { yarvelow_fresh(d, room.as_mut_ptr(), room.len()) }
}

/// `yarvelow_check` over a slice.
pub fn check(image: &[u8]) -> u64 {
    unsafe { yarvelow_check(image.as_ptr(), image.len()) }
}

/// `yarvelow_event` over a slice.
pub fn event(image: &mut [u8], port: u64, event: u64) -> u64 {
    unsafe { yarvelow_event(image.as_mut_ptr(), image.len(), port, event) }
}

/// `yarvelow_event_into` over slices.
pub fn event_into(image: &[u8], next: &mut [u8], port: u64, event: u64) -> u64 {
    unsafe {
        yarvelow_event_into(
            image.as_ptr(),
            image.len(),
            next.as_mut_ptr(),
            next.len(),
            port,
            event,
        )
    }
}

/// `yarvelow_run` over slices.
pub fn run(image: &mut [u8], orders: &[u64], answers: &mut [u64]) -> u64 {
    unsafe {
        yarvelow_run(
            image.as_mut_ptr(),
            image.len(),
            orders.as_ptr(),
            orders.len(),
            answers.as_mut_ptr(),
            answers.len(),
        )
    }
}
