//! The proved library's calls. Its functions require nothing of the bytes; the declarations below fit `crates/bench_ffi`.

/// What the runs of a call came to.
#[repr(C)]
#[derive(Clone, Copy, Debug, Default, PartialEq, Eq)]
pub struct Outcome {
    /// The last run's verdict: 1 drop, 2 pass, 3 send, 0 else.
    pub verdict: u64,
    /// How many instructions the last run did.
    pub steps: u64,
    /// The hash of the frame that the last run left (FNV-1a of 64 bits).
    pub hash: u64,
}

/// How a program runs.
#[derive(Clone, Copy, Debug)]
pub struct Plan {
    /// How many times, each on a new frame and over maps that were opened anew.
    pub runs: u32,
    /// How many entries the journal of a map's calls has room for: 16 to 1,048,576.
    pub journal: u32,
}

unsafe extern "C" {
    fn bench_ffi_decode(image: *const u8, length: usize, count: u32) -> u8;
    fn bench_ffi_verify(image: *const u8, length: usize, count: u32) -> u8;
    fn bench_ffi_run(
        image: *const u8,
        length: usize,
        frame: *const u8,
        frame_length: usize,
        runs: u32,
        journal: u32,
        outcome: &mut Outcome,
    ) -> u8;
    fn bench_ffi_prepare(
        image: *const u8,
        length: usize,
        frame: *const u8,
        frame_length: usize,
        runs: u32,
        journal: u32,
        outcome: &mut Outcome,
    ) -> u8;
}

/// 0 is no fault.
fn faulted(fault: u8) -> Result<(), u8> {
    match fault {
        0 => Ok(()),
        number => Err(number),
    }
}

/// Decodes an image so many times, or tells the number of its fault.
pub fn decode(image: &[u8], count: u32) -> Result<(), u8> {
    // SAFETY: pointer and length are those of one slice, which the call only reads.
    faulted(unsafe { bench_ffi_decode(image.as_ptr(), image.len(), count) })
}

/// Decodes and verifies an image so many times, or tells the number of its fault.
pub fn verify(image: &[u8], count: u32) -> Result<(), u8> {
    // SAFETY: as for `decode`.
    faulted(unsafe { bench_ffi_verify(image.as_ptr(), image.len(), count) })
}

/// Decodes and verifies an image once, and runs it.
pub fn run(image: &[u8], frame: &[u8], plan: Plan) -> Result<Outcome, u8> {
    let Plan { runs, journal } = plan;
    let mut outcome = Outcome::default();
    // SAFETY: each pointer and length are those of one slice, which the call only reads; the outcome has C's layout.
    let fault = unsafe {
        bench_ffi_run(image.as_ptr(), image.len(), frame.as_ptr(), frame.len(), runs, journal, &mut outcome)
    };
    faulted(fault).map(|()| outcome)
}

/// Does all that `run` does but the runs.
pub fn prepare(image: &[u8], frame: &[u8], plan: Plan) -> Result<(), u8> {
    let Plan { runs, journal } = plan;
    let mut outcome = Outcome::default();
    // SAFETY: as for `run`.
    faulted(unsafe {
        bench_ffi_prepare(image.as_ptr(), image.len(), frame.as_ptr(), frame.len(), runs, journal, &mut outcome)
    })
}
