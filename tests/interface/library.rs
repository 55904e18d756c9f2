//! The calls of include/feeder.h, each behind a safe function.

#[repr(C)]
#[derive(Debug, Clone, Copy, PartialEq, Eq)]
pub struct Answer {
    pub number: u8,
    pub place: u16,
    pub value: u64,
}

#[repr(C)]
#[derive(Debug, Clone, Copy)]
pub struct Solved {
    pub number: u8,
    pub place: u16,
    pub radial: u8,
    pub converged: u8,
    pub iterations: u16,
    pub base_loss: f64,
    pub best_loss: f64,
    pub reduction: f64,
}

impl Solved {
    /// The floats by their bits.
    fn fields(self) -> (u8, u16, u8, u8, u16, [u64; 3]) {
        let floats = [self.base_loss, self.best_loss, self.reduction].map(f64::to_bits);
        (self.number, self.place, self.radial, self.converged, self.iterations, floats)
    }
}

impl PartialEq for Solved {
    fn eq(&self, other: &Self) -> bool {
        self.fields() == other.fields()
    }
}

extern "C" {
    fn feeder_radiality(text: *const u8, text_length: usize, state: *const u8, state_length: usize) -> Answer;
    fn feeder_form(text: *const u8, text_length: usize, state: *const u8, state_length: usize) -> Answer;
    fn feeder_loss(text: *const u8, text_length: usize, state: *const u8, state_length: usize) -> Answer;
    fn feeder_plan(
        text: *const u8,
        text_length: usize,
        present: *const u8,
        present_length: usize,
        wanted: *const u8,
        wanted_length: usize,
        out: *mut u8,
        out_length: usize,
    ) -> Answer;
    fn feeder_resume(
        text: *const u8,
        text_length: usize,
        present: *const u8,
        present_length: usize,
        wanted: *const u8,
        wanted_length: usize,
        count: u64,
        remaining: *mut u8,
        remaining_length: usize,
        back: *mut u8,
        back_length: usize,
    ) -> Answer;
    fn feeder_answer_text(text: *const u8, text_length: usize, out: *mut u8, out_length: usize) -> Answer;
    fn feeder_base_state(text: *const u8, text_length: usize, out: *mut u8, out_length: usize) -> Answer;
    fn feeder_solve(text: *const u8, text_length: usize, out: *mut u8, out_length: usize) -> Solved;
    fn feeder_operations(
        text: *const u8,
        text_length: usize,
        from: *const u8,
        from_length: usize,
        to: *const u8,
        to_length: usize,
        out: *mut u8,
        out_length: usize,
    ) -> Answer;
    fn feeder_write_text(records: *const u8, records_length: usize, out: *mut u8, out_length: usize) -> Answer;
    fn feeder_repair_text(text: *const u8, text_length: usize, out: *mut u8, out_length: usize) -> Answer;
}

// Safe: slices are good for their lengths, a `&mut` one overlaps no other, and the calls ask for nothing else.

pub fn radiality(text: &[u8], state: &[u8]) -> Answer {
    unsafe { feeder_radiality(text.as_ptr(), text.len(), state.as_ptr(), state.len()) }
}

pub fn form(text: &[u8], state: &[u8]) -> Answer {
    unsafe { feeder_form(text.as_ptr(), text.len(), state.as_ptr(), state.len()) }
}

pub fn loss(text: &[u8], state: &[u8]) -> Answer {
    unsafe { feeder_loss(text.as_ptr(), text.len(), state.as_ptr(), state.len()) }
}

pub fn plan(text: &[u8], present: &[u8], wanted: &[u8], out: &mut [u8]) -> Answer {
    unsafe {
        feeder_plan(
            text.as_ptr(),
            text.len(),
            present.as_ptr(),
            present.len(),
            wanted.as_ptr(),
            wanted.len(),
            out.as_mut_ptr(),
            out.len(),
        )
    }
}

pub fn resume(text: &[u8], present: &[u8], wanted: &[u8], count: u64, remaining: &mut [u8], back: &mut [u8]) -> Answer {
    unsafe {
        feeder_resume(
            text.as_ptr(),
            text.len(),
            present.as_ptr(),
            present.len(),
            wanted.as_ptr(),
            wanted.len(),
            count,
            remaining.as_mut_ptr(),
            remaining.len(),
            back.as_mut_ptr(),
            back.len(),
        )
    }
}

pub fn answer_text(text: &[u8], out: &mut [u8]) -> Answer {
    unsafe { feeder_answer_text(text.as_ptr(), text.len(), out.as_mut_ptr(), out.len()) }
}

pub fn base_state(text: &[u8], out: &mut [u8]) -> Answer {
    unsafe { feeder_base_state(text.as_ptr(), text.len(), out.as_mut_ptr(), out.len()) }
}

pub fn solve(text: &[u8], out: &mut [u8]) -> Solved {
    unsafe { feeder_solve(text.as_ptr(), text.len(), out.as_mut_ptr(), out.len()) }
}

pub fn operations(text: &[u8], from: &[u8], to: &[u8], out: &mut [u8]) -> Answer {
    unsafe {
        feeder_operations(text.as_ptr(), text.len(), from.as_ptr(), from.len(), to.as_ptr(), to.len(), out.as_mut_ptr(), out.len())
    }
}

pub fn write_text(records: &[u8], out: &mut [u8]) -> Answer {
    unsafe { feeder_write_text(records.as_ptr(), records.len(), out.as_mut_ptr(), out.len()) }
}

pub fn repair_text(text: &[u8], out: &mut [u8]) -> Answer {
    unsafe { feeder_repair_text(text.as_ptr(), text.len(), out.as_mut_ptr(), out.len()) }
}
