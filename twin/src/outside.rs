//! The proved calls as C functions, and the twin's own calls in the same form.

/// feeder, its length, buffer, its length
pub type StudyCall = unsafe extern "C" fn(*const u8, usize, *mut u8, usize) -> u64;
/// feeder, its length, report, its length
pub type CheckCall = unsafe extern "C" fn(*const u8, usize, *const u8, usize) -> u64;

/// A study and a check to compare with, or to measure.
#[derive(Clone, Copy)]
pub struct Calls {
    pub study: StudyCall,
    pub check: CheckCall,
}

impl Calls {
    pub fn study(&self, feeder: &[u8], out: &mut [u8]) -> u64 {
        // SAFETY: both regions are valid for their lengths, and the call keeps neither.
        unsafe { (self.study)(feeder.as_ptr(), feeder.len(), out.as_mut_ptr(), out.len()) }
    }

    pub fn check(&self, feeder: &[u8], report: &[u8]) -> u64 {
        // SAFETY: as above.
        unsafe { (self.check)(feeder.as_ptr(), feeder.len(), report.as_ptr(), report.len()) }
    }
}

/// The twin by the same calls.
pub const TWIN: Calls = Calls { study: twin_study, check: twin_check };

/// # Safety
/// The regions must be valid for their lengths, and `out` shared with nobody.
pub unsafe extern "C" fn twin_study(feeder: *const u8, feeder_len: usize, out: *mut u8, out_len: usize) -> u64 {
    let feeder = std::slice::from_raw_parts(feeder, feeder_len);
    let out = std::slice::from_raw_parts_mut(out, out_len);
    crate::study(feeder, out).word()
}

/// # Safety
/// The regions must be valid for their lengths.
pub unsafe extern "C" fn twin_check(feeder: *const u8, feeder_len: usize, report: *const u8, report_len: usize) -> u64 {
    let feeder = std::slice::from_raw_parts(feeder, feeder_len);
    let report = std::slice::from_raw_parts(report, report_len);
    crate::check(feeder, report).word()
}

#[cfg(feature = "proved")]
mod linked {
    extern "C" {
        pub fn flarecomb_study(feeder: *const u8, feeder_len: usize, out: *mut u8, out_len: usize) -> u64;
        pub fn flarecomb_check(feeder: *const u8, feeder_len: usize, report: *const u8, report_len: usize) -> u64;
    }
}

/// The proved calls, where they were linked.
#[cfg(feature = "proved")]
pub const PROVED: Option<Calls> = Some(Calls { study: linked::flarecomb_study, check: linked::flarecomb_check });
#[cfg(not(feature = "proved"))]
pub const PROVED: Option<Calls> = None;
