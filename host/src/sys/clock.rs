//! The clock on the wall (`localtime_r`, `mktime`): a moment in this computer's time zone, and back. The standard
//! library knows no time zones.

use std::ffi::{c_char, c_int, c_long};
use std::mem::MaybeUninit;

/// C's `struct tm`, as Linux has it.
#[repr(C)]
struct Tm {
    second: c_int,
    minute: c_int,
    hour: c_int,
    day: c_int,
    /// From 0 on.
    month: c_int,
    /// Since 1900.
    year: c_int,
    week_day: c_int,
    year_day: c_int,
    /// Whether it is summer time; negative if that is not known.
    summer: c_int,
    offset: c_long,
    zone: *const c_char,
}

extern "C" {
    fn tzset();
    fn localtime_r(seconds: *const c_long, to: *mut Tm) -> *mut Tm;
    fn mktime(from: *mut Tm) -> c_long;
}

/// What calendar and clock show.
#[derive(Clone, Copy, Debug, PartialEq)]
pub struct Local {
    pub year: i32,
    /// From 1 on.
    pub month: u32,
    pub day: u32,
    pub hour: u32,
    pub minute: u32,
    pub second: u32,
}

impl Local {
    fn of(tm: &Tm) -> Local {
        let [month, day, hour] = [tm.month + 1, tm.day, tm.hour].map(|n| n as u32);
        Local { year: tm.year + 1900, month, day, hour, minute: tm.minute as u32, second: tm.second as u32 }
    }
}

/// What the clock shows so many seconds after 1970 began; `None` if the year has more digits than C counts.
pub fn local(seconds: u64) -> Option<Local> {
    let seconds = c_long::try_from(seconds).ok()?;
    let mut tm = MaybeUninit::<Tm>::uninit();
    // SAFETY: both are lent for the length of the call, which writes all of `tm` unless it returns null. `tzset` and
    // this call read the variable TZ; nothing in this program writes variables
    unsafe {
        tzset();
        let told = localtime_r(&seconds, tm.as_mut_ptr());
        (!told.is_null()).then(|| Local::of(tm.assume_init_ref()))
    }
}

/// So many seconds after 1970 began the clock shows this; `None` if it never does.
pub fn since_1970_of(shown: Local) -> Option<u64> {
    let mut tm = Tm {
        second: shown.second.try_into().ok()?,
        minute: shown.minute.try_into().ok()?,
        hour: shown.hour.try_into().ok()?,
        day: shown.day.try_into().ok()?,
        month: c_int::try_from(shown.month).ok()? - 1,
        year: shown.year.checked_sub(1900)?,
        week_day: 0,
        year_day: 0,
        summer: -1,
        offset: 0,
        zone: std::ptr::null(),
    };
    // SAFETY: `tm` is lent for the length of the call
    let seconds = unsafe { mktime(&mut tm) };
    let seconds = u64::try_from(seconds).ok()?;
    (local(seconds) == Some(shown)).then_some(seconds)
}

#[cfg(test)]
mod tests {
    use super::*;

    #[test]
    fn there_and_back() {
        for seconds in [86_400, 951_782_400, 1_794_803_412, 4_102_444_799] {
            let shown = local(seconds).unwrap();
            // where clocks are turned back, two moments show the same
            assert!(since_1970_of(shown).is_some_and(|back| back == seconds || back.abs_diff(seconds) == 3_600));
        }
        let shown = Local { year: 2026, month: 2, day: 30, hour: 0, minute: 0, second: 0 };
        assert_eq!(since_1970_of(shown), None);
        assert_eq!(local(u64::MAX), None);
        assert_eq!(since_1970_of(Local { month: 13, day: 1, ..shown }), None);
        assert_eq!(since_1970_of(Local { second: u32::MAX, ..shown }), None);
    }
}
