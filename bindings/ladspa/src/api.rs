//! LADSPA 1.1's header, as far as a plugin needs it (Debian's ladspa-sdk has it as ladspa.h).

use std::ffi::{c_char, c_int, c_ulong, c_void};

/// A plugin that was made by `instantiate`.
pub type Handle = *mut c_void;

pub const INPUT: c_int = 1;
pub const OUTPUT: c_int = 2;
pub const CONTROL: c_int = 4;
pub const AUDIO: c_int = 8;

/// `run` takes a time that depends on the number of samples alone.
pub const HARD_RT: c_int = 4;

/// Which values a port takes; with hint 0, any.
#[repr(C)]
#[derive(Clone, Copy)]
pub struct PortRangeHint {
    pub hint: c_int,
    pub lower: f32,
    pub upper: f32,
}

/// What a host asks of a plugin, in the header's order.
#[repr(C)]
pub struct Descriptor {
    pub unique_id: c_ulong,
    pub label: *const c_char,
    pub properties: c_int,
    pub name: *const c_char,
    pub maker: *const c_char,
    pub copyright: *const c_char,
    pub port_count: c_ulong,
    pub port_descriptors: *const c_int,
    pub port_names: *const *const c_char,
    pub port_range_hints: *const PortRangeHint,
    pub implementation_data: *mut c_void,
    pub instantiate: unsafe extern "C" fn(*const Descriptor, c_ulong) -> Handle,
    pub connect_port: unsafe extern "C" fn(Handle, c_ulong, *mut f32),
    pub activate: Option<unsafe extern "C" fn(Handle)>,
    pub run: unsafe extern "C" fn(Handle, c_ulong),
    pub run_adding: Option<unsafe extern "C" fn(Handle, c_ulong)>,
    pub set_run_adding_gain: Option<unsafe extern "C" fn(Handle, f32)>,
    pub deactivate: Option<unsafe extern "C" fn(Handle)>,
    pub cleanup: unsafe extern "C" fn(Handle),
}

// SAFETY: a descriptor points to constants alone.
unsafe impl Sync for Descriptor {}
