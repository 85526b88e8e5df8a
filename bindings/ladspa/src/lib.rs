//! The proved denoiser as a LADSPA plugin: `tuppence_bench` cleans one channel, and `tuppence_benches` cleans two, left
//! and right, each on a bench of its own. The host must run at 48 kHz.
//!
//! What comes out is what `box clean` writes, 960 samples later, as the `latency` port reports: 16-bit samples as
//! floats. The plugin seals nothing, so `box side` cannot say whose such a recording is.

mod api;
mod channel;
#[path = "../../shared/src/environment.rs"]
mod environment;

use api::{Descriptor, Handle, PortRangeHint, AUDIO, CONTROL, HARD_RT, INPUT, OUTPUT};
use channel::{Channel, LATENCY};
use environment::DefaultEnvironment;
use std::ffi::{c_char, c_int, c_ulong};
use std::ptr::null_mut;
use tuppence::FRAME;

/// The only sample rate that the denoiser knows.
const RATE: c_ulong = 48_000;

/// A plugin with one or two channels. Its ports are the inputs, then the outputs, then the latency.
struct Plugin {
    channels: Vec<Channel>,
    ports: Vec<*mut f32>,
}

impl Plugin {
    fn new(channels: usize) -> Option<Plugin> {
        let channels: Option<Vec<Channel>> = (0..channels as u32).map(Channel::new).collect();
        let channels = channels?;
        Some(Plugin { ports: vec![null_mut(); 2 * channels.len() + 1], channels })
    }

    /// Cleans a block, at most a frame at a time, so that nothing is allocated. The input of all channels is read
    /// before any output is written, because a host may lend one buffer for both.
    ///
    /// # Safety
    ///
    /// Every port is connected to a buffer of `count` samples, the last one to one number, or is NULL.
    unsafe fn run(&mut self, count: usize) {
        let channels = self.channels.len();
        for start in (0..count).step_by(FRAME) {
            let part = start..count.min(start + FRAME);
            for (channel, port) in self.channels.iter_mut().zip(&self.ports) {
                for at in part.clone() {
                    // SAFETY: an input port has `count` samples; one that is not connected is silent
                    channel.put(if port.is_null() { 0.0 } else { unsafe { *port.add(at) } });
                }
            }
            for (channel, port) in self.channels.iter_mut().zip(&self.ports[channels..]) {
                for at in part.clone() {
                    let sample = channel.get();
                    if !port.is_null() {
                        // SAFETY: an output port has room for `count` samples
                        unsafe { *port.add(at) = sample };
                    }
                }
            }
        }
        let latency = self.ports[2 * channels];
        if !latency.is_null() {
            // SAFETY: a control port has one number
            unsafe { *latency = LATENCY as f32 };
        }
    }
}

unsafe extern "C" fn instantiate(descriptor: *const Descriptor, rate: c_ulong) -> Handle {
    if rate != RATE {
        return null_mut();
    }
    let _environment = DefaultEnvironment::enter();
    // SAFETY: a host passes the descriptor that it was given
    let channels = unsafe { (*descriptor).port_count as usize / 2 };
    Plugin::new(channels).map_or(null_mut(), |plugin| Box::into_raw(Box::new(plugin)).cast())
}

unsafe extern "C" fn connect_port(handle: Handle, port: c_ulong, place: *mut f32) {
    // SAFETY: a handle is what `instantiate` gave
    let plugin = unsafe { &mut *handle.cast::<Plugin>() };
    if let Some(connected) = plugin.ports.get_mut(port as usize) {
        *connected = place;
    }
}

unsafe extern "C" fn activate(handle: Handle) {
    let _environment = DefaultEnvironment::enter();
    // SAFETY: a handle is what `instantiate` gave
    let plugin = unsafe { &mut *handle.cast::<Plugin>() };
    plugin.channels.iter_mut().for_each(Channel::restart);
}

unsafe extern "C" fn run(handle: Handle, count: c_ulong) {
    let _environment = DefaultEnvironment::enter();
    // SAFETY: a handle is what `instantiate` gave, and the host connected its ports
    unsafe { (*handle.cast::<Plugin>()).run(count as usize) };
}

unsafe extern "C" fn cleanup(handle: Handle) {
    // SAFETY: a handle is what `instantiate` gave, and no call follows
    drop(unsafe { Box::from_raw(handle.cast::<Plugin>()) });
}

const IN: c_int = INPUT | AUDIO;
const OUT: c_int = OUTPUT | AUDIO;
const LATENCY_PORT: c_int = OUTPUT | CONTROL;
const ONE: [c_int; 3] = [IN, OUT, LATENCY_PORT];
const TWO: [c_int; 5] = [IN, IN, OUT, OUT, LATENCY_PORT];
const HINTS: [PortRangeHint; 5] = [PortRangeHint { hint: 0, lower: 0.0, upper: 0.0 }; 5];

/// Names of ports, as pointers that may be shared between threads because nobody writes to them.
struct Names<const N: usize>([*const c_char; N]);
// SAFETY: they point to constants
unsafe impl<const N: usize> Sync for Names<N> {}

static ONE_NAMES: Names<3> = Names([c"Input".as_ptr(), c"Output".as_ptr(), c"latency".as_ptr()]);
static TWO_NAMES: Names<5> = Names([
    c"Left input".as_ptr(),
    c"Right input".as_ptr(),
    c"Left output".as_ptr(),
    c"Right output".as_ptr(),
    c"latency".as_ptr(),
]);

const fn descriptor(ports: &'static [c_int], names: *const *const c_char) -> Descriptor {
    let two = ports.len() > ONE.len();
    Descriptor {
        unique_id: if two { 961 } else { 960 },
        label: if two { c"tuppence_benches".as_ptr() } else { c"tuppence_bench".as_ptr() },
        properties: HARD_RT,
        name: if two { c"Tuppencehop, two benches".as_ptr() } else { c"Tuppencehop, one bench".as_ptr() },
        maker: c"Tuppencehop".as_ptr(),
        copyright: c"BSD-3-Clause".as_ptr(),
        port_count: ports.len() as c_ulong,
        port_descriptors: ports.as_ptr(),
        port_names: names,
        port_range_hints: HINTS.as_ptr(),
        implementation_data: null_mut(),
        instantiate,
        connect_port,
        activate: Some(activate),
        run,
        run_adding: None,
        set_run_adding_gain: None,
        deactivate: None,
        cleanup,
    }
}

static PLUGINS: [Descriptor; 2] = [descriptor(&ONE, ONE_NAMES.0.as_ptr()), descriptor(&TWO, TWO_NAMES.0.as_ptr())];

/// The plugins of this file, by their place, and NULL after the last.
#[no_mangle]
pub extern "C" fn ladspa_descriptor(index: c_ulong) -> *const Descriptor {
    PLUGINS.get(index as usize).map_or(std::ptr::null(), |plugin| plugin)
}

#[cfg(test)]
mod tests {
    use super::*;
    use std::ptr::null;
    use tuppence::{Bench, Block, Format};

    const MODEL: &[u8] = include_bytes!("../../../host/model/house.rnn");

    struct Rng(u64);

    impl Rng {
        fn next(&mut self) -> u64 {
            self.0 ^= self.0 << 13;
            self.0 ^= self.0 >> 7;
            self.0 ^= self.0 << 17;
            self.0 >> 11
        }

        fn sound(&mut self, count: usize) -> Vec<f32> {
            (0..count)
                .map(|i| (self.next() % 8_000) as f32 / 32_768.0 + (i as f32 / 40.0).sin() / 8.0 - 0.125)
                .collect()
        }
    }

    /// Runs a plugin as a host does, in blocks of these sizes in turn: what comes out of each channel.
    fn through(index: c_ulong, inputs: &[Vec<f32>], sizes: &[usize], in_place: bool) -> Vec<Vec<f32>> {
        let count = inputs[0].len();
        let descriptor = ladspa_descriptor(index);
        // SAFETY: this is a host, and keeps to the header's rules
        unsafe {
            let plugin = &*descriptor;
            let handle = (plugin.instantiate)(descriptor, RATE);
            assert!(!handle.is_null());
            plugin.activate.unwrap()(handle);
            let (mut inputs, mut outputs) = (inputs.to_vec(), vec![vec![0.0; count]; inputs.len()]);
            let (mut latency, mut at) = (0.0, 0);
            (plugin.connect_port)(handle, 2 * inputs.len() as c_ulong, &mut latency);
            for size in sizes.iter().cycle() {
                let size = *size.min(&(count - at));
                for channel in 0..inputs.len() {
                    let out = if in_place { &mut inputs } else { &mut outputs };
                    let out = out[channel][at..].as_mut_ptr();
                    (plugin.connect_port)(handle, channel as c_ulong, inputs[channel][at..].as_mut_ptr());
                    (plugin.connect_port)(handle, (outputs.len() + channel) as c_ulong, out);
                }
                (plugin.run)(handle, size as c_ulong);
                at += size;
                if at == count {
                    break;
                }
            }
            (plugin.cleanup)(handle);
            assert_eq!(latency, LATENCY as f32);
            if in_place {
                inputs
            } else {
                outputs
            }
        }
    }

    /// What feeds give of a channel, as long as the input, and late by the plugin's latency.
    fn fed(samples: &[f32]) -> Vec<f32> {
        let mut bench = Bench::open(0, MODEL).unwrap();
        let mut out = vec![0.0; FRAME];
        let bytes: Vec<u8> = samples.iter().flat_map(|sample| sample.to_le_bytes()).collect();
        for bytes in bytes.chunks(4 * 4_096) {
            let fed = bench.feed(Block { bytes, format: Format::Float, channels: 1, channel: 0 }).unwrap();
            out.extend(fed.cleaned.chunks(2).map(|two| f32::from(i16::from_le_bytes([two[0], two[1]])) / 32_768.0));
        }
        out.truncate(samples.len());
        out
    }

    #[test]
    fn blocks_of_any_size() {
        let mut rng = Rng(5);
        let sound = rng.sound(20_000);
        let random: Vec<usize> = (0..50).map(|_| 1 + rng.next() as usize % 4_096).collect();
        let wanted = [fed(&sound)];
        for sizes in [&[1][..], &[7], &[479], &[480], &[481], &[1_024], &[4_096], &[20_000], &random] {
            assert!(through(0, std::slice::from_ref(&sound), sizes, false) == wanted, "blocks of {sizes:?}");
            assert!(through(0, std::slice::from_ref(&sound), sizes, true) == wanted, "blocks of {sizes:?}, in place");
        }
    }

    #[test]
    fn the_right_channel_is_not_heard_in_the_left() {
        let mut rng = Rng(6);
        let left = rng.sound(3_000);
        let wanted = fed(&left);
        for _ in 0..1_000 {
            let right = rng.sound(3_000);
            let sizes = [1 + rng.next() as usize % 4_096, 1 + rng.next() as usize % 500];
            let out = through(1, &[left.clone(), right.clone()], &sizes, rng.next().is_multiple_of(2));
            assert!(out[0] == wanted && out[1] == fed(&right), "blocks of {sizes:?}");
        }
    }

    #[test]
    fn other_rates_and_places_are_refused() {
        for index in 0..2 {
            let descriptor = ladspa_descriptor(index);
            // SAFETY: this is a host, and keeps to the header's rules
            unsafe { assert!(((*descriptor).instantiate)(descriptor, 44_100).is_null()) };
        }
        assert_eq!(ladspa_descriptor(2), null());
    }
}
