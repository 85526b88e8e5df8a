// Every function of the C surface, once. `lib.rs` makes a safe Rust function of each, and bindings/shared a C function
// that checks its pointers first. tools/make_header.sh compares this list with crates/export.

surface! {
    tuppence_tansig as tansig(x: f32) -> f32;
    tuppence_sigmoid as sigmoid(x: f32) -> f32;
    tuppence_relu as relu(x: f32) -> f32;
    tuppence_sqrt as sqrt(x: f32) -> f32;
    tuppence_max as max(a: f32, b: f32) -> f32;
    tuppence_min as min(a: f32, b: f32) -> f32;
    tuppence_clamp as clamp(x: f32, low: f32, high: f32) -> f32;
    tuppence_narrow as narrow(x: f64) -> f32;
    tuppence_filter as filter(output: &mut [f32], memory: &mut [f32], coefficients: &[f32], input: &[f32]) -> u32;
}

surface! {
    tuppence_band_corr as band_corr(out: &mut [f32], x: &[f32], p: &[f32]) -> u32;
    tuppence_band_gain as band_gain(out: &mut [f32], bands: &[f32]) -> u32;
    tuppence_dct as dct(out: &mut [f32], x: &[f32]) -> u32;
    tuppence_window as window(out: &mut [f32], x: &[f32]) -> u32;
    tuppence_window_in_place as window_in_place(xs: &mut [f32]) -> u32;
}

surface! {
    tuppence_inner_prod as inner_prod(sum: &mut [f32], xs: &[f32], ys: &[f32], n: usize) -> u32;
    tuppence_lpc as lpc(lpc: &mut [f32], ac: &[f32]) -> u32;
    tuppence_pitch_xcorr as pitch_xcorr(xcorr: &mut [f32], xs: &[f32], ys: &[f32]) -> u32;
    tuppence_find_best_pitch as find_best_pitch(pitches: &mut [u64], xcorr: &[f32], ys: &[f32], len: usize) -> u32;
    tuppence_fir5 as fir5(xs: &mut [f32], num: &[f32]) -> u32;
    tuppence_autocorr as autocorr(ac: &mut [f32], x: &[f32]) -> u32;
    tuppence_downsample as downsample(x_lp: &mut [f32], x: &[f32]) -> u32;
}

surface! {
    tuppence_lag as lag(place: &mut [u32], input_mem: &[f32]) -> u32;
}

surface! {
    tuppence_find as find(numbers: &mut [f32], place: &mut [u32], input_mem: &[f32]) -> u32;
}

surface! {
    tuppence_forward as forward(spectrum: &mut [f32], samples: &[f32]) -> u32;
    tuppence_inverse as inverse(samples: &mut [f32], spectrum: &[f32]) -> u32;
}

surface! {
    tuppence_fft_forward as fft_forward(spectrum: &mut [f32], samples: &[f32]) -> u32;
    tuppence_fft_inverse as fft_inverse(samples: &mut [f32], spectrum: &[f32]) -> u32;
}

surface! {
    tuppence_log10 as log10(x: f32) -> f32;
    tuppence_logs as logs(logs: &mut [f32], sums: &[f32]) -> u32;
}

// Six times inputs, neurons, activation, offset and length; shapes are six times the first three. A refusal r of layer
// l is r + 65,536 l.
surface! {
    tuppence_model as model(numbers: &mut [u32], model: &[u8]) -> u32;
    tuppence_model_array as model_array(place: &mut [u32], model: &[u8], layer: u32, array: u32) -> u32;
    tuppence_model_choose as model_choose(trial: &[u8], house: &[u8]) -> u32;
    tuppence_write_model as write_model(
        out: &mut [u8], shapes: &[u32],
        w0: &[u8], b0: &[u8], w1: &[u8], r1: &[u8], b1: &[u8], w2: &[u8], r2: &[u8], b2: &[u8],
        w3: &[u8], r3: &[u8], b3: &[u8], w4: &[u8], b4: &[u8], w5: &[u8], b5: &[u8]
    ) -> u32;
}

surface! {
    tuppence_dense as dense(output: &mut [f32], weights: &[u8], bias: &[u8], activation: u32, input: &[f32]) -> u32;
    tuppence_gru as gru(
        state: &mut [f32], weights: &[u8], recurrent: &[u8], bias: &[u8], activation: u32, input: &[f32]
    ) -> u32;
    tuppence_network as network(
        gains: &mut [f32], voice: &mut [f32], vad: &mut [f32], noise: &mut [f32], denoise: &mut [f32],
        model: &[u8], features: &[f32]
    ) -> u32;
}

// A record is due call, cepstral index, the three GRU counts, frames and heard frames, how many samples wait, an
// unfinished piece's length and how many of its samples are in frames: while that length is not 0 the piece is paused.
// Last stands its way, which the opening settles: 0 with `open`, our own lag and the plain sums; 1 with `open_crate`,
// the crate's finder and the fast transforms. Refusal 7 is 7 + 256 × the model's + 65,536 × its layer.
surface! {
    tuppence_side_of as side_of(bench: u32) -> u32;
    tuppence_open as open(record: &mut [u32], store: &mut [f32], side: u32, model: &[u8]) -> u32;
    tuppence_open_crate as open_crate(record: &mut [u32], store: &mut [f32], side: u32, model: &[u8]) -> u32;
    tuppence_call1 as call1(
        record: &mut [u32], store: &mut [f32], side: u32, samples: &[f32], window: &mut [f32]
    ) -> u32;
    tuppence_call2 as call2(
        record: &mut [u32], store: &mut [f32], side: u32, spectrum: &[f32], lag: u32, window: &mut [f32],
        sums: &mut [f32]
    ) -> u32;
    tuppence_call2_own as call2_own(
        record: &mut [u32], store: &mut [f32], side: u32, spectrum: &[f32], window: &mut [f32], sums: &mut [f32]
    ) -> u32;
    tuppence_call3 as call3(
        record: &mut [u32], store: &mut [f32], side: u32, spectrum: &[f32], logs: &[f32], model: &[u8],
        out: &mut [f32], answer: &mut [f32]
    ) -> u32;
    tuppence_call4 as call4(record: &mut [u32], store: &mut [f32], side: u32, inverse: &[f32], out: &mut [f32]) -> u32;
    tuppence_first_half as first_half(
        record: &mut [u32], store: &mut [f32], side: u32, samples: &[f32], sums: &mut [f32]
    ) -> u32;
    tuppence_second_half as second_half(
        record: &mut [u32], store: &mut [f32], side: u32, logs: &[f32], model: &[u8], out: &mut [f32],
        answer: &mut [f32]
    ) -> u32;
    tuppence_piece as piece(
        record: &mut [u32], store: &mut [f32], side: u32, samples: &[f32], out: &mut [f32], sums: &mut [f32]
    ) -> u32;
    tuppence_resume as resume(
        record: &mut [u32], store: &mut [f32], side: u32, samples: &[f32], logs: &[f32], model: &[u8],
        out: &mut [f32], sums: &mut [f32], answer: &mut [f32]
    ) -> u32;
}

// A frame, and a piece with three answers for each frame that it completes, with our own logarithms.
surface! {
    tuppence_frame as frame(
        record: &mut [u32], store: &mut [f32], side: u32, samples: &[f32], model: &[u8], out: &mut [f32],
        answer: &mut [f32]
    ) -> u32;
    tuppence_take as take(
        record: &mut [u32], store: &mut [f32], side: u32, piece: &[f32], model: &[u8], out: &mut [f32],
        answers: &mut [f32]
    ) -> u32;
}

// Start, number of records and side of a good sheet; an entry is its frame's number, and 2^32 more where it was heard;
// of a sheet in parts, how many records there are so far and the sum of their bytes; of a mended file, how many bytes
// and records it has.
surface! {
    tuppence_sheet_write as sheet_write(out: &mut [u8], side: u32, entries: &[u64]) -> u32;
    tuppence_sheet_records as sheet_records(numbers: &mut [u64], out: &mut [u8], side: u32, entries: &[u64]) -> u32;
    tuppence_sheet_trailer as sheet_trailer(out: &mut [u8], side: u32, count: u64, sum: u64) -> u32;
    tuppence_sheet_read as sheet_read(numbers: &mut [u64], file: &[u8]) -> u32;
    tuppence_sheet_entry as sheet_entry(entry: &mut [u64], file: &[u8], index: u64) -> u32;
    tuppence_mend as mend(numbers: &mut [u64], out: &mut [u8], file: &[u8], place: u64) -> u32;
}

// The checksum of what was handed in before, 0 of nothing, and of these bytes behind it; side, bytes of audio and their
// checksum of a seal; place, format, channels, rate and size of a WAV's head, all 0 at first: the bytes lent are the
// file's from the place on, 34 or as many as there are, 0 is told where the audio starts at the place, and 40 where the
// next bytes are wanted.
surface! {
    tuppence_checksum as checksum(before: u32, bytes: &[u8]) -> u32;
    tuppence_seal_write as seal_write(out: &mut [u8], side: u32, size: u64, checksum: u32) -> u32;
    tuppence_seal_read as seal_read(numbers: &mut [u64], file: &[u8]) -> u32;
    tuppence_front_write as front_write(out: &mut [u8], side: u32, began: u64, first: u32) -> u32;
    tuppence_front_read as front_read(numbers: &mut [u64], file: &[u8]) -> u32;
    tuppence_wav_head as wav_head(out: &mut [u8], rate: u32, size: u32, behind: u32) -> u32;
    tuppence_wav_read as wav_read(numbers: &mut [u64], file: &[u8]) -> u32;
}

// A judge of a recording, in eleven numbers and 76 bytes. It reports the side, when it began, the number of its first
// frame, how many frames there are, and how many were heard. What is around the audio of a recording: 76 bytes before
// it, and 32 between it and its records.
surface! {
    tuppence_judge_begin as judge_begin(numbers: &mut [u64], held: &mut [u8]) -> u32;
    tuppence_judge_more as judge_more(numbers: &mut [u64], held: &mut [u8], bytes: &[u8]) -> u32;
    tuppence_judge_verdict as judge_verdict(out: &mut [u64], numbers: &[u64], held: &[u8]) -> u32;
    tuppence_recording_head as recording_head(out: &mut [u8], side: u32, began: u64, first: u32, size: u32) -> u32;
    tuppence_recording_chunk as recording_chunk(out: &mut [u8], side: u32, first: u32, size: u32, checksum: u32) -> u32;
}

// A recording while it is being made, in eight numbers. A feed's bytes and records are handed in, and it is told where
// the bytes begin that belong to the recording, and how many they are. At the end: its head, its seal and its trailer.
surface! {
    tuppence_recorder_begin as recorder_begin(numbers: &mut [u64], side: u32, began: u64, first: u32) -> u32;
    tuppence_recorder_more as recorder_more(
        numbers: &mut [u64], part: &mut [u64], taken: u32, cleaned: &[u8], records: &[u8]
    ) -> u32;
    tuppence_recorder_closing as recorder_closing(silence: &mut [u64], numbers: &[u64]) -> u32;
    tuppence_recorder_next as recorder_next(numbers: &mut [u64], began: u64) -> u32;
    tuppence_recorder_finish as recorder_finish(
        head: &mut [u8], chunk: &mut [u8], trailer: &mut [u8], numbers: &[u64]
    ) -> u32;
}

// A format is 16, 24, 32 for floats, or 33 for 32-bit integers. One of the channels, which take turns, is unpacked.
// Packed are 16 bits, two bytes for each sample.
surface! {
    tuppence_unpack as unpack(out: &mut [f32], bytes: &[u8], format: u32, channels: u32, channel: u32) -> u32;
    tuppence_pack as pack(out: &mut [u8], samples: &[f32]) -> u32;
}

// A block of recorded bytes for a bench, by its channel: 960 bytes, a record of the side sheet (8 bytes) and three
// answers for each frame that it completes.
surface! {
    tuppence_feed as feed(
        record: &mut [u32], store: &mut [f32], side: u32, bytes: &[u8], format: u32, channels: u32, channel: u32,
        model: &[u8],
        out: &mut [u8], records: &mut [u8], answers: &mut [f32]
    ) -> u32;
}
