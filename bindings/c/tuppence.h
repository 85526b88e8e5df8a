/* tuppence.h: a proved denoiser for speech at 48 kHz, for C and C++. Link libtuppence.so or libtuppence.a.

   Made by tools/make_header.sh from crates/export, whose comments these are. Do not change it here.

   Start here. Open a bench once, then hand it what its microphone records, 1 to 4,096 samples at a time.
   Out come the cleaned samples of every frame of 480 that is complete, and three answers for each frame:

       static float store[TUPPENCE_STORE];          serves 16 benches; even ones are left, odd ones right
       uint32_t record[TUPPENCE_RECORD] = {0};      one for each bench; pass it with its own bench alone
       float cleaned[9 * 480], answers[9 * 3];
       uint32_t refusal = tuppence_open_crate(record, TUPPENCE_RECORD, store, TUPPENCE_STORE, 0, model, model_len);
       ...
       uint32_t before = record[5];
       refusal = tuppence_take(record, TUPPENCE_RECORD, store, TUPPENCE_STORE, 0, samples, n,
           model, model_len, cleaned, 9 * 480, answers, 9 * 3);
       if (refusal == 0) use(cleaned, 480 * (record[5] - before));

   record[5] is the number of frames since the opening, and record[6] how many of them were heard. `model`
   is the content of a model file. docs/EMBEDDING.md has a complete program, and tuppence_feed takes bytes.

   Answers. A function that returns a float returns its answer, tuppence_side_of a side, and tuppence_checksum
   a checksum. Every other function returns 0 when it is done, or the number of its refusal; then everything
   that was lent is unchanged. Whatever the lengths and the numbers are, a call ends in one of these.

   Slices. A slice is a pointer and how many numbers are there, NAME and NAME_len. What a const pointer leads
   to is not written. No pointer is kept. libtuppence.so checks each pointer and refuses with 101 to 104; NULL
   with length 0 is an empty slice there. libtuppence.a does not check: pointers must be aligned and not NULL,
   and a slice that is written must not overlap another one. Nobody else may touch what is lent meanwhile.

   Floating point. The proofs are about IEEE 754's default environment: round to nearest, nothing trapped,
   subnormal numbers kept. libtuppence.so sets it for each call and restores the caller's. With libtuppence.a
   the caller must have it.

   Stack. A call needs less than 128 KiB. */
#ifndef TUPPENCE_H
#define TUPPENCE_H

#include <stddef.h>
#include <stdint.h>

#ifdef __cplusplus
extern "C" {
#endif

/* The numbers of the store, which serves all benches, and of a bench's record: zeros before its first opening. */
#define TUPPENCE_STORE 98304
#define TUPPENCE_RECORD 12

/* The version of this header and of the library. */
#define TUPPENCE_VERSION "0.1.0"

/* The refusals that a call may return, and 40, which is none. docs/REFUSALS.md says exactly when. */
enum tuppence_refusal {
    TUPPENCE_NO_SUCH_SIDE = 1,
    TUPPENCE_OUT_OF_RANGE = 2,
    TUPPENCE_CLOSED = 3,
    TUPPENCE_NOT_DUE = 4,
    TUPPENCE_WRONG_LENGTH = 5,
    TUPPENCE_LAG_TOO_LARGE = 6,
    TUPPENCE_MODEL_REFUSED = 7,
    TUPPENCE_OTHER_COUNTS = 8,
    TUPPENCE_BAD_SAMPLE = 9,
    TUPPENCE_MODEL_NO_HEADER = 11,
    TUPPENCE_MODEL_INPUTS = 12,
    TUPPENCE_MODEL_NEURONS = 13,
    TUPPENCE_MODEL_ACTIVATION = 14,
    TUPPENCE_MODEL_NO_NEURONS = 15,
    TUPPENCE_MODEL_ARRAY = 16,
    TUPPENCE_MODEL_BYTES_LEFT = 17,
    TUPPENCE_MODEL_ENDS = 18,
    TUPPENCE_MODEL_VAD_GRU = 19,
    TUPPENCE_MODEL_NOISE_GRU = 20,
    TUPPENCE_MODEL_DENOISE_GRU = 21,
    TUPPENCE_MODEL_DENOISE_OUTPUT = 22,
    TUPPENCE_MODEL_NO_ROOM = 24,
    TUPPENCE_SHEET_SHORT = 31,
    TUPPENCE_SHEET_DISTANCE = 32,
    TUPPENCE_SHEET_SIDE = 33,
    TUPPENCE_SHEET_RECORD = 34,
    TUPPENCE_SHEET_SUM = 35,
    TUPPENCE_SHEET_NO_ROOM = 36,
    TUPPENCE_MEND_PLACE = 37,
    TUPPENCE_MEND_NOTHING = 38,
    TUPPENCE_WAV_GO_ON = 40,
    TUPPENCE_WAV_NO_RIFF = 41,
    TUPPENCE_WAV_ENDS = 42,
    TUPPENCE_WAV_NO_FORMAT = 43,
    TUPPENCE_WAV_SHORT_FORMAT = 44,
    TUPPENCE_WAV_FORMAT = 45,
    TUPPENCE_WAV_CHANNELS = 46,
    TUPPENCE_WAV_BLOCK = 47,
    TUPPENCE_SEAL_NONE = 51,
    TUPPENCE_SEAL_CHECKSUM = 52,
    TUPPENCE_SEAL_SIDE = 53,
    TUPPENCE_RECORDING_HEAD = 61,
    TUPPENCE_RECORDING_AUDIO = 62,
    TUPPENCE_RECORDING_SEAL = 63,
    TUPPENCE_RECORDING_RECORDS = 64,
    TUPPENCE_RECORDING_TRAILER = 65,
    TUPPENCE_RECORDING_LONGER = 66,
    TUPPENCE_RECORDER_TOO_LONG = 67,
    TUPPENCE_RECORDER_RECORDS = 68,
    TUPPENCE_RECORDER_SIZE = 69,
    TUPPENCE_RECORDER_FRAMES = 70,
    TUPPENCE_RECORDER_NO_CUT = 71,
    TUPPENCE_NULL = 101,
    TUPPENCE_MISALIGNED = 102,
    TUPPENCE_TOO_LONG = 103,
    TUPPENCE_OVERLAP = 104,
};


/* ---- bands: correlation and gains in 22 bands, the cosine transform, and the window. Refusal 5: a
   slice has a wrong length. */

/* The correlation of two spectra in 22 bands. `out` has 22 numbers, `x` and `p` have 961 each. */
uint32_t tuppence_band_corr(float *out, size_t out_len, const float *x, size_t x_len,
    const float *p, size_t p_len);

/* Spreads the gains of 22 bands over all frequency bins. `out` has 481 numbers, `bands` has 22. */
uint32_t tuppence_band_gain(float *out, size_t out_len, const float *bands, size_t bands_len);

/* The cosine transform of 22 numbers. `out` and `x` have 22 each. */
uint32_t tuppence_dct(float *out, size_t out_len, const float *x, size_t x_len);

/* Multiplies samples by the window. `out` and `x` have 960 numbers each. */
uint32_t tuppence_window(float *out, size_t out_len, const float *x, size_t x_len);

/* The window in place: `xs` has 960 numbers. */
uint32_t tuppence_window_in_place(float *xs, size_t xs_len);


/* ---- desk: opening a bench, the four calls of a frame, and pieces of dictation. `side` is the bench's
   number, 0 to 15; even benches are left, odd ones right. `record` is the bench's record, twelve
   numbers: the call that is due, the cepstral index, the three GRU sizes, the frames since the
   opening, the heard frames, the samples that wait, the length of an unfinished piece and its
   progress, the way (0: our own lag and plain sums; 1: nnnoiseless's lag and fast transforms), and
   the bench's number plus 1. A closed record is all zeros. `store` has TUPPENCE_STORE numbers and
   serves all benches. `model` is the contents of a model file. `answer` is what call 3 answers, as
   three numbers: heard (1 or 0), voice, energy. Each call returns 0 if it is done, or the first of
   these refusals that applies: 1 there is no such bench; 2 `store` or `record` has a wrong length,
   or the record is out of range or another bench's; 3 the bench is closed; 4 another call is due; 5
   another slice has a wrong length; 6 the lag is above 768; 7 the model does not read (7 + 256
   times the model's refusal + 65,536 times the layer); 8 the model has other GRU sizes than at the
   opening; 9 a sample is not from -32,768 to 32,767. */

/* The side of a bench: 0 (left) for an even number, 1 (right) for an odd one. */
uint32_t tuppence_side_of(uint32_t bench);

/* Opens a bench, at any time. Its share is wiped, and call 1 is due. It finds the lag by our own
   rule and uses plain sums. */
uint32_t tuppence_open(uint32_t *record, size_t record_len, float *store, size_t store_len,
    uint32_t side, const uint8_t *model, size_t model_len);

/* Opens a bench in nnnoiseless's way: its lag and fast transforms, for halves, pieces, frames,
   takes and feeds until the next opening. */
uint32_t tuppence_open_crate(uint32_t *record, size_t record_len, float *store, size_t store_len,
    uint32_t side, const uint8_t *model, size_t model_len);

/* Call 1. `samples` are the 480 of a frame. `window` gets 960 windowed numbers, which the caller
   transforms. */
uint32_t tuppence_call1(uint32_t *record, size_t record_len, float *store, size_t store_len,
    uint32_t side, const float *samples, size_t samples_len, float *window, size_t window_len);

/* Call 2. `spectrum` is the transform of call 1's window, 961 numbers, and `lag` is at most 768.
   `window` gets 960 numbers, which the caller transforms. `sums` gets 22 numbers; call 3 is lent
   their logarithms. */
uint32_t tuppence_call2(uint32_t *record, size_t record_len, float *store, size_t store_len,
    uint32_t side, const float *spectrum, size_t spectrum_len, uint32_t lag,
    float *window, size_t window_len, float *sums, size_t sums_len);

/* Call 2 with our own lag. `spectrum`, `window` and `sums` are those of call 2. */
uint32_t tuppence_call2_own(uint32_t *record, size_t record_len, float *store, size_t store_len,
    uint32_t side, const float *spectrum, size_t spectrum_len, float *window, size_t window_len,
    float *sums, size_t sums_len);

/* Call 3. `spectrum` is the transform of call 2's window, 961 numbers, and `logs` are the 22
   logarithms of the sums. `out` gets the 961 numbers of the spectrum to be transformed back, and
   `answer` gets three numbers. */
uint32_t tuppence_call3(uint32_t *record, size_t record_len, float *store, size_t store_len,
    uint32_t side, const float *spectrum, size_t spectrum_len, const float *logs, size_t logs_len,
    const uint8_t *model, size_t model_len, float *out, size_t out_len,
    float *answer, size_t answer_len);

/* Call 4. `inverse` are the 960 numbers of the inverse transform. `out` gets the 480 samples of the
   frame. */
uint32_t tuppence_call4(uint32_t *record, size_t record_len, float *store, size_t store_len,
    uint32_t side, const float *inverse, size_t inverse_len, float *out, size_t out_len);

/* The first half of a frame: calls 1 and 2, with the transforms and the lag of the bench's way.
   `samples` are the 480 of a frame. `sums` gets 22 numbers. */
uint32_t tuppence_first_half(uint32_t *record, size_t record_len, float *store, size_t store_len,
    uint32_t side, const float *samples, size_t samples_len, float *sums, size_t sums_len);

/* The second half of a frame: calls 3 and 4. `logs` are the 22 logarithms of the sums. `out` gets
   480 samples, and `answer` three numbers. */
uint32_t tuppence_second_half(uint32_t *record, size_t record_len, float *store, size_t store_len,
    uint32_t side, const float *logs, size_t logs_len, const uint8_t *model, size_t model_len,
    float *out, size_t out_len, float *answer, size_t answer_len);

/* Begins a piece of 1 to 4,096 `samples`. `out` has room for 480 samples of each frame that the
   piece completes. `sums` has room for 22: it gets those of the first frame, if there is one, and
   the piece then waits to be resumed. */
uint32_t tuppence_piece(uint32_t *record, size_t record_len, float *store, size_t store_len,
    uint32_t side, const float *samples, size_t samples_len, float *out, size_t out_len,
    float *sums, size_t sums_len);

/* Goes on with a piece: the same `samples` and the same `out`, and the 22 `logs` of the sums.
   `sums` gets those of the next frame, if there is one, and `answer` the three numbers of the frame
   that is now done. */
uint32_t tuppence_resume(uint32_t *record, size_t record_len, float *store, size_t store_len,
    uint32_t side, const float *samples, size_t samples_len, const float *logs, size_t logs_len,
    const uint8_t *model, size_t model_len, float *out, size_t out_len,
    float *sums, size_t sums_len, float *answer, size_t answer_len);


/* ---- feed: a block of recorded bytes in one call. `record` is a side's record as twelve numbers, and
   `store` 98,304, as in `of_desk`; `model` is a model file's bytes. Returned is 0 or the refusal. */

/* `bytes` are 1 to 4,096 whole samples of all channels, little end first; `format` is 16, 24, 32
   for floats, or 33 for 32-bit integers; of so many channels by turns one is the bench's. For each
   frame that its samples complete `out` has 960 bytes, `records` the 8 bytes of its record in the
   side sheet, with the bench's own side, and `answers` three numbers, or more, which stay. */
uint32_t tuppence_feed(uint32_t *record, size_t record_len, float *store, size_t store_len,
    uint32_t side, const uint8_t *bytes, size_t bytes_len, uint32_t format, uint32_t channels,
    uint32_t channel, const uint8_t *model, size_t model_len, uint8_t *out, size_t out_len,
    uint8_t *records, size_t records_len, float *answers, size_t answers_len);


/* ---- fft: the two transforms in their fast form. Refusal 5: a slice has a wrong length. */

/* From samples to a spectrum: `samples` has 960 numbers, `spectrum` gets 961: bin 0, then the real
   and imaginary parts of bins 1 to 480. */
uint32_t tuppence_fft_forward(float *spectrum, size_t spectrum_len,
    const float *samples, size_t samples_len);

/* From a spectrum to samples, not normalised: `spectrum` has 961 numbers, `samples` gets 960. */
uint32_t tuppence_fft_inverse(float *samples, size_t samples_len,
    const float *spectrum, size_t spectrum_len);


/* ---- finder: nnnoiseless's pitch finder. Refusal 5: a slice has a wrong length. */

/* `numbers` has two places, the last period and the last gain, and gets the new ones. `place` has
   one place, for the period, 60 to 767. `input_mem` has the last 1,728 filtered samples. */
uint32_t tuppence_find(float *numbers, size_t numbers_len, uint32_t *place, size_t place_len,
    const float *input_mem, size_t input_mem_len);


/* ---- lag: our own lag. Refusal 5: a slice has a wrong length. */

/* Our own lag, an even number from 182 to 768. `place` has one place, for the lag, and `input_mem`
   has the last 1,728 filtered samples. */
uint32_t tuppence_lag(uint32_t *place, size_t place_len,
    const float *input_mem, size_t input_mem_len);


/* ---- logs: our own logarithm. Refusal 5: a slice has a wrong length. */

/* The logarithm to base 10, rounded to the nearest f32. */
float tuppence_log10(float x);

/* The logarithms of 22 numbers. `logs` and `sums` have 22 each. */
uint32_t tuppence_logs(float *logs, size_t logs_len, const float *sums, size_t sums_len);


/* ---- model: what a file reads as, in numbers. A refusal r, 11 to 22, of layer l is r + 65,536 l; 5 is
   a wrong length. */

/* `numbers` has thirty places: six times inputs, neurons, activation, offset and length. `model` is
   a file's bytes. */
uint32_t tuppence_model(uint32_t *numbers, size_t numbers_len,
    const uint8_t *model, size_t model_len);

/* Where an array of a model is. `place` has two numbers: the place of the array's first byte in
   `model`, and how many bytes it has. `layer` is 0 to 5, and `array` 0 for the input weights, 1 for
   the recurrent ones, 2 for the biases. An array that the file does not have is told as 0 bytes. */
uint32_t tuppence_model_array(uint32_t *place, size_t place_len,
    const uint8_t *model, size_t model_len, uint32_t layer, uint32_t array);

/* Which of two model files is taken: 0 is `trial`, if it reads; 1 is `house`, if only that reads; 2
   is neither. */
uint32_t tuppence_model_choose(const uint8_t *trial, size_t trial_len,
    const uint8_t *house, size_t house_len);


/* ---- network: a dense layer, a GRU layer, and all six layers of a model for one frame. Refusals: 5, a
   slice has a wrong length; and if the model does not read, 7 + 256 times the model's refusal +
   65,536 times the layer. */

/* A dense layer with i inputs and n neurons, 1 to 127 each. `output` has n numbers, `weights` has
   i*n, `bias` has n, `input` has i. `activation` is 0 for tanh, 1 for sigmoid, 2 for relu. */
uint32_t tuppence_dense(float *output, size_t output_len,
    const uint8_t *weights, size_t weights_len, const uint8_t *bias, size_t bias_len,
    uint32_t activation, const float *input, size_t input_len);

/* A GRU layer. `state` has n numbers and is replaced by the frame's output. `weights` has 3*i*n,
   `recurrent` 3*n*n, `bias` 3*n, `input` i. */
uint32_t tuppence_gru(float *state, size_t state_len, const uint8_t *weights, size_t weights_len,
    const uint8_t *recurrent, size_t recurrent_len, const uint8_t *bias, size_t bias_len,
    uint32_t activation, const float *input, size_t input_len);

/* The six layers for one frame. `gains` gets 22 numbers, `voice` one. The states `vad`, `noise` and
   `denoise` have 128 numbers each. `features` are 42, and `model` is the contents of a model file. */
uint32_t tuppence_network(float *gains, size_t gains_len, float *voice, size_t voice_len,
    float *vad, size_t vad_len, float *noise, size_t noise_len, float *denoise, size_t denoise_len,
    const uint8_t *model, size_t model_len, const float *features, size_t features_len);


/* ---- numbers: activations, square root, maximum and minimum, and the filter. Refusal 5: a slice has a
   wrong length. */

/* The hyperbolic tangent by nnnoiseless's table and interpolation. NaN gives 0. */
float tuppence_tansig(float x);

/* The sigmoid, by the same table. NaN gives 0.5. */
float tuppence_sigmoid(float x);

/* x if it is above 0, otherwise 0. NaN gives 0. */
float tuppence_relu(float x);

/* The square root, rounded to nearest. */
float tuppence_sqrt(float x);

/* The larger of two numbers. +0 is larger than -0. If one is NaN, the other one. */
float tuppence_max(float a, float b);

/* The smaller of two numbers; the left one if they compare equal. If one is NaN, the other one. */
float tuppence_min(float a, float b);

/* x limited to the range from low to high. NaN stays NaN. */
float tuppence_clamp(float x, float low, float high);

/* The nearest f32 to an f64. */
float tuppence_narrow(double x);

/* A filter of the second order. `output` is as long as `input`. `memory` has m0 and m1, and gets
   the new ones. `coefficients` are a0, a1, b0 and b1. */
uint32_t tuppence_filter(float *output, size_t output_len, float *memory, size_t memory_len,
    const float *coefficients, size_t coefficients_len, const float *input, size_t input_len);


/* ---- pcm: recorded bytes to samples, and samples to bytes. */

/* Unpacks one channel. `bytes` are whole samples of all channels in turn, least significant byte
   first. `format` is 16 or 24 for integers of that many bits, 33 for 32-bit integers, 32 for
   floats. `out` has a place for each sample of the channel. */
uint32_t tuppence_unpack(float *out, size_t out_len, const uint8_t *bytes, size_t bytes_len,
    uint32_t format, uint32_t channels, uint32_t channel);

/* Packs samples as 16-bit integers. `out` has two bytes for each of the `samples`. */
uint32_t tuppence_pack(uint8_t *out, size_t out_len, const float *samples, size_t samples_len);


/* ---- pitch: the arithmetic of the pitch search. The slice that a function writes comes first. Refusal
   5: a slice has a wrong length. */

/* The sum of n products. `sum` has one place, for it. `xs` and `ys` have n numbers or more. */
uint32_t tuppence_inner_prod(float *sum, size_t sum_len, const float *xs, size_t xs_len,
    const float *ys, size_t ys_len, size_t n);

/* Linear prediction. `ac` has at least one number more than `lpc`. */
uint32_t tuppence_lpc(float *lpc, size_t lpc_len, const float *ac, size_t ac_len);

/* `xcorr` gets a correlation of `xs` and `ys` in each of its places. If it has any, `ys` is at
   least as long as the two others together less 1, and as both lengths rounded down to a multiple
   of 4. */
uint32_t tuppence_pitch_xcorr(float *xcorr, size_t xcorr_len, const float *xs, size_t xs_len,
    const float *ys, size_t ys_len);

/* The two best lags. `pitches` has two places, for them. `ys` has at least len numbers more than
   `xcorr`. */
uint32_t tuppence_find_best_pitch(uint64_t *pitches, size_t pitches_len,
    const float *xcorr, size_t xcorr_len, const float *ys, size_t ys_len, size_t len);

/* A filter of five taps, in place. `xs` has any length, `num` has five numbers. */
uint32_t tuppence_fir5(float *xs, size_t xs_len, const float *num, size_t num_len);

/* Autocorrelation. `ac` has five places, `x` five numbers or more. */
uint32_t tuppence_autocorr(float *ac, size_t ac_len, const float *x, size_t x_len);

/* Halves the sampling rate. `x` has 1,728 numbers, `x_lp` gets 864. */
uint32_t tuppence_downsample(float *x_lp, size_t x_lp_len, const float *x, size_t x_len);


/* ---- recorder: a recording while it is being made. Which of a feed's bytes belong to it, and its head,
   seal and trailer. Refusals: 5 a wrong length; 53 no side; 67 longer than a recording can be; 68
   not the records of the next frames; 69 no audio, or more than a recording has; 70 not as many
   records as the audio takes; 71 no place for a cut. */

/* A recording begins. `numbers` has eight places; what they held is overwritten. `side` is 0 for
   left and 1 for right; it `began` so many seconds after 1970 began, 0 if nobody knows; its `first`
   frame has this number, 0 after an opening. */
uint32_t tuppence_recorder_begin(uint64_t *numbers, size_t numbers_len, uint32_t side,
    uint64_t began, uint32_t first);

/* What a feed gave. `numbers` has eight places, as they were left. The feed took in `taken` samples
   of the stream, 0 if it was silence; it gave the bytes `cleaned`, 960 for each frame, and the
   `records`, 8 for each. `part` has two places: where the bytes begin that belong to the recording,
   and how many they are. A host writes these, and all records. */
uint32_t tuppence_recorder_more(uint64_t *numbers, size_t numbers_len,
    uint64_t *part, size_t part_len, uint32_t taken, const uint8_t *cleaned, size_t cleaned_len,
    const uint8_t *records, size_t records_len);

/* `silence` has one place: how many samples of silence the bench must still be fed after the
   stream's last sample, so that all that was taken in comes out. `numbers` has eight places, as
   they were left. */
uint32_t tuppence_recorder_closing(uint64_t *silence, size_t silence_len,
    const uint64_t *numbers, size_t numbers_len);

/* The bench goes on in the next recording, which `began` then. `numbers` has eight places, as they
   were left after a whole frame; they become those of the next recording. The recording that ends
   is finished first. */
uint32_t tuppence_recorder_next(uint64_t *numbers, size_t numbers_len, uint64_t began);

/* The recording ends here. `numbers` has eight places, as they were left. `head` has 76 bytes,
   which are before the audio; `chunk` has 32, which are between the audio and the records;
   `trailer` has 16, which are after the records. */
uint32_t tuppence_recorder_finish(uint8_t *head, size_t head_len, uint8_t *chunk, size_t chunk_len,
    uint8_t *trailer, size_t trailer_len, const uint64_t *numbers, size_t numbers_len);


/* ---- recording: whether a file's bytes are exactly those that the box writes for a side, and what is
   around its audio. Refusals: 5 a wrong length; 53 no side; 61 the head, or a size that no
   recording has; 62 it ends within its audio; 63 what is between the audio and the records; 64 the
   records; 65 their trailer; 66 something follows. */

/* A judge: `numbers` has eleven places, and `held` 76 bytes. What they held is overwritten. */
uint32_t tuppence_judge_begin(uint64_t *numbers, size_t numbers_len, uint8_t *held, size_t held_len);

/* `numbers` has eleven places and `held` 76 bytes, as they were left. The next `bytes` of the file,
   as many as there are. */
uint32_t tuppence_judge_more(uint64_t *numbers, size_t numbers_len, uint8_t *held, size_t held_len,
    const uint8_t *bytes, size_t bytes_len);

/* The file ends here. `numbers` has eleven places and `held` 76 bytes, as they were left. `out` has
   five places: the side, when it began, the number of its first frame, how many frames, and how
   many were heard. Or 61 to 66: the first part that is not as the box writes it. */
uint32_t tuppence_judge_verdict(uint64_t *out, size_t out_len,
    const uint64_t *numbers, size_t numbers_len, const uint8_t *held, size_t held_len);

/* `out` has 76 bytes: the head of a recording of a side, 0 for left, 1 for right, which `began` so
   many seconds after 1970 began, 0 if nobody knows; its `first` frame has this number, and its
   audio `size` bytes, whole samples, and at most 4,259,471,040; or 4,294,967,295 while it is being
   made. */
uint32_t tuppence_recording_head(uint8_t *out, size_t out_len, uint32_t side, uint64_t began,
    uint32_t first, uint32_t size);

/* `out` has 32 bytes: what is between `size` bytes of audio, which have this `checksum`, and the
   records. `side` and `first` as in the head. */
uint32_t tuppence_recording_chunk(uint8_t *out, size_t out_len, uint32_t side, uint32_t first,
    uint32_t size, uint32_t checksum);


/* ---- sheet: the side sheet of a recording, written at once or in parts, read, and mended. An entry is
   a frame's number, plus 2^32 if the frame was heard. Refusals: 5 a slice has a wrong length, or
   there is no such entry; 31 the file is too short for a sheet; 32 it does not end in a trailer
   that points back to records; 33 the trailer's side is neither left nor right; 34 a record is
   damaged; 35 the records have another sum; 36 `out` is too short; 37 the place is beyond the end;
   38 there is no record to keep. */

/* Writes a whole sheet. `entries` has at most 536,870,911. `out` has 16 bytes and 8 for each entry;
   what it has beyond that stays. `side` is 0 for left, 1 for right. */
uint32_t tuppence_sheet_write(uint8_t *out, size_t out_len, uint32_t side,
    const uint64_t *entries, size_t entries_len);

/* Writes the next records. `numbers` has two places, both 0 at first: how many records there are so
   far, and the sum of their bytes. `entries` are the next ones. `out` has 8 bytes for each; what it
   has beyond that stays. */
uint32_t tuppence_sheet_records(uint64_t *numbers, size_t numbers_len, uint8_t *out, size_t out_len,
    uint32_t side, const uint64_t *entries, size_t entries_len);

/* Writes the trailer of `count` records with this `sum`. `out` has 16 bytes; what it has beyond
   that stays. */
uint32_t tuppence_sheet_trailer(uint8_t *out, size_t out_len, uint32_t side, uint64_t count,
    uint64_t sum);

/* Reads a sheet. `numbers` has three places: where the records start, how many there are, and the
   side. `file` is the bytes of a recording, or its last ones from the first record on. */
uint32_t tuppence_sheet_read(uint64_t *numbers, size_t numbers_len,
    const uint8_t *file, size_t file_len);

/* Reads one entry. `entry` has one place, for the entry with this index, counted from 0. `file` is
   as for tuppence_sheet_read. */
uint32_t tuppence_sheet_entry(uint64_t *entry, size_t entry_len,
    const uint8_t *file, size_t file_len, uint64_t index);

/* Mends a torn sheet. `numbers` has two places: how many bytes are written, and how many records
   they have. `out` has 16 bytes more than `file`, which is always enough. The audio of `file` ends
   at `place`. */
uint32_t tuppence_mend(uint64_t *numbers, size_t numbers_len, uint8_t *out, size_t out_len,
    const uint8_t *file, size_t file_len, uint64_t place);


/* ---- transforms: the two transforms as plain sums. Refusal 5: a slice has a wrong length. */

/* From samples to a spectrum: `samples` has 960 numbers, `spectrum` gets 961: bin 0, then the real
   and imaginary parts of bins 1 to 480. */
uint32_t tuppence_forward(float *spectrum, size_t spectrum_len,
    const float *samples, size_t samples_len);

/* From a spectrum to samples, not normalised: `spectrum` has 961 numbers, `samples` gets 960. */
uint32_t tuppence_inverse(float *samples, size_t samples_len,
    const float *spectrum, size_t spectrum_len);


/* ---- checksum and wav: a checksum, the two seals of a recording, and the head of a WAV file. */

/* The CRC-32 of the bytes so far, followed by these `bytes`. `before` is the checksum of the bytes
   so far, 0 at first. */
uint32_t tuppence_checksum(uint32_t before, const uint8_t *bytes, size_t bytes_len);

/* Writes the end seal of a recording. `out` has 24 bytes. `side` is 0 for left, 1 for right; the
   audio has `size` bytes with this `checksum`. */
uint32_t tuppence_seal_write(uint8_t *out, size_t out_len, uint32_t side, uint64_t size,
    uint32_t checksum);

/* Reads an end seal. `numbers` has three places: the side, the number of bytes of audio, and their
   checksum. `file` is whatever there is from the end seal on. */
uint32_t tuppence_seal_read(uint64_t *numbers, size_t numbers_len,
    const uint8_t *file, size_t file_len);

/* Writes the front seal of a recording. `out` has 24 bytes. The recording began `began` seconds
   after the start of 1970, 0 if nobody knows, and its `first` frame has this number. */
uint32_t tuppence_front_write(uint8_t *out, size_t out_len, uint32_t side, uint64_t began,
    uint32_t first);

/* Reads a front seal. `numbers` has three places: the side, when the recording began, and the
   number of its first frame. `file` is whatever there is from the front seal on. */
uint32_t tuppence_front_read(uint64_t *numbers, size_t numbers_len,
    const uint8_t *file, size_t file_len);

/* Writes the head of a WAV file. `out` has 44 bytes. The audio has `size` bytes at this rate, and
   the chunks `behind` it have so many bytes. */
uint32_t tuppence_wav_head(uint8_t *out, size_t out_len, uint32_t rate, uint32_t size,
    uint32_t behind);

/* Reads the head of a WAV file, a chunk at a time. `numbers` has five places, all 0 at first: the
   place in the file, the format, the channels, the rate and the size of the audio. `file` has the
   bytes from that place on, 34 or more unless the file ends. 40 means: call again. */
uint32_t tuppence_wav_read(uint64_t *numbers, size_t numbers_len,
    const uint8_t *file, size_t file_len);


/* ---- whole: a frame, or a piece of dictation, in one call, with our own logarithms. `record`, `store`,
   `model` and the refusals are as for the desk's calls. */

/* Cleans one frame. `samples` are its 480, `out` gets 480, and `answer` three numbers: heard (1 or
   0), voice, energy. */
uint32_t tuppence_frame(uint32_t *record, size_t record_len, float *store, size_t store_len,
    uint32_t side, const float *samples, size_t samples_len, const uint8_t *model, size_t model_len,
    float *out, size_t out_len, float *answer, size_t answer_len);

/* Cleans 1 to 4,096 samples, `piece`. For each frame that they complete together with the samples
   that wait, `out` gets 480 samples and `answers` three numbers; what these have beyond that stays.
   4,320 and 27 places are always enough. */
uint32_t tuppence_take(uint32_t *record, size_t record_len, float *store, size_t store_len,
    uint32_t side, const float *piece, size_t piece_len, const uint8_t *model, size_t model_len,
    float *out, size_t out_len, float *answers, size_t answers_len);


/* ---- model: writes a model file from the sizes, activations and arrays of its six layers. Refusals: 5,
   `shapes` has a wrong length; otherwise r + 65,536 times the layer, with r 12 to 22 as when a
   model is read, or 24 if `out` is too short. */

/* `shapes` has 18 numbers: inputs, neurons and activation of each layer. The arrays are signed
   bytes: `w0`, `b0` (weights and biases) of input_dense; `w1`, `r1`, `b1` (weights, recurrent
   weights, biases) of vad_gru; `w2`, `r2`, `b2` of noise_gru; `w3`, `r3`, `b3` of denoise_gru;
   `w4`, `b4` of denoise_output; `w5`, `b5` of vad_output. `out` has the length of the file; what it
   has beyond that stays. */
uint32_t tuppence_write_model(uint8_t *out, size_t out_len,
    const uint32_t *shapes, size_t shapes_len, const uint8_t *w0, size_t w0_len,
    const uint8_t *b0, size_t b0_len, const uint8_t *w1, size_t w1_len,
    const uint8_t *r1, size_t r1_len, const uint8_t *b1, size_t b1_len,
    const uint8_t *w2, size_t w2_len, const uint8_t *r2, size_t r2_len,
    const uint8_t *b2, size_t b2_len, const uint8_t *w3, size_t w3_len,
    const uint8_t *r3, size_t r3_len, const uint8_t *b3, size_t b3_len,
    const uint8_t *w4, size_t w4_len, const uint8_t *b4, size_t b4_len,
    const uint8_t *w5, size_t w5_len, const uint8_t *b5, size_t b5_len);

#ifdef __cplusplus
}
#endif

#endif
