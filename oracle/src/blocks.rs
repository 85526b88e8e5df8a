//! Blocks of recorded bytes in one call, the library's `feed`, beside what it is by definition: a channel unpacked in
//! plain Rust (`plain_pcm`), a take, and plain packing and records, on a second store. (The package `feed` of this
//! folder is another thing: it hands the text its transforms and logarithms.)

use crate::answers::Answers;
use crate::beside::another_bench;
use crate::desk::{
    self, gate, pass, Due, Way, BENCH, BENCHES, COUNTS, DUE, FRAMES, INDEX, RECORD, STORE, UNFINISHED, WAIT, WAITING,
    WAY,
};
use crate::dictation::{completed, LONGEST};
use crate::faults::{befallen, closed_but_for_its_bench, closed_with_a_way, unfinished, Fault, SHAPE, SIDE};
use crate::models::{self, Shape};
use crate::pcm::NO_FORMATS;
use crate::plain_pcm::{self as plain, Layout};
use crate::rng::{Mood, Rng};
use crate::surface::OURS;
use crate::tally::{Given, Tally, Value};
use crate::Options;

type Feed = fn(&mut [u32], &mut [f32], u32, &[u8], u32, u32, u32, &[u8], &mut [u8], &mut [u8], &mut [f32]) -> u32;

pub fn compare(options: &Options) -> Tally {
    let mut tally = Tally::new("feed");
    let rng = &mut Rng::new(options.seed);
    let met = interleaved(&mut tally, rng, tuppence::feed, options.calls(1_000));
    tally.note(&met.told());
    every_two_faults(&mut tally, rng, tuppence::feed);
    beside_any_right(&mut tally, rng, tuppence::feed, options.calls(1_000));
    cut_in_two_ways(&mut tally, rng, tuppence::feed, options.calls(1_000) / 20);
    tally
}

/// A call, and what it meets.
#[derive(Clone)]
struct Case {
    record: Vec<u32>,
    store: Vec<f32>,
    side: u32,
    bytes: Vec<u8>,
    layout: Layout,
    model: Vec<u8>,
    out: Vec<u8>,
    records: Vec<u8>,
    answers: Vec<f32>,
    /// The frames that it completes.
    frames: usize,
}

impl Case {
    /// A bench that is opened, in either way, with nothing to take yet.
    fn opened(rng: &mut Rng, side: u32, store: Vec<f32>, shape: Shape) -> Case {
        let mut case = Case {
            record: vec![0; RECORD],
            store,
            side,
            bytes: vec![],
            layout: Layout { format: 16, channels: 1, channel: 0 },
            model: models::of_shape(rng, shape),
            out: vec![],
            records: vec![],
            answers: vec![],
            frames: 0,
        };
        let open = OURS.opening(Way::any(rng));
        assert_eq!(open(&mut case.record, &mut case.store, side, &case.model), 0);
        case
    }

    /// The same bench with a block, and buffers that are as short as may be; what they hold is anything.
    fn with(&self, rng: &mut Rng, layout: Layout, bytes: Vec<u8>) -> Case {
        let samples = plain::unpack(&bytes, layout).map_or(0, |samples| samples.len());
        let frames = completed(self.record[WAITING] as usize, samples);
        let (out, records) = (rng.bytes(960 * frames), rng.bytes(8 * frames));
        Case { bytes, layout, out, records, answers: rng.list_of(3 * frames, Mood::Any), frames, ..self.clone() }
    }

    fn put(&mut self, feed: Feed) -> u32 {
        let Layout { format, channels, channel } = self.layout;
        let Case { record, store, side, bytes, model, out, records, answers, .. } = self;
        feed(record, store, *side, bytes, format, channels, channel, model, out, records, answers)
    }

    /// What a feed is by definition. What is to be refused is worked out from the ruling, before anything changes.
    fn by_definition(&mut self) -> u32 {
        pass!(gate(Due::Piece, &self.record, &self.store, self.side));
        let Some(samples) = plain::unpack(&self.bytes, self.layout) else { return 5 };
        let frames = completed(self.record[WAITING] as usize, samples.len());
        let room =
            self.out.len() >= 960 * frames && self.records.len() >= 8 * frames && self.answers.len() >= 3 * frames;
        if !(1..=LONGEST).contains(&samples.len()) || !room {
            return 5;
        }
        let first = self.record[FRAMES];
        let mut cleaned = vec![0.0; 480 * frames];
        let Case { record, store, side, model, answers, .. } = self;
        pass!(tuppence::take(record, store, *side, &samples, model, &mut cleaned, answers));
        self.out[..960 * frames].copy_from_slice(&plain::pack(&cleaned));
        for (j, record) in (0..).zip(self.records[..8 * frames].chunks_exact_mut(8)) {
            let heard = self.answers[3 * j as usize] != 0.0;
            record[..4].copy_from_slice(&first.wrapping_add(j).to_le_bytes());
            record[4..].copy_from_slice(&[u8::from(heard), (self.side % 2) as u8, 0, 0]);
        }
        0
    }

    /// What a call leaves, the number returned first; bit for bit where it is what is wanted.
    fn left<'a>(&'a self, numbers: &'a [u32], floats: fn(&'a [f32]) -> Value<'a>) -> [Value<'a>; 6] {
        let Case { record, store, out, records, answers, .. } = self;
        [numbers.into(), record.into(), floats(store), out.into(), records.into(), floats(answers)]
    }

    /// A feed beside its definition, and its number, if it is known, beside the lowest of the faults. What the feed
    /// left.
    fn judge(&self, tally: &mut Tally, feed: Feed, lowest: Option<u32>) -> (u32, Case) {
        let Layout { format, channels, channel } = self.layout;
        let numbers = [self.side, format, channels, channel];
        let given = [
            ("side, format, channels, channel", Value::from(&numbers)),
            ("record", (&self.record).into()),
            ("bytes", (&self.bytes).into()),
            ("model", (&self.model).into()),
        ];
        let given = Given::new(&given);
        let (mut ours, mut wanted) = (self.clone(), self.clone());
        let (number, want) = (ours.put(feed), wanted.by_definition());
        // of refusal 7, not the model's own number and layer
        let (told, expected) = ([number, want % 256], [want, lowest.unwrap_or(want % 256)]);
        tally.judge("feed", given, &ours.left(&told, Value::Floats), &wanted.left(&expected, Value::Kept));
        if ours.bytes != self.bytes || ours.model != self.model {
            tally.differs(|text| *text += "feed: what was given is changed\n");
        }
        (number, ours)
    }
}

/// A block: of the bench's own channel silence, or sound of some loudness, and now and then a float that is no sample;
/// of the others anything.
fn recorded(rng: &mut Rng, Layout { format, channels, channel }: Layout, samples: usize) -> Vec<u8> {
    let width = plain::width(format).unwrap_or(2);
    let mut bytes = rng.bytes(samples * channels as usize * width);
    let level = rng.pick(&[0.0, 0.001, 0.3, 1.0, 1.1]);
    for place in (0..samples).map(|i| (i * channels as usize + channel as usize) * width) {
        let x = level * rng.of(Mood::Small);
        let own = match format {
            24 => ((x * 8_388_607.0) as i32).clamp(-8_388_608, 8_388_607).to_le_bytes(),
            32 => x.to_le_bytes(),
            33 => ((f64::from(x) * 2_147_483_647.0) as i32).to_le_bytes(),
            _ => i32::from((x * 32_767.0) as i16).to_le_bytes(),
        };
        if let Some(to) = bytes.get_mut(place..place + width) {
            to.copy_from_slice(&own[..width]);
        }
    }
    if format == 32 && rng.once_in(6) && samples > 0 {
        let i = rng.pick(&[0, samples - 1]);
        let place = 4 * (i * channels as usize + channel as usize);
        bytes[place..place + 4].copy_from_slice(&rng.special().to_le_bytes());
    }
    bytes
}

/// How feeds were answered; how many frames they completed, and how many of these were heard.
#[derive(Default)]
struct Met {
    answers: Answers,
    frames: u64,
    heard: u64,
}

impl Met {
    fn count(&mut self, number: u32, before: &Case, left: &Case) {
        self.answers.count(0, number, &left.record);
        if number == 0 {
            self.frames += u64::from(left.record[FRAMES].wrapping_sub(before.record[FRAMES]));
            self.heard += u64::from(left.record[desk::HEARD].wrapping_sub(before.record[desk::HEARD]));
        }
    }

    fn told(&self) -> String {
        let Met { answers, frames, heard } = self;
        let [done, crates] = [answers.done(0), answers.of_crate(0)];
        let refused = answers.refused(0);
        format!("{done} blocks of {frames} frames, {heard} heard, {crates} in the crate's way; refused {refused}")
    }
}

/// Blocks on sixteen interleaved benches, until they completed so many frames; now and then a number, a length or the
/// record is another.
fn interleaved(tally: &mut Tally, rng: &mut Rng, feed: Feed, frames: u64) -> Met {
    let mut store = rng.list(STORE);
    let mut benches: Vec<Option<Case>> = vec![None; BENCHES];
    let mut met = Met::default();
    while met.frames < frames {
        let side = rng.below(BENCHES);
        let shape = models::shape(rng);
        let bench = match benches[side].take() {
            Some(bench) if !rng.once_in(60) => Case { store, ..bench },
            _ => Case::opened(rng, side as u32, store, shape),
        };
        let channels = 1 + rng.below(8) as u32;
        let layout =
            Layout { format: rng.pick(&[16, 24, 32, 33]), channels, channel: rng.below(channels as usize) as u32 };
        let samples = match rng.below(4) {
            0 => 1 + rng.below(LONGEST),
            1 => rng.pick(&[1, 479, 480, 481, LONGEST]),
            _ => 1 + rng.below(1_200),
        };
        let bytes = recorded(rng, layout, samples);
        let mut case = bench.with(rng, layout, bytes);
        let damaged = damage(rng, &mut case);
        let (number, left) = case.judge(tally, feed, None);
        met.count(number, &case, &left);
        store = if damaged { bench.store.clone() } else { left.store.clone() };
        benches[side] = Some(if damaged { bench } else { left });
    }
    met
}

/// Now and then something is another; the bench goes on as if nothing had been.
fn damage(rng: &mut Rng, case: &mut Case) -> bool {
    match rng.below(25) {
        0 => case.layout.format = rng.pick(&NO_FORMATS),
        1 => case.layout.channels = rng.pick(&[0, 9, 65_536, u32::MAX]),
        2 => case.layout.channel = rng.pick(&[case.layout.channels, 65_535, u32::MAX]),
        3 => case.bytes.truncate(case.bytes.len() - 1),
        4 => case.out.resize(rng.near(case.out.len()), 1),
        5 => case.records.resize(rng.near(case.records.len()), 1),
        6 => case.answers.resize(rng.near(case.answers.len()), 1.0),
        7 => case.side = rng.pick(&[16, 17, u32::MAX]),
        8 => case.record[rng.below(RECORD)] = rng.pick(&[0, 1, 2, 5, 8, 128, 480, 4_097, u32::MAX]),
        9 => case.model = models::any(rng),
        10 => case.record.fill(0),
        11 => case.bytes.resize(case.bytes.len() + 12 * LONGEST, 0),
        12 => (case.record[DUE], case.record[WAITING]) = (2, 0),
        13 => case.record[BENCH] = another_bench(rng, case.side as usize),
        _ => return false,
    }
    true
}

/// The first number of the samples that wait.
fn first_waiting(case: &mut Case) -> &mut f32 {
    &mut desk::share_of(&mut case.store, SIDE)[WAIT.start]
}

const ANY: &[Fault<Case>] = &[
    (0, |c| c.out.push(7)),
    (0, |c| c.records.push(7)),
    (0, |c| c.answers.push(0.5)),
    (1, |c| c.side = 16),
    (1, |c| c.side = u32::MAX),
    (2, |c| c.store.truncate(STORE - 1)),
    (2, |c| c.store.push(0.0)),
    (2, |c| c.record.truncate(RECORD - 1)),
    (2, |c| c.record.push(0)),
    (2, |c| c.record[DUE] = 5),
    (2, |c| c.record[INDEX] = 8),
    (2, |c| c.record[COUNTS.end - 1] = 128),
    (2, |c| c.record[WAITING] = 480),
    (2, |c| c.record[UNFINISHED] = LONGEST as u32 + 1),
    (2, |c| c.record[WAY] = 2),
    (2, |c| c.record[WAY] = u32::MAX),
    (2, |c| closed_with_a_way(&mut c.record)),
    (2, |c| (c.record[DUE], c.record[BENCH]) = (1, 0)),
    (2, |c| c.record[BENCH] = SIDE),
    (2, |c| c.record[BENCH] = 17),
    (2, |c| c.record[BENCH] = u32::MAX),
    (2, |c| closed_but_for_its_bench(&mut c.record)),
    (2, |c| (c.record[DUE], c.side) = (1, 0)),
    (3, |c| c.record.fill(0)),
    (4, |c| (c.record[DUE], c.record[WAITING]) = (2, 0)),
    (4, |c| unfinished(&mut c.record)),
    (5, |c| c.layout.format = 0),
    (5, |c| c.layout.format += 2),
    (5, |c| c.layout.channels = 0),
    (5, |c| c.layout.channels = 65_536),
    (5, |c| c.layout.channel = c.layout.channels),
    (5, |c| c.layout.channel = u32::MAX),
    (5, |c| _ = c.bytes.pop()),
    (5, |c| c.bytes.push(7)),
    (5, |c| c.bytes.clear()),
    (5, |c| c.bytes.resize((LONGEST + 1) * 12, 7)),
    (7, |c| _ = c.model.pop()),
    (7, |c| c.model.clear()),
    (7, |c| c.model[0] = 41),
    (8, |c| c.model = models::of_shape(&mut Rng::new(1), [2, 4, 4, 5])),
    (8, |c| c.model = models::of_shape(&mut Rng::new(1), [2, 3, 4, 6])),
];

/// Where a frame is completed.
const COMPLETING: &[Fault<Case>] = &[
    (5, |c| c.out.truncate(960 * c.frames - 1)),
    (5, |c| c.records.truncate(8 * c.frames - 1)),
    (5, |c| c.answers.truncate(3 * c.frames - 1)),
];

/// Where samples wait.
const OF_WAITING: &[Fault<Case>] = &[(9, |c| *first_waiting(c) = f32::NAN)];

/// Of floats of three channels, of which the last is the bench's.
const OF_FLOATS: &[Fault<Case>] = &[
    (0, |c| c.bytes[..4].copy_from_slice(&f32::NAN.to_le_bytes())),
    (0, |c| c.bytes[4..8].copy_from_slice(&f32::INFINITY.to_le_bytes())),
    (0, |c| c.bytes[8..12].copy_from_slice(&2.0f32.to_le_bytes())),
    (9, |c| c.bytes[8..12].copy_from_slice(&f32::NAN.to_le_bytes())),
    (9, |c| {
        let last = c.bytes.len() - 4;
        c.bytes[last..].copy_from_slice(&f32::NEG_INFINITY.to_le_bytes());
    }),
];

/// Blocks without a fault, with each, and with every two at once. Of two with one number one may undo the other.
fn every_two_faults(tally: &mut Tally, rng: &mut Rng, feed: Feed) {
    let store = rng.list(STORE);
    for (waiting, samples, format, channels) in
        [(0, 480, 16, 2), (100, 5, 24, 1), (100, 1_000, 32, 3), (479, 500, 32, 3), (30, 500, 33, 2)]
    {
        let layout = Layout { format, channels, channel: channels - 1 };
        let bench = Case::opened(rng, SIDE, store.clone(), SHAPE);
        let bytes = vec![0; 2 * (960 + waiting)];
        let mut bench = bench.with(rng, Layout { format: 16, channels: 1, channel: 0 }, bytes);
        assert_eq!((bench.put(tuppence::feed), bench.record[WAITING] as usize), (0, waiting));
        // floats at full scale are no sample: here they are sound
        let bytes: Vec<u8> = match format {
            32 => (0..3 * samples).flat_map(|_| rng.of(Mood::Small).to_le_bytes()).collect(),
            _ => recorded(rng, layout, samples),
        };
        let case = bench.with(rng, layout, bytes);
        case.judge(tally, feed, Some(0));
        let parts = [(case.frames > 0, COMPLETING), (waiting > 0, OF_WAITING), (format == 32, OF_FLOATS)];
        let more = parts.iter().filter(|(there, _)| *there).flat_map(|(_, faults)| faults.iter());
        let faults: Vec<Fault<Case>> = ANY.iter().chain(more).copied().collect();
        for (i, one) in faults.iter().enumerate() {
            let (faulty, lowest) = befallen(&case, vec![*one]);
            faulty.judge(tally, feed, Some(lowest));
            for other in &faults[..i] {
                let (faulty, lowest) = befallen(&case, vec![*one, *other]);
                faulty.judge(tally, feed, (one.0 != other.0).then_some(lowest));
            }
        }
    }
}

/// What two blocks give the left bench, each with a right channel or alone: numbers, bytes, records, answers and the
/// bench's own record.
fn received(
    rng: &mut Rng,
    feed: Feed,
    lefts: &[Vec<u8>; 2],
    format: u32,
    right: bool,
    benches: &[Case; 2],
) -> Vec<([u32; 1], Case)> {
    let width = plain::width(format).expect("it is a format");
    let [mut one, mut other] = benches.clone();
    let mut received = vec![];
    for left in lefts {
        let stereo = left.chunks_exact(width).flat_map(|own| [own.to_vec(), rng.bytes(width)].concat());
        let (bytes, channels) = if right { (stereo.collect(), 2) } else { (left.clone(), 1) };
        let case = one.with(rng, Layout { format, channels, channel: 0 }, bytes.clone());
        one = Case {
            out: vec![1; case.out.len()],
            records: vec![1; case.records.len()],
            answers: vec![1.0; case.answers.len()],
            ..case
        };
        let number = [one.put(feed)];
        received.push((number, Case { store: vec![], bytes: vec![], ..one.clone() }));
        if right {
            other = Case { store: one.store, ..other }.with(rng, Layout { format, channels, channel: 1 }, bytes);
            other.put(feed);
            one.store = other.store.clone();
        }
    }
    received
}

/// The left bench beside so many random right channels, whose bench is fed in between, receives what it receives where
/// its channel is all there is.
fn beside_any_right(tally: &mut Tally, rng: &mut Rng, feed: Feed, times: u64) {
    let store = rng.list(STORE);
    let left = Case::opened(rng, 0, store, SHAPE);
    let right = Case::opened(rng, 1, left.store.clone(), SHAPE);
    let benches = [Case { store: right.store.clone(), ..left }, right];
    for format in [16, 24, 32, 33] {
        let lefts = [700, 300].map(|samples| {
            let level = 0.9;
            let xs = (0..samples).map(|_| level * rng.of(Mood::Small));
            let bytes = |x: f32| match format {
                24 => ((x * 8_388_607.0) as i32).to_le_bytes()[..3].to_vec(),
                32 => x.to_le_bytes().to_vec(),
                33 => ((f64::from(x) * 2_147_483_647.0) as i32).to_le_bytes().to_vec(),
                _ => ((x * 32_767.0) as i16).to_le_bytes().to_vec(),
            };
            xs.collect::<Vec<_>>().into_iter().flat_map(bytes).collect::<Vec<u8>>()
        });
        let wanted = received(rng, feed, &lefts, format, false, &benches);
        assert!(wanted.iter().all(|(number, _)| *number == [0]), "the left by itself is refused nothing");
        for _ in 0..times.div_ceil(4) {
            let ours = received(rng, feed, &lefts, format, true, &benches);
            for ((number, ours), (want, wanted)) in ours.iter().zip(&wanted) {
                let (left, right) = (ours.left(number, Value::Floats), wanted.left(want, Value::Kept));
                tally.judge("the left beside any right", Given::new(&[]), &left, &right);
            }
        }
    }
    tally.note(&format!("the left's bytes beside {times} right channels"));
}

/// A stream in blocks of any lengths: what comes out in a row, and the bench at the end.
fn in_blocks(rng: &mut Rng, feed: Feed, bench: &Case, layout: Layout, stream: &[u8]) -> (Vec<u32>, Case) {
    let row = layout.channels as usize * plain::width(layout.format).expect("it is a format");
    let (mut case, mut all, mut rest) = (bench.clone(), bench.clone(), stream);
    let mut numbers = vec![];
    while !rest.is_empty() {
        let (block, behind) = rest.split_at(rest.len().min(row * (1 + rng.below(1_500))));
        case = case.with(rng, layout, block.to_vec());
        numbers.push(case.put(feed));
        all.out.extend(&case.out);
        all.records.extend(&case.records);
        all.answers.extend(&case.answers);
        rest = behind;
    }
    numbers.dedup();
    (numbers, Case { out: all.out, records: all.records, answers: all.answers, ..case })
}

/// However a stream is cut into blocks, its bytes, records and answers in a row are the same, and so is the bench at
/// the end.
fn cut_in_two_ways(tally: &mut Tally, rng: &mut Rng, feed: Feed, times: u64) {
    let store = rng.list(STORE);
    for _ in 0..times {
        let bench = Case::opened(rng, SIDE, store.clone(), SHAPE);
        let channels = 1 + rng.below(8) as u32;
        let layout =
            Layout { format: rng.pick(&[16, 24, 32, 33]), channels, channel: rng.below(channels as usize) as u32 };
        let samples = 1 + rng.below(6_000);
        let stream = recorded(rng, layout, samples);
        if desk::broken(&plain::unpack(&stream, layout).expect("they are whole samples")) {
            continue;
        }
        let [(numbers, one), (want, other)] = [(); 2].map(|_| in_blocks(rng, feed, &bench, layout, &stream));
        let (left, right) = (one.left(&numbers, Value::Floats), other.left(&want, Value::Kept));
        tally.judge("a stream cut in two ways", Given::new(&[]), &left, &right);
    }
}

#[cfg(test)]
mod tests {
    use super::*;

    #[test]
    fn every_refusal_is_met() {
        let mut tally = Tally::new("feed");
        let met = interleaved(&mut tally, &mut Rng::new(7), tuppence::feed, 400);
        assert_eq!(met.answers.numbers(0), [0, 1, 2, 3, 4, 5, 7, 8, 9], "{}", met.told());
        assert!(met.heard > 0 && met.heard < met.frames, "{}", met.told());
        assert!((1..met.answers.done(0)).contains(&met.answers.of_crate(0)), "{}", met.told());
        assert_eq!(tally.differences, 0, "{}", tally.report());
    }

    fn noticed(feed: Feed) -> bool {
        let (mut tally, rng) = (Tally::new("feed"), &mut Rng::new(8));
        interleaved(&mut tally, rng, feed, 60);
        every_two_faults(&mut tally, rng, feed);
        beside_any_right(&mut tally, rng, feed, 3);
        tally.differences > 0
    }

    /// Both channels in the place of each.
    fn summed(bytes: &[u8]) -> Vec<u8> {
        let sum = |row: &[u8]| {
            let [left, right] = [0, 2].map(|at| i16::from_le_bytes([row[at], row[at + 1]]));
            [left.saturating_add(right).to_le_bytes(); 2].concat()
        };
        bytes.chunks(4).flat_map(|row| if row.len() == 4 { sum(row) } else { row.to_vec() }).collect()
    }

    /// Feeds that are wrong in one thing each.
    const WRONG: [(&str, Feed); 6] = [
        ("the neighbour's channel", |r, s, side, b, format, channels, channel, m, o, e, a| {
            let neighbour = if channel < channels { channels - 1 - channel } else { channel };
            tuppence::feed(r, s, side, b, format, channels, neighbour, m, o, e, a)
        }),
        ("the sum of both channels", |r, s, side, b, format, channels, channel, m, o, e, a| {
            let bytes = if (format, channels) == (16, 2) { summed(b) } else { b.to_vec() };
            tuppence::feed(r, s, side, &bytes, format, channels, channel, m, o, e, a)
        }),
        ("the number behind call 4", |r, s, side, b, format, channels, channel, m, o, e, a| {
            let number = tuppence::feed(r, s, side, b, format, channels, channel, m, o, e, a);
            if let (0, Some(first)) = (number, e.first_mut()) {
                *first += 1;
            }
            number
        }),
        ("5 in front of 4", |r, s, side, b, format, channels, channel, m, o, e, a| {
            match tuppence::feed(r, s, side, b, format, channels, channel, m, o, e, a) {
                4 if b.is_empty() => 5,
                number => number,
            }
        }),
        ("an answer behind those of the frames", |r, s, side, b, format, channels, channel, m, o, e, a| {
            let number = tuppence::feed(r, s, side, b, format, channels, channel, m, o, e, a);
            if let (0, Some(last)) = (number, a.last_mut()) {
                *last = 0.25;
            }
            number
        }),
        ("a refusal that writes", |r, s, side, b, format, channels, channel, m, o, e, a| {
            let number = tuppence::feed(r, s, side, b, format, channels, channel, m, o, e, a);
            if let (8 | 9, Some(first)) = (number, o.first_mut()) {
                *first ^= 1;
            }
            number
        }),
    ];

    #[test]
    fn wrong_feeds_are_noticed() {
        assert!(!noticed(tuppence::feed));
        for (what, wrong) in WRONG {
            assert!(noticed(wrong), "{what} is not noticed");
        }
    }
}
