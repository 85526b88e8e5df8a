//! The signs of zeros that the definitions fix, by their bit patterns. (The comparison with the Rust looks at all
//! others that the Rust fixes.)

const PLUS: u32 = 0;
const MINUS: u32 = 0x8000_0000;

fn bits(list: &[f32]) -> Vec<u32> {
    list.iter().map(|x| x.to_bits()).collect()
}

#[test]
fn the_larger_is_maximum_number() {
    // from the least to the largest, in IEEE 754-2019's order of numbers, with -0 below +0
    let least = f32::from_bits(1);
    let numbers = [f32::NEG_INFINITY, -1.0, -least, -0.0, 0.0, least, 1.0, f32::INFINITY];
    for (i, a) in numbers.into_iter().enumerate() {
        for (j, b) in numbers.into_iter().enumerate() {
            assert_eq!(tuppence::max(a, b).to_bits(), numbers[i.max(j)].to_bits(), "{a:?} {b:?}");
        }
        assert_eq!(bits(&[tuppence::max(a, f32::NAN), tuppence::max(f32::NAN, a)]), bits(&[a, a]));
    }
    assert!(tuppence::max(f32::NAN, f32::NAN).is_nan());
}

#[test]
fn the_left_of_two_that_compare_equal() {
    for (a, b, wanted) in [(0.0, -0.0, PLUS), (-0.0, 0.0, MINUS)] {
        assert_eq!(tuppence::min(a, b).to_bits(), wanted);
    }
    assert_eq!(bits(&[tuppence::relu(-0.0), tuppence::relu(0.0), tuppence::relu(-1.0)]), [PLUS; 3]);
    assert_eq!(bits(&[tuppence::clamp(-0.0, 0.0, 1.0), tuppence::clamp(0.0, -1.0, -0.0)]), [MINUS, PLUS]);
}

#[test]
fn numbers_made_from_bits_keep_the_sign() {
    assert_eq!(bits(&[tuppence::sqrt(-0.0), tuppence::sqrt(0.0)]), [MINUS, PLUS]);
    assert_eq!(bits(&[-0.0, 0.0, -1e-60, 1e-60].map(tuppence::narrow)), [MINUS, PLUS, MINUS, PLUS]);
    // tansig adds to +0, the table's first number
    assert_eq!(bits(&[tuppence::tansig(-0.0), tuppence::tansig(0.0)]), [PLUS; 2]);
}

#[test]
fn what_is_cleared_is_plus_0() {
    let (mut store, mut record) = (vec![-0.0; tuppence::STORE], [0; tuppence::RECORD]);
    let layers = [(42, 1, 0, 43), (1, 1, 0, 9), (44, 1, 0, 138), (44, 1, 0, 138), (1, 22, 1, 44), (1, 1, 1, 2)];
    let model: Vec<u8> = layers.iter().flat_map(|l| [vec![l.0, l.1, l.2], vec![0; l.3]].concat()).collect();
    assert_eq!(tuppence::open(&mut record, &mut store, 1, &model), 0);
    assert_eq!(bits(&store[..12_288]), [[MINUS; 6144], [PLUS; 6144]].concat());
    assert_eq!(bits(&store[12_288..]), [MINUS; 14 * 6144]);
    // a silent frame's answer
    let (mut out, mut answer) = ([7.5; 961], [-0.0; 3]);
    record[0] = 3;
    assert_eq!(tuppence::call3(&mut record, &mut store, 1, &[0.0; 961], &[0.0; 22], &model, &mut out, &mut answer), 0);
    assert_eq!(bits(&answer), [PLUS; 3]);
    // the bins behind the last band, and coefficients that are not worked out
    let (mut gains, mut lpc) = ([7.5; 481], [7.5; 4]);
    assert_eq!(tuppence::band_gain(&mut gains, &[-1.0; 22]), 0);
    assert_eq!(bits(&gains[400..]), [PLUS; 81]);
    assert_eq!(tuppence::lpc(&mut lpc, &[-0.0; 5]), 0);
    assert_eq!(bits(&lpc), [PLUS; 4]);
}
