//! The laws that crates/fft/specs/Exact.antt asks of cosines are not empty: they hold modulo the prime 4801, where 2404
//! is a 960th of a turn.

const PRIME: u64 = 4801;

/// The cosines of m/960 of a turn, modulo the prime: half of a root's power and of its inverse's.
fn cosines() -> Vec<u64> {
    let half = PRIME.div_ceil(2);
    let powers: Vec<u64> = (0..960).scan(1, |power, _| Some(std::mem::replace(power, *power * 2404 % PRIME))).collect();
    assert_eq!(powers[480], PRIME - 1, "half a turn");
    (0..960).map(|m| (powers[m] + powers[(960 - m) % 960]) * half % PRIME).collect()
}

#[test]
fn the_laws_of_cosines_hold_modulo_a_prime() {
    let table = cosines();
    let c = |m: usize| table[m % 960];
    let minus = |x: u64, y: u64| (x + PRIME - y) % PRIME;
    assert_eq!([c(0), c(240), (c(160) + c(160)) % PRIME], [1, 0, 1]);
    for m in 0..960 {
        assert_eq!(c(m + 480), minus(0, c(m)));
        assert_eq!(c(m), c(960 - m));
        for n in 0..960 {
            let product = |m: usize, n: usize| c(m) * c(n) % PRIME;
            assert_eq!(c(m + n), minus(product(m, n), product(m + 240, n + 240)), "{m} {n}");
        }
    }
}
