//! Compares the library's square root with the machine's own, which is IEEE 754's: `roots PATTERNS SEED [SQUARES]`.
//!
//! Every exponent of both signs with hard significands; both ends of every range; all subnormals that are short, and random ones; every
//! perfect square that a double can hold, up to a power of 4, with the doubles beside it; the doubles nearest the squares of midpoints
//! between doubles, by how near they are; and random patterns. SQUARES, where it is given, ends the perfect squares early.

use random::Random;
use std::process::exit;

const LEAD: u64 = 1 << 52;

struct Run {
    tried: u64,
    differences: u64,
}

impl Run {
    #[inline]
    fn bits(&mut self, bits: u64) {
        let x = f64::from_bits(bits);
        let (ours, machine) = (placer::sqrt(x), x.sqrt());
        self.tried += 1;
        if ours.to_bits() != machine.to_bits() && !(ours.is_nan() && machine.is_nan()) {
            self.differences += 1;
            if self.differences <= 20 {
                println!("DIFFERENCE: root of {bits:016x} is {:016x}, and the machine has {:016x}", ours.to_bits(), machine.to_bits());
            }
        }
    }

    /// A double and the two beside it.
    fn around(&mut self, bits: u64) {
        self.bits(bits.wrapping_sub(1));
        self.bits(bits);
        self.bits(bits.wrapping_add(1));
    }
}

/// s with s * s = a but for multiples of 2^60, for an a that is 1 modulo 8: one binary digit more at a time.
fn root_modulo(a: u64) -> u64 {
    let mut s: u64 = 1;
    for digit in 3..60 {
        if (s.wrapping_mul(s) ^ a) >> digit & 1 == 1 {
            s ^= 1 << (digit - 1);
        }
    }
    s
}

/// The last double below the square of h and a half, a midpoint between doubles.
fn below_midpoint_square(h: u64) -> u64 {
    let square = h as u128 * (h as u128 + 1);
    let shift = 128 - square.leading_zeros() - 53;
    (1023 + 52 + shift as u64) * LEAD + ((square >> shift) as u64 - LEAD)
}

fn main() {
    let numbers: Vec<u64> = std::env::args().skip(1).map(|word| word.parse().expect("a number")).collect();
    let (patterns, seed) = (numbers.first().copied().unwrap_or(20_000_000), numbers.get(1).copied().unwrap_or(1));
    let last_square = numbers.get(2).copied().unwrap_or(94_906_265);
    let mut run = Run { tried: 0, differences: 0 };
    let mut random = Random::new(seed, 0);
    let part = |what: &str, run: &mut Run, before: u64| println!("  {}: {}", what, run.tried - before);

    // Every exponent's field, both signs: the ends of its range, single digits, runs of digits, and random significands.
    let before = run.tried;
    for top in 0..4096u64 {
        run.around(top * LEAD);
        for digit in 0..52 {
            run.bits(top * LEAD + (1 << digit));
            run.bits(top * LEAD + LEAD - (1 << digit));
        }
        for _ in 0..100 {
            run.bits(top * LEAD + random.bits() % LEAD);
        }
    }
    part("every exponent and sign", &mut run, before);

    // Subnormals: all short ones, the longest ones, and random ones of each length.
    let before = run.tried;
    for n in 0..100_000 {
        run.bits(n);
        run.bits(LEAD - n);
        run.bits(LEAD + n);
    }
    for length in 1..=52 {
        for _ in 0..2000 {
            run.bits((random.bits() | 1 << 63) >> (64 - length));
        }
    }
    part("subnormals and their end", &mut run, before);

    // Every perfect square of a whole number that a double holds; an even one is an odd one times a power of 4. Halves are wholes times
    // a power of 4 too, so the midpoints of short numbers are among them. The exponent is moved to both ends as well.
    let before = run.tried;
    let mut n: u64 = 1;
    while n <= last_square {
        let square = (n * n) as f64;
        let bits = square.to_bits();
        run.around(bits);
        if n % 64 == 1 {
            run.around((square * 2f64.powi(-600)).to_bits());
            run.around((square * 2f64.powi(900)).to_bits());
        }
        n += 2;
    }
    part("perfect squares and the doubles beside them", &mut run, before);

    // A midpoint between doubles is h and a half, on a scale where h has 53 digits, and its square h * h + h and a quarter. On that scale
    // doubles near the square are multiples of 2^52 or of 2^53. The hardest roots to round are of the doubles nearest such a square: those
    // at a distance of 2 d and a quarter have h * h + h = 2 d, and so (2 h + 1)^2 = 1 + 8 d, but for multiples of four times as much.
    let before = run.tried;
    for d in -200_000i64..200_000 {
        let s = root_modulo((1 + 8 * d) as u64);
        for digits in [54, 55] {
            let half = 1u64 << (digits - 1);
            for odd in [s, s.wrapping_neg(), s ^ half, (s ^ half).wrapping_neg()] {
                let h = (odd & (2 * half - 1)) >> 1;
                if (LEAD..2 * LEAD).contains(&h) {
                    run.around(below_midpoint_square(h));
                    run.bits(below_midpoint_square(h) + 2);
                }
            }
        }
    }
    for _ in 0..patterns / 10 {
        let h = LEAD | random.bits() % LEAD;
        run.around(below_midpoint_square(h));
        run.bits(below_midpoint_square(h) + 2);
    }
    part("doubles beside the squares of midpoints", &mut run, before);

    // Random patterns, then random finite doubles above zero.
    let before = run.tried;
    for _ in 0..patterns / 2 {
        run.bits(random.bits());
    }
    for _ in 0..patterns - patterns / 2 {
        run.bits(random.bits() % 0x7ff0_0000_0000_0000);
    }
    part("random patterns", &mut run, before);

    println!("roots: {} patterns of seed {seed}: {} differences", run.tried, run.differences);
    if run.differences > 0 {
        exit(1);
    }
}
