//! Compares the library's Pose commands of packed frames with Rust's own conversion: `frames WORDS SEED`, or `frames every SEED` for all words of 32 bits, each as a
//! translation and as a rotation number.
//!
//! Every byte is compared with a plain writing of the frame by `i32::from_le_bytes`, `f64::from` and one division, and every number besides with the exact quotient, by
//! whole numbers alone: a translation is nearer to it than both doubles beside, and a rotation number is equal to it. First come words at every boundary, each in every one
//! of the seven fields; then random ones; then blocks of drawn lengths with room of drawn lengths, most of them refused.

use placer::{import_frames, Refusal, FRAME_BYTES, MAX_FRAMES, POSE_BYTES};
use random::Random;
use std::process::exit;

const FIELDS: usize = 7;
const TRANSLATIONS: usize = 3;
const GUARD: u8 = 77;

/// What one unit of a field's count is the share of.
fn unit(field: usize) -> u64 {
    if field < TRANSLATIONS { 1_000_000 } else { 1 << 30 }
}

/// The frame's command as the Rust converts it.
fn plain_command(frame: &[u8], command: &mut [u8]) {
    command[0] = 2;
    command[1..3].copy_from_slice(&frame[..2]);
    for field in 0..FIELDS {
        let count = i32::from_le_bytes(frame[2 + 4 * field..6 + 4 * field].try_into().unwrap());
        let number = if field < TRANSLATIONS { f64::from(count) / 1_000_000.0 } else { f64::from(count) / 1_073_741_824.0 };
        command[3 + 8 * field..11 + 8 * field].copy_from_slice(&number.to_le_bytes());
    }
}

/// A double above zero and not subnormal, as a whole number of parts of which 2 to so many are one.
fn parts(bits: u64) -> (u128, u32) {
    ((bits & ((1 << 52) - 1) | 1 << 52) as u128, 1075 - (bits >> 52) as u32)
}

/// What is wrong with a number, by its bits, as the share of a count: by whole numbers, with no division and no double.
fn fault(count: i32, field: usize, bits: u64) -> Option<&'static str> {
    if count == 0 {
        return (bits != 0).then_some("a count of 0 is not plus zero");
    }
    if bits >> 63 != (count < 0) as u64 {
        return Some("the sign is not the count's");
    }
    let bits = bits & !(1 << 63);
    // From 2^-30 to 2148 none is subnormal, none overflows, and what is multiplied below has at most 115 binary digits.
    if !(1023 - 30..1023 + 12).contains(&(bits >> 52)) {
        return Some("it is far off");
    }
    let size = count.unsigned_abs() as u128;
    if field >= TRANSLATIONS {
        let (whole, digits) = parts(bits);
        return (whole << 30 != size << digits).then_some("it is not the exact quotient");
    }
    // How far a double is from the quotient, in parts that are the same for all three: the finest that one of them needs.
    let finest = parts(bits - 1).1;
    let distance = |bits: u64| {
        let (whole, digits) = parts(bits);
        ((whole * u128::from(unit(field))) << (finest - digits)).abs_diff(size << finest)
    };
    let here = distance(bits);
    (here >= distance(bits - 1) || here >= distance(bits + 1)).then_some("a double beside it is as near")
}

struct Run {
    seed: u64,
    words: u64,
    zeros: u64,
    negatives: u64,
    calls: u64,
    differences: u64,
    commands: Vec<u8>,
    expected: Vec<u8>,
}

impl Run {
    fn differs(&mut self, what: String) {
        self.differences += 1;
        if self.differences <= 20 {
            println!("DIFFERENCE: {what}");
        }
    }

    /// A block of frames: every byte against the plain writing, and every number against the exact quotient.
    fn block(&mut self, frames: &[u8]) {
        let count = frames.len() / FRAME_BYTES;
        let room = POSE_BYTES * count;
        self.calls += 1;
        self.commands[..room + 1].fill(GUARD);
        let answered = import_frames(frames, &mut self.commands[..room]);
        if answered != Ok(count) || self.commands[room] != GUARD {
            self.differs(format!("{count} frames are answered with {answered:?}, and the byte behind is {}", self.commands[room]));
            return;
        }
        for (frame, command) in frames.chunks_exact(FRAME_BYTES).zip(self.expected.chunks_exact_mut(POSE_BYTES)) {
            plain_command(frame, command);
        }
        if self.commands[..room] != self.expected[..room] {
            let at = (0..count).find(|at| self.commands[POSE_BYTES * at..][..POSE_BYTES] != self.expected[POSE_BYTES * at..][..POSE_BYTES]).unwrap();
            let of = |bytes: &[u8]| bytes[POSE_BYTES * at..][..POSE_BYTES].to_vec();
            self.differs(format!("frame {:?} is {:?}, and the Rust has {:?}", &frames[FRAME_BYTES * at..][..FRAME_BYTES], of(&self.commands), of(&self.expected)));
        }
        for at in 0..count {
            for field in 0..FIELDS {
                let word = &frames[FRAME_BYTES * at + 2 + 4 * field..][..4];
                let number = &self.commands[POSE_BYTES * at + 3 + 8 * field..][..8];
                let (word, bits) = (u32::from_le_bytes(word.try_into().unwrap()), u64::from_le_bytes(number.try_into().unwrap()));
                let count = word as i32;
                self.zeros += (count == 0) as u64;
                self.negatives += (count < 0) as u64;
                if let Some(fault) = fault(count, field, bits) {
                    self.differs(format!("{count} in field {field} gives {bits:016x}: {fault}"));
                }
            }
        }
        self.words += (FIELDS * count) as u64;
    }
}

/// Frames with these words in their fields, in blocks of one to as many as one call takes, with any view and camera.
struct Blocks<'a> {
    run: &'a mut Run,
    random: Random,
    frames: Vec<u8>,
    length: usize,
}

impl Blocks<'_> {
    fn frame(&mut self, words: [u32; FIELDS]) {
        let cell = self.random.bits() as u16;
        self.frames.extend(cell.to_le_bytes());
        words.iter().for_each(|word| self.frames.extend(word.to_le_bytes()));
        if self.frames.len() >= self.length {
            self.send();
        }
    }

    fn send(&mut self) {
        self.run.block(&self.frames);
        self.frames.clear();
        // Mostly as many as there may be, at times any number.
        self.length = FRAME_BYTES * if self.random.once_in(8) { self.random.between(1, MAX_FRAMES) } else { MAX_FRAMES };
    }
}

fn with_blocks(run: &mut Run, number: u64, draw: impl FnOnce(&mut Blocks)) {
    let random = Random::new(run.seed, number);
    let mut blocks = Blocks { run, random, frames: Vec::new(), length: FRAME_BYTES * MAX_FRAMES };
    draw(&mut blocks);
    if !blocks.frames.is_empty() {
        blocks.send();
    }
}

/// The words within 3 of every power of two and of ten, of their halves, and of the sums and differences of each two, both signs: so the ends of the range, 0, 1, -1, a
/// metre and a whole rotation number are among them.
fn boundary_words() -> Vec<u32> {
    let mut near: Vec<i64> = (0..=32).map(|power| 1 << power).chain((0..=9).map(|power| 10i64.pow(power))).collect();
    near.extend((1..=9).map(|power| 10i64.pow(power) / 2));
    near.push(0);
    let mut counts: Vec<i32> = Vec::new();
    for a in &near {
        for b in &near {
            for centre in [a + b, a - b] {
                for count in centre - 3..=centre + 3 {
                    counts.extend([count, -count].into_iter().filter_map(|count| i32::try_from(count).ok()));
                }
            }
        }
    }
    counts.sort();
    counts.dedup();
    for count in [i32::MIN, i32::MAX, -1, 0, 1, 1 << 30, -(1 << 30), 1_000_000, -1_000_000] {
        assert!(counts.binary_search(&count).is_ok(), "{count} is a boundary");
    }
    counts.into_iter().map(|count| count as u32).collect()
}

/// Any word; or one of few digits, binary or decimal, or with few zeros or ones in front.
fn random_word(random: &mut Random) -> u32 {
    let bits = random.bits();
    let (word, kind, length) = (bits as u32, bits >> 32 & 7, bits >> 40);
    match kind {
        0 => word >> (length % 32),
        1 => (word as i32 >> (length % 32)) as u32,
        2 => word << (length % 32),
        3 => (word % 4295 % 10u32.pow(length as u32 % 4 + 1)).wrapping_mul(10u32.pow(length as u32 / 4 % 7)).wrapping_mul(if length % 2 == 0 { 1 } else { u32::MAX }),
        _ => word,
    }
}

/// Blocks of any length, and room of any length, in the middle of guards: what is refused, by the papers' order, and that a refusal writes nothing.
fn drawn_lengths(run: &mut Run, calls: u64) -> [u64; 4] {
    let mut random = Random::new(run.seed, 2);
    let random = &mut random;
    let mut seen = [0; 4];
    let bytes: Vec<u8> = (0..200_000).map(|_| random.bits() as u8).collect();
    let mut memory = vec![0; POSE_BYTES * 8000];
    for call in 0..calls {
        let most = FRAME_BYTES * MAX_FRAMES;
        let length = match random.below(8) {
            0 => random.below(100),
            1 => random.between(most - 3, most + 3),
            2 => random.between(most - 3, most + 3 + FRAME_BYTES),
            3 => FRAME_BYTES * random.below(6000),
            4 => random.below(190_000),
            _ => FRAME_BYTES * random.below(MAX_FRAMES + 1),
        };
        let count = length / FRAME_BYTES;
        let right = POSE_BYTES * count;
        let room = match random.below(8) {
            0 => right + 1,
            1 => right.saturating_sub(1),
            2 => random.below(right + 2 * POSE_BYTES),
            3 => POSE_BYTES * (count + 1),
            4 => length,
            _ => right,
        };
        let start = random.below(1000);
        let frames = &bytes[start..start + length];
        let (before, behind) = (1 + random.below(64), 1 + random.below(64));
        let memory = &mut memory[..before + room + behind];
        memory.fill(GUARD);
        let answered = import_frames(frames, &mut memory[before..before + room]);
        let expected = if length % 30 > 0 {
            Err(Refusal { number: 14, detail: 0 })
        } else if count > 1024 {
            Err(Refusal { number: 15, detail: 0 })
        } else if room != 59 * count {
            Err(Refusal { number: 5, detail: 0 })
        } else {
            Ok(count)
        };
        seen[match expected {
            Ok(_) => 0,
            Err(refusal) => [14, 15, 5].iter().position(|&number| number == refusal.number).unwrap() + 1,
        }] += 1;
        if answered != expected {
            run.differs(format!("call {call}: {length} bytes and room for {room} are answered with {answered:?}, and {expected:?} was expected"));
            continue;
        }
        let mut wanted = vec![GUARD; before + room + behind];
        if expected.is_ok() {
            for (frame, command) in frames.chunks_exact(FRAME_BYTES).zip(wanted[before..before + room].chunks_exact_mut(POSE_BYTES)) {
                plain_command(frame, command);
            }
        }
        if memory != wanted {
            run.differs(format!("call {call}: {length} bytes and room for {room}, answered with {answered:?}, leave other memory"));
        }
    }
    seen
}

/// The check by whole numbers notices what it is there for: the doubles beside the right one, another sign, minus zero, the share of another count or of another unit.
fn check_notices(words: &[u32]) {
    for &word in words {
        let count = word as i32;
        for field in [0, TRANSLATIONS] {
            let right = f64::from(count) / unit(field) as f64;
            assert_eq!(fault(count, field, right.to_bits()), None, "{count} in field {field}");
            let beside = if count == 0 { vec![1, 1 << 63] } else { vec![right.to_bits() + 1, right.to_bits() - 1, right.to_bits() ^ 1 << 63, 0, 1 << 63] };
            assert!(beside.into_iter().all(|bits| fault(count, field, bits).is_some()), "beside {count} in field {field}");
            let others = [f64::from(count.wrapping_add(1)) / unit(field) as f64, f64::from(word) / unit(field) as f64, right * 2.0, right / 2.0, right * 1e-6, f64::INFINITY, f64::NAN];
            assert!(others.into_iter().all(|other| other == right || fault(count, field, other.to_bits()).is_some()), "for {count} in field {field}");
        }
    }
}

fn main() {
    let words: Vec<String> = std::env::args().skip(1).collect();
    let every = words.first().is_some_and(|word| word == "every");
    let random_words: u64 = if every { 0 } else { words.first().map_or(10_000_000, |word| word.parse().expect("a number of words, or every")) };
    let seed: u64 = words.get(1).map_or(1, |word| word.parse().expect("a seed"));
    let most = POSE_BYTES * MAX_FRAMES;
    let mut run = Run { seed, words: 0, zeros: 0, negatives: 0, calls: 0, differences: 0, commands: vec![0; most + 1], expected: vec![0; most] };

    let boundary = boundary_words();
    check_notices(&boundary);
    // In frame n the words stand from the n-th on, one after the other with a stride: so each is once in every field, beside others each time.
    with_blocks(&mut run, 0, |blocks| {
        for n in 0..boundary.len() {
            blocks.frame(std::array::from_fn(|field| boundary[(n + 997 * field) % boundary.len()]));
        }
    });
    with_blocks(&mut run, 1, |blocks| {
        if every {
            for n in 0..=u32::MAX / TRANSLATIONS as u32 {
                blocks.frame(std::array::from_fn(|field| if field < TRANSLATIONS { n.wrapping_mul(3).wrapping_add(field as u32) } else { n.wrapping_mul(4).wrapping_add(field as u32 - 3) }));
            }
        }
        for _ in 0..random_words.div_ceil(FIELDS as u64) {
            let words = std::array::from_fn(|_| random_word(&mut blocks.random));
            blocks.frame(words);
        }
    });
    let drawn = (random_words / 1000).clamp(1000, 20_000);
    let seen = drawn_lengths(&mut run, drawn);

    println!("frames: {} words of seed {seed}: {} differences", run.words, run.differences);
    println!(
        "  {} frames in {} calls; {} boundary words, each in every field{}; {} words below zero and {} zero",
        run.words / FIELDS as u64,
        run.calls,
        boundary.len(),
        if every { ", and all words of 32 bits, each as a translation and as a rotation number" } else { "" },
        run.negatives,
        run.zeros
    );
    println!("  drawn lengths: {drawn}, of which taken: {}, 14: {}, 15: {}, 5: {}", seen[0], seen[1], seen[2], seen[3]);
    if run.differences > 0 {
        exit(1);
    }
    if seen.contains(&0) || run.zeros == 0 || run.negatives == 0 {
        println!("  but not every refusal, or no zero, or nothing below zero");
        exit(1);
    }
}
