//! Compares the library with the Rust on random grids and lists of poses: `compare GRIDS SEED`, or `compare GRIDS SEED NUMBER` for one grid of such a run.

use drivers::answer::{compare, compare_list};
use drivers::grid::{pose, Grid, MAX_VIEWS, POSE_FLOATS};
use drivers::oracle::{ties, verdict, Verdict};
use random::Random;
use std::collections::BTreeMap;
use std::process::exit;

/// What a run came across.
#[derive(Default)]
struct Seen {
    solved: u64,
    refused: BTreeMap<u32, u64>,
    depths: BTreeMap<u8, u64>,
    by_index: u64,
    with_infinity: u64,
    with_nan: u64,
    with_subnormal: u64,
    with_minus_zero: u64,
    full: u64,
    single: u64,
    with_negated: u64,
    with_no_rotation: u64,
    with_tiny_rotation: u64,
    lists: u64,
}

impl Seen {
    fn add(&mut self, grid: &Grid, verdict: &Verdict) {
        let rotations = || grid.held().map(|pose| &pose[3..]);
        self.with_negated += rotations().any(|q| q[3] < -0.9) as u64;
        self.with_no_rotation += rotations().any(|q| q.iter().all(|x| *x == 0.0)) as u64;
        self.with_tiny_rotation += rotations().any(|q| q.iter().any(|x| *x != 0.0) && q.iter().all(|x| x.abs() < 1e-139)) as u64;
        match verdict {
            Verdict::Refused { number, .. } => *self.refused.entry(*number).or_default() += 1,
            Verdict::Solved { transforms, chains } => {
                self.solved += 1;
                let depth = chains.iter().skip(1).step_by(2).max().unwrap();
                *self.depths.entry(*depth).or_default() += 1;
                self.by_index += (ties(grid) > 0) as u64;
                self.with_infinity += transforms.iter().any(|x| x.is_infinite()) as u64;
                self.with_nan += transforms.iter().any(|x| x.is_nan()) as u64;
                self.with_subnormal += transforms.iter().any(|x| x.is_subnormal()) as u64;
                self.with_minus_zero += transforms.iter().any(|x| x.to_bits() == 1 << 63) as u64;
                self.full += (grid.views() == 64 && grid.cameras() == 16) as u64;
                self.single += (grid.views() == 1 && grid.cameras() == 1) as u64;
            }
        }
    }

    /// What a run of ten thousand grids or more must have come across to count.
    fn missing(&self) -> Vec<String> {
        let mut missing = Vec::new();
        let mut want = |count: u64, what: &str| {
            if count == 0 {
                missing.push(what.to_owned());
            }
        };
        for number in 1..=9 {
            want(self.refused.get(&number).copied().unwrap_or(0), &format!("refusal {number}"));
        }
        for depth in 0..=15 {
            want(self.depths.get(&depth).copied().unwrap_or(0), &format!("a chain of {depth} links"));
        }
        want(self.by_index, "a tie");
        want(self.with_infinity, "an infinity");
        want(self.with_nan, "a NaN");
        want(self.with_subnormal, "a subnormal");
        want(self.with_minus_zero, "a minus zero");
        want(self.full, "a solved grid of 64 x 16");
        want(self.single, "a solved grid of 1 x 1");
        want(self.with_negated, "a negated quaternion");
        want(self.with_no_rotation, "a rotation of zeros");
        want(self.with_tiny_rotation, "a tiny rotation");
        missing
    }

    fn print(&self) {
        let list = |items: Vec<String>| items.join(", ");
        println!("  solved {}; refused {}", self.solved, list(self.refused.iter().map(|(n, count)| format!("{n}: {count}")).collect()));
        println!("  longest chain of a solved rig, in links: {}", list(self.depths.iter().map(|(d, count)| format!("{d}: {count}")).collect()));
        println!(
            "  of the solved: {} of 64 x 16, {} of 1 x 1; {} with a parent chosen by index; {} with an infinity in the answer, {} with a NaN, {} with a subnormal, {} with a minus zero",
            self.full, self.single, self.by_index, self.with_infinity, self.with_nan, self.with_subnormal, self.with_minus_zero
        );
        println!(
            "  of all grids: {} with a negated quaternion, {} with a rotation of zeros, {} with a tiny one",
            self.with_negated, self.with_no_rotation, self.with_tiny_rotation
        );
        println!("  lists averaged, multiplied and inverted: {}", self.lists);
    }
}

fn list(random: &mut Random) -> (Vec<f64>, usize) {
    let kinds: Vec<usize> = if random.once_in(2) { vec![0, 1] } else { (0..12).collect() };
    let poses = match random.below(8) {
        0 => random.below(3),
        1 => MAX_VIEWS,
        2 => random.between(MAX_VIEWS, MAX_VIEWS + 2),
        _ => random.between(1, MAX_VIEWS),
    };
    let mut floats: Vec<f64> = (0..poses).flat_map(|_| pose(random, &kinds)).collect();
    if random.once_in(10) && !floats.is_empty() {
        let at = random.below(floats.len());
        floats[at] = if random.once_in(2) { f64::INFINITY } else { f64::NAN };
    }
    if random.once_in(10) {
        floats.truncate(floats.len().saturating_sub(random.below(POSE_FLOATS)));
    }
    let room = match random.below(4) {
        0 => random.below(POSE_FLOATS + 2),
        1 => POSE_FLOATS,
        _ => floats.len().max(POSE_FLOATS) + random.below(5),
    };
    (floats, room)
}

fn main() {
    let numbers: Vec<u64> = std::env::args().skip(1).map(|word| word.parse().expect("a number")).collect();
    let (grids, seed) = (numbers.first().copied().unwrap_or(100_000), numbers.get(1).copied().unwrap_or(1));
    let only = numbers.get(2).copied();
    let mut seen = Seen::default();
    let mut differences = 0;
    let run = match only {
        Some(number) => number..number + 1,
        None => 0..grids,
    };
    for number in run {
        let mut random = Random::new(seed, number);
        let grid = Grid::random(&mut random);
        let verdict = verdict(&grid);
        if only.is_some() {
            println!("{grid:?}\n{verdict:?}");
        }
        if let Err(difference) = compare(&mut random, &grid, &verdict) {
            differences += 1;
            println!("DIFFERENCE at grid {number} of seed {seed}, {} views, {} cameras: {difference}", grid.views(), grid.cameras());
        }
        seen.add(&grid, &verdict);
        let (floats, room) = list(&mut random);
        if let Err(difference) = compare_list(&mut random, &floats, room) {
            differences += 1;
            println!("DIFFERENCE at list {number} of seed {seed}, {} floats: {difference}", floats.len());
        }
        seen.lists += 1;
        if differences > 20 {
            break;
        }
    }
    println!("compare: {} grids and lists of seed {seed}: {differences} differences", seen.lists);
    seen.print();
    let missing = seen.missing();
    if only.is_none() && grids >= 10_000 && !missing.is_empty() {
        println!("  but nothing of: {}", missing.join(", "));
        exit(1);
    }
    if differences > 0 {
        exit(1);
    }
}
