//! Grids as the direct call takes them, made at random: every size, dense and sparse, chains of every depth, ties, cameras that
//! nothing reaches, empty views, hard numbers, and faults that must be refused, alone and two at once.

use random::Random;

pub const POSE_FLOATS: usize = 7;
pub const MAX_VIEWS: usize = 64;
pub const MAX_CAMERAS: usize = 16;

pub type Pose = [f64; POSE_FLOATS];

/// What the direct call is handed. The rooms are the lengths of both answers.
#[derive(Clone, Debug)]
pub struct Grid {
    pub counts: Vec<u32>,
    pub marks: Vec<u8>,
    pub floats: Vec<f64>,
    pub reference: u32,
    pub first_room: usize,
    pub second_room: usize,
}

impl Grid {
    pub fn views(&self) -> usize {
        self.counts.len()
    }

    pub fn cameras(&self) -> usize {
        self.counts.first().map_or(0, |&count| count as usize)
    }

    pub fn first_needed(&self) -> usize {
        POSE_FLOATS * (self.cameras() + self.views())
    }

    pub fn second_needed(&self) -> usize {
        2 * self.cameras()
    }

    pub fn pose(&self, cell: usize) -> Pose {
        self.floats[POSE_FLOATS * cell..POSE_FLOATS * (cell + 1)].try_into().unwrap()
    }

    /// The poses of the cells that are marked so.
    pub fn held(&self) -> impl Iterator<Item = &[f64]> {
        self.floats.chunks_exact(POSE_FLOATS).zip(&self.marks).filter(|(_, &mark)| mark == 1).map(|(pose, _)| pose)
    }

    /// A grid with these marks and poses, each answer just as long as it must be.
    pub fn whole(views: usize, cameras: usize, reference: usize, held: &[bool], mut pose: impl FnMut(usize) -> Pose) -> Grid {
        let cells = views * cameras;
        Grid {
            counts: vec![cameras as u32; views],
            marks: held.iter().map(|&held| held as u8).collect(),
            floats: (0..cells).flat_map(&mut pose).collect(),
            reference: reference as u32,
            first_room: POSE_FLOATS * (cameras + views),
            second_room: 2 * cameras,
        }
    }

    pub fn random(random: &mut Random) -> Grid {
        let (views, cameras) = sizes(random);
        let reference = random.below(cameras);
        let held = layout(random, views, cameras, reference);
        let kinds = kinds(random);
        let mut grid = Grid::whole(views, cameras, reference, &held, |cell| {
            if held[cell] { pose(random, &kinds) } else { left_over(random) }
        });
        if random.once_in(3) {
            grid.first_room += random.below(20);
            grid.second_room += random.below(20);
        }
        if random.once_in(6) {
            fault(random, &mut grid);
            if random.once_in(2) {
                fault(random, &mut grid);
            }
        }
        grid
    }
}

fn sizes(random: &mut Random) -> (usize, usize) {
    match random.below(12) {
        0 => (1, 1),
        1 => (MAX_VIEWS, MAX_CAMERAS),
        2 => (MAX_VIEWS, random.between(1, MAX_CAMERAS)),
        3 => (random.between(1, MAX_VIEWS), MAX_CAMERAS),
        4 | 5 => (random.between(1, 4), random.between(1, 4)),
        _ => (random.between(1, MAX_VIEWS), random.between(1, MAX_CAMERAS)),
    }
}

// ---- which cells hold a pose

fn layout(random: &mut Random, views: usize, cameras: usize, reference: usize) -> Vec<bool> {
    let mut held = vec![false; views * cameras];
    match random.below(8) {
        0 => held.fill(true),
        1 | 2 => {
            let density = random.unit();
            held.iter_mut().for_each(|cell| *cell = random.unit() < density);
        }
        3 => {
            for view in 0..views {
                for _ in 0..random.between(1, 3) {
                    held[view * cameras + random.below(cameras)] = true;
                }
            }
        }
        4 | 5 => chain(random, &mut held, views, cameras, reference),
        6 => tied(random, &mut held, views, cameras),
        _ => apart(random, &mut held, views, cameras, reference),
    }
    if random.once_in(8) {
        for _ in 0..random.between(1, 3) {
            let view = random.below(views);
            held[view * cameras..(view + 1) * cameras].fill(false);
        }
    }
    if random.once_in(8) {
        let camera = random.below(cameras);
        (0..views).for_each(|view| held[view * cameras + camera] = false);
    }
    held
}

/// Cameras in a line from the reference, neighbours sharing a view or more, and the rest of the cameras hung on it.
fn chain(random: &mut Random, held: &mut [bool], views: usize, cameras: usize, reference: usize) {
    let mut others: Vec<usize> = (0..cameras).filter(|&c| c != reference).collect();
    random.shuffle(&mut others);
    let line: Vec<usize> = std::iter::once(reference).chain(others).collect();
    let depth = if random.once_in(2) { cameras - 1 } else { random.below(cameras) };
    for view in 0..views {
        let i = if view < cameras - 1 { view + 1 } else { random.below(cameras) };
        let (a, b) = if i == 0 {
            (line[0], line[0])
        } else if i <= depth {
            (line[i - 1], line[i])
        } else {
            (line[random.below(depth + 1)], line[i])
        };
        held[view * cameras + a] = true;
        held[view * cameras + b] = true;
    }
}

/// Links with equal numbers of shared views, so that the lowest index decides.
fn tied(random: &mut Random, held: &mut [bool], views: usize, cameras: usize) {
    let shared = random.between(1, 3);
    let mut view = 0;
    while view < views {
        let (a, b) = (random.below(cameras), random.below(cameras));
        for _ in 0..shared {
            if view < views {
                held[view * cameras + a] = true;
                held[view * cameras + b] = true;
                view += 1;
            }
        }
    }
}

/// Two groups of cameras that never share a view.
fn apart(random: &mut Random, held: &mut [bool], views: usize, cameras: usize, reference: usize) {
    let group: Vec<bool> = (0..cameras).map(|c| c == reference || random.once_in(2)).collect();
    let density = random.unit();
    for view in 0..views {
        let side = random.once_in(2);
        for camera in 0..cameras {
            held[view * cameras + camera] = group[camera] == side && random.unit() < density;
        }
    }
}

// ---- numbers

/// The kinds of poses that one grid draws from: mostly one, at times all.
fn kinds(random: &mut Random) -> Vec<usize> {
    if random.once_in(3) {
        (0..KINDS).collect()
    } else if random.once_in(2) {
        vec![random.below(2)]
    } else {
        vec![random.below(KINDS), random.below(KINDS)]
    }
}

const KINDS: usize = 12;

/// A pose of finite numbers.
pub fn pose(random: &mut Random, kinds: &[usize]) -> Pose {
    match kinds[random.below(kinds.len())] {
        0 => unit(random, 1.0),
        1 => {
            let sign = if random.once_in(2) { -1.0 } else { 1.0 };
            near_identity(random).map_rotation(|x| x * sign)
        }
        // Rotations of any length.
        2 => {
            let scale = 10f64.powi(random.between(0, 12) as i32 - 6);
            unit(random, 1e3).map_rotation(|x| x * scale)
        }
        // No rotation at all, with either sign.
        3 => unit(random, 10.0).map_rotation(|x| if x < 0.0 { -0.0 } else { 0.0 }),
        // Rotations so small that their squares vanish, or nearly.
        4 => {
            let scale = 10f64.powi(-(random.between(140, 323) as i32));
            unit(random, scale).map_rotation(|x| x * scale)
        }
        // Numbers so large that their products overflow.
        5 => {
            let scale = 10f64.powi(random.between(100, 307) as i32);
            unit(random, scale).map_rotation(|x| x * scale)
        }
        6 => std::array::from_fn(|_| special(random)),
        7 => std::array::from_fn(|_| finite_bits(random)),
        8 => std::array::from_fn(|_| random.below(7) as f64 - 3.0),
        // Quarter turns: dot products of exactly 0, and sums that cancel.
        9 => {
            let mut p = [0.0; POSE_FLOATS];
            p[3 + random.below(4)] = if random.once_in(2) { -1.0 } else { 1.0 };
            p[random.below(3)] = random.below(5) as f64 - 2.0;
            p
        }
        // Subnormals.
        10 => std::array::from_fn(|_| f64::from_bits(random.bits() >> 12) * if random.once_in(2) { -1.0 } else { 1.0 }),
        // An ordinary pose with one hard number.
        _ => {
            let mut p = unit(random, 1.0);
            p[random.below(POSE_FLOATS)] = special(random);
            p
        }
    }
}

trait MapRotation {
    fn map_rotation(self, f: impl Fn(f64) -> f64) -> Self;
}

impl MapRotation for Pose {
    fn map_rotation(mut self, f: impl Fn(f64) -> f64) -> Pose {
        self[3..].iter_mut().for_each(|x| *x = f(*x));
        self
    }
}

/// A rotation of length 1, but for rounding, and a translation within `reach`.
pub fn unit(random: &mut Random, reach: f64) -> Pose {
    let mut p: Pose = std::array::from_fn(|_| random.signed());
    let norm = p[3..].iter().map(|x| x * x).sum::<f64>().sqrt();
    p[3..].iter_mut().for_each(|x| *x /= norm);
    p[..3].iter_mut().for_each(|x| *x *= reach);
    p
}

/// As cameras that look the same way have them: a small turn.
pub fn near_identity(random: &mut Random) -> Pose {
    let mut p = unit(random, 2.0).map_rotation(|x| 0.1 * x);
    p[6] = (1.0 - p[3..6].iter().map(|x| x * x).sum::<f64>()).sqrt();
    p
}

fn special(random: &mut Random) -> f64 {
    const SPECIAL: [f64; 24] = [
        0.0,
        -0.0,
        f64::from_bits(1),
        f64::from_bits(0x8000_0000_0000_0001),
        f64::from_bits(0x000f_ffff_ffff_ffff),
        f64::from_bits(0x800f_ffff_ffff_ffff),
        f64::MIN_POSITIVE,
        -f64::MIN_POSITIVE,
        f64::MAX,
        f64::MIN,
        1.0,
        -1.0,
        2.0,
        0.5,
        -0.5,
        f64::EPSILON,
        1.0 + f64::EPSILON,
        1.0 - f64::EPSILON / 2.0,
        1.3407807929942596e154,
        -1.3407807929942597e154,
        1.4916681462400413e-154,
        2.2227587494850775e-162,
        1e308,
        -1e-308,
    ];
    SPECIAL[random.below(SPECIAL.len())]
}

pub fn finite_bits(random: &mut Random) -> f64 {
    loop {
        let x = f64::from_bits(random.bits());
        if x.is_finite() {
            return x;
        }
    }
}

fn not_finite(random: &mut Random) -> f64 {
    match random.below(4) {
        0 => f64::INFINITY,
        1 => f64::NEG_INFINITY,
        2 => f64::NAN,
        _ => f64::from_bits(0x7ff0_0000_0000_0000 | random.bits() & 0x800f_ffff_ffff_ffff | 1),
    }
}

/// The numbers of an empty cell are ignored, whatever they are.
fn left_over(random: &mut Random) -> Pose {
    match random.below(3) {
        0 => [0.0; POSE_FLOATS],
        1 => [f64::NAN; POSE_FLOATS],
        _ => std::array::from_fn(|_| f64::from_bits(random.bits())),
    }
}

// ---- faults

fn fault(random: &mut Random, grid: &mut Grid) {
    match random.below(14) {
        0 => {
            grid.counts.clear();
            if random.once_in(2) {
                grid.marks.clear();
                grid.floats.clear();
            }
        }
        1 => {
            let count = grid.counts.first().copied().unwrap_or(1);
            grid.counts = vec![count; random.between(MAX_VIEWS + 1, MAX_VIEWS + 10)];
        }
        2 => set_first_count(grid, 0),
        3 => {
            let count = if random.once_in(3) { u32::MAX } else { random.between(MAX_CAMERAS + 1, 2 * MAX_CAMERAS) as u32 };
            set_first_count(grid, count);
        }
        4 | 5 => {
            let cameras = grid.cameras();
            grid.reference = match random.below(4) {
                0 => u32::MAX,
                1 => 1 << 31,
                2 => cameras as u32,
                _ => random.between(cameras, cameras + 20) as u32,
            };
        }
        6 => {
            for _ in 0..random.between(1, 3) {
                if !grid.counts.is_empty() {
                    let view = random.below(grid.counts.len());
                    let count = grid.counts[view];
                    grid.counts[view] = match random.below(4) {
                        0 => 0,
                        1 => u32::MAX,
                        2 => count.saturating_sub(1),
                        _ => count.saturating_add(1),
                    };
                }
            }
        }
        7 => {
            let length = random.below(2 * grid.marks.len() + 2);
            grid.marks.resize(other_length(random, grid.marks.len(), length), 1);
        }
        8 => {
            let length = random.below(2 * grid.floats.len() + 2);
            grid.floats.resize(other_length(random, grid.floats.len(), length), 1.0);
        }
        9 => grid.first_room = random.below(grid.first_room.max(1)),
        10 => grid.second_room = random.below(grid.second_room.max(1)),
        11 | 12 => {
            for _ in 0..random.between(1, 3) {
                if !grid.marks.is_empty() {
                    let cell = random.below(grid.marks.len());
                    grid.marks[cell] = random.between(2, 255) as u8;
                }
            }
        }
        _ => {
            for _ in 0..random.between(1, 3) {
                if !grid.floats.is_empty() {
                    let at = random.below(grid.floats.len());
                    grid.floats[at] = not_finite(random);
                }
            }
        }
    }
}

fn set_first_count(grid: &mut Grid, count: u32) {
    if let Some(first) = grid.counts.first_mut() {
        *first = count;
    }
}

fn other_length(random: &mut Random, length: usize, any: usize) -> usize {
    match random.below(3) {
        0 => length + 1,
        1 => length.saturating_sub(1),
        _ => any,
    }
}
