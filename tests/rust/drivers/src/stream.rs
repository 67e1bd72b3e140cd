//! Streams of commands: what each call must answer, from document 01, "A stream arrives", and document 02's changes 1 and 2, with the Rust under
//! Solve; and streams made at random, and damaged. The shared counts are counted anew from the held cells wherever they are looked at.

use crate::grid::{near_identity, pose, Grid, Pose, MAX_CAMERAS, MAX_VIEWS, POSE_FLOATS};
use crate::oracle::{verdict, Verdict};
use random::Random;

pub const SHARED_WORD: usize = 19;
pub const SHARED_COUNTS: usize = MAX_CAMERAS * MAX_CAMERAS;
pub const RECORD_WORDS: usize = SHARED_WORD + SHARED_COUNTS;
pub const BUFFER_FLOATS: usize = 7168;
pub const FIRST_FLOATS: usize = 560;
pub const SECOND_BYTES: usize = 32;
pub const MAX_STREAM: usize = 65536;

/// All that a call is lent and can change.
#[derive(Clone, Debug)]
pub struct State {
    pub record: Vec<u64>,
    pub buffer: Vec<f64>,
    pub transforms: Vec<f64>,
    pub chains: Vec<u8>,
}

impl State {
    pub fn fresh() -> State {
        State {
            record: vec![0; RECORD_WORDS],
            buffer: vec![0.0; BUFFER_FLOATS],
            transforms: vec![0.0; FIRST_FLOATS],
            chains: vec![0; SECOND_BYTES],
        }
    }

    fn views(&self) -> usize {
        self.record[16] as usize
    }

    fn cameras(&self) -> usize {
        self.record[17] as usize
    }

    fn holds(&self, view: usize, camera: usize) -> bool {
        self.record[camera] >> view & 1 == 1
    }

    /// Where the poses that are held begin in the buffer.
    pub fn held_starts(&self) -> Vec<usize> {
        self.starts(|held| held)
    }

    /// Where the cells that hold no pose begin there.
    pub fn empty_starts(&self) -> Vec<usize> {
        self.starts(|held| !held)
    }

    fn starts(&self, which: impl Fn(bool) -> bool) -> Vec<usize> {
        let cells = (0..MAX_VIEWS).flat_map(|view| (0..MAX_CAMERAS).map(move |camera| (view, camera)));
        cells.filter(|&(view, camera)| which(self.holds(view, camera))).map(|(view, camera)| cell_start(view, camera)).collect()
    }

    /// For each two cameras, row after row, how many views hold poses of both: view by view, a one for each two of the cameras that are held there.
    pub fn counted(&self) -> [u64; SHARED_COUNTS] {
        let mut counts = [0; SHARED_COUNTS];
        let seen = self.record[..MAX_CAMERAS].iter().fold(0, |seen, mask| seen | mask);
        for view in (0..MAX_VIEWS).filter(|view| seen >> view & 1 == 1) {
            for first in (0..MAX_CAMERAS).filter(|&camera| self.holds(view, camera)) {
                for second in (0..MAX_CAMERAS).filter(|&camera| self.holds(view, camera)) {
                    counts[MAX_CAMERAS * first + second] += 1;
                }
            }
        }
        counts
    }

    /// Makes the record's shared counts those of the cells that are held.
    pub fn count(&mut self) {
        let counts = self.counted();
        self.record[SHARED_WORD..].copy_from_slice(&counts);
    }

    /// Whether accepted commands can leave the record.
    pub fn is_possible(&self) -> bool {
        if self.record.len() != RECORD_WORDS {
            return false;
        }
        let [views, cameras, reference] = [self.record[16], self.record[17], self.record[18]];
        let sized = (1..=MAX_VIEWS as u64).contains(&views) && (1..=MAX_CAMERAS as u64).contains(&cameras) && reference < cameras;
        let fresh = views == 0 && cameras == 0 && reference == 0;
        (sized || fresh)
            && (0..MAX_CAMERAS).all(|c| if (c as u64) < cameras { views == 64 || self.record[c] >> views == 0 } else { self.record[c] == 0 })
            && self.record[SHARED_WORD..] == self.counted()
    }

    /// The grid that masks and buffer hold.
    fn grid(&self) -> Grid {
        let (views, cameras) = (self.views(), self.cameras());
        let held: Vec<bool> = (0..views * cameras).map(|cell| self.holds(cell / cameras, cell % cameras)).collect();
        Grid::whole(views, cameras, self.record[18] as usize, &held, |cell| {
            let at = cell_start(cell / cameras, cell % cameras);
            self.buffer[at..at + POSE_FLOATS].try_into().unwrap()
        })
    }
}

/// Where a cell's seven floats begin in the buffer.
pub fn cell_start(view: usize, camera: usize) -> usize {
    POSE_FLOATS * (view * MAX_CAMERAS + camera)
}

/// What a call answers: a code as the library gives it, and the offset of the next command.
#[derive(Clone, Copy, Debug, PartialEq, Eq)]
pub struct Answer {
    pub code: u64,
    pub next: usize,
}

pub const END: u64 = 0;
pub const ACCEPTED: u64 = 1;
pub const SOLVED: u64 = 2;

fn refusal(number: u32, detail: usize) -> u64 {
    (number as u64) << 32 | detail as u64
}

/// One call, as documents 01 and 02 have it, on the state that it changes.
pub fn call(state: &mut State, stream: &[u8], at: usize) -> Answer {
    let end = stream.len();
    let stop = |number, detail| Answer { code: refusal(number, detail), next: end };
    if end > MAX_STREAM {
        return stop(13, 0);
    }
    if state.buffer.len() != BUFFER_FLOATS
        || state.transforms.len() < FIRST_FLOATS
        || state.chains.len() < SECOND_BYTES
        || !state.is_possible()
    {
        return stop(5, 0);
    }
    if at > end {
        return stop(11, end);
    }
    let Some(&byte) = stream.get(at) else {
        return Answer { code: END, next: at };
    };
    let width = match byte {
        1 => 4,
        2 => 59,
        3 => 1,
        4 => 3,
        _ => return stop(10, byte as usize),
    };
    let Some(command) = stream.get(at..at + width) else {
        return stop(11, at);
    };
    let code = match byte {
        1 => size(state, command),
        2 => place(state, command),
        4 => withdraw(state, command),
        _ => solve(state),
    };
    Answer { code, next: at + width }
}

fn size(state: &mut State, command: &[u8]) -> u64 {
    if state.views() != 0 {
        return refusal(22, 0);
    }
    let [_, views, cameras, reference] = *command else { unreachable!() };
    match (views, cameras) {
        (0, _) => refusal(1, 0),
        (65.., _) => refusal(2, 0),
        (_, 0) => refusal(1, 0),
        (_, 17..) => refusal(2, 0),
        _ if reference >= cameras => refusal(3, 0),
        _ => {
            state.record[16..SHARED_WORD].copy_from_slice(&[views as u64, cameras as u64, reference as u64]);
            ACCEPTED
        }
    }
}

fn place(state: &mut State, command: &[u8]) -> u64 {
    if state.views() == 0 {
        return refusal(21, 0);
    }
    let (view, camera) = (command[1] as usize, command[2] as usize);
    let named = view * 256 + camera;
    if view >= state.views() || camera >= state.cameras() {
        return refusal(12, named);
    }
    if state.holds(view, camera) {
        return refusal(23, named);
    }
    let offered: Pose = std::array::from_fn(|i| f64::from_le_bytes(command[3 + 8 * i..11 + 8 * i].try_into().unwrap()));
    if offered.iter().any(|x| !x.is_finite()) {
        return refusal(7, view * state.cameras() + camera);
    }
    state.record[camera] |= 1 << view;
    state.count();
    let at = cell_start(view, camera);
    state.buffer[at..at + POSE_FLOATS].copy_from_slice(&offered);
    ACCEPTED
}

fn withdraw(state: &mut State, command: &[u8]) -> u64 {
    if state.views() == 0 {
        return refusal(21, 0);
    }
    let [_, view, camera] = *command else { unreachable!() };
    let (view, camera) = (view as usize, camera as usize);
    let named = view * 256 + camera;
    if view >= state.views() || camera >= state.cameras() {
        return refusal(12, named);
    }
    if !state.holds(view, camera) {
        return refusal(24, named);
    }
    state.record[camera] &= !(1 << view);
    state.count();
    ACCEPTED
}

fn solve(state: &mut State) -> u64 {
    if state.views() == 0 {
        return refusal(21, 0);
    }
    match verdict(&state.grid()) {
        Verdict::Refused { number, detail } => refusal(number, detail as usize),
        Verdict::Solved { transforms, chains } => {
            state.transforms[..transforms.len()].copy_from_slice(&transforms);
            state.chains[..chains.len()].copy_from_slice(&chains);
            SOLVED
        }
    }
}

/// The query, as document 02's change 2 has it: the entry of two cameras, or a refusal.
pub fn query(state: &State, first: u8, second: u8) -> u64 {
    let named = first as usize * 256 + second as usize;
    if !state.is_possible() {
        return refusal(5, 0);
    }
    if state.views() == 0 {
        return refusal(21, 0);
    }
    if first as usize >= state.cameras() || second as usize >= state.cameras() {
        return refusal(12, named);
    }
    state.counted()[MAX_CAMERAS * first as usize + second as usize]
}

/// The library's query on the same record.
pub fn library_query(state: &State, first: u8, second: u8) -> u64 {
    unsafe { placer::ffi::placer_shared(state.record.as_ptr(), state.record.len(), first, second) }
}

/// The library's call on the same state.
pub fn library(state: &mut State, stream: &[u8], at: usize) -> Answer {
    let mut next = usize::MAX;
    let code = unsafe {
        placer::ffi::placer_step(
            state.record.as_mut_ptr(),
            state.record.len(),
            stream.as_ptr(),
            stream.len(),
            at,
            state.buffer.as_mut_ptr(),
            state.buffer.len(),
            state.transforms.as_mut_ptr(),
            state.transforms.len(),
            state.chains.as_mut_ptr(),
            state.chains.len(),
            &mut next,
        )
    };
    Answer { code, next }
}

/// How many floats of the first answer a call wrote, in the state that it left: none unless it solved.
pub fn written(state: &State, answer: Answer) -> usize {
    if answer.code == SOLVED {
        POSE_FLOATS * (state.cameras() + state.views())
    } else {
        0
    }
}

/// The first place at which what a call left differs from what it had to leave. Of the first answer's floats that the call wrote, a NaN
/// may be any NaN; all else is compared bit by bit, and so is everything where the call wrote nothing, as a refusal and the end do.
pub fn difference(ours: &State, expected: &State, written: usize) -> Option<String> {
    if ours.record != expected.record {
        return Some(format!("the record is {:x?}, and {:x?} was expected", ours.record, expected.record));
    }
    let at = |what: &str, place: usize, a: &[f64], b: &[f64]| {
        Some(format!("{what}[{place}] has the bits {:x}, and {:x} was expected", a[place].to_bits(), b[place].to_bits()))
    };
    let floats = |what: &str, a: &[f64], b: &[f64], written: usize| {
        if let Some(place) = (0..written).find(|&i| a[i].to_bits() != b[i].to_bits() && !(a[i].is_nan() && b[i].is_nan())) {
            return at(what, place, a, b);
        }
        // All of the rest at once, which is much faster: where it differs is only looked for if it does.
        let differs = a[written..].iter().zip(&b[written..]).fold(0, |bits, (x, y)| bits | (x.to_bits() ^ y.to_bits())) != 0;
        if differs || a.len() != b.len() {
            let place = (written..a.len().min(b.len())).find(|&i| a[i].to_bits() != b[i].to_bits())?;
            return at(what, place, a, b);
        }
        None
    };
    floats("the buffer", &ours.buffer, &expected.buffer, 0)
        .or_else(|| floats("the first answer", &ours.transforms, &expected.transforms, written))
        .or_else(|| (ours.chains != expected.chains).then(|| format!("the second answer is {:?}, and {:?} was expected", ours.chains, expected.chains)))
}

/// Which NaN was written is the library's choice: it then stands in the expected answer too, so that the next call's bits can be told.
pub fn take_nans(ours: &State, expected: &mut State, written: usize) {
    expected.transforms[..written].copy_from_slice(&ours.transforms[..written]);
}

// ---- numbers

/// A NaN of any bits: of either sign, signalling or quiet, with any payload.
pub fn any_nan(random: &mut Random) -> f64 {
    nan_of(random.bits())
}

fn nan_of(bits: u64) -> f64 {
    let nan = bits | f64::INFINITY.to_bits();
    f64::from_bits(if nan << 12 == 0 { nan | 1 } else { nan })
}

/// Memory of any bits, of which so many fourths, about, are NaNs.
pub fn fill(random: &mut Random, floats: &mut Vec<f64>, length: usize, fourths_nan: u64) {
    floats.clear();
    floats.extend((0..length).map(|_| {
        let bits = random.bits();
        if bits & 3 < fourths_nan { nan_of(bits) } else { f64::from_bits(bits) }
    }));
}

// ---- records

/// A record of any sizes with any poses, its shared counts true; at times a fresh one.
pub fn random_record(random: &mut Random, record: &mut Vec<u64>) {
    record.clear();
    record.resize(RECORD_WORDS, 0);
    if random.once_in(16) {
        return;
    }
    let (views, cameras) = (random.between(1, MAX_VIEWS), random.between(1, MAX_CAMERAS));
    let density = random.below(4);
    for mask in &mut record[..cameras] {
        *mask = match density {
            0 => random.bits() & random.bits() & random.bits(),
            1 => random.bits() | random.bits() | random.bits(),
            2 if random.once_in(2) => 0,
            _ => random.bits(),
        } >> (MAX_VIEWS - views);
    }
    record[16..SHARED_WORD].copy_from_slice(&[views as u64, cameras as u64, random.below(cameras) as u64]);
}

/// One or two shared counts changed, mostly by one: never to what it was.
pub fn falsify(random: &mut Random, record: &mut [u64]) {
    let (first, second) = (random.below(MAX_CAMERAS), random.below(MAX_CAMERAS));
    // As often within the sizes as anywhere.
    let cameras = (record[17] as usize).clamp(1, MAX_CAMERAS);
    let (first, second) = if random.once_in(2) { (first % cameras, second % cameras) } else { (first, second) };
    let entry = SHARED_WORD + MAX_CAMERAS * first + second;
    let held = record[entry];
    record[entry] = match random.below(8) {
        0..3 => held + 1,
        3..6 => held.wrapping_sub(1),
        6 => held ^ 1 << random.below(64),
        _ => held + 256,
    };
    // The pair's other entry alike.
    if random.once_in(3) {
        record[SHARED_WORD + MAX_CAMERAS * second + first] = record[entry];
    }
}

/// Two cameras to ask for: mostly of the rig that a record is of, and at times any.
pub fn random_cameras(random: &mut Random, record: &[u64]) -> (u8, u8) {
    let cameras = record.get(17).map_or(1, |&cameras| (cameras as usize).clamp(1, MAX_CAMERAS));
    let mut camera = || match random.below(16) {
        0 => random.bits() as u8,
        1..3 => random.below(18) as u8,
        _ => random.below(cameras) as u8,
    };
    (camera(), camera())
}

// ---- streams

pub fn size_command(stream: &mut Vec<u8>, views: usize, cameras: usize, reference: usize) {
    stream.extend([1, views as u8, cameras as u8, reference as u8]);
}

pub fn pose_command(stream: &mut Vec<u8>, view: usize, camera: usize, pose: Pose) {
    stream.extend([2, view as u8, camera as u8]);
    pose.iter().for_each(|x| stream.extend(x.to_le_bytes()));
}

pub fn solve_command(stream: &mut Vec<u8>) {
    stream.push(3);
}

pub fn withdraw_command(stream: &mut Vec<u8>, view: usize, camera: usize) {
    stream.extend([4, view as u8, camera as u8]);
}

/// A stream of good commands, mostly: few views and cameras, poses in any order, some of them taken back and most of those sent again, Solve at the
/// end and at times before.
pub fn random_stream(random: &mut Random, most_views: usize, most_cameras: usize) -> Vec<u8> {
    let (views, cameras) = (random.between(1, most_views), random.between(1, most_cameras));
    let mut stream = Vec::new();
    size_command(&mut stream, views, cameras, random.below(cameras));
    let mut cells: Vec<usize> = (0..views * cameras).collect();
    random.shuffle(&mut cells);
    let kept = if random.once_in(2) { cells.len() } else { random.between(0, cells.len()) };
    let kinds: Vec<usize> = if random.once_in(4) { (0..12).collect() } else { vec![0, 1] };
    let offer = |random: &mut Random, stream: &mut Vec<u8>, cell: usize| {
        let offered = if random.once_in(3) { near_identity(random) } else { pose(random, &kinds) };
        pose_command(stream, cell / cameras, cell % cameras, offered);
    };
    let mut taken_back = Vec::new();
    for (sent, &cell) in cells[..kept].iter().enumerate() {
        offer(random, &mut stream, cell);
        if random.once_in(12) {
            solve_command(&mut stream);
        }
        if random.once_in(8) {
            // Mostly a cell that was sent, and at times any: some are empty.
            let back = cells[if random.once_in(6) { random.below(cells.len()) } else { random.between(0, sent) }];
            withdraw_command(&mut stream, back / cameras, back % cameras);
            if random.once_in(3) {
                offer(random, &mut stream, back);
            } else {
                taken_back.push(back);
            }
        }
    }
    for back in taken_back {
        if !random.once_in(3) {
            offer(random, &mut stream, back);
        }
    }
    solve_command(&mut stream);
    if random.once_in(3) {
        let back = cells[random.below(cells.len())];
        withdraw_command(&mut stream, back / cameras, back % cameras);
        solve_command(&mut stream);
        if random.once_in(2) {
            offer(random, &mut stream, back);
            solve_command(&mut stream);
        }
    }
    if random.once_in(4) && kept < cells.len() {
        pose_command(&mut stream, cells[kept] / cameras, cells[kept] % cameras, near_identity(random));
        solve_command(&mut stream);
    }
    stream
}

/// Damage: bits flipped, bytes set, parts cut out, doubled, moved, joined to parts of another stream, the end cut off.
pub fn damage(random: &mut Random, stream: &mut Vec<u8>, other: &[u8]) {
    for _ in 0..random.between(1, 4) {
        let length = stream.len();
        if length == 0 {
            stream.extend_from_slice(&other[..random.below(other.len() + 1)]);
            continue;
        }
        let at = random.below(length);
        match random.below(10) {
            0 => stream[at] ^= 1 << random.below(8),
            1 => stream[at] = random.bits() as u8,
            2 => stream[at] = random.below(6) as u8,
            3 => stream.truncate(at),
            4 => {
                stream.remove(at);
            }
            5 => stream.insert(at, random.below(6) as u8),
            6 => {
                let end = random.between(at, length);
                stream.drain(at..end);
            }
            7 => {
                let end = random.between(at, length.min(at + 120));
                let part = stream[at..end].to_vec();
                stream.splice(at..at, part);
            }
            8 => {
                let from = random.below(other.len() + 1);
                let part = other[from..random.between(from, other.len())].to_vec();
                stream.splice(at..at, part);
            }
            // A whole command more, of any kind, where a command may begin; at the end at times a part of one.
            _ => {
                let mut command = Vec::new();
                match random.below(6) {
                    0 => size_command(&mut command, random.below(70), random.below(20), random.below(20)),
                    1 => solve_command(&mut command),
                    2 => pose_command(&mut command, random.below(70), random.below(20), near_identity(random)),
                    3 => pose_command(&mut command, random.below(3), random.below(3), [f64::NAN; POSE_FLOATS]),
                    4 => withdraw_command(&mut command, random.below(70), random.below(20)),
                    _ => withdraw_command(&mut command, random.below(3), random.below(3)),
                }
                let at = [0, 4.min(length), length, length][random.below(4)];
                if at == length && random.once_in(3) {
                    command.truncate(random.between(1, command.len()));
                }
                stream.splice(at..at, command);
            }
        }
    }
}
