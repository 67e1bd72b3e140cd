//! Every export, through the declarations of `ffi`, with every refusal that it has and with what it accepts: so that the declarations here
//! and in crates/placer/src/lib.rt are one. Guards stand around all memory that is lent, and a refusal must leave it alone.

use placer::ffi;
use placer::*;
use std::ptr::{null, null_mut};

const GUARD: f64 = 123.25;
const STANDING: Pose = [1.0, 2.0, 3.0, 0.0, 0.0, 0.0, 1.0];

fn refusal(number: u64, detail: u64) -> u64 {
    number << 32 | detail
}

/// Calls with a lent answer of that many doubles in the middle of guards: the reply, and the answer.
fn lent(length: usize, call: impl FnOnce(*mut f64, usize) -> u64) -> (u64, Vec<f64>) {
    let mut memory = vec![GUARD; length + 2];
    let reply = call(memory[1..].as_mut_ptr(), length);
    assert_eq!((memory[0], memory[length + 1]), (GUARD, GUARD), "memory around the answer was written");
    (reply, memory[1..=length].to_vec())
}

// ---- the square root

#[test]
fn roots() {
    for x in [0.0, -0.0, 1.0, 2.0, 4.0, 1e-320, f64::MIN_POSITIVE, f64::MAX, f64::INFINITY, 0.1, 12345.678] {
        assert_eq!(sqrt(x).to_bits(), x.sqrt().to_bits(), "root of {x}");
    }
    assert_eq!(sqrt(2.0).to_bits(), 0x3ff6_a09e_667f_3bcd);
    assert_eq!(sqrt(f64::from_bits(1)), 2f64.powi(-537));
    for x in [-1.0, f64::NEG_INFINITY, -1e-320] {
        assert_eq!(sqrt(x).to_bits(), 0x7ff8_0000_0000_0000, "root of {x}");
        assert!(x.sqrt().is_nan());
    }
    for bits in [0x7ff8_0000_0000_0000, 0xfff8_0000_0000_0abc] {
        assert_eq!(sqrt(f64::from_bits(bits)).to_bits(), bits);
    }
}

// ---- lists of poses

/// The reply, and the mean in the middle of guards.
fn average_of(poses: &[Pose]) -> (u64, Pose) {
    let mut memory = [[GUARD; POSE_FLOATS]; 3];
    let reply = unsafe { ffi::rig_average_isometries(poses.as_ptr(), poses.len(), &mut memory[1]) };
    let [before, mean, behind] = memory;
    assert_eq!((before, behind), ([GUARD; POSE_FLOATS], [GUARD; POSE_FLOATS]), "memory around the mean was written");
    (reply, mean)
}

#[test]
fn average_refuses() {
    let refused = |poses: &[Pose], expected: u64| assert_eq!(average_of(poses), (expected, [GUARD; POSE_FLOATS]), "{} poses", poses.len());
    let mut poses = [STANDING; 1000];
    refused(&poses[..0], refusal(1, 0));
    for count in [65, 66, 1000] {
        refused(&poses[..count], refusal(2, 0));
    }
    // 2 comes before 7.
    poses[0][0] = f64::NAN;
    refused(&poses[..65], refusal(2, 0));
    for x in [f64::NAN, f64::INFINITY, f64::NEG_INFINITY] {
        for at in 0..POSE_FLOATS {
            let mut poses = [STANDING; 64];
            poses[63][at] = x;
            refused(&poses, refusal(7, 63));
            poses[40][at] = x;
            refused(&poses, refusal(7, 40));
        }
    }
}

#[test]
fn average_answers() {
    assert_eq!(average_of(&[STANDING; 64]), (0, STANDING));
    // P10, P12, and a sum of translations.
    let turned = |w: f64| [0.0, 0.0, 0.0, 0.0, 0.0, 0.0, w];
    assert_eq!(average(&[turned(1.0), turned(-1.0)]), Ok(turned(1.0)));
    assert_eq!(average(&[turned(0.0)]), Ok(turned(1.0)));
    assert_eq!(average(&[STANDING, turned(1.0)]), Ok([0.5, 1.0, 1.5, 0.0, 0.0, 0.0, 1.0]));
    // Overflow is no refusal.
    let far = [f64::MAX, 0.0, 0.0, 0.0, 0.0, 0.0, 1.0];
    assert_eq!(average(&[far, far]).unwrap()[0], f64::INFINITY);
    assert_eq!(average(&[]), Err(Refusal { number: 1, detail: 0 }));
}

// ---- the direct call

#[derive(Clone)]
struct Grid {
    counts: Vec<u32>,
    marks: Vec<u8>,
    floats: Vec<f64>,
    reference: u32,
    first: usize,
    second: usize,
}

impl Grid {
    fn full(views: usize, cameras: usize) -> Grid {
        Grid {
            counts: vec![cameras as u32; views],
            marks: vec![1; views * cameras],
            floats: STANDING.repeat(views * cameras),
            reference: 0,
            first: 7 * (cameras + views),
            second: 2 * cameras,
        }
    }

    fn with(mut self, change: impl FnOnce(&mut Grid)) -> Grid {
        change(&mut self);
        self
    }

    /// The reply, with guards around both answers, and both answers.
    fn call(&self) -> (u64, Vec<f64>, Vec<u8>) {
        let mut chains = vec![77; self.second + 2];
        let (reply, transforms) = lent(self.first, |transforms, length| unsafe {
            ffi::placer_estimate(
                self.counts.as_ptr(),
                self.counts.len(),
                self.marks.as_ptr(),
                self.marks.len(),
                self.floats.as_ptr(),
                self.floats.len(),
                self.reference,
                transforms,
                length,
                chains[1..].as_mut_ptr(),
                self.second,
            )
        });
        assert_eq!((chains[0], chains[self.second + 1]), (77, 77), "memory around the chains was written");
        (reply, transforms, chains[1..=self.second].to_vec())
    }

    fn refuses(&self, number: u64, detail: u64) {
        let (reply, transforms, chains) = self.call();
        assert_eq!(reply, refusal(number, detail));
        assert!(transforms.iter().all(|&x| x == GUARD) && chains.iter().all(|&x| x == 77), "a refusal wrote");
    }
}

#[test]
fn estimate_refuses() {
    Grid::full(0, 0).refuses(1, 0);
    Grid::full(1, 0).refuses(1, 0);
    Grid::full(65, 1).refuses(2, 0);
    Grid::full(1, 17).refuses(2, 0);
    Grid::full(1, 1).with(|g| g.counts[0] = u32::MAX).refuses(2, 0);
    Grid::full(2, 16).with(|g| g.reference = 16).refuses(3, 0);
    Grid::full(2, 16).with(|g| g.reference = u32::MAX).refuses(3, 0);
    Grid::full(2, 2).with(|g| g.counts[1] = 3).refuses(4, 1);
    Grid::full(3, 2).with(|g| g.marks.truncate(5)).refuses(5, 0);
    Grid::full(3, 2).with(|g| g.marks.push(0)).refuses(5, 0);
    Grid::full(3, 2).with(|g| g.floats.truncate(41)).refuses(5, 0);
    Grid::full(3, 2).with(|g| g.floats.push(0.0)).refuses(5, 0);
    Grid::full(3, 2).with(|g| g.first -= 1).refuses(5, 0);
    Grid::full(3, 2).with(|g| g.second -= 1).refuses(5, 0);
    Grid::full(3, 2).with(|g| g.marks[4] = 2).refuses(6, 4);
    Grid::full(3, 2).with(|g| g.marks[5] = 255).refuses(6, 5);
    for at in 0..7 {
        Grid::full(3, 2).with(|g| g.floats[7 * 3 + at] = f64::NAN).refuses(7, 3);
        Grid::full(3, 2).with(|g| g.floats[7 * 5 + at] = f64::NEG_INFINITY).refuses(7, 5);
    }
    Grid::full(2, 2).with(|g| g.marks = vec![1, 0, 0, 1]).refuses(8, 2);
    Grid::full(3, 2).with(|g| g.marks = vec![1, 0, 0, 1, 0, 0]).refuses(8, 2);
    Grid::full(2, 2).with(|g| g.marks = vec![1, 1, 0, 0]).refuses(9, 1);
}

#[test]
fn estimate_answers() {
    let (reply, transforms, chains) = Grid::full(1, 1).call();
    assert_eq!((reply, &chains[..]), (0, &[0, 0][..]));
    assert_eq!(transforms, [[0.0, 0.0, 0.0, 0.0, 0.0, 0.0, 1.0], STANDING].concat());
    // Longer answers keep what they have beyond.
    let (reply, transforms, chains) = Grid::full(64, 16).with(|g| (g.first, g.second, g.reference) = (600, 40, 15)).call();
    assert_eq!(reply, 0);
    assert!(transforms[560..].iter().all(|&x| x == GUARD) && chains[32..].iter().all(|&x| x == 77));
    assert_eq!((&chains[..2], &chains[30..32]), (&[15, 1][..], &[15, 0][..]));
    // The numbers of an empty cell are ignored.
    let (reply, ..) = Grid::full(2, 2).with(|g| (g.marks[3], g.floats[7 * 3]) = (0, f64::NAN)).call();
    assert_eq!(reply, 0);
}

#[test]
fn rigs_are_placed() {
    let views = vec![vec![Some(STANDING), Some(STANDING), None], vec![None, Some(STANDING), Some(STANDING)]];
    let rig = place_rig(&views, 0).expect("a rig");
    assert_eq!(rig.cameras.iter().map(|c| (c.parent, c.links)).collect::<Vec<_>>(), [(0, 0), (0, 1), (1, 2)]);
    assert_eq!(rig.rig_se3_target, [STANDING; 2]);
    let apart = vec![vec![Some(STANDING), None, None], vec![None, Some(STANDING), Some(STANDING)]];
    let refusal = place_rig(&apart, 0).unwrap_err();
    assert_eq!((refusal, cameras_in(refusal.detail)), (Refusal { number: 8, detail: 6 }, vec![1, 2]));
}

// ---- sessions

fn size(views: u8, cameras: u8, reference: u8) -> Vec<u8> {
    vec![1, views, cameras, reference]
}

fn place(view: u8, camera: u8, pose: Pose) -> Vec<u8> {
    let mut command = vec![2, view, camera];
    pose.iter().for_each(|x| command.extend(x.to_le_bytes()));
    command
}

const SOLVE: [u8; 1] = [3];

fn withdraw(view: u8, camera: u8) -> Vec<u8> {
    vec![4, view, camera]
}

/// The shared counts of a record's masks, view by view and pair by pair.
fn recount(record: &[u64]) -> [u64; MAX_CAMERAS * MAX_CAMERAS] {
    let mut counts = [0; MAX_CAMERAS * MAX_CAMERAS];
    for view in 0..MAX_VIEWS {
        let held: Vec<usize> = (0..MAX_CAMERAS).filter(|&camera| record[camera] >> view & 1 == 1).collect();
        for &first in &held {
            for &second in &held {
                counts[MAX_CAMERAS * first + second] += 1;
            }
        }
    }
    counts
}

struct Lent {
    record: Vec<u64>,
    buffer: Vec<f64>,
    transforms: Vec<f64>,
    chains: Vec<u8>,
}

impl Lent {
    fn fresh() -> Lent {
        Lent {
            record: vec![0; RECORD_WORDS],
            buffer: vec![GUARD; BUFFER_FLOATS],
            transforms: vec![GUARD; FIRST_FLOATS],
            chains: vec![77; SECOND_BYTES],
        }
    }

    fn with(mut self, change: impl FnOnce(&mut Lent)) -> Lent {
        change(&mut self);
        self
    }

    fn step(&mut self, stream: &[u8], at: usize) -> (u64, usize) {
        let mut next = 0;
        let reply = unsafe {
            ffi::placer_step(
                self.record.as_mut_ptr(),
                self.record.len(),
                stream.as_ptr(),
                stream.len(),
                at,
                self.buffer.as_mut_ptr(),
                self.buffer.len(),
                self.transforms.as_mut_ptr(),
                self.transforms.len(),
                self.chains.as_mut_ptr(),
                self.chains.len(),
                &mut next,
            )
        };
        (reply, next)
    }

    /// All that is lent, as words.
    fn words(&self) -> Vec<u64> {
        let floats = self.buffer.iter().chain(&self.transforms).map(|x| x.to_bits());
        self.record.iter().copied().chain(floats).chain(self.chains.iter().map(|&x| x as u64)).collect()
    }

    /// One command refused: the reply, the next offset, and nothing changed.
    fn refuses(mut self, stream: &[u8], at: usize, number: u64, detail: u64, next: usize) {
        let before = self.words();
        assert_eq!(self.step(stream, at), (refusal(number, detail), next), "from {at} of {} bytes", stream.len());
        assert!(before == self.words(), "a refusal changed something");
    }

    /// The shared counts made those of the masks: counted view by view.
    fn counted(&mut self) {
        let counts = recount(&self.record);
        self.record[SHARED_WORD..RECORD_WORDS].copy_from_slice(&counts);
    }

    fn shared(&self, first: u8, second: u8) -> u64 {
        unsafe { ffi::placer_shared(self.record.as_ptr(), self.record.len(), first, second) }
    }

    /// The same after commands that are accepted.
    fn after(mut self, commands: &[Vec<u8>]) -> Lent {
        for command in commands {
            assert_eq!(self.step(command, 0), (1, command.len()));
        }
        self
    }
}

#[test]
fn step_refuses() {
    let sized = || Lent::fresh().after(&[size(2, 2, 0)]);
    // 13, then 5, before all else.
    Lent::fresh().refuses(&vec![3; MAX_STREAM + 1], 0, 13, 0, MAX_STREAM + 1);
    Lent::fresh().with(|l| l.record.truncate(18)).refuses(&vec![3; MAX_STREAM + 1], 0, 13, 0, MAX_STREAM + 1);
    Lent::fresh().with(|l| l.record[SHARED_WORD] = 1).refuses(&vec![3; MAX_STREAM + 1], 0, 13, 0, MAX_STREAM + 1);
    for spoil in [
        (|l| l.record.truncate(18)) as fn(&mut Lent),
        |l| l.record.truncate(SHARED_WORD),
        |l| l.record.truncate(RECORD_WORDS - 1),
        |l| l.record.push(0),
        |l| l.record[16] = 256,
        |l| l.record[17] = 1 << 63,
        |l| l.record[18] = 1,
        |l| l.record[3] = 1,
        |l| l.record[16..SHARED_WORD].copy_from_slice(&[65, 1, 0]),
        |l| l.record[16..SHARED_WORD].copy_from_slice(&[1, 17, 0]),
        |l| l.record[16..SHARED_WORD].copy_from_slice(&[1, 1, 1]),
        |l| (l.record[0], l.record[16], l.record[17]) = (2, 1, 1),
        |l| (l.record[1], l.record[16], l.record[17]) = (1, 1, 1),
        // The same with shared counts that are those of the masks.
        |l| { l.record[3] = 1; l.counted() },
        |l| { (l.record[0], l.record[16], l.record[17]) = (2, 1, 1); l.counted() },
        |l| { (l.record[1], l.record[16], l.record[17]) = (1, 1, 1); l.counted() },
        |l| l.record[SHARED_WORD] = 1,
        |l| l.record[SHARED_WORD] = 256,
        |l| l.record[RECORD_WORDS - 1] = 1 << 63,
        |l| l.buffer.truncate(BUFFER_FLOATS - 1),
        |l| l.buffer.push(0.0),
        |l| l.transforms.truncate(FIRST_FLOATS - 1),
        |l| l.chains.truncate(SECOND_BYTES - 1),
    ] {
        Lent::fresh().with(spoil).refuses(&SOLVE, 0, 5, 0, 1);
        Lent::fresh().with(spoil).refuses(&SOLVE, 9, 5, 0, 1);
    }
    for byte in [0, 9, 255] {
        sized().refuses(&[byte, 3], 0, 10, byte as u64, 2);
    }
    let pose = place(1, 1, STANDING);
    for length in 1..pose.len() {
        sized().refuses(&[&[3, 3], &pose[..length]].concat(), 2, 11, 2, 2 + length);
    }
    for length in 1..3 {
        sized().refuses(&[&[3, 3], &withdraw(9, 9)[..length]].concat(), 2, 11, 2, 2 + length);
        Lent::fresh().refuses(&withdraw(0, 0)[..length], 0, 11, 0, length);
    }
    sized().refuses(&SOLVE, 2, 11, 1, 1);
    Lent::fresh().refuses(&pose, 0, 21, 0, 59);
    Lent::fresh().refuses(&SOLVE, 0, 21, 0, 1);
    Lent::fresh().refuses(&withdraw(255, 255), 0, 21, 0, 3);
    sized().refuses(&size(1, 1, 0), 0, 22, 0, 4);
    for (views, cameras, reference, number) in [(0, 0, 0, 1), (65, 0, 0, 2), (1, 0, 0, 1), (1, 17, 0, 2), (64, 16, 16, 3)] {
        Lent::fresh().refuses(&size(views, cameras, reference), 0, number, 0, 4);
    }
    sized().refuses(&place(2, 0, STANDING), 0, 12, 512, 59);
    sized().refuses(&place(0, 2, STANDING), 0, 12, 2, 59);
    sized().after(&[pose.clone()]).refuses(&pose, 0, 23, 257, 59);
    for at in 0..7 {
        let mut bad = STANDING;
        bad[at] = f64::INFINITY;
        sized().refuses(&place(1, 0, bad), 0, 7, 2, 59);
    }
    // Withdraw: 12, though nothing is held there either, then 24.
    for (view, camera) in [(2, 0), (0, 2), (2, 2), (255, 255)] {
        sized().refuses(&withdraw(view, camera), 0, 12, view as u64 * 256 + camera as u64, 3);
    }
    for (view, camera) in [(0, 0), (0, 1), (1, 0)] {
        sized().after(&[pose.clone()]).refuses(&withdraw(view, camera), 0, 24, view as u64 * 256 + camera as u64, 3);
    }
    sized().after(&[pose.clone(), withdraw(1, 1)]).refuses(&withdraw(1, 1), 0, 24, 257, 3);
    // Solve: 7 for what was spoilt since, 8, and 9.
    sized().after(&[pose.clone()]).with(|l| l.buffer[7 * 17] = f64::NAN).refuses(&SOLVE, 0, 7, 3, 1);
    sized().after(&[pose.clone(), place(0, 0, STANDING)]).refuses(&SOLVE, 0, 8, 2, 1);
    sized().after(&[pose, place(1, 0, STANDING)]).refuses(&SOLVE, 0, 9, 0, 1);
}

#[test]
fn step_obeys() {
    let mut session = Session::new();
    let stream = [size(1, 1, 0), place(0, 0, STANDING), SOLVE.to_vec()].concat();
    assert_eq!(session.feed(&stream), [Ok(Accepted::Held), Ok(Accepted::Held), Ok(Accepted::Solved)]);
    assert_eq!(session.step(&stream, stream.len()), Reply { answer: Ok(Accepted::End), next: stream.len() });
    let rig = session.rig().expect("a rig");
    assert_eq!((rig.cameras[0].links, rig.rig_se3_target), (0, vec![STANDING]));
    assert_eq!(session.record()[..2], [1, 0]);
    // An accepted Pose writes its seven floats only.
    let mut lent = Lent::fresh().after(&[size(64, 16, 3), place(63, 15, STANDING)]);
    assert_eq!(lent.record[15], 1 << 63);
    assert_eq!(lent.buffer.split_off(7 * (63 * 16 + 15)), STANDING);
    assert!(lent.buffer.iter().all(|&x| x == GUARD));
}

#[test]
fn poses_are_taken_back() {
    let bits = |lent: &Lent| lent.buffer.iter().map(|x| x.to_bits()).collect::<Vec<_>>();
    // A Pose and its withdrawal as the next command: the record as it was, word for word, at the first and the last bits of masks. The withdrawal changes
    // nothing else, and no float at all.
    for (view, camera) in [(0, 0), (63, 0), (0, 15), (63, 15), (31, 7), (32, 8)] {
        let mut lent = Lent::fresh().after(&[size(64, 16, 3), place(5, camera, STANDING), place(view, 5, STANDING)]);
        let record = lent.record.clone();
        lent = lent.after(&[place(view, camera, [f64::MAX; POSE_FLOATS])]);
        assert_eq!(lent.record[camera as usize], record[camera as usize] | 1 << view);
        let held = lent.words();
        assert_eq!(lent.step(&withdraw(view, camera), 0), (1, 3));
        assert_eq!(lent.record, record, "view {view}, camera {camera}");
        assert!(held[RECORD_WORDS..] == lent.words()[RECORD_WORDS..], "a withdrawal wrote something but the record");
        lent.refuses(&withdraw(view, camera), 0, 24, view as u64 * 256 + camera as u64, 3);
    }
    // Every cell of a full rig, with all others held: one bit of one mask, and what was shared by it.
    let cells: Vec<(u8, u8)> = (0..3).flat_map(|view| (0..2).map(move |camera| (view, camera))).collect();
    let full = |numbers: &dyn Fn(u8, u8) -> Pose| {
        let poses = cells.iter().map(|&(view, camera)| place(view, camera, numbers(view, camera)));
        Lent::fresh().after(&[vec![size(3, 2, 1)], poses.collect()].concat())
    };
    for &(view, camera) in &cells {
        let mut lent = full(&|_, _| STANDING);
        let (record, buffer) = (lent.record.clone(), bits(&lent));
        lent = lent.after(&[withdraw(view, camera)]);
        // The mask, the camera's own count, and both entries of the pair, by one each.
        let camera = camera as usize;
        let own = SHARED_WORD + 17 * camera;
        let changed: Vec<_> = (0..RECORD_WORDS).filter(|&n| lent.record[n] != record[n]).collect();
        let mut expected = vec![camera, own, SHARED_WORD + 1, SHARED_WORD + 16];
        expected.sort();
        assert_eq!((changed, lent.record[camera]), (expected, record[camera] ^ 1 << view));
        assert!([own, SHARED_WORD + 1, SHARED_WORD + 16].iter().all(|&n| (record[n], lent.record[n]) == (3, 2)));
        assert!(buffer == bits(&lent));
    }
    // A bumped target: taken back and sent again, the rig is the one of a stream that never had it. Until then its cell's numbers, spoilt here, are ignored.
    let seen = |view: u8, camera: u8| [(view * view * (camera + 1)) as f64, camera as f64, 1.0, 0.0, 0.0, 0.0, 1.0];
    let bumped = |view: u8, camera: u8| if (view, camera) == (1, 0) { [1e9; POSE_FLOATS] } else { seen(view, camera) };
    let solved = |lent: &mut Lent| {
        assert_eq!(lent.step(&SOLVE, 0), (2, 1));
        lent.transforms.iter().map(|x| x.to_bits()).chain(lent.chains.iter().map(|&x| x as u64)).collect::<Vec<_>>()
    };
    let good = solved(&mut full(&seen));
    let mut lent = full(&bumped);
    assert!(solved(&mut lent) != good);
    lent = lent.after(&[withdraw(1, 0)]).with(|l| l.buffer[7 * 16..7 * 17].fill(f64::NAN));
    assert!(solved(&mut lent) != good);
    lent = lent.after(&[place(1, 0, seen(1, 0))]);
    assert!(solved(&mut lent) == good, "the rig with a pose sent again");
    // The only link taken back: 8 with the far camera, the answers kept; and solved with it sent again.
    let mut session = Session::new();
    let stream = [size(2, 2, 0), place(0, 0, STANDING), place(1, 0, STANDING), place(1, 1, STANDING), SOLVE.to_vec(), withdraw(1, 1), SOLVE.to_vec()].concat();
    let answers = session.feed(&stream);
    assert_eq!(answers[4..], [Ok(Accepted::Solved), Ok(Accepted::Held), Err(Refusal { number: 8, detail: 2 })]);
    let rig = session.rig();
    assert!(rig.is_some());
    assert_eq!(session.feed(&[place(1, 1, STANDING), SOLVE.to_vec()].concat()), [Ok(Accepted::Held), Ok(Accepted::Solved)]);
    assert_eq!(session.rig(), rig);
}

// ---- shared counts

#[test]
fn shared_counts_are_kept() {
    let mut lent = Lent::fresh();
    let obey = |lent: &mut Lent, command: Vec<u8>| {
        assert_eq!(lent.step(&command, 0), (1, command.len()));
        assert_eq!(lent.record[SHARED_WORD..], recount(&lent.record), "after {:?}", &command[..3]);
    };
    obey(&mut lent, size(64, 16, 5));
    // Cameras in stripes, so that pairs share unlike numbers of views; then all of camera 9 back, and one view of every camera.
    let cells = || (0..64u8).flat_map(|view| (0..16u8).map(move |camera| (view, camera))).filter(|&(view, camera)| view % (camera + 1) < 3);
    cells().for_each(|(view, camera)| obey(&mut lent, place(view, camera, STANDING)));
    let full = lent.record.clone();
    for first in 0..16 {
        for second in 0..16 {
            assert_eq!(lent.shared(first, second), full[SHARED_WORD + 16 * first as usize + second as usize]);
            assert_eq!(lent.shared(first, second), cells().filter(|&(view, camera)| camera == first && view % (second + 1) < 3).count() as u64);
        }
    }
    cells().filter(|&(_, camera)| camera == 9).for_each(|(view, camera)| obey(&mut lent, withdraw(view, camera)));
    assert!((0..16).all(|camera| lent.shared(9, camera) == 0 && lent.shared(camera, 9) == 0));
    cells().filter(|&(view, camera)| camera != 9 && view == 2).for_each(|(view, camera)| obey(&mut lent, withdraw(view, camera)));
    // What is refused, and a Solve, leave them as they were.
    let before = lent.record.clone();
    for command in [size(1, 1, 0), place(64, 0, STANDING), place(0, 0, STANDING), place(2, 0, [f64::NAN; POSE_FLOATS]), withdraw(2, 0), withdraw(0, 16), SOLVE.to_vec()] {
        assert_ne!(lent.step(&command, 0).0, 1);
        assert!(lent.record == before);
    }
    // Both sent again: the record as it was.
    cells().filter(|&(view, camera)| camera == 9 || view == 2).for_each(|(view, camera)| obey(&mut lent, place(view, camera, STANDING)));
    assert!(lent.record == full);
    // The wrapper has the same, and a fresh session is refused.
    let mut session = Session::new();
    assert_eq!(session.shared(0, 0), Err(Refusal { number: 21, detail: 0 }));
    session.feed(&[size(3, 3, 0), place(0, 0, STANDING), place(0, 2, STANDING), place(1, 2, STANDING)].concat());
    let shared = |first, second| session.shared(first, second);
    assert_eq!([shared(0, 0), shared(0, 2), shared(2, 0), shared(2, 2), shared(1, 1), shared(1, 2)].map(Result::unwrap), [1, 1, 1, 2, 0, 0]);
    assert_eq!(shared(2, 3), Err(Refusal { number: 12, detail: 2 * 256 + 3 }));
    assert_eq!(session.record()[SHARED_WORD + 16 * 2 + 2], 2);
}

#[test]
fn false_counts_are_refused() {
    let true_record = Lent::fresh().after(&[size(5, 4, 1), place(0, 0, STANDING), place(0, 1, STANDING), place(4, 1, STANDING), place(4, 3, STANDING)]).record;
    let fresh = vec![0; RECORD_WORDS];
    let mut full = vec![u64::MAX; 16];
    full.extend([64, 16, 0]);
    full.extend([64; 256]);
    for record in [true_record, fresh, full] {
        let lent = || Lent::fresh().with(|l| l.record.clone_from(&record));
        assert_eq!(lent().step(&[], 0), (0, 0), "a true record is taken");
        for entry in SHARED_WORD..RECORD_WORDS {
            for false_count in [record[entry] + 1, record[entry].wrapping_sub(1), 255, record[entry] + 256, record[entry] + (1 << 32), u64::MAX] {
                let spoilt = lent().with(|l| l.record[entry] = false_count);
                assert_eq!(spoilt.shared(0, 0), refusal(5, 0), "word {entry} is {false_count}");
                spoilt.refuses(&SOLVE, 0, 5, 0, 1);
            }
        }
        // Both entries of each pair, alike.
        for (first, second) in (0..16).flat_map(|first| (0..first).map(move |second| (first, second))) {
            let spoilt = lent().with(|l| [(first, second), (second, first)].iter().for_each(|(a, b)| l.record[SHARED_WORD + 16 * a + b] ^= 1));
            assert_eq!(spoilt.shared(0, 0), refusal(5, 0), "cameras {first} and {second}");
            spoilt.refuses(&SOLVE, 9, 5, 0, 1);
        }
    }
}

#[test]
fn shared_refuses() {
    let sized = |cameras| Lent::fresh().after(&[size(2, cameras, 0)]);
    // 5, whatever the cameras: before 21 and before 12.
    for (first, second) in [(0, 0), (0, 200), (200, 0), (255, 255)] {
        for length in [0, 18, 19, 274] {
            assert_eq!(Lent::fresh().with(|l| l.record.truncate(length)).shared(first, second), refusal(5, 0));
        }
        for spoil in [
            (|l| l.record.push(0)) as fn(&mut Lent),
            |l| l.record[16] = 256,
            |l| l.record[16] = 1,
            |l| l.record[17] = 1 << 63,
            |l| l.record[18] = 1,
            |l| { l.record[3] = 1; l.counted() },
            |l| l.record[SHARED_WORD + 17] = 1,
        ] {
            assert_eq!(Lent::fresh().with(spoil).shared(first, second), refusal(5, 0));
        }
        for spoil in [(|l| { l.record[0] = 4; l.counted() }) as fn(&mut Lent), |l| { l.record[2] = 1; l.counted() }, |l| l.record[RECORD_WORDS - 1] = 1] {
            assert_eq!(sized(2).with(spoil).shared(first, second), refusal(5, 0));
        }
        // 21, before 12.
        assert_eq!(Lent::fresh().shared(first, second), refusal(21, 0));
    }
    // 12 for every pair with a camera outside, and for no other; no pair is taken for another entry.
    for cameras in [1, 2, 15, 16] {
        let lent = sized(cameras);
        for (first, second) in (0..=255u8).flat_map(|first| (0..=255u8).map(move |second| (first, second))) {
            let inside = first < cameras && second < cameras;
            assert_eq!(lent.shared(first, second), if inside { 0 } else { refusal(12, first as u64 * 256 + second as u64) });
        }
    }
}

// ---- packed frames

fn frame(view: u8, camera: u8, counts: [i32; POSE_FLOATS]) -> Vec<u8> {
    [vec![view, camera], counts.iter().flat_map(|count| count.to_le_bytes()).collect()].concat()
}

/// A frame that tells fields, signs and the order of bytes apart, and its command's numbers.
const WORKED: [i32; POSE_FLOATS] = [-1, 2_500_000, i32::MIN, 0, -(1 << 30), 1 << 28, i32::MAX];

fn worked() -> Pose {
    [-1e-6, 2.5, -2147.483648, 0.0, -1.0, 0.25, 2.0 - 2f64.powi(-30)]
}

#[test]
fn frames_are_imported() {
    // The bits, by hand: -1 micrometre, 2.5 m, -2^31 micrometres; a zero word is plus zero.
    let command = pose_commands(&frame(3, 7, WORKED)).unwrap();
    let words: Vec<u64> = command[3..].chunks(8).map(|word| u64::from_le_bytes(word.try_into().unwrap())).collect();
    assert_eq!(command[..3], [2, 3, 7]);
    let expected = [0xbeb0_c6f7_a0b5_ed8d, 0x4004_0000_0000_0000, 0xc0a0_c6f7_a0b5_ed8d, 0, 0xbff0_0000_0000_0000, 0x3fd0_0000_0000_0000, 0x3fff_ffff_ffc0_0000];
    assert_eq!(words, expected);
    assert_eq!(command, place(3, 7, worked()));
    // In their order, each with its own cell; no frames; as many as there may be.
    let frames = [frame(0, 0, WORKED), frame(0, 1, [0; POSE_FLOATS]), frame(255, 255, WORKED)].concat();
    assert_eq!(pose_commands(&frames), Ok([place(0, 0, worked()), place(0, 1, [0.0; POSE_FLOATS]), place(255, 255, worked())].concat()));
    assert_eq!((import_frames(&[], &mut []), pose_commands(&[])), (Ok(0), Ok(vec![])));
    let cells = || (0..64u8).flat_map(|view| (0..16u8).map(move |camera| (view, camera)));
    let most: Vec<u8> = cells().flat_map(|(view, camera)| frame(view, camera, WORKED)).collect();
    let mut commands = vec![0; POSE_BYTES * MAX_FRAMES];
    assert_eq!(import_frames(&most, &mut commands), Ok(MAX_FRAMES));
    assert!(commands == cells().flat_map(|(view, camera)| place(view, camera, worked())).collect::<Vec<_>>());
    // What is written is obeyed: the largest rig from frames, and a rig of one.
    let mut session = Session::new();
    assert_eq!(session.feed(&[size(64, 16, 0), commands].concat()), [Ok(Accepted::Held); 1 + MAX_FRAMES]);
    let standing = frame(0, 0, [1_000_000, 2_000_000, 3_000_000, 0, 0, 0, 1 << 30]);
    let mut session = Session::new();
    session.feed(&[size(1, 1, 0), pose_commands(&standing).unwrap(), SOLVE.to_vec()].concat());
    assert_eq!(session.rig().unwrap().rig_se3_target, [STANDING]);
}

/// The reply to so many bytes of frames and so much room, with guards around what is lent; a refusal must leave it alone.
fn import_of(frames: &[u8], room: usize) -> u64 {
    let mut memory = vec![77; room + 2];
    let reply = unsafe { ffi::placer_frames(frames.as_ptr(), frames.len(), memory[1..].as_mut_ptr(), room) };
    assert_eq!((memory[0], memory[room + 1]), (77, 77), "memory around the commands was written");
    assert!(reply >> 32 == 0 || memory.iter().all(|&byte| byte == 77), "a refusal wrote");
    reply
}

#[test]
fn frames_refuse() {
    let bytes = vec![5; FRAME_BYTES * (MAX_FRAMES + 2)];
    // Every short length, and every one around the most, with room for its whole frames, with a byte more, and with a byte fewer: 14, then 15, then 5.
    for length in (0..=200).chain(30_600..=bytes.len()) {
        let (count, right) = (length / FRAME_BYTES, POSE_BYTES * (length / FRAME_BYTES));
        for room in [right, right + 1, right.saturating_sub(1)] {
            let expected = match () {
                _ if length % FRAME_BYTES != 0 => refusal(14, 0),
                _ if count > MAX_FRAMES => refusal(15, 0),
                _ if room != right => refusal(5, 0),
                _ => count as u64,
            };
            assert_eq!(import_of(&bytes[..length], room), expected, "{length} bytes, room for {room}");
        }
    }
    for (length, number) in [(29, 14), (31, 14), (30_721, 14), (30_749, 14), (30_750, 15), (30_751, 14)] {
        for room in [0, 59, POSE_BYTES * MAX_FRAMES, POSE_BYTES * (MAX_FRAMES + 1)] {
            assert_eq!(import_of(&bytes[..length], room), refusal(number, 0));
        }
        assert_eq!(pose_commands(&bytes[..length]), Err(Refusal { number: number as u32, detail: 0 }));
    }
    for room in [0, 58, 60, 118] {
        assert_eq!(import_of(&bytes[..30], room), refusal(5, 0));
        assert_eq!(import_frames(&bytes[..30], &mut vec![0; room]), Err(Refusal { number: 5, detail: 0 }));
    }
    assert_eq!(import_of(&[], 1), refusal(5, 0));
    // Far too many: no memory is asked for.
    assert_eq!(pose_commands(&vec![0; 30_000_000]), Err(Refusal { number: 15, detail: 0 }));
}

#[test]
fn streams_in_pieces() {
    let commands = [size(1, 1, 0), place(0, 0, STANDING), withdraw(0, 0), place(0, 0, STANDING), SOLVE.to_vec()];
    let stream = commands.concat();
    let cut_off = |at: usize| Err(Refusal { number: 11, detail: at as u32 });
    let obeyed = [Ok(Accepted::Held), Ok(Accepted::Held), Ok(Accepted::Held), Ok(Accepted::Held), Ok(Accepted::Solved)];
    let ends = [0, 4, 63, 66, 125, 126];
    // Every two pieces: a command that is cut off is told by 11, and obeyed at the same offset once the stream is longer.
    for cut in 0..=stream.len() {
        let mut session = Session::new();
        let first = session.feed_from(&stream[..cut], 0);
        let whole = ends[1..].iter().filter(|&&end| end <= cut).count();
        let last = ends[whole];
        assert_eq!(first.next, last, "cut at {cut}");
        assert_eq!(first.answers[..whole], obeyed[..whole]);
        assert_eq!(first.answers[whole..], vec![cut_off(last); (last != cut) as usize]);
        let rest = session.feed_from(&stream, first.next);
        assert_eq!(rest, Fed { answers: obeyed[whole..].to_vec(), next: stream.len() });
        // The same where the bytes of obeyed commands are dropped.
        let mut session = Session::new();
        session.feed_from(&stream[..cut], 0);
        assert_eq!(session.feed_from(&stream[last..], 0).answers, obeyed[whole..]);
    }
    // A byte at a time.
    let (mut session, mut next) = (Session::new(), 0);
    for length in 0..=stream.len() {
        next = session.feed_from(&stream[..length], next).next;
    }
    assert_eq!((next, session.rig().map(|rig| rig.rig_se3_target)), (stream.len(), Some(vec![STANDING])));
    // Past the end, and after a refusal that ends the stream.
    assert_eq!(session.feed_from(&stream, 130), Fed { answers: vec![cut_off(stream.len())], next: 130 });
    assert_eq!(session.feed_from(&[9, 3], 0), Fed { answers: vec![Err(Refusal { number: 10, detail: 9 })], next: 2 });
}

#[test]
fn sessions_are_saved() {
    let shifted = [4.0, 2.0, 3.0, 0.0, 0.0, 0.0, 1.0];
    let commands = [
        size(2, 2, 1),
        place(0, 0, STANDING),
        place(0, 1, shifted),
        place(1, 1, STANDING),
        SOLVE.to_vec(),
        place(1, 0, shifted),
        SOLVE.to_vec(),
        withdraw(0, 0),
        SOLVE.to_vec(),
        place(0, 0, shifted),
        SOLVE.to_vec(),
    ];
    let mut through = Session::new();
    let expected: Vec<_> = commands.iter().map(|command| (through.step(command, 0), through.rig())).collect();
    assert_eq!(expected.iter().filter(|(reply, _)| reply.answer == Ok(Accepted::Solved)).count(), 4);
    for n in [6, 8, 10] {
        assert_ne!(expected[n - 2].1, expected[n].1);
    }
    // Saved after each command and taken up again: the same replies, the same rig, the same parts.
    let mut session = Session::new();
    for (command, (reply, rig)) in commands.iter().zip(expected) {
        session = Session::from_parts(*session.record(), session.buffer());
        assert_eq!(session.rig(), None);
        assert_eq!(session.step(command, 0), reply);
        if reply.answer == Ok(Accepted::Solved) {
            assert_eq!(session.rig(), rig);
        }
    }
    assert_eq!((session.record(), session.buffer()), (through.record(), through.buffer()));
    // Parts that hold no session.
    for mut spoilt in [Session::from_parts([1; RECORD_WORDS], session.buffer()), Session::from_parts(*session.record(), vec![0.0; 7])] {
        assert_eq!(spoilt.feed(&SOLVE), [Err(Refusal { number: 5, detail: 0 })]);
    }
}

#[test]
fn refusals_are_told() {
    let told = |number, detail| Refusal { number, detail }.to_string();
    assert_eq!(told(7, 3), "cell 3 (view * cameras + camera), or pose 3 of a list, has a number that is not finite");
    assert_eq!(told(12, 513), "view 2, camera 1 is outside the rig, or, of a query, camera 2 or camera 1");
    assert_eq!(told(14, 0), "the length of the packed frames is no multiple of 30");
    assert_eq!(told(15, 0), "more than 1,024 packed frames");
    assert_eq!(told(24, 513), "view 2, camera 1 holds no pose");
}

// ---- no memory at all

#[test]
fn null_will_do_for_nothing() {
    unsafe {
        assert_eq!(ffi::rig_average_isometries(null(), 0, &mut [GUARD; POSE_FLOATS]), refusal(1, 0));
        assert_eq!(ffi::placer_estimate(null(), 0, null(), 0, null(), 0, 0, null_mut(), 0, null_mut(), 0), refusal(1, 0));
        let counts = [1];
        assert_eq!(ffi::placer_estimate(counts.as_ptr(), 1, null(), 0, null(), 0, 0, null_mut(), 0, null_mut(), 0), refusal(5, 0));
        let mut next = 1;
        let reply = ffi::placer_step(null_mut(), 0, null(), 0, 0, null_mut(), 0, null_mut(), 0, null_mut(), 0, &mut next);
        assert_eq!((reply, next), (refusal(5, 0), 0));
        assert_eq!(ffi::placer_shared(null(), 0, 0, 0), refusal(5, 0));
        assert_eq!(ffi::placer_frames(null(), 0, null_mut(), 0), 0);
        let mut l = Lent::fresh();
        let reply = ffi::placer_step(
            l.record.as_mut_ptr(),
            RECORD_WORDS,
            null(),
            0,
            0,
            l.buffer.as_mut_ptr(),
            BUFFER_FLOATS,
            l.transforms.as_mut_ptr(),
            FIRST_FLOATS,
            l.chains.as_mut_ptr(),
            SECOND_BYTES,
            &mut next,
        );
        assert_eq!((reply, next), (0, 0));
    }
}
