//! Times the library and the Rust on the same inputs, turn by turn in one run: `bench ROUNDS`. A line has the median time of each, the
//! median of the rounds' ratios, and the ratios between which eight rounds in ten lie. Below 1 the library is the faster. In the last line the library
//! is held to itself: the Rust's column then has its calls for one command each. The Rust has neither streams nor shared counts nor packed frames: a plain reader, a
//! plain count and a plain conversion stand for them.

use drivers::grid::{near_identity, Grid, Pose, POSE_FLOATS};
use drivers::oracle::{bits, flat, iso, views_of};
use drivers::stream::{pose_command, size_command, solve_command};
use random::Random;
use std::hint::black_box;
use std::io::Write;
use vision_calibration_core::Iso3;
use vision_calibration_linear::extrinsics::{average_isometries, estimate_extrinsics_from_cam_target_poses, ExtrinsicPoses};

/// Nanoseconds that this thread has had of a processor: what else the machine does meanwhile is not counted.
fn clock() -> u64 {
    #[repr(C)]
    struct Timespec {
        seconds: i64,
        nanoseconds: i64,
    }
    extern "C" {
        fn clock_gettime(clock: i32, time: *mut Timespec) -> i32;
    }
    const CLOCK_THREAD_CPUTIME_ID: i32 = 3;
    let mut time = Timespec { seconds: 0, nanoseconds: 0 };
    assert_eq!(unsafe { clock_gettime(CLOCK_THREAD_CPUTIME_ID, &mut time) }, 0);
    time.seconds as u64 * 1_000_000_000 + time.nanoseconds as u64
}

/// The time of one round of either side, in nanoseconds.
const ROUND: u64 = 1_000_000;

/// How often the work fits into a round.
fn turns(work: &mut dyn FnMut()) -> u32 {
    let mut turns = 1;
    loop {
        let start = clock();
        for _ in 0..turns {
            work();
        }
        if clock() - start > ROUND / 2 {
            return turns;
        }
        turns *= 2;
    }
}

/// Nanoseconds for one piece of the work.
fn time(turns: u32, pieces: usize, work: &mut dyn FnMut()) -> f64 {
    let start = clock();
    for _ in 0..turns {
        work();
    }
    (clock() - start) as f64 / turns as f64 / pieces as f64
}

/// Keeps a value from being computed for nothing.
fn keep<T>(value: T) {
    black_box(&value);
}

fn at(sorted: &[f64], part: f64) -> f64 {
    sorted[((sorted.len() - 1) as f64 * part).round() as usize]
}

fn sorted(mut numbers: Vec<f64>) -> Vec<f64> {
    numbers.sort_by(f64::total_cmp);
    numbers
}

/// Both sides, turn by turn, and the line of the table. A piece is what the times are given for.
fn compare(rounds: usize, what: &str, pieces: usize, mut ours: impl FnMut(), mut rust: impl FnMut()) {
    let (our_turns, rust_turns) = (turns(&mut ours), turns(&mut rust));
    let (mut our_times, mut rust_times, mut ratios) = (vec![], vec![], vec![]);
    for round in 0..rounds {
        let (a, b) = if round % 2 == 0 {
            let a = time(our_turns, pieces, &mut ours);
            (a, time(rust_turns, pieces, &mut rust))
        } else {
            let b = time(rust_turns, pieces, &mut rust);
            (time(our_turns, pieces, &mut ours), b)
        };
        our_times.push(a);
        rust_times.push(b);
        ratios.push(a / b);
    }
    let ratios = sorted(ratios);
    println!(
        "| {what} | {} | {} | {:.2} | {:.2} to {:.2} |",
        nanoseconds(at(&sorted(our_times), 0.5)),
        nanoseconds(at(&sorted(rust_times), 0.5)),
        at(&ratios, 0.5),
        at(&ratios, 0.1),
        at(&ratios, 0.9),
    );
}

fn nanoseconds(n: f64) -> String {
    if n < 100.0 {
        format!("{n:.1} ns")
    } else if n < 10_000.0 {
        format!("{n:.0} ns")
    } else {
        format!("{:.1} µs", n / 1000.0)
    }
}

fn estimate(rounds: usize, what: &str, grid: &Grid) {
    let views = views_of(grid);
    let reference = grid.reference as usize;
    let mut transforms = vec![0.0; grid.first_room];
    let mut chains = vec![0; grid.second_room];
    compare(
        rounds,
        what,
        1,
        || {
            let grid = black_box(grid);
            let solved = placer::estimate(&grid.counts, &grid.marks, &grid.floats, grid.reference, &mut transforms, &mut chains);
            black_box(solved).expect("a grid that is solved");
            black_box(&transforms);
        },
        || {
            let solved = estimate_extrinsics_from_cam_target_poses(black_box(&views), reference);
            black_box(solved).expect("a grid that is solved");
        },
    );
}

fn dense(random: &mut Random, views: usize, cameras: usize) -> Grid {
    Grid::whole(views, cameras, 0, &vec![true; views * cameras], |_| near_identity(random))
}

/// Cameras in a line, neighbours sharing four views.
fn chain(random: &mut Random, cameras: usize) -> Grid {
    let views = 4 * (cameras - 1);
    let held: Vec<bool> = (0..views * cameras)
        .map(|cell| {
            let (view, camera) = (cell / cameras, cell % cameras);
            camera == view / 4 || camera == view / 4 + 1
        })
        .collect();
    Grid::whole(views, cameras, 0, &held, |_| near_identity(random))
}

/// 65,536 bytes: a full grid of poses, each command that is refused though well formed, and Solve twice.
fn stream(random: &mut Random) -> Vec<u8> {
    let mut stream = Vec::new();
    size_command(&mut stream, 64, 16, 0);
    for cell in 0..1024 + 86 {
        pose_command(&mut stream, cell % 64, cell / 64 % 16, near_identity(random));
    }
    for _ in 0..10 {
        size_command(&mut stream, 64, 16, 0);
    }
    solve_command(&mut stream);
    solve_command(&mut stream);
    assert_eq!(stream.len(), 65_536);
    stream
}

/// What a reader tells of a command that prints something.
enum Told<'a> {
    Solved(&'a ExtrinsicPoses),
    Refused(usize, usize),
}

/// The Rust has no stream: this is a plain reader of one, above the Rust's function. A grid that the Rust does not solve is in no stream here.
fn read_plainly(stream: &[u8], mut tell: impl FnMut(Told)) {
    let mut views: Vec<Vec<Option<Iso3>>> = Vec::new();
    let mut reference = 0;
    let mut at = 0;
    while at < stream.len() {
        match &stream[at..] {
            [1, v, c, r, ..] => {
                match (*v, *c, *r) {
                    _ if !views.is_empty() => tell(Told::Refused(22, 0)),
                    (0, ..) => tell(Told::Refused(1, 0)),
                    (65.., ..) => tell(Told::Refused(2, 0)),
                    (_, 0, _) => tell(Told::Refused(1, 0)),
                    (_, 17.., _) => tell(Told::Refused(2, 0)),
                    (_, c, r) if r >= c => tell(Told::Refused(3, 0)),
                    (v, c, r) => {
                        views = vec![vec![None; c as usize]; v as usize];
                        reference = r as usize;
                    }
                }
                at += 4;
            }
            [2, v, c, floats @ ..] if floats.len() >= 56 => {
                let (v, c) = (*v as usize, *c as usize);
                let (sized, cell) = (!views.is_empty(), v * views.first().map_or(0, Vec::len) + c);
                let offered: Pose = std::array::from_fn(|i| f64::from_le_bytes(floats[8 * i..8 * i + 8].try_into().unwrap()));
                match views.get_mut(v).and_then(|view| view.get_mut(c)) {
                    _ if !sized => tell(Told::Refused(21, 0)),
                    None => tell(Told::Refused(12, 256 * v + c)),
                    Some(Some(_)) => tell(Told::Refused(23, 256 * v + c)),
                    Some(_) if !offered.iter().all(|x| x.is_finite()) => tell(Told::Refused(7, cell)),
                    Some(empty) => *empty = Some(iso(offered)),
                }
                at += 59;
            }
            [4, v, c, ..] => {
                let (v, c) = (*v as usize, *c as usize);
                let sized = !views.is_empty();
                match views.get_mut(v).and_then(|view| view.get_mut(c)) {
                    _ if !sized => tell(Told::Refused(21, 0)),
                    None => tell(Told::Refused(12, 256 * v + c)),
                    Some(None) => tell(Told::Refused(24, 256 * v + c)),
                    Some(held) => *held = None,
                }
                at += 3;
            }
            [3, ..] if views.is_empty() => {
                tell(Told::Refused(21, 0));
                at += 1;
            }
            [3, ..] => {
                let solved = estimate_extrinsics_from_cam_target_poses(&views, reference);
                tell(Told::Solved(&solved.expect("a grid that is solved")));
                at += 1;
            }
            [1 | 2 | 4, ..] => return tell(Told::Refused(11, at)),
            [other, ..] => return tell(Told::Refused(10, *other as usize)),
            [] => return,
        }
    }
}

/// How many commands the plain reader solved, and how many it refused.
fn count_plainly(stream: &[u8]) -> (usize, usize) {
    let (mut solved, mut refused) = (0, 0);
    read_plainly(stream, |told| match told {
        Told::Solved(poses) => {
            black_box(poses);
            solved += 1;
        }
        Told::Refused(..) => refused += 1,
    });
    (solved, refused)
}

/// The lines that the plain reader prints, as the library does, but that the Rust knows neither parents nor links: both are 0.
fn print_plainly(stream: &[u8], text: &mut Vec<u8>) {
    text.clear();
    read_plainly(stream, |told| match told {
        Told::Refused(number, detail) => print_line(text, "no", &[number, detail], &[]),
        Told::Solved(poses) => {
            print_line(text, "ok", &[poses.rig_se3_cam.len(), poses.rig_se3_target.len()], &[]);
            for (camera, pose) in poses.rig_se3_cam.iter().enumerate() {
                print_line(text, "c", &[camera, 0, 0], &flat(pose));
            }
            for (view, pose) in poses.rig_se3_target.iter().enumerate() {
                print_line(text, "v", &[view], &flat(pose));
            }
        }
    });
}

fn print_line(text: &mut Vec<u8>, word: &str, numbers: &[usize], floats: &[f64]) {
    text.extend_from_slice(word.as_bytes());
    for number in numbers {
        write!(text, " {number}").expect("memory to write to");
    }
    for &float in floats {
        // By a table, which is faster than the standard library's formatting.
        let (bits, mut field) = (bits(float), [b' '; 17]);
        for (digit, byte) in field[1..].iter_mut().enumerate() {
            *byte = b"0123456789abcdef"[(bits >> (60 - 4 * digit) & 15) as usize];
        }
        text.extend_from_slice(&field);
    }
    text.push(b'\n');
}

/// Printed lines with 0 for every parent and for every number of links.
fn without_chains(text: &[u8]) -> String {
    let line = |line: &str| {
        let mut fields: Vec<&str> = line.split(' ').collect();
        if fields[0] == "c" {
            fields[2..4].fill("0");
        }
        fields.join(" ") + "\n"
    };
    std::str::from_utf8(text).expect("printed text").lines().map(line).collect()
}

fn read_by_library(stream: &[u8]) -> (usize, usize) {
    let mut session = placer::Session::new();
    let (mut solved, mut refused) = (0, 0);
    let mut at = 0;
    while at < stream.len() {
        let placer::Reply { answer, next } = session.step(stream, at);
        solved += (answer == Ok(placer::Accepted::Solved)) as usize;
        refused += answer.is_err() as usize;
        at = next;
    }
    (solved, refused)
}

/// The Rust keeps no counts: this is a plain one, over the views that hold both cameras. It checks nothing.
fn count_shared(views: &[Vec<Option<Iso3>>], first: u8, second: u8) -> u32 {
    views.iter().filter(|view| view[first as usize].is_some() && view[second as usize].is_some()).count() as u32
}

/// A Pose or a Withdraw on a grid that has the cell, as the plain reader has it: nothing is counted.
fn hold_plainly(views: &mut [Vec<Option<Iso3>>], command: &[u8]) -> bool {
    let cell = &mut views[command[1] as usize][command[2] as usize];
    match (command[0], &cell) {
        (2, None) => {
            let offered: Pose = std::array::from_fn(|i| f64::from_le_bytes(command[3 + 8 * i..11 + 8 * i].try_into().unwrap()));
            let finite = offered.iter().all(|x| x.is_finite());
            if finite {
                *cell = Some(iso(offered));
            }
            finite
        }
        (4, Some(_)) => {
            *cell = None;
            true
        }
        _ => false,
    }
}

/// The Rust has no packed frames: this converts them plainly. It checks nothing.
fn import_plainly(frames: &[u8], commands: &mut [u8]) {
    for (frame, command) in frames.chunks_exact(placer::FRAME_BYTES).zip(commands.chunks_exact_mut(placer::POSE_BYTES)) {
        command[0] = 2;
        command[1..3].copy_from_slice(&frame[..2]);
        for (n, (word, number)) in frame[2..].chunks_exact(4).zip(command[3..].chunks_exact_mut(8)).enumerate() {
            let count = f64::from(i32::from_le_bytes(word.try_into().unwrap()));
            number.copy_from_slice(&(count / if n < 3 { 1_000_000.0 } else { 1_073_741_824.0 }).to_le_bytes());
        }
    }
}

fn main() {
    let rounds: usize = std::env::args().nth(1).map_or(201, |word| word.parse().expect("a number of rounds"));
    let mut random = Random::new(1, 0);
    let random = &mut random;
    println!("| work | ours | Rust | ratio | eight rounds in ten |");
    println!("|---|---|---|---|---|");

    let numbers: Vec<f64> = (0..1024).map(|_| random.unit() * 10f64.powi(random.below(20) as i32 - 10)).collect();
    compare(
        rounds,
        "root",
        numbers.len(),
        || numbers.iter().for_each(|&x| keep(placer::sqrt(black_box(x)))),
        || numbers.iter().for_each(|&x| keep(black_box(x).sqrt())),
    );

    let poses: Vec<Pose> = (0..1024).map(|_| near_identity(random)).collect();
    let floats: Vec<f64> = poses.as_flattened().to_vec();
    let isos: Vec<Iso3> = poses.iter().map(|&p| iso(p)).collect();
    let mut answer = vec![0.0; floats.len()];
    compare(
        rounds,
        "product of poses, each",
        poses.len(),
        || {
            let mut product: Pose = [0.0; POSE_FLOATS];
            probe::product(black_box(&floats), &mut product);
            keep(product)
        },
        || keep(black_box(&isos).iter().fold(Iso3::identity(), |all, p| all * p)),
    );
    let mut inverses = isos.clone();
    compare(
        rounds,
        "inverse of a pose",
        poses.len(),
        || {
            black_box(probe::inverses(black_box(&floats), &mut answer));
            black_box(&answer);
        },
        || {
            for (inverse, iso) in inverses.iter_mut().zip(black_box(&isos)) {
                *inverse = iso.inverse();
            }
            black_box(&inverses);
        },
    );
    compare(
        rounds,
        "average of 64 poses",
        1,
        || keep(placer::average(black_box(&poses[..64]))),
        || keep(average_isometries(black_box(&isos[..64]))),
    );

    estimate(rounds, "direct call, 64 views × 16 cameras, full", &dense(random, 64, 16));
    estimate(rounds, "direct call, chain of 16 cameras, 60 views of two", &chain(random, 16));
    estimate(rounds, "direct call, 2 views × 2 cameras", &dense(random, 2, 2));
    for views in [4, 8, 16, 32, 64] {
        estimate(rounds, &format!("direct call, {views} views × 16 cameras, full"), &dense(random, views, 16));
    }
    for cameras in [2, 4, 8, 16] {
        estimate(rounds, &format!("direct call, 64 views × {cameras} cameras, full"), &dense(random, 64, cameras));
    }
    let stream = stream(random);
    assert_eq!((read_by_library(&stream), count_plainly(&stream)), ((2, 96), (2, 96)));
    compare(
        rounds,
        "stream of 65,536 bytes: 1,123 commands, two of them Solve",
        1,
        || keep(read_by_library(black_box(&stream))),
        || keep(count_plainly(black_box(&stream))),
    );

    // The stream's Size and its first 1,024 poses, one call each; then the last of them withdrawn and sent again, and what each two cameras share.
    let poses_alone = &stream[..4 + 59 * 1024];
    assert_eq!((read_by_library(poses_alone), count_plainly(poses_alone)), ((0, 0), (0, 0)));
    compare(
        rounds,
        "Pose by one call, each, until 64 views × 16 cameras are full",
        1024,
        || keep(read_by_library(black_box(poses_alone))),
        || keep(count_plainly(black_box(poses_alone))),
    );
    let mut session = placer::Session::new();
    let mut views = vec![vec![Some(Iso3::identity()); 16]; 64];
    session.feed(poses_alone);
    let again = [&[4, 63, 15][..], &poses_alone[poses_alone.len() - 59..]].concat();
    let held = |session: &mut placer::Session, at: usize| session.step(black_box(&again), at).answer == Ok(placer::Accepted::Held);
    assert!(held(&mut session, 0) && held(&mut session, 3));
    assert!(hold_plainly(&mut views, &again[..3]) && hold_plainly(&mut views, &again[3..]));
    compare(
        rounds,
        "Withdraw and Pose by one call, each, of 64 views × 16 cameras, full",
        2,
        || keep((held(&mut session, 0), held(&mut session, 3))),
        || keep((hold_plainly(black_box(&mut views), black_box(&again[..3])), hold_plainly(black_box(&mut views), black_box(&again[3..])))),
    );
    let pairs: Vec<(u8, u8)> = (0..16).flat_map(|first| (0..16).map(move |second| (first, second))).collect();
    assert!(pairs.iter().all(|&(first, second)| session.shared(first, second) == Ok(64) && count_shared(&views, first, second) == 64));
    compare(
        rounds,
        "shared count of two cameras, each, of 64 views × 16 cameras, full, against a plain count over the views",
        pairs.len(),
        || pairs.iter().for_each(|&(first, second)| keep(black_box(&session).shared(first, second))),
        || pairs.iter().for_each(|&(first, second)| keep(count_shared(black_box(&views), first, second))),
    );

    // The same stream with its lines printed into memory that holds them all, so that one call of the whole-stream entry is enough. The times are of the
    // same lines, but for parents and links.
    let (mut whole, mut by_calls) = (vec![0; 65_536], vec![0; 65_536]);
    let mut plain = Vec::with_capacity(65_536);
    print_plainly(&stream, &mut plain);
    let (printed, printed_by_calls) = (probe::stream(&stream, &mut whole), probe::calls(&stream, &mut by_calls));
    assert_eq!((printed, printed_by_calls), (plain.len() as u64, plain.len() as u64));
    assert_eq!(without_chains(&whole[..plain.len()]), without_chains(&plain));
    assert_eq!(whole, by_calls);
    compare(
        rounds,
        "the same with its lines printed, by the whole-stream entry",
        1,
        || keep(probe::stream(black_box(&stream), black_box(&mut whole))),
        || print_plainly(black_box(&stream), black_box(&mut plain)),
    );
    compare(
        rounds,
        "the same with its lines printed, by one call a command",
        1,
        || keep(probe::calls(black_box(&stream), black_box(&mut by_calls))),
        || print_plainly(black_box(&stream), black_box(&mut plain)),
    );
    compare(
        rounds,
        "the same with its lines printed, by the whole-stream entry, against ours by one call a command",
        1,
        || keep(probe::stream(black_box(&stream), black_box(&mut whole))),
        || keep(probe::calls(black_box(&stream), black_box(&mut by_calls))),
    );

    // As many frames as one call takes, of any words.
    let mut words = Random::new(1, 1);
    let frames: Vec<u8> = (0..placer::FRAME_BYTES * placer::MAX_FRAMES).map(|_| words.bits() as u8).collect();
    let (mut ours, mut plainly) = (vec![0; placer::POSE_BYTES * placer::MAX_FRAMES], vec![0; placer::POSE_BYTES * placer::MAX_FRAMES]);
    assert_eq!(placer::import_frames(&frames, &mut ours), Ok(placer::MAX_FRAMES));
    import_plainly(&frames, &mut plainly);
    assert_eq!(ours, plainly);
    compare(
        rounds,
        "packed frame, each of 1,024 by one call, against a plain conversion",
        placer::MAX_FRAMES,
        || keep(placer::import_frames(black_box(&frames), black_box(&mut ours))),
        || import_plainly(black_box(&frames), black_box(&mut plainly)),
    );
    // The times are of the same answers, which tests/compare.sh holds to each other.
    let ours = placer::average(&poses[..64]).expect("an average");
    assert_eq!(ours, flat(&average_isometries(&isos[..64]).expect("an average")));
    assert_eq!(floats.len(), POSE_FLOATS * poses.len());
}
