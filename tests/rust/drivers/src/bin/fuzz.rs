//! Feeds damaged streams to the library and to the papers' meaning of a stream with the Rust under Solve, call by call: `fuzz STREAMS SEED
//! CORPUS`, or `fuzz STREAMS SEED CORPUS NUMBER` for one stream of such a run. After every call its answer, its next offset and all lent
//! memory are compared: bit by bit, but for a NaN that a Solve wrote. So all 256 shared counts are held to a count over the held cells after every command.
//!
//! Beside the calls, and drawn apart from them: records with a false count in place of the true one, and records of any poses, most of them with a false
//! count, a command each; and the query, on all of these.

use drivers::grid::{near_identity, POSE_FLOATS};
use drivers::stream::*;
use random::Random;
use std::collections::BTreeMap;
use std::process::exit;

/// Lent memory or records that the call must refuse, at times; and an offset past the end.
fn disturb(random: &mut Random, state: &mut State, length: usize, at: &mut usize) {
    match random.below(11) {
        0 => *at = length + random.between(1, 3),
        // A mask with the counts that it then has: false counts are drawn beside the calls.
        1 => {
            state.record[random.below(SHARED_WORD)] ^= 1 << random.below(64);
            state.count();
        }
        2 => state.record[16 + random.below(3)] = random.bits() >> random.below(64),
        3 => {
            state.record.pop();
        }
        4 => state.record.push(0),
        5 => {
            state.buffer.pop();
        }
        6 => state.buffer.push(any_nan(random)),
        7 => state.transforms.truncate(random.below(FIRST_FLOATS)),
        8 => state.chains.truncate(random.below(SECOND_BYTES)),
        // No cell without a pose has a finite number: nothing may look at them.
        9 => {
            for at in state.empty_starts() {
                state.buffer[at..at + POSE_FLOATS].fill(any_nan(random));
            }
        }
        // A pose that is held is no longer finite, so that a Solve must see it.
        _ => {
            let held = state.held_starts();
            let at = if held.is_empty() { random.below(BUFFER_FLOATS) } else { held[random.below(held.len())] + random.below(POSE_FLOATS) };
            state.buffer[at] = match random.below(4) {
                0 => f64::INFINITY,
                1 => f64::NEG_INFINITY,
                _ => any_nan(random),
            };
        }
    }
}

/// How a call may end, where one number has two causes each by itself. What follows a withdrawal is what follows an accepted one in its stream.
const KINDS: [&str; 29] = [
    "end", "accepted", "withdrawn", "sent again", "solved", "solved after a withdrawal", "1", "2", "3", "5", "7 at Pose", "7 at Solve", "8",
    "8 after a withdrawal", "9", "9 after a withdrawal", "10", "11 within a command", "11 within a withdrawal", "11 past the end", "12 at Pose",
    "12 at Withdraw", "13", "21 at Pose", "21 at Solve", "21 at Withdraw", "22", "23", "24",
];

fn kind(answer: Answer, stream: &[u8], at: usize, withdrawn: &[[u8; 2]]) -> &'static str {
    let (at_pose, at_withdraw) = (stream.get(at) == Some(&2), stream.get(at) == Some(&4));
    let after = !withdrawn.is_empty();
    let name = match (answer.code, answer.code >> 32) {
        (END, _) => "end",
        (ACCEPTED, _) if at_withdraw => "withdrawn",
        (ACCEPTED, _) if at_pose && withdrawn.contains(&[stream[at + 1], stream[at + 2]]) => "sent again",
        (ACCEPTED, _) => "accepted",
        (SOLVED, _) if after => "solved after a withdrawal",
        (SOLVED, _) => "solved",
        (_, 7) if at_pose => "7 at Pose",
        (_, 7) => "7 at Solve",
        (_, 8) if after => "8 after a withdrawal",
        (_, 9) if after => "9 after a withdrawal",
        (_, 11) if at > stream.len() => "11 past the end",
        (_, 11) if at_withdraw => "11 within a withdrawal",
        (_, 11) => "11 within a command",
        (_, 12) if at_pose => "12 at Pose",
        (_, 12) => "12 at Withdraw",
        (_, 21) if at_pose => "21 at Pose",
        (_, 21) if at_withdraw => "21 at Withdraw",
        (_, 21) => "21 at Solve",
        (_, number) => &number.to_string(),
    };
    KINDS.into_iter().find(|&kind| kind == name).unwrap_or_else(|| panic!("no answer is called {name}"))
}

/// What was tried beside the calls of the streams.
#[derive(Default)]
struct Beside {
    records: u64,
    false_records: u64,
    counts: u64,
    refused: BTreeMap<u64, u64>,
}

impl Beside {
    /// Two cameras asked for, of the library and of the papers: what differs.
    fn ask(&mut self, random: &mut Random, ours: &State, expected: &State) -> Option<String> {
        let (first, second) = random_cameras(random, &ours.record);
        let (answered, answer) = (library_query(ours, first, second), query(expected, first, second));
        match answer >> 32 {
            0 => self.counts += 1,
            number => *self.refused.entry(number).or_default() += 1,
        }
        (answered != answer).then(|| format!("cameras {first} and {second} asked for: {answered:x}, and {answer:x} was expected"))
    }

    /// A command to a record that both sides hold, which is refused with 5 where it is false; and two cameras asked for, before and after: what differs.
    fn command(&mut self, random: &mut Random, ours: &mut State, expected: &mut State, stream: &[u8], at: usize) -> Option<String> {
        self.records += 1;
        self.false_records += !expected.is_possible() as u64;
        let asked = self.ask(random, ours, expected);
        let answer = call(expected, stream, at);
        let answered = library(ours, stream, at);
        let written = written(expected, answer);
        let fault = (answered != answer)
            .then(|| format!("{answered:x?}, and {answer:x?} was expected"))
            .or_else(|| difference(ours, expected, written));
        take_nans(ours, expected, written);
        asked.or(fault).or_else(|| self.ask(random, ours, expected))
    }

    fn queries(&self) -> u64 {
        self.counts + self.refused.values().sum::<u64>()
    }
}

/// A command of any kind, mostly one that a rig of those sizes accepts.
fn random_command(random: &mut Random, stream: &mut Vec<u8>, record: &[u64]) {
    let below = |random: &mut Random, size: u64| if random.once_in(16) { random.below(70) } else { random.below((size as usize).max(1)) };
    let (view, camera) = (below(random, record[16]), below(random, record[17]));
    stream.clear();
    match random.below(8) {
        0 => size_command(stream, view + 1, camera + 1, random.below(camera + 1)),
        1 => solve_command(stream),
        2..5 => withdraw_command(stream, view, camera),
        _ => pose_command(stream, view, camera, near_identity(random)),
    }
}

/// The comparison itself notices what it is there for: a NaN made quiet, another sign or payload, one bit of anything else; but not
/// another NaN where a Solve wrote one.
fn comparison_notices(random: &mut Random) {
    let before = {
        let mut state = State::fresh();
        fill(random, &mut state.buffer, BUFFER_FLOATS, 4);
        fill(random, &mut state.transforms, FIRST_FLOATS, 4);
        state.buffer[17] = f64::from_bits(0x7ff0_0000_0000_0001);
        state.transforms[17] = f64::from_bits(0xfff4_0000_0000_0000);
        state
    };
    assert!(difference(&before, &before, 0).is_none());
    let spoil = |x: &mut f64, bits: u64| *x = f64::from_bits(x.to_bits() ^ bits);
    // The bit that makes a NaN quiet, the sign, and one of the payload.
    for bits in [1 << 51, 1 << 63, 1 << 7] {
        let (mut buffer, mut first) = (before.clone(), before.clone());
        spoil(&mut buffer.buffer[17], bits);
        spoil(&mut first.transforms[17], bits);
        assert!(difference(&buffer, &before, 0).is_some() && difference(&buffer, &before, FIRST_FLOATS).is_some(), "a NaN in the buffer");
        assert!(difference(&first, &before, 0).is_some() && difference(&first, &before, 17).is_some(), "a NaN in the first answer");
        assert!(difference(&first, &before, 18).is_none(), "a NaN that was written");
    }
    let (mut record, mut entry, mut second, mut number) = (before.clone(), before.clone(), before.clone(), before.clone());
    record.record[0] ^= 1;
    entry.record[RECORD_WORDS - 1] ^= 1;
    second.chains[SECOND_BYTES - 1] ^= 1;
    number.transforms[17] = 0.0;
    assert!([record, entry, second, number].iter().all(|spoilt| difference(spoilt, &before, 18).is_some()), "anything else");
}

fn main() {
    let words: Vec<String> = std::env::args().skip(1).collect();
    let [streams, seed, corpus, only @ ..] = &words[..] else {
        eprintln!("usage: fuzz STREAMS SEED CORPUS [NUMBER]");
        exit(2);
    };
    let (streams, seed): (u64, u64) = (streams.parse().expect("a number"), seed.parse().expect("a number"));
    let only: Option<u64> = only.first().map(|word| word.parse().expect("a number"));
    let mut files: Vec<_> = std::fs::read_dir(corpus).expect("the corpus").map(|entry| entry.expect("a file").path()).collect();
    files.retain(|path| path.extension().is_some_and(|extension| extension == "stream"));
    files.sort();
    let corpus: Vec<Vec<u8>> = files.iter().map(|path| std::fs::read(path).expect("a stream")).collect();
    assert!(!corpus.is_empty(), "no streams in the corpus");

    let (mut calls, mut differences) = (0u64, 0u64);
    let mut kinds: BTreeMap<&str, u64> = BTreeMap::new();
    let (mut ours, mut expected, mut spoilt) = (State::fresh(), State::fresh(), Vec::new());
    let (mut beside, mut true_record, mut command) = (Beside::default(), Vec::new(), Vec::new());
    comparison_notices(&mut Random::new(seed, u64::MAX));
    let run = match only {
        Some(number) => number..number + 1,
        None => 0..streams,
    };
    for number in run {
        let mut random = Random::new(seed, number);
        let random = &mut random;
        // What is tried beside the calls has numbers of its own, so that the streams are those of a run without it.
        let mut apart = Random::new(!seed, number);
        let apart = &mut apart;
        let other = &corpus[random.below(corpus.len())];
        let mut stream = if random.once_in(2) { corpus[random.below(corpus.len())].clone() } else { random_stream(random, 6, 4) };
        if !random.once_in(20) {
            damage(random, &mut stream, other);
        }
        // Streams as long as they may be, which take many calls, and, more often, longer ones, which take one.
        if number % 4000 == 0 {
            stream.resize(MAX_STREAM, 3);
        } else if random.once_in(400) {
            stream.resize(MAX_STREAM + random.between(1, 3), 3);
        }
        // What stands in lent memory at first is nothing's business but for the record, and a refusal keeps every bit of it.
        let fourths_nan = random.below(5) as u64;
        expected.record.clear();
        expected.record.resize(RECORD_WORDS, 0);
        fill(random, &mut expected.buffer, BUFFER_FLOATS, fourths_nan);
        fill(random, &mut expected.transforms, FIRST_FLOATS + (number % 3) as usize, fourths_nan);
        expected.chains.clear();
        expected.chains.resize(SECOND_BYTES + (number % 2) as usize, number as u8);
        ours.clone_from(&expected);
        let mut at = 0;
        let mut disturbed = random.once_in(8);
        // The cells that were taken back, view and camera each.
        let mut withdrawn = Vec::new();
        let mut turns = 0;
        loop {
            if disturbed && random.once_in(6) {
                disturb(random, &mut expected, stream.len(), &mut at);
                ours.clone_from(&expected);
                disturbed = false;
            }
            // The same call with a false count first, which must change nothing; then with the true one.
            let tried = if expected.record.len() == RECORD_WORDS && apart.once_in(4) {
                true_record.clone_from(&expected.record);
                falsify(apart, &mut expected.record);
                ours.record.clone_from(&expected.record);
                let fault = beside.command(apart, &mut ours, &mut expected, &stream, at);
                expected.record.clone_from(&true_record);
                ours.record.clone_from(&true_record);
                fault
            } else {
                None
            };
            let answer = call(&mut expected, &stream, at);
            let answered = library(&mut ours, &stream, at);
            calls += 1;
            let kind = kind(answer, &stream, at, &withdrawn);
            *kinds.entry(kind).or_default() += 1;
            let last = answer.code == END || answer.next >= stream.len() || turns > 70_000;
            let written = written(&expected, answer);
            let fault = tried
                .or_else(|| (answered != answer).then(|| format!("{answered:x?}, and {answer:x?} was expected")))
                .or_else(|| difference(&ours, &expected, written))
                .or_else(|| if apart.once_in(2) { beside.ask(apart, &ours, &expected) } else { None });
            take_nans(&ours, &mut expected, written);
            if let Some(fault) = fault {
                differences += 1;
                println!("DIFFERENCE in stream {number} of seed {seed}, {} bytes, at offset {at}: {fault}", stream.len());
                break;
            }
            if kind == "withdrawn" {
                let [view, camera] = [stream[at + 1], stream[at + 2]];
                withdrawn.push([view, camera]);
                // The numbers of a cell that was taken back no longer matter: at times they are not finite any more.
                if random.once_in(3) {
                    let start = cell_start(view as usize, camera as usize);
                    fill(random, &mut spoilt, POSE_FLOATS, 4);
                    for state in [&mut ours, &mut expected] {
                        state.buffer[start..start + POSE_FLOATS].copy_from_slice(&spoilt);
                    }
                }
            }
            if only.is_some() {
                println!("{at}: {:x} {:x}, next {}", answer.code >> 32, answer.code as u32, answer.next);
            }
            if last && (answer.code == END || !random.once_in(2)) {
                break;
            }
            at = answer.next;
            turns += 1;
        }
        // Records of any poses, three in four with a false count, in what the stream left of all else.
        expected.buffer.resize(BUFFER_FLOATS, 0.0);
        expected.transforms.resize(FIRST_FLOATS, 0.0);
        expected.chains.resize(SECOND_BYTES, 0);
        ours.clone_from(&expected);
        for _ in 0..4 {
            random_record(apart, &mut expected.record);
            expected.count();
            if !apart.once_in(4) {
                falsify(apart, &mut expected.record);
            }
            ours.record.clone_from(&expected.record);
            random_command(apart, &mut command, &expected.record);
            if let Some(fault) = beside.command(apart, &mut ours, &mut expected, &command, 0) {
                differences += 1;
                println!("DIFFERENCE beside stream {number} of seed {seed}, in a record drawn by itself: {fault}");
                ours.clone_from(&expected);
            }
        }
        if differences > 20 {
            break;
        }
    }
    println!("fuzz: {streams} streams of seed {seed}, {calls} calls: {differences} differences");
    let counts = KINDS.map(|kind| (kind, kinds.get(kind).copied().unwrap_or(0)));
    println!("  {}", counts.map(|(kind, count)| format!("{kind}: {count}")).join(", "));
    let refused = [5, 21, 12].map(|number| (number, beside.refused.get(&number).copied().unwrap_or(0)));
    println!(
        "  beside them: {} records, {} of them false, a command each, and {} queries, {} counts and {}",
        beside.records,
        beside.false_records,
        beside.queries(),
        beside.counts,
        refused.map(|(number, count)| format!("{count} refused with {number}")).join(", "),
    );
    let tried = refused.map(|(_, count)| ("a refusal of the query", count)).into_iter();
    let tried = tried.chain([("a count asked for", beside.counts), ("a false record", beside.false_records), ("a true record", beside.records - beside.false_records)]);
    let missing: Vec<&str> = counts.into_iter().chain(tried).filter(|&(_, count)| count == 0).map(|(kind, _)| kind).collect();
    if differences > 0 {
        exit(1);
    }
    if only.is_none() && streams >= 20_000 && !missing.is_empty() {
        println!("  but nothing of: {}", missing.join(", "));
        exit(1);
    }
}
