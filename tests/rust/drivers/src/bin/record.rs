//! Records the sample that crates/test_replay replays: `record STDIN STDOUT` writes the program's input, and what the Rust's side answers to it.

use drivers::grid::{finite_bits, pose};
use drivers::oracle::bits;
use drivers::stream::*;
use random::Random;
use std::fmt::Write;

const SEED: u64 = 7;
const STREAMS: usize = 240;
const HEADER_BYTES: usize = 256;
const HEADER: &str = "Recorded by tests/record.sh: square roots of the machine's IEEE 754, and streams answered by extrinsics.rs,\n\
unchanged, over tests/rust/nalgebra, which is not nalgebra but document 01's reading of it.\n\
Make it again: tests/record.sh SOURCE_FOLDER";

/// The doubles to take roots of: both ends of every range, perfect squares, the halves between, and random patterns.
fn roots(random: &mut Random) -> Vec<u64> {
    let mut roots: Vec<u64> = vec![0, 1, 2, 3, 0x000f_ffff_ffff_ffff, 0x0010_0000_0000_0000, 0x7fef_ffff_ffff_ffff, 0x7ff0_0000_0000_0000];
    roots.extend([0x3fef_ffff_ffff_ffff, 0x3ff0_0000_0000_0000, 0x3ff0_0000_0000_0001, 0x4000_0000_0000_0000, 0x7ff8_0000_0000_0000]);
    for i in 0..roots.len() {
        roots.push(roots[i] | 1 << 63);
    }
    for n in [3u64, 5, 1001, 67_108_863, 94_906_265] {
        let square = ((n * n) as f64).to_bits();
        roots.extend([square - 1, square, square + 1]);
    }
    for exponent in (0..2047).step_by(17) {
        roots.push(exponent << 52 | random.bits() >> 12);
    }
    while roots.len() < 300 {
        roots.push(finite_bits(random).abs().to_bits());
    }
    roots
}

/// The lines of document 01, "Output lines".
fn lines(out: &mut String, state: &State, answer: Answer) {
    match answer.code {
        END | ACCEPTED => {}
        SOLVED => {
            let (views, cameras) = (state.record[16] as usize, state.record[17] as usize);
            writeln!(out, "ok {cameras} {views}").unwrap();
            let pose = |at: usize| state.transforms[7 * at..7 * at + 7].iter().map(|&x| format!(" {:016x}", bits(x))).collect::<String>();
            for c in 0..cameras {
                writeln!(out, "c {c} {} {}{}", state.chains[2 * c], state.chains[2 * c + 1], pose(c)).unwrap();
            }
            for v in 0..views {
                writeln!(out, "v {v}{}", pose(cameras + v)).unwrap();
            }
        }
        code => writeln!(out, "no {} {}", code >> 32, code as u32).unwrap(),
    }
}

fn main() {
    let [input, output]: [String; 2] = std::env::args().skip(1).collect::<Vec<_>>().try_into().expect("two files");
    let mut random = Random::new(SEED, 0);
    let random = &mut random;
    let mut header = format!("{HEADER:<width$}", width = HEADER_BYTES - 1);
    header.push('\n');
    assert_eq!(header.len(), HEADER_BYTES);
    let (mut sample, mut expected) = (header.clone().into_bytes(), header);

    let roots = roots(random);
    sample.extend((roots.len() as u64).to_le_bytes());
    for pattern in roots {
        sample.extend(pattern.to_le_bytes());
        writeln!(expected, "{pattern:016x} {:016x}", bits(f64::from_bits(pattern).sqrt())).unwrap();
    }

    let listing = {
        let mut s = Vec::new();
        size_command(&mut s, 1, 1, 0);
        pose_command(&mut s, 0, 0, [1.0, 0.0, 0.0, 0.0, 0.0, 0.0, 1.0]);
        solve_command(&mut s);
        s
    };
    for number in 0..STREAMS {
        let mut stream = match number {
            0 => listing.clone(),
            // Chains of four cameras, hard numbers, all that can be refused.
            n if n % 4 == 1 => {
                let mut s = Vec::new();
                size_command(&mut s, 3, 4, 0);
                for view in 0..3 {
                    for camera in [view, view + 1] {
                        pose_command(&mut s, view, camera, pose(random, &(0..12).collect::<Vec<_>>()));
                    }
                }
                solve_command(&mut s);
                s
            }
            _ => random_stream(random, 3, 3),
        };
        if number % 3 == 2 {
            damage(random, &mut stream, &listing);
        }
        if stream.is_empty() {
            stream.push(3);
        }
        sample.extend((stream.len() as u64).to_le_bytes());
        sample.extend(&stream);
        writeln!(expected, "stream of {}", stream.len()).unwrap();
        let mut state = State::fresh();
        let mut at = 0;
        loop {
            let answer = call(&mut state, &stream, at);
            lines(&mut expected, &state, answer);
            at = answer.next;
            if at >= stream.len() {
                break;
            }
        }
    }
    std::fs::write(input, sample).expect("the input written");
    std::fs::write(output, expected).expect("the output written");
}
