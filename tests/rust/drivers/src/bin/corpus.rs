//! Writes the corpus of streams that fuzz.sh damages: `corpus FOLDER`. The same files every time.

use drivers::grid::{near_identity, unit, Pose};
use drivers::stream::*;
use random::Random;
use std::path::Path;

const STANDING: Pose = [0.0, 0.0, 0.0, 0.0, 0.0, 0.0, 1.0];

fn main() {
    let folder = std::env::args().nth(1).expect("a folder");
    let folder = Path::new(&folder);
    let mut random = Random::new(6, 0);
    let mut write = |name: &str, fill: &mut dyn FnMut(&mut Vec<u8>, &mut Random)| {
        let mut stream = Vec::new();
        fill(&mut stream, &mut random);
        std::fs::write(folder.join(name).with_extension("stream"), stream).expect("a file written");
    };
    // Document 01's complete listing.
    write("listing", &mut |s, _| {
        size_command(s, 1, 1, 0);
        pose_command(s, 0, 0, [1.0, 0.0, 0.0, 0.0, 0.0, 0.0, 1.0]);
        solve_command(s);
    });
    // Four cameras in a line, so that two of them never meet the reference.
    write("line-of-four", &mut |s, random| {
        size_command(s, 6, 4, 0);
        for view in 0..6 {
            for camera in [view / 2, view / 2 + 1] {
                pose_command(s, view, camera, near_identity(random));
            }
        }
        solve_command(s);
    });
    // P8: two parents to choose from, then one that shares more views.
    write("two-parents", &mut |s, random| {
        size_command(s, 6, 4, 0);
        for (view, pair) in [[0, 1], [0, 2], [1, 3], [2, 3]].into_iter().enumerate() {
            for camera in pair {
                pose_command(s, view, camera, unit(random, 1.0));
            }
        }
        pose_command(s, 4, 0, unit(random, 1.0));
        pose_command(s, 5, 0, unit(random, 1.0));
        solve_command(s);
        pose_command(s, 4, 2, unit(random, 1.0));
        pose_command(s, 4, 3, unit(random, 1.0));
        solve_command(s);
    });
    // P6 and P7: a camera that nothing reaches, then an empty view.
    write("unreached-then-empty", &mut |s, random| {
        size_command(s, 3, 2, 0);
        pose_command(s, 0, 0, unit(random, 1.0));
        pose_command(s, 1, 1, unit(random, 1.0));
        solve_command(s);
        pose_command(s, 0, 1, unit(random, 1.0));
        solve_command(s);
        pose_command(s, 2, 1, unit(random, 1.0));
        solve_command(s);
    });
    // Each refusal that a command can meet, between commands that are obeyed.
    write("refusals", &mut |s, random| {
        solve_command(s);
        pose_command(s, 0, 0, STANDING);
        withdraw_command(s, 0, 0);
        size_command(s, 0, 1, 0);
        size_command(s, 65, 1, 0);
        size_command(s, 1, 0, 0);
        size_command(s, 1, 17, 0);
        size_command(s, 2, 2, 2);
        size_command(s, 2, 2, 1);
        size_command(s, 2, 2, 1);
        pose_command(s, 2, 0, STANDING);
        pose_command(s, 0, 2, STANDING);
        withdraw_command(s, 2, 0);
        withdraw_command(s, 0, 2);
        withdraw_command(s, 0, 0);
        pose_command(s, 0, 0, STANDING);
        pose_command(s, 0, 0, unit(random, 1.0));
        pose_command(s, 1, 1, [0.0, f64::NAN, 0.0, 0.0, 0.0, 0.0, 1.0]);
        pose_command(s, 1, 0, [0.0, 0.0, 0.0, 0.0, 0.0, 0.0, f64::NEG_INFINITY]);
        solve_command(s);
        pose_command(s, 0, 1, unit(random, 1.0));
        solve_command(s);
        pose_command(s, 1, 1, STANDING);
        solve_command(s);
        s.push(9);
    });
    // Rotations that cancel, vanish and overflow.
    write("hard-numbers", &mut |s, _| {
        size_command(s, 4, 2, 1);
        pose_command(s, 0, 0, [1.0, 2.0, 3.0, 0.0, 0.0, 0.0, 1.0]);
        pose_command(s, 0, 1, [1.0, 2.0, 3.0, 0.0, 0.0, 0.0, -1.0]);
        pose_command(s, 1, 0, [0.0, -0.0, 0.0, 0.0, -0.0, 0.0, 0.0]);
        pose_command(s, 1, 1, [1e308, 1e308, -1e308, 1e200, 0.0, 0.0, 1e200]);
        pose_command(s, 2, 0, [f64::MIN_POSITIVE, 0.0, f64::from_bits(1), 1e-170, 1e-170, 0.0, 0.0]);
        pose_command(s, 3, 1, [0.0, 0.0, 0.0, 1.0, 0.0, 0.0, 0.0]);
        solve_command(s);
    });
    write("empty", &mut |_, _| {});
    write("cut-off", &mut |s, _| {
        size_command(s, 1, 1, 0);
        pose_command(s, 0, 0, STANDING);
        s.pop();
    });
    for (name, views, cameras) in [("five-by-three", 5, 3), ("three-by-five", 3, 5), ("one-by-sixteen", 1, 16), ("eight-by-two", 8, 2)] {
        write(name, &mut |s, random| {
            size_command(s, views, cameras, cameras - 1);
            for view in 0..views {
                for camera in 0..cameras {
                    pose_command(s, view, camera, near_identity(random));
                }
            }
            solve_command(s);
        });
    }
    // A bumped target: one pose taken back, and sent again as it should be.
    write("bumped", &mut |s, random| {
        size_command(s, 4, 3, 1);
        for view in 0..4 {
            for camera in 0..3 {
                pose_command(s, view, camera, if (view, camera) == (2, 0) { [1e3, -1e3, 1e3, 1.0, 0.0, 0.0, 0.0] } else { near_identity(random) });
            }
        }
        solve_command(s);
        withdraw_command(s, 2, 0);
        solve_command(s);
        pose_command(s, 2, 0, near_identity(random));
        solve_command(s);
    });
    // Two halves that hang together by view 1 alone: without a pose of it the far half is not reached, and with that sent again it is. Then a view's only pose.
    write("only-link", &mut |s, random| {
        size_command(s, 4, 4, 0);
        for (view, camera) in [(0, 0), (0, 1), (1, 1), (1, 2), (2, 2), (2, 3), (3, 3)] {
            pose_command(s, view, camera, near_identity(random));
        }
        solve_command(s);
        withdraw_command(s, 1, 1);
        solve_command(s);
        pose_command(s, 1, 1, near_identity(random));
        solve_command(s);
        withdraw_command(s, 3, 3);
        solve_command(s);
        withdraw_command(s, 3, 3);
        pose_command(s, 3, 0, near_identity(random));
        solve_command(s);
    });
    // Every pose of a rig taken back, twice, and all of them sent again.
    write("all-taken-back", &mut |s, random| {
        size_command(s, 2, 3, 2);
        for _ in 0..2 {
            for cell in 0..6 {
                pose_command(s, cell / 3, cell % 3, unit(random, 1.0));
            }
            solve_command(s);
            for cell in 0..6 {
                withdraw_command(s, cell / 3, cell % 3);
                withdraw_command(s, cell / 3, cell % 3);
            }
            solve_command(s);
        }
        for cell in 0..6 {
            pose_command(s, cell / 3, cell % 3, unit(random, 1.0));
        }
        solve_command(s);
    });
    write("withdrawal-cut-off", &mut |s, _| {
        size_command(s, 1, 1, 0);
        pose_command(s, 0, 0, STANDING);
        withdraw_command(s, 0, 0);
        s.pop();
    });
}
