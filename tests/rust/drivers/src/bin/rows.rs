//! Prints the exact rows of crates/arithmetic, crates/mean and crates/claims_cases as the Rust computes them: a name and its doubles' bits on each
//! line. Poses come first, then products, inverses and dot products by nalgebra, or what stands in for it, averages by `average_isometries`, and whole
//! grids by `estimate_extrinsics_from_cam_target_poses`. tests/rows.sh compares them with the numbers that stand in the crates.

use drivers::grid::{Grid, Pose};
use drivers::oracle::{bits, flat, iso, verdict, Verdict};
use vision_calibration_linear::extrinsics::average_isometries;

fn power(n: i32) -> f64 {
    // By its bits: the least are no normal doubles, which `powi` need not reach exactly.
    f64::from_bits(if n < -1022 { 1 << (n + 1074) } else { ((n + 1023) as u64) << 52 })
}

fn line(name: &str, numbers: &[f64]) {
    let words: Vec<String> = numbers.iter().map(|&x| format!("{:016x}", bits(x))).collect();
    println!("{name} {}", words.join(" "));
}

/// The same rotation by the other quaternion.
fn turned([x, y, z, i, j, k, w]: Pose) -> Pose {
    [x, y, z, -i, -j, -k, -w]
}

fn product(a: Pose, b: Pose) -> Pose {
    flat(&(iso(a) * iso(b)))
}

fn inverse(a: Pose) -> Pose {
    flat(&iso(a).inverse())
}

fn dot(a: Pose, b: Pose) -> f64 {
    iso(a).rotation.coords.dot(&iso(b).rotation.coords)
}

fn average(poses: &[Pose]) -> Pose {
    let list: Vec<_> = poses.iter().map(|&p| iso(p)).collect();
    flat(&average_isometries(&list).expect("a list that is not empty has an average"))
}

/// The poses of a grid's cameras and views. A cell whose first number is a NaN is empty. Parents and links, which the Rust does not report, are worked out
/// by hand.
fn solve(name: &str, cameras: usize, reference: usize, cells: &[Pose], expected: &[u8]) {
    let held: Vec<bool> = cells.iter().map(|cell| !cell[0].is_nan()).collect();
    match verdict(&Grid::whole(cells.len() / cameras, cameras, reference, &held, |cell| cells[cell])) {
        Verdict::Solved { transforms, chains } => {
            assert_eq!(chains, expected, "parents and links of {name}");
            let (of_cameras, of_views) = transforms.split_at(7 * cameras);
            for (camera, pose) in of_cameras.chunks(7).enumerate() {
                line(&format!("{name}_camera{camera}"), pose);
            }
            for (view, pose) in of_views.chunks(7).enumerate() {
                line(&format!("{name}_target{view}"), pose);
            }
        }
        refused => panic!("{name} is solved, and the answer was {refused:?}"),
    }
}

fn main() {
    let a = [0.4, 1.0, 0.9, -0.8, -0.2, 0.5, -0.3];
    let b = [0.3, 0.3, -0.9, -0.8, 0.1, -0.9, -0.8];
    let c = [0.2, 0.4, 0.1, -0.9, 0.3, -0.9, 0.3];
    let d = [-0.8, -0.4, 0.6, -0.8, 0.8, -0.8, 0.9];
    let e = [-0.2, -0.6, -0.4, -1.0, 0.4, 0.1, -0.9];
    let f = [0.8, 0.8, 0.3, -1.0, -0.9, -0.3, -0.5];
    let huge = [0.0, 0.0, 0.0, 1.0, 0.0, 0.0, 0.25];
    let far = [0.0, 0.0, power(1023), 0.0, 0.0, 0.0, 1.0];
    let slight = [0.0, 0.0, 0.0, 0.75, 0.0, 0.0, 0.75];
    let near = [0.0, power(-1074), power(-1073), 0.0, 0.0, 0.0, 1.0];
    let zeros = [0.0, -0.0, 0.0, 0.0, -0.0, 0.0, -0.0];
    let minus_zeros = [-0.0, -0.0, -0.0, -0.0, 1.0, -0.0, -0.0];
    let about_i = [0.0, 0.0, 0.0, 1.0, 0.0, 0.0, 0.0];
    let about_j = [0.0, 0.0, 0.0, 0.0, 1.0, 0.0, 0.0];
    let long = [0.0, 0.0, 0.0, power(512), 0.0, power(512), 0.0];
    let across = [0.0, 0.0, 0.0, power(512), 0.0, -power(512), 0.0];
    let still = [0.0; 7];
    let tiny = [1.0, 2.0, 3.0, power(-600), 0.0, 0.0, 0.0];
    let halved = [0.0, 0.0, 0.0, power(-538), 0.0, 0.0, 0.0];
    let short = [0.0, 0.0, 0.0, 3.0 * power(-100), 0.0, 4.0 * power(-100), 0.0];
    let overflown = [f64::INFINITY, 0.0, 0.0, f64::NAN, 0.0, 0.0, 1.0];
    let other_zeros = [0.0, 0.0, -0.0, 0.0, 0.0, -0.0, -0.0];
    let zeros_i = [0.0, 0.0, 0.0, -0.0, 0.0, -0.0, -0.0];
    let zeros_j = [0.0, 0.0, 0.0, -0.0, -0.0, 0.0, -0.0];
    let zeros_k = [0.0, 0.0, 0.0, 0.0, -0.0, -0.0, -0.0];
    let zeros_w = [0.0, 0.0, 0.0, 0.0, 0.0, 0.0, -0.0];
    let just_past = [0.0, 0.0, 0.0, -power(-60), 1.0, 0.0, 0.0];
    let ones = [0.0, 0.0, 0.0, 1.0, 1.0, 1.0, 1.0];
    let paired = [0.0, 0.0, 0.0, power(60), -1.0, -power(60), 0.0];
    let other_paired = [0.0, 0.0, 0.0, -1.0, power(60), 0.0, -power(60)];
    let cancelled = [0.0, 0.0, 0.0, power(60), -power(60), -1.0, 0.0];
    let tiny_i = [0.0, 0.0, 0.0, power(-600), 0.0, 0.0, 0.0];
    let less_minus_zeros = [0.0, 0.0, 0.0, -power(-500), -0.0, -0.0, -0.0];
    let small_i = [0.0, 0.0, 0.0, power(-520), -0.0, 0.0, 0.0];
    let small_back = [0.0, 0.0, 0.0, -power(-560), -0.0, 1.0, 0.0];
    let twice_back = [0.0, 0.0, 0.0, -2.0, 0.0, 0.0, 0.0];
    let far_right = [power(1023), 0.0, 0.0, 0.0, 0.0, 0.0, 1.0];
    let far_left = [-power(1023), 0.0, 0.0, 0.0, 0.0, 0.0, 1.0];
    let poses = [
        ("A", a), ("B", b), ("C", c), ("D", d), ("E", e), ("F", f), ("huge", huge), ("far", far), ("slight", slight), ("near", near),
        ("zeros", zeros), ("minus_zeros", minus_zeros), ("about_i", about_i), ("about_j", about_j), ("long", long), ("across", across),
        ("still", still), ("tiny", tiny), ("halved", halved), ("short", short), ("overflown", overflown),
        ("other_zeros", other_zeros), ("zeros_i", zeros_i), ("zeros_j", zeros_j), ("zeros_k", zeros_k), ("zeros_w", zeros_w),
        ("just_past", just_past), ("ones", ones), ("paired", paired), ("other_paired", other_paired), ("cancelled", cancelled), ("tiny_i", tiny_i),
        ("less_minus_zeros", less_minus_zeros), ("small_i", small_i), ("small_back", small_back), ("twice_back", twice_back),
        ("turned_c", turned(c)), ("turned_f", turned(f)), ("empty", [f64::NAN; 7]), ("far_right", far_right), ("far_left", far_left),
    ];
    for (name, pose) in poses {
        line(name, &pose);
    }

    line("product_ab", &product(a, b));
    line("product_ef", &product(e, f));
    line("product_overflows", &product(huge, far));
    line("product_underflows", &product(slight, near));
    line("products_of_zeros", &[zeros_i, zeros_j, zeros_k, zeros_w].map(|right| product(still, right)).concat());
    line("inverse_c", &inverse(c));
    line("inverse_of_zeros", &inverse(zeros));
    line("inverse_of_other_zeros", &inverse(other_zeros));
    line("dots", &[dot(a, b), dot(a, c), dot(e, f), dot(e, e)]);

    line("average_abcd", &average(&[a, b, c, d]));
    line("average_dba", &average(&[d, b, a]));
    line("average_of_minus_zeros", &average(&[minus_zeros]));
    line("average_at_zero_dot", &average(&[about_i, about_j]));
    line("average_at_nan_dot", &average(&[long, across, still, still]));
    line("average_of_tiny", &average(&[tiny]));
    line("average_halved", &average(&[halved, halved]));
    line("average_of_short", &average(&[short]));
    line("average_of_overflown", &average(&[overflown]));
    line("average_just_below_zero_dot", &average(&[about_i, just_past]));
    line("average_by_paired_dot", &average(&[ones, paired]));
    line("average_by_other_paired_dot", &average(&[ones, other_paired]));
    line("average_by_rounded_dot", &average(&[ones, cancelled]));
    line("average_at_minus_zero_dot", &average(&[tiny_i, less_minus_zeros]));
    line("average_at_underflown_dot", &average(&[small_i, small_back]));
    line("average_after_still", &average(&[still, about_i, twice_back]));
    line("average_of_long", &average(&[long]));
    line("average_of_seven", &average(&[f, a, a, b, c, d, e]));

    // Camera 1 meets camera 0 alone, and that one the reference, camera 2.
    let none = [f64::NAN; 7];
    solve("grid", 3, 2, &[a, none, b, turned(c), none, d, b, e, none, d, turned(f), none], &[2, 1, 0, 2, 2, 0]);
    // The link overflows.
    solve("overflow", 2, 0, &[far_right, far_left], &[0, 0, 0, 1]);
    // A link of one view.
    solve("single", 2, 0, &[a, b, c, none], &[0, 0, 0, 1]);
    // Camera 2 is three links from the reference, camera 3; camera 1 meets that one in three views, and view 0 has three cameras.
    let deep = [
        [a, b, none, c, none],
        [none, d, none, e, none],
        [none, f, none, a, none],
        [none, b, none, none, c],
        [none, none, d, none, e],
    ];
    solve("deep", 5, 3, &deep.concat(), &[3, 1, 3, 1, 4, 3, 3, 0, 1, 2]);
}
