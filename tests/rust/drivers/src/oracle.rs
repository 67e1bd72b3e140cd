//! What the Rust answers to a grid, as the direct call would put it. Where the direct call refuses what the Rust would not (2, 5, 6
//! and 7, added by document 01), the check is made here, in the paper's order; everything else is the Rust's own answer.

use crate::grid::{Grid, Pose, MAX_CAMERAS, MAX_VIEWS, POSE_FLOATS};
use nalgebra::{Quaternion, Translation3, UnitQuaternion};
use vision_calibration_core::Iso3;
use vision_calibration_linear::extrinsics::{average_isometries, estimate_extrinsics_from_cam_target_poses};
use vision_calibration_linear::Error;

#[derive(Clone, Debug)]
pub enum Verdict {
    Refused { number: u32, detail: u32 },
    Solved { transforms: Vec<f64>, chains: Vec<u8> },
}

pub fn iso(p: Pose) -> Iso3 {
    let [x, y, z, i, j, k, w] = p;
    Iso3::from_parts(Translation3::new(x, y, z), UnitQuaternion::new_unchecked(Quaternion::new(w, i, j, k)))
}

pub fn flat(p: &Iso3) -> Pose {
    let (t, q) = (p.translation.vector, p.rotation.coords);
    [t.x, t.y, t.z, q.x, q.y, q.z, q.w]
}

/// The bits of a double, all NaNs as one. Told by the bits: of a choice between a NaN and a root by `is_nan`, LLVM keeps the root, whose
/// NaN has other bits.
pub fn bits(x: f64) -> u64 {
    match x.to_bits() {
        nan if nan & !(1 << 63) > 0x7ff0_0000_0000_0000 => 0x7ff8_0000_0000_0000,
        bits => bits,
    }
}

fn refused(number: u32, detail: usize) -> Verdict {
    Verdict::Refused { number, detail: detail as u32 }
}

pub fn verdict(grid: &Grid) -> Verdict {
    let (views, cameras) = (grid.views(), grid.cameras());
    if views > MAX_VIEWS {
        return refused(2, 0);
    }
    if cameras > MAX_CAMERAS {
        return refused(2, 0);
    }
    // 1, 3 and 4 are the Rust's own, and come before anything else is looked at.
    if views == 0 || cameras == 0 || grid.reference as usize >= cameras || grid.counts.iter().any(|&n| n as usize != cameras) {
        let shape: Vec<Vec<Option<Iso3>>> =
            grid.counts.iter().map(|&n| vec![None; (n as usize).min(2 * MAX_CAMERAS + 1)]).collect();
        return rust(&shape, grid);
    }
    let cells = views * cameras;
    if grid.marks.len() != cells
        || grid.floats.len() != POSE_FLOATS * cells
        || grid.first_room < grid.first_needed()
        || grid.second_room < grid.second_needed()
    {
        return refused(5, 0);
    }
    if let Some(cell) = grid.marks.iter().position(|&mark| mark > 1) {
        return refused(6, cell);
    }
    if let Some(cell) = (0..cells).find(|&cell| grid.marks[cell] == 1 && grid.pose(cell).iter().any(|x| !x.is_finite())) {
        return refused(7, cell);
    }
    rust(&views_of(grid), grid)
}

/// The grid as the Rust takes it.
pub fn views_of(grid: &Grid) -> Vec<Vec<Option<Iso3>>> {
    let cameras = grid.cameras();
    (0..grid.views())
        .map(|view| {
            (0..cameras)
                .map(|camera| {
                    let cell = view * cameras + camera;
                    (grid.marks[cell] == 1).then(|| iso(grid.pose(cell)))
                })
                .collect()
        })
        .collect()
}

fn rust(cam_se3_target: &[Vec<Option<Iso3>>], grid: &Grid) -> Verdict {
    match estimate_extrinsics_from_cam_target_poses(cam_se3_target, grid.reference as usize) {
        Ok(poses) => Verdict::Solved {
            transforms: poses.rig_se3_cam.iter().chain(&poses.rig_se3_target).flat_map(flat).collect(),
            chains: chains(grid).into_iter().flat_map(|(parent, links)| [parent as u8, links as u8]).collect(),
        },
        Err(Error::InsufficientData { .. }) => refused(1, 0),
        Err(Error::InvalidInput { reason }) => by_reason(&reason),
        #[allow(unreachable_patterns)]
        Err(other) => panic!("an error that extrinsics.rs does not make: {other:?}"),
    }
}

/// The number that document 01 gives to each of the Rust's reasons, and the detail that the reason names.
fn by_reason(reason: &str) -> Verdict {
    let numbers = |text: &str| -> Vec<usize> {
        text.split(|c: char| !c.is_ascii_digit()).filter(|part| !part.is_empty()).map(|part| part.parse().unwrap()).collect()
    };
    if reason.starts_with("invalid ref_cam_idx") {
        refused(3, 0)
    } else if reason.contains("has camera count") {
        refused(4, numbers(reason)[0])
    } else if let Some(rest) = reason.strip_prefix("camera(s) [") {
        let list = rest.split(']').next().unwrap();
        refused(8, numbers(list).iter().map(|&c| 1 << c).sum())
    } else if reason.ends_with("has no valid camera poses") {
        refused(9, numbers(reason)[0])
    } else {
        panic!("a reason that extrinsics.rs does not give: {reason}")
    }
}

/// Parent and links of each camera, which the Rust does not report: from document 01, "Chains". Links by least numbers over all
/// chains; the parent one link nearer, sharing most views, lowest index on ties.
pub fn chains(grid: &Grid) -> Vec<(usize, usize)> {
    let (views, cameras, reference) = (grid.views(), grid.cameras(), grid.reference as usize);
    let held = |view: usize, camera: usize| grid.marks[view * cameras + camera] == 1;
    let shared = |a: usize, b: usize| (0..views).filter(|&v| held(v, a) && held(v, b)).count();
    let mut least = vec![usize::MAX; cameras];
    least[reference] = 0;
    for _ in 0..cameras {
        for a in 0..cameras {
            for b in 0..cameras {
                if a != b && least[a] != usize::MAX && least[a] + 1 < least[b] && shared(a, b) > 0 {
                    least[b] = least[a] + 1;
                }
            }
        }
    }
    (0..cameras)
        .map(|c| {
            if c == reference {
                return (c, 0);
            }
            let mut parent = None;
            for p in 0..cameras {
                if least[p] != usize::MAX && least[p] + 1 == least[c] {
                    let views = shared(p, c);
                    if views > parent.map_or(0, |(_, most)| most) {
                        parent = Some((p, views));
                    }
                }
            }
            (parent.map_or(255, |(p, _)| p), least[c])
        })
        .collect()
}

/// How many cameras had their parent decided by index, among several that share most views.
pub fn ties(grid: &Grid) -> usize {
    let (views, cameras) = (grid.views(), grid.cameras());
    let chains = chains(grid);
    let shared = |a: usize, b: usize| {
        (0..views).filter(|&v| grid.marks[v * cameras + a] == 1 && grid.marks[v * cameras + b] == 1).count()
    };
    (0..cameras)
        .filter(|&c| c != grid.reference as usize)
        .filter(|&c| {
            let (parent, links) = chains[c];
            (0..cameras).any(|q| q != parent && chains[q].1 + 1 == links && shared(q, c) == shared(parent, c))
        })
        .count()
}

/// The Rust's average of a list, as the export would put it.
pub fn average(poses: &[Pose]) -> Result<Pose, (u32, u32)> {
    if poses.is_empty() {
        return match average_isometries(&[]) {
            Err(Error::InsufficientData { .. }) => Err((1, 0)),
            other => panic!("an empty list averaged to {other:?}"),
        };
    }
    if poses.len() > MAX_VIEWS {
        return Err((2, 0));
    }
    if let Some(lowest) = poses.iter().position(|p| p.iter().any(|x| !x.is_finite())) {
        return Err((7, lowest as u32));
    }
    let isos: Vec<Iso3> = poses.iter().copied().map(iso).collect();
    Ok(flat(&average_isometries(&isos).expect("a list that is not empty has an average")))
}
