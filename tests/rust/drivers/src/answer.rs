//! Our answer to a grid, with guard values around and behind both answers, compared with the Rust's: values bit for bit with NaNs as
//! one, refusals, details, what was written and what was not.

use crate::grid::{Grid, Pose, POSE_FLOATS};
use crate::oracle::{average, flat, iso, Verdict};
use random::Random;
use placer::Refusal;

const MARGIN: usize = 8;

/// Lent memory: a part in the middle of guards, every word of it random at first.
struct Lent<T> {
    words: Vec<T>,
    before: Vec<T>,
}

impl<T: Copy> Lent<T> {
    fn new(length: usize, word: impl FnMut() -> T) -> Self {
        let words: Vec<T> = std::iter::repeat_with(word).take(length + 2 * MARGIN).collect();
        Lent { before: words.clone(), words }
    }

    fn part(&mut self) -> &mut [T] {
        let end = self.words.len() - MARGIN;
        &mut self.words[MARGIN..end]
    }
}

/// The same double: the same bits, or both NaN.
pub fn same(a: f64, b: f64) -> bool {
    a.to_bits() == b.to_bits() || a.is_nan() && b.is_nan()
}

fn check<T: Copy + std::fmt::Debug>(
    what: &str,
    lent: &Lent<T>,
    written: &[T],
    same: impl Fn(T, T) -> bool,
    untouched: impl Fn(T, T) -> bool,
) -> Result<(), String> {
    for (at, (&now, &before)) in lent.words.iter().zip(&lent.before).enumerate() {
        let place = at as isize - MARGIN as isize;
        match written.get(place as usize) {
            Some(&expected) if place >= 0 => {
                if !same(now, expected) {
                    return Err(format!("{what}[{place}] is {now:?}, and the Rust has {expected:?}"));
                }
            }
            _ => {
                if !untouched(now, before) {
                    return Err(format!("{what}[{place}] was {before:?} and is now {now:?}, though nothing is to be written there"));
                }
            }
        }
    }
    Ok(())
}

fn guard(random: &mut Random) -> f64 {
    f64::from_bits(random.bits())
}

fn same_bits(a: f64, b: f64) -> bool {
    a.to_bits() == b.to_bits()
}

/// Calls the library on the grid and holds its answer to the verdict.
pub fn compare(random: &mut Random, grid: &Grid, verdict: &Verdict) -> Result<(), String> {
    let mut transforms = Lent::new(grid.first_room, || guard(random));
    let mut chains = Lent::new(grid.second_room, || random.bits() as u8);
    let inputs = grid.clone();
    let answer = placer::estimate(&grid.counts, &grid.marks, &grid.floats, grid.reference, transforms.part(), chains.part());
    let unchanged = inputs.counts == grid.counts
        && inputs.marks == grid.marks
        && inputs.floats.iter().zip(&grid.floats).all(|(&a, &b)| same_bits(a, b));
    if !unchanged {
        return Err("an input was written to".to_owned());
    }
    let (floats, bytes): (&[f64], &[u8]) = match (answer, verdict) {
        (Err(Refusal { number, detail }), Verdict::Refused { number: expected, detail: named }) => {
            if (number, detail) != (*expected, *named) {
                return Err(format!("refused with {number} {detail}, and {expected} {named} was expected"));
            }
            (&[], &[])
        }
        (Ok(()), Verdict::Solved { transforms, chains }) => (transforms, chains),
        (Ok(()), refused) => return Err(format!("solved, and {refused:?} was expected")),
        (Err(refusal), _) => return Err(format!("refused with {} {}, and the Rust solves it", refusal.number, refusal.detail)),
    };
    check("the first answer", &transforms, floats, same, same_bits)?;
    check("the second answer", &chains, bytes, |a, b| a == b, |a, b| a == b)
}

/// What the exports, and those of the probe, make of a list of poses: the average of its whole poses, its product, and the inverse of each,
/// these two with the lengths and the room as they come.
pub fn compare_list(random: &mut Random, poses: &[f64], room: usize) -> Result<(), String> {
    let whole = poses.len() % POSE_FLOATS == 0;
    let list: Vec<Pose> = poses.chunks_exact(POSE_FLOATS).map(|p| p.try_into().unwrap()).collect();

    let mut mean = Lent::new(POSE_FLOATS, || guard(random));
    let seven = mean.part().first_chunk_mut().expect("seven doubles");
    let reply = unsafe { placer::ffi::rig_average_isometries(list.as_ptr(), list.len(), seven) };
    let expected = average(&list);
    check_list("average", reply, mean, expected.as_ref().map(|p| &p[..]).map_err(|&e| e))?;

    let mut product = Lent::new(room, || guard(random));
    let reply = probe::product(poses, product.part());
    let all = list.iter().fold(vision_calibration_core::Iso3::identity(), |all, &p| all * iso(p));
    let all = flat(&all);
    check_list("product", reply, product, if whole && room >= POSE_FLOATS { Ok(&all) } else { Err((5, 0)) })?;

    let mut inverses = Lent::new(room, || guard(random));
    let reply = probe::inverses(poses, inverses.part());
    let each: Vec<f64> = list.iter().flat_map(|&p| flat(&iso(p).inverse())).collect();
    check_list("inverses", reply, inverses, if whole && room >= poses.len() { Ok(&each) } else { Err((5, 0)) })
}

fn check_list(what: &str, reply: u64, lent: Lent<f64>, expected: Result<&[f64], (u32, u32)>) -> Result<(), String> {
    let answer = Refusal::from_reply(reply).map_err(|refusal| (refusal.number, refusal.detail));
    if answer.err() != expected.err() {
        return Err(format!("{what}: {answer:?}, and {expected:?} was expected"));
    }
    check(what, &lent, expected.unwrap_or(&[]), same, same_bits)
}
