//! Rig extrinsics from camera-target poses: safe Rust over libplacer.a, whose every function is proved to answer what its contract says.
//!
//! A pose is seven doubles: a translation x, y, z, then a quaternion i, j, k, w. [`Session`], [`place_rig`], [`pose_commands`] and [`cameras_in`]
//! allocate; the library itself never does.

#![warn(missing_docs)]

use std::fmt;

/// The exports themselves, as include/placer.h declares them. A slice is a pointer and a length, and NULL will do where the length is 0.
pub mod ffi {
    use super::{Pose, POSE_FLOATS};

    extern "C" {
        /// The square root of IEEE 754.
        pub fn placer_sqrt(x: f64) -> f64;
        /// The average of poses, into seven doubles; `mean` is never NULL.
        pub fn rig_average_isometries(poses: *const Pose, poses_len: usize, mean: *mut [f64; POSE_FLOATS]) -> u64;
        /// The direct call.
        #[allow(clippy::too_many_arguments)]
        pub fn placer_estimate(
            counts: *const u32,
            counts_len: usize,
            marks: *const u8,
            marks_len: usize,
            floats: *const f64,
            floats_len: usize,
            reference: u32,
            transforms: *mut f64,
            transforms_len: usize,
            chains: *mut u8,
            chains_len: usize,
        ) -> u64;
        /// One command of a session.
        #[allow(clippy::too_many_arguments)]
        pub fn placer_step(
            session: *mut u64,
            session_len: usize,
            stream: *const u8,
            stream_len: usize,
            at: usize,
            buffer: *mut f64,
            buffer_len: usize,
            transforms: *mut f64,
            transforms_len: usize,
            chains: *mut u8,
            chains_len: usize,
            next: *mut usize,
        ) -> u64;
        /// How many views two cameras share, by a session's record.
        pub fn placer_shared(record: *const u64, record_len: usize, first: u8, second: u8) -> u64;
        /// Packed frames as Pose commands.
        pub fn placer_frames(frames: *const u8, frames_len: usize, commands: *mut u8, commands_len: usize) -> u64;
    }
}

/// How many doubles a pose takes.
pub const POSE_FLOATS: usize = 7;

/// As many views as a rig may have.
pub const MAX_VIEWS: usize = 64;

/// As many cameras as a rig may have.
pub const MAX_CAMERAS: usize = 16;

/// Where the shared counts begin in a session record: 16 rows of 16, for cameras a and b at `SHARED_WORD + 16 * a + b`.
pub const SHARED_WORD: usize = MAX_CAMERAS + 3;

/// The words of a session record: a mask for each camera, the views, the cameras and the reference, and the shared counts.
pub const RECORD_WORDS: usize = SHARED_WORD + MAX_CAMERAS * MAX_CAMERAS;

/// The doubles of a session's buffer.
pub const BUFFER_FLOATS: usize = POSE_FLOATS * MAX_VIEWS * MAX_CAMERAS;

/// The doubles of a session's first answer: seven for each camera and for each view.
pub const FIRST_FLOATS: usize = POSE_FLOATS * (MAX_CAMERAS + MAX_VIEWS);

/// The bytes of a session's second answer: a parent and a link count for each camera.
pub const SECOND_BYTES: usize = 2 * MAX_CAMERAS;

/// The most bytes of a stream.
pub const MAX_STREAM: usize = 65536;

/// The bytes of a packed frame.
pub const FRAME_BYTES: usize = 30;

/// The most frames of one call.
pub const MAX_FRAMES: usize = 1024;

/// The bytes of a Pose command.
pub const POSE_BYTES: usize = 59;

/// A translation x, y, z, then a quaternion i, j, k, w.
pub type Pose = [f64; POSE_FLOATS];

/// Why a call was refused: a number of the table of refusals, and what it names, 0 if nothing.
#[derive(Debug, Clone, Copy, PartialEq, Eq)]
pub struct Refusal {
    /// 1 to 15 for the input, 21 to 24 for the state of a session.
    pub number: u32,
    /// The lowest view, cell or pose at fault, or a set of cameras, as the number says.
    pub detail: u32,
}

impl Refusal {
    /// What the reply of an export says, but of `placer_step`, `placer_shared` and `placer_frames`, whose numbers below 2^32 are no refusals: 0 is none.
    pub fn from_reply(reply: u64) -> Result<(), Refusal> {
        match reply {
            0 => Ok(()),
            code => Err(Refusal { number: (code >> 32) as u32, detail: code as u32 }),
        }
    }

    /// What the reply of `placer_shared` or `placer_frames` says: a count, 0 too, or a refusal.
    fn or_count(reply: u64) -> Result<u32, Refusal> {
        match (reply >> 32) as u32 {
            0 => Ok(reply as u32),
            number => Err(Refusal { number, detail: reply as u32 }),
        }
    }
}

impl fmt::Display for Refusal {
    fn fmt(&self, f: &mut fmt::Formatter<'_>) -> fmt::Result {
        let detail = self.detail;
        match self.number {
            1 => write!(f, "no views, no cameras or no poses"),
            2 => write!(f, "more than 64 views or poses, or more than 16 cameras"),
            3 => write!(f, "the reference is not below the camera count"),
            4 => write!(f, "view {detail} has another camera count than view 0"),
            5 => write!(f, "a length does not fit, or no accepted commands leave such a session record"),
            6 => write!(f, "cell {detail} has a mark above 1"),
            7 => write!(f, "cell {detail} (view * cameras + camera), or pose {detail} of a list, has a number that is not finite"),
            8 => write!(f, "no chain of shared views ties these cameras to the reference: {:?}", cameras_in(detail)),
            9 => write!(f, "view {detail} has no poses"),
            10 => write!(f, "no command begins with byte {detail}"),
            11 => write!(f, "the stream ends within the command at offset {detail}, or, where that is its length, the offset is past its end"),
            12 => write!(f, "view {0}, camera {1} is outside the rig, or, of a query, camera {0} or camera {1}", detail >> 8, detail & 0xff),
            13 => write!(f, "the stream is longer than 65,536 bytes"),
            14 => write!(f, "the length of the packed frames is no multiple of 30"),
            15 => write!(f, "more than 1,024 packed frames"),
            21 => write!(f, "no Size was accepted yet"),
            22 => write!(f, "a Size was accepted already"),
            23 => write!(f, "view {}, camera {} is held already", detail >> 8, detail & 0xff),
            24 => write!(f, "view {}, camera {} holds no pose", detail >> 8, detail & 0xff),
            number => write!(f, "refusal {number}, detail {detail}"),
        }
    }
}

impl std::error::Error for Refusal {}

/// The cameras that a detail of refusal 8 names.
pub fn cameras_in(detail: u32) -> Vec<usize> {
    (0..MAX_CAMERAS).filter(|&c| detail >> c & 1 == 1).collect()
}

/// The square root of IEEE 754, for every double: the same bits as [`f64::sqrt`] wherever there is a root.
///
/// Below zero both answer a NaN, but not the same: this one is 7ff8000000000000, and the machine's may have its sign set. A NaN comes back
/// as it is.
pub fn sqrt(x: f64) -> f64 {
    unsafe { ffi::placer_sqrt(x) }
}

/// The average of one to 64 poses of finite numbers.
///
/// Refused: no poses with 1, more than 64 with 2, a number that is not finite with 7, detail being the lowest such pose.
pub fn average(poses: &[Pose]) -> Result<Pose, Refusal> {
    let mut mean = [0.0; POSE_FLOATS];
    Refusal::from_reply(unsafe { ffi::rig_average_isometries(poses.as_ptr(), poses.len(), &mut mean) })?;
    Ok(mean)
}

/// The direct call, on lent memory: per view its camera count; a mark for each cell, 0 empty and 1 a pose, view after view; seven
/// floats for each cell; the reference; and both answers.
///
/// A solved rig stands in `transforms`, seven floats for each camera and then for each view, and in `chains`, a parent and a link
/// count for each camera. What lies beyond is left as it was. A refusal, 1 to 9, writes nothing.
pub fn estimate(
    counts: &[u32],
    marks: &[u8],
    floats: &[f64],
    reference: u32,
    transforms: &mut [f64],
    chains: &mut [u8],
) -> Result<(), Refusal> {
    Refusal::from_reply(unsafe {
        ffi::placer_estimate(
            counts.as_ptr(),
            counts.len(),
            marks.as_ptr(),
            marks.len(),
            floats.as_ptr(),
            floats.len(),
            reference,
            transforms.as_mut_ptr(),
            transforms.len(),
            chains.as_mut_ptr(),
            chains.len(),
        )
    })
}

/// Where a camera stands: its parent, how many links its chain to the reference has, and its pose in the rig's frame.
#[derive(Debug, Clone, Copy, PartialEq)]
pub struct Camera {
    /// The next camera of its chain; of the reference itself.
    pub parent: u8,
    /// 0 for the reference alone.
    pub links: u8,
    /// T_R_C, from the camera's frame to the rig's.
    pub rig_se3_cam: Pose,
}

/// A solved rig.
#[derive(Debug, Clone, PartialEq)]
pub struct Rig {
    /// Each camera.
    pub cameras: Vec<Camera>,
    /// T_R_T of each view, from the target's frame to the rig's.
    pub rig_se3_target: Vec<Pose>,
}

/// The direct call, on a list of views of optional poses, as the original takes them: `cam_se3_target[view][camera]`.
pub fn place_rig(cam_se3_target: &[Vec<Option<Pose>>], reference: u32) -> Result<Rig, Refusal> {
    let counts: Vec<u32> = cam_se3_target.iter().map(|view| view.len().try_into().unwrap_or(u32::MAX)).collect();
    let cells = || cam_se3_target.iter().flatten();
    let marks: Vec<u8> = cells().map(|cell| cell.is_some() as u8).collect();
    let floats: Vec<f64> = cells().flat_map(|cell| cell.unwrap_or_default()).collect();
    let mut transforms = [0.0; FIRST_FLOATS];
    let mut chains = [0; SECOND_BYTES];
    estimate(&counts, &marks, &floats, reference, &mut transforms, &mut chains)?;
    Ok(Rig::from_answers(counts[0] as usize, counts.len(), &transforms, &chains))
}

impl Rig {
    fn from_answers(cameras: usize, views: usize, transforms: &[f64; FIRST_FLOATS], chains: &[u8; SECOND_BYTES]) -> Rig {
        let (poses, _) = transforms.as_chunks::<POSE_FLOATS>();
        Rig {
            cameras: (0..cameras)
                .map(|c| Camera { parent: chains[2 * c], links: chains[2 * c + 1], rig_se3_cam: poses[c] })
                .collect(),
            rig_se3_target: poses[cameras..cameras + views].to_vec(),
        }
    }
}

/// Packed frames of the arm controller as Pose commands, in their order, into lent memory: how many there were. No frames are no fault: `Ok(0)`.
///
/// A frame is [`FRAME_BYTES`] bytes: the view, the camera, and seven `i32`, low byte first: x, y, z in micrometres and i, j, k, w in units of 2^-30. A translation
/// is the double nearest to the count divided by 1,000,000, in metres; a rotation number is exact. What is written is what [`Session::feed`] obeys, behind a Size.
///
/// Refused, with nothing written: a length of frames that is no multiple of [`FRAME_BYTES`] with 14, more than [`MAX_FRAMES`] with 15, and `commands` that are not
/// exactly [`POSE_BYTES`] for each frame with 5, in this order.
pub fn import_frames(frames: &[u8], commands: &mut [u8]) -> Result<usize, Refusal> {
    let reply = unsafe { ffi::placer_frames(frames.as_ptr(), frames.len(), commands.as_mut_ptr(), commands.len()) };
    Refusal::or_count(reply).map(|count| count as usize)
}

/// The Pose commands of packed frames, as [`import_frames`] writes them, in memory of their own; refused with 14 or 15.
pub fn pose_commands(frames: &[u8]) -> Result<Vec<u8>, Refusal> {
    // 15 comes before 5: for more frames than there may be, no memory is asked for.
    let mut commands = vec![0; POSE_BYTES * (frames.len() / FRAME_BYTES).min(MAX_FRAMES)];
    import_frames(frames, &mut commands)?;
    Ok(commands)
}

/// What a command was answered with, where nothing was refused.
#[derive(Debug, Clone, Copy, PartialEq, Eq)]
pub enum Accepted {
    /// The offset is the stream's length.
    End,
    /// Size, Pose or Withdraw was obeyed.
    Held,
    /// Solve was obeyed: [`Session::rig`] has the rig.
    Solved,
}

/// The answer to one command, and the offset of the next.
#[derive(Debug, Clone, Copy, PartialEq, Eq)]
pub struct Reply {
    /// A refusal changes nothing that is held.
    pub answer: Result<Accepted, Refusal>,
    /// After a refusal that ends the stream, 5, 10, 11 or 13, its length. A stream that is longer later goes on after 11 at the offset
    /// that was asked for, and not here.
    pub next: usize,
}

/// The answers to the commands of a stream from an offset on, and the offset to go on at.
#[derive(Debug, Clone, PartialEq, Eq)]
pub struct Fed {
    /// In order. The last is refused with 11 where the stream ends within a command.
    pub answers: Vec<Result<Accepted, Refusal>>,
    /// The stream's length; after 11 the offset of the command that is not whole yet.
    pub next: usize,
}

/// A session: poses arrive as commands in a stream of bytes, and Solve answers as the direct call would. A bad pose is taken back by Withdraw (0x04, view,
/// camera), and its cell is then free for another.
#[derive(Debug, Clone)]
pub struct Session {
    record: [u64; RECORD_WORDS],
    buffer: Box<[f64]>,
    transforms: [f64; FIRST_FLOATS],
    chains: [u8; SECOND_BYTES],
    solved: bool,
}

impl Default for Session {
    fn default() -> Self {
        Self::new()
    }
}

impl Session {
    /// A fresh session: no sizes, no poses.
    pub fn new() -> Session {
        Session::from_parts([0; RECORD_WORDS], vec![0.0; BUFFER_FLOATS])
    }

    /// The session that a record and a buffer hold; its rig is there after the next Solve.
    ///
    /// Nothing is checked here: a record that no accepted commands leave, one with a false shared count among them, and a buffer of another length than
    /// [`BUFFER_FLOATS`], have every command refused with 5, unless the stream is too long, which is 13.
    pub fn from_parts(record: [u64; RECORD_WORDS], buffer: impl Into<Box<[f64]>>) -> Session {
        Session {
            record,
            buffer: buffer.into(),
            transforms: [0.0; FIRST_FLOATS],
            chains: [0; SECOND_BYTES],
            solved: false,
        }
    }

    /// Obeys the one command at an offset of the stream.
    pub fn step(&mut self, stream: &[u8], at: usize) -> Reply {
        let mut next = 0;
        let code = unsafe {
            ffi::placer_step(
                self.record.as_mut_ptr(),
                self.record.len(),
                stream.as_ptr(),
                stream.len(),
                at,
                self.buffer.as_mut_ptr(),
                self.buffer.len(),
                self.transforms.as_mut_ptr(),
                self.transforms.len(),
                self.chains.as_mut_ptr(),
                self.chains.len(),
                &mut next,
            )
        };
        let answer = match code {
            0 => Ok(Accepted::End),
            1 => Ok(Accepted::Held),
            2 => Ok(Accepted::Solved),
            code => Err(Refusal { number: (code >> 32) as u32, detail: code as u32 }),
        };
        self.solved |= answer == Ok(Accepted::Solved);
        Reply { answer, next }
    }

    /// The answers to all commands of a stream, in order.
    ///
    /// A stream that arrives in pieces is fed by [`Session::feed_from`]: after 11 a feeder calls again at the SAME offset with the longer
    /// stream, and what is fed here begins at 0.
    pub fn feed(&mut self, stream: &[u8]) -> Vec<Result<Accepted, Refusal>> {
        self.feed_from(stream, 0).answers
    }

    /// The answers to the commands of a stream from an offset on, and where to go on: [`Fed::next`] is the offset for the next call, with
    /// the longer stream (or with one that begins there, at 0).
    pub fn feed_from(&mut self, stream: &[u8], at: usize) -> Fed {
        let mut fed = Fed { answers: Vec::new(), next: at };
        while fed.next != stream.len() {
            let Reply { answer, next } = self.step(stream, fed.next);
            fed.answers.push(answer);
            if matches!(answer, Err(Refusal { number: 11, .. })) {
                break;
            }
            fed.next = next;
        }
        fed
    }

    /// How many views hold poses of both cameras, 0 to 64; of a camera with itself, how many hold one of it. Nothing is changed.
    ///
    /// Refused: a record that no accepted commands leave with 5, before an accepted Size with 21, a camera outside the sizes with 12, detail being
    /// first * 256 + second, in this order.
    pub fn shared(&self, first: u8, second: u8) -> Result<u32, Refusal> {
        Refusal::or_count(unsafe { ffi::placer_shared(self.record.as_ptr(), self.record.len(), first, second) })
    }

    /// The rig that was solved last, whatever was sent or withdrawn since.
    pub fn rig(&self) -> Option<Rig> {
        let [views, cameras] = [self.record[MAX_CAMERAS], self.record[MAX_CAMERAS + 1]];
        self.solved.then(|| Rig::from_answers(cameras as usize, views as usize, &self.transforms, &self.chains))
    }

    /// The record: a mask for each camera, the views, the cameras and the reference, and from [`SHARED_WORD`] on the shared counts, which
    /// [`Session::shared`] reads. With [`Session::buffer`] it is all that a session holds: both saved, [`Session::from_parts`] takes it up again.
    pub fn record(&self) -> &[u64; RECORD_WORDS] {
        &self.record
    }

    /// The poses that are held, a cell's seven doubles from 7 * (view * [`MAX_CAMERAS`] + camera). A cell that was withdrawn keeps its numbers here, and they
    /// count for nothing: the record says which cells are held.
    pub fn buffer(&self) -> &[f64] {
        &self.buffer
    }
}
