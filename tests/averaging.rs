//! Calls `rig_average_isometries` of libplacer.a with every kind of list: each refusal with its detail, and means that are known.
//! `tests/averaging.sh` builds and runs it.

#[repr(C)]
#[derive(Clone, Copy)]
struct Pose {
    translation: [f64; 3],
    rotation: [f64; 4],
}

extern "C" {
    /// 0 and the mean's seven numbers, or the refusal's number times 2^32 plus its detail and nothing written.
    fn rig_average_isometries(poses: *const Pose, count: usize, mean: *mut [f64; 7]) -> u64;
}

const UNTOUCHED: [f64; 7] = [-7.0; 7];

fn average(poses: &[Pose]) -> (u32, u32, [f64; 7]) {
    let mut mean = UNTOUCHED;
    // SAFETY: the pointer and the count are those of one slice, and `mean` is seven doubles.
    let answer = unsafe { rig_average_isometries(poses.as_ptr(), poses.len(), &mut mean) };
    ((answer >> 32) as u32, answer as u32, mean)
}

fn pose(x: f64, w: f64) -> Pose {
    Pose { translation: [x, 0.0, 0.0], rotation: [0.0, 0.0, 0.0, w] }
}

fn main() {
    let mut checks = 0;
    let mut check = |name: &str, got: (u32, u32, [f64; 7]), want: (u32, u32, [f64; 7])| {
        assert!(got == want, "{name}: {got:?}, not {want:?}");
        checks += 1;
    };
    let refused = |number, detail| (number, detail, UNTOUCHED);
    let mean = |x, w| (0, 0, [x, 0.0, 0.0, 0.0, 0.0, 0.0, w]);

    check("no poses", average(&[]), refused(1, 0));
    check("one pose", average(&[pose(1.0, 1.0)]), mean(1.0, 1.0));
    check("opposite signs", average(&[pose(1.0, 1.0), pose(3.0, -1.0)]), mean(2.0, 1.0));
    check("a zero rotation", average(&[pose(4.0, 0.0)]), mean(4.0, 1.0));
    check("sixty-four", average(&[pose(2.0, 1.0); 64]), mean(2.0, 1.0));
    for count in [65, 66, 1000] {
        check("too many", average(&vec![pose(2.0, 1.0); count]), refused(2, 0));
    }
    for bad in [f64::NAN, f64::INFINITY, f64::NEG_INFINITY] {
        for place in [0, 1, 31, 63] {
            for field in 0..7 {
                let mut poses = [pose(2.0, 1.0); 64];
                for later in place..64 {
                    let p = &mut poses[later];
                    if field < 3 { p.translation[field] = bad } else { p.rotation[field - 3] = bad }
                }
                check("not finite", average(&poses), refused(7, place as u32));
            }
        }
    }
    println!("averaging from Rust: {checks} calls, all as expected");
}
