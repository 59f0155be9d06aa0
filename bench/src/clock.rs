//! Both sides of a contest timed in turn, in one process, by the time that the thread itself has run.

use std::{hint::black_box, sync::LazyLock};

#[repr(C)]
struct Timespec {
    seconds: i64,
    nanoseconds: i64,
}

const CLOCK_THREAD_CPUTIME_ID: i32 = 3;
const M_TRIM_THRESHOLD: i32 = -1;
const M_MMAP_THRESHOLD: i32 = -3;

unsafe extern "C" {
    fn clock_gettime(clock: i32, time: *mut Timespec) -> i32;
    fn mallopt(option: i32, value: i32) -> i32;
}

fn now() -> u64 {
    let mut time = Timespec {
        seconds: 0,
        nanoseconds: 0,
    };
    // Sound: the struct is the C library's on 64-bit Linux.
    let status = unsafe { clock_gettime(CLOCK_THREAD_CPUTIME_ID, &mut time) };
    assert_eq!(status, 0);

    time.seconds as u64 * 1_000_000_000 + time.nanoseconds as u64
}

/// The nanoseconds that a piece of work takes, without what the clock itself takes.
fn took(work: impl FnOnce()) -> u64 {
    let start = now();
    work();
    let end = now();

    (end - start).saturating_sub(*CLOCK)
}

static CLOCK: LazyLock<u64> = LazyLock::new(|| {
    (0..1_000)
        .map(|_| {
            let start = now();
            now() - start
        })
        .min()
        .expect("a thousand times")
});

/// Memory that was given back stays with the process, so that the Rust's large answers cost no new pages.
pub fn keep_memory() {
    // Sound: it sets two numbers of the allocator.
    unsafe {
        mallopt(M_TRIM_THRESHOLD, i32::MAX);
        mallopt(M_MMAP_THRESHOLD, i32::MAX);
    }
}

/// Runs so many calls and tells the nanoseconds that they took.
pub type Side = Box<dyn FnMut(usize) -> u64>;

/// A call that only reads what it is given. Its answers are dropped after the time is taken.
pub fn calls<A>(mut call: impl FnMut() -> A + 'static) -> Side {
    Box::new(move |times| {
        let mut answers = Vec::with_capacity(times);
        took(|| {
            for _ in 0..times {
                answers.push(black_box(call()));
            }
        })
    })
}

/// A call that uses up what it is given, which is made before the time begins.
pub fn consuming<I, A>(
    mut make: impl FnMut() -> I + 'static,
    mut call: impl FnMut(I) -> A + 'static,
) -> Side {
    Box::new(move |times| {
        let given: Vec<I> = (0..times).map(|_| make()).collect();
        let mut answers = Vec::with_capacity(times);
        took(|| {
            for input in given {
                answers.push(black_box(call(input)));
            }
        })
    })
}

/// One call on one input, on both sides; what they answer was compared when it was made.
pub struct Contest {
    pub call: &'static str,
    pub input: String,
    pub ours: Side,
    pub rust: Side,
}

/// Medians of a call, in nanoseconds.
#[derive(Debug, Clone, Copy)]
pub struct Medians {
    pub ours: f64,
    pub rust: f64,
}

impl Medians {
    pub fn ratio(self) -> f64 {
        self.ours / self.rust
    }
}

const SAMPLE: u64 = 100_000;

/// Alternates both sides, first the one and then the other first, until `budget` nanoseconds are spent.
pub fn contend(contest: &mut Contest, budget: u64) -> Medians {
    let Contest { ours, rust, .. } = contest;
    let mut times = 1;
    while ours(times).min(rust(times)) < SAMPLE {
        times *= 2;
    }

    let (mut ours_took, mut rust_took) = (Vec::new(), Vec::new());
    let mut spent = 0;
    while spent < budget || ours_took.len() < 31 {
        let (one, other) = if ours_took.len() % 2 == 0 {
            let one = ours(times);
            (one, rust(times))
        } else {
            let other = rust(times);
            (ours(times), other)
        };
        ours_took.push(one);
        rust_took.push(other);
        spent += one + other;
    }

    let median = |took: &mut Vec<u64>| {
        took.sort_unstable();
        took[took.len() / 2] as f64 / times as f64
    };
    Medians {
        ours: median(&mut ours_took),
        rust: median(&mut rust_took),
    }
}
