// Timing two ways of the same work, in turn. The time is the thread's own on the processor, so that others on the machine count less.
#[repr(C)]
struct Timespec {
    seconds: i64,
    nanoseconds: i64,
}

const THREAD_CLOCK: i32 = 3;

unsafe extern "C" {
    fn clock_gettime(clock: i32, time: *mut Timespec) -> i32;
}

fn microseconds() -> f64 {
    let mut t = Timespec { seconds: 0, nanoseconds: 0 };
    assert_eq!(unsafe { clock_gettime(THREAD_CLOCK, &mut t) }, 0);
    t.seconds as f64 * 1e6 + t.nanoseconds as f64 / 1e3
}

// The median of each, in microseconds, over so many rounds of so many calls.
pub fn medians(rounds: usize, calls: u32, mut first: impl FnMut(), mut second: impl FnMut()) -> (f64, f64) {
    let mut a = Vec::new();
    let mut b = Vec::new();
    for _ in 0..rounds {
        a.push(one(calls, &mut first));
        b.push(one(calls, &mut second));
    }
    (median(a), median(b))
}

fn one(calls: u32, f: &mut impl FnMut()) -> f64 {
    let start = microseconds();
    for _ in 0..calls {
        f();
    }
    (microseconds() - start) / calls as f64
}

fn median(mut xs: Vec<f64>) -> f64 {
    xs.sort_by(|x, y| x.total_cmp(y));
    xs[xs.len() / 2]
}
