//! The time that this thread has run, so that other programs on the machine do not count.

#[repr(C)]
struct Timespec {
    seconds: i64,
    nanoseconds: i64,
}

unsafe extern "C" {
    fn clock_gettime(clock: i32, time: *mut Timespec) -> i32;
}

const THREAD_CPU_TIME: i32 = 3;

pub fn nanoseconds() -> f64 {
    let mut time = Timespec { seconds: 0, nanoseconds: 0 };
    assert_eq!(unsafe { clock_gettime(THREAD_CPU_TIME, &mut time) }, 0);
    time.seconds as f64 * 1e9 + time.nanoseconds as f64
}

const BATCH: f64 = 2e6;
const BATCHES: usize = 41;

/// The median of each, in nanoseconds a turn: batches of all of them by turns, each over the inputs again and again.
pub fn medians<const N: usize>(mut list: [&mut dyn FnMut(usize); N], inputs: usize) -> [f64; N] {
    if crate::counts::inside() {
        list.iter_mut().for_each(|f| crate::counts::count(*f, inputs));
        return [0.0; N];
    }
    let turns: Vec<usize> = list.iter_mut().map(|f| turns(*f, inputs)).collect();
    let mut times = vec![Vec::new(); N];
    for _ in 0..BATCHES {
        for (i, f) in list.iter_mut().enumerate() {
            times[i].push(batch(*f, turns[i], inputs) / turns[i] as f64);
        }
    }
    std::array::from_fn(|i| {
        times[i].sort_by(f64::total_cmp);
        times[i][BATCHES / 2]
    })
}

/// How many turns a batch has: a multiple of the inputs.
fn turns(f: &mut dyn FnMut(usize), inputs: usize) -> usize {
    let mut n = inputs;
    loop {
        let took = batch(f, n, inputs);
        if took > BATCH / 4.0 {
            return ((n as f64 * BATCH / took) as usize / inputs).max(1) * inputs;
        }
        n *= 2;
    }
}

fn batch(f: &mut dyn FnMut(usize), n: usize, inputs: usize) -> f64 {
    let start = nanoseconds();
    let mut i = 0;
    for _ in 0..n {
        f(i);
        i += 1;
        if i == inputs {
            i = 0;
        }
    }
    nanoseconds() - start
}
