//! CPU time of this thread, so that other work on the machine counts as little as it can.

#[repr(C)]
struct Time {
    seconds: i64,
    nanoseconds: i64,
}

extern "C" {
    fn clock_gettime(clock: i32, time: *mut Time) -> i32;
}

/// Nanoseconds of CPU time that this thread has had: Linux's CLOCK_THREAD_CPUTIME_ID.
fn now() -> f64 {
    let mut time = Time { seconds: 0, nanoseconds: 0 };
    assert_eq!(unsafe { clock_gettime(3, &mut time) }, 0, "the clock of this thread");
    time.seconds as f64 * 1e9 + time.nanoseconds as f64
}

/// The best time of one call of each of the tasks, over so many rounds. In a round each task is called until about a millisecond is
/// full, one task after the other, so that a slow spell of the machine falls on all of them.
pub fn best(tasks: &mut [Box<dyn FnMut() + '_>], rounds: usize) -> Vec<f64> {
    let mut times = vec![f64::INFINITY; tasks.len()];
    let mut calls = vec![1u32; tasks.len()];
    for round in 0..=rounds {
        for (i, task) in tasks.iter_mut().enumerate() {
            let start = now();
            for _ in 0..calls[i] {
                task();
            }
            let each = (now() - start) / calls[i] as f64;
            if round == 0 {
                calls[i] = (1e6 / each).clamp(1.0, 10000.0) as u32;
            } else {
                times[i] = times[i].min(each);
            }
        }
    }
    times
}
