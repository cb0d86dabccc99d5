//! Times taken in turns: one batch of each contender, then one of each again, and the median over the batches.

/// The processor time of this thread in nanoseconds, so that other work on the machine is not counted.
fn now() -> u64 {
    #[repr(C)]
    struct Time {
        seconds: i64,
        nanoseconds: i64,
    }
    extern "C" {
        fn clock_gettime(clock: i32, time: *mut Time) -> i32;
    }
    const OF_THREAD: i32 = 3;
    let mut time = Time { seconds: 0, nanoseconds: 0 };
    unsafe { clock_gettime(OF_THREAD, &mut time) };
    time.seconds as u64 * 1_000_000_000 + time.nanoseconds as u64
}

fn batch(calls: u64, contender: &mut dyn FnMut()) -> f64 {
    let start = now();
    for _ in 0..calls {
        contender();
    }
    (now() - start) as f64 / calls as f64
}

/// Nanoseconds for one call of each contender.
pub fn medians(contenders: &mut [&mut dyn FnMut()]) -> Vec<f64> {
    let once: Vec<f64> = contenders.iter_mut().map(|contender| batch(1, *contender)).collect();
    let longest = once.iter().fold(1.0f64, |longest, &time| longest.max(time));
    let batches = if longest > 3e8 { 3 } else if longest > 2e7 { 5 } else { 21 };
    let calls: Vec<u64> = once.iter().map(|&time| (1e6 / time.max(1.0)).clamp(1.0, 20_000.0) as u64).collect();
    let mut times = vec![Vec::new(); contenders.len()];
    for _ in 0..batches {
        for (i, contender) in contenders.iter_mut().enumerate() {
            times[i].push(batch(calls[i], *contender));
        }
    }
    times.into_iter().map(median).collect()
}

/// The least time of so many calls.
pub fn least(calls: usize, contender: &mut dyn FnMut()) -> f64 {
    (0..calls).map(|_| batch(1, contender)).fold(f64::MAX, f64::min)
}

fn median(mut times: Vec<f64>) -> f64 {
    times.sort_by(f64::total_cmp);
    times[times.len() / 2]
}

pub fn geometric_mean(ratios: &[f64]) -> f64 {
    (ratios.iter().map(|ratio| ratio.ln()).sum::<f64>() / ratios.len() as f64).exp()
}
