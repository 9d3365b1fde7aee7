//! What is timed, and how.

unsafe extern "C" {
    safe fn clock_gettime(clock: i32, time: &mut [i64; 2]) -> i32;
}

/// Nanoseconds that this thread has run: other programs on the machine do not count.
fn cpu_time() -> f64 {
    let mut time = [0; 2];
    clock_gettime(3, &mut time);
    time[0] as f64 * 1e9 + time[1] as f64
}

/// Nanoseconds of one part. It has a name of its own in the program: callgrind counts only what is called from here.
#[unsafe(no_mangle)]
#[inline(never)]
pub extern "Rust" fn timed_part(part: &mut dyn FnMut()) -> f64 {
    let start = cpu_time();
    part();
    cpu_time() - start
}

/// Nanoseconds for each of `count` calls.
pub fn time(count: u32, mut f: impl FnMut(u32)) -> f64 {
    let all = timed_part(&mut || {
        for i in 0..count {
            f(i);
        }
    });
    all / count as f64
}

/// Nanoseconds for each of `count` calls, `size` of them in a row; before each row `prepare`, which is not timed.
pub fn time_in_rows<S>(
    state: &mut S,
    count: u32,
    size: u32,
    mut prepare: impl FnMut(&mut S),
    mut f: impl FnMut(&mut S, u32),
) -> f64 {
    let rows = count.div_ceil(size);
    let mut all = 0.0;
    for _ in 0..rows {
        prepare(state);
        all += timed_part(&mut || {
            for i in 0..size {
                f(state, i);
            }
        });
    }
    all / (rows * size) as f64
}
