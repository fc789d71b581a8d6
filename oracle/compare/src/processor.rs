//! The processor time of this thread, so that other programs on the machine do not
//! count as time of a call.
use std::{sync::OnceLock, time::Duration};

extern "C" {
    fn clock_gettime(clock: i32, time: &mut [i64; 2]) -> i32;
}

/// Linux' number of the clock of a thread.
const THREAD: i32 = 3;

fn now() -> Duration {
    let mut time = [0; 2];
    let status = unsafe { clock_gettime(THREAD, &mut time) };
    assert!(status == 0, "no processor time");
    Duration::new(time[0] as u64, time[1] as u32)
}

/// What asking for the time itself takes, at the least.
fn asking() -> Duration {
    static ASKING: OnceLock<Duration> = OnceLock::new();
    *ASKING.get_or_init(|| {
        let times: Vec<Duration> = (0..1000).map(|_| now()).collect();
        let steps = times.windows(2).map(|two| two[1] - two[0]);
        steps.min().unwrap_or_default()
    })
}

/// The time since a start, without what asking takes.
pub struct Start(Duration);

impl Start {
    pub fn now() -> Self {
        asking();
        Self(now())
    }
    pub fn elapsed(&self) -> Duration {
        (now() - self.0).saturating_sub(asking())
    }
}
