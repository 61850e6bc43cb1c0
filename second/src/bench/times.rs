//! How long two calls take, and what is said of it.

use std::fmt::{Display, Formatter};
use std::hint::black_box;
use std::time::{Duration, Instant};

/// How long the proved call takes, and the plain one.
pub struct Times {
    pub proved: Duration,
    pub plain: Duration,
}

impl Times {
    /// The fastest of so many runs of each counts: what else the machine does only adds. They
    /// take turns, so that both meet the same machine; a run says how long it took.
    pub fn fastest(
        runs: usize,
        mut proved: impl FnMut() -> Duration,
        mut plain: impl FnMut() -> Duration,
    ) -> Times {
        let mut times = Times {
            proved: Duration::MAX,
            plain: Duration::MAX,
        };
        for _ in 0..runs {
            times.proved = times.proved.min(proved());
            times.plain = times.plain.min(plain());
        }
        times
    }

    pub fn ratio(&self) -> f64 {
        over(self.proved, self.plain)
    }
}

/// As columns: both in milliseconds, and the ratio.
impl Display for Times {
    fn fmt(&self, f: &mut Formatter<'_>) -> std::fmt::Result {
        let milliseconds = |duration: Duration| 1_000.0 * duration.as_secs_f64();
        let (proved, plain) = (milliseconds(self.proved), milliseconds(self.plain));
        write!(f, "{proved:10.3} {plain:10.3} {:6.2}", self.ratio())
    }
}

pub fn time<T>(call: impl FnOnce() -> T) -> Duration {
    let began = Instant::now();
    black_box(call());
    began.elapsed()
}

pub fn over(a: Duration, b: Duration) -> f64 {
    a.as_secs_f64() / b.as_secs_f64()
}

/// A bar, whether it is met, and the highest of what is measured.
pub fn bar_line(bar: f64, measured: impl Iterator<Item = f64>, what: &str) -> String {
    let highest = measured.fold(0.0, f64::max);
    let met = match highest <= bar {
        true => "met",
        false => "NOT met",
    };
    format!("bar of {bar}: {met}, the highest {what} is {highest:.2}\n")
}
