//! The clocks: CPU time of this thread, which is what is measured, and beside it what tells how busy
//! the machine was meanwhile.

use std::ffi::{c_int, c_long};
use std::fs;
use std::time::Instant;

/// Above these the machine counts as busy: wall time as a multiple of this thread's CPU time, and the
/// part of all cores that others took.
const WALL: f64 = 1.05;
const OTHERS: f64 = 0.10;

const CLOCK_THREAD_CPUTIME_ID: c_int = 3;

/// As Linux has it on 64-bit machines.
#[repr(C)]
struct Timespec {
    seconds: i64,
    nanoseconds: c_long,
}

extern "C" {
    fn clock_gettime(clock: c_int, time: *mut Timespec) -> c_int;
}

/// The CPU time that this thread has had, in seconds: what it waits for others is not in it.
pub fn cpu() -> f64 {
    let mut time = Timespec {
        seconds: 0,
        nanoseconds: 0,
    };
    // SAFETY: the one thing written is a timespec, and `time` is one, borrowed for this call alone
    let failed = unsafe { clock_gettime(CLOCK_THREAD_CPUTIME_ID, &mut time) };
    assert_eq!(failed, 0, "this system has no clock for a thread");
    time.seconds as f64 + time.nanoseconds as f64 * 1e-9
}

/// Watches how busy the machine is while this thread measures.
pub struct Watch {
    wall: Instant,
    cpu: f64,
    ticks: Option<Ticks>,
}

impl Watch {
    pub fn start() -> Watch {
        Watch {
            wall: Instant::now(),
            cpu: cpu(),
            ticks: Ticks::now(),
        }
    }

    /// One line: whether the machine was busy since the start, and what follows for the times.
    pub fn line(&self) -> String {
        let cpu = cpu() - self.cpu;
        let wall = self.wall.elapsed().as_secs_f64();
        let mut busy = wall > cpu * WALL;
        let mut said = format!("waited for a core for {:.1} of {wall:.1} s", wall - cpu);
        if let Some((then, now)) = self.ticks.zip(Ticks::now()) {
            let others = (now.busy_cores_since(then) - cpu / wall).max(0.0);
            busy |= others > OTHERS * now.cores as f64;
            said += &format!(", others took {others:.2} of {} cores", now.cores);
        }
        if !busy {
            return format!("quiet machine: {said}");
        }
        format!(
            "BUSY MACHINE: {said}. No wait is in the figures, but caches and clock rate were shared: \
             times are too long and ratios less sure, so measure again when it is quiet"
        )
    }
}

/// What all cores together have done since the machine started, in the kernel's ticks.
#[derive(Clone, Copy)]
struct Ticks {
    busy: f64,
    all: f64,
    cores: usize,
}

impl Ticks {
    /// The first line of /proc/stat: user, nice, system, idle, iowait, irq, softirq, steal. What a
    /// virtual machine's host took for itself, steal, was not idle either.
    fn now() -> Option<Ticks> {
        let stat = fs::read_to_string("/proc/stat").ok()?;
        let mut lines = stat.lines();
        let numbers = lines.next()?.split_whitespace().skip(1).take(8);
        let numbers: Vec<f64> = numbers.map(str::parse).collect::<Result<_, _>>().ok()?;
        let all: f64 = numbers.iter().sum();
        let idle = numbers.get(3)? + numbers.get(4)?;
        Some(Ticks {
            busy: all - idle,
            all,
            cores: lines.take_while(|line| line.starts_with("cpu")).count(),
        })
    }

    fn busy_cores_since(self, then: Ticks) -> f64 {
        let all = (self.all - then.all).max(1.0);
        (self.busy - then.busy) / all * self.cores as f64
    }
}
