//! Bursts: a case that is driven many times without a line between the calls. docs/clients.md has the rules.
use crate::Json;
use std::sync::atomic::{AtomicU64, Ordering::SeqCst};
use std::{collections::HashMap, env, fs::File, os::unix::io::AsRawFd, ptr, slice, thread, time::Duration, time::Instant};

/// The step of a branch that has ended its burst.
const ENDED: u64 = u32::MAX as u64;

/// The burst of a branch ends before the drive that it is in.
struct BurstEnds;

type Drive<T> = Result<T, BurstEnds>;

#[derive(Default)]
#[repr(C, align(64))]
pub struct Word(AtomicU64);

/// The words by which the branches of a worker wait for each other.
#[derive(Clone, Copy)]
pub struct Gate<'a>(pub &'a [Word]);

extern "C" {
    fn mmap(address: *mut Word, size: usize, rights: i32, flags: i32, file: i32, offset: i64) -> *mut Word;
    fn sched_getaffinity(thread: i32, size: usize, processors: *mut u64) -> i32;
    fn sched_setaffinity(thread: i32, size: usize, processors: *const u64) -> i32;
}

impl Gate<'_> {
    /// Returns the words of the file that `PST_GATE` names, if it can be mapped.
    pub fn of_file(branches: usize) -> Option<Gate<'static>> {
        let file = File::options().read(true).write(true).open(env::var_os("PST_GATE")?).ok()?;
        file.metadata().ok().filter(|it| it.len() >= 4096)?;
        // SAFETY: the first 4,096 bytes of the file are mapped to be read, written and shared (3 and 1), and stay so. All bytes are valid words.
        let words = unsafe { mmap(ptr::null_mut(), 4096, 3, 1, file.as_raw_fd(), 0) };
        if words as isize == -1 {
            return None;
        }
        // SAFETY: as above. All processes access the words by atomics.
        unsafe { slice::from_raw_parts(words, 64) }.get(1..=branches).map(Gate)
    }

    fn set(&self, branch: usize, burst: u64, step: u64) {
        self.0[branch - 1].0.store((burst << 32) + step, SeqCst);
    }

    /// Waits until the branches from one to another have come to a step. Fails if one has ended the burst, or after two seconds.
    fn wait(&self, first: usize, last: usize, burst: u64, step: u64) -> Drive<()> {
        let begun = Instant::now();
        for Word(word) in &self.0[first - 1..last] {
            while word.load(SeqCst) < (burst << 32) + step {
                match begun.elapsed() {
                    waited if waited > Duration::from_secs(2) => return Err(BurstEnds),
                    waited if waited > Duration::from_millis(1) => thread::sleep(Duration::from_micros(50)),
                    waited if waited > Duration::from_micros(10) => thread::yield_now(), // the other one may wait for this processor
                    _ => {}
                }
            }
            if word.load(SeqCst) >= (burst << 32) + ENDED {
                return Err(BurstEnds);
            }
        }
        Ok(())
    }

    /// Moves this thread to another processor than those of the other branches. It may move again, but a busy system would leave all on one.
    fn part(&self, branch: usize) {
        let (mut allowed, mut one) = ([0u64; 16], [0u64; 16]);
        // SAFETY: both sets have 128 bytes.
        let is_known = unsafe { sched_getaffinity(0, 128, allowed.as_mut_ptr()) } >= 0;
        let processors: Vec<usize> = (0..1024).filter(|at| is_known && allowed[at / 64] >> (at % 64) & 1 == 1).collect();
        let worker: usize = env::var("PST_WORKER").ok().and_then(|it| it.parse().ok()).unwrap_or(0);
        if let Some(at) = (worker * self.0.len() + branch).checked_rem(processors.len()) {
            one[processors[at] / 64] = 1 << (processors[at] % 64);
            // SAFETY: as above.
            unsafe { sched_setaffinity(0, 128, one.as_ptr()) };
            unsafe { sched_setaffinity(0, 128, allowed.as_ptr()) };
        }
    }
}

fn has_failed(answer: &str) -> bool {
    answer.starts_with("failed")
}

fn is_outcome(answer: &str) -> bool {
    !has_failed(answer) && !answer.starts_with("unknown")
}

/// A branch, which answers its lines. `make` makes a call, and returns the line that answers it. Without a gate there are no bursts.
pub struct Branch<'a, F: Fn(&[Json]) -> String> {
    pub number: usize,
    pub gate: Option<Gate<'a>>,
    pub make: F,
}

impl<F: Fn(&[Json]) -> String> Branch<'_, F> {
    /// Returns the line that answers a line.
    pub fn answer(&self, words: &[Json]) -> String {
        match words {
            [Json::Text(name), Json::Int(burst), Json::Int(drives), Json::List(prefix), Json::List(branch), Json::List(suffix)]
                if name == "burst" =>
            {
                let is_possible = (1..=ENDED as i64).contains(burst) && (1..=1000).contains(drives);
                let make = |gate| self.burst(gate, *burst as u64, *drives as u64, [prefix, branch, suffix]);
                self.gate.filter(|_| is_possible).map_or_else(|| "failed: this burst cannot be made".into(), make)
            }
            [Json::Text(name), ..] if name == "reset" && self.gate.is_some() => {
                Some((self.make)(words)).filter(|answer| !is_outcome(answer)).unwrap_or_else(|| "burst".into())
            }
            _ => (self.make)(words),
        }
    }

    /// Makes the drives of a burst, and returns the line with the number of each one's answers, and each list of answers once.
    fn burst(&self, gate: Gate, burst: u64, drives: u64, parts: [&[Json]; 3]) -> String {
        let (mut numbers, mut places, mut lists) = (HashMap::new(), vec![], String::new());
        let limit = env::var("PST_BURST_MILLISECONDS").ok().and_then(|it| it.parse().ok()).map(Duration::from_millis);
        let began = Instant::now();
        gate.set(self.number, burst, 0);
        for at in 0..drives {
            if at % 16 == 0 {
                gate.part(self.number);
            }
            let list = self.drive(gate, burst, 3 * at, parts).map(|answers| {
                let texts: Vec<_> =
                    answers.into_iter().map(|answer| answer.map_or("null".into(), |it| format!("{:?}", Json::Text(it)))).collect();
                format!(",[{}]", texts.join(","))
            });
            let is_room = |list: &String| 10 + 5 * places.len() + lists.len() + list.len() <= 1_000_000;
            let list = match list {
                Ok(list) if is_room(&list) => list,
                _ => {
                    gate.set(self.number, burst, ENDED);
                    break;
                }
            };
            let next = numbers.len();
            let number = *numbers.entry(list.clone()).or_insert(next);
            if number == next {
                lists += &list;
            }
            places.push(number.to_string());
            if self.number == 1 && limit.is_some_and(|it| began.elapsed() > it) {
                gate.set(self.number, burst, ENDED);
                break;
            }
        }
        format!("[[{}]{lists}]", places.join(","))
    }

    /// Makes calls up to one that has no outcome, and returns an answer for each, `None` if it was not made.
    fn make_all(&self, calls: &[Json]) -> Vec<Option<String>> {
        let mut goes_on = true;
        let make = |call: &Json| {
            let answer = goes_on.then(|| if let Json::List(words) = call { (self.make)(words) } else { "failed: no call".into() });
            goes_on = answer.as_deref().map_or(false, is_outcome);
            answer
        };
        calls.iter().map(make).collect()
    }

    /// Makes a drive: a reset after that of the branch before, the prefix, the branch at the same time as the others, the suffix.
    fn drive(&self, gate: Gate, burst: u64, step: u64, [prefix, branch, suffix]: [&[Json]; 3]) -> Drive<Vec<Option<String>>> {
        let last = gate.0.len();
        let wait_if_first = |step| if self.number == 1 { gate.wait(1, last, burst, step) } else { Ok(()) };
        wait_if_first(step)?;
        if self.number > 1 {
            gate.wait(self.number - 1, self.number - 1, burst, step + 1)?;
        }
        if !is_outcome(&(self.make)(&[Json::Text("reset".into())])) {
            return Err(BurstEnds);
        }
        gate.set(self.number, burst, step + 1);
        wait_if_first(step + 1)?;
        let mut answers = self.make_all(prefix);
        if !answers.iter().all(|answer| answer.as_deref().map_or(false, is_outcome)) {
            return Err(BurstEnds);
        }
        gate.set(self.number, burst, step + 2);
        gate.wait(1, last, burst, step + 2)?;
        let own = self.make_all(branch);
        gate.set(self.number, burst, step + 3);
        wait_if_first(step + 3)?;
        let is_over = own.iter().flatten().any(|answer| has_failed(answer));
        answers.extend(own);
        answers.extend(if is_over { vec![None; suffix.len()] } else { self.make_all(suffix) });
        Ok(answers)
    }
}
