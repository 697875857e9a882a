//! A client of examples/counter.model in one process (--shared): an atomic number, or one that is read and then written (--racy).
use pst_client::{serve, Json, System};
use std::sync::atomic::{AtomicI64, Ordering::SeqCst};
use std::{env, thread, time::Duration};

#[derive(Default)]
struct Counter {
    number: AtomicI64,
    is_racy: bool,
}

impl Counter {
    fn racy() -> Counter {
        Counter { is_racy: true, ..Counter::default() }
    }

    fn inc(&self) -> i64 {
        if !self.is_racy {
            return self.number.fetch_add(1, SeqCst) + 1;
        }
        let next = self.number.load(SeqCst) + 1;
        thread::sleep(Duration::from_millis(1));
        self.number.store(next, SeqCst);
        next
    }
}

impl System for Counter {
    fn call(&self, name: &str, _: &[Json]) -> Json {
        match name {
            "inc" => Json::Int(self.inc()),
            "get" => Json::Int(self.number.load(SeqCst)),
            _ => panic!("no operation {name}"),
        }
    }
}

fn main() {
    serve(if env::args().any(|word| word == "--racy") { Counter::racy } else { Counter::default });
}

#[cfg(test)]
mod tests {
    use super::Counter;
    const MODEL: &str = concat!(env!("CARGO_MANIFEST_DIR"), "/../../counter.model");

    #[test]
    fn atomic() {
        pst_client::check(MODEL, Counter::default, &[("trials", "40")]);
    }

    /// This test fails, with the race as its message.
    #[test]
    fn racy() {
        pst_client::check(MODEL, Counter::racy, &[("trials", "20"), ("limit", "200"), ("max_failures", "1")]);
    }
}
