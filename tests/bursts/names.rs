//! Names that branches claim, for tests/bursts.py: in this process (--shared), or each a file. A claim looks and stores at once, or not (--racy).
use pst_client::{serve, serve_branch, Json, System};
use std::sync::{atomic::AtomicI64, atomic::Ordering::SeqCst, Mutex};
use std::{collections::HashSet, env, fs, path::PathBuf, process};

static CALLS: AtomicI64 = AtomicI64::new(0);

fn is_racy() -> bool {
    env::args().any(|word| word == "--racy")
}

trait Claims {
    fn claimed(&self, name: &str) -> bool;
    fn claim(&self, name: &str) -> bool;

    fn answer(&self, name: &str, arguments: &[Json]) -> Json {
        match (name, arguments) {
            ("claim", [Json::Text(name)]) => Json::Bool(self.claim(name)),
            ("claimed", [Json::Text(name)]) => Json::Bool(self.claimed(name)),
            ("count", []) => Json::Int(CALLS.fetch_add(1, SeqCst) + 1),
            ("text", [Json::Int(size)]) => Json::Text("x".repeat(*size as usize)),
            ("end", []) => process::exit(3),
            _ => panic!("as asked"),
        }
    }
}

/// Names in memory. The racy form looks under one lock, and stores under another.
struct Names {
    names: Mutex<HashSet<String>>,
    is_racy: bool,
}

impl Claims for Names {
    fn claimed(&self, name: &str) -> bool {
        self.names.lock().unwrap().contains(name)
    }

    fn claim(&self, name: &str) -> bool {
        if self.is_racy && self.claimed(name) {
            return false;
        }
        let is_new = self.names.lock().unwrap().insert(name.into());
        is_new || self.is_racy
    }
}

impl System for Names {
    fn call(&self, name: &str, arguments: &[Json]) -> Json {
        self.answer(name, arguments)
    }
}

/// The folder of the names, each of which is a file. The racy form looks by one call of the system, and makes it by another.
struct Files(PathBuf);

impl Claims for Files {
    fn claimed(&self, name: &str) -> bool {
        self.0.join(name).exists()
    }

    fn claim(&self, name: &str) -> bool {
        if is_racy() && self.claimed(name) {
            return false;
        }
        fs::File::options().write(true).create(true).create_new(!is_racy()).open(self.0.join(name)).is_ok()
    }
}

impl Files {
    fn call(&self, name: &str, arguments: &[Json]) -> Result<Json, &'static str> {
        match name {
            "reset" => Ok(Json::Bool(self.reset())),
            "unknown" => Err("as asked"),
            _ => Ok(self.answer(name, arguments)),
        }
    }

    fn reset(&self) -> bool {
        if env::var("PST_BRANCH").unwrap() == "1" {
            drop(fs::remove_dir_all(&self.0));
            fs::create_dir(&self.0).unwrap();
        }
        true
    }
}

fn main() {
    std::panic::set_hook(Box::new(|_| {}));
    if env::var("PST_PIPES").is_ok() {
        serve(|| Names { names: Mutex::default(), is_racy: is_racy() });
    } else {
        let files = Files(env::temp_dir().join(format!("names-{}", env::var("PST_WORKER").unwrap())));
        serve_branch(|name, arguments| files.call(name, arguments)).unwrap();
    }
}
