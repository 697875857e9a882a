//! Tests an object that several threads use, or a system that several processes use.
//!
//! `check` is for `cargo test`, `serve` for `pst campaign --shared --client`, and `serve_branch` for `pst campaign --client`. All make bursts (docs/clients.md).
mod burst;
mod json;
use burst::{Branch, Gate};
pub use json::Json;
use std::{cell::RefCell, collections::BTreeMap, env, fmt::Display, fs, fs::File, io::*, panic, process, sync::RwLock, thread};

type Outcome<E> = std::result::Result<Json, E>;

/// An object. A new one is in the initial state of the model.
pub trait System: Send + Sync + 'static {
    /// Makes the call of an operation. Several threads do so at once.
    fn call(&self, name: &str, arguments: &[Json]) -> Json;
}

/// Answers the lines of a branch until they end. A call that panics failed, and one with an error has an unknown outcome.
fn answer_lines<E: Display>(
    number: usize,
    gate: Option<Gate>,
    calls: impl BufRead,
    mut answers: impl Write,
    call: impl Fn(&str, &[Json]) -> Outcome<E>,
) -> Result<()> {
    let make = |words: &[Json]| {
        let call = panic::AssertUnwindSafe(|| match words {
            [Json::Text(name), arguments @ ..] => call(name, arguments),
            _ => panic!("this is no call"),
        });
        let answer = |it| match it {
            Ok(value) => format!("{value:?}"),
            Err(error) => format!("unknown: {error}").replace('\n', " "),
        };
        panic::catch_unwind(call).map_or("failed: it panicked".into(), answer)
    };
    let branch = Branch { number, gate, make };
    for line in calls.lines() {
        let words = json::read_items(&mut line?[1..].chars().peekable(), json::read).unwrap_or_default();
        answers.write_all(format!("{}\n", branch.answer(&words)).as_bytes())?;
    }
    Ok(())
}

/// Answers the calls of all branches, each in a thread, until they end. Branch 1 makes a new system at each reset.
fn answer_branches<S: System>(pipes: &str, branches: usize, make_system: fn() -> S) {
    let system = &RwLock::new(make_system());
    let words: Vec<_> = (0..branches).map(|_| Default::default()).collect();
    let gate = Some(Gate(&words));
    let answer_branch = move |number| -> Result<()> {
        let calls = BufReader::new(File::open(format!("{pipes}-{number}.calls"))?);
        let answers = File::options().write(true).open(format!("{pipes}-{number}.answers"))?;
        answer_lines(number, gate, calls, answers, |name, arguments| {
            if name != "reset" {
                return Ok::<_, Error>(system.read().unwrap().call(name, arguments));
            }
            (number == 1).then(|| *system.write().unwrap() = make_system());
            Ok(Json::Bool(true))
        })
    };
    thread::scope(|threads| (1..=branches).for_each(|branch| drop(threads.spawn(move || answer_branch(branch)))));
}

/// Answers the calls of all branches on objects of this process.
pub fn serve<S: System>(make_system: fn() -> S) {
    let unset = "PST_PIPES is not set: run this client by pst campaign --client '..' --shared";
    let pipes = env::var("PST_PIPES").map_err(|_| eprintln!("{unset}")).unwrap_or_else(|_| process::exit(1));
    answer_branches(&pipes, number_of("PST_BRANCHES"), make_system);
}

/// Answers the calls of the branch of this process: `call` gets the name of the operation, or `reset`, and its arguments.
/// If it returns an error, nobody knows whether the call took effect, as after a timeout.
pub fn serve_branch<E: Display>(call: impl FnMut(&str, &[Json]) -> Outcome<E>) -> Result<()> {
    let call = RefCell::new(call);
    let gate = Gate::of_file(number_of("PST_BRANCHES"));
    answer_lines(number_of("PST_BRANCH"), gate, stdin().lock(), stdout(), |name, arguments| call.borrow_mut()(name, arguments))
}

fn number_of(name: &str) -> usize {
    env::var(name).ok().and_then(|it| it.parse().ok()).unwrap_or(0)
}

/// Runs a campaign on objects of this process, and panics with the smallest run that the model cannot explain, if any.
/// The options are those of `pst campaign`: `&[("max_failures", "1")]`. PST names the program, if it is not `pst` on PATH.
pub fn check<S: System>(model: &str, make_system: fn() -> S, options: &[(&str, &str)]) {
    let options = [("workers", "1"), ("branches", "2")].iter().chain(options);
    let options: BTreeMap<_, _> = options.map(|(name, value)| (name.replace('_', "-"), *value)).collect();
    let [workers, branches] = ["workers", "branches"].map(|name| options[name].parse().expect(name));
    let make = format!("cd $(mktemp -dt pst-XXXX) && printf %s $PWD && mkfifo {{1..{workers}}}-{{1..{branches}}}.{{calls,answers}}");
    let folder = String::from_utf8(process::Command::new("bash").args(["-c", &make]).output().unwrap().stdout).unwrap();
    for worker in 1..=workers {
        let pipes = format!("{folder}/{worker}");
        thread::spawn(move || answer_branches(&pipes, branches, make_system));
    }
    let mut campaign = process::Command::new(env::var("PST").unwrap_or("pst".into()));
    campaign.args(["campaign", &format!("shared:{folder}"), model]);
    let ran = campaign.args(options.iter().flat_map(|(name, value)| [format!("--{name}"), value.to_string()])).output();
    fs::remove_dir_all(folder).unwrap();
    let ran = ran.expect("no program pst: set PST or put it on PATH");
    assert!(ran.status.success(), "{}{}", String::from_utf8_lossy(&ran.stderr), String::from_utf8_lossy(&ran.stdout));
}
