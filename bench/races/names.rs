//! A server of names: a claim looks under a lock, and stores under the same lock taken again. The window has some 50 nanoseconds.
//! rustc -O -o names_rs names.rs
use std::collections::HashSet;
use std::io::{BufRead, BufReader, Result, Write};
use std::net::{TcpListener, TcpStream};
use std::{env, sync::Arc, sync::Mutex, thread};

#[derive(Default)]
struct Names(Mutex<HashSet<String>>);

impl Names {
    fn has(&self, name: &str) -> bool {
        self.0.lock().unwrap().contains(name)
    }

    fn claim(&self, name: &str) -> bool {
        let is_free = !self.has(name);
        if is_free {
            self.0.lock().unwrap().insert(name.to_string());
        }
        is_free
    }

    fn clear(&self) -> bool {
        self.0.lock().unwrap().clear();
        true
    }
}

fn serve(mut client: TcpStream, objects: Arc<Vec<Names>>) -> Result<()> {
    client.set_nodelay(true)?;
    for line in BufReader::new(client.try_clone()?).lines() {
        let line = line?;
        let words: Vec<&str> = line.split(' ').collect();
        let names = &objects[words[0].parse::<usize>().unwrap()];
        let answer = match words[1] {
            "claim" => names.claim(words[2]),
            "claimed" => names.has(words[2]),
            _ => names.clear(),
        };
        client.write_all(if answer { b"true\n" } else { b"false\n" })?;
    }
    Ok(())
}

fn main() {
    let port: u16 = env::args().nth(1).unwrap().parse().unwrap();
    let objects: Arc<Vec<Names>> = Arc::new((0..64).map(|_| Names::default()).collect());
    for client in TcpListener::bind(("127.0.0.1", port)).unwrap().incoming() {
        let (client, objects) = (client.unwrap(), objects.clone());
        thread::spawn(move || serve(client, objects));
    }
}
