//! Times the search of `pst` written by hand: a counter, four branches of four reads, the last of which answers what no state has. Each position, how
//! many commands of each branch are done and the state, is looked at once. Prints the steps of one search and nanoseconds a step.
use std::collections::HashSet;
use std::time::Instant;

type Position = ([u8; 4], i64);

/// The steps that a search makes from a position, and whether an order of the branches makes all replies right.
fn search(replies: &[[i64; 4]; 4], position: Position, seen: &mut HashSet<Position>, steps: &mut u64) -> bool {
    let (done, state) = position;
    if done == [4; 4] {
        return true;
    }
    for branch in 0..4 {
        let index = done[branch] as usize;
        if index == 4 {
            continue;
        }
        *steps += 1;
        if replies[branch][index] != state {
            continue;
        }
        let mut next = done;
        next[branch] += 1;
        if seen.insert((next, state)) && search(replies, (next, state), seen, steps) {
            return true;
        }
    }
    false
}

fn main() {
    let mut replies = [[0; 4]; 4];
    replies[3][3] = 1;
    let replies = std::hint::black_box(replies);
    let searches = 1_000;
    let (mut steps, mut explained) = (0, 0);
    let begin = Instant::now();
    for _ in 0..searches {
        explained += u64::from(search(&replies, ([0; 4], 0), &mut HashSet::new(), &mut steps));
    }
    let nanoseconds = begin.elapsed().as_nanos() as f64;
    println!("{} {:.0}", steps / searches + explained, nanoseconds / steps as f64);
}
