// The fork of examples/fork.fb as one would write it by hand: no tables, no certificate, no answers.
use std::collections::VecDeque;
use std::hint::black_box;

#[derive(Clone, Copy)]
enum Event {
    Arrive,
    Split,
    First,
    Second,
}

#[derive(Clone, Copy, PartialEq)]
enum State {
    Start,
    Done,
}

// One crossing with the event and one without.
fn cell(state: &mut State) -> u64 {
    let mut steps = 1;
    if *state == State::Start {
        *state = State::Done;
        steps += 1;
    }
    if *state == State::Done {
        *state = State::Start;
        steps += 1;
    }
    steps
}

fn main() {
    let rounds: u64 = std::env::args().nth(1).and_then(|word| word.parse().ok()).unwrap_or(250_000);
    let mut queue = VecDeque::with_capacity(3);
    let mut states = [State::Start; 3];
    let mut total = 0;
    for _ in 0..rounds {
        queue.push_back(Event::Arrive);
        while let Some(event) = queue.pop_front() {
            total += match black_box(event) {
                Event::Arrive => {
                    queue.push_back(Event::Split);
                    1
                }
                Event::Split => {
                    queue.push_back(Event::First);
                    queue.push_back(Event::Second);
                    cell(&mut states[0])
                }
                Event::First => cell(&mut states[1]),
                Event::Second => cell(&mut states[2]),
            };
        }
    }
    println!("{total}");
}
