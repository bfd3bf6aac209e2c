// A loop over a UDP socket as one would write it by hand for the one device that bench/serving.py measures: a button that is offered by datagrams, and a lamp that writes.
// It makes the same calls of its socket as `fbr serve`: up to 16 receives a turn, and a wait of 5 ms at most after a turn in which nothing happened.
//
//   serving PORT TURNS              takes turns, and prints what came
//   serving flood PORT SECONDS      sends the offer to a port, again and again
use std::collections::VecDeque;
use std::net::UdpSocket;
use std::time::{Duration, Instant};

const DEPTH: usize = 1;

// Magic, version, kind, number and count of an offer to the INPUT 1.
const OFFER: [u8; 7] = [0x46, 0x42, 1, 2, 0, 1, 0];

fn flood(port: u16, seconds: u64) {
    let socket = UdpSocket::bind(("127.0.0.1", 0)).expect("a socket");
    let start = Instant::now();
    while start.elapsed() < Duration::from_secs(seconds) {
        for _ in 0..1000 {
            let _ = socket.send_to(&OFFER, ("127.0.0.1", port));
        }
    }
}

fn main() {
    let words: Vec<String> = std::env::args().collect();
    if words[1] == "flood" {
        return flood(words[2].parse().expect("a port"), words[3].parse().expect("seconds"));
    }
    let port: u16 = words[1].parse().expect("a port");
    let turns: u32 = words[2].parse().expect("a number of turns");
    let socket = UdpSocket::bind(("127.0.0.1", port)).expect("the port is free");
    socket.set_nonblocking(true).expect("a socket that waits for nothing");
    socket.set_read_timeout(Some(Duration::from_millis(5))).expect("a time-out");
    let start = Instant::now();
    let mut queue: VecDeque<bool> = VecDeque::with_capacity(DEPTH);
    let (mut received, mut denied, mut ran, mut wrote) = (0u64, 0u64, 0u64, 0u64);
    let mut buffer = [0u8; 160];
    for _ in 0..turns {
        let _now = start.elapsed().as_millis();
        let before = received + ran;
        for _ in 0..16 {
            let Ok((count, _)) = socket.recv_from(&mut buffer) else {
                break;
            };
            received += 1;
            if buffer[..count] == OFFER && queue.is_empty() {
                queue.push_back(false);
            } else {
                denied += 1;
            }
        }
        if let Some(lamp) = queue.pop_front() {
            ran += 1;
            if lamp {
                wrote += 1;
                println!("write 1");
            } else {
                queue.push_back(true);
            }
        }
        if received + ran == before {
            socket.set_nonblocking(false).expect("a socket that waits");
            let _ = socket.peek_from(&mut [0u8; 1]);
            socket.set_nonblocking(true).expect("a socket that waits for nothing");
        }
    }
    println!("received {received} denied {denied} ran {ran} wrote {wrote}");
}
