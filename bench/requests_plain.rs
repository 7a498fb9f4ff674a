// A Vec of requests in flight that is searched by number, as crates/md_inflight was at first. Requests are entered and
// removed, in the order of entry and in reverse, and the Vec lives through all rounds. It prints what is left and a sum that tells the order, and the times to
// standard error, as bench/parts does.
use std::collections::VecDeque;
use std::hint::black_box;
use std::time::Instant;

struct Request {
    start: u64,
    sectors: u64,
}

struct Inflight {
    entries: Vec<(u64, Request)>,
    next: u64,
}

impl Inflight {
    fn push_back(&mut self, request: Request) -> u64 {
        let number = self.next;
        self.entries.push((number, request));
        self.next += 1;
        number
    }

    fn remove(&mut self, number: u64) -> Request {
        let place = self.entries.iter().position(|entry| entry.0 == number).unwrap();
        self.entries.remove(place).1
    }
}

fn main() {
    let words: Vec<u64> = std::env::args().skip(1).map(|word| word.parse().unwrap()).collect();
    let [count, rounds] = words[..] else { panic!("requests_plain COUNT ROUNDS") };

    let mut list = Inflight { entries: Vec::new(), next: 0 };
    let mut tickets = VecDeque::new();

    let start = Instant::now();
    let mut in_order = 0u64;
    for _ in 0..rounds {
        enter(&mut list, &mut tickets, count);
        while let Some(number) = tickets.pop_front() {
            in_order = sum_with(in_order, list.remove(black_box(number)));
        }
    }
    let order_time = start.elapsed();

    let start = Instant::now();
    let mut in_reverse = 0u64;
    for _ in 0..rounds {
        enter(&mut list, &mut tickets, count);
        while let Some(number) = tickets.pop_back() {
            in_reverse = sum_with(in_reverse, list.remove(black_box(number)));
        }
    }
    let reverse_time = start.elapsed();

    let left = list.entries.len();
    println!("requests {count}, left {left}, in order {in_order}, in reverse {in_reverse}");
    eprintln!("in_order {} in_reverse {}", order_time.as_nanos(), reverse_time.as_nanos());
}

fn enter(list: &mut Inflight, tickets: &mut VecDeque<u64>, count: u64) {
    for k in 0..count {
        tickets.push_back(list.push_back(Request { start: k.wrapping_mul(2_654_435_761), sectors: 1 + k % 64 }));
    }
}

fn sum_with(sum: u64, request: Request) -> u64 {
    sum.wrapping_mul(31).wrapping_add(request.start ^ request.sectors)
}
