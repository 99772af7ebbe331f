// The same turns under std's Mutex: THREADS TURNS prints how many turns were finished.
use std::sync::Mutex;

struct Numbers {
    entries: Vec<(u32, u64)>,
}

impl Numbers {
    fn apply(&mut self, number: u32, change: u64) -> u64 {
        let before = self.entries.len() as u64;
        self.entries.push((number, change));
        before
    }
}

fn main() {
    let words: Vec<u64> = std::env::args().skip(1).map(|w| w.parse().unwrap()).collect();
    let (threads, turns) = (words[0] as u32, words[1]);
    let desk = Mutex::new(Numbers { entries: Vec::new() });
    std::thread::scope(|s| {
        for number in 0..threads {
            let desk = &desk;
            s.spawn(move || {
                for k in 0..turns {
                    std::hint::black_box(desk.lock().unwrap().apply(number, k));
                }
            });
        }
    });
    println!("{}", desk.into_inner().unwrap().entries.len());
}
