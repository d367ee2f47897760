// The best time of a load by the yardstick, in microseconds: the model's blocks stand on standard input. bench/load makes a package of it
// in a temporary folder, with the yardstick as a dependency.
use std::hint::black_box;
use std::io::Read;
use std::time::Instant;

fn main() {
    let mut blocks = Vec::new();
    std::io::stdin().read_to_end(&mut blocks).expect("a model");
    let mut best = f64::MAX;
    for _ in 0..20_000 {
        let start = Instant::now();
        let loaded = black_box(yardstick::common::load(black_box(&blocks)));
        best = best.min(start.elapsed().as_secs_f64() * 1e6);
        assert!(loaded.is_ok(), "the yardstick refuses the model");
    }
    println!("{best:.2}");
}
