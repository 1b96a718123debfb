//! Time and stack of the proved engine beside an engine written for speed, in the same run. Nothing here fails by a figure.

mod copies;
mod scenes;
mod stack;
mod timing;

use scenes::Scene;
use timing::{Engine, Fast, Proved, Stage};

/// Nanoseconds a request, and how many times the fast engine's the proved engine's are.
fn print_times(what: &str, scenes: &[Scene]) {
    println!("| rows | {what:<29} | proved ns |   fast ns |  ratio |");
    println!("|------|-------------------------------|----------:|----------:|-------:|");
    for (scene, (proved, fast)) in scenes.iter().zip(timing::compare(scenes)) {
        let (rows, title, ratio) = (scene.rows, &scene.title, proved / fast);
        println!("| {rows:<4} | {title:<29} | {proved:>9.0} | {fast:>9.0} | {ratio:>6.2} |");
    }
    println!();
}

/// The deepest stack use of a call among the scenes of one call, and whose it is.
fn deepest<E: Engine>(scenes: &[Scene]) -> String {
    let depth = |scene: &Scene| {
        let mut stage = Stage::<E>::new(scene);
        stack::deepest(|| stage.play())
    };
    let single = scenes.iter().filter(|scene| scene.calls.len() == 1);
    let deepest = single.map(|scene| (depth(scene), scene)).max_by_key(|&(depth, _)| depth);
    deepest.map_or_else(String::new, |(depth, scene)| format!("{depth} bytes ({}, rows {})", scene.title, scene.rows))
}

/// Calls of memcpy or memmove and of memset that a request makes on full tables, and their bytes.
fn print_copies() {
    println!("| request | copies |  bytes | sets |  bytes |");
    println!("|---------|-------:|-------:|-----:|-------:|");
    for scene in &scenes::accepted() {
        let mut stage = Stage::<Proved>::new(scene);
        let [copied, set] = copies::count(|| stage.play());
        println!("| {:<7} | {:>6} | {:>6} | {:>4} | {:>6} |", scene.title, copied.0, copied.1, set.0, set.1);
    }
}

fn main() {
    if std::env::args().nth(1).is_some_and(|word| word == "copies") {
        return print_copies();
    }
    println!("nanoseconds a request, of the quickest of many rounds, the two engines in turn");
    println!("rows 1: one slot row and one register row, filled as the request needs them");
    println!("rows half: 8 slot rows and 32 register rows, 4 and 16 of them filled");
    println!("rows full: 8 slot rows and 32 register rows, all filled");
    println!("  registers are under each slot in turn; in blocks: four under a slot, then four under the next\n");
    let scenes = scenes::all();
    print_times("request", &scenes);
    print_times("refused at question", &scenes::refused());
    println!("deepest stack of a call, the supplement by value included");
    println!("  proved {}", deepest::<Proved>(&scenes));
    println!("  fast   {}", deepest::<Fast>(&scenes));
}
