//! What the program `bench_profile` does to a well-formed pprof profile on standard input, in plain Rust: each sample's frames are made,
//! as numbers of names.

mod hashing;
mod names;
mod profiles;

use std::io::Read;

fn main() -> std::io::Result<()> {
    let mut bytes = Vec::new();
    std::io::stdin().lock().read_to_end(&mut bytes)?;
    let profile = profiles::Profile::read(&bytes, &mut names::Names::new());
    let mut frames = Vec::new();
    let (mut samples, mut weight) = (0u64, 0u64);
    profile.each_sample(|sample| {
        frames.clear();
        profile.cut(&sample.locations, &mut frames);
        std::hint::black_box(&frames);
        samples += 1;
        weight += sample.weight;
    });
    println!("{samples} samples, weight {weight}");
    Ok(())
}
