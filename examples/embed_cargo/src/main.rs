//! Raises the first 1000 of 1024 words by one: the kernel of ../raise_words, checked once, and run on this program's words.
use rvvbox::{Argument, Kernel};
use std::io::Write;

fn main() -> Result<(), Box<dyn std::error::Error>> {
    let image = std::fs::read("../raise_words/raise_words.elf")?;
    let mut words = std::fs::read("../raise_words/a.bin")?;
    let mut kernel = Kernel::new(&image, 128)?;
    let steps = kernel.run(&mut [Argument::Buffer(&mut words), Argument::Scalar(1000)], 10_000)?;
    eprintln!("{steps} steps");
    Ok(std::io::stdout().write_all(&words)?)
}
