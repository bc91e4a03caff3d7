//! Writes what host/count-x86 quantises to a folder, a file for each side and kind, LOG2-KIND: lambda, QP, the 28
//! costs, each in eight bytes, then the blocks of residuals.

mod blocks;
mod recorder;

fn main() {
    let folder = std::env::args().nth(1).expect("the folder to write to");
    let numbers = [recorder::LAMBDA.to_bits(), recorder::QP as u64].into_iter();
    let head: Vec<u8> = numbers.chain(recorder::COSTS).flat_map(u64::to_le_bytes).collect();
    for (log2, kind, blocks) in recorder::blocks() {
        let samples = blocks.concat().into_iter().flat_map(i16::to_le_bytes);
        let file = format!("{folder}/{log2}-{}", kind.replace(' ', "-"));
        let bytes: Vec<u8> = head.iter().copied().chain(samples).collect();
        std::fs::write(&file, bytes).unwrap_or_else(|why| panic!("{file}: {why}"));
    }
}
