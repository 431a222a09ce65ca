//! The lines that programs print: a refusal, a sum, a verdict.

pub fn refusal(number: u32, line: u64, column: u64) -> Vec<u8> {
    format!("refused\t{number}\t{line}\t{column}\n").into_bytes()
}

pub fn sum(word: u16) -> Vec<u8> {
    format!("{word:04X}\n").into_bytes()
}

/// 40 alone names an address and a count.
pub fn verdict(number: u32, address: u16, count: u64) -> Vec<u8> {
    match number {
        40 => format!("40\t{address:04X}\t{count}\n"),
        _ => format!("{number}\n"),
    }
    .into_bytes()
}
