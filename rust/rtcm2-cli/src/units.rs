//! Whole numbers of small steps in plain units, exactly.

/// Thousandths as a decimal number: -5020 is -5.020.
pub fn thousandths(number: i64) -> String {
    let sign = if number < 0 { "-" } else { "" };
    let size = number.unsigned_abs();
    format!("{sign}{}.{:03}", size / 1000, size % 1000)
}

/// Hundredths as a decimal number: -502 is -5.02.
pub fn hundredths(number: i64) -> String {
    let sign = if number < 0 { "-" } else { "" };
    let size = number.unsigned_abs();
    format!("{sign}{}.{:02}", size / 100, size % 100)
}

/// Hundred thousandths as a decimal number: 502 is 0.00502.
pub fn hundred_thousandths(number: u32) -> String {
    format!("{}.{:05}", number / 100_000, number % 100_000)
}

/// Tenths as a decimal number.
pub fn tenths(number: u32) -> String {
    format!("{}.{}", number / 10, number % 10)
}
