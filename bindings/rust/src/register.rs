//! The calls of a register of 31 bits.
//!
//! A value is below 2^31; of a greater one the lowest 31 bits count. A write is answered 0, and each other call the
//! value before.

const VALUES: u64 = 1 << 31;

fn call(operation: u64, value: u32) -> u64 {
    operation * VALUES + u64::from(value) % VALUES
}

/// Reads the value.
pub fn read() -> u64 {
    0
}

/// Writes a value.
pub fn write(value: u32) -> u64 {
    call(1, value)
}

/// Writes a value.
pub fn swap(value: u32) -> u64 {
    call(2, value)
}

/// Adds a number modulo 2^31.
pub fn fetch_add(number: u32) -> u64 {
    call(3, number)
}

/// Writes a value where it is greater than the register's.
pub fn fetch_max(value: u32) -> u64 {
    call(4, value)
}

/// Writes a value where the register has the expected one. So it has written where the reply is the expected one.
pub fn compare_exchange(expected: u32, value: u32) -> u64 {
    call(VALUES + u64::from(expected) % VALUES, value)
}
