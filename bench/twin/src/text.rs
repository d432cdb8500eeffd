//! Lines of numbers on the standard output, through one buffer.

use std::io::{self, Write};

const ROOM: usize = 1 << 16;

/// Room for a number, with its sign and what stands behind it: all that are printed have 14 digits
/// at most.
const FIELD: usize = 16;

/// The digits of the numbers below 10,000, four each; the first digit is the lowest byte.
static CHUNKS: [u32; 10_000] = chunks();

const fn chunks() -> [u32; 10_000] {
    let mut chunks = [0; 10_000];
    let mut number = 0;
    while number < 10_000 {
        let (high, low) = (number / 100, number % 100);
        let digits = [high / 10, high % 10, low / 10, low % 10];
        chunks[number as usize] = u32::from_le_bytes([
            b'0' + digits[0] as u8,
            b'0' + digits[1] as u8,
            b'0' + digits[2] as u8,
            b'0' + digits[3] as u8,
        ]);
        number += 1;
    }
    chunks
}

/// The digits of a number below 10,000, from the lowest byte on, and how many these are.
fn four_digits(number: u64) -> (u64, u32) {
    let zeros = u32::from(number < 10) + u32::from(number < 100) + u32::from(number < 1000);
    (u64::from(CHUNKS[number as usize]) >> (8 * zeros), 4 - zeros)
}

/// The same for a number below 10^8.
fn eight_digits(number: u64) -> (u64, u32) {
    if number < 10_000 {
        return four_digits(number);
    }
    let (first, count) = four_digits(number / 10_000);
    let chunk = u64::from(CHUNKS[(number % 10_000) as usize]);
    (first | chunk << (8 * count), count + 4)
}

/// The same for a number below 10^16.
fn digits(number: u64) -> (u128, u32) {
    let (high, low) = (number / 100_000_000, number % 100_000_000);
    if high == 0 {
        let (text, count) = eight_digits(low);
        return (u128::from(text), count);
    }
    let (first, count) = eight_digits(high);
    let chunk = u64::from(CHUNKS[(low / 10_000) as usize])
        | u64::from(CHUNKS[(low % 10_000) as usize]) << 32;
    (
        u128::from(first) | u128::from(chunk) << (8 * count),
        count + 8,
    )
}

/// The text of a number and of a byte behind it. It is kept for the next line, where the number is
/// often the same.
#[derive(Clone, Copy)]
struct Field {
    number: i64,
    text: u128,
    count: u32,
}

impl Field {
    #[inline(never)] // so that no digit is made where the number is the same
    fn new(number: i64, behind: u8) -> Field {
        let (mut text, mut count) = digits(number.unsigned_abs());
        if number < 0 {
            text = text << 8 | u128::from(b'-');
            count += 1;
        }
        text |= u128::from(behind) << (8 * count);
        Field {
            number,
            text,
            count: count + 1,
        }
    }
}

/// The text of the number of a line, below 10,000,000, and of a space behind it.
struct Head {
    text: u64,
    count: u32,
    /// What the text grows by with the number.
    one: u64,
}

impl Head {
    fn new(line: usize) -> Head {
        let (text, count) = eight_digits(line as u64);
        let one = 1 << (8 * (count - 1));
        Head {
            text: text | u64::from(b' ') << (8 * count),
            count: count + 1,
            one,
        }
    }
}

/// Prints so many lines: of each its number, from 0 on, and `COUNT` numbers more.
pub fn print<const COUNT: usize>(
    lines: usize,
    mut numbers: impl FnMut(usize) -> [i64; COUNT],
) -> Result<(), String> {
    let mut fields = [Field::new(0, b' '); COUNT];
    fields[COUNT - 1] = Field::new(0, b'\n');
    let mut buffer = [0; ROOM];
    let mut filled = 0;
    for tens in (0..lines).step_by(10) {
        if filled > ROOM - 10 * (COUNT + 1) * FIELD {
            write(&buffer[..filled])?;
            filled = 0;
        }
        let mut head = Head::new(tens);
        for line in tens..lines.min(tens + 10) {
            buffer[filled..filled + 8].copy_from_slice(&head.text.to_le_bytes());
            filled += head.count as usize;
            head.text += head.one;
            let numbers = numbers(line);
            for (index, field) in fields.iter_mut().enumerate() {
                if field.number != numbers[index] {
                    *field =
                        Field::new(numbers[index], if index + 1 < COUNT { b' ' } else { b'\n' });
                }
                buffer[filled..filled + FIELD].copy_from_slice(&field.text.to_le_bytes());
                filled += field.count as usize;
            }
        }
    }
    write(&buffer[..filled])
}

pub fn write(text: &[u8]) -> Result<(), String> {
    io::stdout()
        .write_all(text)
        .map_err(|fault| fault.to_string())
}
