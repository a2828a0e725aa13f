// Times keys of 16 bytes, written and compared: the proved library, and plain Rust doing the same, in one run.
use std::hint::black_box;
use std::time::Instant;

#[link(name = "valuebench", kind = "static")]
unsafe extern "C" {
    fn values_write_keys(numbers: *const i64, count: usize, texts: *const u8, texts_len: usize, keys: *mut u8, keys_len: usize) -> usize;
    fn values_count_less(keys: *const u8, keys_len: usize, step: usize) -> usize;
}

const KEYS: usize = 4096;
const ROUNDS: usize = 500;

enum Value<'a> {
    Null,
    Number(i64),
    Text(&'a [u8]),
}

// A column as a Rust programmer writes it: the same code, bounds checked.
fn write_column(value: &Value, falling: bool, out: &mut [u8], at: usize) -> Option<usize> {
    let weight = match value {
        Value::Null => 1,
        Value::Number(_) => 9,
        Value::Text(text) => 3 + text.len(),
    };
    if at.checked_add(2 * weight + 1)? > out.len() {
        return None;
    }
    let mut end = at;
    match value {
        Value::Null => {
            out[at] = 1;
            end += 1;
        }
        Value::Number(n) => {
            out[at] = 2;
            out[at + 1..at + 9].copy_from_slice(&((*n as u64) ^ (1 << 63)).to_be_bytes());
            end += 9;
        }
        Value::Text(text) => {
            out[at] = 3;
            end += 1;
            for &byte in *text {
                out[end] = byte;
                end += 1;
                if byte == 0 {
                    out[end] = 255;
                    end += 1;
                }
            }
            out[end] = 0;
            out[end + 1] = 1;
            end += 2;
        }
    }
    if falling {
        for byte in &mut out[at..end] {
            *byte = 255 - *byte;
        }
    }
    Some(end)
}

#[inline(never)]
fn plain_write_keys(numbers: &[i64], texts: &[u8], keys: &mut [u8]) -> usize {
    let mut at = 0;
    for (number, text) in numbers.iter().zip(texts.chunks_exact(4)) {
        let Some(next) = write_column(&Value::Number(*number), false, keys, at) else { return 0 };
        let Some(end) = write_column(&Value::Text(text), true, keys, next) else { return 0 };
        at = end;
    }
    at
}

#[inline(never)]
fn plain_count_less(keys: &[u8], step: usize) -> usize {
    let count = keys.len() / 16;
    if step > count {
        return 0;
    }
    (0..count - step).filter(|i| keys[16 * i..16 * i + 16] < keys[16 * (i + step)..16 * (i + step) + 16]).count()
}

// The least of five times, in nanoseconds a key.
fn time(mut work: impl FnMut() -> usize) -> f64 {
    let mut best = f64::MAX;
    for _ in 0..5 {
        let start = Instant::now();
        for _ in 0..ROUNDS {
            black_box(work());
        }
        best = best.min(start.elapsed().as_nanos() as f64 / (ROUNDS * KEYS) as f64);
    }
    best
}

fn main() {
    // Numbers that agree in their high bytes for long, so that comparing has to look far.
    let mut x = 12345u64;
    let mut next = || {
        x = x.wrapping_mul(6364136223846793005).wrapping_add(1442695040888963407);
        x >> 33
    };
    let numbers: Vec<i64> = (0..KEYS).map(|_| (next() % 512) as i64 - 256).collect();
    let texts: Vec<u8> = (0..4 * KEYS).map(|_| (next() % 255) as u8 + 1).collect();
    let mut proved = vec![0u8; 16 * KEYS + 64];
    let mut plain = proved.clone();
    let write = |keys: &mut [u8]| unsafe { values_write_keys(numbers.as_ptr(), numbers.len(), texts.as_ptr(), texts.len(), keys.as_mut_ptr(), keys.len()) };
    let less = |keys: &[u8]| unsafe { values_count_less(keys.as_ptr(), keys.len(), 7) };

    assert_eq!(write(&mut proved), 16 * KEYS);
    assert_eq!(plain_write_keys(&numbers, &texts, &mut plain), 16 * KEYS);
    assert_eq!(proved, plain);
    assert_eq!(less(&proved[..16 * KEYS]), plain_count_less(&plain[..16 * KEYS], 7));

    let a = time(|| write(black_box(&mut proved)));
    let b = time(|| plain_write_keys(black_box(&numbers), black_box(&texts), black_box(&mut plain)));
    let c = time(|| less(black_box(&proved[..16 * KEYS])));
    let d = time(|| plain_count_less(black_box(&plain[..16 * KEYS]), 7));
    println!("writing a key:   proved {a:.2} ns, plain Rust {b:.2} ns, {:.2} times", a / b);
    println!("comparing keys:  proved {c:.2} ns, plain Rust {d:.2} ns, {:.2} times", c / d);
}
