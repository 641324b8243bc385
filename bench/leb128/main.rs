//! Writes and reads numbers in LEB128 as `wasm_bench numbers` does, by loops in Rust: (u32|s64) (short|long) COUNT TIMES.

use std::hint::black_box;
use std::time::Instant;

trait Number: Copy {
    fn drawn(bits: u64, is_short: bool) -> Self;

    fn push(self, sink: &mut Vec<u8>);

    fn next(bytes: &[u8], place: &mut usize) -> Option<Self>;

    fn bits(self) -> u64;
}

impl Number for u32 {
    fn drawn(bits: u64, is_short: bool) -> u32 {
        (bits >> if is_short { 58 } else { 32 }) as u32
    }

    fn push(mut self, sink: &mut Vec<u8>) {
        while self >= 0x80 {
            sink.push(self as u8 | 0x80);
            self >>= 7;
        }
        sink.push(self as u8);
    }

    fn next(bytes: &[u8], place: &mut usize) -> Option<u32> {
        let mut value = 0;
        let mut shift = 0;
        loop {
            let byte = *bytes.get(*place)?;
            *place += 1;
            if shift == 28 && byte > 0x0f {
                return None;
            }
            value |= u32::from(byte & 0x7f) << shift;
            if byte < 0x80 {
                return Some(value);
            }
            shift += 7;
        }
    }

    fn bits(self) -> u64 {
        self.into()
    }
}

impl Number for i64 {
    fn drawn(bits: u64, is_short: bool) -> i64 {
        bits as i64 >> if is_short { 57 } else { 0 }
    }

    fn push(mut self, sink: &mut Vec<u8>) {
        while !(-64..64).contains(&self) {
            sink.push(self as u8 | 0x80);
            self >>= 7;
        }
        sink.push(self as u8 & 0x7f);
    }

    fn next(bytes: &[u8], place: &mut usize) -> Option<i64> {
        let mut value = 0;
        let mut shift = 0;
        loop {
            let byte = *bytes.get(*place)?;
            *place += 1;
            if shift == 63 && byte != 0 && byte != 0x7f {
                return None;
            }
            value |= i64::from(byte & 0x7f) << shift;
            shift += 7;
            if byte < 0x80 {
                return Some(if shift < 64 && byte >= 0x40 { value | -1 << shift } else { value });
            }
        }
    }

    fn bits(self) -> u64 {
        self as u64
    }
}

fn shortest(times: u32, mut run: impl FnMut()) -> u128 {
    let mut shortest = u128::MAX;
    for _ in 0..times {
        let start = Instant::now();
        run();
        shortest = shortest.min(start.elapsed().as_nanos());
    }
    shortest
}

fn tell<N: Number>(is_short: bool, count: u32, times: u32) {
    let mut state = 7u64;
    let mut draw = |_| {
        state = state.wrapping_mul(6364136223846793005).wrapping_add(1442695040888963407);
        N::drawn(state, is_short)
    };
    let numbers: Vec<N> = (0..count).map(&mut draw).collect();
    let wanted = numbers.iter().fold(0u64, |sum, it| sum.wrapping_add(it.bits()));
    let mut bytes = Vec::new();
    numbers.iter().for_each(|it| it.push(&mut bytes));
    let written = shortest(times, || {
        bytes.clear();
        numbers.iter().for_each(|it| it.push(&mut bytes));
        black_box(&bytes);
    });
    let read = shortest(times, || {
        let mut place = 0;
        let sum = (0..count).fold(0u64, |sum, _| sum.wrapping_add(N::next(&bytes, &mut place).unwrap().bits()));
        assert_eq!(sum, wanted);
    });
    println!("{} bytes\n{written} ns\n{read} ns", bytes.len());
}

fn main() {
    let words: Vec<String> = std::env::args().collect();
    let [_, kind, form, count, times] = words.as_slice() else { panic!("(u32|s64) (short|long) COUNT TIMES") };
    let (count, times) = (count.parse().unwrap(), times.parse().unwrap());
    let tell = if kind == "u32" { tell::<u32> } else { tell::<i64> };
    tell(form == "short", count, times);
}
