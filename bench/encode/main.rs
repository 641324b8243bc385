//! Times sections that are written as their items are added, as `wasm-encoder` does it, and then put into a module: KIND COUNT TIMES.

use std::hint::black_box;
use std::time::Instant;

fn number(sink: &mut Vec<u8>, mut n: u32) {
    while n >= 0x80 {
        sink.push(n as u8 | 0x80);
        n >>= 7;
    }
    sink.push(n as u8);
}

fn bytes(sink: &mut Vec<u8>, bytes: &[u8]) {
    number(sink, bytes.len() as u32);
    sink.extend_from_slice(bytes);
}

// An item of each kind.
fn item(kind: &str) -> Option<fn(&mut Vec<u8>)> {
    Some(match kind {
        "types" => |sink| {
            sink.push(0x60);
            bytes(sink, black_box(&[0x7f, 0x7e, 0x7f, 0x7d]));
            bytes(sink, black_box(&[0x7c]));
        },
        "imports" => |sink| {
            bytes(sink, black_box(b"env"));
            bytes(sink, black_box(b"names"));
            sink.push(0);
            number(sink, black_box(5));
        },
        "functions" => |sink| number(sink, black_box(5)),
        "tables" => |sink| {
            sink.push(black_box(0x70));
            sink.push(black_box(1));
            number(sink, black_box(1));
            number(sink, black_box(2));
        },
        "memories" => |sink| {
            sink.push(black_box(1));
            number(sink, black_box(1));
            number(sink, black_box(2));
        },
        "tags" => |sink| {
            sink.push(0);
            number(sink, black_box(5));
        },
        "globals" => |sink| {
            sink.push(black_box(0x7f));
            sink.push(black_box(0));
            sink.extend_from_slice(black_box(&[0x41, 42]));
            sink.push(0x0b);
        },
        "exports" => |sink| {
            bytes(sink, black_box(b"names"));
            sink.push(black_box(0));
            number(sink, black_box(5));
        },
        "elements" => |sink| {
            sink.push(black_box(0));
            sink.extend_from_slice(black_box(&[0x41, 0]));
            sink.push(0x0b);
            number(sink, 16);
            for index in black_box(&[1u32; 16]) {
                number(sink, *index);
            }
        },
        "bodies" => |sink| bytes(sink, black_box(&[1; 1024])),
        "data" => |sink| {
            sink.push(black_box(0));
            sink.extend_from_slice(black_box(&[0x41, 0]));
            sink.push(0x0b);
            bytes(sink, black_box(&[1; 16]));
        },
        _ => return None,
    })
}

fn written(count: u32, item: fn(&mut Vec<u8>)) -> Vec<u8> {
    let mut section = Vec::new();
    for _ in 0..count {
        item(&mut section);
    }
    let mut count_bytes = Vec::new();
    number(&mut count_bytes, count);
    let mut module = Vec::new();
    number(&mut module, (count_bytes.len() + section.len()) as u32);
    module.extend_from_slice(&count_bytes);
    module.extend_from_slice(&section);
    module
}

fn main() {
    let words: Vec<String> = std::env::args().collect();
    let [_, kind, count, times] = words.as_slice() else { panic!("KIND COUNT TIMES") };
    let (count, times): (u32, u32) = (count.parse().unwrap(), times.parse().unwrap());
    let copied = vec![1u8; count as usize * 1024 * usize::from(kind == "copy")];
    let mut shortest = u128::MAX;
    let mut len = 0;
    for _ in 0..times {
        let start = Instant::now();
        let made = match item(kind) {
            Some(item) => written(count, item),
            None => black_box(&copied).to_vec(),
        };
        shortest = shortest.min(start.elapsed().as_nanos());
        len = black_box(made).len();
    }
    println!("{len} bytes\n{shortest} ns");
}
