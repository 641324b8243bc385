//! Compares the library's verdicts with those of another validator: `diff COMMAND [WORD..] -- FILE..`, as `diff wasm-validate -- *.wasm`, runs
//! `COMMAND WORD.. FILE` for each file, whose status is 0 where the module is valid. Names each file on which they differ; the status is 1 then.

use std::process::{Command, ExitCode, Stdio};

/// `struct wasm_gen_verdict` of `wasm_gen.h`.
#[repr(C)]
#[derive(Default)]
struct Verdict {
    kind: u32,
    offset: u64,
    types: u64,
    functions: u64,
    tables: u64,
    memories: u64,
    globals: u64,
    tags: u64,
    elements: u64,
    exports: u64,
}

unsafe extern "C" {
    fn wasm_gen_features_default() -> u32;
    fn wasm_gen_kind_name(kind: u32, buffer: *mut u8, length: usize) -> usize;
    fn wasm_gen_check(bytes: *const u8, length: usize, features: u32, verdict: *mut Verdict) -> u32;
}

fn check(bytes: &[u8]) -> Verdict {
    let mut verdict = Verdict::default();
    unsafe { wasm_gen_check(bytes.as_ptr(), bytes.len(), wasm_gen_features_default(), &mut verdict) };
    verdict
}

fn kind_name(kind: u32) -> String {
    let mut name = [0; 16];
    let length = unsafe { wasm_gen_kind_name(kind, name.as_mut_ptr(), name.len()) };
    String::from_utf8_lossy(&name[..length]).into_owned()
}

// Returns the library's verdict as it is shown.
fn shown(ours: &Verdict) -> String {
    match ours.kind {
        0 => "yes".to_string(),
        kind => format!("no {} at {}", kind_name(kind), ours.offset),
    }
}

// Checks that the other validator accepts a file.
fn accepts(command: &[String], file: &str) -> std::io::Result<bool> {
    let mut other = Command::new(&command[0]);
    other.args(&command[1..]).arg(file).stdout(Stdio::null()).stderr(Stdio::null());
    Ok(other.status()?.success())
}

fn main() -> ExitCode {
    let words: Vec<String> = std::env::args().skip(1).collect();
    let Some(place) = words.iter().position(|it| it == "--").filter(|place| *place > 0) else {
        eprintln!("usage: diff COMMAND [WORD..] -- FILE..");
        return ExitCode::from(2);
    };
    let mut differ = 0;
    for file in &words[place + 1..] {
        let (bytes, other) = match (std::fs::read(file), accepts(&words[..place], file)) {
            (Ok(bytes), Ok(other)) => (bytes, other),
            _ => {
                eprintln!("diff: cannot check {file}");
                return ExitCode::from(2);
            }
        };
        let ours = check(&bytes);
        if (ours.kind == 0) != other {
            println!("{file}: {}, the other validator says {}", shown(&ours), if other { "yes" } else { "no" });
            differ += 1;
        }
    }
    println!("{} files, {differ} differ", words.len() - place - 1);
    ExitCode::from(u8::from(differ > 0))
}
