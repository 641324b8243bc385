use wasmparser::error::Error;
use wasmparser::parser::Parser;
use wasmparser::payload::Payload;

pub fn print_sections<R: Print>(rt: &R, bytes: &[u8]) -> Result<(), Error> {
    for payload in Parser::new(0).parse_all(bytes) {
        let _ = match payload? {
            Payload::FunctionSection(section) => println!(rt; "{} functions", section.count()),
            Payload::CodeSectionEntry(body) => println!(rt; "a body at {}", body.range().start),
            Payload::CustomSection(custom) => println!(rt; "custom section {}", custom.name()),
            Payload::End(place) => println!(rt; "the end at {}", place),
            _ => Ok(()),
        };
    }
    Ok(())
}
