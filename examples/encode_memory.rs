use std::alloc::Global;
use wasm_encoder::encode_error::EncodeError;
use wasm_encoder::entity_type::{ExportKind, MemoryType};
use wasm_encoder::export_section::ExportSection;
use wasm_encoder::memory_section::MemorySection;
use wasm_encoder::module::Module;

pub fn one_memory(alloc: Global, ty: MemoryType) -> Result<Vec<u8>, EncodeError> {
    let mut memories = MemorySection::new(alloc);
    // Kept, and written with the section.
    memories.memory(ty)?;
    let mut exports = ExportSection::new(alloc);
    exports.export("memory", ExportKind::Memory, 0)?;
    let mut module = Module::new(alloc)?;
    module.push(&memories)?;
    module.push(&exports)?;
    Ok(module.finish())
}
