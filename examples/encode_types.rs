use std::alloc::Global;
use wasm_core::encode_error::EncodeError;
use wasm_core::module::Module;
use wasm_core::type_section::TypeSection;
use wasm_core::types::{FuncType, ValType};

pub fn one_type(alloc: Global) -> Result<Vec<u8>, EncodeError> {
    let params = vec![in alloc; ValType::I32]?;
    let mut types = TypeSection::new(alloc);
    // A refused call leaves the section as it was.
    types.func(FuncType::new(params, Vec::new(alloc)))?;
    let mut module = Module::new(alloc)?;
    // Measured first, then written in one go.
    module.section(&types)?;
    Ok(module.finish())
}
