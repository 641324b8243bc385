use std::alloc::{AllocError, Global};
use wasm_core::types::{CompositeType, FuncType, SubType, ValType};
use wasm_encoder::entity_type::{EntityType, MemoryType};
use wasm_gen::error::GenerateError;
use wasm_gen::generate::generate;
use wasm_gen::smith::{Config, ImportEntry, Shape, ShapeExport};

const MEMORY: EntityType = EntityType::Memory(MemoryType {
    minimum: 1,
    maximum: None,
    memory64: false,
    shared: false,
    page_size_log2: None,
});

// Returns a recursive group of one function type.
fn group(
    alloc: Global,
    params: Vec<ValType>,
    results: Vec<ValType>,
) -> Result<Vec<SubType>, AllocError> {
    let ty = SubType {
        is_final: true,
        supertype_idx: None,
        composite_type: CompositeType::Func(FuncType::new(params, results)),
    };
    Ok(vec![in alloc; ty]?)
}

// Returns an import from the host.
fn import(alloc: Global, name: &str, ty: EntityType) -> Result<ImportEntry, AllocError> {
    Ok(ImportEntry::Single {
        module: String::from_str(alloc, "host")?,
        name: String::from_str(alloc, name)?,
        ty,
    })
}

// Returns the shape of modules for a host that has a function `print` of type 0 and a memory, and calls `run` of type 1.
fn shape(alloc: Global) -> Result<Shape, AllocError> {
    let print_type = group(alloc, vec![in alloc; ValType::I32]?, Vec::new(alloc))?;
    let run_type = group(alloc, Vec::new(alloc), vec![in alloc; ValType::I64]?)?;
    let print = import(alloc, "print", EntityType::Function(0))?;
    let memory = import(alloc, "memory", MEMORY)?;
    let run = ShapeExport {
        name: String::from_str(alloc, "run")?,
        ty: EntityType::Function(1),
    };
    Ok(Shape {
        groups: vec![in alloc; print_type, run_type]?,
        imports: vec![in alloc; print, memory]?,
        exports: vec![in alloc; run]?,
    })
}

pub fn module_for_host(alloc: Global, seed: &[u8]) -> Result<Vec<u8>, GenerateError> {
    let mut config = Config::default();
    // The module has no other types, imports and exports. `available_imports` and `exports` take shapes, too, beside which other types are drawn.
    config.module_shape = Some(shape(alloc)?);
    generate(alloc, &config, seed)
}
