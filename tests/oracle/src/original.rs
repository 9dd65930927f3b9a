//! The original checker's answers for a decoded document.

use crate::lang::ir::Ir;
use crate::lang::validator::{module_warnings, validate_ir};

/// Messages of all errors, then of all warnings, both by module.
pub struct Findings {
    pub errors: Vec<String>,
    pub warnings: Vec<String>,
}

pub fn findings(ir: &Ir) -> Findings {
    let errors = validate_ir(ir).err().unwrap_or_default();
    Findings {
        errors: errors.into_iter().map(|e| e.message).collect(),
        warnings: ir.modules.iter().flat_map(module_warnings).collect(),
    }
}
