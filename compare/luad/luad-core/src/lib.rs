//! Ours, not luad's: it declares the four modules carried in unchanged, and stands in for the three that they name.

pub mod id;
pub mod ir;
#[allow(dead_code)] // a default that only serde would call
pub mod model;
pub mod provenance;

/// Stands in for luad's diagnostics: model.rs names two types as fields of `Chunk`, which the lifter never sees.
pub mod diagnostic {
    #[derive(Debug, Clone, PartialEq)]
    pub struct Diagnostic;
    #[derive(Debug, Clone, PartialEq)]
    pub struct Verdict;
}

/// Stands in for luad's dialects: one type, named as a field of `Chunk`.
pub mod dialect {
    #[derive(Debug, Clone, PartialEq)]
    pub struct ResolvedInterpretation;
}

/// Stands in for luad's scalars: `LuaString::from_bytes` calls it for `display`, which the comparison sets itself.
pub mod scalar {
    pub fn escape_bytes(bytes: &[u8]) -> String {
        String::from_utf8_lossy(bytes).into_owned()
    }
}
