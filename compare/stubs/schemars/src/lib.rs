//! As much of schemars as id.rs names in its hand-written implementations. Nothing calls it.

pub use serde_derive::JsonSchema;

pub mod gen {
    pub struct SchemaGenerator;
}

pub mod schema {
    pub struct Schema;
}

pub trait JsonSchema {
    fn schema_name() -> String;
    fn json_schema(gen: &mut gen::SchemaGenerator) -> schema::Schema;
}

impl JsonSchema for String {
    fn schema_name() -> String {
        "String".to_string()
    }

    fn json_schema(_: &mut gen::SchemaGenerator) -> schema::Schema {
        schema::Schema
    }
}
