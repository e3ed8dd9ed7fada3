//! `hex::encode`, which provenance.rs calls for the text of source bytes. The comparison drops hex text.

pub fn encode(bytes: impl AsRef<[u8]>) -> String {
    bytes.as_ref().iter().map(|b| format!("{b:02x}")).collect()
}
