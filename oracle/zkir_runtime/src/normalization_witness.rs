/// "Left out: ... normalisation witnesses". `execute.rs` imports this name and does not use it.
pub enum NormalizationEvent {}
