//! The test oracle: forms, sheets, command tables and batches as data, a text notation for forms, and generated test cases.
pub mod format;
pub mod parts;
pub mod commands;
pub mod batches;
pub mod notation;
pub mod cases;
pub mod forged;
pub mod marks;
pub mod reasons;
pub mod looks;
pub mod idle;
pub mod previews;
pub mod shorts;
pub mod joins;
