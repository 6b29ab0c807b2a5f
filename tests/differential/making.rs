//! Drafts and texts made by chance.

pub mod damage;
pub mod grounds;
pub mod names;
pub mod plain;
pub mod reordering;
pub mod rules;
pub mod sets;
pub mod steering;
pub mod traces;
pub mod typings;
pub mod widening;
