//! The sources, each with the answer that it must have.

use crate::{deep, long, mixed, refused};

pub struct Source {
    pub sort: &'static str,
    pub name: String,
    pub text: Vec<u8>,
    /// Number and place.
    pub answer: (u32, u32),
    /// How many shapes are in each other, where it is one shape in itself.
    pub levels: usize,
}

/// Each source in turn, the same in every run.
pub fn each(visit: &mut dyn FnMut(Source)) {
    deep::each(visit);
    mixed::each(visit);
    long::each(visit);
    refused::each(visit);
}
