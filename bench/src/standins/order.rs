//! Properties are written in the order of the Rust's map, as the real crate does. So nothing is sorted.

use super::rml_amf0::Amf0Value;
use std::collections::HashMap;

pub fn in_order(properties: &HashMap<String, Amf0Value>) -> &HashMap<String, Amf0Value> {
    properties
}
