//! The order in which document 01 has properties written. The Rust's map has none.

use super::rml_amf0::Amf0Value;
use std::collections::HashMap;

const ORDER: [&str; 17] = [
    "fmsVer", "capabilities",
    "level", "code", "description", "objectEncoding",
    "width", "height", "videocodecid", "videodatarate", "framerate",
    "audiocodecid", "audiodatarate", "audiosamplerate", "audiochannels", "stereo", "encoder",
];

pub fn in_order(properties: &HashMap<String, Amf0Value>) -> Vec<(&String, &Amf0Value)> {
    let place = |name: &str| ORDER.iter().position(|x| *x == name).unwrap_or(ORDER.len());
    let mut pairs: Vec<_> = properties.iter().collect();
    // A name that is not in the list would come last, by its letters.
    pairs.sort_by_key(|(name, _)| (place(name), *name));
    pairs
}
