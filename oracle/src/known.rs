//! The Rust's out bytes turned into document 01's, where the two are known to differ. Shared by the
//! oracle, which measures the lent buffer by document 01's length, and by the comparison.

/// Cuts out bytes into whole records. Nothing where they do not end with a record.
pub fn records(mut out: &[u8]) -> Option<Vec<&[u8]>> {
    let mut records = Vec::new();
    while !out.is_empty() {
        let length = u32::from_be_bytes([0, *out.get(1)?, *out.get(2)?, *out.get(3)?]) as usize;
        let (record, rest) = out.split_at_checked(13 + length)?;
        records.push(record);
        out = rest;
    }
    Some(records)
}

/// Document 01 leaves acknowledgements out: a first record of type 3 on stream 0 is taken away.
pub fn without_acknowledgement(out: &[u8]) -> Option<Vec<u8>> {
    let records = records(out)?;
    let first = records.first()?;
    if first[0] == 3 && first.len() == 17 && first[8..13] == [0; 5] {
        Some(records[1..].concat())
    } else {
        None
    }
}

/// Document 01's error objects say level `error`. The Rust's body begins with `_error`, any
/// transaction, null, and an object whose first property is `level` with `_error`.
pub fn with_level_error(out: &[u8]) -> Option<Vec<u8>> {
    let mut new = Vec::new();
    let mut changed = false;
    for record in records(out)? {
        let (head, body) = record.split_at(13);
        let is_rust = head[0] == 20
            && body.len() >= 36
            && body[..10] == *b"\x02\x00\x06_error\x00"
            && body[18..36] == *b"\x05\x03\x00\x05level\x02\x00\x06_error";
        if is_rust {
            changed = true;
            new.push(20);
            new.extend(&(body.len() as u32 - 1).to_be_bytes()[1..]);
            new.extend(&head[4..]);
            new.extend(&body[..27]);
            new.extend(b"\x02\x00\x05error");
            new.extend(&body[36..]);
        } else {
            new.extend(record);
        }
    }
    changed.then_some(new)
}
