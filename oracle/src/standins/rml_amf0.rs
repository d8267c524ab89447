//! AMF0 as document 01 says: reading gives refusal 2 or 3, writing has document 01's order.

use super::order::in_order;
use crate::text;
use std::collections::HashMap;

#[derive(Clone, Debug, PartialEq)]
pub enum Amf0Value {
    Number(f64),
    Boolean(bool),
    Utf8String(String),
    Object(HashMap<String, Amf0Value>),
    Null,
    /// Undefined, ECMA array, strict array, date, long string: read over whole, never looked into.
    Other,
}

impl Amf0Value {
    pub fn get_number(self) -> Option<f64> {
        match self {
            Amf0Value::Number(x) => Some(x),
            _ => None,
        }
    }

    pub fn get_boolean(self) -> Option<bool> {
        match self {
            Amf0Value::Boolean(x) => Some(x),
            _ => None,
        }
    }

    pub fn get_string(self) -> Option<String> {
        match self {
            Amf0Value::Utf8String(x) => Some(x),
            _ => None,
        }
    }

    pub fn get_object_properties(self) -> Option<HashMap<String, Amf0Value>> {
        match self {
            Amf0Value::Object(x) => Some(x),
            _ => None,
        }
    }
}

/// All values of a body, or the refusal number of its leftmost fault.
pub fn read_all(body: &[u8]) -> Result<Vec<Amf0Value>, u8> {
    let mut reader = Reader { rest: body };
    let mut values = Vec::new();
    while !reader.rest.is_empty() {
        values.push(reader.value(0)?);
    }
    Ok(values)
}

struct Reader<'a> {
    rest: &'a [u8],
}

impl<'a> Reader<'a> {
    fn take(&mut self, n: usize) -> Result<&'a [u8], u8> {
        if n > self.rest.len() {
            return Err(2);
        }
        let (head, tail) = self.rest.split_at(n);
        self.rest = tail;
        Ok(head)
    }

    fn u16(&mut self) -> Result<usize, u8> {
        self.take(2).map(|b| u16::from_be_bytes([b[0], b[1]]) as usize)
    }

    fn u32(&mut self) -> Result<usize, u8> {
        self.take(4).map(|b| u32::from_be_bytes([b[0], b[1], b[2], b[3]]) as usize)
    }

    fn text(&mut self, n: usize) -> Result<String, u8> {
        self.take(n).map(text::from_bytes)
    }

    /// `around` counts the containers that this value lies inside.
    fn value(&mut self, around: usize) -> Result<Amf0Value, u8> {
        let marker = self.take(1)?[0];
        if matches!(marker, 0x03 | 0x08 | 0x0A) && around == 8 {
            return Err(3);
        }
        match marker {
            0x00 => {
                let b = self.take(8)?;
                Ok(Amf0Value::Number(f64::from_be_bytes(b.try_into().unwrap())))
            }
            0x01 => Ok(Amf0Value::Boolean(self.take(1)?[0] != 0)),
            0x02 => {
                let n = self.u16()?;
                Ok(Amf0Value::Utf8String(self.text(n)?))
            }
            0x03 => Ok(Amf0Value::Object(self.properties(around + 1)?)),
            0x05 => Ok(Amf0Value::Null),
            0x06 => Ok(Amf0Value::Other),
            0x08 => {
                self.u32()?;
                self.properties(around + 1)?;
                Ok(Amf0Value::Other)
            }
            0x0A => {
                for _ in 0..self.u32()? {
                    self.value(around + 1)?;
                }
                Ok(Amf0Value::Other)
            }
            0x0B => {
                self.take(10)?;
                Ok(Amf0Value::Other)
            }
            0x0C => {
                let n = self.u32()?;
                self.text(n)?;
                Ok(Amf0Value::Other)
            }
            _ => Err(2),
        }
    }

    /// Pairs up to 00 00 09. The last one of a name stands.
    fn properties(&mut self, around: usize) -> Result<HashMap<String, Amf0Value>, u8> {
        let mut properties = HashMap::new();
        loop {
            let n = self.u16()?;
            if n == 0 {
                return if self.take(1)?[0] == 0x09 { Ok(properties) } else { Err(2) };
            }
            let name = self.text(n)?;
            properties.insert(name, self.value(around)?);
        }
    }
}

pub fn write_all(values: &[Amf0Value]) -> Vec<u8> {
    let mut out = Vec::new();
    for value in values {
        write(&mut out, value);
    }
    out
}

fn write_text(out: &mut Vec<u8>, text: &str) {
    let bytes = text::to_bytes(text);
    assert!(bytes.len() <= 65_535, "text too long to be written");
    out.extend((bytes.len() as u16).to_be_bytes());
    out.extend(bytes);
}

fn write(out: &mut Vec<u8>, value: &Amf0Value) {
    match value {
        Amf0Value::Number(x) => {
            out.push(0x00);
            out.extend(x.to_be_bytes());
        }
        Amf0Value::Boolean(x) => out.extend([0x01, *x as u8]),
        Amf0Value::Utf8String(x) => {
            out.push(0x02);
            write_text(out, x);
        }
        Amf0Value::Object(properties) => {
            out.push(0x03);
            for (name, value) in in_order(properties) {
                write_text(out, name);
                write(out, value);
            }
            out.extend([0x00, 0x00, 0x09]);
        }
        Amf0Value::Null => out.push(0x05),
        Amf0Value::Other => panic!("the session writes no such value"),
    }
}
