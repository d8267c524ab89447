//! Bodies of commands, as AMF0 bytes.

pub struct Body(Vec<u8>);

impl Body {
    /// The name and the transaction. Next comes the command object, then the arguments.
    pub fn command(name: &str, transaction: f64) -> Body {
        Body(Vec::new()).text(name).number(transaction)
    }

    pub fn number(mut self, x: f64) -> Body {
        self.0.push(0);
        self.0.extend(x.to_be_bytes());
        self
    }

    pub fn boolean(mut self, x: bool) -> Body {
        self.0.extend([1, x as u8]);
        self
    }

    pub fn text(mut self, x: &str) -> Body {
        self.0.push(2);
        self.bare(x)
    }

    pub fn null(mut self) -> Body {
        self.0.push(5);
        self
    }

    pub fn object(mut self) -> Body {
        self.0.push(3);
        self
    }

    /// The name of a property. Its value comes next.
    pub fn property(self, name: &str) -> Body {
        self.bare(name)
    }

    pub fn end(mut self) -> Body {
        self.0.extend([0, 0, 9]);
        self
    }

    pub fn bytes(self) -> Vec<u8> {
        self.0
    }

    fn bare(mut self, x: &str) -> Body {
        self.0.extend((x.len() as u16).to_be_bytes());
        self.0.extend(x.as_bytes());
        self
    }
}
