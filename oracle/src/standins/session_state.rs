//! The two states that are used.

#[derive(Clone, PartialEq)]
pub enum SessionState {
    Started,
    Connected,
}
