// A request to the program `calls`, for the calls that take a text and a room.
pub const ESCAPE: u8 = 1;
pub const SANITIZE: u8 = 2;
pub const LINK: u8 = 3;
pub const IMAGE: u8 = 4;
pub const IDENTITY: u8 = 5;

/// Each call with its options: escaping has encoding on and off.
pub const CALLS: [(u8, u8); 6] = [(ESCAPE, 1), (ESCAPE, 0), (SANITIZE, 0), (LINK, 0), (IMAGE, 0), (IDENTITY, 0)];

/// Those that escape, with apostrophes escaped too: bit 3. Without encoding it changes nothing.
pub const QUOTED: [(u8, u8); 5] = [(ESCAPE, 9), (ESCAPE, 8), (SANITIZE, 8), (LINK, 8), (IMAGE, 8)];

#[derive(Clone)]
pub struct Request {
    pub op: u8,
    pub options: u8,
    pub text: Vec<u8>,
    pub room: usize,
}
