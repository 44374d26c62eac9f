//! The refusals, each with the number it gives back (docs/RULES.md, 'Numbers').

/// Why an entry refuses. The lowest number that applies is the one given; `forcerenew` and `compare`
/// go by orders of their own.
#[derive(Clone, Copy, Debug, PartialEq, Eq)]
#[repr(u8)]
pub enum Refusal {
    /// The book is not sound; for reading a card, the lent sizes are not; for FORCERENEW by nonce,
    /// the server rows are not; for `known`, there are too many ids, or fewer than the count.
    UnsoundBook = 1,
    /// The message is below 241 or above 1,472 bytes.
    MessageSize = 2,
    /// The cookie differs.
    WrongCookie = 3,
    /// An option passes the message's end, or there is no End.
    BrokenOptions = 4,
    /// There is no option 90.
    NoAuthentication = 5,
    /// There is more than one option 90.
    RepeatedAuthentication = 6,
    /// There is more than one option 82.
    RelayInformation = 7,
    /// Option 90 has another length than 11 and 31, or doesn't begin with 1, 1, 0.
    OtherAuthentication = 8,
    /// Option 90 is a request for authentication, without id and MAC.
    RequestForm = 9,
    /// The secret id has no row; for FORCERENEW by nonce, there is no such server row.
    UnknownSecret = 10,
    /// The row is heard and the counter is not above the one that it has.
    Replay = 11,
    /// The MAC differs.
    WrongMac = 12,
    /// The sent counter is at its last value.
    CounterSpent = 13,
    /// The digest's total would pass 65,535 bytes, or an HMAC key is above 64 bytes.
    TooLong = 14,
    /// The card is malformed.
    MalformedCard = 15,
    /// The room for the card is too small.
    NoRoomForCard = 16,
    /// The card has more rows than the lent room.
    NoRoomForRows = 17,
    /// The old form of a card is wanted and a row is not heard.
    RowNotHeard = 18,
    /// Option 90 has another length than 28, or doesn't begin with 3, 1, 0.
    NotByNonce = 19,
    /// Option 90's type doesn't go with option 53.
    WrongType = 20,
    /// A FORCERENEW came, and the server row has no nonce yet.
    NoNonce = 21,
    /// The lines of a comparison are longer than the room.
    NoRoomForReport = 22,
}

impl Refusal {
    /// The number given back.
    pub fn number(self) -> u8 {
        self as u8
    }
}

/// The number of an answer: 0 where it isn't a refusal. (Of `known` an answer may be 10: its own
/// function tells.)
pub fn number_of<T>(answer: &Result<T, Refusal>) -> u8 {
    match answer {
        Ok(_) => 0,
        Err(refusal) => refusal.number(),
    }
}
