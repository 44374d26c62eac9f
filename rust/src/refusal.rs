//! The refusals by the names of crates/refusal, each with the number that the C interface returns.

use std::error::Error;
use std::fmt;

/// Declares the refusals once: name, number and what is wrong.
macro_rules! refusals {
    ($($name:ident = $number:literal, $words:literal;)*) => {
        /// Why an entry refused. A refusal has changed nothing that was lent.
        #[derive(Clone, Copy, Debug, PartialEq, Eq, Hash)]
        pub enum Refusal {
            $(#[doc = $words] $name,)*
        }

        impl Refusal {
            /// Every refusal, in the order of the numbers.
            pub const ALL: &'static [Refusal] = &[$(Refusal::$name,)*];

            /// The number that the C interface returns for it.
            pub fn number(self) -> u8 {
                match self {
                    $(Refusal::$name => $number,)*
                }
            }

            /// What is wrong, in words.
            fn words(self) -> &'static str {
                match self {
                    $(Refusal::$name => $words,)*
                }
            }
        }
    };
}

refusals! {
    UnsoundBook = 1, "the book or the server rows are not sound, or the ids are too many or too few";
    MessageSize = 2, "the message is below 241 or above 1,472 bytes";
    WrongCookie = 3, "the cookie differs";
    BrokenOptions = 4, "an option passes the message's end, or there is no End";
    NoAuthentication = 5, "there is no option 90";
    RepeatedAuthentication = 6, "there is more than one option 90";
    RelayInformation = 7, "there is more than one option 82";
    OtherAuthentication = 8, "option 90 is not delayed authentication with HMAC-MD5 and a counter";
    RequestForm = 9, "option 90 is a request, without id and MAC";
    UnknownSecret = 10, "the secret id has no row, or there is no such server row";
    Replay = 11, "the row is heard and the counter is not above the one that it has";
    WrongMac = 12, "the MAC differs";
    CounterSpent = 13, "the sent counter is at its last value";
    TooLong = 14, "the digest's total would pass 65,535 bytes, or the key is above 64 bytes";
    MalformedCard = 15, "the card is malformed";
    NoRoomForCard = 16, "the room for the card is too small";
    NoRoomForRows = 17, "the card has more rows than there is room for";
    RowNotHeard = 18, "the old form of a card is wanted and a row is not heard";
    NotByNonce = 19, "option 90 is not by nonce with HMAC-MD5 and a counter";
    WrongType = 20, "option 90's type doesn't go with option 53";
    NoNonce = 21, "a FORCERENEW came, and the server row has no nonce yet";
    NoRoomForReport = 22, "the lines of a comparison are longer than the room";
}

impl Refusal {
    /// The answer that a number stands for: `Ok` for 0. A number that the interface doesn't have is
    /// a broken library.
    pub(crate) fn from_number(number: u8) -> Result<(), Refusal> {
        if number == 0 {
            return Ok(());
        }
        let named = Self::ALL.iter().find(|r| r.number() == number);
        Err(*named.unwrap_or_else(|| panic!("the library returned the number {number}")))
    }
}

impl fmt::Display for Refusal {
    fn fmt(&self, f: &mut fmt::Formatter<'_>) -> fmt::Result {
        write!(f, "refused {}: {}", self.number(), self.words())
    }
}

impl Error for Refusal {}
