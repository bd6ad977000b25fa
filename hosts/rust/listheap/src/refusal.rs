/// Why a call is refused, by its number.
#[derive(Clone, Copy, Debug, PartialEq, Eq)]
pub enum Refusal {
    Shape = 1,
    Table = 2,
    TooManyRoots = 3,
    StackTooLong = 4,
    ZeroBytes = 5,
    NoSuchBlock = 6,
    NotAHead = 7,
    NoSuchWord = 8,
    NoRoom = 9,
    OutputTooShort = 10,
    ImageTruncated = 14,
    BadCount = 15,
    TrailingBytes = 16,
    RootsTooShort = 17,
    NoLog = 18,
    NoEntry = 19,
}

impl Refusal {
    pub fn number(self) -> u32 {
        self as u32
    }
}
