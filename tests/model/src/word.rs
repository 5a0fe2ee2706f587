//! The paper's "words for no", M-100's, M-102's and M-105's.

/// The words in the order of the table, which decides if several apply. From
/// M-100 on it is not the order of the numbers: 17 stands after 13 and before
/// 14, 18 between 5 and 6, 19 and 20 between 9 and 10, and 21 between 12 and 13.
/// So words cannot be compared (a derived order would go by the numbers): a call
/// tests in the table's order, and whoever needs it takes `ORDER`.
#[derive(Clone, Copy, Debug, PartialEq, Eq)]
pub enum Word {
    Length = 1,
    Mark = 2,
    Chip = 3,
    Crowd = 4,
    Directory = 5,
    /// M-102's "parameter": a bad sign or shift.
    Parameter = 18,
    Channel = 6,
    Twice = 7,
    Joint = 8,
    Name = 9,
    /// M-105's "list": not of whole items, an unknown channel or a track over 31.
    List = 19,
    /// M-105's "repeat": a wire twice in the list.
    Repeat = 20,
    Size = 10,
    Track = 11,
    Switch = 12,
    /// M-105's "broken": a ticket on a broken wire.
    Broken = 21,
    Clash = 13,
    /// M-100's "stranger": a net number that the sheet lacks.
    Stranger = 17,
    Space = 14,
    Unroutable = 15,
    Spent = 16,
}

impl Word {
    /// The order of the table: of the words that apply the first is given.
    pub const ORDER: [Word; 21] = [
        Word::Length,
        Word::Mark,
        Word::Chip,
        Word::Crowd,
        Word::Directory,
        Word::Parameter,
        Word::Channel,
        Word::Twice,
        Word::Joint,
        Word::Name,
        Word::List,
        Word::Repeat,
        Word::Size,
        Word::Track,
        Word::Switch,
        Word::Broken,
        Word::Clash,
        Word::Stranger,
        Word::Space,
        Word::Unroutable,
        Word::Spent,
    ];

    pub fn number(self) -> u32 {
        self as u32
    }
}

/// `Err(word)` if the word applies.
pub fn refuse_if(applies: bool, word: Word) -> Result<(), Word> {
    if applies {
        Err(word)
    } else {
        Ok(())
    }
}
