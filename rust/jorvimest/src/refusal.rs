use crate::linked;
use crate::text::{whole_text, Text};
use std::fmt::{Display, Formatter, Result as Written};

/// What is turned away, with the values that come with it. Later versions may turn away more, so a `match` has an arm for the rest.
///
/// ```
/// use jorvimest::{Refusal, Table};
///
/// let refusal = Table::compile(b"a**").unwrap_err();
/// assert_eq!(refusal, Refusal::NoAtom(2));
/// assert_eq!((refusal.number(), refusal.place()), (2, 2));
/// assert_eq!(refusal.to_string(), "repeat sign with no atom before it, or after a repeat sign (2 at 2)");
/// ```
#[derive(Clone, Copy, Debug, PartialEq, Eq, Hash)]
#[non_exhaustive]
pub enum Refusal {
    /// 1: the pattern has over 1,024 bytes.
    TooLong,
    /// 2: a repeat sign with no atom before it, or after a repeat sign; the sign's place.
    NoAtom(u32),
    /// 3: a count in braces that is not of the legal form; the place of its `{`.
    BadCount(u32),
    /// 4: a class that is not of the legal form, escapes in it included; the place of its `[`.
    BadClass(u32),
    /// 5: a bad escape outside a class; the place of its `\`.
    BadEscape(u32),
    /// 6: a bare `]` or `}`; its place.
    Stray(u32),
    /// 7: a `)` with no group open; its place.
    NoGroup(u32),
    /// 8: the pattern ends in an open group; its length.
    OpenGroup(u32),
    /// 9: a group that would be the 33rd open; the place of its `(`.
    DeepGroup(u32),
    /// 10: over 2,048 nodes.
    ManyNodes,
    /// 11: more set rows than there is room for.
    ManyRows,
    /// 12: the text has over 1,048,576 bytes.
    LongText,
    /// 13: the table is not well formed.
    NotFormed,
    /// 14: the start is greater than the text's length.
    PastEnd,
    /// 15: more starts than places in the lent list; the number of starts.
    FewPlaces(u32),
}

impl Refusal {
    /// The refusal of a number, with its place or the number of starts.
    pub(crate) fn of(number: u32, place: u32, starts: u32) -> Refusal {
        match number {
            1 => Refusal::TooLong,
            2 => Refusal::NoAtom(place),
            3 => Refusal::BadCount(place),
            4 => Refusal::BadClass(place),
            5 => Refusal::BadEscape(place),
            6 => Refusal::Stray(place),
            7 => Refusal::NoGroup(place),
            8 => Refusal::OpenGroup(place),
            9 => Refusal::DeepGroup(place),
            10 => Refusal::ManyNodes,
            11 => Refusal::ManyRows,
            12 => Refusal::LongText,
            13 => Refusal::NotFormed,
            14 => Refusal::PastEnd,
            15 => Refusal::FewPlaces(starts),
            _ => unreachable!("there are 15 refusals"),
        }
    }

    /// From 1 to 15.
    pub fn number(self) -> u32 {
        match self {
            Refusal::TooLong => 1,
            Refusal::NoAtom(_) => 2,
            Refusal::BadCount(_) => 3,
            Refusal::BadClass(_) => 4,
            Refusal::BadEscape(_) => 5,
            Refusal::Stray(_) => 6,
            Refusal::NoGroup(_) => 7,
            Refusal::OpenGroup(_) => 8,
            Refusal::DeepGroup(_) => 9,
            Refusal::ManyNodes => 10,
            Refusal::ManyRows => 11,
            Refusal::LongText => 12,
            Refusal::NotFormed => 13,
            Refusal::PastEnd => 14,
            Refusal::FewPlaces(_) => 15,
        }
    }

    /// Its place in the pattern; 0 for the refusals that have none.
    pub fn place(self) -> u32 {
        match self {
            Refusal::TooLong => crate::PATTERN_MOST as u32,
            Refusal::NoAtom(i)
            | Refusal::BadCount(i)
            | Refusal::BadClass(i)
            | Refusal::BadEscape(i)
            | Refusal::Stray(i)
            | Refusal::NoGroup(i)
            | Refusal::OpenGroup(i)
            | Refusal::DeepGroup(i) => i,
            _ => 0,
        }
    }

    fn words(self) -> &'static str {
        match self {
            Refusal::TooLong => "pattern over 1,024 bytes",
            Refusal::NoAtom(_) => "repeat sign with no atom before it, or after a repeat sign",
            Refusal::BadCount(_) => "count in braces not of the legal form",
            Refusal::BadClass(_) => "class not of the legal form",
            Refusal::BadEscape(_) => "bad escape",
            Refusal::Stray(_) => "bare ] or }",
            Refusal::NoGroup(_) => ") with no group open",
            Refusal::OpenGroup(_) => "pattern ends in an open group",
            Refusal::DeepGroup(_) => "a group that would be the 33rd open",
            Refusal::ManyNodes => "over 2,048 nodes",
            Refusal::ManyRows => "more rows than there is room for",
            Refusal::LongText => "text over 1,048,576 bytes",
            Refusal::NotFormed => "table not well formed",
            Refusal::PastEnd => "start greater than the text's length",
            Refusal::FewPlaces(_) => "more starts than places in the lent list",
        }
    }

    /// The pattern, and under it a mark at the place with the reason. Bytes that do not print stand there as escapes.
    ///
    /// ```
    /// use jorvimest::Table;
    ///
    /// let pattern = b"\t[0-9]{2,1}:";
    /// let refusal = Table::compile(pattern).unwrap_err();
    /// assert_eq!(
    ///     refusal.shown_in(pattern),
    ///     "\\x09[0-9]{2,1}:\n         ^ count in braces not of the legal form (3 at 6)\n",
    /// );
    /// ```
    pub fn shown_in(self, pattern: &[u8]) -> String {
        let spelled = |b: &u8| match b {
            b' '..=b'~' => (*b as char).to_string(),
            _ => format!("\\x{b:02x}"),
        };
        let line: String = pattern.iter().map(spelled).collect();
        if self.number() > 9 {
            return format!("{line}\n{self}\n");
        }
        let before = pattern.iter().take(self.place() as usize).map(|b| spelled(b).len()).sum::<usize>();
        format!("{line}\n{:before$}^ {self}\n", "")
    }

    /// The line that the listing program prints.
    ///
    /// ```
    /// use jorvimest::Refusal;
    ///
    /// assert_eq!(Refusal::NoAtom(2).line(), "refused 2 at 2\n");
    /// ```
    pub fn line(self) -> String {
        let written = whole_text(|out| {
            let mut length = 0;
            // SAFETY: as in `over_table`: `out` is a slice's pointer with its length, `length` a number; both are lent mutably
            let code =
                unsafe { linked::jorvimest_refusal(self.number(), self.place(), out.as_mut_ptr(), out.len(), &mut length) };
            Text::of(code, length)
        });
        written.expect("a line is never refused")
    }
}

/// The reason, the number and the place.
impl Display for Refusal {
    fn fmt(&self, f: &mut Formatter) -> Written {
        write!(f, "{} ({} at {}", self.words(), self.number(), self.place())?;
        match self {
            Refusal::FewPlaces(starts) => write!(f, ", {starts} starts)"),
            _ => write!(f, ")"),
        }
    }
}

impl std::error::Error for Refusal {}

#[test]
fn numbers_and_places() {
    for number in 1..=15 {
        let refusal = Refusal::of(number, 7, 8);
        let place = match number {
            1 => 1024,
            2..=9 => 7,
            _ => 0,
        };
        assert_eq!((refusal.number(), refusal.place()), (number, place));
        assert_eq!(refusal.line(), format!("refused {number} at {place}\n"));
    }
    assert_eq!(Refusal::of(15, 0, 8), Refusal::FewPlaces(8));
    assert_eq!(Refusal::FewPlaces(8).to_string(), "more starts than places in the lent list (15 at 0, 8 starts)");
}

#[test]
fn marks_under_the_place() {
    assert_eq!(Refusal::OpenGroup(2).shown_in(b"(a"), "(a\n  ^ pattern ends in an open group (8 at 2)\n");
    assert_eq!(Refusal::ManyRows.shown_in(b"a\n"), "a\\x0a\nmore rows than there is room for (11 at 0)\n");
    let shown = Refusal::TooLong.shown_in(&[b'a'; 1025]);
    assert_eq!(shown.lines().nth(1).unwrap().find('^'), Some(1024));
}
