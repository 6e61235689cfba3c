use crate::Refusal;

/// How a text was put into a lent buffer.
#[derive(Clone, Copy, Debug, PartialEq, Eq)]
pub enum Text {
    /// The whole text stands at the buffer's front; its length. What is past it is as it was.
    Written(usize),
    /// The buffer is full of the text's beginning; the text's length.
    Longer(usize),
}

impl Text {
    pub(crate) fn of(code: u32, length: u32) -> Result<Text, Refusal> {
        match code {
            0 => Ok(Text::Written(length as usize)),
            1 => Ok(Text::Longer(length as usize)),
            n => Err(Refusal::of(n, 0, 0)),
        }
    }
}

/// A text in as much room as it needs.
pub(crate) fn whole_text(write: impl Fn(&mut [u8]) -> Result<Text, Refusal>) -> Result<String, Refusal> {
    let mut out = vec![0; 256];
    loop {
        match write(&mut out)? {
            Text::Written(n) => {
                out.truncate(n);
                return Ok(String::from_utf8(out).expect("the text is ASCII"));
            }
            Text::Longer(n) => out.resize(n, 0),
        }
    }
}
