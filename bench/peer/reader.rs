//! Texts, read token by token.

/// What is left of a text. Each token is read with the spaces behind it.
pub struct Reader<'a> {
    rest: &'a [u8],
}

impl<'a> Reader<'a> {
    /// The text behind the spaces at its front.
    pub fn new(text: &'a [u8]) -> Reader<'a> {
        let mut reader = Reader { rest: text };
        reader.skip_spaces();
        reader
    }

    pub fn is_at_end(&self) -> bool {
        self.rest.is_empty()
    }

    /// The next byte, which stays.
    pub fn peek(&self) -> Option<u8> {
        self.rest.first().copied()
    }

    pub fn rest(&self) -> &'a [u8] {
        self.rest
    }

    /// Goes past so many bytes and the spaces behind them.
    pub fn pass(&mut self, count: usize) {
        self.rest = &self.rest[count..];
        self.skip_spaces();
    }

    fn skip_spaces(&mut self) {
        while let [b' ', after @ ..] = self.rest {
            self.rest = after;
        }
    }

    /// A sign.
    pub fn sign(&mut self, sign: u8) -> Option<()> {
        (self.peek() == Some(sign)).then(|| self.pass(1))
    }

    /// The letters at the front, up to the first byte that is none.
    pub fn letters(&mut self) -> &'a [u8] {
        let is_letter = |byte: &u8| byte.is_ascii_lowercase();
        let count = self.rest.iter().take_while(|byte| is_letter(byte)).count();
        let letters = &self.rest[..count];
        self.pass(count);
        letters
    }

    /// This word.
    pub fn word(&mut self, word: &[u8]) -> Option<()> {
        (self.letters() == word).then_some(())
    }
}
