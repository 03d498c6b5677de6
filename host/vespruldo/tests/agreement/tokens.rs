//! The words and signs of a text of declarations, in C, Rust or Rattle.

/// A text cut into words (names and numbers), quoted texts and single signs,
/// and the place up to which it has been read. Comments are left out.
pub struct Tokens {
    tokens: Vec<String>,
    place: usize,
}

/// The text with spaces in place of its comments.
pub fn without_comments(text: &str) -> String {
    let mut rest = text;
    let mut kept = String::new();
    loop {
        let (end, after) = match (rest.find("/*"), rest.find("//")) {
            (None, None) => return kept + rest,
            (Some(block), line) if line.is_none_or(|line| block < line) => (block, "*/"),
            (_, line) => (line.expect("a comment"), "\n"),
        };
        kept += &rest[..end];
        let comment = &rest[end + 2..];
        let (_, left) = comment.split_once(after).expect("an end of the comment");
        kept.push(if after == "\n" { '\n' } else { ' ' });
        rest = left;
    }
}

pub fn in_word(c: char) -> bool {
    c.is_alphanumeric() || c == '_'
}

/// How many bytes the first token has of a text that begins with one.
fn token_len(text: &str) -> usize {
    let first = text.chars().next().expect("a token");
    if first == '"' {
        let end = text[1..].find('"').expect("the end of a quoted text");
        end + 2
    } else if in_word(first) {
        text.find(|c| !in_word(c)).unwrap_or(text.len())
    } else {
        first.len_utf8()
    }
}

impl Tokens {
    pub fn of(text: &str) -> Tokens {
        let text = without_comments(text);
        let mut rest = text.trim_start();
        let mut tokens = Vec::new();
        while !rest.is_empty() {
            let (token, left) = rest.split_at(token_len(rest));
            tokens.push(token.to_string());
            rest = left.trim_start();
        }
        Tokens { tokens, place: 0 }
    }

    /// Those of the group that stands here, read without its brackets.
    pub fn group(&mut self) -> Tokens {
        let start = self.place + 1;
        self.skip_group();
        Tokens {
            tokens: self.tokens[start..self.place - 1].to_vec(),
            place: 0,
        }
    }

    /// The same tokens with `new` in place of `old`.
    pub fn replaced(&self, old: &str, new: &str) -> Tokens {
        let replace = |token: &String| if token == old { new } else { token }.to_string();
        Tokens {
            tokens: self.tokens.iter().map(replace).collect(),
            place: self.place,
        }
    }

    pub fn at_end(&self) -> bool {
        self.place == self.tokens.len()
    }

    /// The next token, left unread; at the end an empty one.
    pub fn peek(&self) -> &str {
        self.tokens.get(self.place).map_or("", String::as_str)
    }

    pub fn next(&mut self) -> String {
        let token = self.peek().to_string();
        assert!(!token.is_empty(), "the text ends too soon");
        self.place += 1;
        token
    }

    /// Reads the next token if it is this one.
    pub fn take(&mut self, token: &str) -> bool {
        let is_it = self.peek() == token;
        self.place += usize::from(is_it);
        is_it
    }

    /// These tokens, with spaces between them, must be next.
    pub fn expect(&mut self, tokens: &str) {
        for token in tokens.split(' ') {
            assert!(self.take(token), "{token} is expected, not {}", self.here());
        }
    }

    /// A name must be next.
    pub fn name(&mut self) -> String {
        let token = self.next();
        let is_name = token.starts_with(|c: char| c.is_alphabetic() || c == '_');
        assert!(is_name, "a name is expected, not {token} {}", self.here());
        token
    }

    /// A number must be next.
    pub fn number(&mut self) -> u64 {
        number(&self.next())
    }

    /// Reads all up to and with this token.
    pub fn skip_through(&mut self, end: &str) {
        while self.next() != end {}
    }

    /// Reads a group in brackets, with all groups in it.
    pub fn skip_group(&mut self) {
        assert!("([{".contains(self.peek()), "no group: {}", self.here());
        let mut depth = 0;
        loop {
            match self.next().as_str() {
                "(" | "[" | "{" => depth += 1,
                ")" | "]" | "}" => depth -= 1,
                _ => {}
            }
            if depth == 0 {
                return;
            }
        }
    }

    /// The next few tokens, for messages.
    pub fn here(&self) -> String {
        let rest = &self.tokens[self.place..];
        rest[..rest.len().min(12)].join(" ")
    }
}

/// The value of a number as C and Rust write it in plain digits.
pub fn number(token: &str) -> u64 {
    let value = token.replace('_', "").parse();
    value.unwrap_or_else(|_| panic!("a number is expected, not {token}"))
}
