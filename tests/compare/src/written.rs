//! What a program writes for a text, on which of its two outputs.

use second::Moved;

/// What a program writes.
#[derive(Clone, Debug, PartialEq, Eq)]
pub enum Written {
    /// An answer on standard output, which a refusal is, too.
    Answer(String),
    /// A text on standard output.
    Text(Vec<u8>),
    /// Instead of a text, a refusal on standard error.
    Refusal(String),
}

impl Written {
    /// All of standard output.
    pub fn stdout(&self) -> &[u8] {
        match self {
            Written::Answer(answer) => answer.as_bytes(),
            Written::Text(text) => text,
            Written::Refusal(_) => b"",
        }
    }

    /// All of standard error.
    pub fn stderr(&self) -> &[u8] {
        match self {
            Written::Refusal(refusal) => refusal.as_bytes(),
            Written::Answer(_) | Written::Text(_) => b"",
        }
    }

    /// The answer or the refusal; nothing where a text is written.
    pub fn said(&self) -> &str {
        match self {
            Written::Answer(said) | Written::Refusal(said) => said,
            Written::Text(_) => "",
        }
    }
}

impl From<Moved> for Written {
    fn from(moved: Moved) -> Self {
        match moved {
            Moved::Sheet(text) => Written::Text(text),
            Moved::Refused(refusal) => Written::Refusal(format!("{refusal}\n")),
        }
    }
}

#[cfg(test)]
mod tests {
    use super::*;

    #[test]
    fn each_kind_has_its_output() {
        let outputs = |written: &Written| (written.stdout().to_vec(), written.stderr().to_vec());
        let pair = |stdout: &str, stderr: &str| (stdout.into(), stderr.into());
        let answer = Written::Answer("refused=1 at=1\n".to_string());
        assert_eq!(outputs(&answer), pair("refused=1 at=1\n", ""));
        let refused = Written::from(second::up_text(b""));
        assert_eq!(outputs(&refused), pair("", "refused=1 at=1\n"));
        assert_eq!(refused.said(), answer.said());
        let header = second::Header::default().to_text();
        let moved = Written::from(second::up_text(header.as_bytes()));
        let header = second::Header::counted(24).to_text();
        assert_eq!(outputs(&moved), pair(&header, ""));
        assert_eq!(moved.said(), "");
    }
}
