//! The blocks of an answer of FIND, one for each right side of the job, in its order; one of WEIGH is a block.

/// A block: its lines, of which the first says `answer=`.
pub struct Block<'a>(Vec<&'a str>);

/// The blocks of an answer; none of one that WORDS, RENAME or SAME gave.
pub fn blocks(answer: &[u8]) -> Vec<Block<'_>> {
    let mut blocks: Vec<Block> = Vec::new();
    for line in str::from_utf8(answer).unwrap_or_default().lines() {
        match blocks.last_mut() {
            _ if line.starts_with("answer=") => blocks.push(Block(vec![line])),
            Some(Block(lines)) => lines.push(line),
            None => {}
        }
    }
    blocks
}

impl<'a> Block<'a> {
    /// The values of its lines, with their keys.
    pub fn values(&self) -> impl Iterator<Item = (&'a str, &'a str)> {
        self.0.iter().filter_map(|line| line.split_once('='))
    }

    pub fn is_none(&self) -> bool {
        self.0[0] == "answer=none"
    }

    /// Whether nodes ran out with a derivation in hand, as WEIGH says.
    pub fn is_in_hand(&self) -> bool {
        self.0[0] == "answer=atmost"
    }

    pub fn is_refused(&self) -> bool {
        self.0[0] == "answer=refused"
    }

    /// The number in its line with that key.
    pub fn number(&self, wanted: &str) -> Option<usize> {
        let (_, value) = self.values().find(|(key, _)| *key == wanted)?;
        value.parse().ok()
    }

    /// Whether the line is one of its lines.
    pub fn has(&self, line: &str) -> bool {
        self.0.contains(&line)
    }
}

#[cfg(test)]
mod tests {
    use super::*;

    #[test]
    fn an_answer_is_cut_before_each_line_that_says_answer() {
        let answer = b"answer=none\nleft=v0\ncut=no\nanswer=refused\nnumber=7\nanswer=proved\nanswer=atmost\n";
        let blocks = blocks(answer);
        let kind = |block: &Block| [block.is_none(), block.is_refused(), block.is_in_hand()];
        let kinds: Vec<_> = blocks.iter().map(kind).collect();
        let (yes, no) = (true, false);
        let due = [[yes, no, no], [no, yes, no], [no, no, no], [no, no, yes]];
        assert_eq!(kinds, due);
        assert!(blocks[0].has("cut=no") && !blocks[0].has("number=7"));
        let values: Vec<_> = blocks[1].values().collect();
        assert_eq!(values, [("answer", "refused"), ("number", "7")]);
        let numbers = ["number", "answer", "left"].map(|key| blocks[1].number(key));
        assert_eq!(numbers, [Some(7), None, None]);
    }

    #[test]
    fn an_answer_of_words_has_no_blocks() {
        assert!(blocks(b"same=yes\nleft=v0\nright=v0\n").is_empty());
    }
}
