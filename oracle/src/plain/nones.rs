//! Nones read back from FIND's answer, and `cut` by the former rule.

/// What a none says.
#[derive(Clone, Copy, Debug, Eq, PartialEq)]
pub struct Said {
    pub expanded: usize,
    pub cut: bool,
}

impl Said {
    /// `cut` by document 01: expanded equals nodes. Document 02, wish 4, put another rule in its place.
    pub fn was_cut(&self, nodes: usize) -> bool {
        self.expanded == nodes
    }

    /// Reads a block from behind its `answer=`; nothing if it is no none.
    fn read(block: &str) -> Option<Said> {
        let lines = block.strip_prefix("none\n")?;
        let lines: Vec<&str> = lines.split_terminator('\n').collect();
        let [_left, _right, expanded, cut] = lines[..] else {
            panic!("a none has five lines: {block}");
        };
        let expanded = expanded.strip_prefix("expanded=").map(str::parse);
        let Some(Ok(expanded)) = expanded else {
            panic!("a none tells the terms opened: {block}");
        };
        let cut = match cut {
            "cut=yes" => true,
            "cut=no" => false,
            _ => panic!("a none ends with cut: {block}"),
        };
        Some(Said { expanded, cut })
    }
}

/// What each none of an answer says, in the order of the blocks.
pub fn nones(answer: &[u8]) -> Vec<Said> {
    let text = std::str::from_utf8(answer).expect("answers are ASCII");
    text.split("answer=").filter_map(Said::read).collect()
}

/// The answer without the `cut` lines of its nones.
pub fn without_cut(answer: &[u8]) -> Vec<u8> {
    let lines = answer.split_inclusive(|&byte| byte == b'\n');
    let others = lines.filter(|line| !line.starts_with(b"cut="));
    others.collect::<Vec<_>>().concat()
}
