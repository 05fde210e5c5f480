//! Pieces of SVG, and how wide their text becomes.

pub const INK: &str = "#20242a";
pub const SOFT: &str = "#5c6570";
pub const PAPER: &str = "#ffffff";
pub const FRAME: &str = "#c9cfd6";
pub const SANS: &str = "Helvetica, Arial, 'DejaVu Sans', sans-serif";
pub const MONO: &str = "Menlo, Consolas, 'DejaVu Sans Mono', monospace";
pub const BOLD: &str = r#" font-weight="bold""#;
pub const DASHED: &str = r#" stroke-dasharray="6 4""#;

/// The width of a monospaced character at 12 px.
pub const CHAR: f64 = 7.2;

/// How much wider bold text may be.
pub const BOLDER: f64 = 1.2;

/// The colours of a line of the path: its own, and of what it marks.
#[derive(Clone, Copy)]
pub struct Colour {
    pub line: &'static str,
    pub fill: &'static str,
}

/// The colours, which the lines take in turn; no page shows more lines.
pub const COLOURS: [Colour; 8] = [
    Colour {
        line: "#1d62a8",
        fill: "#dceaf8",
    },
    Colour {
        line: "#b0500c",
        fill: "#fbe5d2",
    },
    Colour {
        line: "#2b7a3d",
        fill: "#dbf0df",
    },
    Colour {
        line: "#7b3aa3",
        fill: "#eedff7",
    },
    Colour {
        line: "#a8243c",
        fill: "#f8dce1",
    },
    Colour {
        line: "#0f7a7a",
        fill: "#d5efef",
    },
    Colour {
        line: "#6b6a00",
        fill: "#efeecb",
    },
    Colour {
        line: "#b0308a",
        fill: "#f8dcef",
    },
];

/// A number with one digit behind the point, or none if that is 0.
pub fn number(value: f64) -> String {
    let text = format!("{value:.1}");
    text.strip_suffix(".0").map(str::to_owned).unwrap_or(text)
}

/// The text as XML may hold it.
pub fn escape(text: &str) -> String {
    let mut out = String::with_capacity(text.len());
    for letter in text.chars() {
        match letter {
            '&' => out.push_str("&amp;"),
            '<' => out.push_str("&lt;"),
            '>' => out.push_str("&gt;"),
            '"' => out.push_str("&quot;"),
            '\'' => out.push_str("&#x27;"),
            '\t' | '\n' | '\r' => out.push(letter),
            '\0'..' ' | '\u{fffe}' | '\u{ffff}' => out.push('\u{fffd}'),
            _ => out.push(letter),
        }
    }
    out
}

/// A line of text that is to be placed.
pub struct Words<'a> {
    at: (f64, f64),
    text: &'a str,
    size: f64,
    fill: &'a str,
    anchor: &'static str,
    more: String,
}

impl<'a> Words<'a> {
    /// Words about the middle x, on the base line y.
    pub fn at(x: f64, y: f64, text: &'a str) -> Words<'a> {
        let (size, fill, anchor) = (12.0, INK, "middle");
        Words {
            at: (x, y),
            text,
            size,
            fill,
            anchor,
            more: String::new(),
        }
    }

    pub fn size(self, size: f64) -> Words<'a> {
        Words { size, ..self }
    }

    pub fn fill(self, fill: &'a str) -> Words<'a> {
        Words { fill, ..self }
    }

    /// The words begin at x.
    pub fn start(self) -> Words<'a> {
        Words {
            anchor: "start",
            ..self
        }
    }

    /// More attributes, each with a space before it.
    pub fn more(self, more: impl Into<String>) -> Words<'a> {
        Words {
            more: more.into(),
            ..self
        }
    }

    /// Monospaced, in the width that is reckoned with.
    pub fn mono(self) -> Words<'a> {
        let length = number(self.text.chars().count() as f64 * CHAR * self.size / 12.0);
        self.more(format!(r#" font-family="{MONO}" textLength="{length}""#))
    }

    /// In the width that is reckoned with, where that of a letter is not known.
    pub fn held(self) -> Words<'a> {
        if self.text.chars().all(is_known) {
            return self;
        }
        let length = number(width(self.text, self.size));
        self.more(format!(
            r#" textLength="{length}" lengthAdjust="spacingAndGlyphs""#
        ))
    }

    pub fn svg(&self) -> String {
        let [x, y, size] = [self.at.0, self.at.1, self.size].map(number);
        let Words {
            fill, anchor, more, ..
        } = self;
        let text = escape(self.text);
        format!(
            r#"<text x="{x}" y="{y}" font-size="{size}" fill="{fill}" text-anchor="{anchor}"{more}>{text}</text>"#
        )
    }
}

/// At least the width of the text in any of the fonts, if its letters are known, and else a guess.
pub fn width(text: &str, size: f64) -> f64 {
    text.chars().map(em).sum::<f64>() * size
}

/// The text, or as much of it as has room, with `…` behind it.
pub fn cut(text: &str, size: f64, room: f64) -> String {
    if width(text, size) <= room {
        return text.to_owned();
    }
    let mut used = em('…') * size;
    let kept = text.chars().take_while(|&letter| {
        used += em(letter) * size;
        used <= room
    });
    kept.collect::<String>().trim_end().to_owned() + "…"
}

/// The width of a letter in its size.
fn em(letter: char) -> f64 {
    match letter {
        'm' | 'M' | 'W' | '%' | '@' => 1.02,
        'w' => 0.84,
        ' ' | '!' | '\'' | '(' | ')' | ',' | '-' | '.' | '/' | ':' | ';' => 0.42,
        'I' | '[' | '\\' | ']' | 'f' | 'i' | 'j' | 'l' | 'r' | 't' | '|' => 0.42,
        'a'..='z' | '0'..='9' | '"' | '$' | '*' | '?' | '_' | '`' | '{' | '}' => 0.64,
        _ if letter.is_lowercase() => 0.64,
        _ if letter < '\u{1100}' => 0.84,
        _ => 1.05,
    }
}

/// Whether the letter is never wider than `em` says.
fn is_known(letter: char) -> bool {
    matches!(letter, ' '..='~' | 'À'..='ſ' | '…')
        && !matches!(letter, 'Æ' | 'æ' | 'Œ' | 'œ' | 'Ŵ' | 'ŵ' | 'ŉ' | 'Ħ' | 'ħ')
}
