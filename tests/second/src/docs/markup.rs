//! Markdown as far as the documents use it: headings, paragraphs, lists,
//! tables, code.

/// A part of a passage.
#[derive(Clone, Debug, PartialEq, Eq)]
pub enum Part {
    Prose(String),
    /// A text in code quotes; struck through if it is gone.
    Code {
        text: String,
        line: usize,
        struck: bool,
    },
}

/// A paragraph, an item of a list, or a cell of a table.
#[derive(Clone, Debug, PartialEq, Eq)]
pub struct Passage {
    pub line: usize,
    pub parts: Vec<Part>,
}

#[derive(Clone, Debug, PartialEq, Eq)]
pub enum Block {
    Heading {
        depth: usize,
        text: String,
    },
    Passage(Passage),
    Table {
        heads: Vec<String>,
        rows: Vec<Vec<Passage>>,
    },
    /// Lines with their numbers.
    Code(Vec<(usize, String)>),
}

/// The comments of a C header; what stands between them becomes blank.
pub fn comments(header: &str) -> String {
    let mut inside = false;
    let mut lines = Vec::new();
    for line in header.lines() {
        let opened = line.trim_start().strip_prefix("/*");
        let mut rest = match opened {
            Some(rest) => {
                inside = true;
                rest.trim_start()
            }
            None if inside => line.strip_prefix("   ").unwrap_or(line),
            None => "",
        };
        if let Some(end) = rest.find("*/") {
            rest = &rest[..end];
            inside = false;
        }
        lines.push(rest);
    }
    lines.join("\n")
}

/// The blocks of a document.
pub fn blocks(document: &str) -> Vec<Block> {
    let lines: Vec<&str> = document.lines().collect();
    let mut found = Vec::new();
    let mut at = 0;
    while at < lines.len() {
        let end = end_of_block(&lines, at);
        if !lines[at].trim().is_empty() {
            found.push(block(&lines[at..end], at + 1));
        }
        at = end;
    }
    found
}

/// Where the block that begins at line `at` ends.
fn end_of_block(lines: &[&str], at: usize) -> usize {
    let first = lines[at];
    let goes_on: fn(&str) -> bool = if first.trim().is_empty() || first.starts_with('#') {
        |_| false
    } else if first.starts_with('|') {
        |line| line.starts_with('|')
    } else if first.starts_with("    ") {
        |line| line.starts_with("    ")
    } else {
        |line| !line.trim().is_empty() && !line.starts_with('|') && !begins_item(line)
    };
    let more = lines[at + 1..].iter().take_while(|line| goes_on(line));
    at + 1 + more.count()
}

/// Whether an item of a list begins here.
fn begins_item(line: &str) -> bool {
    let line = line.trim_start();
    let number = line.trim_start_matches(|c: char| c.is_ascii_digit());
    line.starts_with("- ") || number.len() < line.len() && number.starts_with(". ")
}

fn block(lines: &[&str], number: usize) -> Block {
    let first = lines[0];
    if first.starts_with('#') {
        let text = first.trim_start_matches('#');
        return Block::Heading {
            depth: first.len() - text.len(),
            text: text.trim().to_string(),
        };
    }
    if first.starts_with('|') {
        return table(lines, number);
    }
    if first.starts_with("    ") {
        let numbered = lines.iter().enumerate();
        let code = numbered.map(|(k, line)| (number + k, line[4..].to_string()));
        return Block::Code(code.collect());
    }
    Block::Passage(passage(&lines.join("\n"), number))
}

fn table(lines: &[&str], number: usize) -> Block {
    let heads = cells(lines[0]).map(|cell| cell.trim().to_string());
    let rows = lines.iter().enumerate().skip(2);
    Block::Table {
        heads: heads.collect(),
        rows: rows
            .map(|(k, line)| cells(line).map(|cell| passage(cell, number + k)).collect())
            .collect(),
    }
}

fn cells(line: &str) -> impl Iterator<Item = &str> {
    line.trim().trim_matches('|').split('|')
}

/// A passage that begins at this line.
pub fn passage(text: &str, line: usize) -> Passage {
    let mut parts = Vec::new();
    let mut rest = text;
    let mut here = line;
    while let Some((before, code, behind)) = first_quoted(rest) {
        here += newlines(before);
        let struck = before.ends_with("~~") && behind.starts_with("~~");
        parts.push(Part::Prose(before.to_string()));
        parts.push(Part::Code {
            text: code_text(code),
            line: here,
            struck,
        });
        here += newlines(code);
        rest = behind;
    }
    parts.push(Part::Prose(rest.to_string()));
    Passage { line, parts }
}

fn newlines(text: &str) -> usize {
    text.matches('\n').count()
}

/// What stands before, in and behind the first code quotes.
fn first_quoted(text: &str) -> Option<(&str, &str, &str)> {
    let start = text.find('`')?;
    let width = text[start..].chars().take_while(|&c| c == '`').count();
    let quote = &text[start..start + width];
    let inner = &text[start + width..];
    let mut from = 0;
    loop {
        let at = from + inner[from..].find(quote)?;
        let run = inner[at..].chars().take_while(|&c| c == '`').count();
        if run == width {
            return Some((&text[..start], &inner[..at], &inner[at + width..]));
        }
        from = at + run;
    }
}

/// Prose with every run of blanks as one space.
pub fn one_spaced(prose: &str) -> String {
    let mut text = String::new();
    for c in prose.chars().map(|c| if c == '\n' { ' ' } else { c }) {
        if c != ' ' || !text.ends_with(' ') {
            text.push(c);
        }
    }
    text
}

/// A space on both sides is the quotes' own.
fn code_text(code: &str) -> String {
    let code = code.replace('\n', " ");
    let padded = code.len() > 2 && code.starts_with(' ') && code.ends_with(' ');
    if padded && !code.trim().is_empty() {
        return code[1..code.len() - 1].to_string();
    }
    code
}

#[cfg(test)]
mod tests {
    use super::*;

    fn codes(text: &str) -> Vec<String> {
        let code = |part| match part {
            Part::Code { text, .. } => Some(text),
            Part::Prose(_) => None,
        };
        let parts = passage(text, 1).parts;
        parts.into_iter().filter_map(code).collect()
    }

    #[test]
    fn code_in_quotes() {
        assert_eq!(codes("a `b` c `d e`"), ["b", "d e"]);
        assert_eq!(codes("` 5` and `` 5 ` ``"), [" 5", "5 `"]);
        assert!(codes("a lone ` is no quote").is_empty());
    }

    #[test]
    fn lines_are_counted() {
        let parts = passage("a\n`b`\n`c`", 7).parts;
        let line = |part: &Part| match part {
            Part::Code { line, .. } => Some(*line),
            Part::Prose(_) => None,
        };
        let lines: Vec<usize> = parts.iter().filter_map(line).collect();
        assert_eq!(lines, [8, 9]);
    }

    #[test]
    fn blocks_of_a_document() {
        let text = "# A\n\nb\nc\n- d\n\n    e\n    f\n\n| g | h |\n|---|---|\n| i | j |\n";
        let found = blocks(text);
        assert_eq!(found.len(), 5);
        assert!(matches!(&found[3], Block::Code(lines) if lines.len() == 2 && lines[0].0 == 7));
        assert!(
            matches!(&found[4], Block::Table { heads, rows } if heads == &["g", "h"] && rows.len() == 1)
        );
    }

    #[test]
    fn comments_of_a_header() {
        let text = "/* a\n   b */\nint c;\n#define D 1 /* e */\n/* f */\n";
        assert_eq!(comments(text), "a\nb \n\n\nf ");
    }
}
