//! The edits of a round, as a file of `crates/NAME/must-fail/` lists them.

/// One edit: its name, the item that it changes, the public function whose contract rules it out,
/// its file, each text that it replaces with what comes there, and why no run can see it change
/// something, where none can.
#[derive(Clone, Debug, PartialEq, Eq)]
pub struct Edit {
    pub label: String,
    pub item: String,
    pub contract: String,
    pub file: String,
    pub replaced: Vec<(String, String)>,
    pub unseen: Option<String>,
}

/// The edits of a file, none where it has no `edit:` line. Such a line is `edit: LABEL in ITEM` or
/// `edit: LABEL in ITEM for CONTRACT`. A name with `::` in it starts from the crate's root. A line
/// `unseen: WHY` below it says that no run can show the change.
pub fn parse(text: &str) -> Result<Vec<Edit>, String> {
    let mut edits: Vec<Edit> = Vec::new();
    let (mut file, mut old) = (String::new(), None);
    for line in text.lines() {
        if let Some(name) = line.strip_prefix("file: ") {
            file = name.to_string();
        } else if let Some(words) = line.strip_prefix("edit: ") {
            edits.push(head(words)?);
        } else if let (Some(why), Some(edit)) = (line.strip_prefix("unseen: "), edits.last_mut()) {
            edit.unseen = Some(why.to_string());
        } else if let Some(words) = line.strip_prefix("old: ") {
            old = Some(words.to_string());
        } else if let (Some(new), Some(edit)) = (line.strip_prefix("new:"), edits.last_mut()) {
            let old = old.take().ok_or("a new text with no old one")?;
            let new = new.strip_prefix(' ').unwrap_or(new).to_string();
            edit.file.clone_from(&file);
            edit.replaced.push((old, new));
        }
    }
    checked(text, edits)
}

fn checked(text: &str, edits: Vec<Edit>) -> Result<Vec<Edit>, String> {
    let first_pair = text.lines().position(|line| line.starts_with("old: "));
    let first_edit = text.lines().position(|line| line.starts_with("edit: "));
    match edits.iter().find(|edit| edit.replaced.is_empty()) {
        Some(edit) => Err(format!("{} replaces nothing", edit.label)),
        None if first_edit.is_some() && first_pair < first_edit => {
            Err("a replacement before the first edit".to_string())
        }
        None => Ok(edits),
    }
}

fn head(words: &str) -> Result<Edit, String> {
    let words: Vec<&str> = words.split_whitespace().collect();
    let (label, item, contract) = match words[..] {
        [label, "in", item] => (label, item, item),
        [label, "in", item, "for", contract] => (label, item, contract),
        _ => return Err(format!("not an edit: {}", words.join(" "))),
    };
    Ok(Edit {
        label: label.to_string(),
        item: item.to_string(),
        contract: contract.to_string(),
        file: String::new(),
        replaced: Vec::new(),
        unseen: None,
    })
}
