// Applies a unified diff, strictly: every context line and every removed line must stand where the
// diff says. Shared by the build script and the test.

/// A diff of one file: its path and its hunks.
pub struct Patch {
    pub path: String,
    hunks: Vec<Hunk>,
}

struct Hunk {
    /// The first line it speaks of, counted from 0.
    start: usize,
    lines: Vec<String>,
}

/// Reads a diff; prose before the `---` line is passed over.
pub fn parse(text: &str) -> Result<Patch, String> {
    let mut path = None;
    let mut hunks: Vec<Hunk> = Vec::new();
    for line in text.lines() {
        if let Some(name) = line.strip_prefix("+++ b/") {
            path = Some(name.to_string());
        } else if line.starts_with("@@ -") {
            hunks.push(Hunk { start: start_of(line)?, lines: Vec::new() });
        } else if let Some(hunk) = hunks.last_mut() {
            hunk.lines.push(line.to_string());
        }
    }
    let path = path.ok_or("no +++ line")?;
    Ok(Patch { path, hunks })
}

/// The first line of `@@ -start,length +start,length @@`, counted from 0.
fn start_of(header: &str) -> Result<usize, String> {
    let number = header["@@ -".len()..].split([',', ' ']).next().unwrap_or("");
    match number.parse::<usize>() {
        Ok(line) if line > 0 => Ok(line - 1),
        _ => Err(format!("bad hunk header: {header}")),
    }
}

impl Patch {
    /// The text with every hunk applied.
    pub fn apply(&self, text: &str) -> Result<String, String> {
        let old: Vec<&str> = text.split_inclusive('\n').collect();
        let mut new = String::new();
        let mut at = 0;
        for hunk in &self.hunks {
            while at < hunk.start {
                new.push_str(old.get(at).ok_or("hunk past the end")?);
                at += 1;
            }
            for line in &hunk.lines {
                let (kind, body) = line.split_at(1.min(line.len()));
                if kind == "+" {
                    new.push_str(&format!("{body}\n"));
                    continue;
                }
                let stands = old.get(at).map(|line| line.trim_end_matches('\n'));
                if stands != Some(body) {
                    return Err(format!("{}:{}: not as the diff says", self.path, at + 1));
                }
                if kind != "-" {
                    new.push_str(old[at]);
                }
                at += 1;
            }
        }
        new.extend(old[at..].iter().copied());
        Ok(new)
    }
}
