//! How the harness was started, and lines that show a part of its run again.

pub struct Run {
    /// This program's own path.
    pub harness: String,
    /// What starts the driver, or the program.
    pub command: Vec<String>,
}

impl Run {
    /// A line for a shell.
    pub fn line(&self, words: &str) -> String {
        let command: Vec<String> = self.command.iter().map(|word| quoted(word)).collect();
        format!("{} {words} -- {}", quoted(&self.harness), command.join(" "))
    }
}

fn quoted(word: &str) -> String {
    let plain = |letter: char| letter.is_ascii_alphanumeric() || "/._-+=:,@%".contains(letter);
    if !word.is_empty() && word.chars().all(plain) {
        return word.to_string();
    }
    format!("'{}'", word.replace('\'', r"'\''"))
}

#[cfg(test)]
mod tests {
    use super::*;

    #[test]
    fn a_shell_reads_the_words_back() {
        let command = ["emulator", "my driver", "it's", ""].map(String::from).to_vec();
        let run = Run { harness: "target/harness".to_string(), command };
        let line = r"target/harness calls 1 2 take -- emulator 'my driver' 'it'\''s' ''";
        assert_eq!(run.line("calls 1 2 take"), line);
    }
}
