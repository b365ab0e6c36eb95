//! The command line.

pub const USAGE: &str = "usage: compare.sh [--files N] [--large N] [--lists N] [--seed S]";

pub struct Options {
    pub files: usize,
    /// Files of many thousand blocks.
    pub large: usize,
    pub lists: usize,
    pub seed: u64,
}

fn number<T: std::str::FromStr>(name: &str, word: Option<String>) -> Result<T, String> {
    let word = word.ok_or_else(|| format!("{name} wants a number"))?;
    word.parse().map_err(|_| format!("{name} wants a number, not '{word}'"))
}

impl Options {
    pub fn parse(words: impl Iterator<Item = String>) -> Result<Options, String> {
        let mut options = Options { files: 200_000, large: 60, lists: 5_000, seed: 1 };
        let mut words = words;
        while let Some(word) = words.next() {
            match word.as_str() {
                "--files" => options.files = number("--files", words.next())?,
                "--large" => options.large = number("--large", words.next())?,
                "--lists" => options.lists = number("--lists", words.next())?,
                "--seed" => options.seed = number("--seed", words.next())?,
                _ => return Err(format!("unknown word '{word}'")),
            }
        }
        Ok(options)
    }
}
