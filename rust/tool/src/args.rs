//! A verb's arguments: options anywhere, and operands.

use std::ffi::{OsStr, OsString};
use std::os::unix::ffi::OsStrExt;

use mfs::{Fork, Volume};

use crate::names;

/// The options, and whether each has a value.
const OPTIONS: [(&str, bool); 11] = [
    ("-r", false),
    ("-l", false),
    ("--json", false),
    ("--wrapped", false),
    ("--bare", false),
    ("--as", true),
    ("--type", true),
    ("--creator", true),
    ("--date", true),
    ("--name", true),
    ("--format", true),
];

/// Options that don't go together.
const APART: [(&str, &str); 2] = [("-l", "--json"), ("--wrapped", "--bare")];

/// The options and operands behind a verb.
pub struct Arguments {
    options: Vec<(&'static str, OsString)>,
    operands: Vec<OsString>,
}

impl Arguments {
    /// Sorts the words behind a verb that takes the options listed.
    pub fn parse(words: &[OsString], taken: &[&str]) -> Result<Arguments, String> {
        let mut arguments = Arguments {
            options: Vec::new(),
            operands: Vec::new(),
        };
        let mut words = words.iter();
        while let Some(word) = words.next() {
            if word == "--" {
                arguments.operands.extend(words.by_ref().cloned());
            } else if word.as_bytes().starts_with(b"-") && word != "-" {
                let (option, value) = option(word, &mut words, taken)?;
                if arguments.has(option) {
                    return Err(format!("{option} is given twice"));
                }
                arguments.options.push((option, value));
            } else {
                arguments.operands.push(word.clone());
            }
        }
        match APART
            .iter()
            .find(|(one, other)| arguments.has(one) && arguments.has(other))
        {
            Some((one, other)) => Err(format!("{one} and {other} don't go together")),
            None => Ok(arguments),
        }
    }

    /// The value of an option, if it is given.
    pub fn value(&self, option: &str) -> Option<&OsStr> {
        let given = self.options.iter().find(|(name, _)| *name == option);
        given.map(|(_, value)| value.as_os_str())
    }

    /// Whether an option is given.
    pub fn has(&self, option: &str) -> bool {
        self.value(option).is_some()
    }

    /// The fork that `-r` chooses.
    pub fn fork(&self) -> Fork {
        if self.has("-r") {
            Fork::Resource
        } else {
            Fork::Data
        }
    }

    /// How the volume stands in a file: as `--wrapped` or `--bare` says, else as the file's header does.
    pub fn volume(&self, file: &[u8]) -> Volume {
        if self.has("--wrapped") {
            Volume::Wrapped
        } else if self.has("--bare") {
            Volume::Bare
        } else {
            Volume::of(file)
        }
    }

    /// All operands.
    pub fn operands(&self) -> &[OsString] {
        &self.operands
    }

    /// The operand at a place; empty where there is none, which a verb's count of operands rules out.
    pub fn operand(&self, place: usize) -> &OsStr {
        self.operands.get(place).map(OsString::as_os_str).unwrap_or_default()
    }
}

/// The option that a word gives, with its value, which may be the next word.
fn option<'a>(
    word: &OsStr,
    rest: &mut impl Iterator<Item = &'a OsString>,
    taken: &[&str],
) -> Result<(&'static str, OsString), String> {
    let shown = names::path(word);
    let mut parts = word.as_bytes().splitn(2, |&byte| byte == b'=');
    let name = parts.next().unwrap_or_default();
    let joined = parts.next().map(|value| OsStr::from_bytes(value).to_os_string());
    let known = OPTIONS.iter().find(|(option, _)| option.as_bytes() == name);
    let Some(&(option, has_value)) = known else {
        return Err(format!("there is no option {shown}"));
    };
    if !taken.contains(&option) {
        return Err(format!("{option} is not an option of this verb"));
    }
    match (has_value, joined) {
        (true, Some(value)) => Ok((option, value)),
        (true, None) => match rest.next() {
            Some(value) => Ok((option, value.clone())),
            None => Err(format!("{option} needs a value")),
        },
        (false, None) => Ok((option, OsString::new())),
        (false, Some(_)) => Err(format!("{option} takes no value")),
    }
}

#[cfg(test)]
mod tests {
    use super::*;

    fn parse(words: &[&str]) -> Result<Arguments, String> {
        let words: Vec<OsString> = words.iter().map(OsString::from).collect();
        Arguments::parse(&words, &["-r", "--as", "--date", "--wrapped", "--bare"])
    }

    #[test]
    fn options_anywhere() {
        let arguments = parse(&["a", "--as", "-x", "-", "-r", "--date=now", "--", "-r", "--"]).unwrap();
        assert_eq!(arguments.operands(), ["a", "-", "-r", "--"]);
        assert_eq!(arguments.operand(1), "-");
        assert_eq!(arguments.operand(9), "");
        assert_eq!(arguments.value("--as"), Some(OsStr::new("-x")));
        assert_eq!(arguments.value("--date"), Some(OsStr::new("now")));
        assert_eq!(arguments.fork(), Fork::Resource);
        assert!(!arguments.has("--json"));
    }

    #[test]
    fn bare_or_wrapped() {
        for (words, volume) in [
            (&["a"][..], Volume::Bare),
            (&["a", "--bare"], Volume::Bare),
            (&["--wrapped", "a"], Volume::Wrapped),
        ] {
            assert_eq!(parse(words).unwrap().volume(&[0; 409_684]), volume);
        }
    }

    #[test]
    fn bad_options() {
        for words in [
            &["-x"][..],
            &["-rr"],
            &["-l"],
            &["--json"],
            &["--as"],
            &["-r", "-r"],
            &["-r="],
            &["--as", "a", "--as=b"],
            &["--dat", "now"],
            &["-5"],
            &["--wrapped", "--bare"],
            &["--wrapped=1"],
        ] {
            assert!(parse(words).is_err(), "{words:?}");
        }
    }
}
