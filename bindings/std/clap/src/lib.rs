//! Stands for the toolchain's `clap`, as far as the programs use it: a command with long options that each take one value
//! and may be given once, or again if their action is to append.
//!
//! The rules, which are clap's own: `--name value` and `--name=value`; a value may be empty; a word that begins with `-`
//! and has more is no value behind a space; `--` ends the options, and nothing may stand behind it, since the command
//! takes no other words; an option is given once if it does not append, and one that is required at least once; `--help` is an answer of its
//! own, and so an `Err`.

#![forbid(unsafe_code)]

use rattle_std::alloc::{AllocError, Global};
use rattle_std::vec::Vec;

pub mod error {
    //! Why words are no command line.

    /// The kinds of errors that a caller here tells apart.
    #[derive(Clone, Copy, Debug, PartialEq, Eq)]
    pub enum ErrorKind {
        /// `--help` or `-h`.
        DisplayHelp,
        /// A word that is no option, or stands where none may stand.
        UnknownArgument,
        /// An option without its value.
        InvalidValue,
        /// An option that was given twice.
        ArgumentConflict,
        /// A required option that was not given.
        MissingRequiredArgument,
        OutOfMemory,
    }
}

use error::ErrorKind;

/// Why words are no command line.
#[derive(Debug)]
pub struct Error {
    kind: ErrorKind,
}

impl Error {
    pub fn kind(&self) -> ErrorKind {
        self.kind
    }
}

impl From<AllocError> for Error {
    fn from(_: AllocError) -> Error {
        ErrorKind::OutOfMemory.into()
    }
}

impl From<ErrorKind> for Error {
    fn from(kind: ErrorKind) -> Error {
        Error { kind }
    }
}

/// What an option does with a value: it is the only one, or comes after those before it; or the option takes none.
#[derive(Clone, Copy, Debug, PartialEq, Eq)]
pub enum ArgAction {
    Set,
    Append,
    SetTrue,
}

/// An option that takes one value, or none.
#[derive(Debug)]
pub struct Arg<'a> {
    id: &'a str,
    long: Option<&'a str>,
    is_required: bool,
    action: ArgAction,
}

impl<'a> Arg<'a> {
    pub fn new(_alloc: Global, id: &'a str) -> Arg<'a> {
        Arg {
            id,
            long: None,
            is_required: false,
            action: ArgAction::Set,
        }
    }

    /// The name behind two dashes.
    pub fn long(mut self, name: &'a str) -> Arg<'a> {
        self.long = Some(name);
        self
    }

    /// Whether it has to be given.
    pub fn required(mut self, is_required: bool) -> Arg<'a> {
        self.is_required = is_required;
        self
    }

    /// What it does with a value.
    pub fn action(mut self, action: ArgAction) -> Arg<'a> {
        self.action = action;
        self
    }
}

/// A command and its options.
#[derive(Debug)]
pub struct Command<'a> {
    alloc: Global,
    args: Vec<Arg<'a>>,
    has_binary_name: bool,
}

impl<'a> Command<'a> {
    pub fn new(alloc: Global, _name: &'a str) -> Command<'a> {
        Command {
            alloc,
            args: Vec::new(alloc),
            has_binary_name: true,
        }
    }

    /// Whether the first of the words is an option, and not the program's name.
    pub fn no_binary_name(mut self, has_none: bool) -> Command<'a> {
        self.has_binary_name = !has_none;
        self
    }

    pub fn arg(mut self, arg: Arg<'a>) -> Result<Command<'a>, AllocError> {
        self.args.push(arg)?;
        Ok(self)
    }

    /// What the words give for each option.
    pub fn try_get_matches_from<S: AsRef<str>>(self, words: &'a [S]) -> Result<ArgMatches<'a>, Error> {
        let mut values: Vec<Vec<&'a str>> = Vec::new(self.alloc);
        for _ in self.args.as_slice() {
            values.push(Vec::new(self.alloc))?;
        }
        let mut rest = words.iter().map(AsRef::as_ref).skip(usize::from(self.has_binary_name));
        while let Some(word) = rest.next() {
            if word == "--" {
                return match rest.next() {
                    Some(_) => Err(ErrorKind::UnknownArgument.into()),
                    None => self.matches(values),
                };
            }
            let (at, attached) = self.option(word)?;
            if self.args[at].action != ArgAction::Append && !values[at].is_empty() {
                return Err(ErrorKind::ArgumentConflict.into());
            }
            let value = match self.args[at].action {
                ArgAction::SetTrue if attached.is_some() => None,
                ArgAction::SetTrue => Some("true"),
                ArgAction::Set | ArgAction::Append => attached.or_else(|| rest.next().filter(|next| is_value(next))),
            };
            values[at].push(value.ok_or(ErrorKind::InvalidValue)?)?;
        }
        self.matches(values)
    }

    /// The place of the option that a word names, and the value that hangs on it.
    fn option(&self, word: &'a str) -> Result<(usize, Option<&'a str>), Error> {
        let Some(named) = word.strip_prefix("--") else {
            return Err(match word {
                "-h" => ErrorKind::DisplayHelp.into(),
                _ => ErrorKind::UnknownArgument.into(),
            });
        };
        let (name, value) = match named.split_once('=') {
            Some((name, value)) => (name, Some(value)),
            None => (named, None),
        };
        match self.args.iter().position(|arg| arg.long == Some(name)) {
            Some(at) => Ok((at, value)),
            None if name == "help" => Err(ErrorKind::DisplayHelp.into()),
            None => Err(ErrorKind::UnknownArgument.into()),
        }
    }

    /// The values, if each option that is required has one.
    fn matches(self, values: Vec<Vec<&'a str>>) -> Result<ArgMatches<'a>, Error> {
        let is_missing = |(arg, given): (&Arg<'_>, &Vec<&str>)| arg.is_required && given.is_empty();
        if self.args.iter().zip(&values).any(is_missing) {
            return Err(ErrorKind::MissingRequiredArgument.into());
        }
        Ok(ArgMatches {
            args: self.args,
            values,
        })
    }
}

/// Whether a word may stand behind an option as its value: a lone `-` may, a word that looks like an option may not.
fn is_value(word: &str) -> bool {
    word == "-" || !word.starts_with('-')
}

/// What was given for each option.
#[derive(Debug)]
pub struct ArgMatches<'a> {
    args: Vec<Arg<'a>>,
    values: Vec<Vec<&'a str>>,
}

impl<'a> ArgMatches<'a> {
    /// The value of an option, the first if there are more.
    pub fn get_str(&self, id: &str) -> Option<&'a str> {
        self.get_strs(id)?.first().copied()
    }

    /// Whether an option that takes no value is given.
    pub fn get_flag(&self, id: &str) -> bool {
        self.get_strs(id).is_some()
    }

    /// The values of an option, if it is given.
    pub fn get_strs(&self, id: &str) -> Option<&[&'a str]> {
        let at = self.args.iter().position(|arg| arg.id == id)?;
        let given = self.values[at].as_slice();
        (!given.is_empty()).then_some(given)
    }
}

#[cfg(test)]
mod tests {
    use super::*;

    /// What the words give for `--group` and for `--agg`, which is required.
    fn parsed(words: &str) -> Result<(Option<String>, Option<String>), ErrorKind> {
        let words: std::vec::Vec<&str> = if words.is_empty() { vec![] } else { words.split(' ').collect() };
        let command = Command::new(Global, "pargather")
            .no_binary_name(true)
            .arg(Arg::new(Global, "group").long("group"))
            .and_then(|command| command.arg(Arg::new(Global, "agg").long("agg").required(true)))
            .unwrap();
        let matches = command.try_get_matches_from(&words).map_err(|error| error.kind())?;
        Ok((matches.get_str("group").map(String::from), matches.get_str("agg").map(String::from)))
    }

    fn values(group: Option<&str>, agg: &str) -> Result<(Option<String>, Option<String>), ErrorKind> {
        Ok((group.map(String::from), Some(String::from(agg))))
    }

    #[test]
    fn takes_what_clap_takes() {
        assert_eq!(parsed("--agg count"), values(None, "count"));
        assert_eq!(parsed("--group a --agg=sum:b"), values(Some("a"), "sum:b"));
        assert_eq!(parsed("--agg=a=b --group="), values(Some(""), "a=b"));
        assert_eq!(parsed("--agg - --group=-x --"), values(Some("-x"), "-"));
        assert_eq!(parsed("--agg "), values(None, ""));
    }

    #[test]
    fn appends() {
        let words = ["--where", "a", "--where=b", "--where=", "--agg", "c"];
        let command = Command::new(Global, "parstream")
            .no_binary_name(true)
            .arg(Arg::new(Global, "where").long("where").action(ArgAction::Append))
            .and_then(|command| command.arg(Arg::new(Global, "agg").long("agg").required(true)))
            .unwrap();
        let matches = command.try_get_matches_from(&words).unwrap();
        assert_eq!(matches.get_strs("where"), Some(["a", "b", ""].as_slice()));
        assert_eq!(matches.get_strs("agg"), Some(["c"].as_slice()));
        assert_eq!(matches.get_str("where"), Some("a"));
    }

    #[test]
    fn takes_flags() {
        let parsed = |words: &'static [&'static str]| {
            let command = Command::new(Global, "parstream")
                .no_binary_name(true)
                .arg(Arg::new(Global, "trim").long("trim").action(ArgAction::SetTrue))
                .unwrap();
            command.try_get_matches_from(words).map(|matches| matches.get_flag("trim")).map_err(|error| error.kind())
        };
        assert_eq!(parsed(&[]), Ok(false));
        assert_eq!(parsed(&["--trim"]), Ok(true));
        assert_eq!(parsed(&["--trim", "--trim"]), Err(ErrorKind::ArgumentConflict));
        assert_eq!(parsed(&["--trim=true"]), Err(ErrorKind::InvalidValue));
        assert_eq!(parsed(&["--trim="]), Err(ErrorKind::InvalidValue));
        assert_eq!(parsed(&["--trim", "true"]), Err(ErrorKind::UnknownArgument));
    }

    #[test]
    fn refuses_what_clap_refuses() {
        assert_eq!(parsed(""), Err(ErrorKind::MissingRequiredArgument));
        assert_eq!(parsed("--agg"), Err(ErrorKind::InvalidValue));
        assert_eq!(parsed("--agg --group"), Err(ErrorKind::InvalidValue));
        assert_eq!(parsed("--agg -5"), Err(ErrorKind::InvalidValue));
        assert_eq!(parsed("--agg a --agg b"), Err(ErrorKind::ArgumentConflict));
        assert_eq!(parsed("--agg a more"), Err(ErrorKind::UnknownArgument));
        assert_eq!(parsed("--agg a -- more"), Err(ErrorKind::UnknownArgument));
        assert_eq!(parsed("--ag a"), Err(ErrorKind::UnknownArgument));
        assert_eq!(parsed("--agg a --help"), Err(ErrorKind::DisplayHelp));
    }
}
