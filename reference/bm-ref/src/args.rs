//! The arguments that a command is given.

use crate::failure::Failure;
use crate::files;
use crate::table::{Command, MISSING_AS_EMPTY, Opt};

/// The arguments of a command, as many as it takes, and its options.
pub struct Given<'a> {
    command: &'static Command,
    args: Vec<&'a str>,
    /// Each option with its file; a flag has none.
    options: Vec<(&'static str, Option<&'a str>)>,
}

impl<'a> Given<'a> {
    /// Parts arguments from options, and refuses what the command does not
    /// take.
    pub fn new(command: &'static Command, given: &[&'a str]) -> Result<Given<'a>, Failure> {
        let mut parted = Given { command, args: Vec::new(), options: Vec::new() };
        let mut rest = given.iter();
        while let Some(arg) = rest.next() {
            if arg.starts_with("--") {
                parted.option(arg, &mut rest)?;
            } else if parted.args.len() == command.wants.len() + command.may.len() {
                return Err(command.wrong(format!("unexpected argument '{arg}'")));
            } else {
                parted.args.push(arg);
            }
        }
        match command.wants.get(parted.args.len()) {
            Some(arg) => Err(command.wrong(format!("argument {} is missing", arg.name))),
            None => Ok(parted),
        }
    }

    fn option<'b>(
        &mut self,
        name: &str,
        rest: &mut impl Iterator<Item = &'b &'a str>,
    ) -> Result<(), Failure>
    where
        'a: 'b,
    {
        let wrong = |text| Err(self.command.wrong(text));
        let Some(option) = self.command.options.iter().find(|option| option.name == name) else {
            return wrong(format!("unknown option '{name}'"));
        };
        if self.has(option) {
            return wrong(format!("option '{name}' comes twice"));
        }
        let file = if option.takes_file { rest.next().copied() } else { None };
        if option.takes_file && file.is_none() {
            return wrong(format!("option '{name}' has no file after it"));
        }
        self.options.push((option.name, file));
        Ok(())
    }

    /// Whether an option is given.
    pub fn has(&self, option: &Opt) -> bool {
        self.options.iter().any(|(name, _)| *name == option.name)
    }

    /// The file of an option.
    pub fn file(&self, option: &Opt) -> Option<&'a str> {
        self.options.iter().find(|(name, _)| *name == option.name).and_then(|(_, file)| *file)
    }

    /// An argument that must be given.
    pub fn arg(&self, at: usize) -> &'a str {
        self.args[at]
    }

    /// An argument that may be given.
    pub fn may(&self, at: usize) -> Option<&'a str> {
        self.args.get(at).copied()
    }

    /// An argument that is a number.
    pub fn number(&self, at: usize, most: u64) -> Result<u64, Failure> {
        let (name, text) = (self.command.wants[at].name, self.arg(at));
        let digits = text.bytes().all(|byte| byte.is_ascii_digit());
        let number = text.parse().ok().filter(|number| digits && *number <= most);
        let wrong = || format!("{name} is '{text}', not a number from 0 to {most}");
        number.ok_or_else(|| self.command.wrong(wrong()))
    }

    /// The image of an argument.
    pub fn image(&self, at: usize) -> Result<Vec<u8>, Failure> {
        files::image(self.arg(at), self.has(&MISSING_AS_EMPTY))
    }

    /// The images of the first two arguments.
    pub fn images(&self) -> Result<(Vec<u8>, Vec<u8>), Failure> {
        Ok((self.image(0)?, self.image(1)?))
    }
}
