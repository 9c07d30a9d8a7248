//! The commands by name: what each takes, and its help.

use crate::args::Given;
use crate::commands;
use crate::failure::{Answer, Failure};

/// An argument.
pub struct Arg {
    pub name: &'static str,
    about: &'static str,
}

/// An option.
pub struct Opt {
    pub name: &'static str,
    /// Whether a file comes after it.
    pub takes_file: bool,
    about: &'static str,
}

/// A command.
pub struct Command {
    pub name: &'static str,
    /// The arguments that must be given, in order.
    pub wants: &'static [Arg],
    /// The arguments that may come after them.
    pub may: &'static [Arg],
    pub options: &'static [Opt],
    about: &'static str,
    example: &'static str,
    run: fn(&Given) -> Answer,
}

const fn arg(name: &'static str, about: &'static str) -> Arg {
    Arg { name, about }
}

const fn flag(name: &'static str, about: &'static str) -> Opt {
    Opt { name, takes_file: false, about }
}

const fn file(name: &'static str, about: &'static str) -> Opt {
    Opt { name, takes_file: true, about }
}

const MODEL: Arg = arg("MODEL", "reads a model's image");
const ESTIMATE: Arg = arg("ESTIMATE", "reads an estimate's image");
const MOVES: Arg =
    arg("MOVES", "reads moves: five numbers a line, blank lines and comments from '#'");

pub const MISSING_AS_EMPTY: Opt =
    flag("--missing-as-empty", "an image's file that does not exist counts as empty");
pub const FROM: Opt = file("--from", "reads the words to begin with, instead of a start");
pub const STATE: Opt = file("--state", "writes the words at the end");

const COMMANDS: &[Command] = &[
    Command {
        name: "asm",
        wants: &[arg("TEXT", "reads a text"), arg("MODEL", "writes the model's image")],
        may: &[arg("ESTIMATE", "writes the estimate's image; the text must have an estimate")],
        options: &[],
        about: "writes the images that a text says",
        example: "asm model.txt model.blk estimate.blk",
        run: commands::asm,
    },
    Command {
        name: "dis",
        wants: &[MODEL],
        may: &[ESTIMATE],
        options: &[],
        about: "prints the text of images",
        example: "dis model.blk estimate.blk",
        run: commands::dis,
    },
    Command {
        name: "check",
        wants: &[MODEL, ESTIMATE],
        may: &[],
        options: &[MISSING_AS_EMPTY],
        about: "prints the checking program's line: accepted, the broken clause, or the refusal",
        example: "check model.blk estimate.blk",
        run: commands::check,
    },
    Command {
        name: "shut-off",
        wants: &[MODEL, ESTIMATE, arg("BOX", "the number of the box, from 0")],
        may: &[],
        options: &[MISSING_AS_EMPTY],
        about: "prints yes or no, the clause's or the refusal's line, or 'refused 12 0 0'",
        example: "shut-off model.blk estimate.blk 0",
        run: commands::shut_off,
    },
    Command {
        name: "least",
        wants: &[MODEL, arg("ESTIMATE", "writes the estimate's image")],
        may: &[],
        options: &[],
        about: "writes the least estimate of the model",
        example: "least model.blk least.blk",
        run: commands::least,
    },
    Command {
        name: "run",
        wants: &[MODEL, MOVES],
        may: &[],
        options: &[FROM, STATE, MISSING_AS_EMPTY],
        about: "prints an answer for each move: 0, or the refusal's number",
        example: "run model.blk moves.txt --state state.bin",
        run: commands::run,
    },
    Command {
        name: "steps",
        wants: &[MODEL, MOVES, arg("STAMP", "box 0's last stamp after each start")],
        may: &[],
        options: &[MISSING_AS_EMPTY],
        about: "makes a start and each move as a step, then a start and a run; prints the answer\n    \
                of each, and of each box the last stamp, the threads' lines and what they bind",
        example: "steps model.blk moves.txt 0",
        run: commands::steps,
    },
    Command {
        name: "read",
        wants: &[MODEL],
        may: &[],
        options: &[MISSING_AS_EMPTY],
        about: "prints a plain listing of the model, or the refusal's line",
        example: "read model.blk",
        run: commands::read,
    },
    Command {
        name: "read-estimate",
        wants: &[MODEL, ESTIMATE],
        may: &[],
        options: &[MISSING_AS_EMPTY],
        about: "prints a plain listing of the estimate, or the refusal's line",
        example: "read-estimate model.blk estimate.blk",
        run: commands::read_estimate,
    },
    Command {
        name: "refused-block",
        wants: &[MODEL, ESTIMATE],
        may: &[],
        options: &[MISSING_AS_EMPTY],
        about: "prints 'model' or 'estimate', first byte and length of the refused block",
        example: "refused-block model.blk estimate.blk",
        run: commands::refused_block,
    },
    Command {
        name: "gen",
        wants: &[
            arg("SEED", "a number; the same seed gives the same bytes"),
            arg("COUNT", "the number of cases"),
            arg("DIR", "the folder, made where there is none"),
        ],
        may: &[],
        options: &[],
        about: "writes cases into folders of DIR: model.blk, estimate.blk, moves.txt and, where the\n    \
                moves do not go from a start, state.bin for --from; and their list, DIR/index.txt",
        example: "gen 1 20 cases",
        run: commands::gen_cases,
    },
];

/// What holds for all commands.
const END: &str = "\
bm-ref COMMAND --help
    what a command takes, and an example

Status 0: the answer is printed, a refusal or a broken clause being an answer.
Status 1: a file was read and cannot be used: an error in a text or in moves, or
an image that dis or least cannot go on with; standard error says where.
Status 2: an argument is wrong, or a file cannot be read or written.
";

/// The help for all commands.
pub fn help() -> String {
    let usages: String = COMMANDS.iter().map(Command::usage).collect();
    usages + END
}

/// The command of this name.
pub fn command(name: &str) -> Result<&'static Command, Failure> {
    let found = COMMANDS.iter().find(|command| command.name == name);
    found.ok_or_else(|| Failure::wrong(format!("unknown command '{name}'")))
}

impl Command {
    /// What the command prints for these arguments.
    pub fn answer(&'static self, given: &[&str]) -> Answer {
        if given.iter().any(|arg| ["--help", "-h"].contains(arg)) {
            return Ok(self.help());
        }
        (self.run)(&Given::new(self, given)?)
    }

    /// The failure that an argument is wrong.
    pub fn wrong(&self, text: impl Into<String>) -> Failure {
        Failure::Argument(text.into(), Some(self.name))
    }

    /// The line that shows the arguments, and what the command does.
    fn usage(&self) -> String {
        let wants = self.wants.iter().map(|arg| format!(" {}", arg.name));
        let may = self.may.iter().map(|arg| format!(" [{}]", arg.name));
        let options = self.options.iter().map(|option| format!(" [{}]", option.form()));
        let taken: String = wants.chain(may).chain(options).collect();
        format!("bm-ref {}{taken}\n    {}\n", self.name, self.about)
    }

    /// The help for the command.
    pub fn help(&self) -> String {
        let args = self.wants.iter().chain(self.may);
        let args = args.map(|arg| (arg.name.to_string(), arg.about));
        let options = self.options.iter().map(|option| (option.form(), option.about));
        let lines = args.chain(options).map(|(form, about)| format!("    {form:<18}  {about}\n"));
        let lines: String = lines.collect();
        format!("{}\n{lines}\nExample:\n    bm-ref {}\n", self.usage(), self.example)
    }
}

impl Opt {
    fn form(&self) -> String {
        let file = if self.takes_file { " FILE" } else { "" };
        format!("{}{file}", self.name)
    }
}
