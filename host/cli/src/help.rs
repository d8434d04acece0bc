//! The texts that tell how to use the commands.
use crate::syntax::{Command, Opt, COMMANDS, HELPERS, LEAVE_OUT, SHELLS};

/// The width of a terminal.
const COLUMNS: usize = 80;

/// What operands are, and the names of those that each text is of.
const OPERANDS: [(&[&str], &str); 9] = [
    (&["FILE"], "FILE is a film, and for read-slip a slip; - is standard input."),
    (&["SLIP"], "SLIP is a slip: raw bytes, or hex text."),
    (&["TRACK"], "TRACK is a track ID. Numbers are decimal, or hex after 0x, and below 2^32."),
    (&["CODE"], "CODE is four characters, or hex after 0x. One of those six may stand without TRACK, for every track."),
    (
        &["MEDIA-TIME", "A", "B"],
        "MEDIA-TIME, A and B are units of the track's own time scale; or seconds as 12.5s, minutes and seconds as \
         1:02, hours too as 00:01:02.250, rounded down to units; or start, or end, where the track ends.",
    ),
    (&["MEDIA-TIME"], "For at, end is the last unit of the track, and so its last sample."),
    (&["A", "B"], "Without A and B the whole track is taken."),
    (
        &["MOVIE-TIME"],
        "MOVIE-TIME is units of the movie's time scale; or seconds as 12.5s, 1:02 or 00:01:02.250; or start.",
    ),
    (
        &["N", "FROM", "TO"],
        "N, FROM and TO are numbers of samples, from 1; without FROM a track is listed from 1, without TO to its end.",
    ),
];

/// What is said of parts that are left out.
const PARTS: &str = "\
PART is edits, for the edit lists of all tracks, or track=ID; --leave-out may be given several times. The film itself stays as \
it is, and each answer says what was left out.";

const REST: &str = "\
--json prints one JSON document for each FILE, samples one for each sample, and film-return one for all films. \
chaldoref COMMAND --help tells the options of a command; the page chaldoref(1) tells all. chaldoref completion SHELL \
prints the completion for bash, zsh or fish. Exit status: 0 answered; 1 refused, for the reason on standard error, or \
something that check, check-profile or check-quay found is not good; 2 bad usage, unreadable file or no memory. Of \
several files the greatest counts.";

impl Command {
    /// The command with its operands.
    fn form(&self) -> String {
        [&[self.name], self.operands].concat().join(" ")
    }

    /// Everything that the command takes.
    pub fn usage(&self) -> String {
        // An option is not parted from its value, nor one bracket from the next.
        let options = self.options.iter().map(|option| format!("[{}]", option.form().replace(' ', "\u{a0}")));
        let words: Vec<String> = [self.form()].into_iter().chain(options).collect();
        wrapped(&format!("usage: chaldoref {}", words.join(" ")), 0)
            .replace('\u{a0}', " ")
            .replace('\n', "\n    ")
            .trim_end()
            .to_string()
            + "\n"
    }

    pub fn help(&self) -> String {
        let wide = self.options.iter().map(|option| option.form().len()).max().unwrap_or(0);
        let line = |option: &&Opt| format!("  {:<wide$}  {}", option.form(), wrapped(option.about, wide + 4));
        let options: String = self.options.iter().map(line).collect();
        let about = wrapped(&format!("Prints {}.", self.about), 0);
        let parts = self.options.iter().any(|option| option.flag == LEAVE_OUT.flag).then(|| wrapped(PARTS, 0));
        let (operands, parts) = (self.operands_in_words(), parts.unwrap_or_default());
        format!("{}\n{about}\n{options}\n{operands}{parts}\nExample:\n\n  chaldoref {}\n", self.usage(), self.example)
    }

    /// What its own operands are, a paragraph each.
    fn operands_in_words(&self) -> String {
        let takes = |name: &&str| self.operands.iter().any(|own| own.trim_matches(['[', ']', '.']) == *name);
        OPERANDS.iter().filter(|(names, _)| names.iter().any(takes)).map(|(_, text)| wrapped(text, 0)).collect()
    }
}

impl Opt {
    fn form(&self) -> String {
        self.value.map_or(self.flag.to_string(), |value| format!("{} {value}", self.flag))
    }
}

/// Text in lines that begin after so many columns; the first one is not moved there.
fn wrapped(text: &str, start: usize) -> String {
    let (mut lines, mut column) = (String::new(), start);
    for word in text.split(' ') {
        if column > start && column + 1 + word.len() > COLUMNS {
            lines.push('\n');
            lines.push_str(&" ".repeat(start));
            column = start;
        } else if column > start {
            lines.push(' ');
            column += 1;
        }
        lines.push_str(word);
        column += word.len();
    }
    lines + "\n"
}

/// For whoever named no command.
pub fn usage() -> String {
    let names: Vec<&str> = COMMANDS.iter().map(|command| command.name).chain(HELPERS).collect();
    let commands = wrapped(&format!("commands: {}", names.join(", ")), 0);
    format!("usage: chaldoref COMMAND FILE ...\n       chaldoref --help\n{commands}")
}

pub fn help() -> String {
    let wide = COMMANDS.iter().map(|command| command.form().len()).max().unwrap_or(0);
    let line = |command: &Command| format!("  {:<wide$}  {}", command.form(), wrapped(command.about, wide + 4));
    let commands: String = COMMANDS.iter().map(line).collect();
    let operands = wrapped(&OPERANDS.map(|(_, text)| text).join(" "), 0);
    let (parts, rest) = (wrapped(PARTS, 0), wrapped(REST, 0));
    format!(
        "Asks the tables of a QuickTime movie.\n\nusage: chaldoref COMMAND FILE ...\n\n{commands}\n{operands}\n{parts}\n{rest}"
    )
}

pub fn completion_usage() -> String {
    format!("usage: chaldoref completion {}\n", SHELLS.join("|"))
}

pub fn completion() -> String {
    format!(
        "{}\nPrints the completion for a shell. It is used after\n\n  source <(chaldoref completion bash)\n  \
         source <(chaldoref completion zsh)\n  chaldoref completion fish | source\n",
        completion_usage()
    )
}

pub fn version_help() -> String {
    "usage: chaldoref version\n\nPrints the version.\n".into()
}

pub fn version() -> String {
    format!("chaldoref {}\n", env!("CARGO_PKG_VERSION"))
}

#[cfg(test)]
mod tests {
    use super::*;

    #[test]
    fn lines_are_no_longer_than_a_terminal_is_wide() {
        let text = ["word"; 40].join(" ");
        for start in [0, 1, 33, 76] {
            let lines = " ".repeat(start) + &wrapped(&text, start);
            assert!(lines.lines().all(|line| line.len() <= COLUMNS), "{lines}");
            assert!(lines.lines().all(|line| line.starts_with(&(" ".repeat(start) + "word"))), "{lines}");
            assert_eq!(lines.split_whitespace().count(), 40);
        }
        // Lines are filled as far as they can be, and a word that is too long has a line of its own.
        assert_eq!(wrapped(&text, 0).lines().next().unwrap().len(), 79);
        assert_eq!(wrapped(&["of"; 40].join(" "), 0).lines().next().unwrap().len(), COLUMNS);
        assert_eq!(wrapped(&format!("a {} b", "c".repeat(90)), 2), format!("a\n  {}\n  b\n", "c".repeat(90)));
    }
}
