//! What can be asked of the program, and its help.
use crate::log::Level;
use clap::{Parser, ValueEnum};
use std::path::PathBuf;

#[derive(Clone, Copy, Debug, PartialEq, Eq, ValueEnum)]
pub enum Say {
    Yes,
    No,
    Ask,
}

impl Say {
    /// The answer that stands, where nobody is asked.
    pub fn standing(self) -> Option<bool> {
        match self {
            Say::Yes => Some(true),
            Say::No => Some(false),
            Say::Ask => None,
        }
    }

    pub fn word(self) -> &'static str {
        match self {
            Say::Yes => "yes",
            Say::No => "no",
            Say::Ask => "ask",
        }
    }
}

#[derive(Clone, Copy, Debug, PartialEq, Eq, ValueEnum)]
pub enum Sign {
    Yes,
    No,
    #[value(hide = true)]
    Panic,
}

const ABOUT: &str =
    "An SSH agent on a Unix socket. Every decision is the proved core's; Ctrl-C ends it and removes the socket. Copy the SSH_AUTH_SOCK
line that it prints to the shell where ssh-add, ssh-keygen -Y sign or ssh shall use it, or name a COMMAND to run under it.";

const MORE: &str = "questions:
  With --gate ask each request that the rule would admit waits for a yes, with --confirm ask each signature by a key that was added
  with ssh-add -c. Open questions have numbers, several can wait at a time, and each is answered by its number, in any order: type
      3 y    or    3 n        ? shows the open questions
  A client that hangs up takes its question with it. On a terminal type the answers there; otherwise they are read from standard input
  (not where a COMMAND has it). Where that has ended and there is no --panel, nobody can answer, and each question is a no.

  --panel PATH is a second socket for the same answers, for key-agent-panel, another terminal (nc -U PATH) or a program. It writes a line for
  each event,
      ask NUMBER conn N MESSAGE gate CLASS uid U pid P program NAME [key FINGERPRINT [comment TEXT]]
      ask NUMBER conn N SIGN confirm key K FINGERPRINT uid U pid P program NAME comment TEXT
      answered NUMBER y|n [timeout] | gone NUMBER
  (first the questions that are open), and reads lines NUMBER y or NUMBER n; to a line that answers nothing it says `error ..`. `show` asks for
      lock open|locked, then a line for each key: key NUMBER FINGERPRINT left SECONDS|- confirm yes|no comment TEXT, then end
  and `watch` for the same at each change. While locked nothing is said of any key. A panel that does not read is closed; there
  are 16 at most.

log:
  --log writes a line for each connection, request, question and landing: time, connection, message, outcome. Passphrases, their lengths
  and private keys are never written. MESSAGE is one of LIST SIGN ADD ADD_CONSTRAINED REMOVE REMOVE_ALL LOCK UNLOCK, and other
  names or MESSAGE_N for what the rule answers with FAILURE. Warnings are written without --log too.

peers:
  Another user's connection is closed at once, root's aside, on both sockets.

socket activation:
  With LISTEN_FDS (systemd) the sockets are those handed over: by the names agent and panel, or the first and the second.

examples:
  key-agentd                                  every request is admitted; a key added with ssh-add -c asks here before it signs
  key-agentd --gate ask --log                 every request asks here
  key-agentd --socket /run/user/1000/agent    the same path each time
  key-agentd --confirm no --log < /dev/null &     in the background
  key-agentd -- ssh-add -l                    a command under the agent

exit status: 0 ended by Ctrl-C, SIGTERM or SIGHUP (not where nohup started it); 1 not started, or a fault; 2 bad usage; with COMMAND its own, 128 and the signal's number where one ended it";

#[derive(Parser, Debug)]
#[command(name = "key-agentd", version, about = ABOUT, after_help = MORE, max_term_width = 150)]
pub struct Options {
    /// The agent's socket, mode 0600 [default: in a new folder of mode 0700 in $XDG_RUNTIME_DIR, $TMPDIR or /tmp]
    #[arg(long, value_name = "PATH")]
    pub socket: Option<PathBuf>,
    /// What the panel says to each request
    #[arg(long, value_enum, default_value = "yes")]
    pub gate: Say,
    /// What it says to each signature by a key added with ssh-add -c
    #[arg(long, value_enum, default_value = "ask")]
    pub confirm: Say,
    /// no: the signer gives nothing, as a token that was pulled out
    #[arg(long, value_enum, default_value = "yes")]
    pub sign: Sign,
    /// A second socket, mode 0600, where questions are written and answers read
    #[arg(long, value_name = "PATH")]
    pub panel: Option<PathBuf>,
    /// Write each request, question and landing (info), or less, or more
    #[arg(long, value_enum, value_name = "LEVEL", num_args = 0..=1, require_equals = true, default_value = "warn", default_missing_value = "info")]
    pub log: Level,
    /// An unanswered question is a no after so many seconds [default: it stays open]
    #[arg(long, value_name = "SECONDS", value_parser = clap::value_parser!(u32).range(1..))]
    pub question_timeout: Option<u32>,
    /// A connection with no open request that sends nothing for so many seconds is closed [default: it stays]
    #[arg(long, value_name = "SECONDS", value_parser = clap::value_parser!(u32).range(1..))]
    pub idle_timeout: Option<u32>,
    /// More connections at a time are closed at once
    #[arg(long, value_name = "N", default_value = "4096", value_parser = clap::value_parser!(u32).range(1..=1_000_000))]
    pub max_connections: u32,
    /// A command to run under the agent; the agent ends with it
    #[arg(last = true, value_name = "COMMAND")]
    pub command: Vec<std::ffi::OsString>,
}

#[cfg(test)]
mod tests {
    use super::*;

    #[test]
    fn the_definitions_hold_together() {
        use clap::CommandFactory;
        Options::command().debug_assert();
    }

    #[test]
    fn log_with_and_without_a_level() {
        let level = |words: &[&str]| Options::try_parse_from([&["key-agentd"], words].concat()).unwrap().log;
        assert_eq!(level(&[]), Level::Warn);
        assert_eq!(level(&["--log"]), Level::Info);
        assert_eq!(level(&["--log=debug"]), Level::Debug);
        assert_eq!(level(&["--log", "--gate", "no"]), Level::Info);
    }
}
