//! `key-agent-panel`: options, and which loop runs.
use clap::Parser;
use key_agent_panel::run;
use nix::libc::{STDIN_FILENO, STDOUT_FILENO};
use nix::unistd::isatty;
use std::env::var_os;
use std::path::PathBuf;
use std::process::exit;

const AFTER: &str = "\
On a terminal:
  up, down or a question's number selects it; y or n answers the one that is shown selected. Nothing is selected of itself, and when the
  selected question goes, none is. While the agent is locked nothing of any key is shown. q ends; Ctrl-Z stops; Ctrl-L draws anew.

Where standard input or output is no terminal:
  each event is written as a line, and lines NUMBER y or NUMBER n are read as answers; ? shows keys and open questions, q ends.

Exit status: 0 ended by q, on a terminal also by Ctrl-C, SIGTERM or SIGHUP, or --once is done; 1 nobody serves the socket, or the agent
has ended; 2 bad usage";

/// Shows the open questions, keys and lock of key-agentd, and answers questions
#[derive(Parser)]
#[command(version, after_help = AFTER)]
struct Options {
    /// The socket of key-agentd --panel [default: $KEY_AGENT_PANEL, else $XDG_RUNTIME_DIR/key-agentd/panel]
    #[arg(long, value_name = "PATH")]
    socket: Option<PathBuf>,
    /// Print lock, keys and open questions once, and end
    #[arg(long)]
    once: bool,
    /// Wait where nobody serves the socket, and connect again when the agent has ended
    #[arg(long)]
    wait: bool,
}

fn socket(options: &Options) -> Option<PathBuf> {
    let set = |name| var_os(name).filter(|value| !value.is_empty()).map(PathBuf::from);
    let standing = || set("XDG_RUNTIME_DIR").map(|folder| folder.join("key-agentd/panel"));
    options.socket.clone().or_else(|| set("KEY_AGENT_PANEL")).or_else(standing)
}

fn fail(text: &str, status: i32) -> ! {
    eprintln!("key-agent-panel: {text}");
    exit(status)
}

fn main() {
    let options = Options::parse();
    let path = socket(&options).unwrap_or_else(|| fail("XDG_RUNTIME_DIR is not set: name the panel's socket with --socket or KEY_AGENT_PANEL", 2));
    let on_terminal = [STDIN_FILENO, STDOUT_FILENO].iter().all(|&fd| isatty(fd) == Ok(true));
    let ended = match (options.once, on_terminal) {
        (true, _) => run::once(&path, options.wait),
        (false, true) => run::on_terminal(&path, options.wait),
        (false, false) => run::plain(&path, options.wait),
    };
    if let Err(text) = ended {
        fail(&text, 1);
    }
}
