//! The panel without a terminal: plain lines, `--once`, where the socket is.
mod common;

use common::{panel, Agent, Folder};
use std::io::{BufRead, BufReader, Write};
use std::os::unix::net::UnixListener;
use std::process::{Child, ChildStdin, ChildStdout, Command, Stdio};

const LIST: &str = "ask 3 conn 7 LIST gate RequestKeys uid 1000 pid 42 program ssh-add";
const LISTED: &str = "question 3: LIST, gate RequestKeys, uid 1000, pid 42, program ssh-add, connection 7";
const SIGN: &str = "ask 5 conn 9 SIGN confirm key 1 SHA256:abc uid 1000 pid 44 program ssh comment night shift";
const OPEN: [&str; 3] = ["lock open", "key 1 SHA256:abc left - confirm yes comment night shift", "end"];

struct Plain {
    child: Child,
    stdin: Option<ChildStdin>,
    lines: BufReader<ChildStdout>,
}

impl Plain {
    fn start(mut command: Command) -> Plain {
        let mut child = command.stdin(Stdio::piped()).stdout(Stdio::piped()).stderr(Stdio::piped()).spawn().unwrap();
        Plain { stdin: child.stdin.take(), lines: BufReader::new(child.stdout.take().unwrap()), child }
    }

    fn line(&mut self) -> String {
        let mut line = String::new();
        self.lines.read_line(&mut line).unwrap();
        line.trim_end().to_string()
    }

    fn write(&mut self, text: &str) {
        self.stdin.as_mut().unwrap().write_all(text.as_bytes()).unwrap();
    }

    /// Exit status and standard error.
    fn ends(self) -> (Option<i32>, String) {
        let output = self.child.wait_with_output().unwrap();
        (output.status.code(), String::from_utf8(output.stderr).unwrap())
    }
}

fn start(name: &str, words: &[&str], first: &str) -> (Folder, UnixListener, Agent, Plain) {
    let folder = Folder::new(name);
    let listener = UnixListener::bind(folder.socket()).unwrap();
    let mut command = panel(&folder.socket());
    command.args(words);
    let p = Plain::start(command);
    let agent = Agent::meet(&listener, first);
    (folder, listener, agent, p)
}

#[test]
fn lines_and_answers() {
    let (_folder, _listener, mut agent, mut p) = start("plain", &[], "watch");
    agent.say(&[LIST]);
    agent.say(&OPEN);
    assert_eq!([p.line(), p.line(), p.line()], ["the agent is open", "key 1: SHA256:abc, confirm, comment night shift", LISTED]);
    agent.say(&[SIGN]);
    assert_eq!(p.line(), "question 5: SIGN, confirm key 1, uid 1000, pid 44, program ssh, connection 9, key SHA256:abc comment night shift");
    p.write("5 y\n3 no\nmaybe\n?\n");
    assert_eq!([agent.hear(), agent.hear()], ["5 y", "3 n"]);
    assert_eq!(p.line(), "write NUMBER y or NUMBER n; ? shows keys and open questions, q ends");
    assert_eq!((0..4).map(|_| p.line()).filter(|l| l.starts_with("question")).count(), 2);
    agent.say(&["answered 5 y", "answered 3 n timeout", "gone 9", "error no", "lock locked", "end", "else"]);
    let want = [
        "question 5: yes",
        "question 3: no, its time was over",
        "question 9: nobody waits for it any more",
        "the agent says: no",
        "the agent is locked",
        "the agent says something that this panel does not know",
    ];
    assert_eq!((0..6).map(|_| p.line()).collect::<Vec<_>>(), want);
    p.write("q\n");
    assert_eq!(p.ends(), (Some(0), String::new()));
}

#[test]
fn goes_on_without_input_until_the_agent_ends() {
    let (_folder, _listener, mut agent, mut p) = start("input", &[], "watch");
    p.stdin = None;
    agent.say(&OPEN);
    assert_eq!(p.line(), "the agent is open");
    drop(agent);
    assert_eq!(p.ends(), (Some(1), "key-agent-panel: the agent has ended, or has closed this panel\n".into()));
}

#[test]
fn waits_and_connects_again() {
    let (_folder, listener, agent, mut p) = start("again", &["--wait"], "watch");
    drop(agent);
    assert_eq!(p.line(), "waiting: the agent has ended, or has closed this panel");
    p.write("3 y\n");
    assert_eq!(p.line(), "nobody serves the panel: not sent");
    let mut agent = Agent::meet(&listener, "watch");
    agent.say(&["lock open", "end", LIST]);
    assert_eq!([p.line(), p.line()], ["the agent is open", LISTED]);
    p.write("3 y\nq\n");
    assert_eq!(agent.hear(), "3 y");
    assert_eq!(p.ends().0, Some(0));
}

#[test]
fn once() {
    let (_folder, _listener, mut agent, mut p) = start("once", &["--once"], "show");
    agent.say(&[LIST, SIGN]);
    agent.say(&OPEN);
    assert_eq!([p.line(), p.line(), p.line()], ["the agent is open", "key 1: SHA256:abc, confirm, comment night shift", LISTED]);
    assert_eq!(p.line(), "question 5: SIGN, confirm key 1, uid 1000, pid 44, program ssh, connection 9, key SHA256:abc comment night shift");
    assert_eq!(p.ends(), (Some(0), String::new()));
}

#[test]
fn once_while_locked() {
    let (_folder, _listener, mut agent, mut p) = start("once-locked", &["--once"], "show");
    agent.say(&[SIGN, "lock locked", "end"]);
    assert_eq!([p.line(), p.line()], ["the agent is locked", "question 5: SIGN, confirm, uid 1000, pid 44, program ssh, connection 9"]);
    assert_eq!(p.ends(), (Some(0), String::new()));
}

#[test]
fn once_without_an_answer() {
    let (folder, _listener, mut agent, p) = start("once-silent", &["--once"], "show");
    agent.say(&["error what is show?"]);
    let text = format!("key-agent-panel: who serves {} does not tell the agent's state\n", folder.socket().display());
    assert_eq!(p.ends(), (Some(1), text));
}

#[test]
fn once_can_wait() {
    let folder = Folder::new("once-wait");
    let mut command = panel(&folder.socket());
    command.args(["--once", "--wait"]);
    let mut p = Plain::start(command);
    std::thread::sleep(std::time::Duration::from_millis(300));
    let listener = UnixListener::bind(folder.socket()).unwrap();
    Agent::meet(&listener, "show").say(&["lock open", "end"]);
    assert_eq!(p.line(), "the agent is open");
    assert_eq!(p.ends(), (Some(0), String::new()));
}

#[test]
fn where_the_socket_is() {
    let folder = Folder::new("where");
    let run = |set: &[(&str, &str)]| {
        let mut command = Command::new(env!("CARGO_BIN_EXE_key-agent-panel"));
        command.env_remove("KEY_AGENT_PANEL").env_remove("XDG_RUNTIME_DIR").envs(set.iter().copied()).current_dir(&folder.0);
        Plain::start(command).ends()
    };
    let nobody = |path: &str| (Some(1), format!("key-agent-panel: nobody serves {path}: No such file or directory\n"));
    assert_eq!(run(&[("XDG_RUNTIME_DIR", "run"), ("KEY_AGENT_PANEL", "here")]), nobody("here"));
    assert_eq!(run(&[("XDG_RUNTIME_DIR", "run"), ("KEY_AGENT_PANEL", "")]), nobody("run/key-agentd/panel"));
    let (status, text) = run(&[]);
    assert!(status == Some(2) && text.contains("name the panel's socket with --socket or KEY_AGENT_PANEL"), "{text}");
}
