//! The panel on a terminal, against an agent that says what the test wants.
mod common;

use common::{panel, Agent, Folder, OnTerminal};
use nix::sys::signal::Signal;
use nix::sys::wait::{waitpid, WaitPidFlag, WaitStatus};
use nix::unistd::Pid;
use std::os::unix::net::UnixListener;

const LIST: &str = "ask 3 conn 7 LIST gate RequestKeys uid 1000 pid 42 program ssh-add";
const LOCK: &str = "ask 4 conn 8 LOCK gate Lock uid 1000 pid 43 program ssh-add";
const SIGN: &str = "ask 5 conn 9 SIGN confirm key 1 SHA256:abc uid 1000 pid 44 program ssh comment night shift";
const OPEN: [&str; 3] = ["lock open", "key 1 SHA256:abc left 3600 confirm yes comment night shift", "end"];
const LEAVE: &str = "\x1b[?1049l";

struct Set {
    folder: Folder,
    listener: UnixListener,
    agent: Agent,
    t: OnTerminal,
}

fn start(name: &str, words: &[&str]) -> Set {
    let folder = Folder::new(name);
    let listener = UnixListener::bind(folder.socket()).unwrap();
    let mut command = panel(&folder.socket());
    command.args(words);
    let t = OnTerminal::start(command);
    let agent = Agent::meet(&listener, "watch");
    Set { folder, listener, agent, t }
}

#[test]
fn questions_and_keys_are_shown_and_answered() {
    let mut s = start("answers", &[]);
    s.agent.say(&[LIST]);
    s.agent.say(&OPEN);
    s.t.see(&["The agent is open", "3  LIST, gate RequestKeys, waits over", "uid 1000, pid 42, program ssh-add, connection 7"]);
    s.t.see(&["confirm  night shift"]);
    s.agent.say(&[LOCK, SIGN]);
    s.t.see(&["Questions: 3", "4  LOCK, gate Lock, waits ", "5  SIGN, confirm key 1", "SHA256:abc  night shift"]);
    s.t.press("4");
    s.t.see(&[">   4  LOCK"]);
    s.t.press("y");
    assert_eq!(s.agent.hear(), "4 y");
    s.t.see(&["LOCK, gate Lock, yes sent"]);
    s.agent.say(&["answered 4 y"]);
    s.t.see(&["Questions: 2", "question 4: yes"]);
    s.t.press("\x1b[B");
    s.t.see(&[">   3  LIST"]);
    s.t.press("\x1bOB");
    s.t.see(&[">   5  SIGN"]);
    s.t.press("n");
    assert_eq!(s.agent.hear(), "5 n");
    s.agent.say(&["answered 5 n", "error something"]);
    s.t.see(&["Questions: 1", "the agent says: something"]);
}

#[test]
fn a_question_that_goes_hands_its_answer_to_nobody() {
    let mut s = start("goes", &[]);
    s.agent.say(&OPEN);
    s.agent.say(&[LIST, LOCK]);
    s.t.see(&["Questions: 2"]);
    s.t.press("\x1b[B");
    s.t.see(&[">   3  LIST"]);
    s.agent.say(&["gone 3"]);
    let frame = s.t.see(&["Questions: 1", "question 3: nobody waits for it any more"]);
    assert!(!frame.contains('>'), "{frame}");
    s.t.press("y");
    s.t.see(&["no question is selected"]);
    s.t.press("4n");
    assert_eq!(s.agent.hear(), "4 n");
}

#[test]
fn while_locked_nothing_of_a_key_is_shown() {
    let mut s = start("locked", &[]);
    s.agent.say(&OPEN);
    s.agent.say(&[SIGN]);
    s.t.see(&["SHA256:abc", "5  SIGN"]);
    s.agent.say(&["lock locked", "end", LOCK]);
    let frame = s.t.see(&["LOCKED", "4  LOCK", "5  SIGN"]);
    assert!(!frame.contains("SHA256") && !frame.contains("night shift"), "{frame}");
    s.agent.say(&OPEN);
    s.t.see(&["The agent is open", "SHA256:abc  night shift"]);
}

#[test]
fn nothing_of_the_socket_controls_the_terminal() {
    let mut s = start("hostile", &[]);
    s.agent.say(&OPEN);
    let evil = "\x1b]0;evil\x07\x1b[2J\u{9b}31m\u{202e}";
    s.agent.say_bytes(format!("ask 1 conn 1 SIGN gate Sign uid {evil} pid {evil} program {evil} key {evil} comment {evil}\n").as_bytes());
    s.agent.say_bytes(format!("lock open\nkey 2 {evil} left - confirm no comment {evil}\nend\nerror {evil}\n{evil}\n").as_bytes());
    s.agent.say_bytes(b"ask 2 conn 1 SIGN gate Sign uid 1 pid 1 program \xff\xfe\x80 key \x9b31m comment \xc3\n");
    s.agent.say_bytes(&vec![b'x'; 1_000_000]);
    s.agent.say(&["", LIST]);
    s.t.see(&["Questions: 3", "?]0;evil??[2J?31m?"]);
    let text = String::from_utf8(s.t.output.clone()).unwrap();
    assert!(!text.contains("\x1b]") && !text.contains('\u{9b}') && !text.contains('\u{202e}') && !text.contains("xxxx"));
    // the panel's own: the screen is cleared once, when it is taken
    assert_eq!((text.matches("\x1b[2J").count(), text.contains("\x1b[31m")), (1, false));
}

#[test]
fn a_bell_for_a_new_question() {
    let mut s = start("bell", &[]);
    let bells = |t: &OnTerminal| t.output.iter().filter(|&&b| b == 7).count();
    s.agent.say(&OPEN);
    s.t.see(&["The agent is open"]);
    assert_eq!(bells(&s.t), 0);
    s.agent.say(&[LIST]);
    s.t.until(|t| bells(t) == 1);
    s.agent.say(&["gone 3", LOCK]);
    s.t.until(|t| bells(t) == 2);
}

#[test]
fn time_left_counts_down() {
    let mut s = start("time", &[]);
    s.agent.say(&["lock open", "key 1 SHA256:abc left 62 confirm no comment night shift", "end"]);
    s.t.see(&["1:0"]);
    s.t.see(&[" s left"]);
}

#[test]
fn a_new_size_is_drawn() {
    let mut s = start("size", &[]);
    s.agent.say(&OPEN);
    s.agent.say(&[SIGN]);
    s.t.see(&["program ssh, connection 9"]);
    s.t.resize(12, 36);
    s.t.until(|t| t.frame().lines().count() == 12);
    let frame = s.t.frame();
    assert!(frame.contains("5  SIGN") && frame.lines().all(|l| l.chars().count() <= 36), "{frame}");
    s.t.resize(3, 10);
    s.t.see(&["the window"]);
    s.t.press("\x1b[B");
    s.t.press("y");
    s.t.resize(24, 80);
    s.t.see(&[">   5  SIGN", "question 5 was not shown as selected yet"]);
    s.t.press("n");
    assert_eq!(s.agent.hear(), "5 n");
}

#[test]
fn the_terminal_is_put_back_at_every_end() {
    let (press, signal) = (|keys| (keys, None), |s| ("", Some(s)));
    let ends = [press("q"), press("\x03"), signal(Signal::SIGTERM), signal(Signal::SIGINT), signal(Signal::SIGHUP), signal(Signal::SIGQUIT)];
    for (i, (keys, signal)) in ends.into_iter().enumerate() {
        let mut s = start(&format!("end-{i}"), &[]);
        s.agent.say(&OPEN);
        s.t.see(&["The agent is open"]);
        assert!(!s.t.is_put_back());
        s.t.press(keys);
        if let Some(signal) = signal {
            s.t.send(signal);
        }
        assert_eq!(s.t.ends().code(), Some(0), "end {i}");
        assert!(s.t.is_put_back() && s.t.output.ends_with(LEAVE.as_bytes()), "end {i}");
    }
}

#[test]
fn the_agent_ends() {
    let mut s = start("agent-ends", &[]);
    s.agent.say(&OPEN);
    s.t.see(&["The agent is open"]);
    drop(s.agent);
    assert_eq!(s.t.ends().code(), Some(1));
    assert!(s.t.is_put_back());
    let text = String::from_utf8(s.t.output.clone()).unwrap();
    assert_eq!(text.split(LEAVE).nth(1).unwrap(), "key-agent-panel: the agent has ended, or has closed this panel\r\n");
}

#[test]
fn waits_for_the_next_agent() {
    let mut s = start("wait", &["--wait"]);
    s.agent.say(&OPEN);
    s.agent.say(&[LIST]);
    s.t.see(&["3  LIST"]);
    s.t.press("3");
    s.t.see(&[">   3"]);
    drop(s.agent);
    let frame = s.t.see(&["Nobody serves the panel", "No question is open", "waiting: the agent has ended, or has closed this panel"]);
    assert!(!frame.contains("SHA256"), "{frame}");
    let mut agent = Agent::meet(&s.listener, "watch");
    agent.say(&["lock open", "end", LIST]);
    assert!(!s.t.see(&["The agent is open", "3  LIST"]).contains("waiting"));
    s.t.press("y");
    s.t.see(&["no question is selected"]);
    drop((s.listener, agent));
    std::fs::remove_file(s.folder.socket()).unwrap();
    s.t.see(&["waiting: nobody serves"]);
    s.t.press("q");
    assert_eq!(s.t.ends().code(), Some(0));
}

#[test]
fn stopped_and_going_on() {
    let mut s = start("stop", &[]);
    s.agent.say(&OPEN);
    s.t.see(&["The agent is open"]);
    s.t.press("\x1a");
    let stopped = waitpid(Pid::from_raw(s.t.child.id() as i32), Some(WaitPidFlag::WUNTRACED)).unwrap();
    assert!(matches!(stopped, WaitStatus::Stopped(..)));
    assert!(s.t.is_put_back());
    s.agent.say(&[LIST]);
    std::thread::sleep(std::time::Duration::from_millis(1200)); // a second that would be drawn
    s.t.send(Signal::SIGCONT);
    s.t.see(&["3  LIST"]);
    assert!(!s.t.is_put_back());
    let text = String::from_utf8(s.t.output.clone()).unwrap();
    assert!(text.split(LEAVE).nth(1).unwrap().starts_with("\x1b[?1049h"), "{text:?}");
    s.t.press("q");
    assert_eq!(s.t.ends().code(), Some(0));
    assert!(s.t.is_put_back());
}

#[test]
fn nobody_serves() {
    let folder = Folder::new("nobody");
    let mut t = OnTerminal::start(panel(&folder.socket()));
    assert_eq!(t.ends().code(), Some(1));
    let text = String::from_utf8(t.output.clone()).unwrap();
    assert_eq!(text, format!("key-agent-panel: nobody serves {}: No such file or directory\r\n", folder.socket().display()));
    drop(UnixListener::bind(folder.socket()).unwrap());
    let mut t = OnTerminal::start(panel(&folder.socket()));
    assert_eq!(t.ends().code(), Some(1));
    let text = String::from_utf8(t.output.clone()).unwrap();
    assert_eq!(text, format!("key-agent-panel: nobody serves {}: Connection refused\r\n", folder.socket().display()));
}
