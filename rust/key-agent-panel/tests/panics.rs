//! A panic puts the terminal back before it says what it says.
mod common;

use common::OnTerminal;
use std::process::Command;

const ROLE: &str = "KEY_AGENT_PANEL_PANICS";

#[test]
fn a_panic_puts_the_terminal_back() {
    if std::env::var_os(ROLE).is_some() {
        let _terminal = key_agent_panel::terminal::Terminal::new().unwrap();
        panic!("as the test wants it");
    }
    let mut command = Command::new(std::env::current_exe().unwrap());
    command.args(["--exact", "a_panic_puts_the_terminal_back", "--nocapture"]).env(ROLE, "1");
    let mut t = OnTerminal::start(command);
    assert!(!t.ends().success());
    assert!(t.is_put_back());
    let text = String::from_utf8(t.output.clone()).unwrap();
    let parts: Vec<&str> = text.split("\x1b[?1049l").collect();
    assert!(parts.len() == 2 && parts[0].contains("\x1b[?1049h") && parts[1].contains("as the test wants it"), "{text:?}");
}
