//! Questions for people, and their answers: on the terminal and on the panel's socket.
use super::*;

impl Loop {
    pub(super) fn ask(&mut self, token: u64, c: &Connection, payload: &[u8], what: String, key: Option<u64>) -> Step {
        let message = names::message(payload);
        let text = Text { front: format!("{} {message} {what}", c.name), key: self.key_words(payload, key), who: c.peer.words() };
        let is_locked = self.core.is_locked();
        let words = text.words(is_locked);
        let deadline = self.set.options.question_timeout.map(|s| self.set.clock.reading() + u64::from(s) * 1000);
        let number = self.panel.ask(text, token, deadline, is_locked);
        self.set.log.say(format!("question {number}: {words}   ({number} y or {number} n)"));
        self.set.log.write(Level::Info, &c.name, &message, &format!("{what}? waits as question {number}"));
        Step::Wait(Waiting::Question(number), key.unwrap_or(0), what)
    }

    /// The key that a question is about: the confirmation's, or the one that the request names.
    fn key_words(&self, payload: &[u8], number: Option<u64>) -> Option<KeyWords> {
        let shown = self.core.shown();
        let words = |found: Option<&Shown>, fingerprint: String| KeyWords {
            is_confirmation: number.is_some(),
            fingerprint,
            comment: found.map(|k| names::shown(&k.comment)),
        };
        match number {
            Some(n) => {
                let found = shown.iter().find(|k| k.number == n);
                Some(words(found, found.map_or("-".to_string(), |k| k.fingerprint.clone())))
            }
            None => {
                let fingerprint = names::fingerprint(names::blob_in(payload)?);
                Some(words(shown.iter().find(|k| k.fingerprint == fingerprint), fingerprint))
            }
        }
    }

    pub(super) fn answer(&mut self, number: u64, asker: u64, yes: bool, why: &str) {
        let line = format!("answered {number} {}{why}", if yes { "y" } else { "n" });
        self.panel.close(number, &line);
        let mut c = match self.connections.remove(&asker) {
            Some(c) => c,
            None => return,
        };
        let result = self.answered(asker, &mut c, number, yes, why);
        self.put_back(asker, c, result);
    }

    fn answered(&mut self, token: u64, c: &mut Connection, number: u64, yes: bool, why: &str) -> Result<(), End> {
        let request = match &mut c.request {
            Some(r) if r.waiting == Some(Waiting::Question(number)) => r,
            _ => return Ok(()),
        };
        request.waiting = None;
        // insertion numbers begin at 1, so a question about a key is a confirmation
        match request.about {
            0 => request.lent.gate = Some(yes),
            about => request.lent.confirmation = Some(Numbered { number: about, answer: yes }),
        }
        let text = format!("{}? question {number}: {}{why}", request.what, yes_or_no(yes));
        self.set.log.write(Level::Info, &c.name, &names::message(c.payload().bytes()), &text);
        self.go_on(token, c)?;
        self.take_turn(token, c)
    }

    pub(super) fn on_terminal(&mut self, line: Option<Line>) {
        let line = match line {
            Some(line) => line,
            None => return self.on_terminal_end(),
        };
        match self.panel.read_line(&line) {
            Said::Nothing => {}
            Said::Answer { number, asker, yes } => self.answer(number, asker, yes, ""),
            Said::Wrong(text) => self.set.log.say(text),
            Said::List => self.set.log.say(self.panel.listed(self.core.is_locked())),
            Said::Show | Said::Watch => self.set.log.say("that is for the panel's socket".to_string()),
        }
    }

    /// Where there is no panel's socket either, what is open is a no.
    fn on_terminal_end(&mut self) {
        self.set.has_terminal = false;
        if self.set.panel_listener.is_some() {
            return;
        }
        self.set.log.say("agent: standard input has ended: nobody can answer a question, so each is a no; --panel PATH is another way".to_string());
        for (number, asker) in self.panel.open() {
            self.answer(number, asker, false, " nobody");
        }
    }

    pub(super) fn on_panel(&mut self, token: u64, events: EpollFlags) {
        if events.contains(EpollFlags::EPOLLOUT) {
            self.panel.write(token);
        }
        if !events.intersects(EpollFlags::EPOLLIN | EpollFlags::EPOLLHUP | EpollFlags::EPOLLERR) {
            return;
        }
        let lines = match self.panel.read(token) {
            Some(lines) => lines,
            None => return self.close_panel(token, "closed"),
        };
        for line in lines {
            match self.panel.read_line(&line) {
                Said::Nothing => {}
                Said::Answer { number, asker, yes } => self.answer(number, asker, yes, ""),
                Said::Wrong(text) => self.panel.tell_one(token, &format!("error {text}")),
                Said::List => self.panel.want_list(token),
                Said::Show => self.panel.want_block(token, false),
                Said::Watch => self.panel.want_block(token, true),
            }
        }
    }

    pub(super) fn close_panel(&mut self, token: u64, why: &str) {
        self.panel.remove(token);
        self.set.log.write(if why == "closed" { Level::Info } else { Level::Warn }, "panel", "", why);
    }
}
