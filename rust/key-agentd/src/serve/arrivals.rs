//! Those who come: clients and panels, and who is turned away.
use super::*;

impl Loop {
    pub(super) fn take_clients(&mut self) {
        for _ in 0..TAKEN {
            match self.set.agent.accept() {
                Ok((stream, _)) => self.take_client(stream),
                Err(e) => return self.not_taken(e, AGENT),
            }
        }
    }

    fn not_taken(&mut self, e: std::io::Error, from: u64) {
        if matches!(e.kind(), ErrorKind::WouldBlock | ErrorKind::Interrupted | ErrorKind::ConnectionAborted) {
            return;
        }
        self.set.log.write(Level::Warn, "-", "", &format!("no connection taken: {e}"));
        self.paused = Some(self.set.clock.reading() + PAUSE);
        let fd = match &self.set.panel_listener {
            Some(p) if from == PANEL => p.as_raw_fd(),
            _ => self.set.agent.as_raw_fd(),
        };
        self.watch_for(fd, from, false, false);
    }

    fn take_client(&mut self, stream: UnixStream) {
        self.opened += 1;
        let name = format!("conn {}", self.opened);
        let peer = match let_in(&stream) {
            Ok(peer) => peer,
            Err(why) => return self.refuse_other(&name, &why, AGENT),
        };
        let most = self.set.most;
        if self.connections.len() + self.held.len() >= most {
            let what = if most < self.set.options.max_connections as usize { "the limit of open files" } else { "--max-connections" };
            return self.refuse_crowd(&name, &format!("refused: {most} connections are open, as many as {what} allows"), AGENT);
        }
        let token = self.next_token();
        if stream.set_nonblocking(true).is_err() || self.add(stream.as_raw_fd(), token).is_err() {
            return self.set.log.write(Level::Warn, &name, "", "refused: the system takes no more");
        }
        if self.set.log.has(Level::Info) {
            self.set.log.write(Level::Info, &name, "", &format!("opened by {}", peer.words()));
        }
        self.connections.insert(token, Connection::new(stream, self.opened, peer, self.set.clock.reading()));
        self.peak = self.peak.max(self.connections.len());
    }

    fn refuse_other(&mut self, name: &str, why: &str, from: u64) {
        let reading = self.set.clock.reading();
        if let Some(line) = self.others[from as usize].line(&format!("refused: {why}"), reading) {
            self.set.log.write(Level::Warn, name, "", &line);
        }
    }

    fn refuse_crowd(&mut self, name: &str, text: &str, from: u64) {
        let reading = self.set.clock.reading();
        if let Some(line) = self.crowds[from as usize].line(text, reading) {
            self.set.log.write(Level::Warn, name, "", &line);
        }
    }

    fn next_token(&mut self) -> u64 {
        self.last_token += 1;
        self.last_token
    }

    pub(super) fn take_panels(&mut self) {
        for _ in 0..TAKEN {
            let accepted = match &self.set.panel_listener {
                Some(p) => p.accept(),
                None => return,
            };
            match accepted {
                Ok((stream, _)) => self.take_panel(stream),
                Err(e) => return self.not_taken(e, PANEL),
            }
        }
    }

    fn take_panel(&mut self, stream: UnixStream) {
        if let Err(why) = let_in(&stream) {
            return self.refuse_other("panel", &why, PANEL);
        }
        if self.panel.panels() >= PANELS {
            return self.refuse_crowd("panel", &format!("refused: {PANELS} panels are open"), PANEL);
        }
        let token = self.next_token();
        if stream.set_nonblocking(true).is_ok() && self.add(stream.as_raw_fd(), token).is_ok() {
            self.set.log.write(Level::Info, "panel", "", "opened");
            self.panel.connect(token, stream, self.core.is_locked());
        }
    }
}

fn let_in(stream: &UnixStream) -> Result<Peer, String> {
    let peer = Peer::of(stream).map_err(|e| format!("nobody says who it is: {}", e.desc()))?;
    if peer.is_let_in() {
        Ok(peer)
    } else {
        Err(format!("{} is another user", peer.words()))
    }
}
