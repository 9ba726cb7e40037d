//! A client's requests: each is called until it lands or waits, and goes on when its answer is there.
use super::*;

impl Loop {
    pub(super) fn on_client(&mut self, token: u64, events: EpollFlags) {
        match self.connections.remove(&token) {
            Some(c) if c.is_long() => {
                self.connections.insert(token, c);
                self.later.push((token, events));
            }
            Some(c) => self.on_connection(token, c, events),
            None => {}
        }
    }

    /// Of those in the midst of a long frame one in sixteen has its turn, behind all others; the system tells of the rest again.
    pub(super) fn on_later(&mut self) {
        let later = std::mem::take(&mut self.later);
        let share = (later.len() + 15) / 16;
        for (token, events) in later.iter().cycle().skip(self.turns % later.len().max(1)).take(share) {
            if let Some(c) = self.connections.remove(token) {
                self.on_connection(*token, c, *events);
            }
        }
        self.turns = self.turns.wrapping_add(share);
        self.later = later;
        self.later.clear();
    }

    fn on_connection(&mut self, token: u64, mut c: Connection, events: EpollFlags) {
        let result = self.serve_client(token, &mut c, events);
        self.put_back(token, c, result);
    }

    fn serve_client(&mut self, token: u64, c: &mut Connection, events: EpollFlags) -> Result<(), End> {
        c.active = self.set.clock.reading();
        if c.request.is_some() {
            // it waits: only its end counts, and what it sends meanwhile is read later
            c.has_more = true;
            return if events.intersects(EpollFlags::EPOLLHUP | EpollFlags::EPOLLERR) { Err(hung_up(c)) } else { Ok(()) };
        }
        if c.is_sending() {
            c.write()?;
        }
        if c.is_sending() {
            return if events.contains(EpollFlags::EPOLLERR) { Err(End::Closed("closed".to_string())) } else { Ok(()) };
        }
        if events.intersects(EpollFlags::EPOLLIN | EpollFlags::EPOLLHUP | EpollFlags::EPOLLERR) {
            c.read()?;
        }
        self.take_turn(token, c)
    }

    /// Requests that are whole, until one waits or the turn is over.
    pub(super) fn take_turn(&mut self, token: u64, c: &mut Connection) -> Result<(), End> {
        for _ in 0..TURN {
            if c.request.is_some() || c.is_sending() {
                return Ok(());
            }
            // while nothing has come no call is made
            let first = if c.bytes().is_empty() { First::MoreNeeded } else { self.core.first(c.bytes()) };
            match first {
                First::Began { used, outcome, .. } => self.begin(token, c, used, outcome)?,
                First::TooLong => return Err(End::Fault(format!("closed: too long a frame: {} bytes announced", c.announced()))),
                First::MoreNeeded if c.has_ended => return Err(End::Closed(c.cut().map_or("closed".to_string(), |cut| format!("closed: {cut}")))),
                First::MoreNeeded => return Ok(()),
            }
        }
        if !c.is_ready {
            c.is_ready = true;
            self.ready.push_back(token);
        }
        Ok(())
    }

    /// A request whose first call came to this.
    fn begin(&mut self, token: u64, c: &mut Connection, used: usize, first: Outcome) -> Result<(), End> {
        if self.set.log.has(Level::Info) {
            let payload = c.payload();
            let size = if names::is_telling(payload.bytes()) { String::new() } else { format!(", {} bytes", payload.bytes().len()) };
            self.set.log.write(Level::Info, &c.name, &names::message(payload.bytes()), &format!("request{size}"));
        }
        c.has_more = false;
        let request = Request { used, lent: Lent::default(), waiting: None, about: 0, what: String::new() };
        self.call_on(token, c, request, Some(first))
    }

    /// Goes on with the request that waited, if one did.
    pub(super) fn go_on(&mut self, token: u64, c: &mut Connection) -> Result<(), End> {
        match c.request.take() {
            Some(request) => self.call_on(token, c, request, None),
            None => Ok(()),
        }
    }

    /// Calls until the request lands or waits; its first call is made.
    fn call_on(&mut self, token: u64, c: &mut Connection, mut request: Request, first: Option<Outcome>) -> Result<(), End> {
        match self.step(token, c, &mut request, first)? {
            Step::Wait(waiting, about, what) => {
                c.request = Some(Request { waiting: Some(waiting), about, what, ..request });
                Ok(())
            }
            Step::Close => {
                self.set.log.write(Level::Info, &c.name, &names::message(c.payload().bytes()), "landed: close");
                Err(End::Fault("closed".to_string()))
            }
            Step::Reply => {
                if self.set.log.has(Level::Info) {
                    let text = format!("landed: {}", names::reply(self.core.reply()));
                    self.set.log.write(Level::Info, &c.name, &names::message(c.payload().bytes()), &text);
                }
                c.drop_front(request.used);
                c.active = self.core.reading();
                Ok(c.send(self.core.reply())?)
            }
        }
    }

    fn step(&mut self, token: u64, c: &Connection, request: &mut Request, mut first: Option<Outcome>) -> Result<Step, End> {
        let payload = c.payload();
        loop {
            let outcome = match first.take() {
                Some(outcome) => outcome,
                None => self.core.call(payload, &request.lent),
            };
            if self.set.log.has(Level::Debug) {
                self.set.log.write(Level::Debug, &c.name, &names::message(payload.bytes()), &format!("call: {}", outcome_words(&outcome)));
            }
            match outcome {
                Outcome::Reply => return Ok(Step::Reply),
                Outcome::Close => return Ok(Step::Close),
                Outcome::Refused(why) => return Err(End::Closed(format!("closed: {why}"))), // this host stays within the limits
                Outcome::Asks(question) => {
                    if let Some(wait) = self.meet(token, c, payload, &mut request.lent, question)? {
                        return Ok(wait);
                    }
                }
            }
        }
    }

    /// Answers a question at once, where an answer stands, or hands it to whoever finds the answer.
    fn meet(&mut self, token: u64, c: &Connection, payload: Payload<'_>, lent: &mut Lent, question: Question) -> Result<Option<Step>, End> {
        match question {
            Question::Gate(class) => {
                let what = || format!("gate {}", names::class(class));
                match self.standing(c, self.set.options.gate) {
                    Some(yes) => lent.gate = Some(self.stands(c, payload.bytes(), what, yes)),
                    None => return Ok(Some(self.ask(token, c, payload.bytes(), what(), None))),
                }
            }
            Question::Confirmation { number } => {
                let what = || format!("confirm key {number}");
                match self.standing(c, self.set.options.confirm) {
                    Some(yes) => lent.confirmation = Some(Numbered { number, answer: self.stands(c, payload.bytes(), what, yes) }),
                    None => return Ok(Some(self.ask(token, c, payload.bytes(), what(), Some(number)))),
                }
            }
            Question::Check(part) => {
                let work = Work::Check { fields: Secret::of(payload.part(&part))? };
                return Ok(Some(Step::Wait(self.start(token, work), 0, "key check".to_string())));
            }
            Question::Signature { number, data, hash } => {
                let what = format!("signature by key {number}, {} bytes of data, hash {}", data.len(), names::hash(hash));
                if let Some(work) = self.signing(number, payload.part(&data), hash)? {
                    return Ok(Some(Step::Wait(self.start(token, work), number, what)));
                }
                self.set.log.write(Level::Info, &c.name, "SIGN", &format!("{what}? none given"));
                lent.signature = Some(Numbered { number, answer: None });
            }
        }
        Ok(None)
    }

    /// The answer that stands: by an option, or a no where nobody can be asked.
    fn standing(&self, c: &Connection, say: Say) -> Option<bool> {
        if say == Say::Ask && !self.set.has_terminal && self.set.panel_listener.is_none() {
            self.set.log.write(Level::Warn, &c.name, "", "nobody can answer, so it is a no; --panel PATH is a way");
            return Some(false);
        }
        say.standing()
    }

    fn stands(&self, c: &Connection, payload: &[u8], what: impl Fn() -> String, yes: bool) -> bool {
        if self.set.log.has(Level::Info) {
            self.set.log.write(Level::Info, &c.name, &names::message(payload), &format!("{}? {}", what(), yes_or_no(yes)));
        }
        yes
    }

    fn start(&mut self, token: u64, work: Work) -> Waiting {
        let number = self.workers.start(work);
        self.works.insert(number, token);
        Waiting::Work(number)
    }

    /// What a signer is to do; none where it gives nothing.
    fn signing(&mut self, number: u64, data: &[u8], hash: Hash) -> std::io::Result<Option<Work>> {
        match self.set.options.sign {
            Sign::No => return Ok(None),
            Sign::Panic => return Ok(Some(Work::Panic)),
            Sign::Yes => {}
        }
        let source = match self.core.derived(number) {
            Some(key) => Source::Derived(key),
            None => match self.core.with_fields(number, Secret::of) {
                Some(fields) => Source::Fields(fields?),
                None => return Ok(None),
            },
        };
        Ok(Some(Work::Sign { source, data: Secret::of(data)?, hash }))
    }

    /// A key check or a signature is done.
    pub(super) fn worked(&mut self, token: u64, c: &mut Connection, number: u64, answer: Answer) -> Result<(), End> {
        let request = match &mut c.request {
            Some(r) if r.waiting == Some(Waiting::Work(number)) => r,
            _ => return Ok(()),
        };
        request.waiting = None;
        let result = match answer {
            Answer::Panicked => {
                self.set.log.write(Level::Error, &c.name, "", "a fault in the signer");
                return Err(End::Closed("closed: a fault in the signer".to_string()));
            }
            Answer::Checked(found) => {
                request.lent.check = Some(found.is_ok());
                found.map_or_else(|why| format!("no: {why}"), |kind| format!("yes: {kind}"))
            }
            Answer::Signed(found) => {
                let number = request.about;
                let is_too_long = matches!(&found, Ok((signature, _)) if signature.len() > MAX_SIGNATURE);
                let found = if is_too_long { Err("too long".to_string()) } else { found };
                let result = found.as_ref().map_or_else(|why| format!("none given: {why}"), |(signature, _)| format!("{} bytes", signature.len()));
                let signature = found.ok().map(|(signature, key)| {
                    self.core.keep(number, key);
                    signature
                });
                request.lent.signature = Some(Numbered { number, answer: signature });
                result
            }
        };
        if self.set.log.has(Level::Info) {
            let text = format!("{}? {result}", request.what);
            self.set.log.write(Level::Info, &c.name, &names::message(c.payload().bytes()), &text);
        }
        self.go_on(token, c)?;
        self.take_turn(token, c)
    }

    pub(super) fn put_back(&mut self, token: u64, mut c: Connection, result: Result<(), End>) {
        if let Err(end) = result {
            return self.close(c, end);
        }
        let wished = c.wished();
        if wished != c.interest {
            self.watch_for(c.stream.as_raw_fd(), token, wished.0, wished.1);
            c.interest = wished;
        }
        self.connections.insert(token, c);
    }

    pub(super) fn close(&mut self, c: Connection, end: End) {
        match c.request.as_ref().and_then(|r| r.waiting) {
            Some(Waiting::Question(number)) => {
                if self.panel.close(number, &format!("gone {number}")) {
                    self.set.log.say(format!("question {number}: nobody waits for it any more"));
                }
            }
            Some(Waiting::Work(number)) => {
                self.works.remove(&number);
                self.workers.forget(number);
            }
            None => {}
        }
        let (End::Closed(why) | End::Fault(why)) = &end;
        self.set.log.write(Level::Info, &c.name, "", why);
        if matches!(end, End::Fault(_)) && self.held.len() < HELD_MOST {
            let _ = epoll_ctl(self.epoll, EpollOp::EpollCtlDel, c.stream.as_raw_fd(), None);
            self.held.push_back((self.set.clock.reading() + HELD, c.stream));
        }
    }
}

fn hung_up(c: &Connection) -> End {
    match c.request.as_ref().and_then(|r| r.waiting) {
        Some(Waiting::Question(n)) => End::Closed(format!("closed: hung up while question {n} was open")),
        _ => End::Closed("closed: hung up".to_string()),
    }
}

fn outcome_words(outcome: &Outcome) -> String {
    match outcome {
        Outcome::Asks(Question::Gate(class)) => format!("asks gate {}", names::class(*class)),
        Outcome::Asks(Question::Check(_)) => "asks key check".to_string(),
        Outcome::Asks(Question::Confirmation { number }) => format!("asks confirmation of key {number}"),
        Outcome::Asks(Question::Signature { number, .. }) => format!("asks signature of key {number}"),
        Outcome::Reply => "replies".to_string(),
        Outcome::Close => "closes".to_string(),
        Outcome::Refused(why) => why.to_string(),
    }
}
