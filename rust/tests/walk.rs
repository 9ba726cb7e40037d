//! A walk of 100,000 calls from one seed. All that the core gives is folded into one number, which must be the same on every machine. The walk
//! also has what the safe interface keeps out: answers of any number, short buffers, states and stores that were changed. Beside it goes a second
//! one, by inner calls alone: outcomes, states, stores and reply buffers of the two must be the same throughout.
use key_agent as _; // for the archive

#[allow(dead_code)]
#[path = "../src/raw.rs"]
mod raw;

const CALLS: usize = 100_000;
/// What the walk comes to on x86-64.
const FOLDED: u64 = 0x322a_4a3c_1a0f_7a36;

struct Random(u64); // SplitMix64
impl Random {
    fn next(&mut self) -> u64 {
        self.0 = self.0.wrapping_add(0x9e37_79b9_7f4a_7c15);
        let z = (self.0 ^ (self.0 >> 30)).wrapping_mul(0xbf58_476d_1ce4_e5b9);
        let z = (z ^ (z >> 27)).wrapping_mul(0x94d0_49bb_1331_11eb);
        z ^ (z >> 31)
    }
    fn below(&mut self, n: usize) -> usize {
        (self.next() % n as u64) as usize
    }
    fn percent(&mut self, n: usize) -> bool {
        self.below(100) < n
    }
    /// `usual` nine times in ten, else one of the others.
    fn mostly<T: Copy>(&mut self, usual: T, others: &[T]) -> T {
        let other = others[self.below(others.len())];
        if self.percent(90) {
            usual
        } else {
            other
        }
    }
}

struct Fold(u64);
impl Fold {
    fn words<const N: usize>(&mut self, words: [u64; N]) {
        for w in words {
            self.0 = (self.0 ^ w).wrapping_mul(0x0000_0100_0000_01b3).rotate_left(29);
        }
    }
    fn bytes(&mut self, b: &[u8]) {
        self.words([b.len() as u64]);
        for c in b.chunks(8) {
            let mut w = [0; 8];
            w[..c.len()].copy_from_slice(c);
            self.words([u64::from_le_bytes(w)]);
        }
    }
    fn state(&mut self, s: &raw::State) {
        let c = &s.columns;
        for i in 0..raw::KEYS {
            let small = u64::from(c.limited[i]) << 40 | u64::from(c.confirm[i]) << 32 | u64::from(c.seconds[i]);
            self.words([c.numbers[i], c.readings[i], small, c.blob_lens[i] as u64, c.fields_lens[i] as u64, c.comment_lens[i] as u64]);
        }
        self.bytes(&s.lock.bytes);
        self.words([s.lock.len as u64, s.clock, s.next]);
    }
    fn outcome(&mut self, o: &raw::FlatOutcome) {
        self.words([o.kind.into(), o.hash.into(), o.number, o.from as u64, o.to as u64]);
    }
}

const UNTOLD: raw::HeldKey = raw::HeldKey {
    number: 0,
    confirm: 0,
    limited: 0,
    left: 0,
    blob_from: 0,
    blob_to: 0,
    fields_from: 0,
    fields_to: 0,
    comment: raw::Comment { bytes: [0; 255], len: 0 },
};

/// Where the entries from 0 on begin, and behind them where the last ends; for a sound state.
fn starts(c: &raw::Columns) -> Vec<usize> {
    let sizes = (0..raw::KEYS).take_while(|i| c.numbers[*i] != 0).map(|i| c.blob_lens[i] + c.fields_lens[i] + c.comment_lens[i]);
    sizes.fold(vec![0], |mut at, size| {
        at.push(at[at.len() - 1] + size);
        at
    })
}

/// What is told of each number of a state and a store, sound or not, held to the layout of both.
fn lookups(s: &raw::State, b: &[u8], sound: bool) {
    // SAFETY: a slice's pointer and length; nothing is written.
    let told = |number| unsafe { raw::key_agent_key(*s, b.as_ptr(), b.len(), number) };
    let next = |after| unsafe { raw::key_agent_next(*s, b.as_ptr(), b.len(), after) };
    let c = &s.columns;
    let starts = if sound { starts(c) } else { vec![0] };
    let mut held: Vec<_> = (0..starts.len() - 1).collect();
    held.sort_by_key(|i| c.numbers[*i]);
    let mut after = 0;
    for i in held.iter().copied() {
        let (number, confirm, limited, blob_from) = (c.numbers[i], c.confirm[i], c.limited[i], starts[i]);
        let left = if limited == 1 { (1_000 * u64::from(c.seconds[i])).saturating_sub(s.clock - c.readings[i]) } else { 0 };
        let blob_to = blob_from + c.blob_lens[i];
        let (fields_from, fields_to) = (blob_to, blob_to + c.fields_lens[i]);
        let mut comment = raw::Comment { bytes: [0; 255], len: c.comment_lens[i] };
        comment.bytes[..comment.len].copy_from_slice(&b[fields_to..starts[i + 1]]);
        let want = raw::HeldKey { number, confirm, limited, left, blob_from, blob_to, fields_from, fields_to, comment };
        assert_eq!(told(number), want);
        assert_eq!(next(after), number);
        after = number;
    }
    assert_eq!(next(after), 0);
    for number in c.numbers.into_iter().chain([0, 1, s.next, u64::MAX]) {
        assert!(held.iter().any(|i| c.numbers[*i] == number) || told(number) == UNTOLD, "nothing is told of {number}");
    }
}

fn string(b: &[u8]) -> Vec<u8> {
    [&(b.len() as u32).to_be_bytes()[..], b].concat()
}
/// Of an RSA key n and d, in bytes: blob and fields go up to their limits, and in the last two past them.
const SIZES: [(usize, usize); 7] = [(64, 64), (600, 1_200), (1_004, 1_900), (1_000, 2_033), (1_000, 2_000), (1_005, 100), (1_000, 2_034)];

/// Forty keys of three types, their numbers made up: fields, blob.
fn key(i: u8) -> (Vec<u8>, Vec<u8>) {
    let (n, d) = SIZES[i as usize / 2 % SIZES.len()];
    let (a, n, d, number) = (string(&[i; 32]), string(&vec![i; n]), string(&vec![i; d]), string(&[i]));
    let (fields, blob) = match i % 4 {
        0 => ([string(b"ssh-ed25519"), a.clone(), string(&[i; 64])], [string(b"ssh-ed25519"), a, vec![]]),
        1 => {
            let blob = [string(b"ecdsa-sha2-nistp256"), string(b"nistp256"), string(&[vec![4], vec![i; 64]].concat())];
            ([blob.concat(), a, vec![]], blob)
        }
        _ => ([string(b"ssh-rsa"), [n.clone(), number.clone()].concat(), [d, number.repeat(3)].concat()], [string(b"ssh-rsa"), number, n]),
    };
    (fields.concat(), blob.concat())
}
fn request(r: &mut Random) -> Vec<u8> {
    let (fields, blob) = key(1 + r.below(40) as u8);
    let constraints: &[u8] = [&[][..], &[2], &[1, 0, 0, 0, 9], &[1, 0, 1, 0, 0, 2], &[2, 1, 0, 0, 0, 0], &[3]][r.below(6)];
    let comment = string([&b""[..], b"c", "温室".as_bytes(), b"\xff", &[b'x'; 255], &[b'x'; 256]][r.mostly(1, &[0, 2, 3, 4, 5])]);
    let data = vec![7; r.below(300)];
    let pass = vec![b'a'; [0, 1, 1, 1, 2, 1024, 1025][r.below(7)]];
    let mut p = match r.below(20) {
        0 | 1 => vec![11],
        2..=5 => [vec![17], fields, comment].concat(),
        6..=8 => [vec![25], fields, comment, constraints.to_vec()].concat(),
        9 | 10 => [vec![18], string(&blob)].concat(),
        11 if r.percent(5) => vec![19],
        11..=15 => [vec![13], string(&blob), string(&data), vec![0, 0, 0, r.below(8) as u8]].concat(),
        16 if r.percent(30) => [vec![22], string(&pass)].concat(),
        16..=18 => [vec![23], string(&pass)].concat(),
        _ => vec![r.next() as u8; r.below(9)],
    };
    if r.percent(10) && !p.is_empty() {
        let at = r.below(p.len());
        match r.below(3) {
            0 => p.truncate(at),
            1 => p[at] = r.next() as u8,
            _ => p.insert(at, r.next() as u8),
        }
    }
    p
}

#[derive(Clone, PartialEq)]
struct World {
    state: raw::State,
    store: Vec<u8>,
    reply: Vec<u8>,
}
impl World {
    fn new() -> World {
        World { state: unsafe { raw::key_agent_fresh() }, store: vec![0; 32_768], reply: vec![0; 31_000] }
    }
    fn refresh(&mut self) {
        self.state = unsafe { raw::key_agent_fresh() };
        self.store.fill(0);
    }
    fn call(
        &mut self,
        by: raw::Call,
        (store, reply): Lengths,
        payload: &[u8],
        reading: u64,
        a: raw::FlatAnswers,
        signature: &[u8],
    ) -> raw::FlatOutcome {
        let (s, r) = (&mut self.store[..store], &mut self.reply[..reply]);
        let (p, g) = (payload.as_ptr(), signature.as_ptr());
        // SAFETY: slices with their lengths, which do not overlap; an inner call only ever comes to a sound state and store.
        unsafe { by(&mut self.state, s.as_mut_ptr(), s.len(), p, payload.len(), reading, a, g, signature.len(), r.as_mut_ptr(), r.len()) }
    }
    fn first(&mut self, by: raw::FirstCall, (store, reply): Lengths, bytes: &[u8], reading: u64) -> raw::FlatFirst {
        let (s, r) = (&mut self.store[..store], &mut self.reply[..reply]);
        // SAFETY: as above.
        unsafe { by(&mut self.state, s.as_mut_ptr(), s.len(), bytes.as_ptr(), bytes.len(), reading, r.as_mut_ptr(), r.len()) }
    }
}

/// Of store and reply buffer.
type Lengths = (usize, usize);
fn lengths(r: &mut Random) -> Lengths {
    (r.mostly(32_768, &[32_768, 32_768, 32_767, 0]), r.mostly(30_897, &[31_000, 31_000, 30_896, 0]))
}

#[test]
fn one_walk() {
    let (mut r, mut f, mut kinds, mut sound, mut firsts, mut made) = (Random(1), Fold(0), [0; 12], [0; 2], [0; 4], 0);
    let (mut w, mut inner, mut inner_calls, mut inner_firsts) = (World::new(), World::new(), 0, 0);
    let (long, mut reading) = (vec![11; 262_145], 0u64);
    let (mut most, mut fullest) = (0, 0);
    while made < CALLS {
        if r.below(300) == 0 {
            w.refresh();
            inner.refresh();
            reading = r.next() >> r.below(64);
        }
        let mut payload = request(&mut r);
        if r.below(500) == 0 {
            payload = long[..262_144 + r.below(2)].to_vec();
        }
        let mut a = raw::FlatAnswers::default();
        let mut signature = vec![];
        // as a host does: call, find out, call again
        for _ in 0..6 {
            reading = reading.wrapping_add(r.mostly(100, &[0, 5_000, u64::MAX]));
            let lengths = lengths(&mut r);
            let o = w.call(raw::key_agent_call, lengths, &payload, reading, a, &signature);
            // a store of another length is for the calls from outside alone: refusal 2
            if lengths.0 == 32_768 {
                assert_eq!(inner.call(raw::key_agent_inner_call, lengths, &payload, reading, a, &signature), o);
                inner_calls += 1;
            }
            assert!(inner == w, "the same by inner calls and from outside");
            made += 1;
            f.outcome(&o);
            f.state(&w.state);
            kinds[if o.kind == 0 { 6 + o.number as usize } else { o.kind as usize }] += 1;
            let said = r.mostly(2, &[0, 1, 3, 255]);
            let number = r.mostly(o.number, &[o.number + 1, 1, 0, r.0]);
            match o.kind {
                1 => a.gate = said,
                2 => a.check = said,
                3 => (a.confirmation, a.confirmation_number) = (said, number),
                4 => {
                    (a.signature, a.signature_number) = (said, number);
                    signature = vec![(o.hash >> 8) as u8; r.mostly(64, &[0, 2_048, 2_049])];
                }
                5 => f.bytes(&w.reply[..o.to]),
                _ => {}
            }
            if o.kind > 4 {
                break;
            }
        }
        if r.percent(10) {
            f.bytes(&w.store);
            f.bytes(&w.reply);
            lookups(&w.state, &w.store, true);
        }
        // a state and a store with one value changed: sound or not, and a call on them
        if r.percent(20) {
            let mut changed = w.clone();
            let World { state: s, store: b, .. } = &mut changed;
            let starts = starts(&s.columns);
            let (held, end) = (starts.len() - 1, starts[starts.len() - 1]);
            (most, fullest) = (most.max(held), fullest.max(end));
            let (e, n) = (r.below(raw::KEYS.min(held + 2)), r.below(1_024));
            let value = [r.next() >> r.below(64), r.below(5) as u64, u64::MAX][r.below(3)];
            match r.below(13) {
                0 => s.columns.numbers[e] = value,
                1 => s.columns.readings[e] = value,
                2 => s.columns.limited[e] ^= 1,
                3 => s.columns.seconds[e] = value as u32,
                4 => s.columns.blob_lens[e] = value as usize,
                5 => s.columns.fields_lens[e] = value as usize,
                6 => s.lock.len = value as usize,
                7 => s.next = value,
                8 => s.lock.bytes[n] = value as u8,
                9 => s.columns.comment_lens[e] = value as usize,
                10 => b[(end + n % 9).min(32_767)] ^= value as u8,
                11 => (s.columns.blob_lens[e], s.columns.fields_lens[e]) = (s.columns.fields_lens[e], s.columns.blob_lens[e]),
                _ => b[32 * n] ^= value as u8,
            }
            // SAFETY: as above.
            let is = unsafe { raw::key_agent_is_sound(*s, b.as_ptr(), b.len()) };
            lookups(s, b, is);
            lookups(s, &b[1..], false);
            // an inner call only where it is sound
            let mut twin = is.then(|| changed.clone());
            let o = changed.call(raw::key_agent_call, (32_768, 30_897), &[11], 0, a, &[]);
            if let Some(twin) = &mut twin {
                assert_eq!(twin.call(raw::key_agent_inner_call, (32_768, 30_897), &[11], 0, a, &[]), o);
                assert!(*twin == changed, "the same by an inner call and from outside");
            }
            let World { state: s, store: b, reply } = &changed;
            w.reply.copy_from_slice(reply);
            inner.reply.copy_from_slice(reply);
            sound[is as usize] += 1;
            kinds[9] += !is as usize;
            assert_eq!(is, (o.kind, o.number) != (0, 3), "what is_sound says and refusal 3");
            f.words([is.into()]);
            f.outcome(&o);
            f.state(s);
            f.bytes(&b[1_024 * e..][..1_024]);
        }
        let front = [&[0, r.mostly(0, &[4, 5, 255]), 0, r.below(40) as u8][..], &payload].concat();
        // SAFETY: a vector's own length.
        let s = unsafe { raw::key_agent_split(front.as_ptr(), front.len()) };
        f.words([s.kind.into(), s.from as u64, s.to as u64]);
        let lengths = lengths(&mut r);
        let first = w.first(raw::key_agent_first, lengths, &front, reading);
        if lengths.0 == 32_768 {
            assert_eq!(inner.first(raw::key_agent_inner_first, lengths, &front, reading), first);
            inner_firsts += 1;
        }
        assert!(inner == w, "the same by inner first calls and from outside");
        f.words([first.kind.into(), first.used as u64]);
        f.outcome(&first.outcome);
        f.state(&w.state);
        f.bytes(&w.reply[..5]);
        firsts[first.kind as usize] += 1;
    }
    println!(
        "{made} calls: kinds 1 to 6 {:?}, refusals 1 to 5 {:?}; sound no, yes {sound:?}; first calls 0 to 3 {firsts:?}; {most} keys, {fullest} bytes; \
         beside them {inner_calls} inner calls and {inner_firsts} inner first calls; {:#x}",
        &kinds[1..7],
        &kinds[7..],
        f.0
    );
    assert!(kinds[1..].iter().chain(&sound).chain(&firsts).all(|n| *n > 100), "each outcome occurs");
    assert!(most == raw::KEYS && fullest > 32_700, "as many keys and as many bytes as are held");
    assert_eq!(f.0, FOLDED);
}
