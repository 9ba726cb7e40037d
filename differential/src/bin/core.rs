//! The core as a program that answers the oracle's scripts: standard input to standard output. SORT=1 sorts lists, INTERACTIVE=1 writes each
//! line at once. The `client` commands and `check` are not among its commands. Fails where a list has another comment than was sent.
use differential::world::World;
use std::io::{BufRead, Write};

fn main() {
    let mut w = World::new();
    w.sort = std::env::var_os("SORT").is_some();
    let interactive = std::env::var_os("INTERACTIVE").is_some();
    let mut out = std::io::BufWriter::new(std::io::stdout().lock());
    for line in std::io::stdin().lock().lines() {
        for answer in w.line(&line.unwrap()) {
            writeln!(out, "{answer}").unwrap();
        }
        assert!(w.wrong.is_empty(), "{:?}", w.wrong);
        w.landings.clear();
        if interactive {
            out.flush().unwrap();
        }
    }
    out.flush().unwrap();
}
