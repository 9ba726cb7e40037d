//! A terminal panel over the socket of `key-agentd --panel`. `words`, `keys`, `model` and `view` are pure; `link`, `terminal` and `run` do.
pub mod keys;
pub mod link;
pub mod model;
pub mod run;
pub mod terminal;
pub mod view;
pub mod words;
