//! Every public call, wrong use, and the words of every refusal.

mod careful;
mod commands;
mod errors;
mod forms;
mod help;
mod join;
mod lines;
mod many;
mod marks;
mod notes;
mod reasons;
mod tables;
mod typed;
mod warnings;
mod wrong_use;
