//! The program as its users run it: as a process.

mod common;

mod answers;
mod copy;
mod crash;
mod dates;
mod demo;
mod diff;
mod files;
mod first_build;
mod first_doubtful;
mod handshake;
mod index;
mod links;
mod modules;
mod names_taken;
mod readers;
mod recipes;
mod report;
mod roots;
mod search;
mod search_by_index;
mod serve;
mod tail;
mod torn;
mod trees;
mod usage;
mod writers;
