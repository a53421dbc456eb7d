//! `hekthumar`: shows, tries and applies what the memory layer keeps. It talks to people; every verdict is the library's.

mod answer;
mod apply;
mod command;
mod demo;
mod edition;
mod failure;
mod files;
mod numbers;
mod output;
mod pool_ends;
mod pool_map;
mod reason;
mod rules;
mod run;
mod script;
mod session;
mod show;
mod text;
mod usage;
mod verdict;
mod world;

fn main() -> std::process::ExitCode {
    command::main(std::env::args_os().skip(1).collect())
}
