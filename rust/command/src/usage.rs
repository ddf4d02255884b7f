//! `biidhaqun-usage`: the first look at a command line, before anything is proved or built. Serves what needs no library,
//! tells a wrong option or path, and ends with 100 where the whole command is needed.

use command::options::{self, exit, Request};
use command::{explain, files, streams};
use std::process;

/// The exit status that asks for the whole command.
const GO_ON: i32 = 100;

fn main() {
    process::exit(options::ended(|request| match request {
        Request::Explain { number } => explain::run(number),
        request => match files::clash(&request) {
            Some(message) => streams::tell(&format!("biidhaqun: {}\n", message)).map(|()| exit::USAGE),
            None => files::early(&request).map(|()| GO_ON),
        },
    }));
}
