//! Answers requests, one a line: `cargo run --example answers <REQUESTS`. Of each it prints the status
//! and the objects of the answer, as one object.

use std::io::{stdin, BufRead};

use bradovusc_asking::request::answer;

fn main() -> std::io::Result<()> {
    for request in stdin().lock().lines() {
        let (status, lines) = answer(request?.as_bytes());
        let objects: Vec<&str> = lines.lines().collect();
        println!("{{\"status\":{},\"objects\":[{}]}}", status.number(), objects.join(","));
    }
    Ok(())
}
