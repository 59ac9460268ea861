//! Holds two routines to the profile of quiet expressions: 1 + d(!x), and d(x := 1), where d takes a command.

fn profile(sheet: &[u8]) -> String {
    match negyvosal::profile(sheet) {
        Ok(accepted) => format!("type {} size {}", accepted.kind as u32, accepted.size),
        Err(refused) => format!("refused {} at {}", refused.number, refused.place),
    }
}

fn main() {
    // Z = 1, rule 0; name 15 is a number with one argument, name 10 a number variable.
    let heading = |argument| [1, 0, 1, 15, 2, 1, argument, 255, 255, 255, 1, 10, 4, 0, 255, 255, 255, 255];
    let (number, command) = (heading(2), heading(0));
    println!("of a number: {}", profile(&[&number[..], &[22, 0, 19, 1, 20, 15, 21, 20, 10]].concat()));
    println!("of a command: {}", profile(&[&command[..], &[20, 15, 23, 20, 10, 19, 1]].concat()));
}
