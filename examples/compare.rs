//! Compares two routines: c; c against c; says how many names each uses; then follows the play shown. First it looks
//! through three moves only.

use negyvosal::{compare, follow, look, Compared, Looked, Which};

fn main() {
    // Z = 1, rule 0; name 8 is a command.
    let heading = [1, 0, 1, 8, 0, 0, 255, 255, 255, 255];
    let old = [&heading[..], &[24, 20, 8, 20, 8]].concat();
    let new = [&heading[..], &[20, 8]].concat();
    let Ok(Looked::SoFar { looked, .. }) = look(&old, &new, 3) else {
        panic!("no play of three moves tells the sheets apart");
    };
    println!("same so far {looked}");
    let Ok(Compared::Apart { sheet, moves, play, old: first, new: second }) = compare(&old, &new) else {
        panic!("the sheets are apart");
    };
    println!("apart in {} {moves}", if sheet == Which::Old { "old" } else { "new" });
    println!("names used: old {} new {}", first.used, second.used);
    let followed = follow(&old, &play).expect("the play is followed");
    println!("old follows {} complete {}", followed.count, if followed.complete { "yes" } else { "no" });
}
