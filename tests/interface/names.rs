//! Prints the names of the Rust declarations with their values, as the C header has them, and the
//! text of each refusal.

#[path = "../../include/dinglefork.rs"]
mod dinglefork;

use dinglefork::code::*;
use dinglefork::kind::*;
use dinglefork::*;

macro_rules! print_all {
    ($($name:ident)*) => { $(println!("DINGLEFORK_{} {}", stringify!($name), $name);)* };
}

fn main() {
    print_all!(VERSION VERSION_MAJOR VERSION_MINOR VERSION_PATCH VERSION_TEXT);
    print_all!(CONTENTS CONTENTS_BYTES COMMANDS COMMAND_WORDS INPUTS PROVIDER_TAPE MINER_TAPE);
    print_all!(WORDS BYTES ENTRIES RECEIVED TEXT REFUSAL_TEXT);
    print_all!(STORE ADD SUBTRACT ADD_CONSTANT TIMES_CONSTANT MULTIPLY);
    print_all!(RESHARE BITS BIT EQUAL OPEN BELOW RING BIT_WORD ACCEPTED);
    for refusal in &Refusal::ALL {
        let name = name_in_c(&format!("{:?}", refusal));
        println!("DINGLEFORK_REFUSED{} {}", name, refusal.number());
    }
    for refusal in &Refusal::ALL {
        println!("{}", refusal);
    }
}

/// `_FILE_LENGTH` for `FileLength`.
fn name_in_c(name: &str) -> String {
    let mut words = String::new();
    for letter in name.chars() {
        if letter.is_uppercase() {
            words.push('_');
        }
        words.push(letter.to_ascii_uppercase());
    }
    words
}
