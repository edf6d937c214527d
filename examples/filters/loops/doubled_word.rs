//! A word that stands twice in a row, in any case, with nothing but blanks between, as in "the the": the place of its last byte, from 1.
//! A word is of letters, or of characters beyond ASCII. Two are the same where their FNV-1a hashes of 64 bits are, so that no table is
//! needed.
#![feature(no_core, lang_items, auto_traits)]
#![allow(internal_features)]
#![no_core]

#[path = "../span.rs"]
mod span;
use span::Span;

#[unsafe(no_mangle)]
pub extern "C" fn filter(span: &Span) -> u64 {
    let mut word = 0; // the hash of the word so far, 0 outside of one
    let mut last = 0; // the hash of the word before it, 0 where more than blanks stands between
    let mut place = 0;
    while place < span.len {
        let mut byte = span.byte(place);
        if byte - 65 < 26 {
            byte |= 32;
        }
        if byte - 97 < 26 || byte >= 128 {
            if word == 0 {
                word = 0xcbf29ce484222325;
            }
            word = (word ^ byte as u64) * 0x100000001b3;
        } else {
            if word != 0 && word == last {
                return place as u64;
            }
            if byte != 32 && byte != 10 {
                last = 0;
            } else if word != 0 {
                last = word;
            }
            word = 0;
        }
        place += 1;
    }
    if word != 0 && word == last { place as u64 } else { 0 }
}
