//! From a call that differs to a smaller one that still does.

use crate::call::Call;

/// Shorter input first, then smaller bytes, then a smaller word.
pub fn smallest(mut call: Call, differs: &mut impl FnMut(&Call) -> bool) -> Call {
    loop {
        let before = call.clone();
        shorten(&mut call, differs);
        lower_bytes(&mut call, differs);
        lower_word(&mut call, differs);
        if call == before {
            return call;
        }
    }
}

/// Takes `smaller` where it still differs.
fn accept(call: &mut Call, smaller: Call, differs: &mut impl FnMut(&Call) -> bool) -> bool {
    let taken = differs(&smaller);
    if taken {
        *call = smaller;
    }
    taken
}

/// Drops blocks of bytes, from all of them down to single ones.
fn shorten(call: &mut Call, differs: &mut impl FnMut(&Call) -> bool) {
    let mut block = call.input.len();
    while block > 0 {
        let mut start = 0;
        while start + block <= call.input.len() {
            if !accept(call, without(call, start, block), differs) {
                start += block;
            }
        }
        block /= 2;
    }
}

/// A text's word and the lent output follow the text's length.
fn without(call: &Call, start: usize, block: usize) -> Call {
    let mut call = call.clone();
    let follows = call.word == call.input.len() as u64;
    call.input.drain(start..start + block);
    if follows {
        call.word = call.input.len() as u64;
        call.out = call.out.saturating_sub(block);
    }
    call
}

/// Takes powers of two from each byte, the large ones first.
fn lower_bytes(call: &mut Call, differs: &mut impl FnMut(&Call) -> bool) {
    for place in 0..call.input.len() {
        for bit in (0..8).rev() {
            let mut smaller = call.clone();
            if let Some(byte) = smaller.input[place].checked_sub(1 << bit) {
                smaller.input[place] = byte;
                accept(call, smaller, differs);
            }
        }
    }
}

fn lower_word(call: &mut Call, differs: &mut impl FnMut(&Call) -> bool) {
    for bit in (0..64).rev() {
        if let Some(word) = call.word.checked_sub(1 << bit) {
            accept(call, Call { word, ..call.clone() }, differs);
        }
    }
}
