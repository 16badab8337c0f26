//! A day in buffers of all sizes that matter: what `run_day` puts into each,
//! what it answers, and that the bytes behind are left as they were.
#![cfg(feature = "engine")]

use model::cases::cases;

/// A command, or the positions, begin only with so many bytes left.
const ROOM: usize = 32768;

const UNTOUCHED: u8 = 0xa5;

#[link(name = "exports", kind = "static")]
extern "C" {
    fn run_day(text: *const u8, text_length: usize, output: *mut u8, output_length: usize)
        -> usize;
}

/// The answer for a buffer of this size, and the buffer afterwards.
fn run(text: &[u8], size: usize) -> (usize, Vec<u8>) {
    let mut buffer = vec![UNTOUCHED; size];
    // SAFETY: both slices are valid for the lengths handed over, and the text
    // isn't changed while it is lent.
    let answer = unsafe { run_day(text.as_ptr(), text.len(), buffer.as_mut_ptr(), size) };
    (answer, buffer)
}

/// Where the outputs of a day begin: the heading's, each command's, and that
/// of the positions.
fn beginnings(expected: &[u8]) -> Vec<usize> {
    let mut places = Vec::new();
    let mut place = 0;
    let mut positions = false;
    for line in expected.split_inclusive(|byte| *byte == b'\n') {
        let begins = match line[0] {
            b'A' => true,
            b'M' => !std::mem::replace(&mut positions, true),
            _ => false,
        };
        if begins {
            places.push(place);
        }
        place += line.len();
    }
    places
}

/// How much of the output is put into a buffer of this size.
fn taken(expected: &[u8], size: usize) -> usize {
    let stop = beginnings(expected)
        .into_iter()
        .find(|place| size < place + ROOM);
    stop.unwrap_or(expected.len())
}

fn check(name: &str, text: &[u8], expected: &[u8], size: usize) {
    let count = taken(expected, size);
    let (answer, buffer) = run(text, size);
    let due = if count == expected.len() { count } else { 0 };
    assert_eq!(answer, due, "{name}: the answer for {size} bytes");
    assert!(
        buffer[..count] == expected[..count],
        "{name}: what is put into {size} bytes"
    );
    assert!(
        buffer[count..].iter().all(|byte| *byte == UNTOUCHED),
        "{name}: what stands behind it in {size} bytes"
    );
}

#[test]
fn buffers_of_every_size_that_matters() -> Result<(), String> {
    for case in cases()? {
        let whole = case.expected.len();
        let mut sizes = vec![0, 1, ROOM - 1, ROOM, whole, whole + ROOM - 1, whole + ROOM];
        for place in beginnings(&case.expected) {
            sizes.extend([place + ROOM - 1, place + ROOM]);
        }
        for size in sizes {
            check(&case.name, &case.text, &case.expected, size);
        }
    }
    Ok(())
}

/// One byte decides on the positions of the worked example, its last output.
#[test]
fn the_last_byte_of_room_decides() -> Result<(), String> {
    let example = cases()?.swap_remove(0);
    let last = *beginnings(&example.expected).last().unwrap_or(&0);
    assert!(0 < last, "the example has commands before its positions");
    assert_eq!(run(&example.text, last + ROOM - 1).0, 0);
    assert_eq!(run(&example.text, last + ROOM).0, example.expected.len());
    Ok(())
}
