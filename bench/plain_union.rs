//! The merged export as a plain program, to compare the parts of `union export --workers=1` with.
//!
//! usage: plain_union LIB=PATH ..
//!
//! It does what that command does, in Rust without proofs and by the simplest design that is fast; bench/plain.sh builds
//! it, and measures both. Files are read whole, and every text is a slice of them. Keys are interned to numbers. Whatever
//! two records can meet by is a key of numbers, and each key leads to the one block that has it, so no two records are
//! tested against each other. The forms of titles and names are made once a record, and work keys are put together from
//! them.
//!
//! Standard output has the export as docs/FORMATS.md has it, and standard error the same notes as those of the command, and
//! then the processor time of each part in microseconds a frame, as `part TAB microseconds`, and their total.
//!
//! What it leaves out:
//! - Texts beyond ASCII go through a small table of Latin letters and marks, and other scripts through
//!   `char::to_lowercase` and `char::is_alphanumeric`, where the command has the tables of Unicode. Keys of such texts may
//!   differ from the command's, and so may the records that meet by them; all other bytes of the export are the same.
//! - There are no turns. The records that the files leave current are resolved once, at the end: a replaced or withdrawn
//!   record is only marked, and nothing is kept for questions, notices or other threads.
//! - An edition of several titles, names and dates has a key for each choice of one of each, so hostile files may take
//!   more than the square of the time.
//! - There are no names of authority records, no preference and no JSON. Library codes are taken as they are.
//! - It panics if memory runs out or a file cannot be read or written, and its hash is not secret.
use std::cmp::Ordering;
use std::fmt::Write as _;
use std::fs::{self, File};
use std::io::Write;
use std::ops::Range;
use std::os::fd::AsFd;
use std::str;

const END: u8 = 0x1D;
const FIELD: u8 = 0x1E;
const DELIMITER: u8 = 0x1F;
const ESCAPE: u8 = 0x1B;
const LEADER: usize = 24;
const ENTRY: usize = 12;
const LARGEST_FRAME: usize = 99_999;
const LARGEST_WORK_KEY: usize = 9_000;
/// Frames that go through the parts together, so that they are still near the processor in the next part.
const BATCH: usize = 256;
/// Output is written in pieces of at least this size.
const PIECE: usize = 1 << 16;
/// No title, no name, no record.
const NONE: u32 = u32::MAX;

// ---- Time

const PARTS: [&str; 5] = [
    "reading and cutting",
    "checking",
    "making the edition",
    "resolving",
    "export",
];
const READING: usize = 0;
const CHECKING: usize = 1;
const MAKING: usize = 2;
const RESOLVING: usize = 3;
const EXPORT: usize = 4;

/// `struct timespec` of Linux on 64 bits.
#[repr(C)]
struct Time {
    seconds: i64,
    nanoseconds: i64,
}

unsafe extern "C" {
    fn clock_gettime(clock: i32, time: *mut Time) -> i32;
}

/// CLOCK_PROCESS_CPUTIME_ID of Linux.
const PROCESSOR_TIME: i32 = 2;

/// The processor time of this process, in nanoseconds.
fn processor_time() -> i64 {
    let mut time = Time {
        seconds: 0,
        nanoseconds: 0,
    };
    // SAFETY: the call writes one `struct timespec`, which `Time` is on 64 bits.
    let status = unsafe { clock_gettime(PROCESSOR_TIME, &mut time) };
    assert_eq!(status, 0, "no clock");
    time.seconds * 1_000_000_000 + time.nanoseconds
}

/// What each part took so far.
struct Laps {
    last: i64,
    spent: [i64; PARTS.len()],
}

impl Laps {
    fn new() -> Laps {
        Laps {
            last: 0,
            spent: [0; PARTS.len()],
        }
    }

    /// Counts the time since the last call, or since the start, for the part.
    fn lap(&mut self, part: usize) {
        let now = processor_time();
        self.spent[part] += now - self.last;
        self.last = now;
    }
}

// ---- Frames

/// A frame of a file: whole, or why it is refused.
type Cut<'a> = Result<&'a [u8], &'static str>;

/// Where the byte is first.
fn find(bytes: &[u8], byte: u8) -> Option<usize> {
    let mut at = 0;
    for block in bytes.chunks_exact(64) {
        // Without an early end, so that the compiler tests many bytes at once.
        if block.iter().fold(false, |found, b| found | (*b == byte)) {
            break;
        }
        at += 64;
    }
    bytes[at..]
        .iter()
        .position(|b| *b == byte)
        .map(|place| at + place)
}

/// Takes the next frame off the bytes, where there is one.
fn cut<'a>(bytes: &mut &'a [u8]) -> Option<Cut<'a>> {
    while let [b'\r' | b'\n', rest @ ..] = *bytes {
        *bytes = rest;
    }
    if bytes.is_empty() {
        return None;
    }
    let Some(place) = find(bytes, END) else {
        *bytes = &[];
        return Some(Err("Truncated"));
    };
    let (frame, rest) = bytes.split_at(place + 1);
    *bytes = rest;
    Some(if frame.len() > LARGEST_FRAME {
        Err("TooLong")
    } else {
        Ok(frame)
    })
}

// ---- The nineteen rules

/// A rule that a frame breaks, and its place.
type Refusal = (&'static str, usize);

/// A field: its tag, and its bytes without the terminator.
#[derive(Clone, Copy, PartialEq, Eq)]
struct Field<'a> {
    tag: [u8; 3],
    text: &'a [u8],
}

impl Field<'_> {
    fn is_control(&self) -> bool {
        self.tag[0] == b'0' && self.tag[1] == b'0'
    }

    fn compare(&self, other: &Field) -> Ordering {
        tag_number(self.tag)
            .cmp(&tag_number(other.tag))
            .then_with(|| self.text.cmp(other.text))
    }
}

/// A number in the order of tags.
fn tag_number(tag: [u8; 3]) -> u32 {
    u32::from_be_bytes([0, tag[0], tag[1], tag[2]])
}

struct Entry {
    tag: [u8; 3],
    size: usize,
    start: usize,
}

fn is_printable(byte: u8) -> bool {
    (0x20..=0x7E).contains(&byte)
}

/// The number that the digits write.
fn number(digits: &[u8]) -> Option<usize> {
    let mut value = 0;
    let mut sound = true;
    for digit in digits {
        let digit = digit.wrapping_sub(b'0');
        sound &= digit < 10;
        value = value * 10 + usize::from(digit);
    }
    sound.then_some(value)
}

/// Checks a frame: appends its fields, and answers whether it withdraws its record, or the first rule that it breaks.
/// `entries` is room.
fn check<'a>(
    frame: &'a [u8],
    entries: &mut Vec<Entry>,
    fields: &mut Vec<Field<'a>>,
) -> Result<bool, Refusal> {
    let base = check_leader(frame)?;
    let data = &frame[base..frame.len() - 1];
    read_entries(&frame[LEADER..base - 1], entries)?;
    if !are_in_a_row(entries, data) {
        check_ranges(entries, data)?;
    }
    let first = fields.len();
    fields.extend(entries.iter().map(|entry| Field {
        tag: entry.tag,
        text: &data[entry.start..entry.start + entry.size - 1],
    }));
    let fields = &fields[first..];
    if !matches!(frame[5], b'a' | b'c' | b'd' | b'n' | b'p') {
        return Err(("Status", 0));
    }
    check_coding(frame[9], data, fields)?;
    check_shape(data, fields)?;
    check_counts(fields, frame[5] == b'd')?;
    Ok(frame[5] == b'd')
}

/// The base address of the data.
fn check_leader(frame: &[u8]) -> Result<usize, Refusal> {
    if frame.len() < LEADER + 2 {
        return Err(("TooShort", 0));
    }
    let length = number(&frame[..5]).ok_or(("LengthDigits", 0))?;
    if length != frame.len() {
        return Err(("LengthDiffers", 0));
    }
    let base = number(&frame[12..17]).ok_or(("BaseAddress", 0))?;
    let fits = base > LEADER
        && base < frame.len()
        && (base - LEADER - 1) % ENTRY == 0
        && frame[base - 1] == FIELD;
    if !fits {
        return Err(("BaseAddress", 0));
    }
    for (at, byte) in frame[..LEADER].iter().enumerate() {
        let sound = match at {
            10 | 11 => *byte == b'2',
            20 => *byte == b'4',
            21 => *byte == b'5',
            22 => *byte == b'0',
            _ => is_printable(*byte),
        };
        if !sound {
            return Err(("LeaderCounts", at));
        }
    }
    Ok(base)
}

fn read_entries(directory: &[u8], entries: &mut Vec<Entry>) -> Result<(), Refusal> {
    entries.clear();
    let mut bad_tag = None;
    for (at, entry) in directory.chunks_exact(ENTRY).enumerate() {
        let tag = [entry[0], entry[1], entry[2]];
        let (Some(size), Some(start)) = (number(&entry[3..7]), number(&entry[7..])) else {
            return Err(("EntryDigits", at + 1));
        };
        if !tag.iter().all(u8::is_ascii_alphanumeric) {
            bad_tag = bad_tag.or(Some(("Tag", at + 1)));
        }
        entries.push(Entry { tag, size, start });
    }
    bad_tag.map_or(Ok(()), Err)
}

/// Whether the ranges are the data in the order of the directory, and each ends in its only terminator.
fn are_in_a_row(entries: &[Entry], data: &[u8]) -> bool {
    let mut end = 0;
    for entry in entries {
        if entry.start != end || entry.size == 0 || end + entry.size > data.len() {
            return false;
        }
        end += entry.size;
        if data[end - 1] != FIELD {
            return false;
        }
    }
    end == data.len() && count(data, FIELD) == entries.len()
}

/// How often the byte is there. A sum of 255 bytes fits in one, so the compiler adds many at once.
fn count(bytes: &[u8], byte: u8) -> usize {
    let sum = |block: &[u8]| block.iter().map(|b| u8::from(*b == byte)).sum::<u8>();
    bytes.chunks(255).map(|block| usize::from(sum(block))).sum()
}

/// The rule Tiling, for ranges in any order.
fn check_ranges(entries: &[Entry], data: &[u8]) -> Result<(), Refusal> {
    let mut taken = vec![false; data.len()];
    for (at, entry) in entries.iter().enumerate() {
        let refusal = Err(("Tiling", at + 1));
        let end = entry.start + entry.size;
        if entry.size == 0 || end > data.len() {
            return refusal;
        }
        let range = entry.start..end;
        if find(&data[range.clone()], FIELD) != Some(entry.size - 1) {
            return refusal;
        }
        for byte in &mut taken[range] {
            if *byte {
                return refusal;
            }
            *byte = true;
        }
    }
    if taken.contains(&false) {
        return Err(("Tiling", entries.len() + 1));
    }
    Ok(())
}

/// Refuses the first field that is bad.
fn refuse_first(
    rule: &'static str,
    fields: &[Field],
    is_bad: impl Fn(&Field) -> bool,
) -> Result<(), Refusal> {
    match fields.iter().position(is_bad) {
        Some(at) => Err((rule, at + 1)),
        None => Ok(()),
    }
}

/// Data are looked at in one piece first: where they are sound, so is each field.
fn check_coding(scheme: u8, data: &[u8], fields: &[Field]) -> Result<(), Refusal> {
    match scheme {
        b' ' if data.is_ascii() && find(data, ESCAPE).is_none() => Ok(()),
        b' ' => refuse_first("Coding", fields, |field| {
            !field.text.is_ascii() || field.text.contains(&ESCAPE)
        }),
        b'a' if str::from_utf8(data).is_ok() => Ok(()),
        b'a' => refuse_first("NotUtf8", fields, |field| {
            str::from_utf8(field.text).is_err()
        }),
        _ => Err(("Coding", 0)),
    }
}

/// Whether a delimiter has no code after it.
fn lacks_code(bytes: &[u8]) -> bool {
    bytes.windows(2).fold(false, |bad, pair| {
        bad | ((pair[0] == DELIMITER) & (pair[1].wrapping_sub(0x21) > 0x7E - 0x21))
    })
}

fn check_shape(data: &[u8], fields: &[Field]) -> Result<(), Refusal> {
    refuse_first("ControlShape", fields, |field| {
        field.is_control() && field.text.contains(&DELIMITER)
    })?;
    let lacks_some = lacks_code(data);
    refuse_first("DataShape", fields, |field| {
        let begins = match field.text {
            [first, second, DELIMITER, ..] => is_printable(*first) && is_printable(*second),
            _ => false,
        };
        let whole =
            !lacks_some || !(lacks_code(field.text) || field.text.last() == Some(&DELIMITER));
        !field.is_control() && !(begins && whole)
    })
}

/// The fields whose number is ruled: 001, 008, 245, and then those that may not repeat.
fn ruled(tag: &[u8; 3]) -> Option<usize> {
    Some(match tag {
        b"001" => 0,
        b"008" => 1,
        b"245" => 2,
        b"003" => 3,
        b"005" => 4,
        b"010" => 5,
        b"040" => 6,
        b"240" => 7,
        b"100" | b"110" | b"111" | b"130" => 8,
        _ => return None,
    })
}

fn check_counts(fields: &[Field], withdraws: bool) -> Result<(), Refusal> {
    // The entries, counted from 1, of the first and the second field of each kind; 0 where there is none.
    let mut first = [0; 9];
    let mut second = [0; 9];
    for (at, field) in fields.iter().enumerate() {
        if let Some(kind) = ruled(&field.tag) {
            if first[kind] == 0 {
                first[kind] = at + 1;
            } else if second[kind] == 0 {
                second[kind] = at + 1;
            }
        }
    }
    let only = |rule, kind: usize| match (first[kind], second[kind]) {
        (0, _) => Err((rule, 0)),
        (at, 0) => Ok(at),
        (_, again) => Err((rule, again)),
    };
    let at = only("ControlNumber", 0)?;
    let name = trimmed(fields[at - 1].text);
    if !(1..=64).contains(&name.len()) || !name.iter().all(|byte| is_printable(*byte)) {
        return Err(("ControlNumber", at));
    }
    if withdraws {
        return Ok(());
    }
    if let Some(again) = second[3..].iter().filter(|at| **at > 0).min() {
        return Err(("Repeated", *again));
    }
    let at = only("Fixed008", 1)?;
    if fields[at - 1].text.len() != 40 {
        return Err(("Fixed008", at));
    }
    only("Title245", 2)?;
    Ok(())
}

/// The text without the blanks at its ends.
fn trimmed(mut text: &[u8]) -> &[u8] {
    while let [b' ', rest @ ..] | [rest @ .., b' '] = text {
        text = rest;
    }
    text
}

// ---- Hashing, and tables from keys to numbers

const MIXER: u64 = 0x9E37_79B9_7F4A_7C15;

/// Both halves of the product, in one.
fn mixed(a: u64, b: u64) -> u64 {
    let product = u128::from(a) * u128::from(b);
    product as u64 ^ (product >> 64) as u64
}

fn hash(text: &[u8]) -> u64 {
    let mut state = MIXER ^ text.len() as u64;
    let mut words = text.chunks_exact(8);
    for word in &mut words {
        state = mixed(state ^ u64::from_le_bytes(word.try_into().unwrap()), MIXER);
    }
    let mut last = [0; 8];
    last[..words.remainder().len()].copy_from_slice(words.remainder());
    mixed(state ^ u64::from_le_bytes(last), MIXER)
}

/// A table of texts, each with a number: 0, 1, .. in the order in which they come first.
struct Names {
    /// Half of the hash, and the number and 1; 0 where nothing is. Its length is a power of two, at least twice that of
    /// `ranges`.
    slots: Vec<(u32, u32)>,
    ranges: Vec<Range<usize>>,
    texts: Vec<u8>,
}

impl Names {
    fn new() -> Names {
        Names {
            slots: vec![(0, 0); 1 << 10],
            ranges: Vec::new(),
            texts: Vec::new(),
        }
    }

    fn text(&self, number: u32) -> &[u8] {
        &self.texts[self.ranges[number as usize].clone()]
    }

    /// The number of the text, which is put in where it is not there.
    fn number(&mut self, text: &[u8]) -> u32 {
        if self.ranges.len() * 2 >= self.slots.len() {
            self.grow();
        }
        let half = hash(text) as u32;
        let mask = self.slots.len() - 1;
        let mut at = half as usize & mask;
        loop {
            match self.slots[at] {
                (_, 0) => break,
                (other, next) if other == half && self.text(next - 1) == text => return next - 1,
                _ => at = (at + 1) & mask,
            }
        }
        let start = self.texts.len();
        self.texts.extend_from_slice(text);
        self.ranges.push(start..self.texts.len());
        self.slots[at] = (half, self.ranges.len() as u32);
        self.ranges.len() as u32 - 1
    }

    fn grow(&mut self) {
        let size = self.slots.len() * 2;
        let mut slots = vec![(0, 0); size];
        for slot in self.slots.iter().filter(|slot| slot.1 > 0) {
            let mut at = slot.0 as usize & (size - 1);
            while slots[at].1 > 0 {
                at = (at + 1) & (size - 1);
            }
            slots[at] = *slot;
        }
        self.slots = slots;
    }
}

/// A key of numbers.
type Key = (u64, u64);

/// A table from keys to the first block that has the key.
struct Meetings {
    /// A key and the block and 1; 0 where nothing is. Its length is a power of two.
    slots: Vec<(Key, u32)>,
    count: usize,
}

impl Meetings {
    fn new() -> Meetings {
        Meetings {
            slots: vec![((0, 0), 0); 1 << 10],
            count: 0,
        }
    }

    fn place(slots: &[(Key, u32)], key: Key) -> usize {
        let mask = slots.len() - 1;
        let mut at = mixed(mixed(key.0 ^ MIXER, MIXER) ^ key.1, MIXER) as usize & mask;
        while slots[at].1 > 0 && slots[at].0 != key {
            at = (at + 1) & mask;
        }
        at
    }

    /// The block under the key, which is `block` where there was none.
    fn first(&mut self, key: Key, block: u32) -> u32 {
        if self.count * 2 >= self.slots.len() {
            let mut slots = vec![((0, 0), 0); self.slots.len() * 2];
            for slot in self.slots.iter().filter(|slot| slot.1 > 0) {
                let at = Meetings::place(&slots, slot.0);
                slots[at] = *slot;
            }
            self.slots = slots;
        }
        let at = Meetings::place(&self.slots, key);
        if self.slots[at].1 == 0 {
            self.slots[at] = (key, block + 1);
            self.count += 1;
        }
        self.slots[at].1 - 1
    }
}

// ---- Normal forms of titles and names

/// What becomes of the first comma.
#[derive(Clone, Copy, PartialEq)]
enum Comma {
    Kept,
    Blank,
}

const DELETED: u8 = 0;
const BLANK: u8 = 1;

/// What each byte of ASCII becomes.
static PLAIN: [u8; 128] = plain_bytes();

const fn plain_bytes() -> [u8; 128] {
    let mut table = [BLANK; 128];
    let mut byte = 0;
    while byte < 128 {
        let letter = byte as u8;
        table[byte] = match letter {
            b'0'..=b'9' | b'a'..=b'z' | b'&' | b'+' | b'@' | b'#' => letter,
            b'A'..=b'Z' => letter + 32,
            b'\'' | b'[' | b']' => DELETED,
            _ => BLANK,
        };
        byte += 1;
    }
    table
}

/// The plain letters of U+00C0 to U+017F; `?` where there are two, or where the character stays as it is.
static LATIN: [u8; 192] = *b"\
    aaaaaa?ceeeeiiiidnooooo?ouuuuy??\
    aaaaaa?ceeeeiiiidnooooo?ouuuuy?y\
    aaaaaaccccccccddddeeeeeeeeeegggg\
    gggghh??iiiiiiiiii??jjkk?llllll?\
    ?llnnnnnnn??oooooo??rrrrrrssssss\
    sstttt??uuuuuuuuuuuuwwyyyzzzzzzs";

/// Appends the form of the text, after one blank where neither is empty.
fn append_form(form: &mut Vec<u8>, text: &[u8], comma: Comma) {
    if !text.is_ascii() {
        return append_any(form, str::from_utf8(text).unwrap(), comma);
    }
    let mut gap = !form.is_empty();
    let mut awaiting = comma == Comma::Kept;
    for (at, byte) in text.iter().enumerate() {
        let mut letter = PLAIN[usize::from(*byte)];
        if awaiting && *byte == b',' {
            awaiting = false;
            if text[at..].iter().any(u8::is_ascii_alphanumeric) {
                letter = b',';
            }
        }
        match letter {
            DELETED => {}
            BLANK => gap = !form.is_empty(),
            _ => {
                if gap {
                    form.push(b' ');
                    gap = false;
                }
                form.push(letter);
            }
        }
    }
}

/// The same of any text, by a small part of Unicode.
fn append_any(form: &mut Vec<u8>, text: &str, comma: Comma) {
    let letters: Vec<char> = plain_letters(text);
    let mut gap = !form.is_empty();
    let mut awaiting = comma == Comma::Kept;
    for (at, letter) in letters.iter().enumerate() {
        let shown = if awaiting && *letter == ',' {
            awaiting = false;
            letters[at..].iter().any(|c| c.is_alphanumeric())
        } else {
            letter.is_alphanumeric() || matches!(letter, '&' | '+' | '@' | '#' | '♭' | '♯')
        };
        if !shown {
            gap = !form.is_empty();
            continue;
        }
        if gap {
            form.push(b' ');
            gap = false;
        }
        form.extend_from_slice(letter.encode_utf8(&mut [0; 4]).as_bytes());
    }
}

/// The characters in small plain letters, without marks and modifier letters.
fn plain_letters(text: &str) -> Vec<char> {
    let mut letters = Vec::with_capacity(text.len());
    for character in text.chars() {
        match character {
            '\'' | '[' | ']' | '\u{2B0}'..='\u{2C1}' | '\u{2C6}'..='\u{2D1}' => {}
            '\u{2E0}'..='\u{2E4}' | '\u{2EC}' | '\u{2EE}' | '\u{300}'..='\u{36F}' => {}
            '\0'..='\x7F' => letters.push(character.to_ascii_lowercase()),
            'Æ' | 'æ' => letters.extend(['a', 'e']),
            'Œ' | 'œ' => letters.extend(['o', 'e']),
            'Þ' | 'þ' => letters.extend(['t', 'h']),
            'ß' => letters.extend(['s', 's']),
            '\u{132}' | '\u{133}' => letters.extend(['i', 'j']),
            '\u{C0}'..='\u{17F}' if LATIN[character as usize - 0xC0] != b'?' => {
                letters.push(char::from(LATIN[character as usize - 0xC0]));
            }
            _ => letters.extend(character.to_lowercase()),
        }
    }
    letters
}

/// The codes and texts of a data field's subfields.
fn subfields<'a>(text: &'a [u8]) -> impl Iterator<Item = (u8, &'a [u8])> {
    text[3..]
        .split(|byte| *byte == DELIMITER)
        .map(|part| (part[0], &part[1..]))
}

/// The form of the subfields with these codes. The first $a keeps its first comma, or is read after `skip` characters.
fn heading(form: &mut Vec<u8>, text: &[u8], codes: &[u8], comma: Comma, skip: u8) {
    form.clear();
    let mut is_first = true;
    for (code, part) in subfields(text).filter(|(code, _)| codes.contains(code)) {
        if code == b'a' && is_first {
            append_form(form, behind(part, skip), comma);
            is_first = false;
        } else {
            append_form(form, part, Comma::Blank);
        }
    }
}

/// The text without its first characters, where it has as many as the indicator says.
fn behind(text: &[u8], indicator: u8) -> &[u8] {
    let mut rest = str::from_utf8(text).unwrap().chars();
    for _ in b'0'..indicator {
        if !indicator.is_ascii_digit() || rest.next().is_none() {
            return text;
        }
    }
    rest.as_str().as_bytes()
}

/// The name in a field 100, 110, 111, 700, 710 or 711.
fn name_of(form: &mut Vec<u8>, field: &Field) {
    let codes = if field.tag[1..] == *b"00" {
        b"abcdq"
    } else {
        b"abcdn"
    };
    heading(form, field.text, codes, Comma::Kept, b'0');
}

/// The title in a field 130, 240 or 245.
fn title_of(form: &mut Vec<u8>, field: &Field) {
    let (codes, indicator): (&[u8], u8) = match &field.tag {
        b"245" => (b"abnp", field.text[1]),
        b"240" => (b"anp", field.text[1]),
        _ => (b"anp", field.text[0]),
    };
    heading(form, field.text, codes, Comma::Blank, indicator);
}

// ---- Number keys

/// The text after its leading blanks, up to the first blank, `(` or `:`.
fn first_word(text: &[u8]) -> &[u8] {
    let start = text
        .iter()
        .position(|byte| *byte != b' ')
        .unwrap_or(text.len());
    let text = &text[start..];
    let end = text
        .iter()
        .position(|byte| matches!(byte, b' ' | b'(' | b':'));
    &text[..end.unwrap_or(text.len())]
}

/// The last sign of ten or of eight: a digit or `X`.
fn last_digit(byte: u8) -> Option<u64> {
    match byte {
        b'0'..=b'9' => Some(u64::from(byte - b'0')),
        b'X' | b'x' => Some(10),
        _ => None,
    }
}

/// The sum of the digits with the weights 1 and 3 in turn.
fn weighed(digits: &[u8]) -> u64 {
    let weight = |at| if at % 2 == 0 { 1 } else { 3 };
    digits
        .iter()
        .enumerate()
        .map(|(at, digit)| weight(at) * u64::from(digit - b'0'))
        .sum()
}

/// The ISBN as a number of thirteen digits.
fn isbn(text: &[u8]) -> Option<u64> {
    let mut digits = *b"978??????????";
    let mut size = 0;
    let mut signs = [0; 13];
    for byte in first_word(text).iter().filter(|byte| **byte != b'-') {
        *signs.get_mut(size)? = *byte;
        size += 1;
    }
    match size {
        10 => {
            let last = last_digit(signs[9])?;
            let value = number(&signs[..9])?;
            let weights = signs[..9].iter().zip([10, 9, 8, 7, 6, 5, 4, 3, 2]);
            let sum: u64 = weights
                .map(|(sign, weight)| weight * u64::from(sign - b'0'))
                .sum();
            digits[3..12].copy_from_slice(&signs[..9]);
            let check = (10 - weighed(&digits[..12]) % 10) % 10;
            ((sum + last) % 11 == 0).then_some((978_000_000_000 + value as u64) * 10 + check)
        }
        13 => {
            let value = number(&signs)? as u64;
            let is_isbn = signs.starts_with(b"978") || signs.starts_with(b"979");
            (is_isbn && weighed(&signs) % 10 == 0).then_some(value)
        }
        _ => None,
    }
}

/// The ISSN as a number: its seven digits and its last one, where `X` is 10.
fn issn(text: &[u8]) -> Option<u64> {
    let word = first_word(text);
    let mut signs = [0; 8];
    match word.len() {
        8 => signs.copy_from_slice(word),
        9 if word[4] == b'-' => {
            signs[..4].copy_from_slice(&word[..4]);
            signs[4..].copy_from_slice(&word[5..]);
        }
        _ => return None,
    }
    let last = last_digit(signs[7])?;
    let value = number(&signs[..7])? as u64;
    let weights = signs[..7].iter().zip([8, 7, 6, 5, 4, 3, 2]);
    let sum: u64 = weights
        .map(|(sign, weight)| weight * u64::from(sign - b'0'))
        .sum();
    ((sum + last) % 11 == 0).then_some(value * 16 + last)
}

/// Writes the control pair, and whether there is one: the source, a delimiter and the number.
fn control_pair(pair: &mut Vec<u8>, source: &[u8], number: &[u8]) -> bool {
    let source = trimmed(source);
    let mut number = trimmed(number);
    let is_source = (1..=64).contains(&source.len())
        && source[0] != b'='
        && !source.iter().any(|byte| matches!(byte, b'(' | b')'));
    if !is_source {
        return false;
    }
    if source == b"OCoLC" {
        for prefix in [b"ocm".as_slice(), b"ocn", b"on"] {
            match number.strip_prefix(prefix) {
                Some(rest) if rest.iter().all(u8::is_ascii_digit) => {
                    number = rest;
                    break;
                }
                _ => {}
            }
        }
        while let [b'0', rest @ ..] = number {
            number = rest;
        }
    }
    pair.clear();
    pair.extend_from_slice(source);
    pair.push(DELIMITER);
    pair.extend_from_slice(number);
    !number.is_empty()
}

/// The control pair of a system number `(SOURCE)number`.
fn system_pair(pair: &mut Vec<u8>, text: &[u8]) -> bool {
    let Some(text) = trimmed(text).strip_prefix(b"(") else {
        return false;
    };
    match text.iter().position(|byte| *byte == b')') {
        Some(end) => control_pair(pair, &text[..end], &text[end + 1..]),
        None => false,
    }
}

/// The control pair of an LCCN.
fn lccn_pair(pair: &mut Vec<u8>, text: &[u8]) -> bool {
    let text = text.split(|byte| *byte == b'/').next().unwrap_or_default();
    let mut number: Vec<u8> = text.iter().copied().filter(|byte| *byte != b' ').collect();
    if let Some(hyphen) = number.iter().position(|byte| *byte == b'-') {
        let rest = number.split_off(hyphen + 1);
        number.pop();
        number.resize(hyphen + 6usize.saturating_sub(rest.len()), b'0');
        number.extend(rest);
    }
    control_pair(pair, b"DLC", &number)
}

// ---- Editions of records

/// The slots of an edition, in the order of the export: 005, 008, 010, 040, the main entry, 240, 245.
const SLOTS: usize = 7;
const STAMP: usize = 0;
const FIXED: usize = 1;
const MAIN: usize = 4;
const UNIFORM: usize = 5;
const TITLE: usize = 6;

/// A record that was loaded, as an edition of its own.
struct Record<'a> {
    /// Its library's place in the order of library codes.
    library: u32,
    /// Its control number, without blanks at its ends.
    control: &'a [u8],
    leader: &'a [u8],
    /// Its class by the encoding level, and its 005.
    rank: (u8, &'a [u8]),
    slots: [Option<Field<'a>>; SLOTS],
    /// Its united fields, in order, within `Catalogue::united`.
    united: Range<usize>,
    /// Type of record and bibliographic level.
    kind: u64,
    /// The year of the 008, of four digits.
    date: Option<u64>,
    /// Its title and its name within `Catalogue`, or `NONE`.
    title: u32,
    name: u32,
    /// Its control pairs within `Catalogue::pairs_of`.
    pairs: Range<usize>,
    /// Its ISBNs and then its ISSNs, within `Catalogue::numbers`.
    isbns: Range<usize>,
    issns: Range<usize>,
    /// Whether it is current.
    current: bool,
}

/// What was read.
struct Catalogue<'a> {
    records: Vec<Record<'a>>,
    united: Vec<Field<'a>>,
    numbers: Vec<u64>,
    pairs_of: Vec<u32>,
    pairs: Names,
    titles: Names,
    names: Names,
    /// Library and control number of each record, and the current record of each.
    homes: Names,
    current: Vec<u32>,
}

/// What a library's file did.
#[derive(Default)]
struct Counts {
    frames: usize,
    added: usize,
    replaced: usize,
    removed: usize,
    absent: usize,
    refused: usize,
}

/// The class by which encoding levels are ranked.
fn class(encoding_level: u8) -> u8 {
    match encoding_level {
        b' ' => 9,
        b'1' | b'I' => 8,
        b'4' => 7,
        b'2' => 6,
        b'7' | b'K' => 5,
        b'3' => 4,
        b'5' => 3,
        b'8' | b'M' => 2,
        b'u' => 1,
        _ => 0,
    }
}

/// The slot of a field, where it has one.
fn slot(tag: &[u8; 3]) -> Option<usize> {
    Some(match tag {
        b"005" => STAMP,
        b"008" => FIXED,
        b"010" => 2,
        b"040" => 3,
        b"100" | b"110" | b"111" | b"130" => MAIN,
        b"240" => UNIFORM,
        b"245" => TITLE,
        _ => return None,
    })
}

impl<'a> Catalogue<'a> {
    fn new() -> Catalogue<'a> {
        Catalogue {
            records: Vec::new(),
            united: Vec::new(),
            numbers: Vec::new(),
            pairs_of: Vec::new(),
            pairs: Names::new(),
            titles: Names::new(),
            names: Names::new(),
            homes: Names::new(),
            current: Vec::new(),
        }
    }

    /// Makes the record current, or withdraws the one that is. `room` is for texts.
    fn apply(
        &mut self,
        library: u32,
        frame: &'a [u8],
        fields: &[Field<'a>],
        withdraws: bool,
        counts: &mut Counts,
        room: &mut Vec<u8>,
    ) {
        let own = fields.iter().find(|field| field.tag == *b"001").unwrap();
        let control = trimmed(own.text);
        room.clear();
        room.extend_from_slice(&library.to_le_bytes());
        room.extend_from_slice(control);
        let home = self.homes.number(room) as usize;
        if home == self.current.len() {
            self.current.push(NONE);
        }
        let before = self.current[home];
        if before != NONE {
            self.records[before as usize].current = false;
        }
        let count = match (withdraws, before) {
            (true, NONE) => &mut counts.absent,
            (true, _) => &mut counts.removed,
            (false, NONE) => &mut counts.added,
            (false, _) => &mut counts.replaced,
        };
        *count += 1;
        if withdraws {
            self.current[home] = NONE;
        } else {
            self.current[home] = self.records.len() as u32;
            self.load(library, control, frame, fields, room);
        }
    }

    fn load(
        &mut self,
        library: u32,
        control: &'a [u8],
        frame: &'a [u8],
        fields: &[Field<'a>],
        room: &mut Vec<u8>,
    ) {
        let mut slots = [None; SLOTS];
        let mut source: Option<&[u8]> = None;
        let first_united = self.united.len();
        for field in fields {
            match &field.tag {
                b"001" | b"991" | b"993" => {}
                b"003" => source = Some(field.text),
                tag => match slot(tag) {
                    Some(slot) => slots[slot] = Some(*field),
                    None => self.united.push(*field),
                },
            }
        }
        let united = sort_and_dedup(&mut self.united, first_united);
        let (pairs, isbns, issns) = self.numbers_of(control, source, &slots, united.clone(), room);
        let (title, name) = self.description_of(&slots, room);
        let stamp: &[u8] = match slots[STAMP] {
            Some(Field { text, .. }) if text.len() == 16 => text,
            _ => b"0000000000000000",
        };
        let year = &slots[FIXED].unwrap().text[7..11];
        self.records.push(Record {
            library,
            control,
            leader: &frame[..LEADER],
            rank: (class(frame[17]), stamp),
            slots,
            united,
            kind: u64::from(frame[6]) << 8 | u64::from(frame[7]),
            date: number(year).map(|year| year as u64),
            title,
            name,
            pairs,
            isbns,
            issns,
            current: true,
        });
    }

    /// Keeps the record's control pairs, ISBNs and ISSNs.
    fn numbers_of(
        &mut self,
        control: &[u8],
        source: Option<&[u8]>,
        slots: &[Option<Field>; SLOTS],
        united: Range<usize>,
        room: &mut Vec<u8>,
    ) -> (Range<usize>, Range<usize>, Range<usize>) {
        let first_pair = self.pairs_of.len();
        if source.is_some_and(|source| control_pair(room, source, control)) {
            self.pairs_of.push(self.pairs.number(room));
        }
        let lccns = slots[2].iter().flat_map(|field| main_texts(field.text));
        for text in lccns {
            if lccn_pair(room, text) {
                self.pairs_of.push(self.pairs.number(room));
            }
        }
        let first_isbn = self.numbers.len();
        let mut first_issn = first_isbn;
        // United fields are in order of their tags, so ISBNs come first.
        for field in &self.united[united] {
            match &field.tag {
                b"020" => {
                    self.numbers.extend(main_texts(field.text).filter_map(isbn));
                    first_issn = self.numbers.len();
                }
                b"022" => self.numbers.extend(main_texts(field.text).filter_map(issn)),
                b"035" => {
                    for text in main_texts(field.text) {
                        if system_pair(room, text) {
                            self.pairs_of.push(self.pairs.number(room));
                        }
                    }
                }
                _ => {}
            }
        }
        (
            first_pair..self.pairs_of.len(),
            first_isbn..first_issn,
            first_issn..self.numbers.len(),
        )
    }

    /// The title of the 245, and the name in the main entry.
    fn description_of(&mut self, slots: &[Option<Field>; SLOTS], room: &mut Vec<u8>) -> (u32, u32) {
        title_of(room, &slots[TITLE].unwrap());
        let title = number_unless_empty(&mut self.titles, room);
        let name = match slots[MAIN] {
            Some(field) if field.tag != *b"130" => {
                name_of(room, &field);
                number_unless_empty(&mut self.names, room)
            }
            _ => NONE,
        };
        (title, name)
    }
}

fn number_unless_empty(table: &mut Names, text: &[u8]) -> u32 {
    if text.is_empty() {
        NONE
    } else {
        table.number(text)
    }
}

/// The texts of the subfields $a.
fn main_texts<'a>(text: &'a [u8]) -> impl Iterator<Item = &'a [u8]> {
    subfields(text)
        .filter(|(code, _)| *code == b'a')
        .map(|(_, text)| text)
}

/// Puts the list from there on in order, without repeats, and answers where it is.
fn sort_and_dedup(fields: &mut Vec<Field>, first: usize) -> Range<usize> {
    fields[first..].sort_by(Field::compare);
    let mut end = first;
    for at in first..fields.len() {
        if at == first || fields[at] != fields[end - 1] {
            fields[end] = fields[at];
            end += 1;
        }
    }
    fields.truncate(end);
    first..end
}

// ---- Resolving

/// The lists of a block that its keys are made of, each in order and without repeats: types, ISBNs, ISSNs, titles,
/// names, dates.
type Lists = [Vec<u64>; 6];
const KINDS: usize = 0;
const ISBNS: usize = 1;
const ISSNS: usize = 2;
const TITLES: usize = 3;
const NAMES: usize = 4;
const DATES: usize = 5;

fn number_key(list: usize, kind: u64, number: u64) -> Key {
    ((list as u64) << 32 | kind, number)
}

fn description_key(kind: u64, title: u64, name: u64, date: u64) -> Key {
    (
        (TITLES as u64) << 32 | kind | date << 16,
        title << 32 | name,
    )
}

/// Whether the type is that of a serial, which is not met by its description.
fn is_serial(kind: u64) -> bool {
    kind & 0xFF == u64::from(b's')
}

/// Blocks of records: each record points to another one of its block, or to itself, and stands then for the block.
struct Blocks<'a> {
    catalogue: &'a Catalogue<'a>,
    above: Vec<u32>,
    sizes: Vec<u32>,
    /// The lists of blocks of several records; a block of one record has those of its record.
    lists: Vec<Option<Box<Lists>>>,
    meetings: Meetings,
    /// The first block with each control pair.
    with_pair: Vec<u32>,
    /// Keys to look up, and the block that has them.
    waiting: Vec<(Key, u32)>,
}

/// The block of each record: a record that stands for it.
fn resolve(catalogue: &Catalogue) -> Vec<u32> {
    let count = catalogue.records.len();
    let mut blocks = Blocks {
        catalogue,
        above: (0..count as u32).collect(),
        sizes: vec![1; count],
        lists: Vec::new(),
        meetings: Meetings::new(),
        with_pair: vec![NONE; catalogue.pairs.ranges.len()],
        waiting: Vec::new(),
    };
    blocks.lists.resize_with(count, || None);
    for (at, record) in catalogue.records.iter().enumerate() {
        if record.current {
            blocks.add(at as u32, record);
        }
    }
    (0..count as u32).map(|at| blocks.top(at)).collect()
}

impl Blocks<'_> {
    fn top(&mut self, mut record: u32) -> u32 {
        while self.above[record as usize] != record {
            let next = self.above[self.above[record as usize] as usize];
            self.above[record as usize] = next;
            record = next;
        }
        record
    }

    /// Adds the record: it joins every block that it shares a key with, and so do the blocks that are joined.
    fn add(&mut self, at: u32, record: &Record) {
        let catalogue = self.catalogue;
        for list in [ISBNS, ISSNS] {
            let range = if list == ISBNS {
                &record.isbns
            } else {
                &record.issns
            };
            for number in &catalogue.numbers[range.clone()] {
                self.waiting
                    .push((number_key(list, record.kind, *number), at));
            }
        }
        if let (Some(date), true) = (record.date, !is_serial(record.kind)) {
            if record.title != NONE && record.name != NONE {
                let (title, name) = (u64::from(record.title), u64::from(record.name));
                self.waiting
                    .push((description_key(record.kind, title, name, date), at));
            }
        }
        for pair in &catalogue.pairs_of[record.pairs.clone()] {
            match self.with_pair[*pair as usize] {
                NONE => self.with_pair[*pair as usize] = at,
                other => self.join(at, other),
            }
        }
        while let Some((key, block)) = self.waiting.pop() {
            let other = self.meetings.first(key, block);
            self.join(block, other);
        }
    }

    fn join(&mut self, one: u32, other: u32) {
        let (mut large, mut small) = (self.top(one), self.top(other));
        if large == small {
            return;
        }
        if self.sizes[large as usize] < self.sizes[small as usize] {
            (large, small) = (small, large);
        }
        let mut lists = self.take_lists(large);
        let less = self.take_lists(small);
        self.above[small as usize] = large;
        self.sizes[large as usize] += self.sizes[small as usize];
        self.await_new_keys(&lists, &less, large);
        for (list, more) in lists.iter_mut().zip(*less) {
            for value in more {
                if let Err(at) = list.binary_search(&value) {
                    list.insert(at, value);
                }
            }
        }
        self.lists[large as usize] = Some(lists);
    }

    /// The lists of a block.
    fn take_lists(&mut self, block: u32) -> Box<Lists> {
        if let Some(lists) = self.lists[block as usize].take() {
            return lists;
        }
        let record = &self.catalogue.records[block as usize];
        let numbers = |range: &Range<usize>| {
            let mut list = self.catalogue.numbers[range.clone()].to_vec();
            list.sort_unstable();
            list.dedup();
            list
        };
        let some = |number: u32| {
            if number == NONE {
                Vec::new()
            } else {
                vec![number.into()]
            }
        };
        Box::new([
            vec![record.kind],
            numbers(&record.isbns),
            numbers(&record.issns),
            some(record.title),
            some(record.name),
            record.date.into_iter().collect(),
        ])
    }

    /// Awaits the keys that two blocks have together and neither has alone.
    fn await_new_keys(&mut self, one: &Lists, other: &Lists, block: u32) {
        for list in [ISBNS, ISSNS] {
            for (these, those) in [(one, other), (other, one)] {
                for kind in only_in_first(&these[KINDS], &those[KINDS]) {
                    for number in only_in_first(&those[list], &these[list]) {
                        self.waiting.push((number_key(list, kind, number), block));
                    }
                }
            }
        }
        let differ = [KINDS, TITLES, NAMES, DATES]
            .iter()
            .filter(|list| one[**list] != other[**list]);
        if differ.count() < 2 {
            return;
        }
        let [kinds, titles, names, dates] =
            [KINDS, TITLES, NAMES, DATES].map(|list| owned(&one[list], &other[list]));
        for (kind, kind_of) in kinds.into_iter().filter(|(kind, _)| !is_serial(*kind)) {
            for (title, title_of) in &titles {
                for (name, name_of) in &names {
                    for (date, date_of) in &dates {
                        if kind_of & title_of & name_of & date_of == 0 {
                            let key = description_key(kind, *title, *name, *date);
                            self.waiting.push((key, block));
                        }
                    }
                }
            }
        }
    }
}

fn only_in_first(first: &[u64], second: &[u64]) -> impl Iterator<Item = u64> {
    first
        .iter()
        .copied()
        .filter(|value| second.binary_search(value).is_err())
}

/// The values of either list, each with 1 if the first has it, 2 if the second has it, and 3 if both do.
fn owned(first: &[u64], second: &[u64]) -> Vec<(u64, u8)> {
    let both = first
        .iter()
        .filter(|value| second.binary_search(value).is_ok());
    let mut values: Vec<(u64, u8)> = both.map(|value| (*value, 3)).collect();
    values.extend(only_in_first(first, second).map(|value| (value, 1)));
    values.extend(only_in_first(second, first).map(|value| (value, 2)));
    values
}

/// The current records, edition by edition, and where each edition ends. Contributors are in order, and so are editions,
/// by their least contributors.
fn editions(catalogue: &Catalogue, block_of: &[u32]) -> (Vec<u32>, Vec<usize>) {
    let records = &catalogue.records;
    let mut order: Vec<u32> = (0..records.len() as u32).collect();
    order.retain(|at| records[*at as usize].current);
    order.sort_by(|a, b| {
        let (a, b) = (&records[*a as usize], &records[*b as usize]);
        a.library
            .cmp(&b.library)
            .then_with(|| a.control.cmp(b.control))
    });
    let mut edition_of = vec![NONE; records.len()];
    let mut ends: Vec<usize> = Vec::new();
    for at in &order {
        let edition = &mut edition_of[block_of[*at as usize] as usize];
        if *edition == NONE {
            *edition = ends.len() as u32;
            ends.push(0);
        }
        ends[*edition as usize] += 1;
    }
    let mut start = 0;
    for end in &mut ends {
        // For now where the edition begins; each contributor then moves it on.
        start += std::mem::replace(end, start);
    }
    let mut members = vec![0; order.len()];
    for at in order {
        let end = &mut ends[edition_of[block_of[at as usize] as usize] as usize];
        members[*end] = at;
        *end += 1;
    }
    (members, ends)
}

// ---- Export

/// The texts of one edition's record that no file has, each a range of `bytes`.
#[derive(Default)]
struct Made {
    bytes: Vec<u8>,
    ends: Vec<usize>,
    form: Vec<u8>,
}

impl Made {
    fn clear(&mut self) {
        self.bytes.clear();
        self.ends.clear();
    }

    fn end(&mut self) {
        self.ends.push(self.bytes.len());
    }

    fn texts(&self) -> impl Iterator<Item = &[u8]> {
        let starts = std::iter::once(0).chain(self.ends.iter().copied());
        starts
            .zip(&self.ends)
            .map(|(start, end)| &self.bytes[start..*end])
    }
}

/// Writes the record of the edition that these records are, and answers how many fields were left out.
fn export<'a>(
    out: &mut Vec<u8>,
    catalogue: &Catalogue<'a>,
    codes: &[&str],
    members: &[u32],
    made: &mut Made,
) -> usize {
    let records = || members.iter().map(|at| &catalogue.records[*at as usize]);
    // Contributors are in order, so of equal ranks the last is the greater.
    let best = records().max_by_key(|record| record.rank).unwrap();
    let mut shown = [None; SLOTS];
    for (slot, shown) in shown.iter_mut().enumerate() {
        let with_slot = records().filter(|record| record.slots[slot].is_some());
        *shown = with_slot.max_by_key(|record| record.rank);
    }
    shown[FIXED] = Some(best);
    let united = united_fields(catalogue, members);

    made.clear();
    let least = records().next().unwrap();
    write_id(&mut made.bytes, codes, least);
    made.end();
    made.bytes.extend_from_slice(b"  \x1fa");
    let start = made.bytes.len();
    write_work_key(made, catalogue, codes, least, &shown, &united);
    cut_work_key(&mut made.bytes, start);
    made.end();
    for record in records() {
        made.bytes.extend_from_slice(b"  \x1fa");
        made.bytes
            .extend_from_slice(codes[record.library as usize].as_bytes());
        made.bytes.extend_from_slice(b"\x1fb");
        made.bytes.extend_from_slice(record.control);
        made.end();
    }

    let mut own = Vec::with_capacity(SLOTS + 3 + members.len());
    let mut texts = made.texts();
    own.push(Field {
        tag: *b"001",
        text: texts.next().unwrap(),
    });
    own.push(Field {
        tag: *b"003",
        text: b"UNION",
    });
    own.extend(
        shown
            .iter()
            .enumerate()
            .filter_map(|(slot, record)| record.and_then(|record| record.slots[slot])),
    );
    own.push(Field {
        tag: *b"991",
        text: texts.next().unwrap(),
    });
    own.extend(texts.map(|text| Field { tag: *b"993", text }));
    write_record(out, best.leader, &own, &united)
}

fn write_id(bytes: &mut Vec<u8>, codes: &[&str], record: &Record) {
    bytes.extend_from_slice(codes[record.library as usize].as_bytes());
    bytes.push(b'.');
    bytes.extend_from_slice(record.control);
}

/// The united fields of the records, in order and without repeats.
fn united_fields<'a>(catalogue: &Catalogue<'a>, members: &[u32]) -> Vec<Field<'a>> {
    let lists = members
        .iter()
        .map(|at| &catalogue.united[catalogue.records[*at as usize].united.clone()]);
    let mut fields = Vec::with_capacity(lists.clone().map(<[_]>::len).sum());
    for list in lists {
        fields.extend_from_slice(list);
    }
    if members.len() > 1 {
        sort_and_dedup(&mut fields, 0);
    }
    fields
}

/// Appends the work key. `shown` has the record that each slot is of.
fn write_work_key(
    made: &mut Made,
    catalogue: &Catalogue,
    codes: &[&str],
    least: &Record,
    shown: &[Option<&Record>; SLOTS],
    united: &[Field],
) {
    let title = match shown[TITLE] {
        Some(record) if record.title != NONE => catalogue.titles.text(record.title),
        _ => &[],
    };
    let Made { bytes, form, .. } = made;
    let main = shown[MAIN];
    if let Some(record) = main.filter(|record| record.name != NONE) {
        bytes.extend_from_slice(catalogue.names.text(record.name));
        bytes.push(b'/');
        form.clear();
        if let Some(field) = shown[UNIFORM].and_then(|record| record.slots[UNIFORM]) {
            title_of(form, &field);
        }
        bytes.extend_from_slice(if form.is_empty() { title } else { form });
        return;
    }
    if let Some(field) = main
        .and_then(|record| record.slots[MAIN])
        .filter(|field| field.tag == *b"130")
    {
        title_of(form, &field);
        if !form.is_empty() {
            bytes.push(b'/');
            bytes.extend_from_slice(form);
            return;
        }
    }
    bytes.extend_from_slice(title);
    let mut added: Vec<u8> = Vec::new();
    for field in united
        .iter()
        .filter(|field| matches!(&field.tag, b"700" | b"710" | b"711"))
    {
        name_of(form, field);
        if !form.is_empty() && (added.is_empty() || *form < added) {
            std::mem::swap(form, &mut added);
        }
    }
    if added.is_empty() {
        bytes.extend_from_slice(b"///");
        write_id(bytes, codes, least);
    } else {
        bytes.extend_from_slice(b"//");
        bytes.extend_from_slice(&added);
    }
}

/// Cuts the work key, which begins there, between two characters.
fn cut_work_key(bytes: &mut Vec<u8>, start: usize) {
    let mut end = bytes.len().min(start + LARGEST_WORK_KEY);
    while end < bytes.len() && bytes[end] & 0xC0 == 0x80 {
        end -= 1;
    }
    bytes.truncate(end);
}

/// Writes the record of the fields that have room, its own ones first, and answers how many have none.
fn write_record(out: &mut Vec<u8>, leader: &[u8], own: &[Field], united: &[Field]) -> usize {
    let mut size = LEADER + 2;
    let fits = |field: &&Field| {
        let more = size + ENTRY + field.text.len() + 1;
        let fits = more <= LARGEST_FRAME;
        if fits {
            size = more;
        }
        fits
    };
    let kept = own.iter().chain(united).take_while(fits).count();
    let left = own.len() + united.len() - kept;
    let mut own = &own[..kept.min(own.len())];
    let mut united = &united[..kept - own.len()];

    let base = LEADER + ENTRY * kept + 1;
    let first = out.len();
    out.resize(first + size, 0);
    let record = &mut out[first..];
    record[..LEADER].copy_from_slice(leader);
    write_digits(&mut record[..5], size);
    record[5] = b'n';
    record[9] = b'a';
    write_digits(&mut record[12..17], base);
    record[23] = b'0';
    let (mut entry, mut end) = (LEADER, base);
    loop {
        // Both lists are in order of their tags.
        let from = match (own, united) {
            ([first, ..], [other, ..]) if tag_number(other.tag) < tag_number(first.tag) => {
                &mut united
            }
            ([_, ..], _) => &mut own,
            ([], [_, ..]) => &mut united,
            ([], []) => break,
        };
        let field = from[0];
        *from = &from[1..];
        let text = field.text;
        record[entry..entry + 3].copy_from_slice(&field.tag);
        write_digits(&mut record[entry + 3..entry + 7], text.len() + 1);
        write_digits(&mut record[entry + 7..entry + ENTRY], end - base);
        record[end..end + text.len()].copy_from_slice(text);
        record[end + text.len()] = FIELD;
        entry += ENTRY;
        end += text.len() + 1;
    }
    record[base - 1] = FIELD;
    record[end] = END;
    left
}

/// Writes the number in as many digits as there is room for.
fn write_digits(room: &mut [u8], mut number: usize) {
    for digit in room.iter_mut().rev() {
        *digit = b'0' + (number % 10) as u8;
        number /= 10;
    }
}

// ---- The run

fn main() {
    let words: Vec<String> = std::env::args().skip(1).collect();
    let libraries: Option<Vec<(&str, &str)>> =
        words.iter().map(|word| word.split_once('=')).collect();
    let Some(libraries) = libraries.filter(|libraries| !libraries.is_empty()) else {
        eprintln!("usage: plain_union LIB=PATH ..");
        std::process::exit(2);
    };
    let mut codes: Vec<&str> = libraries.iter().map(|(code, _)| *code).collect();
    codes.sort_unstable();
    let mut laps = Laps::new();
    let mut notes = String::new();
    let mut frames = 0;

    let files: Vec<Vec<u8>> = libraries
        .iter()
        .map(|(_, path)| fs::read(path).expect(path))
        .collect();
    laps.lap(READING);
    let mut catalogue = Catalogue::new();
    for ((code, _), file) in libraries.iter().zip(&files) {
        let library = codes.binary_search(code).unwrap() as u32;
        let counts = load(&mut catalogue, library, file, code, &mut laps, &mut notes);
        frames += counts.frames;
        writeln!(
            notes,
            "{code} frames {} added {} replaced {} removed {} absent {} refused {}",
            counts.frames,
            counts.added,
            counts.replaced,
            counts.removed,
            counts.absent,
            counts.refused
        )
        .unwrap();
    }
    laps.lap(MAKING);
    let block_of = resolve(&catalogue);
    let (members, ends) = editions(&catalogue, &block_of);
    laps.lap(RESOLVING);
    write_export(&catalogue, &codes, &members, &ends, &mut notes);
    laps.lap(EXPORT);

    let per_frame = |nanoseconds: i64| nanoseconds as f64 / 1e3 / frames.max(1) as f64;
    for (part, spent) in PARTS.iter().zip(laps.spent) {
        writeln!(notes, "{part}\t{:.3}", per_frame(spent)).unwrap();
    }
    writeln!(notes, "total\t{:.3}", per_frame(laps.spent.iter().sum())).unwrap();
    eprint!("{notes}");
}

/// Takes a library's file, a batch at a time.
fn load<'a>(
    catalogue: &mut Catalogue<'a>,
    library: u32,
    mut file: &'a [u8],
    code: &str,
    laps: &mut Laps,
    notes: &mut String,
) -> Counts {
    let mut counts = Counts::default();
    let mut cuts = Vec::with_capacity(BATCH);
    let mut checked = Vec::with_capacity(BATCH);
    let (mut entries, mut fields, mut room) = (Vec::new(), Vec::new(), Vec::new());
    loop {
        cuts.clear();
        while cuts.len() < BATCH {
            let Some(cut) = cut(&mut file) else { break };
            cuts.push(cut);
        }
        laps.lap(READING);
        if cuts.is_empty() {
            return counts;
        }
        fields.clear();
        checked.clear();
        for cut in &cuts {
            counts.frames += 1;
            let first = fields.len();
            let answer = cut.map_err(|rule| (rule, 0)).and_then(|frame| {
                check(frame, &mut entries, &mut fields).map(|withdraws| (frame, withdraws))
            });
            match answer {
                Ok((frame, withdraws)) => checked.push((frame, first..fields.len(), withdraws)),
                Err((rule, place)) => {
                    fields.truncate(first);
                    counts.refused += 1;
                    writeln!(notes, "{code} refused {} {rule} {place}", counts.frames).unwrap();
                }
            }
        }
        laps.lap(CHECKING);
        for (frame, range, withdraws) in checked.drain(..) {
            catalogue.apply(
                library,
                frame,
                &fields[range],
                withdraws,
                &mut counts,
                &mut room,
            );
        }
        laps.lap(MAKING);
    }
}

fn write_export(
    catalogue: &Catalogue,
    codes: &[&str],
    members: &[u32],
    ends: &[usize],
    notes: &mut String,
) {
    let mut output = File::from(std::io::stdout().as_fd().try_clone_to_owned().unwrap());
    let mut out = Vec::with_capacity(PIECE + LARGEST_FRAME);
    let mut made = Made::default();
    let mut start = 0;
    for end in ends {
        let members = &members[start..*end];
        start = *end;
        let left = export(&mut out, catalogue, codes, members, &mut made);
        if left > 0 {
            let mut id = Vec::new();
            write_id(&mut id, codes, &catalogue.records[members[0] as usize]);
            writeln!(notes, "left {} {left}", String::from_utf8_lossy(&id)).unwrap();
        }
        if out.len() >= PIECE {
            output.write_all(&out).expect("standard output");
            out.clear();
        }
    }
    output.write_all(&out).expect("standard output");
}
