//! Damage to good inputs: texts of charts and plates, a plate's numbers, choices.

use super::random_choices;
use crate::blanks::BLANK;
use crate::capi::NONE;
use crate::chart::{held, push_number, Chart, Position, MOVES, POSITIONS};
use crate::model::{summed, Plate};
use crate::random::Random;

/// The bytes of a chart's line and of a plate's.
pub const CHART: usize = 12;
pub const PLATE: usize = 22;

/// Fields that are bad somewhere or everywhere.
const FIELDS: [&[u8; 5]; 20] = [
    b"     ",
    b"   05",
    b"   00",
    b"00000",
    b"00001",
    b"1    ",
    b"  1 2",
    b"   +1",
    b"   -1",
    b"\t   1",
    b"    \n",
    b"  0x1",
    b"   1.",
    b"    -",
    b"-    ",
    b"   --",
    b" ever",
    b"ever ",
    b" EVER",
    b"\0\0\0 0",
];

/// Fields that are nearly blank, and bad everywhere.
const NEARLY_BLANK: [&[u8; 5]; 15] = [
    b"    \t",
    b"\t    ",
    b"  \t  ",
    b"\t\t\t\t\t",
    b"   \t\t",
    b"   \x0b\x0c",
    b"    \n",
    b"    \r",
    b"    \0",
    b"\0\0\0\0\0",
    b"    \xa0",
    b"   0 ",
    b"   1 ",
    b"0    ",
    b"    _",
];

/// Bytes that occur in the texts.
const BYTES: &[u8] = b"  0123459HOLMDPVR-ever\n";

/// One damage to a text in lines of `length` bytes.
pub fn hurt(random: &mut Random, text: &mut Vec<u8>, length: usize) {
    let lines = text.len() / length;
    if lines == 0 {
        text.push(b'H');
        return;
    }
    let (one, other) = (random.below(lines), random.below(lines));
    match random.below(16) {
        0 => *random_byte(random, text) = random.word() as u8,
        1 => *random_byte(random, text) = *random.pick(BYTES),
        2 => *random_byte(random, text) |= 0x80,
        3 => drop(text.drain(length * one..length * (one + 1))),
        4 => text.splice(length * one..length * one, text[length * one..length * (one + 1)].to_vec()).for_each(drop),
        5 => exchange(text, length * one, length * other, length),
        6 => exchange(text, length * one, length * ((one + 1) % lines), length),
        7 => {
            let part = 1 + 5 * random.below((length - 2) / 5);
            exchange(text, length * one + part, length * other + part, 5);
        }
        8 => text.truncate(text.len() - random.between(1, length + 1).min(text.len())),
        9 => {
            let more = random.between(1, length + 1);
            text.extend((0..more).map(|_| BYTES[more % BYTES.len()]));
        }
        10 => set_field(random, text, length, one, |random, field| *field = **random.pick(&FIELDS)),
        11..=12 => set_field(random, text, length, one, |random, field| *field = number(random)),
        13 => set_field(random, text, length, 0, nudge),
        14 => text[length * one] = *random.pick(b"HOLMDPVRhom \n"),
        _ => set_field(random, text, length, one, nudge),
    }
}

/// Makes a text empty, or longer than any chart.
pub fn resize(random: &mut Random, text: &mut Vec<u8>) {
    let longest = CHART * (1 + POSITIONS + MOVES);
    match random.below(4) {
        0 => text.clear(),
        1 => text.resize(longest, b' '),
        2 => text.resize(longest + 1, b' '),
        _ => text.resize(longest + CHART, b' '),
    }
}

fn random_byte<'a>(random: &mut Random, text: &'a mut [u8]) -> &'a mut u8 {
    let place = random.below(text.len());
    &mut text[place]
}

/// Exchanges two parts of a text of one length.
fn exchange(text: &mut [u8], one: usize, other: usize, length: usize) {
    if one != other {
        (0..length).for_each(|i| text.swap(one + i, other + i));
    }
}

/// Lets `change` replace one of a line's fields.
fn set_field(
    random: &mut Random,
    text: &mut [u8],
    length: usize,
    line: usize,
    change: impl FnOnce(&mut Random, &mut [u8; 5]),
) {
    let place = length * line + 1 + 5 * random.below((length - 2) / 5);
    let field: &mut [u8] = &mut text[place..place + 5];
    change(random, field.try_into().expect("a field has five bytes"));
}

/// A field with some number, in range or out of it.
fn number(random: &mut Random) -> [u8; 5] {
    let small = random.below(12);
    field(*random.pick(&[small, small, small, 0, 1, 2, 511, 512, 513, 4096, 4097, 65_535, 99_999]))
}

pub fn field(number: usize) -> [u8; 5] {
    let mut text = Vec::new();
    push_number(&mut text, number);
    text.try_into().expect("a field has five bytes")
}

/// Changes a field's number by one, if it holds one.
fn nudge(random: &mut Random, text: &mut [u8; 5]) {
    if let Some(number) = held(text) {
        let up = number == 0 || random.chance(50);
        *text = field(if up { number + 1 } else { number - 1 });
    }
}

/// The count of positions by a chart's first line, if there are as many lines and one more.
pub fn counted(text: &[u8]) -> Option<usize> {
    text.get(1..6).and_then(held).filter(|&n| n > 0 && text.len() >= CHART * (n + 2))
}

/// One damage to a chart's text of a kind that only charts have.
pub fn hurt_chart(random: &mut Random, text: &mut Vec<u8>) {
    let Some(n) = counted(text) else {
        return;
    };
    let line = CHART * random.between(1, n);
    match random.below(5) {
        0 => text[line + 6..line + 11].copy_from_slice(&field(random.below(4))),
        1 => text[line] = if text[line] == b'O' { b'L' } else { b'O' },
        2 => {
            let from = field(random.below(n));
            let moves = text.split_off(CHART * (n + 1));
            let kept = moves.chunks(CHART).filter(|line| line[0] != b'M' || line.get(1..6) != Some(&from));
            text.extend(kept.flatten());
        }
        3 => {
            let (place, count) = *random.pick(&[(1, 0), (6, 0), (1, 513), (6, 4097), (1, 512), (6, 4096)]);
            text[place..place + 5].copy_from_slice(&field(count));
        }
        _ => {
            let letter = CHART * random.between(n + 1, text.len() / CHART - 1);
            text[letter] ^= b'M' ^ b'D';
        }
    }
}

/// A blank, or what is nearly one, in some field of a plate's text.
pub fn hurt_plate_by_blanks(random: &mut Random, text: &mut [u8]) {
    let lines = text.len() / PLATE;
    if lines > 0 {
        let line = random.below(lines);
        set_field(random, text, PLATE, line, make_blank);
    }
}

fn make_blank(random: &mut Random, field: &mut [u8; 5]) {
    *field = if random.chance(70) { *BLANK } else { **random.pick(&NEARLY_BLANK) };
}

/// One damage with blanks to a chart's text: one in a column of any kind of line, or one as a mark with another fault
/// beside it or after it.
pub fn hurt_chart_by_blanks(random: &mut Random, text: &mut [u8]) {
    let count = text.len() / CHART;
    let Some(n) = counted(text) else {
        return;
    };
    let (position, later) = (random.between(1, n), random.between(n + 1, count - 1));
    if random.chance(60) {
        let line = *random.pick(&[0, position, later]);
        return set_field(random, text, CHART, line, make_blank);
    }
    let mut lines: Vec<&mut [u8]> = text.chunks_exact_mut(CHART).collect();
    lines[position][6..11].copy_from_slice(BLANK);
    match random.below(3) {
        0 => fault(random, lines[position], 1),
        1 => fault(random, lines[later], 2),
        _ => {
            let line = random.between(position + 1, later);
            fault(random, lines[line], 2);
        }
    }
}

/// Another letter or line feed on a chart's line, or another thing in one of its first so many fields.
fn fault(random: &mut Random, line: &mut [u8], fields: usize) {
    match random.below(4) {
        0 => line[0] = *random.pick(b"HOLMDPVRhom \n"),
        1 => line[CHART - 1] = *random.pick(b" 0\r\0"),
        _ => {
            let column = 1 + 5 * random.below(fields);
            let bad = **random.pick(&FIELDS);
            line[column..column + 5].copy_from_slice(&if random.chance(50) { bad } else { number(random) });
        }
    }
}

/// Makes the first line's counts fit the lines again, so that other damage isn't hidden behind it.
pub fn mend_chart(text: &mut [u8]) {
    let lines = text.len() / CHART;
    if let Some(n) = text.get(1..6).and_then(held).filter(|&n| n + 1 < lines) {
        text[6..11].copy_from_slice(&field(lines - 1 - n));
    }
}

/// Replaces numbers of a plate by others that its form allows.
pub fn alter(random: &mut Random, chart: &Chart, plate: &mut Plate) {
    let n = chart.len();
    let (v, w) = (random.below(n), random.below(n));
    match random.below(14) {
        0..=1 => plate.values[v] = other(random, plate.values[v], plate.values[w]),
        2..=3 => plate.steps[v] = other(random, plate.steps[v], plate.steps[w]),
        4 => plate.choices[v] = *random.pick(&[NONE, v as u16, w as u16]),
        5 => plate.choices[v] = some_target(random, &chart.positions[v]),
        6 => plate.choices = random_choices(random, chart),
        7 => alter_first_line(random, plate),
        8 => plate.values.iter_mut().for_each(|value| *value = lifted(*value, 1, 1)),
        9 => plate.steps.iter_mut().for_each(|step| *step = lifted(*step, 2, v as u16 % 2)),
        10 => {
            plate.values.swap(v, w);
            plate.steps.swap(v, w);
        }
        11 => alter_class(random, plate, v),
        12 => (plate.values[v], plate.steps[v]) = (NONE, NONE),
        _ => plate.steps[v] = random.below(6) as u16,
    }
}

/// The target of a meant move, and at R of a disturbance; none where there is no move.
fn some_target(random: &mut Random, position: &Position) -> u16 {
    let list = if position.meant.is_empty() { &position.disturbances } else { &position.meant };
    if list.is_empty() {
        return NONE;
    }
    *random.pick(list)
}

/// A number near or far from the one that was there, or none.
fn other(random: &mut Random, old: u16, another: u16) -> u16 {
    let near = [lifted(old, 1, 1), old.saturating_sub(1), another, 0, 1, 511, NONE];
    let new = *random.pick(&near);
    if new > 511 {
        return NONE;
    }
    new
}

/// `factor` times the number and `more`, within what a field may hold.
fn lifted(number: u16, factor: u16, more: u16) -> u16 {
    if number == NONE {
        return NONE;
    }
    (factor * number + more).min(511)
}

fn alter_first_line(random: &mut Random, plate: &mut Plate) {
    let first_line = &mut plate.first_line;
    let near = |random: &mut Random, old: u16, most: u16| {
        let new = if random.chance(50) { old.wrapping_add(1) } else { old.wrapping_sub(1) };
        new.min(most)
    };
    match random.below(4) {
        0 => first_line.rounds = near(random, first_line.rounds, 512),
        1 => first_line.highest = near(random, first_line.highest, 511),
        2 => first_line.evers = near(random, first_line.evers, 512),
        _ => first_line.highest = NONE,
    }
}

/// Gives all positions of one value another.
fn alter_class(random: &mut Random, plate: &mut Plate, v: usize) {
    let old = plate.values[v];
    let (new, step) =
        *random.pick(&[(NONE, NONE), (0, 0), (lifted(old, 1, 1), 0), (old.min(512).saturating_sub(1), 1)]);
    for (value, old_step) in plate.values.iter_mut().zip(&mut plate.steps) {
        if *value == old {
            (*value, *old_step) = (new, step);
        }
    }
}

/// Makes the first line's numbers fit the other lines, so that a fault of theirs isn't all there is to find.
pub fn mend_plate(plate: &mut Plate) {
    plate.first_line = summed(&plate.values, &plate.steps);
}

/// One damage to a row of choices: an entry, or the row's length.
pub fn hurt_choices(random: &mut Random, choices: &mut Vec<u16>) {
    let n = choices.len();
    match random.below(8) {
        0 => choices.truncate(n.saturating_sub(1)),
        1 => choices.clear(),
        2 => choices.push(random.word() as u16),
        3 => choices.extend([0, NONE, 7]),
        _ if n == 0 => choices.push(NONE),
        4 => choices[random.below(n)] = NONE,
        5 => choices[random.below(n)] = random.word() as u16,
        _ => choices[random.below(n)] = random.below(n) as u16,
    }
}
