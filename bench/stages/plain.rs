//! The yardstick: the same three passes in plain Rust, by whole rows of a fixed width.
//!
//! Behind its octets a row has idle ones, and a table has 255 where it names nothing, whose low bits
//! name an idle one. So each entry is a read with a mask, without a test. How many lines and
//! internal slots there are is known at run time, as it is to the proved program.
//!
//! `plain PAIRS LINES SLOTS` carries so many pairs of frames, and prints a sum over the last one.

const PLACES: usize = 30;
const IDLE: u8 = 0xD5;
const NONE: u8 = 0xFF;

/// A row by place, with two idle entries.
type PlaceRow = [u8; 32];

/// A row by internal slot, with at least five idle entries.
type SlotRow = [u8; 64];

struct Tables {
    slots: usize,
    incoming: Vec<SlotRow>,
    space: Vec<SlotRow>,
    outgoing: Vec<PlaceRow>,
}

fn connect_all(lines: usize, slots: usize) -> Tables {
    let mut tables = Tables {
        slots,
        incoming: vec![[NONE; 64]; lines],
        space: vec![[NONE; 64]; lines],
        outgoing: vec![[NONE; 32]; lines],
    };
    for line in 0..lines {
        for place in 0..PLACES {
            let to = (line + place) % lines;
            let other = (place * 7 + to) % PLACES;
            let slot = (place * 17 + 5) % slots;
            tables.incoming[line][slot] = place as u8;
            tables.space[to][slot] = line as u8;
            tables.outgoing[to][other] = slot as u8;
        }
    }
    tables
}

/// The highways have a row for each line that six bits can name, those behind the last line idle.
#[inline(never)]
fn carry(
    from: &[PlaceRow],
    tables: &Tables,
    highway: &mut [SlotRow; 64],
    crossed: &mut [SlotRow],
    to: &mut [PlaceRow],
) {
    for ((row, table), sent) in from.iter().zip(&tables.incoming).zip(highway.iter_mut()) {
        for (octet, place) in sent[..tables.slots].iter_mut().zip(table) {
            *octet = row[usize::from(place & 31)];
        }
    }
    for (table, got) in tables.space.iter().zip(crossed.iter_mut()) {
        for (slot, (octet, line)) in got[..tables.slots].iter_mut().zip(table).enumerate() {
            *octet = highway[usize::from(line & 63)][slot];
        }
    }
    for ((row, table), read) in crossed.iter().zip(&tables.outgoing).zip(to.iter_mut()) {
        for (octet, slot) in read[..PLACES].iter_mut().zip(table) {
            *octet = row[usize::from(slot & 63)];
        }
    }
}

fn main() {
    let words: Vec<usize> = std::env::args()
        .skip(1)
        .map(|word| word.parse().unwrap())
        .collect();
    let [pairs, lines, slots] = words[..] else {
        panic!("plain PAIRS LINES SLOTS");
    };
    assert!((1..=34).contains(&lines) && (1..=59).contains(&slots));
    let tables = connect_all(lines, slots);
    let mut near = vec![[IDLE; 32]; lines];
    for (line, row) in near.iter_mut().enumerate() {
        for (place, octet) in row[..PLACES].iter_mut().enumerate() {
            *octet = ((line * 37 + place * 11) % 256) as u8;
        }
    }
    let mut far = vec![[IDLE; 32]; lines];
    let mut highway = [[IDLE; 64]; 64];
    let mut crossed = vec![[IDLE; 64]; lines];
    for _ in 0..pairs {
        carry(&near, &tables, &mut highway, &mut crossed, &mut far);
        carry(&far, &tables, &mut highway, &mut crossed, &mut near);
    }
    let sum = near
        .iter()
        .flat_map(|row| &row[..PLACES])
        .fold(0u32, |sum, octet| sum.wrapping_mul(31).wrapping_add(u32::from(*octet)));
    println!("{sum}");
}
