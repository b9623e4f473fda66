//! The yardstick of `run`: the job of `bench_parts mix` in plain Rust, with nothing proved.
//!
//! A bridge of 60 members in four rooms is mixed as many times as the one word says: each member hears
//! the A-law code (ITU-T G.711) of the sum of the others of its room. It takes the same steps as the
//! proved mix, which were the fastest of those tried here: a table decodes, a total is formed for each
//! room, each member's own value is kept and taken out of it, and a table of all codes gives the octet.

/// Decodes an octet as ITU-T G.711, table 1a, says; evaluated at compile time for the table.
const fn decoded(octet: u8) -> i16 {
    let character = octet ^ 0x55;
    let (segment, step) = ((character >> 4 & 7) as i16, (character & 15) as i16);
    let size = if segment == 0 { 2 * step + 1 } else { (2 * step + 33) << (segment - 1) };
    if character >= 0x80 { size } else { -size }
}

static VALUES: [i16; 256] = {
    let mut values = [0; 256];
    let mut octet = 0;
    while octet < 256 {
        values[octet] = decoded(octet as u8);
        octet += 1;
    }
    values
};

fn expand(octet: u8) -> i32 {
    i32::from(VALUES[usize::from(octet)])
}

fn compress(value: i32) -> u8 {
    let sign = if value < 0 { 0 } else { 0x80 };
    let magnitude = value.unsigned_abs().min(4095);
    let segment = 27 - (magnitude | 32).leading_zeros();
    let number = (segment - 1) * 16 + (magnitude >> segment);
    (sign | number as u8) ^ 0x55
}

/// The octet of every value from -4095 to 4095.
struct Codes([u8; 8191]);

impl Codes {
    fn new() -> Box<Codes> {
        Box::new(Codes(std::array::from_fn(|index| compress(index as i32 - 4095))))
    }

    fn code(&self, value: i32) -> u8 {
        self.0[(value.clamp(-4095, 4095) + 4095) as usize]
    }
}

fn mix(codes: &Codes, octets: &[Option<u8>; 60], out: &mut [u8; 60]) {
    let mut totals = [0; 256];
    let mut own = [0; 60];
    for (place, octet) in octets.iter().enumerate() {
        own[place] = octet.map_or(0, expand);
        totals[place % 4] += own[place];
    }
    for (place, heard) in out.iter_mut().enumerate() {
        *heard = codes.code(totals[place % 4] - own[place]);
    }
}

fn main() {
    let rounds: u32 = std::env::args().nth(1).and_then(|word| word.parse().ok()).unwrap_or(0);
    let codes = Codes::new();
    let mut octets = [Some(0x2A); 60];
    let mut out = [0; 60];
    let mut sum = 0u32;
    for round in 0..rounds {
        mix(&codes, &octets, &mut out);
        let place = round as usize % 60;
        octets[place] = if round % 7 == 0 { None } else { Some(out[place] ^ (round % 251) as u8) };
        sum = sum.wrapping_mul(31).wrapping_add(u32::from(out[0]));
    }
    println!("{sum}");
}
