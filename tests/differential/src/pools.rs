//! Pools of addresses that show mistakes of order: of IPv4 alone, or of both families.

use crate::random::Random;
use crate::record::{mapped, Address};

/// Which addresses a segment has: IPv4 ones alone, or any mix of both families.
#[derive(Clone, Copy, PartialEq, Eq)]
pub enum Families {
    OnlyV4,
    Both,
}

/// The styles of pools; the twins are equal in the low 31 bits.
const V4_STYLES: usize = 7;
const V4_TWINS: usize = 4;
const BOTH_STYLES: usize = 8;
const BOTH_TWINS: usize = 2;

/// Different addresses other than zero, of some style.
pub fn some(random: &mut Random, families: Families, size: usize) -> Vec<Address> {
    let style = random.below(match families {
        Families::OnlyV4 => V4_STYLES,
        Families::Both => BOTH_STYLES,
    });
    of_style(random, families, size, style)
}

/// Addresses of which many are equal in the low 31 bits, across the families too.
pub fn twins(random: &mut Random, families: Families, size: usize) -> Vec<Address> {
    let style = match families {
        Families::OnlyV4 => V4_TWINS,
        Families::Both => BOTH_TWINS,
    };
    of_style(random, families, size, style)
}

fn of_style(random: &mut Random, families: Families, size: usize, style: usize) -> Vec<Address> {
    let base = random.number() as u32;
    let mut pool = Vec::new();
    while pool.len() < size {
        let index = pool.len() as u32;
        let address = match families {
            Families::OnlyV4 => Address::V4(v4_of_style(random, style, base, index)),
            Families::Both => either_of_style(random, style, base, index),
        };
        if !address.is_zero() && !pool.contains(&address) {
            pool.push(address);
        }
    }
    random.shuffle(&mut pool);
    pool
}

/// An IPv4 address of a style; a small part is drawn freely so that every style has enough.
fn v4_of_style(random: &mut Random, style: usize, base: u32, index: u32) -> u32 {
    if random.chance(10) {
        return random.number() as u32;
    }
    let small = random.below(256) as u32;
    match style {
        // 10.0.0.1, 10.0.0.2, ..
        0 => 0x0A00_0001 + index,
        // Text order differs: .9 and .10, .99 and .100.
        1 => {
            0x0A00_0000
                | random.pick(&[1, 2, 9, 10, 11, 19, 20, 99, 100, 101, 199, 200])
                | small << 8
        }
        // Low octet first differs: 1.0.0.2 and 2.0.0.1.
        2 => small << 24 | (255 - small),
        // Around the middle of the numbers, and both ends.
        3 => random.pick(&[0x7FFF_FF80, 0x0000_0000, 0xFFFF_FF00]) + small,
        // Twins that are equal in the low 31 bits.
        V4_TWINS => ((base & 0x7FFF_FF00) + index / 2) | (index % 2) << 31,
        // One octet differs, at any place.
        5 => base ^ small << random.pick(&[0, 8, 16, 24]),
        _ => random.number() as u32,
    }
}

/// An address of either family.
fn either_of_style(random: &mut Random, style: usize, base: u32, index: u32) -> Address {
    if random.chance(10) {
        return any(random);
    }
    let small = random.below(256) as u128;
    let wide = u128::from(base) << 96 | u128::from(base);
    match style {
        // 10.0.0.1, 2001:db8::1, 10.0.0.2, 2001:db8::2, ..
        0 if index % 2 == 0 => Address::V4(0x0A00_0001 + index / 2),
        0 => Address::V6(0x2001_0DB8 << 96 | u128::from(index / 2 + 1)),
        // An IPv4 address beside all that could be taken for it.
        1 => alike(base & 0xFFFF_FF00 | (index / 4 + 1), index as usize % 4),
        // Twins that are equal in the low 31 bits, in both families.
        BOTH_TWINS => twin(random, (base & 0x7FFF_FF00) + index / 6),
        // One octet differs, at any of the sixteen places.
        3 => Address::V6(wide ^ small << (8 * random.below(16))),
        // Low octet, low word or low half first differs.
        4 => {
            let low = small << random.pick(&[0, 32, 64, 88]);
            Address::V6(low | (255 - small) << random.pick(&[96, 120]))
        }
        // Around the edges of 32, 64 and 127 bits, and both ends.
        5 => {
            let edge = random.pick(&[1 << 32, 1 << 64, 1 << 96, 1 << 127, 128, u128::MAX - 128]);
            Address::V6((edge - 128).wrapping_add(small))
        }
        // One family's addresses alone: 2001:db8::1, 2001:db8::2, ..
        6 => Address::V6(0x2001_0DB8 << 96 | u128::from(index + 1)),
        _ => any(random),
    }
}

/// An address of either family, drawn freely.
pub fn any(random: &mut Random) -> Address {
    if random.chance(50) {
        Address::V4(random.number() as u32)
    } else {
        Address::V6(wide_number(random))
    }
}

fn wide_number(random: &mut Random) -> u128 {
    u128::from(random.number()) << 64 | u128::from(random.number())
}

/// An IPv4 address, or one of the three IPv6 addresses that have its octets: mapped, at the end
/// after zeros, and at the start before zeros.
pub fn alike(number: u32, which: usize) -> Address {
    match which {
        0 => Address::V4(number),
        1 => mapped(number),
        2 => Address::V6(u128::from(number)),
        _ => Address::V6(u128::from(number) << 96),
    }
}

/// An address of either family with these low 31 bits.
fn twin(random: &mut Random, low: u32) -> Address {
    let low = u128::from(low & 0x7FFF_FFFF);
    let above = wide_number(random) << 31;
    match random.below(6) {
        0 => Address::V4(low as u32),
        1 => Address::V4(low as u32 | 1 << 31),
        2 => Address::V6(low),
        3 => Address::V6(low | 1 << 31),
        4 => mapped(low as u32),
        _ => Address::V6(above | low),
    }
}

/// An address of the other family that could be taken for this one.
pub fn in_other_family(random: &mut Random, address: Address) -> Address {
    match address {
        Address::V4(number) => alike(number, random.between(1, 3)),
        Address::V6(number) => Address::V4((number >> random.pick(&[0, 96])) as u32),
    }
}
