//! Profile records: well-formed ones of many sizes, and ones with a chosen fault.

use crate::draft::{short, with_extension, with_staircase, Draft, Rows, EMPTY};
use crate::random::Random;
use crate::samples::{five_sixths, half, TOY};

/// Kb, m, x and type of a record. They need not be ones that a record may have.
#[derive(Clone, Copy)]
struct Shape {
    kb: u16,
    m: u16,
    x: u16,
    coding: u16,
}

impl Shape {
    fn of(draft: &Draft) -> Shape {
        let Draft {
            kb, m, x, coding, ..
        } = *draft;
        Shape { kb, m, x, coding }
    }

    fn type_1(kb: u16, m: u16) -> Shape {
        Shape {
            kb,
            m,
            x: 0,
            coding: 1,
        }
    }

    fn type_2(kb: u16, m: u16, x: u16) -> Shape {
        Shape {
            kb,
            m,
            x,
            coding: 2,
        }
    }
}

/// A record that is accepted; small ones mostly.
pub fn good(random: &mut Random) -> Draft {
    match random.below(100) {
        0..=63 => small(random),
        64..=85 => drawn(6, 6, 6, 16, random),
        86..=93 => drawn(12, 8, 10, 27, random),
        94..=95 => drawn(20, 12, 28, 81, random),
        96..=97 => long(random),
        _ => large(random),
    }
}

/// A record that is accepted, with short tables.
pub fn small(random: &mut Random) -> Draft {
    drawn(3, 4, 4, 6, random)
}

/// A record that is accepted, to cut blocks with: one whose code blocks can carry a checksum as often as not, and
/// some at the edge of that.
pub fn to_cut(random: &mut Random) -> Draft {
    match random.below(20) {
        0..=1 => at_the_edge(random),
        2..=9 => summed(random),
        _ => good(random),
    }
}

/// A record with a Kmax somewhat over 24: in edition 2 few octets are cut already, and each code block has room for
/// its checksum and some bits more. With Kmax 32, 40 and 48 one block may be just enough, with 31, 39 and 47 just
/// not.
pub fn summed(random: &mut Random) -> Draft {
    let any = 27 + random.below(46);
    let kmax = random.pick(&[25, 26, 31, 32, 39, 40, 47, 48, any, any, any, any]);
    with_kmax(kmax, random)
}

/// A record with a Kmax of 24, which is refused in edition 2, of 25, which has room for one bit, or beside them.
pub fn at_the_edge(random: &mut Random) -> Draft {
    let kmax = random.pick(&[23, 24, 24, 24, 25, 25, 25, 26]);
    with_kmax(kmax, random)
}

/// A record with this Kmax, and mostly with smaller sizes beside the largest.
fn with_kmax(kmax: usize, random: &mut Random) -> Draft {
    let pairs: Vec<(usize, usize)> = (1..=20)
        .filter(|kb| kmax % kb == 0 && kmax / kb <= 81)
        .map(|kb| (kb, kmax / kb))
        .collect();
    let (kb, largest) = random.pick(&pairs);
    let near = largest - random.below(largest.min(4));
    let any = 1 + random.below(largest);
    let mut sizes: Vec<u16> = match random.below(4) {
        0 => vec![],
        1 => vec![short(any)],
        _ => vec![short(any), short(near)],
    };
    sizes.push(short(largest));
    sizes.sort_unstable();
    sizes.dedup();
    let m = short(3 + random.below(2));
    let x = short(random.below(3));
    let kb = short(kb);
    let shape = random.pick(&[Shape::type_1(kb, m), Shape::type_2(kb, m, x)]);
    with_sizes(shape, &sizes, random)
}

/// A record of Type 2 that is accepted and mostly has an extension.
pub fn extended(random: &mut Random) -> Draft {
    loop {
        let draft = to_cut(random);
        if draft.coding == 2 && (draft.x > 0 || random.one_in(4)) {
            return draft;
        }
    }
}

/// A record that is accepted and has the same kb, m, x, type and sizes, with tables of its own.
pub fn like(draft: &Draft, random: &mut Random) -> Draft {
    with_sizes(Shape::of(draft), &draft.sizes, random)
}

/// As many rows as there may be, or nearly, with a small z.
fn long(random: &mut Random) -> Draft {
    let (m, x) = random.pick(&[(3, 37), (4, 36), (12, 28), (3, 36), (12, 27)]);
    let kb = short(1 + random.below(4));
    let sizes = rising(4, random);
    with_sizes(Shape::type_2(kb, m, x), &sizes, random)
}

/// The largest records, and those of 5G.212.
fn large(random: &mut Random) -> Draft {
    match random.below(6) {
        0 => with_sizes(Shape::type_1(20, 12), &[81], random),
        1 => with_sizes(Shape::type_1(20, 12), &[79, 80, 81], random),
        2 => half(),
        3 => five_sixths(),
        4 => largest(&[81], random),
        _ => largest(&[79, 80, 81], random),
    }
}

/// A record of Type 2 with as many rows and columns as there may be.
pub fn largest(sizes: &[u16], random: &mut Random) -> Draft {
    let (m, x) = random.pick(&[(4, 36), (12, 28)]);
    with_sizes(Shape::type_2(20, m, x), sizes, random)
}

/// A record of either type whose kb, m, x and z are drawn, up to the given ones.
fn drawn(kb: usize, m: usize, x: usize, z: usize, random: &mut Random) -> Draft {
    let kb = short(1 + random.below(kb));
    let m = short(3 + random.below(m - 2));
    let x = short(random.below(x + 1));
    let shape = random.pick(&[
        Shape::type_1(kb, m),
        Shape::type_2(kb, m, x),
        Shape::type_2(kb, m, x),
    ]);
    let sizes = rising(z, random);
    with_sizes(shape, &sizes, random)
}

/// One to three sizes, strictly rising, up to the given one.
fn rising(highest: usize, random: &mut Random) -> Vec<u16> {
    let mut sizes: Vec<u16> = (0..random.pick(&[1, 2, 3]))
        .map(|_| short(1 + random.below(highest)))
        .collect();
    sizes.sort_unstable();
    sizes.dedup();
    sizes
}

fn with_sizes(shape: Shape, sizes: &[u16], random: &mut Random) -> Draft {
    let tables = sizes.iter().map(|&z| (z, table(shape, z, random)));
    let tables = tables.collect();
    Draft::of_type(shape.coding, shape.kb, shape.m, shape.x, tables)
}

/// A table with shifts that are drawn, a staircase and an extension. With z 0 no entry may be but an empty
/// one.
fn table(shape: Shape, z: u16, random: &mut Random) -> Rows {
    let Shape { kb, m, x, .. } = shape;
    if z == 0 {
        return vec![vec![EMPTY; usize::from(kb + m + x)]; usize::from(m + x)];
    }
    let empty = random.pick(&[0, 1, 4, 8]);
    let entry = |random: &mut Random| {
        if random.below(9) < empty {
            EMPTY
        } else {
            shift(z, random)
        }
    };
    let left: Rows = (0..m)
        .map(|_| (0..kb).map(|_| entry(random)).collect())
        .collect();
    let middle = 1 + random.below(usize::from(m - 2).max(1));
    let staircase = with_staircase(&left, shift(z, random), middle);
    // "earlier ones are free", those of the staircase among them.
    let extension: Rows = (0..x)
        .map(|i| (0..kb + m + i).map(|_| entry(random)).collect())
        .collect();
    with_extension(staircase, &extension)
}

/// A shift below z, often the lowest or the highest.
fn shift(z: u16, random: &mut Random) -> u8 {
    let any = random.below(usize::from(z));
    let shift = random.pick(&[0, usize::from(z) - 1, any, any]);
    u8::try_from(shift).expect("a z is at most 82")
}

/// A record that is refused with 5 or 6, mostly for one reason alone.
pub fn bad(random: &mut Random) -> Vec<u8> {
    match random.below(9) {
        0..=4 => not_well_formed(random),
        5..=7 => no_staircase(random).octets(),
        _ => both(random),
    }
}

/// A record that is not well formed, for one reason.
fn not_well_formed(random: &mut Random) -> Vec<u8> {
    match random.below(16) {
        0..=2 => number_out_of_range(random).octets(),
        3..=4 => against_the_extension(random).octets(),
        5 => sizes_do_not_rise(random).octets(),
        6..=7 => other_offset(random).octets(),
        8..=9 => other_length(random),
        10..=11 => entry_over_its_z(good(random), random).octets(),
        12..=13 => other_header(random).octets(),
        14 => old_form(&small(random)),
        _ => random
            .pick(&[&[][..], &[0], &[0; 10], &[255; 26], &[0; 26], &TOY[..25]])
            .to_vec(),
    }
}

/// The record with the header that it had before: kb, m, t, and the offsets behind that (document 02, CR 3:
/// "the old form is no longer read").
fn old_form(draft: &Draft) -> Vec<u8> {
    let mut draft = draft.clone();
    draft.offsets.iter_mut().for_each(|offset| *offset -= 4);
    let octets = draft.octets();
    [&octets[..4], &octets[8..]].concat()
}

/// A type or an x that no record has, all else as it has to be for that number.
fn against_the_extension(random: &mut Random) -> Draft {
    let kb = short(1 + random.below(3));
    let m = short(3 + random.below(2));
    let x = short(random.below(4));
    let (least, most) = (Shape::type_2(kb, 3, 38), Shape::type_2(kb, 12, 29));
    let any = Shape::type_2(kb, m, x);
    let with_type = |coding| Shape { coding, ..any };
    let shape = match random.below(6) {
        0 => with_type(0),
        1 => with_type(random.pick(&[3, 4, 65_535])),
        // Type 1 with an extension.
        2..=3 => Shape {
            coding: 1,
            x: x + 1,
            ..any
        },
        // x over 37, and m + x over 40.
        4 => least,
        _ => random.pick(&[most, Shape::type_2(kb, 4, 37)]),
    };
    let z = short(1 + random.below(6));
    with_sizes(shape, &[z], random)
}

/// Kb, m, t or a z just out of its range, all else as it has to be for that number.
fn number_out_of_range(random: &mut Random) -> Draft {
    let kb = short(1 + random.below(3));
    let m = short(3 + random.below(2));
    let z = short(1 + random.below(6));
    let x = short(random.below(3));
    let any = random.pick(&[Shape::type_1(kb, m), Shape::type_2(kb, m, x)]);
    let with_kb = |kb| Shape { kb, ..any };
    let with_m = |m| Shape { m, ..any };
    match random.below(8) {
        0 => with_sizes(with_kb(0), &[z], random),
        1 => with_sizes(with_kb(21), &[z], random),
        2 => with_sizes(with_m(2), &[z], random),
        3 => with_sizes(with_m(13), &[z], random),
        4 => with_sizes(any, &[], random),
        5 => with_sizes(any, &[z, z + 1, z + 2, z + 4], random),
        6 => with_sizes(any, random.pick(&[&[0][..], &[0, z]]), random),
        _ => with_sizes(any, &[z, 82][random.below(2)..], random),
    }
}

fn sizes_do_not_rise(random: &mut Random) -> Draft {
    let sizes = random.pick(&[
        &[2, 2][..],
        &[3, 2],
        &[1, 1, 2],
        &[1, 2, 2],
        &[2, 1, 3],
        &[1, 3, 2],
        &[3, 2, 1],
        &[2, 3, 2],
    ]);
    let kb = short(1 + random.below(3));
    let shape = random.pick(&[Shape::type_1(kb, 3), Shape::type_2(kb, 3, 1)]);
    with_sizes(shape, sizes, random)
}

/// One offset that is not the one that is due.
fn other_offset(random: &mut Random) -> Draft {
    let mut draft = good(random);
    let place = random.below(draft.offsets.len());
    let due = draft.offsets[place];
    let any = short(random.below(65_536));
    let other = random.pick(&[due - 1, due + 1, due + 256, 0, 65_535, any]);
    draft.offsets[place] = if other == due { due - 1 } else { other };
    draft
}

/// A record that ends too early or too late.
fn other_length(random: &mut Random) -> Vec<u8> {
    let mut octets = good(random).octets();
    let length = octets.len();
    let any = random.below(length);
    let new = random.pick(&[any, any, length - 1, length - 1, length + 1, length + 2]);
    octets.resize(new, random.pick(&[0, EMPTY]));
    octets
}

/// One entry, at the start, at the end or anywhere, that is not below its z.
fn entry_over_its_z(mut draft: Draft, random: &mut Random) -> Draft {
    let table = anywhere(draft.tables.len(), random);
    let z = draft.sizes[table];
    let row = anywhere(draft.tables[table].len(), random);
    let column = anywhere(draft.tables[table][row].len(), random);
    // A later table may have this shift and this one not.
    let last = draft.sizes[draft.sizes.len() - 1];
    let later = if last > z { last - 1 } else { z };
    let over = random.pick(&[z, z, z + 1, later, 128, 254]);
    draft.tables[table][row][column] = u8::try_from(over).expect("a z is at most 82");
    draft
}

/// The first place, the last one, or any.
fn anywhere(length: usize, random: &mut Random) -> usize {
    let any = random.below(length);
    random.pick(&[0, length - 1, any, any])
}

/// One number of the header that does not say what follows.
fn other_header(random: &mut Random) -> Draft {
    let mut draft = good(random);
    let place = random.below(draft.sizes.len());
    if draft.x > 0 && random.one_in(4) {
        // Rows that are there and not told, or another type.
        match random.below(3) {
            0 => draft.x = 0,
            1 => draft.x -= 1,
            _ => draft.coding = 1,
        }
        return draft;
    }
    let number = match random.below(6) {
        0 => &mut draft.kb,
        1 => &mut draft.m,
        2 => &mut draft.t,
        3 => &mut draft.coding,
        4 => {
            draft.x += random.pick(&[1, 38, 256]);
            return draft;
        }
        _ => &mut draft.sizes[place],
    };
    *number = match random.below(3) {
        // The low octet stays.
        0 => *number + 256 * short(1 + random.below(255)),
        1 => *number + 1 + 81,
        _ => 0,
    };
    draft
}

/// A well-formed record of which one table is no staircase, for one reason.
pub fn no_staircase(random: &mut Random) -> Draft {
    let mut draft = good(random);
    let table = anywhere(draft.tables.len(), random);
    let (kb, m) = (usize::from(draft.kb), usize::from(draft.m));
    let z = draft.sizes[table];
    let rows = &mut draft.tables[table];
    if draft.x > 0 && random.one_in(2) {
        let spoil = random.pick(&[spoil_later, spoil_own, spoil_staircase_row]);
        spoil(rows, kb + m, z, random);
    } else {
        let spoil = random.pick(&[spoil_steps, spoil_outer, spoil_middle]);
        spoil(&mut rows[..m], kb, z, random);
    }
    draft
}

/// An extension row: a shift in a later column than its own.
fn spoil_later(rows: &mut [Vec<u8>], first: usize, z: u16, random: &mut Random) {
    let (m, last) = (rows.len() + first - rows[0].len(), rows.len() - 1);
    // The last row has no later column, and where it is the only one its 0 is spoiled.
    let row = m + random.below((last - m).max(1));
    if row == last {
        return spoil_own(rows, first, z, random);
    }
    let own = first + row - m;
    let column = own + 1 + anywhere(rows[row].len() - own - 1, random);
    rows[row][column] = shift(z, random);
}

/// An extension row: another shift than 0 in its own column, or none.
fn spoil_own(rows: &mut [Vec<u8>], first: usize, z: u16, random: &mut Random) {
    let m = rows.len() + first - rows[0].len();
    let i = anywhere(rows.len() - m, random);
    rows[m + i][first + i] = no_zero(z, random);
}

/// A staircase row: an entry in an extension column.
fn spoil_staircase_row(rows: &mut [Vec<u8>], first: usize, z: u16, random: &mut Random) {
    let m = rows.len() + first - rows[0].len();
    let row = anywhere(m, random);
    let column = first + anywhere(rows[row].len() - first, random);
    rows[row][column] = shift(z, random);
}

/// Column kb+j: a step that is missing or no 0, or an entry where none may be.
fn spoil_steps(rows: &mut [Vec<u8>], kb: usize, z: u16, random: &mut Random) {
    let j = 1 + random.below(rows.len() - 1);
    let row = random.below(rows.len());
    let is_step = row == j || row + 1 == j;
    rows[row][kb + j] = if is_step {
        no_zero(z, random)
    } else {
        shift(z, random)
    };
}

/// Column kb: an outer entry that is missing, or not equal to the other.
fn spoil_outer(rows: &mut [Vec<u8>], kb: usize, z: u16, random: &mut Random) {
    let row = random.pick(&[0, rows.len() - 1]);
    let other = shift(z, random);
    rows[row][kb] = if rows[row][kb] == other { EMPTY } else { other };
}

/// Column kb: no entry between the outer ones, one that is not 0, or two of them.
fn spoil_middle(rows: &mut [Vec<u8>], kb: usize, z: u16, random: &mut Random) {
    let row = 1 + random.below(rows.len() - 2);
    rows[row][kb] = if rows[row][kb] == EMPTY {
        shift(z, random)
    } else {
        no_zero(z, random)
    };
}

/// An entry that is no shift 0.
fn no_zero(z: u16, random: &mut Random) -> u8 {
    match shift(z, random) {
        0 => EMPTY,
        shift => shift,
    }
}

/// A table that is no staircase, and an entry that is not below its z.
fn both(random: &mut Random) -> Vec<u8> {
    let draft = no_staircase(random);
    entry_over_its_z(draft, random).octets()
}

#[cfg(test)]
mod tests {
    use super::{
        against_the_extension, both, good, no_staircase, not_well_formed, old_form, small,
    };
    use crate::draft::{Draft, EMPTY};
    use crate::numbers::{Number, RECORD, STAIRCASE};
    use crate::random::Random;
    use crate::record::profile;

    fn number(record: &[u8]) -> Number {
        profile(record).err().unwrap_or(0)
    }

    #[test]
    fn good_records_are_accepted() {
        let mut random = Random::new(1);
        for _ in 0..3000 {
            assert_eq!(number(&good(&mut random).octets()), 0);
        }
    }

    #[test]
    fn small_records_are_many_and_the_largest_is_among_them() {
        let mut random = Random::new(2);
        let lengths: Vec<usize> = (0..3000)
            .map(|_| good(&mut random).octets().len())
            .collect();
        assert!(lengths.iter().sum::<usize>() < 3000 * 330);
        assert_eq!(lengths.iter().max(), Some(&7222));
    }

    #[test]
    fn bad_records_are_refused() {
        let mut random = Random::new(3);
        for _ in 0..3000 {
            assert_eq!(number(&not_well_formed(&mut random)), RECORD);
            assert_eq!(number(&no_staircase(&mut random).octets()), STAIRCASE);
            assert_eq!(number(&both(&mut random)), RECORD);
        }
    }

    #[test]
    fn records_of_either_type_and_every_extension_are_drawn() {
        let mut random = Random::new(4);
        let drafts: Vec<Draft> = (0..3000).map(|_| good(&mut random)).collect();
        let count = |holds: &dyn Fn(&Draft) -> bool| drafts.iter().filter(|d| holds(d)).count();
        assert!(count(&|draft| draft.coding == 1) > 800);
        assert!(count(&|draft| draft.coding == 2 && draft.x == 0) > 200);
        assert!(count(&|draft| draft.coding == 2 && draft.x > 0) > 1200);
        assert!(count(&|draft| draft.m + draft.x == 40) > 30);
        // Free entries in the columns of the staircase, in both ways.
        let in_the_staircase = |draft: &Draft, is: fn(u8) -> bool| {
            let (kb, m) = (usize::from(draft.kb), usize::from(draft.m));
            let rows = draft.tables.iter().flat_map(|table| &table[m..]);
            rows.flat_map(|row| &row[kb..kb + m])
                .any(|&entry| is(entry))
        };
        assert!(count(&|draft| in_the_staircase(draft, |entry| entry == EMPTY)) > 300);
        assert!(count(&|draft| in_the_staircase(draft, |entry| entry != EMPTY)) > 300);
    }

    #[test]
    fn every_fault_of_the_extension_is_made() {
        let mut random = Random::new(5);
        let mut seen = [0; 3];
        for _ in 0..3000 {
            let draft = no_staircase(&mut random);
            let (m, first) = (usize::from(draft.m), usize::from(draft.kb + draft.m));
            for row in draft.tables.iter().flat_map(|table| &table[..m]) {
                seen[0] += usize::from(row[first..].iter().any(|&entry| entry != EMPTY));
            }
            for table in &draft.tables {
                for (i, row) in table[m..].iter().enumerate() {
                    seen[1] += usize::from(row[first + i] != 0);
                    seen[2] +=
                        usize::from(row[first + i + 1..].iter().any(|&entry| entry != EMPTY));
                }
            }
        }
        assert!(seen.iter().all(|&count| count > 100), "{seen:?}");
    }

    #[test]
    fn types_and_extensions_that_no_record_has_are_made() {
        let mut random = Random::new(6);
        let drafts: Vec<Draft> = (0..1000)
            .map(|_| against_the_extension(&mut random))
            .collect();
        let any = |holds: &dyn Fn(&Draft) -> bool| drafts.iter().any(holds);
        assert!(any(&|draft| draft.coding == 0) && any(&|draft| draft.coding == 3));
        assert!(any(&|draft| draft.coding == 1 && draft.x == 1));
        assert!(any(&|draft| draft.x == 38) && any(&|draft| draft.m + draft.x == 41));
        for draft in drafts {
            assert_eq!(number(&draft.octets()), RECORD);
            assert_eq!(number(&old_form(&small(&mut random))), RECORD);
        }
    }
}
