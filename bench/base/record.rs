//! What both baselines share: the numbers of a judged record, how a block is cut and from where it is sent, and the
//! refusals 7 to 10, 16 and 19.

/// Two octets, the high one first.
pub fn number(octets: &[u8], at: usize) -> usize {
    u16::from_be_bytes([octets[at], octets[at + 1]]) as usize
}

/// The octets in front of the sizes.
pub const HEAD: usize = 10;

/// A record that was judged.
pub struct Profile<'a> {
    pub kb: usize,
    pub m: usize,
    pub rows: usize,
    kind: usize,
    sizes: usize,
    octets: &'a [u8],
}

impl<'a> Profile<'a> {
    pub fn of(octets: &'a [u8]) -> Self {
        let [kb, m, x, kind, sizes] = [0, 2, 4, 6, 8].map(|at| number(octets, at));
        Profile { kb, m, rows: m + x, kind, sizes, octets }
    }

    fn z(&self, index: usize) -> usize {
        number(self.octets, HEAD + 4 * index)
    }

    pub fn columns(&self) -> usize {
        self.kb + self.rows
    }

    pub fn table(&self, index: usize) -> &'a [u8] {
        let length = self.rows * self.columns();
        let start = HEAD + 4 * self.sizes + index * length;
        &self.octets[start..start + length]
    }

    /// The index of a size, or 8.
    pub fn index_of(&self, z: usize) -> Result<usize, u32> {
        (0..self.sizes).find(|&index| self.z(index) == z).ok_or(8)
    }

    /// The coded places of a block of this size.
    pub fn coded(&self, z: usize) -> usize {
        self.columns() * z
    }

    /// The place from which a block of this size is sent.
    pub fn start(&self, z: usize, rv: usize) -> usize {
        start(self.kind, rv, self.coded(z))
    }
}

/// Whether a version is none, or none of the type.
pub fn misversioned(kind: usize, rv: usize) -> bool {
    rv > 3 || kind == 1 && rv != 0
}

/// The place from which so many coded places are sent.
pub fn start(kind: usize, rv: usize, coded: usize) -> usize {
    if kind == 2 {
        coded / 4 * rv
    } else {
        0
    }
}

/// N_L, Q_m, the redundancy version, the edition and G.
#[derive(Clone, Copy)]
pub struct Terms {
    pub nl: usize,
    pub qm: usize,
    pub rv: usize,
    pub edition: usize,
    pub g: usize,
}

impl Terms {
    fn refused(self) -> bool {
        !(1..=4).contains(&self.nl)
            || !matches!(self.qm, 2 | 4 | 6)
            || self.g > 65536
            || self.g % (self.nl * self.qm) != 0
    }

    fn symbols(self) -> usize {
        self.g / (self.nl * self.qm)
    }
}

/// How a transport block is cut into code blocks.
pub struct Plan {
    pub bits: usize,
    pub blocks: usize,
    pub places: usize,
    pub z: usize,
    pub index: usize,
    /// The bits of each block's checksum: 24, or 0 where it has none.
    pub sums: usize,
}

impl Plan {
    /// Block r's own bits.
    pub fn own(&self, r: usize) -> usize {
        self.bits / self.blocks + (r < self.bits % self.blocks) as usize
    }

    /// The bits that block r carries: its own and its checksum's.
    pub fn carried(&self, r: usize) -> usize {
        self.own(r) + self.sums
    }

    /// The radio bits of the blocks: the symbol places that do not go round evenly are the first blocks'.
    pub fn shares(&self, terms: Terms) -> Shares {
        let place = terms.nl * terms.qm;
        let symbols = terms.symbols();
        Shares { longer: symbols % self.blocks, place, least: symbols / self.blocks * place }
    }
}

/// The radio bits of each block; together they are G.
#[derive(Clone, Copy)]
pub struct Shares {
    longer: usize,
    place: usize,
    least: usize,
}

impl Shares {
    /// The radio bits of block r.
    pub fn of(self, r: usize) -> usize {
        self.least + (r < self.longer) as usize * self.place
    }
}

/// The plan of a block of so many octets, or 9. In edition 2 blocks have checksums where one block is not enough, and
/// none can be cut where its checksum would fill it.
fn cut(profile: &Profile, edition: usize, octets: usize) -> Result<Plan, u32> {
    let bits = 8 * octets + 24;
    let widest = profile.kb * profile.z(profile.sizes - 1);
    let sums = if edition == 2 && bits > widest { 24 } else { 0 };
    if widest <= sums {
        return Err(9);
    }
    let blocks = bits.div_ceil(widest - sums);
    if blocks > 64 {
        return Err(9);
    }
    let most = bits.div_ceil(blocks) + sums;
    let fits = |&index: &usize| most <= profile.kb * profile.z(index);
    let index = (0..profile.sizes).find(fits).unwrap_or(profile.sizes - 1);
    let z = profile.z(index);
    Ok(Plan { bits, blocks, places: profile.kb * z, z, index, sums })
}

/// 19 and 7, in this order.
fn length_accepted(edition: usize, octets: usize) -> Result<(), u32> {
    if !matches!(edition, 1 | 2) {
        return Err(19);
    }
    if (1..=2048).contains(&octets) {
        Ok(())
    } else {
        Err(7)
    }
}

/// The plan of a block alone, or the first of 19, 7 and 9.
pub fn planned(profile: &Profile, edition: usize, octets: usize) -> Result<Plan, u32> {
    length_accepted(edition, octets)?;
    cut(profile, edition, octets)
}

/// The plan of a transfer, or the first of 19, 7, 16 and 8 to 10.
pub fn accepted(profile: &Profile, octets: usize, terms: Terms) -> Result<Plan, u32> {
    length_accepted(terms.edition, octets)?;
    if misversioned(profile.kind, terms.rv) {
        return Err(16);
    }
    if terms.refused() {
        return Err(8);
    }
    let plan = cut(profile, terms.edition, octets)?;
    if terms.symbols() < plan.blocks {
        return Err(10);
    }
    Ok(plan)
}
