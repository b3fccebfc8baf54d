//! Reads an image as a plain Rust program would, with the checks of the heap's own reader: what `plain_images` and `plain_view` share.

#![allow(dead_code)] // each of the two programs uses a part

pub const MAGIC: u64 = u64::from_be_bytes(*b"bcimage1");
pub const SUPERPAGES: u64 = 4096;

pub struct Cell {
    pub address: u32,
    pub head: u64,
    pub fields: Vec<u64>,
}

impl Cell {
    pub fn domain(&self) -> u64 {
        self.head >> 7 & 63
    }

    /// Lane and serial.
    pub fn birth(&self) -> (u64, u64) {
        (self.head >> 13 & 15, self.head >> 17)
    }
}

/// An image: all numbers before its root words, these words, its objects, and how many bytes it takes.
pub struct Image {
    pub numbers: Vec<u64>,
    pub roots: Vec<u64>,
    pub cells: Vec<Cell>,
    pub used: usize,
}

impl Image {
    pub fn domains(&self) -> u64 {
        self.numbers[3]
    }

    pub fn slots(&self) -> u64 {
        self.numbers[4]
    }

    pub fn superpages(&self) -> u64 {
        self.numbers[5]
    }
}

pub fn class_of(fields: u64) -> u64 {
    [2, 4, 8, 16, 32, 64, 128].into_iter().find(|class| fields < *class).unwrap()
}

/// The items of some bytes, one after another.
struct Items<'a> {
    bytes: &'a [u8],
    at: usize,
}

impl Items<'_> {
    fn next(&mut self) -> Result<u64, usize> {
        let item = self.bytes.get(self.at..self.at + 8).ok_or(self.at)?;
        self.at += 8;
        Ok(u64::from_be_bytes(item.try_into().unwrap()))
    }

    fn take(&mut self, test: impl Fn(u64) -> bool) -> Result<u64, usize> {
        let at = self.at;
        let item = self.next()?;
        if test(item) { Ok(item) } else { Err(at) }
    }
}

fn lost(word: u64, there: &[bool]) -> bool {
    word != 0 && word % 2 == 0 && !there.get((word / 2 - 1) as usize).copied().unwrap_or(false)
}

/// The image, or where an item fails a test; births that stand twice and references to nowhere tell no place.
pub fn scan(bytes: &[u8]) -> Result<Image, usize> {
    let mut items = Items { bytes, at: 0 };
    let mut numbers = vec![items.take(|n| n == MAGIC)?];
    for (least, most) in [(1, 3), (1, 16), (1, 64), (1, 256), (1, SUPERPAGES), (1, 16), (1, 4096)] {
        numbers.push(items.take(|n| least <= n && n <= most)?);
    }
    let (version, lanes, domains, slots) = (numbers[1], numbers[2], numbers[3], numbers[4]);
    let (superpages, chunks) = (numbers[5], lanes * numbers[6]);
    numbers.push(items.take(|n| chunks + 2 <= n && n <= chunks + 4 * superpages)?);
    numbers.push(items.take(|n| n <= u64::from(u32::MAX))?);
    for _ in 0..domains {
        numbers.push(items.take(|n| n < lanes || n == lanes && version > 1)?);
    }
    let mut births = Vec::new();
    for _ in 0..lanes {
        births.push(items.take(|n| n <= 4_000_000_000)?);
    }
    numbers.extend(&births);
    let mut roots = Vec::new();
    for _ in 0..domains * slots {
        roots.push(items.take(|n| n % 2 == 1 || n / 2 <= 2048 * superpages)?);
    }
    let mut cells = Vec::new();
    for superpage in 0..superpages {
        let pair = items.take(|n| n == 0 || [2, 4, 8, 16, 32, 64, 128].contains(&(n % 256)) && n / 256 < domains)?;
        if pair == 0 {
            continue;
        }
        let (class, domain, mut least) = (pair % 256, pair / 256, 0);
        for _ in 0..items.take(|n| 1 <= n && n <= 2048 / class)? {
            let address = items.take(|n| n / 2048 == superpage && n % class == 0 && n >= least)?;
            least = address + class;
            let head = items.take(|n| {
                let (lane, serial) = (n >> 13 & 15, n >> 17);
                n >> 49 == 0 && lane < lanes && 1 <= serial && serial <= births[lane as usize] && n >> 7 & 63 == domain && class_of(n & 127) == class
            })?;
            let mut fields = Vec::with_capacity((head & 127) as usize);
            for _ in 0..head & 127 {
                fields.push(items.next()?);
            }
            cells.push(Cell { address: address as u32, head, fields });
        }
    }
    let mut born: Vec<u64> = cells.iter().map(|cell| cell.head >> 13).collect();
    born.sort_unstable();
    if born.windows(2).any(|two| two[0] == two[1]) {
        return Err(0);
    }
    drop(born);
    let mut there = vec![false; 2048 * superpages as usize];
    for cell in &cells {
        there[cell.address as usize] = true;
    }
    if roots.iter().chain(cells.iter().flat_map(|cell| &cell.fields)).any(|word| lost(*word, &there)) {
        return Err(0);
    }
    Ok(Image { numbers, roots, cells, used: items.at })
}

extern "C" {
    fn clock() -> std::ffi::c_long;
}

/// The processor time that this program took so far, in seconds.
pub fn processor_seconds() -> f64 {
    (unsafe { clock() }) as f64 / 1e6
}
