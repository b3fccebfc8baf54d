//! A plain Rust program of the same job as `bc_heapview`: it reads an image from standard input, looks for the same faults, and answers
//! `counts` or `path L S`. `make` writes the largest image: 4,194,304 objects of one field in 16,384 lists of 256, each below a root slot
//! of its own, in no order of addresses. `bench/view` builds it and times both.
mod plain_reader;

use plain_reader::{Image, MAGIC, SUPERPAGES, class_of, scan};
use std::io::{self, Read, Write};

/// An image, and for each address one more than the number of the object there.
struct View {
    image: Image,
    index: Vec<u32>,
}

impl View {
    fn new(image: Image) -> View {
        let mut index = vec![0; 2048 * image.superpages() as usize];
        for (number, cell) in image.cells.iter().enumerate() {
            index[cell.address as usize] = number as u32 + 1;
        }
        View { image, index }
    }

    fn target(&self, bits: u64) -> Option<usize> {
        if bits == 0 || bits % 2 == 1 {
            return None;
        }
        match self.index.get((bits / 2 - 1) as usize) {
            Some(number) if *number > 0 => Some(*number as usize - 1),
            _ => None,
        }
    }

    /// All objects that are reached, by their least ways, each with the find and the field, or the slot, that it comes from.
    fn search(&self) -> Vec<(usize, Option<usize>, usize)> {
        let mut seen = vec![false; self.image.cells.len()];
        let mut found = Vec::new();
        for (slot, bits) in self.image.roots.iter().enumerate() {
            if let Some(node) = self.target(*bits) {
                if !seen[node] {
                    seen[node] = true;
                    found.push((node, None, slot));
                }
            }
        }
        let mut entry = 0;
        while entry < found.len() {
            for (field, bits) in self.image.cells[found[entry].0].fields.iter().enumerate() {
                if let Some(node) = self.target(*bits) {
                    if !seen[node] {
                        seen[node] = true;
                        found.push((node, Some(entry), field));
                    }
                }
            }
            entry += 1;
        }
        found
    }

    fn counts(&self, out: &mut Vec<u8>) {
        let mut counts = vec![[0u64; 129]; self.image.domains() as usize];
        for (node, _, _) in self.search() {
            let each = &self.image.cells[node];
            counts[each.domain() as usize][class_of(each.head % 128) as usize] += 1;
        }
        let mut need = 0;
        for (domain, classes) in counts.iter().enumerate() {
            for (class, count) in classes.iter().enumerate().filter(|(_, count)| **count > 0) {
                let superpages = count.div_ceil(2048 / class as u64);
                need += superpages;
                writeln!(out, "domain {domain} class {class} objects {count} superpages {superpages}").unwrap();
            }
        }
        writeln!(out, "need {need}").unwrap();
    }

    fn path(&self, birth: (u64, u64), out: &mut Vec<u8>) {
        let found = self.search();
        let Some(mut at) = found.iter().position(|(node, _, _)| self.image.cells[*node].birth() == birth) else {
            writeln!(out, "none").unwrap();
            return;
        };
        let mut steps = Vec::new();
        while let Some(before) = found[at].1 {
            steps.push(at);
            at = before;
        }
        let name = |at: usize| self.image.cells[found[at].0].birth();
        let (slot, (lane, serial)) = (found[at].2 as u64, name(at));
        writeln!(out, "root {} {} {lane}.{serial}", slot / self.image.slots(), slot % self.image.slots()).unwrap();
        for at in steps.into_iter().rev() {
            let (lane, serial) = name(at);
            writeln!(out, "field {} {lane}.{serial}", found[at].2).unwrap();
        }
    }
}

/// Writes the largest image.
fn make(out: &mut impl Write) -> io::Result<()> {
    let count = SUPERPAGES * 1024;
    let mut put = |item: u64| out.write_all(&item.to_be_bytes());
    for item in [MAGIC, 1, 1, 64, 256, SUPERPAGES, 1, 1, 3, 1] {
        put(item)?;
    }
    for _ in 0..64 {
        put(0)?;
    }
    put(count)?;
    let mut order: Vec<u64> = (0..count).collect();
    let mut state = 1u64;
    for place in (1..count as usize).rev() {
        state = state.wrapping_mul(6_364_136_223_846_793_005).wrapping_add(1_442_695_040_888_963_407);
        order.swap(place, (state >> 33) as usize % (place + 1));
    }
    // The list of a slot is so many neighbours in this order.
    let mut next = vec![0u64; count as usize];
    for (place, cell) in order.iter().enumerate() {
        if place % 256 < 255 {
            next[*cell as usize] = 2 * (2 * order[place + 1] + 1);
        }
    }
    for slot in 0..64 * 256 {
        put(2 * (2 * order[256 * slot] + 1))?;
    }
    for superpage in 0..SUPERPAGES {
        put(2 + 256 * (superpage % 64))?;
        put(1024)?;
        for cell in 1024 * superpage..1024 * (superpage + 1) {
            put(2 * cell)?;
            put((cell + 1) << 17 | (superpage % 64) << 7 | 1)?;
            put(next[cell as usize])?;
        }
    }
    // On standard error the birth at the end of the last list.
    eprintln!("{}", order[count as usize - 1] + 1);
    Ok(())
}

fn main() -> io::Result<()> {
    let words: Vec<String> = std::env::args().skip(1).collect();
    if words.first().is_some_and(|word| word == "make") {
        let mut out = io::BufWriter::new(io::stdout().lock());
        make(&mut out)?;
        return out.flush();
    }
    let mut bytes = Vec::new();
    io::stdin().lock().read_to_end(&mut bytes)?;
    let image = match scan(&bytes) {
        Ok(image) if image.used < bytes.len() => Err(image.used),
        other => other,
    };
    let view = match image {
        Ok(image) => View::new(image),
        Err(at) => {
            eprintln!("bad image at {at}");
            std::process::exit(8);
        }
    };
    drop(bytes);
    let mut out = Vec::new();
    match words.iter().map(String::as_str).collect::<Vec<_>>()[..] {
        ["counts"] => view.counts(&mut out),
        ["path", lane, serial] => view.path((lane.parse().unwrap(), serial.parse().unwrap()), &mut out),
        _ => std::process::exit(2),
    }
    io::stdout().lock().write_all(&out)
}
