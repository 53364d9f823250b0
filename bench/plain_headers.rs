// A plain reader of packet headers, to compare with: no checks beyond the limits, memory taken per header.
use std::io::Read;

struct Bits<'a> {
    bytes: &'a [u8],
    at: usize,
    last: u8,
    left: u32,
}

impl Bits<'_> {
    fn bit(&mut self) -> Option<bool> {
        if self.left == 0 {
            let byte = *self.bytes.get(self.at)?;
            let after_ff = self.last == 0xFF;
            if after_ff && byte >= 128 {
                return None;
            }
            self.left = if after_ff { 7 } else { 8 };
            self.last = byte;
            self.at += 1;
        }
        self.left -= 1;
        Some((self.last >> self.left) & 1 == 1)
    }

    fn number(&mut self, width: u32) -> Option<u32> {
        let mut value = 0;
        for _ in 0..width {
            value = value * 2 + u32::from(self.bit()?);
        }
        Some(value)
    }
}

struct Tree {
    levels: Vec<(usize, Vec<Option<u8>>)>,
}

impl Tree {
    fn new(mut cols: usize, mut rows: usize) -> Tree {
        let mut levels = vec![(cols, vec![None; cols * rows])];
        while cols > 1 || rows > 1 {
            cols = cols.div_ceil(2);
            rows = rows.div_ceil(2);
            levels.push((cols, vec![None; cols * rows]));
        }
        Tree { levels }
    }

    fn leaf(&mut self, col: usize, row: usize, bits: &mut Bits, inclusion: bool) -> Option<u8> {
        let mut label = 0;
        for (level, (cols, nodes)) in self.levels.iter_mut().enumerate().rev() {
            let node = &mut nodes[(row >> level) * *cols + (col >> level)];
            label = match *node {
                Some(known) => known,
                None if inclusion && label > 0 => label,
                None if inclusion => *node.insert(u8::from(!bits.bit()?)),
                None => {
                    while !bits.bit()? {
                        label += 1;
                        if label > 74 {
                            return None;
                        }
                    }
                    *node.insert(label)
                }
            };
        }
        Some(label)
    }
}

type Block = (u32, u32, u8, u8, u32, u32);

fn read(cols: usize, rows: usize, bytes: &[u8], blocks: &mut Vec<Block>) -> Option<usize> {
    let mut bits = Bits { bytes, at: 0, last: 0, left: 0 };
    blocks.clear();
    if bits.bit()? {
        let (mut inclusion, mut planes) = (Tree::new(cols, rows), Tree::new(cols, rows));
        for row in 0..rows {
            for col in 0..cols {
                if inclusion.leaf(col, row, &mut bits, true)? > 0 {
                    continue;
                }
                let zeros = planes.leaf(col, row, &mut bits, false)?;
                let passes = if !bits.bit()? {
                    1
                } else if !bits.bit()? {
                    2
                } else if bits.number(2)? == 0 {
                    3
                } else {
                    return None;
                };
                let mut width = 3;
                while bits.bit()? {
                    width += 1;
                    if width > 24 {
                        return None;
                    }
                }
                let cleanup = bits.number(width)?;
                let refine = if passes > 1 { bits.number(width + u32::from(passes == 3))? } else { 0 };
                if !(2..65_535).contains(&cleanup) || refine >= 2_047 {
                    return None;
                }
                blocks.push((col as u32, row as u32, zeros, passes, cleanup, refine));
            }
        }
    }
    Some(bits.at + usize::from(bits.last == 0xFF))
}

fn main() {
    let words: Vec<usize> = std::env::args().skip(1).map(|word| word.parse().unwrap()).collect();
    let [times, cols, rows] = words[..] else {
        panic!("how often, columns, rows");
    };
    let mut bytes = Vec::new();
    std::io::stdin().read_to_end(&mut bytes).unwrap();
    let (mut used, mut count) = (0, 0);
    let mut blocks = Vec::new();
    for _ in 0..times {
        used += read(cols, rows, &bytes, &mut blocks).unwrap();
        count += blocks.len();
    }
    println!("{used} {count}");
}
