//! Sheets made from a seed. All but `damaged` are sheets of the grammar, so that later layers can take them too.

/// SplitMix64: small, and the same on each machine.
pub struct Dice(u64);

impl Dice {
    pub fn new(seed: u64) -> Dice {
        Dice(seed)
    }

    fn next(&mut self) -> u64 {
        self.0 = self.0.wrapping_add(0x9e37_79b9_7f4a_7c15);
        let mut z = self.0;
        z = (z ^ (z >> 30)).wrapping_mul(0xbf58_476d_1ce4_e5b9);
        z = (z ^ (z >> 27)).wrapping_mul(0x94d0_49bb_1331_11eb);
        z ^ (z >> 31)
    }

    pub fn below(&mut self, n: u64) -> u64 {
        self.next() % n
    }

    fn chance(&mut self, percent: u64) -> bool {
        self.below(100) < percent
    }
}

#[derive(Clone, Copy, PartialEq, Eq)]
pub enum Sort {
    /// Blocks in blocks, lines of names, numbers, tuples, `let` and `where`.
    Mixed,
    /// One item to a line, none inside another.
    Flat,
    /// Few lines, with typed braces and semicolons.
    Inline,
    /// Blocks in blocks up to forty levels, so that much of it is indentation.
    Deep,
}

pub const SORTS: [(Sort, &str); 4] =
    [(Sort::Mixed, "mixed"), (Sort::Flat, "flat"), (Sort::Inline, "inline"), (Sort::Deep, "deep")];

/// A sheet of a sort that has at most so many bytes, and nearly as many: what is too long for the rest is left out.
pub fn sheet(sort: Sort, bytes: usize, dice: &mut Dice) -> Vec<u8> {
    const LEFT_OUT: usize = 20;
    let mut text = String::new();
    let mut left_out = 0;
    while left_out < LEFT_OUT {
        let before = text.len();
        match sort {
            Sort::Mixed => block(&mut text, 0, 3, dice),
            Sort::Flat => item(&mut text, 0, dice),
            Sort::Inline => inline(&mut text, dice),
            Sort::Deep => deep(&mut text, dice),
        }
        if text.len() > bytes {
            text.truncate(before);
            left_out += 1;
        }
    }
    text.into_bytes()
}

/// A sheet with some bytes that are none of it: changed, put in or taken out.
pub fn damaged(sort: Sort, bytes: usize, dice: &mut Dice) -> Vec<u8> {
    let mut text = sheet(sort, bytes, dice);
    for _ in 0..1 + dice.below(20) {
        let at = dice.below(text.len() as u64 + 1) as usize;
        match dice.below(4) {
            0 => text.insert(at, dice.below(256) as u8),
            1 => drop(text.drain(at..text.len().min(at + 3))),
            2 => drop(text.splice(at..at, std::iter::repeat_n(b"x7\t \r\n\x0c"[dice.below(7) as usize], 70))),
            _ => drop(text.splice(at..at, *b"\r\n1.2.3'\r\r\n")),
        }
    }
    text
}

fn indent(text: &mut String, by: usize) {
    text.extend(std::iter::repeat_n(' ', by));
}

fn name(text: &mut String, dice: &mut Dice) {
    const WORDS: [&str; 16] = [
        "span", "pier", "deck", "girder", "bearing", "joint", "load", "width", "north", "south", "abutment", "rail",
        "camber", "crack", "cover", "sag",
    ];
    text.push_str(WORDS[dice.below(16) as usize]);
    match dice.below(4) {
        0 => text.push_str(&format!("_{}", dice.below(40))),
        1 => text.push('\''),
        _ => {}
    }
}

fn number(text: &mut String, dice: &mut Dice) {
    let whole = dice.below(2000);
    text.push_str(&whole.to_string());
    if dice.chance(50) {
        text.push_str(&format!(".{}", dice.below(100)));
    }
}

fn term(text: &mut String, depth: usize, dice: &mut Dice) {
    match dice.below(if depth == 0 { 4 } else { 6 }) {
        0 | 1 => name(text, dice),
        2 | 3 => number(text, dice),
        4 => {
            text.push('(');
            expression(text, depth - 1, dice);
            text.push_str(", ");
            expression(text, depth - 1, dice);
            text.push(')');
        }
        _ => {
            text.push('(');
            expression(text, depth - 1, dice);
            text.push(')');
        }
    }
}

fn expression(text: &mut String, depth: usize, dice: &mut Dice) {
    if depth > 0 && dice.chance(10) {
        text.push_str("let ");
        name(text, dice);
        text.push_str(" = ");
        number(text, dice);
        text.push_str(" in ");
    }
    term(text, depth, dice);
    while dice.chance(45) {
        text.push_str([" + ", " - ", " * ", " / "][dice.below(4) as usize]);
        term(text, depth, dice);
    }
}

fn item(text: &mut String, by: usize, dice: &mut Dice) {
    indent(text, by);
    name(text, dice);
    text.push_str(" = ");
    expression(text, 2, dice);
    text.push('\n');
}

fn block(text: &mut String, by: usize, depth: usize, dice: &mut Dice) {
    indent(text, by);
    name(text, dice);
    text.push_str(" of\n");
    for _ in 0..2 + dice.below(4) {
        if depth > 0 && dice.chance(30) {
            block(text, by + 2, depth - 1, dice);
        } else {
            item(text, by + 2, dice);
            if dice.chance(15) {
                indent(text, by + 4);
                text.push_str("where ");
                name(text, dice);
                text.push_str(" = ");
                expression(text, 1, dice);
                text.push('\n');
            }
        }
    }
}

fn inline(text: &mut String, dice: &mut Dice) {
    name(text, dice);
    text.push_str(" of { ");
    for _ in 0..8 + dice.below(8) {
        name(text, dice);
        text.push_str(" = ");
        expression(text, 2, dice);
        text.push_str("; ");
    }
    text.push_str("}\n");
}

fn deep(text: &mut String, dice: &mut Dice) {
    let levels = 20 + dice.below(20) as usize;
    for level in 0..levels {
        indent(text, level);
        name(text, dice);
        text.push_str(" of\n");
    }
    item(text, levels, dice);
}
