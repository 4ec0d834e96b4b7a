//! Encodings as trees, and damages of them by chance.

/// A sequence of numbers by chance.
pub struct Chance(pub u64);

impl Chance {
    pub fn below(&mut self, limit: usize) -> usize {
        self.0 ^= self.0 << 13;
        self.0 ^= self.0 >> 7;
        self.0 ^= self.0 << 17;
        (self.0 >> 11) as usize % limit.max(1)
    }
    fn octet(&mut self) -> u8 {
        self.below(256) as u8
    }
    pub fn octets(&mut self, most: usize) -> Vec<u8> {
        (0..self.below(most + 1)).map(|_| self.octet()).collect()
    }
    fn is(&mut self, per_thousand: usize) -> bool {
        self.below(1000) < per_thousand
    }
}

/// A tag, and octets in front of other encodings.
#[derive(Clone)]
pub struct Tree {
    pub tag: u8,
    pub front: Vec<u8>,
    pub inner: Vec<Tree>,
}

pub fn leaf(tag: u8, octets: Vec<u8>) -> Tree {
    Tree { tag, front: octets, inner: vec![] }
}
pub fn node(tag: u8, inner: Vec<Tree>) -> Tree {
    Tree { tag, front: vec![], inner }
}

impl Tree {
    /// The encoding, in which each element is damaged so often.
    pub fn encoding(&self, chance: &mut Chance, per_thousand: usize) -> Vec<u8> {
        let mut tree = self.clone();
        let (mut long, mut off) = (false, 0_isize);
        if chance.is(per_thousand) {
            match chance.below(14) {
                0 => tree.tag = chance.octet(),
                1 => tree.tag ^= 1 << chance.below(8),
                2 => long = true,
                3 => off = [-2, -1, 1, 2][chance.below(4)],
                4 => tree.front.clear(),
                5 => tree.front.insert(0, [0, 0x80, 0xff][chance.below(3)]),
                6 => tree.front.push(chance.octet()),
                7 if !tree.front.is_empty() => {
                    let at = chance.below(tree.front.len());
                    tree.front[at] = chance.octet();
                }
                8 => tree.front = chance.octets(12),
                9 if !tree.inner.is_empty() => drop(tree.inner.remove(chance.below(tree.inner.len()))),
                10 if !tree.inner.is_empty() => {
                    let it = tree.inner[chance.below(tree.inner.len())].clone();
                    tree.inner.insert(chance.below(tree.inner.len() + 1), it);
                }
                11 if !tree.inner.is_empty() => {
                    let (one, other) = (chance.below(tree.inner.len()), chance.below(tree.inner.len()));
                    tree.inner.swap(one, other);
                }
                12 => {
                    let it = leaf([1, 2, 4, 5, 0x80, 0xa0, 0xa1][chance.below(7)], chance.octets(2));
                    tree.inner.insert(chance.below(tree.inner.len() + 1), it);
                }
                _ => tree.front.extend([0, 0]),
            }
        }
        let mut contents = tree.front.clone();
        tree.inner.iter().for_each(|it| contents.extend(it.encoding(chance, per_thousand)));
        let length = contents.len().saturating_add_signed(off);
        let mut out = vec![tree.tag];
        match length {
            0..=0x7f if !long => out.push(length as u8),
            0..=0xff if !long || length < 0x80 => out.extend([0x81, length as u8]),
            _ => out.extend([0x82, (length >> 8) as u8, length as u8]),
        }
        out.extend(contents);
        out
    }
}

fn number(chance: &mut Chance, most: usize) -> Tree {
    let mut octets = chance.octets(most);
    while octets.first() == Some(&0) {
        octets.remove(0);
    }
    if octets.first().is_none_or(|it| *it >= 0x80) {
        octets.insert(0, 0);
    }
    leaf(2, octets)
}
fn identifier(chance: &mut Chance) -> Tree {
    let mut octets = [&[0x2a][..], &[0x2b], &[0x55], &[0x60], &[0x78], &[0x88, 0x37]][chance.below(6)].to_vec();
    for _ in 0..chance.below(6) {
        let width = [3, 7, 14, 21, 28][chance.below(5)];
        let arc = chance.below(1 << width);
        let mut arcs = vec![(arc & 0x7f) as u8];
        let mut left = arc >> 7;
        while left > 0 {
            arcs.insert(0, 0x80 | (left & 0x7f) as u8);
            left >>= 7;
        }
        octets.extend(arcs);
    }
    leaf(6, octets)
}
fn bits(chance: &mut Chance) -> Tree {
    let unused = [0, 0, 0, 0, 0, 0, 0, 3][chance.below(8)];
    let mut octets = chance.octets(40);
    if let Some(last) = octets.last_mut() {
        *last &= 0xff << unused;
    }
    octets.insert(0, if octets.is_empty() { 0 } else { unused });
    leaf(3, octets)
}
fn some(tree: Tree, chance: &mut Chance) -> Option<Tree> {
    (chance.below(2) == 0).then_some(tree)
}

/// A value of the type of this number.
pub fn value(of: usize, chance: &mut Chance) -> Tree {
    let c = chance;
    match of {
        0 => node(0x30, vec![number(c, 40), number(c, 40)]),
        1 => {
            let parameters = node(0x30, (0..3).map(|_| number(c, 140)).collect());
            node(0x30, [Some(identifier(c)), some(parameters, c)].into_iter().flatten().collect())
        }
        2 => {
            let (curve, point) = (node(0xa0, vec![identifier(c)]), node(0xa1, vec![bits(c)]));
            let key = [Some(leaf(2, vec![1])), Some(leaf(4, c.octets(40))), some(curve, c), some(point, c)];
            node(0x30, key.into_iter().flatten().collect())
        }
        3 => {
            let parameters = [leaf(5, vec![]), identifier(c), node(0x30, vec![number(c, 5)])][c.below(3)].clone();
            let algorithm = [Some(identifier(c)), some(parameters, c)].into_iter().flatten().collect();
            let mut attributes: Vec<_> = (0..c.below(3)).map(|_| node(0x30, vec![identifier(c)])).collect();
            attributes.sort_by_key(|it| it.encoding(&mut Chance(1), 0));
            let point = Tree { tag: 0x81, ..bits(c) };
            let version = leaf(2, vec![c.below(2) as u8]);
            let parts = [Some(version), Some(node(0x30, algorithm)), Some(leaf(4, c.octets(40)))];
            node(0x30, parts.into_iter().chain([some(node(0xa0, attributes), c), some(point, c)]).flatten().collect())
        }
        _ => {
            let parts = [Some(identifier(c)), some(leaf(1, vec![0xff]), c), Some(leaf(4, c.octets(20)))];
            node(0x30, parts.into_iter().flatten().collect())
        }
    }
}
