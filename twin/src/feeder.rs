//! The feeder file: its three tables, its limits and its radial form (refusals 9 to 24).

use crate::equations::{Pair, Phases, LIMIT};
use crate::place::Place;
use crate::relay::{Regulator, Relay, Taps, MOST_TAP};
use crate::text::Reader;
use crate::{Refusal, MAX_FILE};

pub const MAX_BRANCHES: usize = 200;
pub const MAX_LOADS: usize = 300;

pub const SOURCE_HEADER: &str = "source,va_re,va_im,vb_re,vb_im,vc_re,vc_im,tol,sweeps";
pub const BRANCH_HEADER: &str = "from,to,phases,kind,p1,p2,p3,p4,p5,p6,p7,p8,p9,p10,p11,p12";
pub const LOAD_HEADER: &str = "node,phase,kind,vn,p,q";

/// The line of the first branch row.
const FIRST_BRANCH: u64 = 5;

const OHMS: i64 = 100_000_000;
const TURNS: i64 = 1_000_000;
const VA: i64 = 3_000_000;
/// Of a regulator's level and band, in cV.
const LEVELS: i64 = 20_000;
const RATIOS: i64 = 10_000;

/// A feeder with nothing wrong. Node 0 is the source, node i + 1 the to-node of branch row i.
#[derive(Clone, Debug)]
pub struct Feeder {
    pub source: u64,
    pub source_v: Phases,
    pub tol: i64,
    pub limit: i64,
    pub branches: Vec<Branch>,
    pub loads: Vec<Load>,
    /// The branch rows, each behind the one that feeds it.
    pub order: Vec<usize>,
}

#[derive(Clone, Debug)]
pub struct Branch {
    pub from: u64,
    pub to: u64,
    /// The from-node.
    pub parent: usize,
    /// A 1, B 2, C 4.
    pub phases: u8,
    pub device: Device,
}

#[derive(Clone, Debug)]
pub enum Device {
    /// aa, ab, ac, bb, bc, cc
    Line {
        z: [Pair; 6],
    },
    Regulator(Regulator),
    Transformer {
        connection: Connection,
        n: i64,
        m: i64,
        z: [Pair; 3],
    },
}

#[derive(Clone, Copy, Debug, PartialEq, Eq)]
pub enum Connection {
    Wye,
    Delta,
}

#[derive(Clone, Debug)]
pub struct Load {
    pub name: u64,
    pub node: usize,
    pub place: Place,
    pub kind: Kind,
    pub vn: i64,
    pub p: i64,
    pub q: i64,
}

#[derive(Clone, Copy, Debug, PartialEq, Eq)]
pub enum Kind {
    Power,
    Current,
    Impedance,
}

impl Feeder {
    /// The phases of a node.
    pub fn phases(&self, node: usize) -> u8 {
        match node {
            0 => 7,
            _ => self.branches[node - 1].phases,
        }
    }

    /// The regulators in row order, each with its branch row.
    pub fn regulators(&self) -> impl Iterator<Item = (usize, &Regulator)> {
        self.branches.iter().enumerate().filter_map(|(row, branch)| match &branch.device {
            Device::Regulator(regulator) => Some((row, regulator)),
            _ => None,
        })
    }

    /// Their taps in use.
    pub fn taps(&self) -> Vec<Taps> {
        self.regulators().map(|(_, regulator)| regulator.taps).collect()
    }

    /// Uses these taps, one entry for each regulator in row order.
    pub fn set_taps(&mut self, taps: &[Taps]) {
        let mut taps = taps.iter();
        for branch in &mut self.branches {
            if let Device::Regulator(regulator) = &mut branch.device {
                regulator.taps = *taps.next().expect("taps for every regulator");
            }
        }
    }
}

/// Reads a feeder file, or answers the first of the refusals 9 to 24 that it has.
pub fn read_feeder(bytes: &[u8]) -> Result<Feeder, Refusal> {
    if bytes.len() > MAX_FILE {
        return Err((9, 0));
    }
    let mut reader = Reader::new(bytes);
    let mut faults = Faults::default();
    let Some(mut feeder) = read_tables(&mut reader, &mut faults) else {
        return Err((10, reader.line()));
    };
    if let Some(line) = faults.limit {
        return Err((11, line));
    }
    connect(&mut feeder)?;
    if let Some(line) = faults.not_zero {
        return Err((24, line));
    }
    Ok(feeder)
}

/// The first lines with the faults that a row has by itself.
#[derive(Default)]
struct Faults {
    limit: Option<u64>,
    not_zero: Option<u64>,
}

fn read_tables(reader: &mut Reader, faults: &mut Faults) -> Option<Feeder> {
    reader.header(SOURCE_HEADER)?;
    let mut feeder = read_source(reader, faults)?;
    reader.end_of_line()?;

    reader.header(BRANCH_HEADER)?;
    while !reader.empty_line() {
        let line = reader.line();
        let (branch, within, zeros) = read_branch(reader)?;
        if !within || feeder.branches.len() == MAX_BRANCHES {
            faults.limit.get_or_insert(line);
        }
        if !zeros {
            faults.not_zero.get_or_insert(line);
        }
        if feeder.branches.len() < MAX_BRANCHES {
            feeder.branches.push(branch);
        }
    }

    reader.header(LOAD_HEADER)?;
    while !reader.at_end() {
        let line = reader.line();
        let (load, within) = read_load(reader)?;
        if !within || feeder.loads.len() == MAX_LOADS {
            faults.limit.get_or_insert(line);
        }
        if feeder.loads.len() < MAX_LOADS {
            feeder.loads.push(load);
        }
    }
    Some(feeder)
}

fn read_source(reader: &mut Reader, faults: &mut Faults) -> Option<Feeder> {
    let line = reader.line();
    let source = reader.name()?;
    let v = reader.next_numbers::<6>()?;
    let tol = reader.next_number()?;
    let limit = reader.next_number()?;
    reader.end_of_line()?;
    if !all_within(&v, LIMIT) || !(0..=1000).contains(&tol) || !(1..=100).contains(&limit) {
        faults.limit = Some(line);
    }
    Some(Feeder {
        source,
        source_v: pairs(&v),
        tol,
        limit,
        branches: Vec::with_capacity(MAX_BRANCHES),
        loads: Vec::with_capacity(MAX_LOADS),
        order: Vec::new(),
    })
}

/// A branch row, whether its values are within their limits, and whether those that must be 0 are 0.
fn read_branch(reader: &mut Reader) -> Option<(Branch, bool, bool)> {
    let from = reader.name()?;
    reader.comma()?;
    let to = reader.name()?;
    let phases = reader.next_phases()?;
    let kind = reader.next_letter()?;
    if !matches!(kind, b'L' | b'R' | b'Y' | b'D') {
        return None;
    }
    let p = reader.next_numbers::<12>()?;
    reader.end_of_line()?;

    let has = |bits: u8| phases & bits == bits;
    let (device, within, zeros) = match kind {
        b'L' => {
            // The phases that each of aa, ab, ac, bb, bc, cc belongs to.
            const OWNERS: [u8; 6] = [1, 3, 5, 2, 6, 4];
            let z: [Pair; 6] = pairs(&p);
            let zeros = z.iter().zip(OWNERS).all(|(z, owners)| has(owners) || *z == Pair::default());
            (Device::Line { z }, all_within(&p, OHMS), zeros)
        }
        b'R' => {
            let taps = [p[0], p[1], p[2]];
            let absent = taps.iter().zip([1, 2, 4]).all(|(tap, owner)| has(owner) || *tap == 0);
            let (relay, within, zeros) = relay_of([p[3], p[4], p[5], p[6], p[7], p[8]]);
            let device = Device::Regulator(Regulator { taps, relay });
            (device, within && all_within(&taps, MOST_TAP), zeros && absent && all_within(&p[9..], 0))
        }
        _ => {
            let connection = if kind == b'Y' { Connection::Wye } else { Connection::Delta };
            let (n, m) = (p[0], p[1]);
            let turns = 1..=TURNS;
            let within = turns.contains(&n) && turns.contains(&m) && all_within(&p[2..8], OHMS);
            (Device::Transformer { connection, n, m, z: pairs(&p[2..8]) }, within, all_within(&p[8..], 0))
        }
    };
    Some((Branch { from, to, parent: 0, phases, device }, within, zeros))
}

/// The relay that p4 to p9 of a regulator row name, whether they are within their limits, and whether those that must be 0
/// are 0. At level 0 there is no relay, and the others must be 0 and have no limit; else they have their limits.
fn relay_of(p: [i64; 6]) -> (Option<Relay>, bool, bool) {
    let [level, band, potential_ratio, current_ratio, r, x] = p;
    if level == 0 {
        return (None, true, all_within(&p, 0));
    }
    let ratios = 1..=RATIOS;
    let within = (1..=LEVELS).contains(&level)
        && (0..=LEVELS).contains(&band)
        && ratios.contains(&potential_ratio)
        && ratios.contains(&current_ratio)
        && all_within(&[r, x], OHMS);
    let compensator = Pair { re: r, im: x };
    (Some(Relay { level, band, potential_ratio, current_ratio, compensator }), within, true)
}

/// A load row, and whether its values are within their limits.
fn read_load(reader: &mut Reader) -> Option<(Load, bool)> {
    let name = reader.name()?;
    let place = Place::of_word(reader.next_word()?)?;
    let kind = match reader.next_letter()? {
        b'P' => Kind::Power,
        b'I' => Kind::Current,
        b'Z' => Kind::Impedance,
        _ => return None,
    };
    let [vn, p, q] = reader.next_numbers::<3>()?;
    reader.end_of_line()?;
    let within = (1..=place.most_vn()).contains(&vn) && all_within(&[p, q], VA);
    Some((Load { name, node: 0, place, kind, vn, p, q }, within))
}

fn all_within(numbers: &[i64], bound: i64) -> bool {
    numbers.iter().all(|number| number.abs() <= bound)
}

fn pairs<const N: usize>(numbers: &[i64]) -> [Pair; N] {
    std::array::from_fn(|k| Pair { re: numbers[2 * k], im: numbers[2 * k + 1] })
}

/// Finds the node of every name and the order of work (refusals 20 to 23).
fn connect(feeder: &mut Feeder) -> Result<(), Refusal> {
    let rows = feeder.branches.len();
    let line_of = |row: usize| FIRST_BRANCH + row as u64;

    let mut names = Names::with_room(rows + 1);
    names.insert(feeder.source, 0);
    let mut twice = None;
    for (row, branch) in feeder.branches.iter().enumerate() {
        if !names.insert(branch.to, row + 1) {
            twice.get_or_insert(line_of(row));
        }
    }
    for (row, branch) in feeder.branches.iter_mut().enumerate() {
        branch.parent = names.find(branch.from).ok_or((20, line_of(row)))?;
    }
    if let Some(line) = twice {
        return Err((21, line));
    }

    feeder.order = order_of_work(&feeder.branches);
    if feeder.order.len() < rows {
        let mut reached = vec![false; rows];
        feeder.order.iter().for_each(|&row| reached[row] = true);
        let row = reached.iter().position(|reached| !reached).unwrap_or(0);
        return Err((22, line_of(row)));
    }

    for (row, branch) in feeder.branches.iter().enumerate() {
        let transformer = matches!(branch.device, Device::Transformer { .. });
        if branch.phases & !feeder.phases(branch.parent) != 0 || transformer && branch.phases != 7 {
            return Err((23, line_of(row)));
        }
    }
    for row in 0..feeder.loads.len() {
        let load = &feeder.loads[row];
        match names.find(load.name) {
            Some(node) if load.place.phases() & !feeder.phases(node) == 0 => feeder.loads[row].node = node,
            _ => return Err((23, line_of(rows) + 2 + row as u64)),
        }
    }
    Ok(())
}

/// The rows reached from the source, each behind the one that feeds it.
fn order_of_work(branches: &[Branch]) -> Vec<usize> {
    const NO_ROW: usize = usize::MAX;
    // The rows that leave a node, as a chain: first[node], then next[row].
    let mut first = vec![NO_ROW; branches.len() + 1];
    let mut next = vec![NO_ROW; branches.len()];
    for (row, branch) in branches.iter().enumerate().rev() {
        next[row] = first[branch.parent];
        first[branch.parent] = row;
    }
    let mut order = Vec::with_capacity(branches.len());
    let mut node = 0;
    let mut done = 0;
    loop {
        let mut row = first[node];
        while row != NO_ROW {
            order.push(row);
            row = next[row];
        }
        if done == order.len() {
            return order;
        }
        node = order[done] + 1;
        done += 1;
    }
}

/// Names and their nodes: open addressing, at most half full. No name is packed as 0.
struct Names {
    slots: Vec<(u64, usize)>,
    shift: u32,
}

impl Names {
    fn with_room(names: usize) -> Self {
        let size = (2 * names).next_power_of_two();
        Names { slots: vec![(0, 0); size], shift: 64 - size.trailing_zeros() }
    }

    /// The slot that has the name, or the empty one where it belongs.
    fn slot(&self, name: u64) -> usize {
        let mut slot = (name.wrapping_mul(0x9E37_79B9_7F4A_7C15) >> self.shift) as usize;
        while self.slots[slot].0 != 0 && self.slots[slot].0 != name {
            slot = (slot + 1) % self.slots.len();
        }
        slot
    }

    /// False, and nothing changed, if the name is there already.
    fn insert(&mut self, name: u64, node: usize) -> bool {
        let slot = self.slot(name);
        if self.slots[slot].0 != 0 {
            return false;
        }
        self.slots[slot] = (name, node);
        true
    }

    fn find(&self, name: u64) -> Option<usize> {
        let (found, node) = self.slots[self.slot(name)];
        (found != 0).then_some(node)
    }
}

#[cfg(test)]
mod tests {
    use super::*;

    const SOURCE: &str = "S,720000,0,-360000,-623538,-360000,623538,1,20\n";

    /// Reads a feeder of these branch rows ("from,to,phases,kind") and load rows.
    fn read(branches: &[&str], loads: &[&str]) -> Result<Feeder, Refusal> {
        let mut text = format!("{SOURCE_HEADER}\n{SOURCE}\n{BRANCH_HEADER}\n");
        for row in branches {
            text += row;
            text += if row.ends_with('L') || row.ends_with('R') { ",0,0" } else { ",1,1" };
            text += ",0,0,0,0,0,0,0,0,0,0\n";
        }
        text += &format!("\n{LOAD_HEADER}\n");
        for row in loads {
            text += row;
            text += "\n";
        }
        read_feeder(text.as_bytes())
    }

    #[test]
    fn radial_form() {
        let fed = read(&["B,C,A,L", "S,B,AB,R", "S,D,ABC,Y"], &["S,C,P,1,0,0", "C,A,Z,1,0,0"]).unwrap();
        assert_eq!(fed.order, [1, 2, 0]);
        assert_eq!(fed.loads[1].node, 1);
        let refusal = |branches: &[&str], loads: &[&str]| read(branches, loads).err();
        assert_eq!(refusal(&["S,B,A,L", "X,C,A,L"], &[]), Some((20, 6)));
        assert_eq!(refusal(&["S,B,A,L", "S,S,A,L"], &[]), Some((21, 6)));
        assert_eq!(refusal(&["S,B,A,L", "S,B,A,L", "X,C,A,L"], &[]), Some((20, 7)));
        assert_eq!(refusal(&["B,B,A,L"], &[]), Some((22, 5)));
        assert_eq!(refusal(&["D,E,A,L", "C,D,A,L", "D,C,A,L", "S,B,A,L"], &[]), Some((22, 5)));
        assert_eq!(refusal(&["S,B,A,L", "B,C,AB,L"], &[]), Some((23, 6)));
        assert_eq!(refusal(&["S,B,AB,D"], &[]), Some((23, 5)));
        assert_eq!(refusal(&["S,B,A,L"], &["S,C,P,1,0,0", "B,B,P,1,0,0"]), Some((23, 9)));
        assert_eq!(refusal(&[], &["B,B,P,1,0,0"]), Some((23, 7)));
        assert_eq!(refusal(&["S,B,A,L"], &["S,AC,P,1,0,0"]), Some((10, 8)));
    }

    #[test]
    fn loads_between_two_phases() {
        let refusal = |branches: &[&str], loads: &[&str]| read(branches, loads).err();
        // Nodes of all phases words, and the loads that may stand there.
        let nodes = [("A", ""), ("B", ""), ("C", ""), ("AB", "AB"), ("AC", "CA"), ("BC", "BC"), ("ABC", "AB BC CA")];
        for (phases, good) in nodes {
            for word in ["AB", "BC", "CA"] {
                let due = if good.contains(word) { None } else { Some((23, 9)) };
                let loads = ["S,A,P,1,0,0", &format!("N,{word},P,1,0,0")];
                assert_eq!(refusal(&[&format!("S,N,{phases},L")], &loads), due, "{word} at {phases}");
            }
        }
        assert_eq!(refusal(&[], &["N,AB,P,1,0,0"]), Some((23, 7)));
        for bad in ["", "AC", "BA", "CB", "AA", "ABC", "BCA", "CAB", "D", "ab", "A B", "AB ", "-AB"] {
            assert_eq!(refusal(&[], &["S,CA,P,1,0,0", &format!("S,{bad},P,1,0,0")]), Some((10, 8)), "{bad:?}");
        }
    }

    #[test]
    fn vn_between_two_phases() {
        for word in ["A", "B", "C"] {
            assert!(read(&[], &[&format!("S,{word},P,2000000,0,0")]).is_ok());
            assert_eq!(read(&[], &[&format!("S,{word},P,2000001,0,0")]).err(), Some((11, 7)));
        }
        for word in ["AB", "BC", "CA"] {
            for vn in [1, 2_000_000, 2_000_001, 4_000_000] {
                assert!(read(&[], &[&format!("S,{word},P,{vn},0,0")]).is_ok());
            }
            for vn in [0, -1, 4_000_001, 999_999_999_999_999_999i64] {
                assert_eq!(read(&[], &[&format!("S,{word},P,{vn},0,0")]).err(), Some((11, 7)));
            }
            // p and q keep their limits, and 10 behind it comes before 11.
            assert_eq!(read(&[], &[&format!("S,{word},P,1,3000001,0")]).err(), Some((11, 7)));
            assert_eq!(read(&[], &[&format!("S,{word},P,1,0,-3000001")]).err(), Some((11, 7)));
            assert_eq!(read(&[], &[&format!("S,{word},P,4000001,0,0"), "S,BA,P,1,0,0"]).err(), Some((10, 8)));
        }
        // 11 comes before 23.
        assert_eq!(read(&["S,N,A,L"], &["N,AB,P,4000001,0,0"]).err(), Some((11, 8)));
        assert_eq!(read(&["S,N,A,L"], &["N,AB,P,4000000,0,0"]).err(), Some((23, 8)));
    }

    #[test]
    fn layout_ends() {
        let text = format!("{SOURCE_HEADER}\n{SOURCE}\n{BRANCH_HEADER}\n\n{LOAD_HEADER}\n");
        assert!(read_feeder(text.as_bytes()).is_ok());
        for cut in 0..text.len() {
            let lines = text[..cut].matches('\n').count() as u64 + 1;
            assert_eq!(read_feeder(&text.as_bytes()[..cut]).err(), Some((10, lines)));
        }
        let again = format!("{SOURCE_HEADER}\n{SOURCE}{SOURCE}\n");
        assert_eq!(read_feeder(again.as_bytes()).err(), Some((10, 3)));
        assert_eq!(read_feeder(format!("{text}\n").as_bytes()).err(), Some((10, 7)));
        assert_eq!(read_feeder(&[b'x'; MAX_FILE]).err(), Some((10, 1)));
        assert_eq!(read_feeder(&[b'x'; MAX_FILE + 1]).err(), Some((9, 0)));
    }
}
