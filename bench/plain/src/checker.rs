//! A certificate and whether it is accepted with a plan, by plain loops.

use crate::choices::read;
use crate::nights::{Choice, Park, Shape, Tables};
use crate::stacks::{Bringing, Filling, Order, Stack};
use std::cell::RefCell;

pub(crate) struct Price {
    pub(crate) parts: Option<u64>,
    pub(crate) track: usize,
    pub(crate) train: usize,
    pub(crate) value: u64,
}

pub(crate) struct Case {
    pub(crate) to: u64,
    pub(crate) multiplier: i64,
    pub(crate) alpha: Vec<i64>,
    pub(crate) beta: Vec<i64>,
    pub(crate) prices: Vec<Price>,
}

/// What covers a path, what its blocks are, and how many of them are unparked.
pub(crate) struct Path {
    pub(crate) blocks: Vec<Choice>,
    pub(crate) units: Vec<bool>,
    pub(crate) positions: Vec<bool>,
}

impl Path {
    pub(crate) fn new(tables: &Tables) -> Path {
        Path { blocks: vec![], units: vec![false; tables.units.len()], positions: vec![false; tables.positions.len()] }
    }

    fn cover(&mut self, shape: Shape, covered: bool) {
        self.units[shape.u..shape.u + shape.n].fill(covered);
        self.positions[shape.v..shape.v + shape.n].fill(covered);
    }

    pub(crate) fn push(&mut self, choice: Choice) {
        self.cover(choice.shape, true);
        self.blocks.push(choice);
    }

    pub(crate) fn pop(&mut self) {
        if let Some(choice) = self.blocks.pop() {
            self.cover(choice.shape, false);
        }
    }

    pub(crate) fn next(&self) -> Option<usize> {
        self.units.iter().position(|covered| !covered)
    }

    fn unparked(&self) -> u64 {
        self.blocks.iter().filter(|block| block.park.is_none()).count() as u64
    }
}

/// What the prices of a case take of a shape on each track.
pub(crate) fn parts(tables: &Tables, case: &Case, shape: Shape, long: u64) -> Vec<u64> {
    let mut parts = vec![0; tables.night.tracks];
    let (train, leaves) = (tables.units[shape.u].train, tables.departing(shape).minute);
    for price in &case.prices {
        if train <= price.train && tables.night.arrive[price.train].minute < leaves {
            let count = match price.parts {
                None => long,
                Some(parts) => ((parts + 1) * long - 1) / tables.night.rooms[price.track],
            };
            parts[price.track] += price.value * count;
        }
    }
    parts
}

pub(crate) fn duals(case: &Case, shape: Shape) -> i64 {
    case.alpha[shape.u..shape.u + shape.n].iter().sum::<i64>() + case.beta[shape.v..shape.v + shape.n].iter().sum::<i64>()
}

fn weight(tables: &Tables, case: &Case, choice: Choice, parts: &[u64]) -> Option<i64> {
    let cost = (1000 * tables.cost(choice)?) as i64;
    Some(match choice.park {
        None => cost + case.multiplier,
        Some(park) => cost + parts[park.track] as i64,
    })
}

/// Whether no free shape weighs less in a case than its duals; with stacks, no such option of it that isn't of a stack.
pub(crate) fn holds(tables: &Tables, path: &Path, case: &Case, with_stacks: bool) -> bool {
    for u in 0..tables.units.len() {
        if path.units[u] {
            continue;
        }
        for shape in tables.shapes_at(u, &path.units, &path.positions) {
            let sum = duals(case, shape);
            let ends = 1000 * tables.ends(shape);
            if sum > (ends + 1000 * tables.night.unparked) as i64 + case.multiplier {
                return false;
            }
            let long = tables.length(shape);
            let parts = parts(tables, case, shape, long);
            for track in 0..tables.night.tracks {
                let least = if with_stacks { tables.least_through(shape, long, track) } else { tables.least_ways(shape, long, track) };
                let Some(ways) = least else { continue };
                if sum > (ends + 1000 * ways + parts[track]) as i64 {
                    return false;
                }
            }
        }
    }
    true
}

fn up(sum: i64) -> i64 {
    sum.div_euclid(1000) + i64::from(sum.rem_euclid(1000) > 0)
}

/// The sum of a case at a path, where it speaks of so many unparked blocks and more.
fn sum_at(tables: &Tables, path: &Path, case: &Case, from: u64) -> i64 {
    let mut sum = 0;
    for block in &path.blocks {
        let parts = parts(tables, case, block.shape, tables.length(block.shape));
        sum += weight(tables, case, *block, &parts).expect("a block");
    }
    let free = |values: &[i64], covered: &[bool]| values.iter().zip(covered).filter(|pair| !pair.1).map(|pair| pair.0).sum::<i64>();
    sum += free(&case.alpha, &path.units) + free(&case.beta, &path.positions);
    for price in &case.prices {
        sum -= (price.value * price.parts.unwrap_or(tables.night.rooms[price.track])) as i64;
    }
    sum - (case.multiplier * from as i64).max(case.multiplier * case.to as i64)
}

fn from_of(cases: &[Case], k: usize) -> u64 {
    if k == 0 { 0 } else { cases[k - 1].to + 1 }
}

/// The sums of the cases at a path.
pub(crate) fn sums(tables: &Tables, path: &Path, cases: &[Case]) -> Vec<i64> {
    (0..cases.len()).map(|k| sum_at(tables, path, &cases[k], from_of(cases, k))).collect()
}

/// The bound of a path with one more choice, from the sums at the path, where it is a choice.
pub(crate) fn bound_with(tables: &Tables, path: &Path, cases: &[Case], sums: &[i64], parts: &[Vec<u64>], choice: Choice) -> Option<i64> {
    let unparked = path.unparked() + u64::from(choice.park.is_none());
    let mut least = None;
    for (k, case) in cases.iter().enumerate() {
        let sum = sums[k] + weight(tables, case, choice, &parts[k])? - duals(case, choice.shape);
        if k + 1 == cases.len() || unparked <= case.to {
            least = Some(least.map_or(up(sum), |least: i64| least.min(up(sum))));
        }
    }
    least
}

pub(crate) fn bound_of(path: &Path, cases: &[Case], sums: &[i64]) -> i64 {
    let opens = |k: usize| k + 1 == cases.len() || path.unparked() <= cases[k].to;
    (0..cases.len()).filter(|k| opens(*k)).map(|k| up(sums[k])).min().expect("the last case is open")
}

/// The options of a shape in their order.
pub(crate) fn options(tables: &Tables) -> impl Iterator<Item = Option<Park>> + use<> {
    let parks = (0..4 * tables.night.tracks).map(|k| Some(Park { track: k / 4, sides: [k / 2 % 2, k % 2] }));
    std::iter::once(None).chain(parks)
}

struct Node {
    depth: usize,
    kind: String,
    cases: Option<Vec<Case>>,
    said: Option<(usize, usize, usize, Option<Park>)>,
}

struct Certificate {
    with_stacks: bool,
    nodes: Vec<Node>,
    cost: u64,
    bound: i64,
}

fn number<T: std::str::FromStr>(word: &str) -> T {
    word.parse().ok().expect("a number")
}

fn values(row: &[&str]) -> Vec<i64> {
    row[1..].iter().map(|word| number(word)).collect()
}

fn side(word: &str) -> usize {
    usize::from(word == "B")
}

fn said(tables: &Tables, row: &[&str]) -> (usize, usize, usize, Option<Park>) {
    let track = |name: &str| tables.night.track_names.iter().position(|other| other == name).expect("a track");
    let depart = tables.night.depart.iter().position(|train| train.name == row[1]).expect("a train");
    let park = (row[3] == "park").then(|| Park { track: track(row[4]), sides: [side(row[5]), side(row[6])] });
    (number(row[0]), depart, number::<usize>(row[2]) - 1, park)
}

fn certificate(tables: &Tables, text: &str) -> Certificate {
    let mut certificate = Certificate { with_stacks: false, nodes: vec![], cost: 0, bound: 0 };
    let mut limits = None;
    for line in text.lines() {
        let row: Vec<&str> = line.split(',').collect();
        let cases = certificate.nodes.last_mut().and_then(|node| node.cases.as_mut());
        let place = |track: &str, train: &str| {
            let track = tables.night.track_names.iter().position(|name| name == track).expect("a track");
            (track, tables.night.arrive.iter().position(|other| other.name == train).expect("a train"))
        };
        match (row[0], cases) {
            ("node", _) => certificate.nodes.push(Node {
                depth: number(row[1]),
                kind: row[2].to_string(),
                cases: (row[3] == "new").then(Vec::new),
                said: (row.len() > 4).then(|| said(tables, &row[4..])),
            }),
            ("case", _) => limits = Some((number(row[1]), number(row[2]))),
            ("alpha", Some(cases)) => {
                let (to, multiplier) = limits.take().unwrap_or((160, 0));
                cases.push(Case { to, multiplier, alpha: values(&row), beta: vec![], prices: vec![] });
            }
            ("beta", Some(cases)) => cases.last_mut().expect("a case").beta = values(&row),
            ("price", Some(cases)) => {
                let (track, train) = place(row[1], row[2]);
                cases.last_mut().expect("a case").prices.push(Price { parts: None, track, train, value: number(row[3]) });
            }
            ("part", Some(cases)) => {
                let (track, train) = place(row[1], row[2]);
                cases.last_mut().expect("a case").prices.push(Price { parts: Some(number(row[3])), track, train, value: number(row[4]) });
            }
            ("certificate", _) => certificate.with_stacks = row[1] == "2",
            ("end", _) => (certificate.cost, certificate.bound) = (number(row[1]), number(row[2])),
            _ => {}
        }
    }
    certificate
}

fn plan(tables: &Tables, text: &str) -> (Vec<Choice>, u64) {
    let (mut blocks, mut cost) = (vec![], 0);
    for line in text.lines() {
        let row: Vec<&str> = line.split(',').collect();
        match row[0] {
            "block" => {
                let train = tables.night.arrive.iter().position(|train| train.name == row[2]).expect("a train");
                let first = tables.units.iter().position(|unit| unit.train == train).expect("a unit");
                let (n, depart, q, park) = said(tables, &row[4..]);
                blocks.push(choice(tables, first + number::<usize>(row[3]) - 1, (n, depart, q, park)));
            }
            "cost" => cost = number(row[1]),
            _ => {}
        }
    }
    (blocks, cost)
}

fn choice(tables: &Tables, u: usize, said: (usize, usize, usize, Option<Park>)) -> Choice {
    let (n, depart, q, park) = said;
    let first = tables.positions.iter().position(|position| position.train == depart).expect("a position");
    Choice { shape: Shape { u, v: first + q, n }, park }
}

// Whether each unit and each position is in exactly one block, each block is one, and the run goes through at this cost.
fn is_plan(tables: &Tables, blocks: &[Choice], cost: u64) -> bool {
    let mut path = Path::new(tables);
    let mut real = 0;
    for block in blocks {
        if !tables.shapes_at(block.shape.u, &path.units, &path.positions).contains(&block.shape) {
            return false;
        }
        let Some(cost) = tables.cost(*block) else { return false };
        real += cost;
        path.push(*block);
    }
    path.next().is_none() && path.positions.iter().all(|covered| *covered) && real == cost && tables.goes_through(blocks)
}

// What an unparked block of its own for each unit costs.
fn opening(tables: &Tables) -> u64 {
    let later = |places: &[crate::nights::Place]| places.iter().filter(|place| place.place > 0).count() as u64;
    let night = &tables.night;
    later(&tables.units) * night.split + later(&tables.positions) * night.couple + tables.units.len() as u64 * night.unparked
}

fn all_parts(tables: &Tables, cases: &[Case], shape: Shape) -> Vec<Vec<u64>> {
    let long = tables.length(shape);
    cases.iter().map(|case| parts(tables, case, shape, long)).collect()
}

/// What judges certificates of either version: those of version 2 take off what each stack brings at most, in place of asking its blocks.
struct Judge<'t> {
    tables: &'t Tables,
    stacks: Option<Order>,
}

/// What is known of a path by some cases: their sums, and for each what the blocks of each stack bring, each and together.
struct Known {
    sums: Vec<i64>,
    bringing: Vec<Vec<Vec<Bringing>>>,
    fillings: Vec<Vec<RefCell<Filling>>>,
    gains: Vec<Vec<i64>>,
}

impl Judge<'_> {
    // Above is what is known of a shorter path by the same cases.
    fn known(&self, path: &Path, cases: &[Case], above: Option<&Known>) -> Known {
        let mut known = Known { sums: sums(self.tables, path, cases), bringing: vec![], fillings: vec![], gains: vec![] };
        let Some(order) = &self.stacks else { return known };
        for k in 0..cases.len() {
            let free = |blocks: &Vec<Bringing>| blocks.iter().filter(|block| block.is_free(path)).copied().collect();
            let bringing: Vec<Vec<Bringing>> = match above {
                Some(above) => above.bringing[k].iter().map(free).collect(),
                None => order.bringing_at(self.tables, path, &cases[k]),
            };
            let fillings = bringing.iter().enumerate().map(|(stack, blocks)| RefCell::new(order.filling(self.tables, stack, path, blocks)));
            let fillings: Vec<_> = fillings.collect();
            let gains: Vec<i64> = fillings.iter().map(|filling| filling.borrow_mut().greatest().expect("a path that goes through")).collect();
            known.sums[k] -= gains.iter().sum::<i64>();
            known.bringing.push(bringing);
            known.fillings.push(fillings);
            known.gains.push(gains);
        }
        known
    }

    // How much the sum of a case grows since the stack of a choice brings less once its block stands there; none where it can't.
    fn less_brought(&self, known: &Known, k: usize, choice: Choice) -> Option<i64> {
        let (Some(order), Some(stack)) = (&self.stacks, Stack::place_of(choice)) else { return Some(0) };
        if known.gains[k][stack] == 0 {
            return Some(0);
        }
        order.less_brought(self.tables, &mut known.fillings[k][stack].borrow_mut(), choice.shape)
    }

    /// The bound of a choice at a path, or one that is enough; none where it isn't a choice that goes through.
    fn bound_with(&self, path: &Path, cases: &[Case], known: &Known, parts: &[Vec<u64>], choice: Choice, enough: i64) -> Option<i64> {
        let low = bound_with(self.tables, path, cases, &known.sums, parts, choice)?;
        if low >= enough || self.stacks.is_none() || Stack::place_of(choice).is_none() {
            return Some(low);
        }
        let mut grown = known.sums.clone();
        for (k, sum) in grown.iter_mut().enumerate() {
            *sum += self.less_brought(known, k, choice)?;
        }
        bound_with(self.tables, path, cases, &grown, parts, choice)
    }

    // The first choice that a branch would have to list and doesn't.
    fn is_missed(&self, path: &mut Path, cases: &[Case], known: &Known, bound: i64, listed: &[Choice]) -> bool {
        let Some(u) = path.next() else { return false };
        for shape in self.tables.shapes_at(u, &path.units, &path.positions) {
            let parts = all_parts(self.tables, cases, shape);
            for park in options(self.tables) {
                let choice = Choice { shape, park };
                let Some(longer) = self.bound_with(path, cases, known, &parts, choice, bound) else { continue };
                if longer >= bound || listed.contains(&choice) {
                    continue;
                }
                path.push(choice);
                let through = self.tables.goes_through(&path.blocks);
                path.pop();
                if through {
                    return true;
                }
            }
        }
        false
    }

    // Whether a node's choice is one at its parent's path, with a bound below the best cost there; the path is then the node's.
    fn is_child(&self, path: &mut Path, cases: &[Case], known: &Known, choice: Choice, best: u64, earlier: &[Choice]) -> bool {
        if !self.tables.shapes_at(choice.shape.u, &path.units, &path.positions).contains(&choice.shape) || earlier.contains(&choice) {
            return false;
        }
        let parts = all_parts(self.tables, cases, choice.shape);
        let Some(bound) = self.bound_with(path, cases, known, &parts, choice, best as i64) else { return false };
        path.push(choice);
        bound < best as i64 && self.tables.goes_through(&path.blocks)
    }
}

// The choices that a node lists.
fn listed(tables: &Tables, nodes: &[Node], k: usize, u: usize) -> Vec<Choice> {
    let below = nodes[k + 1..].iter().take_while(|node| node.depth > nodes[k].depth);
    let children = below.filter(|node| node.depth == nodes[k].depth + 1);
    children.map(|node| choice(tables, u, node.said.expect("a choice"))).collect()
}

fn is_known(case: &Case, known: &[Case]) -> bool {
    let same = |a: &Price, b: &Price| (a.parts, a.track, a.train, a.value) == (b.parts, b.track, b.train, b.value);
    known.iter().any(|other| {
        let prices = case.prices.len() == other.prices.len() && case.prices.iter().zip(&other.prices).all(|(a, b)| same(a, b));
        (case.to, case.multiplier, &case.alpha, &case.beta) == (other.to, other.multiplier, &other.alpha, &other.beta) && prices
    })
}

/// The verdict on a certificate with a plan, or the number of the node with which something is wrong.
fn verdict(tables: &Tables, blocks: &[Choice], cost: u64, certificate: &Certificate) -> Result<(), usize> {
    if !is_plan(tables, blocks, cost) || certificate.cost != cost {
        return Err(0);
    }
    let judge = Judge { tables, stacks: certificate.with_stacks.then(|| Order::new(tables)) };
    let mut path = Path::new(tables);
    let mut best = opening(tables);
    let mut above: Vec<(usize, Vec<Choice>, Known)> = vec![];
    for (k, node) in certificate.nodes.iter().enumerate() {
        above.truncate(node.depth);
        while path.blocks.len() + 1 > node.depth.max(1) {
            path.pop();
        }
        let known = above.last().map(|(owner, ..)| certificate.nodes[*owner].cases.as_ref().expect("cases"));
        if let (Some(known), Some(said)) = (known, node.said) {
            let choice = choice(tables, path.next().expect("a unit"), said);
            let (_, earlier, at_parent) = above.last_mut().expect("a parent");
            if !judge.is_child(&mut path, known, at_parent, choice, best, earlier) {
                return Err(k + 1);
            }
            earlier.push(choice);
        }
        if (node.kind == "whole") != path.next().is_none() {
            return Err(k + 1);
        }
        let Some(u) = path.next() else {
            let cost = path.blocks.iter().map(|block| tables.cost(*block).expect("a block")).sum();
            if (cost as i64) < certificate.bound {
                return Err(k + 1);
            }
            best = best.min(cost);
            continue;
        };
        let owner = if node.cases.is_some() { k } else { above.last().expect("a parent").0 };
        let cases = certificate.nodes[owner].cases.as_ref().expect("cases");
        let tried = cases.iter().filter(|case| owner == k && !known.is_some_and(|known| is_known(case, known)));
        if !tried.into_iter().all(|case| holds(tables, &path, case, certificate.with_stacks)) {
            return Err(k + 1);
        }
        let inherited = above.last().filter(|(parent, ..)| *parent == owner).map(|(.., known)| known);
        let at = judge.known(&path, cases, inherited);
        if node.kind == "leaf" && bound_of(&path, cases, &at.sums) < certificate.bound {
            return Err(k + 1);
        }
        if node.kind == "branch" && judge.is_missed(&mut path, cases, &at, certificate.bound, &listed(tables, &certificate.nodes, k, u)) {
            return Err(k + 1);
        }
        above.push((owner, vec![], at));
    }
    Ok(())
}

/// Prints the line of a certificate that is accepted with a plan, or the number of the first node with which something is wrong.
pub fn check(station: &str, timetable: &str, plan_file: &str, certificate_file: &str) {
    let tables = Tables::new(read(station, timetable));
    let (blocks, cost) = plan(&tables, &std::fs::read_to_string(plan_file).expect("a plan"));
    let certificate = certificate(&tables, &std::fs::read_to_string(certificate_file).expect("a certificate"));
    match verdict(&tables, &blocks, cost, &certificate) {
        Ok(()) => {
            let end = if certificate.bound as u64 == cost { "optimal" } else { "unfinished" };
            println!("accepted cost {cost} bound {} nodes {} {end}", certificate.bound, certificate.nodes.len());
        }
        Err(node) => println!("rejected node {node}"),
    }
}
