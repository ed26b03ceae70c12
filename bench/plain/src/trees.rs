//! Certificates to be checked: trees of a night that grow at random, with duals that hold.

use crate::checker::{Case, Path, Price, bound_of, bound_with, options, parts, sums};
use crate::choices::read;
use crate::nights::{Choice, Park, Shape, Tables};
use std::fmt::Write;

struct Draws(u64);

impl Draws {
    fn below(&mut self, n: usize) -> usize {
        self.0 = self.0.wrapping_mul(6_364_136_223_846_793_005).wrapping_add(1_442_695_040_888_963_407);
        (self.0 >> 33) as usize % n
    }
}

struct Node {
    above: usize,
    choice: Option<Choice>,
    cases: Option<Vec<Case>>,
    children: Vec<usize>,
}

// The least that a shape weighs in a case by an option that has room.
fn least(tables: &Tables, case: &Case, shape: Shape) -> i64 {
    let (ends, long) = (1000 * tables.ends(shape) as i64, tables.length(shape));
    let parts = parts(tables, case, shape, long);
    let parked = (0..tables.night.tracks).filter_map(|track| Some((1000 * tables.least_ways(shape, long, track)? + parts[track]) as i64));
    ends + parked.chain([1000 * tables.night.unparked as i64 + case.multiplier]).min().expect("an option")
}

// Units from the last to the first get what the cheapest way to cover the rest of their train grows by.
fn fit(tables: &Tables, path: &Path, case: &mut Case) {
    let n = tables.units.len();
    let mut rest = vec![0; n + 1];
    for u in (0..n).rev() {
        if path.units[u] {
            continue;
        }
        let ends = u + 1 == n || tables.units[u + 1].train != tables.units[u].train;
        let after = if ends { 0 } else { rest[u + 1] };
        let mut best = 2_000_000_000 + after;
        for shape in tables.shapes_at(u, &path.units, &path.positions) {
            let last = u + shape.n == n || tables.units[u + shape.n].train != tables.units[u].train;
            let betas: i64 = case.beta[shape.v..shape.v + shape.n].iter().sum();
            best = best.min(least(tables, case, shape) - betas + if last { 0 } else { rest[u + shape.n] });
        }
        rest[u] = best;
        case.alpha[u] = best - after;
    }
}

fn case(tables: &Tables, draws: &mut Draws, to: u64, multiplier: i64) -> Case {
    let n = tables.units.len();
    let prices = (0..48.min(tables.night.arrive.len())).map(|k| Price {
        parts: (k % 4 == 3).then_some(1 + k as u64 % 3),
        track: k % tables.night.tracks,
        train: k,
        value: if k % 4 == 3 { 100 } else { draws.below(3) as u64 },
    });
    let prices = prices.collect();
    let beta = (0..n).map(|_| draws.below(500) as i64).collect();
    Case { to, multiplier, alpha: vec![0; n], beta, prices }
}

fn cases(tables: &Tables, path: &Path, draws: &mut Draws, two: bool) -> Vec<Case> {
    let mut cases = if two {
        vec![case(tables, draws, 5, 9_000), case(tables, draws, 160, -9_000)]
    } else {
        vec![case(tables, draws, 160, 0)]
    };
    cases.iter_mut().for_each(|case| fit(tables, path, case));
    cases
}

fn path_of(tables: &Tables, nodes: &[Node], k: usize) -> Path {
    let mut choices = vec![];
    let mut node = k;
    while let Some(choice) = nodes[node].choice {
        choices.push(choice);
        node = nodes[node].above;
    }
    let mut path = Path::new(tables);
    choices.into_iter().rev().for_each(|choice| path.push(choice));
    path
}

fn owner(nodes: &[Node], mut k: usize) -> usize {
    while nodes[k].cases.is_none() {
        k = nodes[k].above;
    }
    k
}

// A choice at a path that goes through, isn't listed and leaves a unit, by one draw; drawn ones that don't are given up.
fn draw_choice(tables: &Tables, path: &mut Path, listed: &[Choice], draws: &mut Draws) -> Option<Choice> {
    let shapes = tables.shapes_at(path.next()?, &path.units, &path.positions);
    if shapes.is_empty() {
        return None;
    }
    let shape = shapes[draws.below(shapes.len())];
    let parks: Vec<Option<Park>> = options(tables).collect();
    let choice = Choice { shape, park: parks[draws.below(parks.len())] };
    if tables.cost(choice).is_none() || listed.contains(&choice) {
        return None;
    }
    path.push(choice);
    let fits = tables.goes_through(&path.blocks) && path.next().is_some();
    path.pop();
    fits.then_some(choice)
}

// A tree of so many branches that grows at a node drawn at random, with its bound: the least over its nodes.
fn grown(tables: &Tables, most: usize, new: bool, cost: u64) -> (Vec<Node>, i64) {
    let mut draws = Draws(1);
    let root = Path::new(tables);
    let mut nodes = vec![Node { above: 0, choice: None, cases: Some(cases(tables, &root, &mut draws, !new)), children: vec![] }];
    let own = |nodes: &[Node], k: usize, path: &Path| {
        let cases = nodes[owner(nodes, k)].cases.as_ref().expect("cases");
        bound_of(path, cases, &sums(tables, path, cases))
    };
    let mut bound = own(&nodes, 0, &root);
    while nodes.len() < most {
        let above = draws.below(nodes.len());
        let mut path = path_of(tables, &nodes, above);
        let listed: Vec<Choice> = nodes[above].children.iter().filter_map(|child| nodes[*child].choice).collect();
        let Some(choice) = draw_choice(tables, &mut path, &listed, &mut draws) else { continue };
        let known = nodes[owner(&nodes, above)].cases.as_ref().expect("cases");
        let long = tables.length(choice.shape);
        let parts: Vec<Vec<u64>> = known.iter().map(|case| parts(tables, case, choice.shape, long)).collect();
        let sums = sums(tables, &path, known);
        if bound_with(tables, &path, known, &sums, &parts, choice).expect("a choice") >= cost as i64 {
            continue;
        }
        path.push(choice);
        let cases = new.then(|| cases(tables, &path, &mut draws, false));
        let child = nodes.len();
        nodes[above].children.push(child);
        nodes.push(Node { above, choice: Some(choice), cases, children: vec![] });
        bound = bound.min(own(&nodes, child, &path));
    }
    (nodes, bound)
}

pub(crate) fn write_choice(tables: &Tables, text: &mut String, choice: Choice) {
    let position = tables.positions[choice.shape.v];
    let depart = &tables.night.depart[position.train].name;
    write!(text, "{},{depart},{}", choice.shape.n, position.place + 1).expect("a string");
    match choice.park {
        None => text.push_str(",unparked"),
        Some(park) => {
            let [side_in, side_out] = park.sides.map(|side| if side == 0 { 'A' } else { 'B' });
            write!(text, ",park,{},{side_in},{side_out}", tables.night.track_names[park.track]).expect("a string");
        }
    }
}

fn write_values(text: &mut String, word: &str, values: &[i64]) {
    text.push_str(word);
    values.iter().for_each(|value| write!(text, ",{value}").expect("a string"));
    text.push('\n');
}

pub(crate) fn write_case(tables: &Tables, text: &mut String, case: &Case) {
    if (case.to, case.multiplier) != (160, 0) {
        writeln!(text, "case,{},{}", case.to, case.multiplier).expect("a string");
    }
    write_values(text, "alpha", &case.alpha);
    write_values(text, "beta", &case.beta);
    for price in &case.prices {
        let (track, train) = (&tables.night.track_names[price.track], &tables.night.arrive[price.train].name);
        match price.parts {
            None => writeln!(text, "price,{track},{train},{}", price.value).expect("a string"),
            Some(parts) => writeln!(text, "part,{track},{train},{parts},{}", price.value).expect("a string"),
        }
    }
}

fn write_nodes(tables: &Tables, text: &mut String, nodes: &[Node], k: usize, depth: usize) {
    let node = &nodes[k];
    write!(text, "node,{depth},branch,{}", if node.cases.is_some() { "new" } else { "same" }).expect("a string");
    if let Some(choice) = node.choice {
        text.push(',');
        write_choice(tables, text, choice);
    }
    text.push('\n');
    node.cases.iter().flatten().for_each(|case| write_case(tables, text, case));
    node.children.iter().for_each(|child| write_nodes(tables, text, nodes, *child, depth + 1));
}

// A plan of unparked blocks of one unit, each type's units with its positions in their order, and its cost.
pub(crate) fn opening_plan(tables: &Tables) -> (String, u64) {
    let mut text = String::from("plan,1\n");
    let mut taken = vec![false; tables.positions.len()];
    let mut sum = 0;
    for (u, unit) in tables.units.iter().enumerate() {
        let v = (0..taken.len()).find(|v| !taken[*v] && tables.positions[*v].kind == unit.kind).expect("a position");
        taken[v] = true;
        let choice = Choice { shape: Shape { u, v, n: 1 }, park: None };
        sum += tables.cost(choice).expect("an option");
        write!(text, "block,{},{},{},", u + 1, tables.night.arrive[unit.train].name, unit.place + 1).expect("a string");
        write_choice(tables, &mut text, choice);
        text.push('\n');
    }
    writeln!(text, "cost,{sum}").expect("a string");
    (text, sum)
}

/// Writes the station and the timetable of a night made from a number, its plan without parking, and a certificate of so many nodes
/// that is accepted with it: each node with one new case, or the root with two that all others have too.
pub fn write_all(number: &str, units: &str, most: &str, duals: &str, files: [&str; 4]) {
    let (station, timetable) = crate::nights::made(number.parse().expect("a number"), units.parse().expect("a number"));
    std::fs::write(files[0], station).expect("a folder");
    std::fs::write(files[1], timetable).expect("a folder");
    let tables = Tables::new(read(files[0], files[1]));
    let (plan, cost) = opening_plan(&tables);
    let (nodes, bound) = grown(&tables, most.parse().expect("a number"), duals == "new", cost);
    let mut text = String::from("certificate,1\n");
    write_nodes(&tables, &mut text, &nodes, 0, 0);
    writeln!(text, "end,{cost},{bound},{}", nodes.len()).expect("a string");
    std::fs::write(files[2], plan).expect("a folder");
    std::fs::write(files[3], text).expect("a folder");
}
