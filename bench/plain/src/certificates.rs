//! Certificates in plain structs, written by `write!` and read by splitting at line ends and commas.

use crate::assign::Draw;
use crate::choices::spent;
use std::collections::HashMap;
use std::io::Write;

const NODES: u64 = 5_000;
const TWICE: u64 = 3_000;
const DEEPEST: u8 = 160;

struct Names<'n> {
    tracks: Vec<&'n str>,
    depart: Vec<&'n str>,
    units: usize,
}

struct Park {
    track: usize,
    sides: [u8; 2],
}

struct Choice {
    n: u8,
    dep: usize,
    q: u8,
    park: Option<Park>,
}

struct Case {
    to: u8,
    multiplier: i64,
    alpha: Vec<i64>,
    beta: Vec<i64>,
}

enum Kind {
    Branch,
    Leaf,
    Whole,
}

enum Duals {
    Same,
    New(Vec<Case>),
    Bare,
}

struct Node {
    depth: u8,
    choice: Option<Choice>,
    kind: Kind,
    duals: Duals,
}

struct Certificate {
    nodes: Vec<Node>,
    cost: u64,
    bound: u64,
}

// The names of tracks by file order and of departing trains by minute, and how many units there are.
fn names<'n>(station: &'n str, timetable: &'n str) -> Names<'n> {
    let mut depart = vec![];
    let mut units = 0;
    for line in timetable.lines() {
        let row: Vec<&str> = line.split(',').collect();
        match row[0] {
            "depart" => depart.push((row[2], row[1])),
            "arrive" => units += row.len() - 4,
            _ => {}
        }
    }
    depart.sort_by_key(|train| train.0);
    let tracks = station.lines().filter_map(|line| line.strip_prefix("track,")?.split(',').next()).collect();
    Names { tracks, depart: depart.into_iter().map(|train| train.1).collect(), units }
}

fn case(names: &Names, draw: &mut Draw, to: u8, multiplier: i64) -> Case {
    let mut values = || (0..names.units).map(|_| draw.value()).collect();
    Case { to, multiplier, alpha: values(), beta: values() }
}

fn cases(names: &Names, draw: &mut Draw, number: u64) -> Vec<Case> {
    if number >= TWICE {
        return vec![case(names, draw, 160, 0)];
    }
    let multiplier = draw.value();
    let first = case(names, draw, 9, multiplier);
    let multiplier = draw.value();
    vec![first, case(names, draw, 160, multiplier)]
}

fn largest(names: &Names) -> Certificate {
    let mut draw = Draw(0);
    let mut depth = 0;
    let nodes = (0..NODES)
        .map(|number| {
            let duals = Duals::New(cases(names, &mut draw, number));
            let at = number as usize;
            let park = (number % 2 == 1).then(|| Park { track: at % names.tracks.len(), sides: *b"AB" });
            let choice = (number > 0).then(|| Choice { n: 1, dep: at % names.depart.len(), q: 1, park });
            let node = Node { depth, choice, kind: Kind::Branch, duals };
            depth = if depth == DEEPEST { 1 } else { depth + 1 };
            node
        })
        .collect();
    Certificate { nodes, cost: 1_000_000_000_000, bound: 999_999_999_999 }
}

fn write_values(text: &mut Vec<u8>, word: &str, values: &[i64]) {
    text.extend_from_slice(word.as_bytes());
    for value in values {
        write!(text, ",{value}").expect("memory");
    }
    text.push(b'\n');
}

fn write_cases(text: &mut Vec<u8>, cases: &[Case]) {
    let is_plain = cases.len() == 1 && cases[0].to == 160 && cases[0].multiplier == 0;
    for case in cases {
        if !is_plain {
            writeln!(text, "case,{},{}", case.to, case.multiplier).expect("memory");
        }
        write_values(text, "alpha", &case.alpha);
        write_values(text, "beta", &case.beta);
    }
}

fn write_node(text: &mut Vec<u8>, names: &Names, node: &Node) {
    let kind = match node.kind {
        Kind::Branch => "branch",
        Kind::Leaf => "leaf",
        Kind::Whole => "whole",
    };
    let duals = match node.duals {
        Duals::Same => "same",
        Duals::New(_) => "new",
        Duals::Bare => "none",
    };
    write!(text, "node,{},{kind},{duals}", node.depth).expect("memory");
    if let Some(choice) = &node.choice {
        write!(text, ",{},{},{}", choice.n, names.depart[choice.dep], choice.q).expect("memory");
        match &choice.park {
            None => text.extend_from_slice(b",unparked"),
            Some(park) => {
                let [side_in, side_out] = park.sides.map(char::from);
                write!(text, ",park,{},{side_in},{side_out}", names.tracks[park.track]).expect("memory");
            }
        }
    }
    text.push(b'\n');
    if let Duals::New(cases) = &node.duals {
        write_cases(text, cases);
    }
}

fn text_of(names: &Names, certificate: &Certificate) -> Vec<u8> {
    let mut text = b"certificate,1\n".to_vec();
    for node in &certificate.nodes {
        write_node(&mut text, names, node);
    }
    writeln!(text, "end,{},{},{}", certificate.cost, certificate.bound, certificate.nodes.len()).expect("memory");
    text
}

fn numbers<'t>(fields: impl Iterator<Item = &'t str>) -> Vec<i64> {
    fields.map(|field| field.parse().expect("a number")).collect()
}

fn read_choice(fields: &[&str], tracks: &HashMap<&str, usize>, depart: &HashMap<&str, usize>) -> Option<Choice> {
    let [n, dep, q, option, rest @ ..] = fields else { return None };
    let park = (*option == "park").then(|| Park {
        track: tracks[rest[0]],
        sides: [rest[1].as_bytes()[0], rest[2].as_bytes()[0]],
    });
    Some(Choice { n: n.parse().expect("a number"), dep: depart[dep], q: q.parse().expect("a number"), park })
}

fn places<'n>(names: &[&'n str]) -> HashMap<&'n str, usize> {
    names.iter().enumerate().map(|(place, name)| (*name, place)).collect()
}

fn read_node(fields: &[&str], tracks: &HashMap<&str, usize>, depart: &HashMap<&str, usize>) -> Node {
    let kind = match fields[1] {
        "branch" => Kind::Branch,
        "leaf" => Kind::Leaf,
        _ => Kind::Whole,
    };
    let duals = match fields[2] {
        "same" => Duals::Same,
        "new" => Duals::New(vec![]),
        _ => Duals::Bare,
    };
    Node { depth: fields[0].parse().expect("a depth"), choice: read_choice(&fields[3..], tracks, depart), kind, duals }
}

// The cases of the node that was read last.
fn last_cases(nodes: &mut [Node]) -> &mut Vec<Case> {
    match &mut nodes.last_mut().expect("a node").duals {
        Duals::New(cases) => cases,
        _ => panic!("a node with duals of its own"),
    }
}

fn read(names: &Names, text: &str) -> Certificate {
    let (tracks, depart) = (places(&names.tracks), places(&names.depart));
    let mut certificate = Certificate { nodes: vec![], cost: 0, bound: 0 };
    let mut limits = (160, 0);
    for line in text.lines() {
        let mut fields = line.split(',');
        match fields.next() {
            Some("node") => {
                let fields: Vec<&str> = fields.collect();
                certificate.nodes.push(read_node(&fields, &tracks, &depart));
                limits = (160, 0);
            }
            Some("case") => {
                let numbers = numbers(fields);
                limits = (numbers[0] as u8, numbers[1]);
            }
            Some("alpha") => last_cases(&mut certificate.nodes).push(Case {
                to: limits.0,
                multiplier: limits.1,
                alpha: numbers(fields),
                beta: vec![],
            }),
            Some("beta") => last_cases(&mut certificate.nodes).last_mut().expect("a case").beta = numbers(fields),
            Some("end") => {
                let numbers = numbers(fields);
                (certificate.cost, certificate.bound) = (numbers[0] as u64, numbers[1] as u64);
            }
            _ => {}
        }
    }
    certificate
}

fn sum_of(certificate: &Certificate) -> i64 {
    let mut sum = 0i64;
    let mut add = |value: i64| sum = sum.wrapping_mul(31).wrapping_add(value);
    for node in &certificate.nodes {
        add(i64::from(node.depth));
        if let Duals::New(cases) = &node.duals {
            for case in cases {
                add(i64::from(case.to));
                add(case.multiplier);
                case.alpha.iter().chain(&case.beta).for_each(|value| add(*value));
            }
        }
    }
    sum
}

/// Writes the largest certificate of a night into a file, or reads the file, by the word that says which. Prints how many
/// nodes and bytes it has, the sum of its values, and the processor time of making its text, or of taking it apart, in
/// microseconds.
pub fn measure(doing: &str, station: &str, timetable: &str, file: &str) {
    let (station, timetable) = (std::fs::read_to_string(station).expect("a station"), std::fs::read_to_string(timetable).expect("a timetable"));
    let names = names(&station, &timetable);
    let (certificate, bytes, nanos) = if doing == "write" {
        let certificate = largest(&names);
        let start = spent();
        let text = text_of(&names, &certificate);
        let end = spent();
        std::fs::write(file, &text).expect("a file");
        (certificate, text.len(), end - start)
    } else {
        let text = std::fs::read_to_string(file).expect("a certificate");
        let start = spent();
        let certificate = read(&names, &text);
        let end = spent();
        (certificate, text.len(), end - start)
    };
    println!("certificate nodes {} bytes {bytes} sum {} microseconds {}", certificate.nodes.len(), sum_of(&certificate), nanos / 1000);
}
