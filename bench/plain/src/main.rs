//! Plain programs to compare with, and the files that they are compared on.
//!
//! `plain make timetable SIZE` and `plain make certificate SIZE` print a file of about that many bytes;
//! `plain largest station` and `plain largest timetable` print files that reach every limit and are accepted;
//! `plain largest plan` prints a plan of 400 blocks over them; `plain split FILE..` splits each file at commas and line ends and
//! keeps the fields; `plain choices STATION TIMETABLE WALKS` walks over the choices for each unit;
//! `plain mixed station` and `plain mixed timetable UNITS` print a night of three types whose every unit may go with every
//! position of its type; `plain assign STATION TIMETABLE RUNS` makes the shares and the least assignment of a night;
//! `plain duals STATION TIMETABLE RUNS` sees whether two cases of 64 prices hold and what they bound;
//! `plain certificate write STATION TIMETABLE FILE` writes the largest certificate of a night, and `read` in the place of `write`
//! reads it;
//! `plain night NUMBER UNITS STATION TIMETABLE` writes the night that the generator makes of a number, and
//! `plain night FAMILY NUMBER UNITS FOLDER` one of the families `day`, `stand`, `money`, `mixed` and `yard`;
//! `plain tree NUMBER UNITS NODES same STATION TIMETABLE PLAN CERT` writes such a night with a plan and a certificate of so many nodes,
//! each with its parent's duals, or with new ones for `new` in the place of `same`; `plain check STATION TIMETABLE PLAN CERT` checks it;
//! `plain plan STATION TIMETABLE NODES PLAN CERT` plans a night, and writes the plan with a certificate of at most so many nodes;
//! `plain stacks` with the same words does so with stacks, and writes a certificate of version 2.

mod assign;
mod certificates;
mod checker;
mod choices;
mod duals;
mod families;
mod nights;
mod plan;
mod stacks;
mod trees;

use std::io::Write;
use std::time::Instant;

fn main() {
    let words: Vec<String> = std::env::args().skip(1).collect();
    match words.iter().map(String::as_str).collect::<Vec<_>>()[..] {
        ["make", kind, size] => make(kind, size.parse().expect("a size")),
        ["largest", "station"] => print!("{}", largest_station()),
        ["largest", "timetable"] => print!("{}", largest_timetable()),
        ["largest", "plan"] => print!("{}", largest_plan()),
        ["mixed", "station"] => print!("{}", assign::mixed_station()),
        ["mixed", "timetable", units] => print!("{}", assign::mixed_timetable(units.parse().expect("a number"))),
        ["assign", station, timetable, runs] => assign::measure(station, timetable, runs.parse().expect("a number")),
        ["duals", station, timetable, runs] => duals::measure(station, timetable, runs.parse().expect("a number")),
        ["certificate", doing, station, timetable, file] => certificates::measure(doing, station, timetable, file),
        ["night", first, second, third, last] => match families::Family::named(first) {
            Some(family) => write_family(family, second, third, last),
            None => write_night(first, second, third, last),
        },
        ["tree", number, units, nodes, duals, station, timetable, plan, certificate] => {
            trees::write_all(number, units, nodes, duals, [station, timetable, plan, certificate]);
        }
        ["check", station, timetable, plan, certificate] => checker::check(station, timetable, plan, certificate),
        ["plan", station, timetable, nodes, plan, certificate] => {
            plan::plan(plan::Version::First, [station, timetable], nodes, plan, certificate);
        }
        ["stacks", station, timetable, nodes, plan, certificate] => {
            plan::plan(plan::Version::Second, [station, timetable], nodes, plan, certificate);
        }
        ["split", ref names @ ..] if !names.is_empty() => names.iter().for_each(|name| split(name)),
        ["choices", station, timetable, walks] => choices::measure(station, timetable, walks.parse().expect("a number")),
        _ => std::process::exit(2),
    }
}

fn write_night(number: &str, units: &str, station: &str, timetable: &str) {
    let (stations, trains) = nights::made(number.parse().expect("a number"), units.parse().expect("a number"));
    std::fs::write(station, stations).expect("a folder");
    std::fs::write(timetable, trains).expect("a folder");
}

fn write_family(family: families::Family, number: &str, units: &str, folder: &str) {
    let (stations, trains) = families::made(family, number.parse().expect("a number"), units.parse().expect("a number"));
    std::fs::create_dir_all(folder).expect("a place for a folder");
    std::fs::write(format!("{folder}/station.csv"), stations).expect("a folder");
    std::fs::write(format!("{folder}/timetable.csv"), trains).expect("a folder");
}

fn make(kind: &str, size: usize) {
    let mut text = String::new();
    text.push_str(if kind == "timetable" { "timetable,1\n" } else { "certificate,1\n" });
    let mut number = 0u64;
    while text.len() < size {
        if kind == "timetable" {
            let minute = number % 2880;
            text.push_str(&format!("arrive,a{number},{:02}:{:02},P,K,K,X,Y\n", minute / 60, minute % 60));
        } else {
            text.push_str(&format!("node,{},branch,new,1,d{},1,unparked\nalpha", number % 160, number % 100));
            for unit in 0..160 {
                text.push_str(&format!(",{}", (number * 31 + unit) % 10));
            }
            text.push('\n');
        }
        number += 1;
    }
    text.truncate(size);
    std::io::stdout().write_all(text.as_bytes()).expect("output");
}

fn largest_station() -> String {
    let mut text = String::from("station,2,largest\n");
    for kind in 0..40 {
        text.push_str(&format!("type,type{kind},5000,1440\n"));
    }
    for platform in 0..30 {
        text.push_str(&format!("platform,platform{platform}\n"));
    }
    for track in 0..60 {
        text.push_str(&format!("track,track{track},50000,AB\n"));
    }
    for place in 0..30 * 60 {
        let (platform, track) = (place / 60, place % 60);
        text.push_str(&format!("route,platform{platform},track{track},A,1000000\n"));
        text.push_str(&format!("route,platform{platform},track{track},B,1000000\n"));
    }
    for place in 0..60 * 40 {
        text.push_str(&format!("permit,track{},type{}\n", place / 40, place % 40));
    }
    text.push_str("cost,1000000,1000000,1000000\n");
    text
}

// 100 trains of a word with 160 units: 60 trains have two, 40 have one.
fn largest_timetable() -> String {
    let mut text = String::from("timetable,2\n");
    for (word, hour) in [("arrive", 0), ("depart", 46)] {
        for train in 0..100 {
            let kind = train % 40;
            let units = if train < 60 { format!("type{kind},type{kind}") } else { format!("type{kind}") };
            text.push_str(&format!("{word},train{train},{:02}:{:02},platform{},{units}\n", hour + train / 60, train % 60, train % 30));
        }
    }
    text
}

// 400 parked blocks of one unit by falling ids, so that most units are in four of them.
fn largest_plan() -> String {
    let mut text = String::from("plan,1\n");
    for id in (1..=400).rev() {
        let (train, track) = (id % 100, id % 60);
        text.push_str(&format!("block,{id},train{train},1,1,train{train},1,park,track{track},A,A\n"));
    }
    text.push_str("cost,1000000000000\n");
    text
}

fn split(name: &str) {
    let bytes = std::fs::read(name).expect("a file");
    let start = Instant::now();
    let rows: Vec<Vec<&[u8]>> = bytes
        .split(|byte| *byte == b'\n')
        .filter(|line| !line.is_empty())
        .map(|line| line.split(|byte| *byte == b',').collect())
        .collect();
    let micros = start.elapsed().as_micros();
    println!("records {} microseconds {micros}", rows.len());
}
