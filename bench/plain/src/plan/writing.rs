//! The texts of a plan and a certificate.

use super::fit::case_of;
use super::model::Model;
use super::tree::Tree;
use crate::nights::{Choice, Tables};
use crate::trees::{write_case, write_choice};
use std::fmt::Write;

/// The text of a plan.
pub(crate) fn plan_text(tables: &Tables, plan: &[Choice]) -> String {
    let mut text = String::from("plan,1\n");
    let mut sum = 0;
    for (k, choice) in plan.iter().enumerate() {
        let unit = tables.units[choice.shape.u];
        write!(text, "block,{},{},{},", k + 1, tables.night.arrive[unit.train].name, unit.place + 1).expect("a string");
        write_choice(tables, &mut text, *choice);
        text.push('\n');
        sum += tables.cost(*choice).expect("an option");
    }
    writeln!(text, "cost,{sum}").expect("a string");
    text
}

/// Whether a node's own cases are needed for the bound, or those that it would inherit do.
fn needs_own<R>(tree: &Tree<R>, place: usize, bound: i64) -> bool {
    let node = &tree.nodes[place];
    node.own && (place == 0 || !node.children.is_empty() || node.inherited < bound)
}

fn write_nodes<R>(model: &Model, text: &mut String, tree: &Tree<R>, place: usize, depth: usize, bound: i64) -> usize {
    let node = &tree.nodes[place];
    let own = needs_own(tree, place, bound);
    let duals = if node.whole { "whole,none" } else if own { "branch,new" } else { "branch,same" };
    write!(text, "node,{depth},{duals}").expect("a string");
    if let Some(choice) = node.choice {
        text.push(',');
        write_choice(model.tables, text, choice);
    }
    text.push('\n');
    if own {
        for case in &node.cases {
            let case = case_of(model, case);
            if node.cases.len() > 1 && (case.to, case.multiplier) == (160, 0) {
                text.push_str("case,160,0\n");
            }
            write_case(model.tables, text, &case);
        }
    }
    let lean = node.children.iter().filter(|child| tree.nodes[**child].bound < tree.cost);
    1 + lean.map(|child| write_nodes(model, text, tree, *child, depth + 1, bound)).sum::<usize>()
}

/// The text of a tree's certificate, and how many nodes it has.
pub(crate) fn certificate_text<R>(model: &Model, tree: &Tree<R>, bound: i64, version: usize) -> (String, usize) {
    let mut text = format!("certificate,{version}\n");
    let nodes = write_nodes(model, &mut text, tree, 0, 0, bound);
    writeln!(text, "end,{},{bound},{nodes}", tree.cost).expect("a string");
    (text, nodes)
}
