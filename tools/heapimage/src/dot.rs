//! The objects of an image as a graph, in the language of Graphviz.

use crate::text::{count, hex, offset};
use crate::{Image, Object};
use std::collections::BTreeMap;

const STYLE: [&str; 3] =
    ["rankdir=LR;", "node [shape=box, fontname=monospace];", "edge [fontname=monospace];"];

/// The graph: the roots that lead to objects, the objects, and edges from each to what it leads to.
pub fn graph(image: &Image) -> String {
    let roots = || image.pointers(&image.roots);
    let mut lines = Vec::from(STYLE.map(String::from));
    lines.extend(roots().map(|(root, _)| format!("{} [shape=plain];", root_name(root))));
    lines.extend(image.objects.iter().map(node));
    lines.extend(roots().map(|(root, target)| {
        let edge = format!("{} -> {}", root_name(root), name(&image.objects[target.object]));
        statement(&edge, &offset(target), true)
    }));
    lines.extend(image.objects.iter().flat_map(|object| edges(image, object)));
    format!("digraph heap {{\n  {}\n}}\n", lines.join("\n  "))
}

fn root_name(root: usize) -> String {
    format!("\"root {root}\"")
}

fn name(object: &Object) -> String {
    format!("\"{}\"", hex(object.address))
}

fn node(object: &Object) -> String {
    let (address, blocks) = (hex(object.address), count(object.blocks(), "block"));
    let label = format!("{address}\\n{blocks}, {} bytes", object.bytes());
    statement(&name(object), &label, object.reachable)
}

/// The edges from an object, one to each that it leads to: the label lists the words that lead there.
fn edges(image: &Image, object: &Object) -> Vec<String> {
    let mut labels = BTreeMap::<usize, Vec<String>>::new();
    for (word, target) in image.pointers(&object.words) {
        let label = match offset(target) {
            head if head.is_empty() => word.to_string(),
            tail => format!("{word} ({tail})"),
        };
        labels.entry(target.object).or_default().push(label);
    }
    let edge = |(target, words): (usize, Vec<String>)| {
        let edge = format!("{} -> {}", name(object), name(&image.objects[target]));
        statement(&edge, &label(&words), object.reachable)
    };
    labels.into_iter().map(edge).collect()
}

/// Up to eight words by name, and how many more there are: a longer label would hide the graph.
fn label(words: &[String]) -> String {
    match words.split_at_checked(8) {
        Some((first, more)) if !more.is_empty() => {
            format!("{} and {} more", first.join(", "), more.len())
        }
        _ => words.join(", "),
    }
}

/// A statement, with its label if it has one. What is not reachable is grey.
fn statement(what: &str, label: &str, reachable: bool) -> String {
    let mut attributes = Vec::new();
    if !label.is_empty() {
        attributes.push(format!("label=\"{label}\""));
    }
    if !reachable {
        attributes.push("color=grey, fontcolor=grey".into());
    }
    match &attributes[..] {
        [] => format!("{what};"),
        some => format!("{what} [{}];", some.join(", ")),
    }
}

#[cfg(test)]
mod tests {
    use super::*;

    #[test]
    fn a_label_has_eight_words_at_most() {
        let words: Vec<String> = (0..10).map(|word| word.to_string()).collect();
        assert_eq!(label(&words[..1]), "0");
        assert_eq!(label(&words[..8]), "0, 1, 2, 3, 4, 5, 6, 7");
        assert_eq!(label(&words), "0, 1, 2, 3, 4, 5, 6, 7 and 2 more");
    }
}
