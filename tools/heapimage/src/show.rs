//! What an image holds: in a sentence, as a map, and object by object.

use crate::map::{self, letters};
use crate::text::{count, hex, joined, place, state};
use crate::{Image, Object};
use blockheap::{pool_bytes, Survey, WORDS_PER_BLOCK};

pub fn in_a_sentence(image: &Image) -> String {
    let (base, t, roots) = (hex(image.base), image.t, count(image.roots.len(), "root"));
    format!("fine: base {base}, t {t}, {}, {roots}", objects_in_blocks(image.survey))
}

fn objects_in_blocks(Survey { objects, used, .. }: Survey) -> String {
    format!("{} in {}", count(objects as usize, "object"), count(used as usize, "block"))
}

pub fn with_map(image: &Image) -> String {
    let map = |with_garbage| map::lines(image.base, &letters(image, with_garbage), |_| true);
    let text = format!("{}\n{}:\n{}", summary(image), map::LEGEND, map(true));
    if image.collected == image.survey {
        return text;
    }
    let left = objects_in_blocks(image.collected);
    let longest = count(image.collected.longest as usize, "block");
    let heading = format!(
        "A collection from the roots would leave {left}, and a longest free run of {longest}"
    );
    format!("{text}\n{heading}:\n{}", map(false))
}

pub fn with_objects(image: &Image) -> String {
    format!("{}\n{}\n{}", summary(image), roots(image), objects(image))
}

fn summary(image: &Image) -> String {
    let Image { t, survey, .. } = image;
    let lines = [
        ("base", hex(image.base)),
        ("t", format!("{t} ({} blocks, {} bytes)", image.blocks(), pool_bytes(*t))),
        ("roots", image.roots.len().to_string()),
        ("used blocks", format!("{} of {}", survey.used, image.blocks())),
        ("objects", survey.objects.to_string()),
        ("garbage", garbage(image)),
        ("longest free run", count(survey.longest as usize, "block")),
    ];
    lines.map(|(name, value)| format!("{name:<18}{value}\n")).concat()
}

fn garbage(image: &Image) -> String {
    let Survey { objects, used, .. } = image.survey;
    let left = image.collected;
    match objects - left.objects {
        0 => "none".into(),
        freed => {
            let blocks = count((used - left.used) as usize, "block");
            format!("{} in {blocks}", count(freed as usize, "object"))
        }
    }
}

fn roots(image: &Image) -> String {
    let line = |(index, root): (usize, &u32)| {
        let target = image.target(*root).map(|target| place(image, target));
        format!("{index:<6}{}  {}\n", hex(*root), target.as_deref().unwrap_or("nothing"))
    };
    let lines: String = image.roots.iter().enumerate().map(line).collect();
    format!("root  word        leads to\n{lines}")
}

fn objects(image: &Image) -> String {
    let mut text = "address     blocks  bytes  state      first words\n".to_string();
    for (object, roots) in image.objects.iter().zip(roots_by_object(image)) {
        let line = size_and_words(object) + &from_roots(&roots) + &pointers(image, object);
        text += &format!("{}\n", line.trim_end());
    }
    text
}

/// The roots that lead to each object directly.
fn roots_by_object(image: &Image) -> Vec<Vec<usize>> {
    let mut roots = vec![Vec::new(); image.objects.len()];
    for (index, target) in image.pointers(&image.roots) {
        roots[target.object].push(index);
    }
    roots
}

fn size_and_words(object: &Object) -> String {
    let (address, blocks, bytes) = (hex(object.address), object.blocks(), object.bytes());
    let (first, more) = object.words.split_at(WORDS_PER_BLOCK);
    let first = joined(" ", first.iter().map(|word| format!("{word:08x}")));
    let more = if more.is_empty() { "" } else { "..." };
    format!("{address}  {blocks:>6}  {bytes:>5}  {:<9}  {first} {more:<3}", state(object))
}

fn from_roots(roots: &[usize]) -> String {
    match roots {
        [] => String::new(),
        _ => format!("  from root {}", joined(", ", roots.iter().map(usize::to_string))),
    }
}

/// The words of an object that lead to objects, and where.
fn pointers(image: &Image, object: &Object) -> String {
    let pointers = image.pointers(&object.words);
    let pointers = pointers.map(|(word, target)| format!("{word} -> {}", place(image, target)));
    match joined(", ", pointers) {
        none if none.is_empty() => none,
        some => format!("  word {some}"),
    }
}
