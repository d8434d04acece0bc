//! Atoms of a film found by what they are, so that a film that is damaged already can be damaged again.
use super::dressing::known;
use super::random::Random;
use crate::film::Node;

/// Which child to take at each level, from the file down.
pub type Place = Vec<usize>;

/// Every atom of a tree, the root not among them.
pub fn places(node: &Node) -> Vec<Place> {
    let mut all = Vec::new();
    for (i, child) in node.children.iter().enumerate() {
        all.push(vec![i]);
        for place in places(child) {
            all.push([vec![i], place].concat());
        }
    }
    all
}

pub fn at<'a>(film: &'a mut Node, place: &[usize]) -> &'a mut Node {
    place.iter().fold(film, |node, i| &mut node.children[*i])
}

/// The atoms that a question about a parent's type and an atom's own picks out.
fn those(film: &mut Node, is_one: impl Fn(&[u8; 4], &[u8; 4]) -> bool) -> Vec<Place> {
    let mut all = places(film);
    all.retain(|place| {
        let parent = at(film, &place[..place.len() - 1]).kind;
        is_one(&parent, &at(film, place).kind)
    });
    all
}

/// Whether a rule counts atoms of that type in that parent, or the walk goes into them.
fn is_known(parent: &[u8; 4], kind: &[u8; 4]) -> bool {
    known(parent).iter().any(|name| name.as_bytes() == kind)
}

/// The atoms that are counted or walked, and the profiles.
pub fn known_atoms(film: &mut Node) -> Vec<Place> {
    those(film, |parent, kind| is_known(parent, kind) || kind == b"prfl")
}

/// The leaves that are read, and the profiles.
pub fn read_leaves(film: &mut Node) -> Vec<Place> {
    those(film, |parent, kind| kind == b"prfl" || is_known(parent, kind) && known(kind).is_empty())
}

/// The file itself and the containers.
pub fn containers(film: &mut Node) -> Vec<Place> {
    let mut all = those(film, |parent, kind| is_known(parent, kind) && !known(kind).is_empty());
    all.push(Vec::new());
    all
}

/// One of them, if there is any.
pub fn any(random: &mut Random, list: Vec<Place>) -> Option<Place> {
    (!list.is_empty()).then(|| list[random.below(list.len())].clone())
}
