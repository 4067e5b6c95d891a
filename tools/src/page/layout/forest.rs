//! Whether edges make trees, and which.

use std::collections::BTreeSet;

/// A node with the trees below it, in the order of their numbers.
#[derive(Debug, PartialEq, Eq)]
pub struct Tree {
    pub node: usize,
    pub children: Vec<Tree>,
}

/// By node: those it has an edge with, in either direction, without itself.
type Neighbours = Vec<BTreeSet<usize>>;

/// The trees of so many nodes, if their edges, taken without direction, make no cycle. Self loops are left
/// out, and several edges between two nodes taken once.
pub fn trees(nodes: usize, edges: &[(usize, usize)]) -> Option<Vec<Tree>> {
    let neighbours = neighbours(nodes, edges);
    let components = components(&neighbours);
    let links = neighbours.iter().map(BTreeSet::len).sum::<usize>() / 2;
    (links + components.len() == nodes).then(|| {
        let roots = components.iter().map(|component| root(component, edges));
        roots.map(|root| grown(root, None, &neighbours)).collect()
    })
}

fn neighbours(nodes: usize, edges: &[(usize, usize)]) -> Neighbours {
    let mut neighbours = vec![BTreeSet::new(); nodes];
    for &(from, to) in edges.iter().filter(|(from, to)| from != to) {
        neighbours[from].insert(to);
        neighbours[to].insert(from);
    }
    neighbours
}

/// The sets of nodes that hang together, by their lowest nodes.
fn components(neighbours: &Neighbours) -> Vec<BTreeSet<usize>> {
    let mut components: Vec<BTreeSet<usize>> = Vec::new();
    for node in 0..neighbours.len() {
        if !components.iter().any(|component| component.contains(&node)) {
            components.push(component(node, neighbours));
        }
    }
    components
}

fn component(node: usize, neighbours: &Neighbours) -> BTreeSet<usize> {
    let (mut component, mut waiting) = (BTreeSet::from([node]), vec![node]);
    while let Some(node) = waiting.pop() {
        waiting.extend(neighbours[node].iter().filter(|&&next| component.insert(next)));
    }
    component
}

/// The lowest node that no edge leads to, or the lowest if there is none.
fn root(component: &BTreeSet<usize>, edges: &[(usize, usize)]) -> usize {
    let led_to = |node: usize| edges.iter().any(|&(from, to)| to == node && from != node);
    let root = component.iter().find(|&&node| !led_to(node)).or(component.first());
    *root.expect("a component has a node")
}

fn grown(node: usize, parent: Option<usize>, neighbours: &Neighbours) -> Tree {
    let below = neighbours[node].iter().filter(|&&next| Some(next) != parent);
    Tree { node, children: below.map(|&child| grown(child, Some(node), neighbours)).collect() }
}

impl Tree {
    /// How many nodes have none below them.
    pub fn leaves(&self) -> usize {
        self.children.iter().map(Tree::leaves).sum::<usize>().max(1)
    }

    /// How many levels of nodes it has.
    pub fn levels(&self) -> usize {
        1 + self.children.iter().map(Tree::levels).max().unwrap_or(0)
    }
}
