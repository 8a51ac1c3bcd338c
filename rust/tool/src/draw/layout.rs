//! Where the boxes of a tree stand: roots at the left, children to the right of their parent. Many leaves of one node stand in a block, and a tall family in
//! several columns under a line from its parent.

/// A box's width and height.
pub const BOX: (i32, i32) = (76, 22);
/// How far left of a box the line to it turns.
pub const TURN: i32 = 18;
/// From a box to those of its children, and from one row to the next.
const COLUMN: i32 = BOX.0 + 2 * TURN;
const GAP: i32 = 8;
const ROW: i32 = BOX.1 + GAP;
/// In a block the boxes stand closer.
const CELL: (i32, i32) = (BOX.0 + GAP, BOX.1 + 6);
/// The room between a block's boxes and its frame.
const PADDING: i32 = 8;
/// More leaves than this go into a block.
const MOST_SINGLE: usize = 8;
/// A family that is taller than a page stands in several columns. Of these heights of pages, the one that makes the best drawing is taken.
const PAGES: [i32; 7] = [600, 900, 1_400, 2_100, 3_200, 4_800, 7_200];

/// Leaves of one node, or lone nodes, in a frame.
#[derive(Clone, Copy, Debug, PartialEq, Eq)]
pub struct Block {
    /// The node whose leaves these are; none for lone nodes.
    pub parent: Option<usize>,
    /// Left, top, width, height.
    pub frame: (i32, i32, i32, i32),
}

/// A drawing's boxes.
#[derive(Clone, Debug, Default)]
pub struct Layout {
    /// Left and top of each node's box.
    pub places: Vec<(i32, i32)>,
    /// The parent that a line leads to; none for roots and for what stands in a block.
    pub lines: Vec<Option<usize>>,
    /// The blocks.
    pub blocks: Vec<Block>,
    /// Width and height of it all.
    pub size: (i32, i32),
}

/// The parents without those that would close a circle.
pub fn without_circles(parents: &[Option<usize>]) -> Vec<Option<usize>> {
    let mut parents = parents.to_vec();
    // 0: not seen, 1: on the way that is being followed, 2: known to end at a root.
    let mut seen = vec![0_u8; parents.len()];
    for start in 0..parents.len() {
        let mut way = Vec::new();
        let mut node = Some(start);
        while let Some(here) = node.filter(|here| seen[*here] == 0) {
            seen[here] = 1;
            way.push(here);
            node = parents[here];
        }
        if let Some(closing) = node.filter(|here| seen[*here] == 1) {
            // The lowest of the circle becomes a root.
            let from = way.iter().position(|here| *here == closing).unwrap_or(0);
            let root = way[from..].iter().min().copied().unwrap_or(closing);
            parents[root] = None;
        }
        for here in way {
            seen[here] = 2;
        }
    }
    parents
}

/// Lays out a forest, given the parent of each node; no node is above itself.
pub fn layout(parents: &[Option<usize>]) -> Layout {
    let mut children = vec![Vec::new(); parents.len()];
    let mut roots = Vec::new();
    for (node, parent) in parents.iter().enumerate() {
        match parent {
            Some(parent) => children[*parent].push(node),
            None => roots.push(node),
        }
    }
    let forests = PAGES.map(|page| {
        let forest = Forest {
            children: &children,
            page,
        };
        forest.family(None, &roots).piece
    });
    // A drawing that is half as wide again as it is high fits most windows.
    let fits = |piece: &Piece| (2 * piece.size.0).max(3 * piece.size.1);
    let forest = forests.into_iter().min_by_key(fits).unwrap_or_default();
    let mut laid = Layout {
        places: vec![(0, 0); parents.len()],
        lines: vec![None; parents.len()],
        blocks: forest.blocks,
        size: forest.size,
    };
    for Placed { node, place, alone } in forest.boxes {
        laid.places[node] = place;
        laid.lines[node] = parents[node].filter(|_| alone);
    }
    laid
}

/// A node's box, alone or in a block.
#[derive(Clone, Copy)]
struct Placed {
    node: usize,
    place: (i32, i32),
    alone: bool,
}

/// A part of the drawing.
#[derive(Default)]
struct Piece {
    boxes: Vec<Placed>,
    blocks: Vec<Block>,
    size: (i32, i32),
    /// How far down the line to its parent meets it.
    level: i32,
}

impl Piece {
    /// Puts another part into this one.
    fn put(&mut self, other: Piece, (x, y): (i32, i32)) {
        self.size.0 = self.size.0.max(x + other.size.0);
        self.size.1 = self.size.1.max(y + other.size.1);
        let moved = |placed: Placed| Placed {
            place: (placed.place.0 + x, placed.place.1 + y),
            ..placed
        };
        self.boxes.extend(other.boxes.into_iter().map(moved));
        let moved = |Block { parent, frame }: Block| Block {
            parent,
            frame: (frame.0 + x, frame.1 + y, frame.2, frame.3),
        };
        self.blocks.extend(other.blocks.into_iter().map(moved));
    }
}

/// Children of one node, or the roots. Those in several columns have their parent above them.
struct Family {
    piece: Piece,
    columns: usize,
}

/// The children of each node, and the height of a page.
struct Forest<'a> {
    children: &'a [Vec<usize>],
    page: i32,
}

impl Forest<'_> {
    /// A node, and to its right its children.
    fn subtree(&self, node: usize) -> Piece {
        let mut piece = Piece::default();
        let below = &self.children[node];
        let mut top = 0;
        if !below.is_empty() {
            let family = self.family(Some(node), below);
            match family.columns {
                1 => top = family.piece.level - BOX.1 / 2,
                _ => piece.size.1 = ROW,
            }
            let y = piece.size.1;
            piece.put(family.piece, (COLUMN, y));
        }
        let own = Placed {
            node,
            place: (0, 0),
            alone: true,
        };
        let own = Piece {
            boxes: vec![own],
            size: BOX,
            ..Piece::default()
        };
        piece.put(own, (0, top));
        piece.level = top + BOX.1 / 2;
        piece
    }

    /// Members below each other: many leaves first, in a block.
    fn family(&self, parent: Option<usize>, members: &[usize]) -> Family {
        let leaf = |node: &usize| self.children[*node].is_empty();
        let leaves: Vec<usize> = members.iter().copied().filter(leaf).collect();
        let many = leaves.len() > MOST_SINGLE;
        let mut pieces = Vec::new();
        if many {
            pieces.push(block(parent, &leaves));
        }
        let single = members.iter().filter(|node| !(many && leaf(node)));
        pieces.extend(single.map(|node| self.subtree(*node)));
        let whole: i32 = pieces.iter().map(|piece| piece.size.1 + GAP).sum();
        let tallest = pieces.iter().map(|piece| piece.size.1).max().unwrap_or(0);
        let columns = (whole + self.page - 1) / self.page;
        stacked(pieces, tallest.max(whole / columns.max(1)))
    }
}

/// Pieces below each other, in as many columns as it takes for none to be much taller than this.
fn stacked(pieces: Vec<Piece>, height: i32) -> Family {
    let mut whole = Piece::default();
    let mut columns = 1;
    let (mut x, mut y) = (0, 0);
    let mut levels = Vec::new();
    for piece in pieces {
        if y > 0 && y + piece.size.1 > height + GAP {
            columns += 1;
            x = whole.size.0 + 2 * TURN;
            y = 0;
        }
        levels.push(y + piece.level);
        let below = y + piece.size.1 + GAP;
        whole.put(piece, (x, y));
        y = below;
    }
    if let (Some(first), Some(last)) = (levels.first(), levels.last()) {
        whole.level = (first + last) / 2;
    }
    Family {
        piece: whole,
        columns,
    }
}

/// Leaves in a frame, half as wide again as it is high.
fn block(parent: Option<usize>, leaves: &[usize]) -> Piece {
    let mut columns = 2;
    while 2 * columns * CELL.0 < 3 * rows(leaves, columns) * CELL.1 {
        columns += 1;
    }
    let place = |at: usize| {
        let (column, row) = (at as i32 % columns, at as i32 / columns);
        (PADDING + column * CELL.0, PADDING + row * CELL.1)
    };
    let placed = |(at, node): (usize, &usize)| Placed {
        node: *node,
        place: place(at),
        alone: false,
    };
    let width = columns * CELL.0 - (CELL.0 - BOX.0) + 2 * PADDING;
    let height = rows(leaves, columns) * CELL.1 - (CELL.1 - BOX.1) + 2 * PADDING;
    let frame = (0, 0, width, height);
    Piece {
        boxes: leaves.iter().enumerate().map(placed).collect(),
        blocks: vec![Block { parent, frame }],
        size: (width, height),
        level: height / 2,
    }
}

/// How many rows leaves take in so many columns.
fn rows(leaves: &[usize], columns: i32) -> i32 {
    leaves.len().div_ceil(columns as usize) as i32
}

#[cfg(test)]
mod tests {
    use super::*;

    /// Whether two boxes share a point.
    fn meet(a: (i32, i32), b: (i32, i32)) -> bool {
        (a.0 - b.0).abs() < BOX.0 && (a.1 - b.1).abs() < BOX.1
    }

    fn all_apart(parents: &[Option<usize>]) -> Layout {
        let laid = layout(&without_circles(parents));
        for (number, place) in laid.places.iter().enumerate() {
            let (right, bottom) = (place.0 + BOX.0, place.1 + BOX.1);
            assert!(place.0 >= 0 && place.1 >= 0 && right <= laid.size.0 && bottom <= laid.size.1);
            let after = &laid.places[number + 1..];
            assert!(after.iter().all(|other| !meet(*place, *other)), "n{number}");
        }
        laid
    }

    #[test]
    fn boxes_do_not_meet() {
        let mut state = 1_u32;
        let mut draw = |below: usize| {
            state = state.wrapping_mul(1_664_525).wrapping_add(1_013_904_223);
            (state >> 8) as usize % below
        };
        let random = |node| (node > 0).then(|| draw(node));
        let random: Vec<Option<usize>> = (0..1_024).map(random).collect();
        all_apart(&random);
        let star: Vec<_> = (0..1_024).map(|node| (node > 0).then_some(0)).collect();
        assert_eq!(all_apart(&star).blocks.len(), 1);
        let chain: Vec<_> = (0_usize..1_024).map(|node| node.checked_sub(1)).collect();
        all_apart(&chain);
        all_apart(&vec![None; 1_024]);
        all_apart(&[]);
    }

    #[test]
    fn a_circle_is_broken_at_its_lowest_node() {
        let circle = [Some(2), Some(0), Some(1), Some(2), Some(4)];
        let broken = [None, Some(0), Some(1), Some(2), None];
        assert_eq!(without_circles(&circle), broken);
        all_apart(&circle);
    }
}
