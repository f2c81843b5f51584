//! Distances in mazes by the plainest search.

fn around(across: usize, squares: usize, square: usize) -> impl Iterator<Item = usize> {
    let column = square % across;
    let right = (column + 1 < across).then_some(square + 1);
    let below = (square + across < squares).then_some(square + across);
    let left = (column > 0).then(|| square - 1);
    [right, below, left, square.checked_sub(across)].into_iter().flatten()
}

/// How many steps each square is away.
pub fn distances(walls: &[u8], across: usize, from: usize) -> Vec<Option<usize>> {
    let mut distances = vec![None; walls.len()];
    distances[from] = Some(0);
    let mut level = vec![from];
    for steps in 1.. {
        let mut next = Vec::new();
        for square in level.into_iter().flat_map(|square| around(across, walls.len(), square)) {
            if walls[square] == 0 && distances[square].is_none() {
                distances[square] = Some(steps);
                next.push(square);
            }
        }
        if next.is_empty() {
            break;
        }
        level = next;
    }
    distances
}

/// A shortest path to a square that can be reached, from where the distances are counted.
pub fn path(distances: &[Option<usize>], across: usize, to: usize) -> Vec<usize> {
    let mut path = vec![to];
    while let Some(Some(steps @ 1..)) = path.last().map(|&square| distances[square]) {
        let at = path[path.len() - 1];
        let nearer = around(across, distances.len(), at).find(|&square| distances[square] == Some(steps - 1));
        path.extend(nearer);
    }
    path.reverse();
    path
}
