//! What a graph is like, by the harness's own reading of the rules, module 3: its parts, its degrees, and how
//! often a part's start would move if it were never stopped.

pub struct Reading {
    pub parts: usize,
    /// Of the part whose start moves most.
    pub moves: usize,
    /// All particles have one degree.
    pub regular: bool,
    /// Some particle has all the others for neighbours, and not all have.
    pub hub: bool,
}

struct Graph<'a> {
    row_offsets: &'a [u32],
    cols: &'a [u32],
}

impl Graph<'_> {
    fn degree(&self, v: usize) -> usize {
        (self.row_offsets[v + 1] - self.row_offsets[v]) as usize - 1
    }

    fn key(&self, v: usize) -> (usize, usize) {
        (self.degree(v), v)
    }

    fn neighbours(&self, v: usize) -> impl Iterator<Item = usize> + '_ {
        let row = self.row_offsets[v] as usize..self.row_offsets[v + 1] as usize;
        self.cols[row].iter().map(|&c| c as usize)
    }

    /// The levels of a search from `start`, one after the other.
    fn levels(&self, start: usize, n: usize) -> Vec<Vec<usize>> {
        let mut met = vec![false; n];
        met[start] = true;
        let mut levels = vec![vec![start]];
        loop {
            let mut next = Vec::new();
            for w in levels[levels.len() - 1]
                .iter()
                .flat_map(|&v| self.neighbours(v))
            {
                if !met[w] {
                    met[w] = true;
                    next.push(w);
                }
            }
            if next.is_empty() {
                return levels;
            }
            levels.push(next);
        }
    }

    /// How often the start moves from here on.
    fn moves(&self, start: usize, n: usize) -> usize {
        let mut levels = self.levels(start, n);
        for moves in 0.. {
            let last = levels[levels.len() - 1].iter().copied();
            let far = last.min_by_key(|&v| self.key(v)).unwrap_or(start);
            let next = self.levels(far, n);
            if next.len() <= levels.len() {
                return moves;
            }
            levels = next;
        }
        unreachable!("no search goes deeper than there are particles")
    }
}

pub fn reading(n: usize, row_offsets: &[u32], cols: &[u32]) -> Reading {
    let graph = Graph { row_offsets, cols };
    let mut by_key: Vec<usize> = (0..n).collect();
    by_key.sort_unstable_by_key(|&v| graph.key(v));
    let mut placed = vec![false; n];
    let (mut parts, mut moves) = (0, 0);
    for v in by_key {
        if !placed[v] {
            parts += 1;
            moves = moves.max(graph.moves(v, n));
            for w in graph.levels(v, n).into_iter().flatten() {
                placed[w] = true;
            }
        }
    }
    let regular = n > 0 && (0..n).all(|v| graph.degree(v) == graph.degree(0));
    let hub = !regular && (0..n).any(|v| graph.degree(v) == n - 1);
    Reading {
        parts,
        moves,
        regular,
        hub,
    }
}
