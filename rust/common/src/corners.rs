/// The corners of the triangle that leaves out each corner.
pub const TRIANGLES: [[usize; 3]; 4] = [[1, 2, 3], [0, 2, 3], [0, 1, 3], [0, 1, 2]];

/// The corners of each edge, and then those of the edge opposite.
pub const EDGES: [[usize; 4]; 6] = [
    [0, 1, 2, 3],
    [0, 2, 1, 3],
    [0, 3, 1, 2],
    [1, 2, 0, 3],
    [1, 3, 0, 2],
    [2, 3, 0, 1],
];

#[cfg(test)]
mod tests {
    use super::*;

    #[test]
    fn triangles_have_the_other_corners() {
        for (left_out, triangle) in TRIANGLES.iter().enumerate() {
            let others: Vec<usize> = (0..4).filter(|&corner| corner != left_out).collect();
            assert_eq!(triangle[..], others);
        }
    }

    #[test]
    fn edges_are_all_pairs_and_their_opposites_have_the_rest() {
        let low = |a: usize| (a + 1..4).map(move |b| [a, b]);
        let pairs: Vec<[usize; 2]> = (0..4).flat_map(low).collect();
        assert_eq!(EDGES.map(|[a, b, ..]| [a, b])[..], pairs);
        for edge in EDGES {
            let rest: Vec<usize> = (0..4)
                .filter(|corner| !edge[..2].contains(corner))
                .collect();
            assert_eq!(edge[2..], rest);
        }
    }
}
