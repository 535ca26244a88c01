//! Proposals and the five cases.

use crate::header::word;
use crate::table::{round_edge, Table};
use crate::tallies::Tallies;
use common::{EDGES, PROPOSAL_BYTES, WORD_BYTES};

/// Answers each proposal on the marks then standing and changes the marks of
/// those taken, and the tallies with them. Returns how many were taken.
pub(crate) fn run_proposals(
    table: &Table,
    marks: &mut [u8],
    tallies: &mut Tallies,
    proposals: &[u8],
    answers: &mut [u8],
) -> u32 {
    let mut taken = 0;
    for (proposal, answer) in proposals.chunks_exact(PROPOSAL_BYTES).zip(answers) {
        let (row, kind) = (word(proposal), word(&proposal[WORD_BYTES..]));
        *answer = judge(table, marks, tallies, row, kind);
        if *answer == 0 {
            let row = row as usize;
            marks[row] ^= 1;
            tallies.turn(&table.rows[row], marks[row]);
            taken += 1;
        }
    }
    taken
}

fn judge(table: &Table, marks: &[u8], tallies: &Tallies, row: u32, kind: u32) -> u8 {
    let row = row as usize;
    if row >= marks.len() {
        return 1;
    }
    // The mark that the row must have, to be added or to be removed.
    let before = match kind {
        1 => 0,
        2 => 1,
        _ => return 2,
    };
    if table.rows[row][0] == 0 {
        return 3;
    }
    if marks[row] != before {
        return 4;
    }
    local_test(table, marks, tallies, row)
}

/// The five cases: 0 if they pass, else 5 and f, the number of the row's
/// triangles on the skin. The other side is the rows whose mark differs from
/// this row's: the inside rows for an add, the outside rows for a remove.
fn local_test(table: &Table, marks: &[u8], tallies: &Tallies, row: usize) -> u8 {
    let other = |r: usize| marks[r] != marks[row];
    let free_corner = |corner: usize| tallies.others(table.rows[row][corner], marks[row]) == 0;
    let on_skin = table.neighbours[row].map(|across| other(across as usize));
    let f = on_skin.iter().filter(|&&skin| skin).count();
    let passes = match f {
        0 => (0..4).all(free_corner),
        1 => (0..4).all(|corner| !on_skin[corner] || free_corner(corner)),
        // The edge in neither triangle joins the two left-out corners.
        2 => EDGES
            .iter()
            .filter(|edge| on_skin[edge[0]] && on_skin[edge[1]])
            .all(|edge| !round_edge(table.rows, table.neighbours, row, edge).any(other)),
        _ => true,
    };
    if passes {
        0
    } else {
        5 + f as u8
    }
}
