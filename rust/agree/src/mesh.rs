//! An STL file as any other program takes it: by the corners of its facets alone.

use std::collections::HashMap;

/// x, y and z in metres.
type Corner = [f32; 3];

pub struct Mesh(Vec<[Corner; 3]>);

impl Mesh {
    /// Of a file that is laid out.
    pub fn of(file: &[u8]) -> Mesh {
        let (count, facets) = file[80..].split_at(4);
        let facets: Vec<[Corner; 3]> = facets.chunks(50).map(corners).collect();
        assert_eq!((facets.len() as u32).to_le_bytes(), count);
        Mesh(facets)
    }

    /// How many different corners it has.
    pub fn corners(&self) -> usize {
        let mut all: Vec<[u32; 3]> = self.0.as_flattened().iter().map(key).collect();
        all.sort_unstable();
        all.dedup();
        all.len()
    }

    /// What is wrong unless each edge is passed exactly once each way.
    pub fn open(&self) -> Option<String> {
        let mut passed: HashMap<[[u32; 3]; 2], usize> = HashMap::new();
        for facet in &self.0 {
            let [a, b, c] = facet.each_ref().map(key);
            for step in [[a, b], [b, c], [c, a]] {
                *passed.entry(step).or_default() += 1;
            }
        }
        let wrong = |(&[a, b], &times): &(&[[u32; 3]; 2], &usize)| {
            times != 1 || passed.get(&[b, a]) != Some(&1)
        };
        let ([a, b], times) = passed.iter().find(wrong)?;
        let [from, to] = [a, b].map(|corner| corner.map(f32::from_bits));
        let back = passed.get(&[*b, *a]).unwrap_or(&0);
        Some(format!(
            "{from:?} to {to:?} is passed {times} times, and {back} back"
        ))
    }

    /// Six times the volume that the facets close in, in cubed units, above zero
    /// if they look outward. No number is so large that it is rounded.
    pub fn six_volumes(&self) -> f64 {
        let units = |corner: &Corner| corner.map(|metres| 16.0 * f64::from(metres));
        let facet = |facet: &[Corner; 3]| {
            let [a, b, c] = facet.each_ref().map(units);
            let part = |i: usize, j: usize| b[i] * c[j] - b[j] * c[i];
            a[0] * part(1, 2) + a[1] * part(2, 0) + a[2] * part(0, 1)
        };
        self.0.iter().map(facet).sum()
    }
}

fn corners(facet: &[u8]) -> [Corner; 3] {
    let (numbers, _) = facet[12..48].as_chunks();
    let number = |at: usize| f32::from_le_bytes(numbers[at]);
    [0, 3, 6].map(|corner| [0, 1, 2].map(|axis| number(corner + axis)))
}

fn key(corner: &Corner) -> [u32; 3] {
    corner.map(f32::to_bits)
}

#[cfg(test)]
mod tests {
    use super::*;
    use jobs::facets;

    fn tetrahedron() -> Mesh {
        let known = facets::known().pop().expect("the last known list");
        Mesh::of(&known.file)
    }

    #[test]
    fn tetrahedron_is_closed() {
        let mesh = tetrahedron();
        assert_eq!(mesh.corners(), 4);
        assert_eq!(mesh.open(), None);
        // A third of the cube about it, whose edges are 32 units.
        assert_eq!(mesh.six_volumes(), 6.0 * 32.0 * 32.0 * 32.0 / 3.0);
    }

    #[test]
    fn faults_are_told() {
        let mut mesh = tetrahedron();
        mesh.0.pop();
        assert!(mesh.open().is_some());
        let mut mesh = tetrahedron();
        mesh.0[1].swap(0, 1);
        assert!(mesh.open().is_some());
        let mut mesh = tetrahedron();
        mesh.0.iter_mut().for_each(|facet| facet.swap(0, 1));
        assert_eq!(mesh.open(), None);
        assert!(mesh.six_volumes() < 0.0);
    }
}
