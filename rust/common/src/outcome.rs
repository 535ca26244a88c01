/// What a run returns. A refusal has zero for both counts.
#[derive(Clone, Copy, Debug, PartialEq, Eq)]
pub struct Outcome {
    pub code: u32,
    pub place: u32,
    pub taken: u32,
    pub triangles: u32,
}

impl Outcome {
    pub fn done(taken: u32, triangles: u32) -> Outcome {
        Outcome {
            code: 0,
            place: 0,
            taken,
            triangles,
        }
    }

    pub fn refused(code: u32, place: u32) -> Outcome {
        Outcome {
            code,
            place,
            taken: 0,
            triangles: 0,
        }
    }
}
