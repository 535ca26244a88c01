/// The four buffers that a caller lends to a run.
#[derive(Debug)]
pub struct Lent<'a> {
    pub answers: &'a mut [u8],
    pub final_marks: &'a mut [u8],
    pub triangles: &'a mut [u32],
    pub work: &'a mut [u32],
}

impl<'a> Lent<'a> {
    /// The same buffers, lent on.
    pub fn lend(&mut self) -> Lent<'_> {
        Lent {
            answers: self.answers,
            final_marks: self.final_marks,
            triangles: self.triangles,
            work: self.work,
        }
    }

    /// The front of each buffer, of these lengths; nothing if one is too short.
    pub fn front(self, rooms: Rooms) -> Option<Lent<'a>> {
        Some(Lent {
            answers: self.answers.get_mut(..rooms.answers)?,
            final_marks: self.final_marks.get_mut(..rooms.final_marks)?,
            triangles: self.triangles.get_mut(..rooms.triangles)?,
            work: self.work.get_mut(..rooms.work)?,
        })
    }
}

/// The lengths of the four lent buffers.
#[derive(Clone, Copy, Debug, PartialEq, Eq)]
pub struct Rooms {
    pub answers: usize,
    pub final_marks: usize,
    pub triangles: usize,
    pub work: usize,
}

impl Rooms {
    /// Just enough for V ids, N rows and P proposals: the skin has at most 2N
    /// triangles, each row has four neighbours, and each id two tallies.
    pub const fn exact(v: usize, n: usize, p: usize) -> Rooms {
        Rooms {
            answers: p,
            final_marks: n,
            triangles: 6 * n,
            work: 4 * n + 2 * v,
        }
    }
}

/// Buffers to lend.
#[derive(Clone, Debug, PartialEq, Eq)]
pub struct Buffers {
    pub answers: Vec<u8>,
    pub final_marks: Vec<u8>,
    pub triangles: Vec<u32>,
    pub work: Vec<u32>,
}

impl Buffers {
    pub fn zeros(rooms: Rooms) -> Buffers {
        Buffers::filled(rooms, 0)
    }

    /// With this number everywhere.
    pub fn filled(rooms: Rooms, number: u8) -> Buffers {
        let word = u32::from(number);
        Buffers {
            answers: vec![number; rooms.answers],
            final_marks: vec![number; rooms.final_marks],
            triangles: vec![word; rooms.triangles],
            work: vec![word; rooms.work],
        }
    }

    pub fn lend(&mut self) -> Lent<'_> {
        Lent {
            answers: &mut self.answers,
            final_marks: &mut self.final_marks,
            triangles: &mut self.triangles,
            work: &mut self.work,
        }
    }
}
