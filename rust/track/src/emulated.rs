//! The engine in a program of its own, for processors other than x86-64. It
//! runs under the emulator that TRACK_EMULATOR names, else `qemu-x86_64`.

use common::Lent;
use std::cell::RefCell;
use std::env;
use std::io::{self, Read, Write};
use std::process::{Child, Command, Stdio};

thread_local! {
    static HARNESS: RefCell<Option<Harness>> = const { RefCell::new(None) };
}

/// The functions, by the numbers that `harness.c` has for them.
#[derive(Clone, Copy)]
enum Function {
    Run = 0,
    StlWrite = 1,
    StlRead = 2,
    StlRun = 3,
}

pub(crate) fn run(job: &[u8], lent: Lent) -> [u32; 4] {
    let [answers, final_marks, triangles, work] = four(lent);
    let taken = [Slice::Read(job), answers, final_marks, triangles, work];
    call(Function::Run, taken)
}

pub(crate) fn stl_write(units: &[i16], file: &mut [u8]) -> [u32; 2] {
    let taken = [Slice::ReadNumbers(units), Slice::Bytes(file)];
    call(Function::StlWrite, taken)
}

pub(crate) fn stl_read(file: &[u8], units: &mut [i16]) -> [u32; 4] {
    let taken = [Slice::Read(file), Slice::Numbers(units)];
    call(Function::StlRead, taken)
}

pub(crate) fn stl_run(job: &[u8], lent: Lent, file: &mut [u8]) -> [u32; 4] {
    let [answers, final_marks, triangles, work] = four(lent);
    let (job, file) = (Slice::Read(job), Slice::Bytes(file));
    let taken = [job, answers, final_marks, triangles, work, file];
    call(Function::StlRun, taken)
}

fn four(lent: Lent) -> [Slice; 4] {
    [
        Slice::Bytes(lent.answers),
        Slice::Bytes(lent.final_marks),
        Slice::Words(lent.triangles),
        Slice::Words(lent.work),
    ]
}

/// Calls a function with the slices that it takes, in order.
fn call<const WORDS: usize, const SLICES: usize>(
    function: Function,
    taken: [Slice; SLICES],
) -> [u32; WORDS] {
    HARNESS.with_borrow_mut(|harness| {
        harness
            .get_or_insert_with(Harness::start)
            .call(function, taken)
            .expect("the emulated engine ended early")
    })
}

/// A slice that a function reads, or one that is lent to it.
enum Slice<'a> {
    Read(&'a [u8]),
    ReadNumbers(&'a [i16]),
    Bytes(&'a mut [u8]),
    Numbers(&'a mut [i16]),
    Words(&'a mut [u32]),
}

impl Slice<'_> {
    fn len(&self) -> usize {
        match self {
            Slice::Read(bytes) => bytes.len(),
            Slice::ReadNumbers(numbers) => numbers.len(),
            Slice::Bytes(bytes) => bytes.len(),
            Slice::Numbers(numbers) => numbers.len(),
            Slice::Words(words) => words.len(),
        }
    }

    fn put(&self, to: &mut Vec<u8>) {
        match self {
            Slice::Read(bytes) => to.extend(*bytes),
            Slice::ReadNumbers(numbers) => put_numbers(numbers, to),
            Slice::Bytes(bytes) => to.extend(&**bytes),
            Slice::Numbers(numbers) => put_numbers(numbers, to),
            Slice::Words(words) => to.extend(words.iter().flat_map(|word| word.to_le_bytes())),
        }
    }

    /// Takes back what was lent.
    fn get(&mut self, from: &mut impl Read) -> io::Result<()> {
        match self {
            Slice::Read(_) | Slice::ReadNumbers(_) => Ok(()),
            Slice::Bytes(bytes) => from.read_exact(bytes),
            Slice::Numbers(numbers) => {
                let mut bytes = vec![0; 2 * numbers.len()];
                from.read_exact(&mut bytes)?;
                for (number, bytes) in numbers.iter_mut().zip(bytes.as_chunks().0) {
                    *number = i16::from_le_bytes(*bytes);
                }
                Ok(())
            }
            Slice::Words(words) => get_words(from, words),
        }
    }
}

fn put_numbers(numbers: &[i16], to: &mut Vec<u8>) {
    to.extend(numbers.iter().flat_map(|number| number.to_le_bytes()));
}

fn get_words(from: &mut impl Read, words: &mut [u32]) -> io::Result<()> {
    let mut bytes = vec![0; 4 * words.len()];
    from.read_exact(&mut bytes)?;
    for (word, bytes) in words.iter_mut().zip(bytes.as_chunks().0) {
        *word = u32::from_le_bytes(*bytes);
    }
    Ok(())
}

struct Harness(Child);

impl Harness {
    fn start() -> Harness {
        let emulator = env::var_os("TRACK_EMULATOR").unwrap_or_else(|| "qemu-x86_64".into());
        let child = Command::new(&emulator)
            .arg(env!("TRACK_HARNESS"))
            .stdin(Stdio::piped())
            .stdout(Stdio::piped())
            .spawn();
        Harness(child.unwrap_or_else(|error| {
            let emulator = emulator.display();
            panic!("set TRACK_EMULATOR to an emulator of x86-64: {emulator}: {error}")
        }))
    }

    fn call<const WORDS: usize, const SLICES: usize>(
        &mut self,
        function: Function,
        mut taken: [Slice; SLICES],
    ) -> io::Result<[u32; WORDS]> {
        let mut request = Vec::from((function as u64).to_le_bytes());
        for slice in &taken {
            request.extend((slice.len() as u64).to_le_bytes());
        }
        for slice in &taken {
            slice.put(&mut request);
        }
        self.0.stdin.as_mut().expect("piped").write_all(&request)?;

        let from = self.0.stdout.as_mut().expect("piped");
        let mut outcome = [0; WORDS];
        get_words(from, &mut outcome)?;
        for slice in &mut taken {
            slice.get(from)?;
        }
        Ok(outcome)
    }
}

impl Drop for Harness {
    /// The program ends when its input does.
    fn drop(&mut self) {
        drop(self.0.stdin.take());
        let _ = self.0.wait();
    }
}
