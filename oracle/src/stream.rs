//! The modes `lines` and `segments`: requests and answers, each a u32 length and its bytes.

use crate::judge;
use crate::sheet::Sheet;
use std::io::{self, BufReader, BufWriter, Read, Write};
use std::thread;

/// Requests that are answered together; answers keep the order of the requests.
const BATCH: usize = 4096;

/// The crate calls itself once a brace: a long request may nest thousands deep.
const STACK: usize = 512 << 20;

pub fn lines(input: impl Read, output: impl Write) -> io::Result<()> {
    in_batches(input, output, |requests| {
        let sheets: Vec<_> = requests.iter().map(|request| Sheet::read(request)).collect();
        let mut answers = vec![Vec::new(); sheets.len()];
        // The switch for colour is one for all threads, so each colour has its turn.
        for colour in [false, true] {
            let turn: Vec<usize> =
                (0..sheets.len()).filter(|&i| sheets[i].as_ref().map_or(false, Sheet::colour) == colour).collect();
            judge::set_colour(colour);
            let answered = side_by_side(&turn, |&i| judge::answer(sheets[i].as_ref()).bytes());
            for (i, answer) in turn.into_iter().zip(answered) {
                answers[i] = answer;
            }
        }
        answers
    })
}

pub fn segments(input: impl Read, output: impl Write) -> io::Result<()> {
    in_batches(input, output, |requests| side_by_side(requests, |request| judge::segments(request).into_bytes()))
}

fn in_batches(input: impl Read, output: impl Write, answer: impl Fn(&[Vec<u8>]) -> Vec<Vec<u8>>) -> io::Result<()> {
    let mut input = BufReader::with_capacity(1 << 20, input);
    let mut output = BufWriter::with_capacity(1 << 20, output);
    loop {
        let mut requests = Vec::new();
        while requests.len() < BATCH {
            match request(&mut input)? {
                Some(bytes) => requests.push(bytes),
                None => break,
            }
        }
        for bytes in answer(&requests) {
            output.write_all(&(bytes.len() as u32).to_le_bytes())?;
            output.write_all(&bytes)?;
        }
        if requests.len() < BATCH {
            return output.flush();
        }
    }
}

/// None at the end of the stream; an error if it ends inside a request.
fn request(input: &mut impl Read) -> io::Result<Option<Vec<u8>>> {
    let mut length = [0; 4];
    if input.read(&mut length[..1])? == 0 {
        return Ok(None);
    }
    input.read_exact(&mut length[1..])?;
    let mut bytes = Vec::new();
    let length = u64::from(u32::from_le_bytes(length));
    if input.take(length).read_to_end(&mut bytes)? as u64 != length {
        return Err(io::ErrorKind::UnexpectedEof.into());
    }
    Ok(Some(bytes))
}

/// Answers on all processors, in the order of the requests.
pub(crate) fn side_by_side<T: Sync, A: Send>(requests: &[T], answer: impl Fn(&T) -> A + Sync) -> Vec<A> {
    let workers = thread::available_parallelism().map_or(1, usize::from);
    let share = requests.len() / workers + 1;
    let answer = &answer;
    thread::scope(|scope| {
        let started: Vec<_> = requests
            .chunks(share)
            .map(|chunk| {
                let work = move || chunk.iter().map(answer).collect::<Vec<_>>();
                thread::Builder::new().stack_size(STACK).spawn_scoped(scope, work).expect("a thread")
            })
            .collect();
        started.into_iter().flat_map(|worker| worker.join().expect("a worker")).collect()
    })
}
