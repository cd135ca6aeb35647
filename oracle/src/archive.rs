//! Our side: the archive behind a program that takes calls over a pipe (oracle/calls.c).
use crate::outcome::{Candidate, Outcome, Row};
use crate::page::{Ask, Available, Page};
use std::io::{BufReader, Read, Write};
use std::process::{Child, ChildStdin, ChildStdout, Command, Stdio};

pub struct Archive {
    program: Child,
    calls: ChildStdin,
    answers: BufReader<ChildStdout>,
}

impl Archive {
    /// Starts the program: its name, or an emulator with its arguments, the program last.
    pub fn start(command: &[String]) -> std::io::Result<Archive> {
        let mut program = Command::new(&command[0])
            .args(&command[1..])
            .stdin(Stdio::piped())
            .stdout(Stdio::piped())
            .spawn()?;
        let calls = program.stdin.take().expect("a pipe to the program");
        let answers =
            BufReader::with_capacity(1 << 17, program.stdout.take().expect("a pipe from the program"));
        Ok(Archive { program, calls, answers })
    }

    /// The call is written whole before anything is read, and the program reads it whole before it
    /// answers; so neither waits for the other.
    pub fn answer(&mut self, page: &Page) -> std::io::Result<Outcome> {
        self.calls.write_all(&call(page))?;
        let [number, place] = self.words()?;
        if number != 0 {
            return Ok(Outcome::Refused { number, place });
        }
        if page.question.ask != Ask::Layout {
            let [width, height] = self.words()?.map(f32::from_bits);
            return Ok(Outcome::Size(width, height));
        }
        let rows = (0..page.nodes()).map(|_| self.row()).collect::<Result<_, _>>()?;
        let candidates = (0..place).map(|_| self.candidate()).collect::<Result<_, _>>()?;
        Ok(Outcome::Laid { rows, candidates })
    }

    fn row(&mut self) -> std::io::Result<Row> {
        let numbers = self.words()?.map(f32::from_bits);
        let [order, bits] = self.words()?;
        Ok(Row { numbers, order, bits })
    }

    fn candidate(&mut self) -> std::io::Result<Candidate> {
        let [node, order] = self.words()?;
        let [start, end, line] = self.words()?.map(f32::from_bits);
        Ok(Candidate { node, order, start, end, line })
    }

    fn words<const N: usize>(&mut self) -> std::io::Result<[u32; N]> {
        let mut words = [0; N];
        for word in &mut words {
            let mut bytes = [0; 4];
            self.answers.read_exact(&mut bytes)?;
            *word = u32::from_le_bytes(bytes);
        }
        Ok(words)
    }

    /// Closes the pipe, at which the program ends.
    pub fn stop(mut self) {
        drop(self.calls);
        let _ = self.program.wait();
    }
}

/// A call as calls.c reads it.
fn call(page: &Page) -> Vec<u8> {
    let question = &page.question;
    let (available, kind) = match question.available {
        Available::Definite(width) => (width, 1),
        Available::MinContent => (0.0, 2),
        Available::MaxContent => (0.0, 3),
    };
    // The bits of include/mearrasot.h, under 'The question'.
    let how = question.width.is_some() as u32
        | (question.height.is_some() as u32) << 1
        | kind << 2
        | (question.start as u32) << 4
        | (question.end as u32) << 5
        | ((question.ask == Ask::Width) as u32) << 6
        | (question.definite as u32) << 7;
    let numbers =
        [question.width, question.height, question.parent, Some(available)].map(Option::unwrap_or_default);
    let head = [(question.ask != Ask::Layout) as u32, page.nodes() as u32, how];
    let mut words = head.to_vec();
    words.extend(numbers.map(f32::to_bits));
    words.extend(&page.words);
    words.extend(page.numbers.iter().map(|number| number.to_bits()));
    words.into_iter().flat_map(u32::to_le_bytes).collect()
}
