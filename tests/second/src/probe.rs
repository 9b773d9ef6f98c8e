//! Requests for single calls, one after another, each with the content of its lent slices before the call.

use crate::check::{self, Stretch};
use crate::columns::Lent;
use crate::compose;
use crate::head::{self, Call, Head, HEAD_BYTES};
use crate::input;
use crate::listing;
use crate::load;
use crate::medium::{self, Contents};
use crate::output::Filling;
use crate::refusal::{verdict, Refusal};
use crate::signs::number;
use crate::totals::Totals;
use crate::view::View;
use std::io::{self, BufReader, BufWriter, Read, Write};

const ROW_BYTES: usize = 17;
/// Wide enough for several requests at a time.
const BUFFER_BYTES: usize = 65_536;

/// Answers requests until the input ends between two of them, or a bad one comes.
pub fn serve(input: impl Read, output: impl Write) -> io::Result<()> {
    let mut desk = Desk {
        input: BufReader::with_capacity(BUFFER_BYTES, input),
        output: BufWriter::with_capacity(BUFFER_BYTES, output),
    };
    match desk.requests() {
        Ok(()) => {}
        Err(Stop::BadRequest) => desk.output.write_all(b"bad request\n")?,
        Err(Stop::Output(error)) => return Err(error),
    }
    desk.output.flush()
}

/// Why no further request is answered.
enum Stop {
    BadRequest,
    Output(io::Error),
}

impl From<io::Error> for Stop {
    fn from(error: io::Error) -> Self {
        Stop::Output(error)
    }
}

/// Where requests come in and answers go out.
struct Desk<R: Read, W: Write> {
    input: BufReader<R>,
    output: BufWriter<W>,
}

impl<R: Read, W: Write> Desk<R, W> {
    fn requests(&mut self) -> Result<(), Stop> {
        loop {
            let mut line = self.up_to(HEAD_BYTES)?;
            let Some(&letter) = line.first() else {
                return Ok(());
            };
            if line.len() < HEAD_BYTES {
                return Err(Stop::BadRequest);
            }
            line.extend(self.whole(head::bytes_from(letter) - HEAD_BYTES)?);
            let head = Head::of(&line).ok_or(Stop::BadRequest)?;
            let input = self.whole(head.input)?;
            match head.call {
                Call::Check => self.totals(check::check(&input))?,
                Call::Load => self.load(&input, &head)?,
                Call::CheckMedium => self.contents(medium::check(&input))?,
                Call::LoadMedium => self.load_medium(&input, &head)?,
                Call::List => self.fill(listing::list, &input, &head)?,
                Call::Compose => self.fill(compose::compose, &input, &head)?,
                Call::Find => self.found(View::of(&input, head.payment_or_start()))?,
                Call::HandOut => self.stretch(handed_out(&input, &head))?,
                Call::View => self.text(viewed(&input, &head))?,
            }
        }
    }

    /// The next bytes. Answers go out before the program waits, since the other side may wait for them.
    fn up_to(&mut self, most: usize) -> io::Result<Vec<u8>> {
        if self.input.buffer().len() < most {
            self.output.flush()?;
        }
        Ok(input::up_to(most, &mut self.input))
    }

    /// The next bytes, all of which belong to a request begun.
    fn whole(&mut self, length: usize) -> Result<Vec<u8>, Stop> {
        let bytes = self.up_to(length)?;
        if bytes.len() < length {
            return Err(Stop::BadRequest);
        }
        Ok(bytes)
    }

    fn load(&mut self, input: &[u8], head: &Head) -> Result<(), Stop> {
        let mut columns = self.lent(&head.numbers)?;
        let answer = load::load(input, &mut columns);
        self.totals(answer)?;
        Ok(self.columns(&columns)?)
    }

    fn load_medium(&mut self, input: &[u8], head: &Head) -> Result<(), Stop> {
        let mut columns: load::Columns = self.lent(&head.numbers)?;
        let mut table = self.lent(&head.numbers[columns.len()..])?;
        let answer = medium::load(input, &mut columns, &mut table);
        self.contents(answer)?;
        self.columns(&columns)?;
        Ok(self.columns(&table)?)
    }

    /// Columns as lent, one behind the other, the first numbers being their lengths.
    fn lent<const WIDTH: usize>(&mut self, numbers: &[usize]) -> Result<Lent<WIDTH>, Stop> {
        let mut lent = [const { Vec::new() }; WIDTH];
        for (column, &rows) in lent.iter_mut().zip(numbers) {
            *column = self.column(rows)?;
        }
        Ok(lent)
    }

    /// A column as lent; a row that is no number counts as 0.
    fn column(&mut self, rows: usize) -> Result<Vec<u64>, Stop> {
        let bytes = self.whole(rows * ROW_BYTES)?;
        let rows = bytes.chunks_exact(ROW_BYTES);
        Ok(rows.map(|row| number(row).unwrap_or(0)).collect())
    }

    /// Prints columns as they are after the call.
    fn columns(&mut self, columns: &[Vec<u64>]) -> io::Result<()> {
        for column in columns {
            for row in column {
                write!(self.output, "{row} ")?;
            }
            self.output.write_all(b"\n")?;
        }
        Ok(())
    }

    /// Answers a call that fills one lent output.
    fn fill(&mut self, call: Filling, input: &[u8], head: &Head) -> Result<(), Stop> {
        let mut lent = self.whole(head.numbers[0])?;
        let answer = call(input, &mut lent);
        let (number, place) = verdict(&answer);
        let length = answer.unwrap_or_default();
        writeln!(self.output, "{number}\t{place}\t{length}")?;
        self.output.write_all(&lent)?;
        Ok(self.output.write_all(b"\n")?)
    }

    /// Answers with count and sums, which are 0 for every refusal.
    fn totals(&mut self, answer: Result<Totals, Refusal>) -> io::Result<()> {
        let (number, place) = verdict(&answer);
        let sums = answer.unwrap_or_default();
        writeln!(
            self.output,
            "{number}\t{place}\t{}\t{}\t{}\t{}",
            sums.count, sums.accounts, sums.bank_codes, sums.cents
        )
    }

    /// Answers with the numbers of files and payments, which are 0 for every refusal.
    fn contents(&mut self, answer: Result<Contents, Refusal>) -> io::Result<()> {
        let (number, place) = verdict(&answer);
        let Contents { files, payments } = answer.unwrap_or_default();
        writeln!(self.output, "{number}\t{place}\t{files}\t{payments}")
    }

    /// Answers with the start of the view and the length of its file; a refused making gives no bytes and start 0.
    fn found(&mut self, answer: Result<View, Refusal>) -> io::Result<()> {
        let (number, place) = verdict(&answer);
        let View { file, start } = answer.unwrap_or_default();
        writeln!(self.output, "{number}\t{place}\t{start}\t{}", file.len())
    }

    /// Answers with the borders of what is handed out, an empty stretch for every refusal.
    fn stretch(&mut self, answer: Result<Stretch, Refusal>) -> io::Result<()> {
        let (number, place) = verdict(&answer);
        let handed = answer.unwrap_or_default();
        let (from, to) = (handed.place, handed.place + handed.bytes.len());
        writeln!(self.output, "{number}\t{place}\t{from}\t{to}")
    }

    /// Answers with what is handed out itself.
    fn text(&mut self, answer: Result<Stretch, Refusal>) -> io::Result<()> {
        let (number, place) = verdict(&answer);
        let text = answer.unwrap_or_default().bytes;
        writeln!(self.output, "{number}\t{place}\t{}", text.len())?;
        self.output.write_all(text)?;
        self.output.write_all(b"\n")
    }
}

/// What the input and the start asked for hand out as a view, whether or not one was ever made so.
fn handed_out<'a>(input: &'a [u8], head: &Head) -> Result<Stretch<'a>, Refusal> {
    let view = View {
        file: input,
        start: head.payment_or_start(),
    };
    view.hand_out(head.text())
}

/// What the view of the payment asked for hands out, or the refusal of its making.
fn viewed<'a>(input: &'a [u8], head: &Head) -> Result<Stretch<'a>, Refusal> {
    View::of(input, head.payment_or_start())?.hand_out(head.text())
}

#[cfg(test)]
mod tests;
