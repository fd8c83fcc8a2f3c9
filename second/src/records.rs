//! Orders with their answers as a text of records, for a program that compares the planner with
//! them.
//!
//! - A line that starts with `#` is a remark.
//! - A line that starts with `@` gives the lengths of run table, level list and scratch for all
//!   records after it, each as two numbers of sixteen bits: 65,536 times the first plus the
//!   second. Before the first such line the lengths are `LEAST`.
//! - A record is the text of an order, ` =` and a line feed, then what the program prints for the
//!   order, then a line of `;`.

mod catalogue;
mod examples;
mod vectors;

pub use catalogue::catalogue;
pub use examples::examples;
pub use vectors::vectors;

use crate::text::spaced;
use crate::{plan_text, print, Answer, Lengths, LEAST};

/// A text of records in the making.
struct Records {
    text: String,
    /// Those that hold at the end of the text.
    lengths: Lengths,
}

impl Records {
    /// A text whose first line is a remark.
    fn headed(about: &str) -> Records {
        let mut records = Records {
            text: String::new(),
            lengths: LEAST,
        };
        records.remark(about);
        records
    }

    fn remark(&mut self, words: &str) {
        self.text += &format!("# {words}\n");
    }

    /// Adds the record of an order, and gives its answer.
    fn record(&mut self, order: &str, lengths: Lengths) -> Answer {
        if lengths != self.lengths {
            self.text += &lengths_line(&lengths);
            self.lengths = lengths;
        }
        let answer = plan_text(order.as_bytes(), lengths);
        self.text += &format!("{order} =\n{};\n", print(&answer));
        answer
    }
}

fn lengths_line(lengths: &Lengths) -> String {
    let halves = lengths.map(|length| [length / 65_536, length % 65_536]);
    format!("@ {}\n", spaced(&halves.concat()))
}
