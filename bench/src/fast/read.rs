//! Questions 2 and 3. Entries are passed over at once, and nothing is copied.

use super::Stop;

pub struct Order<'a> {
    pub ingredients: Vec<Ingredient<'a>>,
    pub steps: Vec<Step<'a>>,
}

pub struct Ingredient<'a> {
    pub shape: Shape<'a>,
    pub entries: &'a [u16],
    /// Of the first entry.
    place: usize,
}

pub enum Shape<'a> {
    Table {
        levels: &'a [u16],
    },
    Matrix {
        columns: usize,
        p: u16,
    },
    /// Over the field of two elements, with factors of one column.
    Generator {
        factors: usize,
    },
}

pub enum Step<'a> {
    Take { table: usize },
    Field { generator: usize },
    Sum { matrices: &'a [u16] },
    Merge { members: &'a [u16] },
    Split { column: usize, table: usize },
    Cross { matrices: &'a [u16], h: usize },
}

pub fn order(list: &[u16]) -> Result<Order<'_>, Stop> {
    let mut reader = Reader::of(list)?;
    let q = reader.number(|q| q <= 32)?;
    let ingredients = (0..q)
        .map(|_| reader.ingredient())
        .collect::<Result<_, _>>()?;
    let z = reader.number(|z| (1..=16).contains(&z))?;
    let steps = (0..z).map(|_| reader.step()).collect::<Result<_, _>>()?;
    reader.end()?;
    Ok(Order { ingredients, steps })
}

/// A list that is one table, as an ingredient is written; its level counts stand in the list.
pub fn table(list: &[u16]) -> Result<(&[u16], Ingredient<'_>), Stop> {
    let mut reader = Reader::of(list)?;
    if list.first() != Some(&1) {
        return Err(unreadable(0));
    }
    let table = reader.ingredient()?;
    reader.end()?;
    let levels = &list[3..table.place];
    Ok((levels, table))
}

fn unreadable(place: usize) -> Stop {
    Stop::Refused([2, place, 0, 0, 0, 0, 0])
}

struct Reader<'a> {
    list: &'a [u16],
    /// Of the number to be read next.
    place: usize,
}

impl<'a> Reader<'a> {
    fn of(list: &'a [u16]) -> Result<Reader<'a>, Stop> {
        match list.len() {
            0..=32_768 => Ok(Reader { list, place: 0 }),
            _ => Err(unreadable(32_768)),
        }
    }

    fn end(&self) -> Result<(), Stop> {
        match self.place < self.list.len() {
            true => Err(unreadable(self.place)),
            false => Ok(()),
        }
    }

    fn number(&mut self, allowed: impl Fn(u16) -> bool) -> Result<usize, Stop> {
        match self.list.get(self.place) {
            Some(&number) if allowed(number) => {
                self.place += 1;
                Ok(number.into())
            }
            _ => Err(unreadable(self.place)),
        }
    }

    /// Numbers of any size.
    fn numbers(&mut self, count: usize) -> Result<&'a [u16], Stop> {
        let numbers = self.list[self.place..]
            .get(..count)
            .ok_or_else(|| unreadable(self.list.len()))?;
        self.place += count;
        Ok(numbers)
    }

    fn series(&mut self, count: usize, allowed: impl Fn(u16) -> bool) -> Result<&'a [u16], Stop> {
        let start = self.place;
        for _ in 0..count {
            self.number(&allowed)?;
        }
        Ok(&self.list[start..self.place])
    }

    fn ingredient(&mut self) -> Result<Ingredient<'a>, Stop> {
        let kind = self.number(|kind| (1..=3).contains(&kind))?;
        let most_rows = if kind == 3 { 9 } else { 512 };
        let rows = self.number(|rows| (1..=most_rows).contains(&rows))?;
        let columns = self.number(|columns| (1..=128).contains(&columns))?;
        let shape = match kind {
            1 => Shape::Table {
                levels: self.series(columns, |level| (2..=64).contains(&level))?,
            },
            2 => Shape::Matrix {
                columns,
                p: self.number(|p| (2..=64).contains(&p))? as u16,
            },
            _ => self.generator(columns)?,
        };
        let place = self.place;
        let entries = self.numbers(rows * columns)?;
        Ok(Ingredient {
            shape,
            entries,
            place,
        })
    }

    fn generator(&mut self, factors: usize) -> Result<Shape<'a>, Stop> {
        if self.list.get(self.place) != Some(&2) {
            return Err(Stop::NotWritten);
        }
        self.place += 1;
        let widths = self.series(factors, |u| (1..=6).contains(&u))?;
        if widths.iter().any(|&u| u != 1) {
            return Err(Stop::NotWritten);
        }
        Ok(Shape::Generator { factors })
    }

    fn step(&mut self) -> Result<Step<'a>, Stop> {
        Ok(match self.number(|kind| (1..=6).contains(&kind))? {
            1 => Step::Take {
                table: self.number(names_an_ingredient)?,
            },
            2 => Step::Field {
                generator: self.number(names_an_ingredient)?,
            },
            3 => Step::Sum {
                matrices: self.operands_of_sum()?,
            },
            4 => {
                let p = self.number(|p| [2, 3, 5, 7].contains(&p))?;
                Step::Merge {
                    members: self.series(p + 1, |c| (1..=128).contains(&c))?,
                }
            }
            5 => Step::Split {
                column: self.number(|c| (1..=128).contains(&c))?,
                table: self.number(names_an_ingredient)?,
            },
            _ => Step::Cross {
                matrices: self.operands_of_sum()?,
                h: self.number(names_an_ingredient)?,
            },
        })
    }

    /// The matrices; a k is not written.
    fn operands_of_sum(&mut self) -> Result<&'a [u16], Stop> {
        let r = self.number(|r| (1..=16).contains(&r))?;
        let matrices = self.series(r, names_an_ingredient)?;
        match self.number(|k| k == 0 || names_an_ingredient(k))? {
            0 => Ok(matrices),
            _ => Err(Stop::NotWritten),
        }
    }
}

fn names_an_ingredient(number: u16) -> bool {
    (1..=32).contains(&number) || (101..=104).contains(&number)
}

impl Ingredient<'_> {
    /// Question 3.
    pub fn in_range(&self) -> Result<(), Stop> {
        let first = match self.shape {
            Shape::Table { levels } => first_high(self.entries, levels),
            Shape::Matrix { columns, p } => first_high(self.entries, &vec![p; columns]),
            Shape::Generator { factors } => first_high(self.entries, &vec![2; factors]),
        };
        match first {
            Some(entry) => Err(Stop::Refused([3, self.place + entry, 0, 0, 0, 0, 0])),
            None => Ok(()),
        }
    }
}

/// The first entry that is not below its column's limit. A row is tried without a branch for each
/// entry, which is faster, and the entry looked for in the row that has one.
fn first_high(entries: &[u16], limits: &[u16]) -> Option<usize> {
    let any_high = |row: &[u16]| {
        let compared = row.iter().zip(limits);
        compared.fold(false, |any, (entry, limit)| any | (entry >= limit))
    };
    let run = entries.chunks_exact(limits.len()).position(any_high)?;
    let start = run * limits.len();
    let mut compared = entries[start..].iter().zip(limits);
    let column = compared.position(|(entry, limit)| entry >= limit)?;
    Some(start + column)
}
