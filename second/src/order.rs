//! Question 2: from the list of numbers to an order, or the place at which it cannot be one.

#[derive(Clone, Debug)]
pub struct Table {
    pub levels: Vec<usize>,
    pub runs: Vec<Vec<usize>>,
}

#[derive(Clone, Debug)]
pub struct Matrix {
    pub p: usize,
    pub columns: usize,
    pub rows: Vec<Vec<usize>>,
}

/// A factor is its columns, and a column is t field elements.
#[derive(Clone, Debug)]
pub struct Generator {
    pub s: usize,
    pub t: usize,
    pub factors: Vec<Vec<Vec<usize>>>,
}

#[derive(Clone, Debug)]
pub enum Ingredient {
    Table(Table),
    Matrix(Matrix),
    Generator(Generator),
}

/// Ingredients and columns by the numbers that the list gives.
#[derive(Clone, Debug)]
pub enum Step {
    Take {
        table: usize,
    },
    Field {
        generator: usize,
    },
    Sum {
        matrices: Vec<usize>,
        k: usize,
    },
    Merge {
        p: usize,
        members: Vec<usize>,
    },
    Split {
        column: usize,
        table: usize,
    },
    Cross {
        matrices: Vec<usize>,
        k: usize,
        h: usize,
    },
}

/// An entry of an ingredient: where it stands in the list, and the number that it must be below.
#[derive(Clone, Debug)]
pub struct Entry {
    pub place: usize,
    pub value: usize,
    pub limit: usize,
}

#[derive(Clone, Debug)]
pub struct Order {
    pub ingredients: Vec<Ingredient>,
    pub steps: Vec<Step>,
    pub entries: Vec<Entry>,
}

/// The whole list as an order, or the place that question 2 names.
pub fn read(list: &[u16]) -> Result<Order, usize> {
    let mut reader = Reader::of(list)?;

    let q = reader.number(|q| q <= 32)?;
    let mut ingredients = Vec::new();
    for _ in 0..q {
        ingredients.push(reader.ingredient()?);
    }

    let z = reader.number(|z| (1..=16).contains(&z))?;
    let mut steps = Vec::new();
    for _ in 0..z {
        steps.push(reader.step()?);
    }

    reader.end()?;
    Ok(Order {
        ingredients,
        steps,
        entries: reader.entries,
    })
}

/// The whole list as one table, written as an ingredient is, with its entries; or the place that
/// question 2 would name, counted in this list.
pub fn read_table(list: &[u16]) -> Result<(Table, Vec<Entry>), usize> {
    let mut reader = Reader::of(list)?;
    reader.number(|kind| kind == 1)?;
    let table = reader.table()?;
    reader.end()?;
    Ok((table, reader.entries))
}

struct Reader<'a> {
    list: &'a [u16],
    /// The place of the number to be read next.
    place: usize,
    entries: Vec<Entry>,
}

impl<'a> Reader<'a> {
    /// At the beginning of a list, unless the list is too long, which is refused before any reading.
    fn of(list: &'a [u16]) -> Result<Reader<'a>, usize> {
        if list.len() > 32_768 {
            return Err(32_768);
        }
        Ok(Reader {
            list,
            place: 0,
            entries: Vec::new(),
        })
    }

    /// Nothing may be left over.
    fn end(&self) -> Result<(), usize> {
        if self.place < self.list.len() {
            return Err(self.place);
        }
        Ok(())
    }

    /// The next number if it is allowed. Otherwise its place, which is the length if there is none.
    fn number(&mut self, allowed: impl Fn(usize) -> bool) -> Result<usize, usize> {
        if self.place == self.list.len() {
            return Err(self.place);
        }
        let value = self.list[self.place] as usize;
        if !allowed(value) {
            return Err(self.place);
        }
        self.place += 1;
        Ok(value)
    }

    /// An entry may be any number here; question 3 looks at its limit.
    fn entry(&mut self, limit: usize) -> Result<usize, usize> {
        let place = self.place;
        let value = self.number(|_| true)?;
        self.entries.push(Entry {
            place,
            value,
            limit,
        });
        Ok(value)
    }

    /// Rows of entries, with a limit for each column.
    fn rows(&mut self, count: usize, limits: &[usize]) -> Result<Vec<Vec<usize>>, usize> {
        let mut rows = Vec::new();
        for _ in 0..count {
            let mut row = Vec::new();
            for &limit in limits {
                row.push(self.entry(limit)?);
            }
            rows.push(row);
        }
        Ok(rows)
    }

    fn ingredient(&mut self) -> Result<Ingredient, usize> {
        match self.number(|kind| (1..=3).contains(&kind))? {
            1 => Ok(Ingredient::Table(self.table()?)),
            2 => self.matrix(),
            _ => self.generator(),
        }
    }

    fn table(&mut self) -> Result<Table, usize> {
        let rows = self.number(|rows| (1..=512).contains(&rows))?;
        let columns = self.number(|columns| (1..=128).contains(&columns))?;
        let mut levels = Vec::new();
        for _ in 0..columns {
            levels.push(self.number(|level| (2..=64).contains(&level))?);
        }
        let runs = self.rows(rows, &levels)?;
        Ok(Table { levels, runs })
    }

    fn matrix(&mut self) -> Result<Ingredient, usize> {
        let rows = self.number(|rows| (1..=512).contains(&rows))?;
        let columns = self.number(|columns| (1..=128).contains(&columns))?;
        let p = self.number(|p| (2..=64).contains(&p))?;
        let rows = self.rows(rows, &vec![p; columns])?;
        Ok(Ingredient::Matrix(Matrix { p, columns, rows }))
    }

    fn generator(&mut self) -> Result<Ingredient, usize> {
        let t = self.number(|t| (1..=9).contains(&t))?;
        let n = self.number(|n| (1..=128).contains(&n))?;
        let s =
            self.number(|s| [2, 3, 4, 5, 7, 8, 9].contains(&s) && power_is_at_most(s, t, 512))?;
        let mut widths = Vec::new();
        for _ in 0..n {
            widths.push(self.number(|u| u >= 1 && power_is_at_most(s, u, 64))?);
        }
        let width: usize = widths.iter().sum();
        let rows = self.rows(t, &vec![s; width])?;

        let mut factors = Vec::new();
        let mut start = 0;
        for u in widths {
            let mut factor = Vec::new();
            for place in start..start + u {
                let column: Vec<usize> = rows.iter().map(|row| row[place]).collect();
                factor.push(column);
            }
            factors.push(factor);
            start += u;
        }
        Ok(Ingredient::Generator(Generator { s, t, factors }))
    }

    fn step(&mut self) -> Result<Step, usize> {
        match self.number(|kind| (1..=6).contains(&kind))? {
            1 => Ok(Step::Take {
                table: self.number(names_an_ingredient)?,
            }),
            2 => Ok(Step::Field {
                generator: self.number(names_an_ingredient)?,
            }),
            3 => {
                let (matrices, k) = self.operands_of_sum()?;
                Ok(Step::Sum { matrices, k })
            }
            4 => {
                let p = self.number(|p| [2, 3, 5, 7].contains(&p))?;
                let mut members = Vec::new();
                for _ in 0..p + 1 {
                    members.push(self.number(|c| (1..=128).contains(&c))?);
                }
                Ok(Step::Merge { p, members })
            }
            5 => {
                let column = self.number(|c| (1..=128).contains(&c))?;
                let table = self.number(names_an_ingredient)?;
                Ok(Step::Split { column, table })
            }
            _ => {
                // Unlike k, h is never 0; 02, K6.
                let (matrices, k) = self.operands_of_sum()?;
                let h = self.number(names_an_ingredient)?;
                Ok(Step::Cross { matrices, k, h })
            }
        }
    }

    /// d1 .. dr and k, with r before them.
    fn operands_of_sum(&mut self) -> Result<(Vec<usize>, usize), usize> {
        let r = self.number(|r| (1..=16).contains(&r))?;
        let mut matrices = Vec::new();
        for _ in 0..r {
            matrices.push(self.number(names_an_ingredient)?);
        }
        let k = self.number(|k| k == 0 || names_an_ingredient(k))?;
        Ok((matrices, k))
    }
}

fn names_an_ingredient(number: usize) -> bool {
    (1..=32).contains(&number) || (101..=104).contains(&number)
}

/// Is base to the exponent at most so much? For bases of 2 and more.
fn power_is_at_most(base: usize, exponent: usize, most: usize) -> bool {
    let mut power = 1;
    for _ in 0..exponent {
        power *= base;
        if power > most {
            return false;
        }
    }
    true
}
