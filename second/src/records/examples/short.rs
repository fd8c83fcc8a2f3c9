//! Short orders, each with its name.

/// The order that 01 prints with its runs.
pub const PRINTED: &str = "0 2 1 101 4 2 1 2 3";

/// Question 2 at both sides of its limits. An order that reads is refused later or filled.
pub const READING: &[(&str, &str)] = &[
    ("33 ingredients", "33"),
    ("ingredient of kind 0", "1 0 1 1"),
    ("ingredient of kind 4", "1 4 1 1"),
    ("table of 0 rows", "1 1 0 1 2 1 1 1"),
    ("table of 129 columns", "1 1 1 129"),
    ("column of 1 level", "1 1 1 1 1 0 1 1 1"),
    ("column of 64 levels", "1 1 1 1 64 0 1 1 1"),
    ("column of 65 levels", "1 1 1 1 65 0 1 1 1"),
    ("generator with s = 6", "1 3 2 1 6 1"),
    ("generator with s = 8, t = 3", "1 3 3 1 8 1 0 0 0 1 2 1"),
    ("generator with s = 8, t = 4", "1 3 4 1 8 1"),
    ("factor with 8^2 values", "1 3 1 1 8 2 0 0 1 2 1"),
    ("factor with 8^3 values", "1 3 3 1 8 3"),
    ("factor of no column", "1 3 3 1 8 0"),
    ("no step", "0 0"),
    ("17 steps", "0 17"),
    ("step of kind 0", "0 1 0 1"),
    ("step of kind 6", "0 1 6 1"),
    ("step of kind 7", "0 1 7 1"),
    ("TAKE 0", "0 1 1 0"),
    ("TAKE 32", "0 1 1 32"),
    ("TAKE 33", "0 1 1 33"),
    ("TAKE 100", "0 1 1 100"),
    ("TAKE 104", "0 1 1 104"),
    ("TAKE 105", "0 1 1 105"),
    ("SUM with k = 0", "0 1 3 1 1 0"),
    ("SUM with d = 0", "0 1 3 1 0 0"),
    ("SUM with no matrix", "0 1 3 0 0"),
    ("MERGE with p = 4", "0 1 4 4 1 2 3 4 5"),
    ("SPLIT of column 0", "0 1 5 0 101"),
    ("SPLIT of column 128", "0 1 5 128 101"),
    ("SPLIT of column 129", "0 1 5 129 101"),
    ("one number too many", "0 1 1 101 7"),
];

/// The counted examples of 01 and the printed one. Those of rows and columns at their limits are
/// among the long orders.
pub const COUNTED: &[(&str, &str)] = &[
    ("the printed order", PRINTED),
    ("no number", ""),
    (
        "SUM of a column of 3 levels and a matrix",
        "2 1 3 1 3 0 1 2 2 3 3 3 0 0 0 0 1 2 0 2 1 2 1 1 3 1 2 1",
    ),
    ("table 00 01 10 10", "1 1 4 2 2 2 0 0 0 1 1 0 1 0 1 1 1"),
    ("table 00 00 11 11", "1 1 4 2 2 2 0 0 0 0 1 1 1 1 1 1 1"),
    ("MERGE of a column with itself", "0 2 1 101 4 2 1 1 2"),
    (
        "FIELD over GF(2), factors 10 01 11",
        "1 3 2 3 2 1 1 1 1 0 1 0 1 1 1 2 1",
    ),
    (
        "FIELD over GF(2), factors 10 10",
        "1 3 2 2 2 1 1 1 1 0 0 1 2 1",
    ),
    (
        "FIELD over GF(4), factors 10 01 11 12 13",
        "1 3 2 5 4 1 1 1 1 1 1 0 1 1 1 0 1 1 2 3 1 2 1",
    ),
    // With one coordinate and the factor f, run x is x times f.
    ("multiples of 3 in GF(4)", "1 3 1 1 4 1 3 1 2 1"),
    ("multiples of 4 in GF(8)", "1 3 1 1 8 1 4 1 2 1"),
    ("multiples of 4 in GF(9)", "1 3 1 1 9 1 4 1 2 1"),
];

/// Each refusal from 2 to 10, and orders next to them that are filled. 11 is among the long orders.
pub const REFUSALS: &[(&str, &str)] = &[
    // Question 2.
    ("an order cut short", "0 1 1"),
    ("a number left over", "0 1 1 101 0"),
    (
        "a step out of its limits after an entry out of range",
        "1 1 2 1 2 0 2 1 7 1",
    ),
    // Question 3.
    ("table entry 2 of 2 levels", "1 1 2 1 2 0 2 1 1 1"),
    ("matrix entry 3 with p = 3", "1 2 1 2 3 2 3 1 1 101"),
    (
        "generator entry 65535 with s = 2",
        "1 3 1 1 2 1 65535 1 2 1",
    ),
    (
        "an entry out of range after a table that fails",
        "2 1 2 1 2 0 0 2 1 1 2 2 1 1 1",
    ),
    // Question 4.
    ("one column, uneven", "1 1 2 1 2 0 0 1 1 1"),
    ("three runs of two levels", "1 1 3 1 2 0 1 1 1 1 1"),
    (
        "second ingredient uneven, and used by no step",
        "2 1 2 1 2 0 1 1 2 1 2 1 1 1 1 1",
    ),
    (
        "columns 2 and 3 the same",
        "1 1 4 3 2 2 2 0 0 0 0 1 1 1 0 0 1 1 1 1 1 1",
    ),
    (
        "levels 0 and 1 of columns with 2 and 3 levels",
        "1 1 6 2 2 3 0 0 0 1 0 1 1 0 1 2 1 2 1 1 1",
    ),
    ("matrix of zeros", "1 2 2 2 2 0 0 0 0 1 1 101"),
    ("matrix of one column", "1 2 2 1 2 0 0 1 1 101"),
    (
        "matrix, columns 1 and 3",
        "1 2 3 3 3 0 0 0 0 1 1 0 2 1 1 1 101",
    ),
    ("generator, its one factor 0", "1 3 1 1 2 1 0 1 2 1"),
    (
        "generator over GF(4), factors 12 31",
        "1 3 2 2 4 1 1 1 3 2 1 1 2 1",
    ),
    (
        "generator over GF(3), a factor of two columns",
        "1 3 2 2 3 1 2 1 1 0 0 0 1 1 2 1",
    ),
    // Question 5, of the first step.
    ("SUM first", "1 2 1 1 2 0 1 3 1 1 0"),
    ("MERGE first", "0 1 4 2 1 2 3"),
    ("SPLIT first", "0 1 5 1 101"),
    ("TAKE of a missing ingredient", "0 1 1 1"),
    ("TAKE of a matrix", "1 2 1 1 2 0 1 1 1"),
    ("TAKE of a generator", "1 3 1 1 2 1 1 1 1 1"),
    ("FIELD of a house table", "0 1 2 101"),
    ("FIELD of a matrix", "1 2 1 1 2 0 1 2 1"),
    // Question 5, of a later step.
    ("TAKE later", "0 2 1 101 1 102"),
    ("FIELD later", "1 3 1 1 2 1 1 2 2 1 2 1"),
    ("SUM with a table for a matrix", "0 2 1 101 3 1 101 0"),
    ("SUM with a missing matrix", "1 2 1 1 2 0 2 1 101 3 2 1 2 0"),
    ("SUM with a matrix for k", "1 2 1 1 2 0 2 1 101 3 1 1 1"),
    ("SPLIT with a matrix", "1 2 2 1 2 0 0 2 1 101 5 1 1"),
    (
        "a step that does not fit before one that is not allowed",
        "0 3 1 101 5 4 101 1 101",
    ),
    // Question 6.
    (
        "SUM with a matrix of p = 2",
        "1 2 2 2 2 0 0 0 1 2 1 101 3 1 1 0",
    ),
    (
        "SUM, levels not served",
        "1 2 2 2 2 0 0 0 1 2 1 102 3 1 1 0",
    ),
    ("SUM, p served twice", "1 2 2 2 2 0 0 0 1 2 1 101 3 2 1 1 0"),
    (
        "SUM, matrices of 2 and 1 rows",
        "2 2 2 1 2 0 1 2 1 1 3 0 2 1 101 3 2 1 2 0",
    ),
    (
        "SUM, k of 4 runs for 2 rows",
        "1 2 2 2 2 0 0 0 1 2 1 101 3 1 1 101",
    ),
    (
        "SUM, k of 4 runs for 4 rows",
        "1 2 4 1 2 0 1 0 1 2 1 101 3 1 1 101",
    ),
    (
        "SUM, a matrix that serves no column",
        "2 2 1 1 2 1 2 1 1 3 2 2 1 101 3 2 2 1 0",
    ),
    ("MERGE with p = 3", "0 2 1 102 4 3 2 1 3 4"),
    ("MERGE, column 4 of 3", "0 2 1 101 4 2 1 2 4"),
    ("MERGE, a column twice", "0 2 1 101 4 2 1 2 1"),
    (
        "MERGE, a column of 3 levels with p = 2",
        "0 2 1 103 4 2 1 2 3",
    ),
    (
        "SPLIT of the 6 levels of 104",
        "1 1 6 2 3 2 0 0 0 1 1 0 1 1 2 0 2 1 2 1 104 5 1 1",
    ),
    ("SPLIT, column 4 of 3", "0 2 1 101 5 4 101"),
    ("SPLIT, 4 runs for 2 levels", "0 2 1 101 5 1 101"),
    // Question 7.
    (
        "MERGE, column 3 is not the sum of 1 and 2",
        "1 1 8 3 2 2 2 0 0 0 0 0 1 0 1 0 0 1 1 1 0 0 1 0 1 1 1 0 1 1 1 2 1 1 4 2 1 2 3",
    ),
    ("MERGE, columns 2, 3 and 4 of 103", "0 2 1 103 4 2 2 3 4"),
    ("MERGE with p = 3, member 4", "0 2 1 102 4 3 1 2 3 4"),
];

/// Every kind of step in two orders, the three later kinds in different turns.
pub const FIVE_KINDS: &[(&str, &str)] = &[
    // 101 and a matrix of 2 rows make 7 columns of 2 levels; columns 1, 3 and 5 merge to 4 levels,
    // and these are split into 3 columns again.
    (
        "TAKE, SUM, MERGE, SPLIT",
        "2 2 2 2 2 0 0 0 1 1 2 1 2 0 1 4 1 101 3 1 1 2 4 2 1 3 5 5 1 101",
    ),
    // The three columns of the generator merge to 4 levels; a matrix of 4 rows makes them 2 columns
    // and 101 is adjoined; the second is split.
    (
        "FIELD, MERGE, SUM, SPLIT",
        "2 3 2 3 2 1 1 1 1 0 1 0 1 1 2 4 2 4 0 0 0 1 0 2 0 3 4 2 1 4 2 1 2 3 3 1 2 101 5 2 101",
    ),
];

/// The spare after each kind of step; 02, K1.
pub const SPARE: &[(&str, &str)] = &[
    ("TAKE of 102, which is saturated", "0 1 1 102"),
    ("TAKE of 103, spare 5", "0 1 1 103"),
    ("FIELD of one factor, spare 2", "1 3 2 1 2 1 1 0 1 2 1"),
    // 4 runs of one column, spare 2, and a matrix of 2 rows and 2 columns.
    (
        "SUM without k, spare 2 to 5",
        "2 1 4 1 2 0 0 1 1 2 2 2 2 0 0 0 1 2 1 1 3 1 2 0",
    ),
    (
        "SUM with a k of one column, spare 2 to 4",
        "3 1 4 1 2 0 0 1 1 2 2 2 2 0 0 0 1 1 2 1 2 0 1 2 1 1 3 1 2 3",
    ),
    // 6 runs of 2 and 3 levels, and for each level count a matrix of 2 rows and one column.
    (
        "SUM on two level counts, spare 2 to 8",
        "3 1 6 2 2 3 0 0 0 1 0 2 1 0 1 1 1 2 2 2 1 2 0 1 2 2 1 3 0 1 2 1 1 3 2 2 3 0",
    ),
    // Generators whose factors are zero in their last coordinate, so that each run stands there 2
    // or 3 times.
    (
        "MERGE with p = 2, spare 4 as before",
        "1 3 3 3 2 1 1 1 1 0 1 0 1 1 0 0 0 2 2 1 4 2 1 2 3",
    ),
    (
        "MERGE with p = 3, spare 18 as before",
        "1 3 3 4 3 1 1 1 1 1 0 1 1 0 1 1 2 0 0 0 0 2 2 1 4 3 1 2 3 4",
    ),
    (
        "SPLIT by a table of one column, spare 0 to 2",
        "2 1 4 1 4 0 1 2 3 1 4 1 2 0 0 1 1 2 1 1 5 1 2",
    ),
    (
        "SPLIT by 101, spare 4 as before",
        "1 3 3 1 2 2 1 0 0 1 0 0 2 2 1 5 1 101",
    ),
    (
        "SPLIT by 103, spare 0 to 5",
        "1 1 12 1 12 0 1 2 3 4 5 6 7 8 9 10 11 2 1 1 5 1 103",
    ),
    (
        "SPLIT by 104, spare 0 to 4",
        "1 1 12 1 12 0 1 2 3 4 5 6 7 8 9 10 11 2 1 1 5 1 104",
    ),
    (
        "FIELD, SUM, MERGE, SPLIT, spare 4, 9, 9, 11",
        "3 3 3 3 2 1 1 1 1 0 1 0 1 1 0 0 0 2 2 2 2 0 0 0 1 1 4 1 2 0 0 1 1 4 2 1 3 1 2 0 4 2 1 3 5 5 1 3",
    ),
    // 101 and a matrix of 2 rows and one column; then 4 runs of one column, which is h too.
    (
        "CROSS without k, spare 0 to 1",
        "1 2 2 1 2 0 1 2 1 101 6 1 1 0 101",
    ),
    (
        "CROSS with a k of one column, spare 0 as before",
        "2 2 2 1 2 0 1 1 2 1 2 1 0 2 1 101 6 1 1 2 101",
    ),
    (
        "CROSS with an h of one column, spare 2 to 5",
        "2 1 4 1 2 0 0 1 1 2 2 1 2 0 1 2 1 1 6 1 2 0 1",
    ),
];

/// Fields of 4, 8 and 9 in the matrices; 02, K2.
pub const FIELDS: &[(&str, &str)] = &[
    (
        "p = 4, rows 0000 0123 0231 0312",
        "2 1 4 1 4 0 1 2 3 2 4 4 4 0 0 0 0 0 1 2 3 0 2 3 1 0 3 1 2 2 1 1 3 1 2 1",
    ),
    // Matrices built on modulo 4. Where they pass, the sums are the field's all the same.
    (
        "p = 4, rows 00 01 02 03, even modulo 4 too",
        "2 1 4 1 4 0 1 2 3 2 4 2 4 0 0 0 1 0 2 0 3 2 1 1 3 1 2 0",
    ),
    (
        "p = 4, rows 00 12 02 03, even modulo 4 alone",
        "1 2 4 2 4 0 0 1 2 0 2 0 3 1 1 101",
    ),
    // Twice 0000, and 0 before each order of 1, 2 and 3.
    (
        "p = 4, 8 rows of 4 columns, even modulo 4 too",
        "2 1 4 1 4 0 1 2 3 2 8 4 4 0 0 0 0 0 0 0 0 0 1 2 3 0 1 3 2 0 2 1 3 0 2 3 1 0 3 1 2 0 3 2 1 2 1 1 3 1 2 0",
    ),
    (
        "p = 4, 8 rows of 3 columns, even modulo 4 alone",
        "1 2 8 3 4 0 0 0 0 0 1 0 1 0 0 1 3 0 2 2 0 2 3 0 3 1 0 3 2 1 1 101",
    ),
    (
        "p = 8, even modulo 8 alone",
        "1 2 8 2 8 0 0 1 2 0 2 0 3 0 4 0 5 0 6 0 7 1 1 101",
    ),
    (
        "p = 9, even modulo 9 alone",
        "1 2 9 2 9 0 0 2 3 0 2 0 3 0 4 0 5 0 6 0 7 0 8 1 1 101",
    ),
    // First minus second is 0 6 1 6 8 7 3 5 4, without 2. Second minus first would be without 1, the
    // sum has 0 twice, and modulo 9 the lowest that fails would be 6.
    (
        "p = 9, first minus second",
        "1 2 9 2 9 0 0 3 6 0 2 0 3 0 4 0 5 0 6 0 7 0 8 1 1 101",
    ),
    // Each column has the sum of its own level count. For 2, 4 and 2 levels the two matrices have 4
    // rows and 4 columns, in the other orders one of each.
    (
        "SUM on 2, 4 and 2 levels",
        "3 1 8 3 2 4 2 0 0 0 1 0 1 0 1 0 1 1 1 0 2 1 1 2 0 0 3 1 1 3 0 2 4 4 4 0 0 0 0 0 1 2 3 0 2 3 1 0 3 1 2 2 4 4 2 0 0 0 0 0 1 0 1 0 0 1 1 0 1 1 0 2 1 1 3 2 2 3 0",
    ),
    (
        "SUM on 8 and 4 levels",
        "3 3 5 2 2 3 2 1 0 0 0 0 0 1 0 0 0 0 0 1 0 0 0 0 0 1 0 0 0 0 0 1 2 1 1 8 5 2 1 1 4 3 2 2 1 3 2 2 3 0",
    ),
    (
        "SUM on 9 and 3 levels",
        "3 3 3 2 3 2 1 1 0 0 0 1 0 0 0 1 2 1 1 9 5 2 1 1 3 2 2 2 1 3 2 2 3 0",
    ),
    (
        "SUM on 16 and 4 levels",
        "3 3 6 2 2 4 2 1 0 0 0 0 0 0 1 0 0 0 0 0 0 1 0 0 0 0 0 0 1 0 0 0 0 0 0 1 0 0 0 0 0 0 1 2 1 1 16 7 2 1 1 4 3 2 2 1 3 2 2 3 0",
    ),
    // MERGE stays modulo p.
    (
        "MERGE modulo 2, then SUM over GF(4)",
        "1 2 4 4 4 0 0 0 0 0 1 2 3 0 2 3 1 0 3 1 2 3 1 101 4 2 1 2 3 3 1 1 101",
    ),
    (
        "MERGE modulo 3, then SUM over GF(9)",
        "1 2 9 3 9 0 0 0 0 1 3 0 2 6 0 3 2 0 4 5 0 5 8 0 6 1 0 7 4 0 8 7 3 1 102 4 3 2 1 3 4 3 1 1 102",
    ),
    // The members are the first digits of x, y and x + y, and for p = 9 of x + 2y too: digits of the
    // field's sums are sums modulo 2 or 3, where a carry would make them no sums.
    (
        "SUM over GF(4), then SPLIT and MERGE modulo 2",
        "2 1 4 1 4 0 1 2 3 2 4 2 4 0 0 0 1 0 2 0 3 6 1 1 3 1 2 1 5 3 101 5 2 101 5 1 101 4 2 1 7 4",
    ),
    (
        "SUM over GF(9), then SPLIT and MERGE modulo 3",
        "2 1 9 1 9 0 1 2 3 4 5 6 7 8 2 9 3 9 0 0 0 0 1 2 0 2 1 0 3 6 0 4 8 0 5 7 0 6 3 0 7 5 0 8 4 7 1 1 3 1 2 1 5 4 102 5 3 102 5 2 102 5 1 102 4 3 1 13 5 9",
    ),
];

/// Texts whose words are not all plain numbers.
pub const WORDS: &[(&str, &str)] = &[
    ("leading zeros, s = 007", "1 3 1 1 007 1 1 1 2 1"),
    (
        "many leading zeros",
        "0 1 1 00000000000000000000000000000101",
    ),
    ("tabs between words", "0\t1 1\t101"),
    ("two spaces between words", "0 1  1 101"),
    ("a word that is a letter", "0 1 1 101 x"),
    ("a word with a letter", "0 1 1 101a"),
    ("a word with a sign", "0 1 1 +101"),
    ("65536 for an entry", "1 3 1 1 2 1 65536 1 2 1"),
    // A number of 16, 32 or 64 bits that drops what passes them would be 101.
    ("101 plus 2^16", "0 1 1 65637"),
    ("101 plus 2^32", "0 1 1 4294967397"),
    ("101 plus 2^64", "0 1 1 18446744073709551717"),
    // Words are looked at before the list is tried.
    ("65536 after a number out of its limits", "33 1 65536"),
    ("65535 after a number out of its limits", "33 1 65535"),
];
