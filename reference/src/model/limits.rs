//! The limits of document 01, each said once.

/// "Make eleven the limit, and 10 the highest controller in a rule"; also "The
/// full size of lent mask space is eleven masks" (document 02).
pub const CONTROLLERS: usize = 11;
/// "Run marks are three hexadecimal digits where C is above 8 and two otherwise".
pub const TWO_DIGIT_CONTROLLERS: usize = 8;
/// "N states (1 to 128)"; also the 128 states of lent space.
pub const STATES: usize = 128;
/// The 128 places of lent space.
pub const PLACES: usize = 128;
/// "A state is a word of 32 atoms".
pub const ATOMS: usize = 32;
/// "1 to 64 nodes; the last is the rule".
pub const RULE_NODES: usize = 64;
/// "a table of 1 to 1,024 nodes of all ten kinds".
pub const TABLE_NODES: usize = 1024;
/// "1,024 bytes of rule text".
pub const RULE_TEXT: usize = 1024;
/// Words of one row pair: low, high and count, for weak and for strong.
pub const PAIR_WORDS: usize = 6;
/// Words of the 1,024 row pairs of lent space.
pub const ROW_WORDS: usize = TABLE_NODES * PAIR_WORDS;
/// "14 over 16,384 bytes".
pub const PROGRAM_INPUT: usize = 16384;
/// "15, over 1,024 bytes": a rule in one line.
pub const LINE_BYTES: usize = 1024;
/// "at most 16 deep".
pub const OPEN_BRACKETS: usize = 16;
/// "Lent space for fewer than 8,192 pairs is refused with 13."
pub const PAIRS: usize = 8192;
/// "a recording may have up to 8 lines `gauge`".
pub const GAUGES: usize = 8;
/// "Thresholds and values are signed, from -327.68": in hundredths.
pub const LEAST: i128 = -32768;
/// "to 327.67": in hundredths.
pub const MOST: i128 = 32767;
/// "The full size of the lent space is 8,192 bytes either way": archive texts.
pub const ARCHIVE_BYTES: usize = 8192;
