//! The refusal numbers of the table "Where a refusal is met".

/// A rule line isn't closed by byte 10 or isn't of its form.
pub const RULE_FORM: u8 = 1;
/// A count, controller, atom, kind, unused operand or top outside its limits.
pub const RULE_LIMIT: u8 = 2;
/// An operand that isn't an earlier node.
pub const OPERAND: u8 = 3;
/// A line of a rule, or a node of a table, is missing or too many.
pub const RULE_LINES: u8 = 4;
/// A recording line isn't closed by byte 10 or isn't of its form.
pub const RECORDING_FORM: u8 = 5;
/// A number of a recording outside its limits, or a run mark at C or above.
pub const RECORDING_LIMIT: u8 = 6;
/// A mask meets an earlier mask.
pub const MASKS_MEET: u8 = 7;
/// A line of a recording, or a mask or state, is missing or too many.
pub const RECORDING_LINES: u8 = 8;
/// The output rule is broken by the state before.
pub const OUTPUT_RULE: u8 = 10;
/// A controller isn't below C.
pub const CONTROLLER: u8 = 11;
/// Lent space is shorter than its full size.
pub const LENT_SPACE: u8 = 13;
/// The program's input is over its limit.
pub const PROGRAM_INPUT: u8 = 14;
/// A rule in one line is over its limit, or no sentence of the grammar.
pub const LINE_FORM: u8 = 15;
/// A rule in one line has over 16 brackets open at once.
pub const BRACKETS_DEEP: u8 = 16;
/// A state arrives in a session that holds 128.
pub const SESSION_FULL: u8 = 17;
/// A state is withdrawn from a session that holds none.
pub const SESSION_EMPTY: u8 = 18;
/// A second gauge for an atom.
pub const GAUGE_TWICE: u8 = 19;
/// A gauge's bit is already set in the word.
pub const GAUGE_SET: u8 = 20;
