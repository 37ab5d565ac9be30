//! The numbers of document 01's table of refused inputs, and those that document 02 adds.

/// The plan is empty or over 2,048 bytes.
pub const PLAN_LENGTH: u32 = 1;
/// A byte where a command should begin is no command's.
pub const UNKNOWN_OPCODE: u32 = 2;
/// A command's operands pass the plan's end.
pub const OPERANDS_CUT: u32 = 3;
/// A command names a cell that doesn't exist.
pub const NO_SUCH_CELL: u32 = 4;
/// A table has length 0 or passes the last cell.
pub const BAD_TABLE: u32 = 5;
/// Over 512 instructions, or over 64 of them EXCLUDE.
pub const TOO_MANY: u32 = 6;
/// No instruction, or the last is neither END nor JUMP.
pub const BAD_LAST_INSTRUCTION: u32 = 7;
/// A jump's target isn't the offset of an instruction.
pub const BAD_TARGET: u32 = 8;
/// A word buffer is too short.
pub const BUFFER_TOO_SHORT: u32 = 9;
/// The state is not sound.
pub const STATE_NOT_SOUND: u32 = 10;
/// The chip is over 65,536 bytes, or is not a number of whole pages.
pub const CHIP_LENGTH: u32 = 11;
/// The chip is damaged.
pub const CHIP_DAMAGED: u32 = 12;
/// The new chip of a fold is other than so many bytes of the save and then FF.
pub const NEW_CHIP_DIFFERS: u32 = 13;
/// The save of a fold is longer than the new chip.
pub const SAVE_TOO_LONG: u32 = 14;
/// Every mark of the chip is A2: it is an old one, to be folded.
pub const OLD_MARKS: u32 = 15;
/// A whole mark names another plan, by its length or sum.
pub const OTHER_PLAN: u32 = 16;
