//! Texts of k = 32 whose product meets more pairs of nodes than a small memo holds.
//!
//! A text is `(part);(middle);(part)`. The part tests that the last field it uses is 0 and sets it to 1; then, for each of the fields 0 to `steps` - 1
//! that is 1, it toggles one of the `bits` fields after these. The middle gives the fields 0 to `steps` - 1 any values. So a node of the part that stands
//! after some of these fields says which fields are toggled so far, and there are 2^`bits` of them. What the second part toggles does not depend on the
//! first, because of the middle, so at most levels the product meets all 2^`bits` * 2^`bits` pairs, each of them with four pairs below it. No packet
//! passes both parts: the first sets to 1 what the second tests to be 0. But that is the last field, so no pair is settled before it. Where the memo has
//! lost a pair that is met again, all that is below it is done again, and so from level to level: the time is multiplied at each.

/// The text with this many steps and toggled fields; their sum is at most 31.
pub fn text(steps: u32, bits: u32) -> String {
    let part = part(steps, bits);
    let free: Vec<String> = (0..steps).rev().map(|x| format!("(x{x}:=0+x{x}:=1)")).collect();
    format!("({part});({});({part})", free.join(";"))
}

fn part(steps: u32, bits: u32) -> String {
    let last = steps + bits;
    let mut part = format!("x{last}=0;x{last}:=1");
    for x in (0..steps).rev() {
        // 5 shares no divisor with 6 or 7, so every field has its turn.
        let y = steps + x * 5 % bits;
        part += &format!(";(x{x}=0+x{x}=1;(x{y}=0;x{y}:=1+x{y}=1;x{y}:=0))");
    }
    part
}
