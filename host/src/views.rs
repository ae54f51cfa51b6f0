// A view of one of two stores, by what its calls say of each other: the refusal, the place, the part and the board that is copied out of
// the store chosen must fit, whatever the model says.

use crate::calls::{reply_of, Reply};
use crate::implementations::Calls;
use crate::layout::BOARD_BYTES;
use crate::model::choice::LIVE;

/// The operands of a view.
#[derive(Clone, Copy)]
pub struct Asked<'a> {
    pub live: &'a [u8],
    pub frozen: &'a [u8],
    pub console: u32,
    pub choice: u32,
}

impl<'a> Asked<'a> {
    pub fn part(self, calls: &Calls) -> &'a [u8] {
        (calls.view)(self.live, self.frozen, self.console, self.choice)
    }

    pub fn refusal(self, calls: &Calls) -> Reply {
        (calls.view_refusal)(self.live, self.frozen, self.console, self.choice)
    }

    pub fn place(self, calls: &Calls) -> Reply {
        (calls.view_at)(self.live, self.frozen, self.console, self.choice)
    }

    /// The store that an accepted view is of.
    fn chosen(self) -> &'a [u8] {
        if self.choice == LIVE {
            self.live
        } else {
            self.frozen
        }
    }
}

/// The part viewed, or the refusal, where the calls fit; else the difference in words.
pub fn check<'a>(calls: &Calls, asked: Asked<'a>) -> Result<Result<&'a [u8], u32>, String> {
    let part = asked.part(calls);
    let refusal = asked.refusal(calls);
    let place = asked.place(calls);
    if refusal.count != 0 || place.answer != refusal.answer {
        Err(format!("view differs: {refusal:?} and at {place:?}"))
    } else if refusal.answer == 0 {
        check_part(calls, asked, place, part)?;
        Ok(Ok(part))
    } else if place.count != 0 || !part.is_empty() {
        let length = part.len();
        Err(format!("view differs: {length} bytes, though {place:?}"))
    } else {
        Ok(Err(refusal.answer))
    }
}

/// The part of an accepted view lies in the store chosen, at its place, and is the board that is copied out there.
fn check_part(calls: &Calls, asked: Asked, place: Reply, part: &[u8]) -> Result<(), String> {
    let store = asked.chosen();
    let found = part.as_ptr().addr().wrapping_sub(store.as_ptr().addr());
    if found != place.count as usize || found + part.len() > store.len() {
        return Err(format!("view differs: at {found}, though {place:?}"));
    }
    let mut board = [0; BOARD_BYTES];
    let reply = (calls.board)(store, asked.console, &mut board);
    if reply == reply_of(Ok(BOARD_BYTES)) && part == board {
        Ok(())
    } else {
        Err(format!("view differs: not the board, {place:?}"))
    }
}
