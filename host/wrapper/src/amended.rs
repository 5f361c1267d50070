//! Amendments tried before they are signed: a standing plan's blocks and a sheet of 1 to 8 blocks of its guests, in
//! any order, each with its guest's place in the plan. What is answered is that of the plan with those blocks
//! replaced; neither the plan nor the sheet is written.

use crate::{BLOCK, GuestVerdict, Located, Refusal, TaskVerdict, exports};

/// Something of the standing plan, or of the amendment sheet.
#[derive(Clone, Copy, Debug, PartialEq, Eq)]
pub enum Of<T> {
    Plan(T),
    Sheet(T),
}

/// The place of a guest's block in the plan, or its position in the sheet if that has one for the guest; or the
/// refusal of the one or the other.
///
/// ```
/// use coreshare::{BLOCK, Guest, Of, Refusal, amended_find};
///
/// let (mut plan, mut sheet) = ([0; 2 * BLOCK], [0; BLOCK]);
/// Guest::new(7, 2, 5, &[[1, 20, 20]]).write(0, &mut plan)?;
/// Guest::new(9, 8, 20, &[[10, 50, 50]]).write(1, &mut plan[BLOCK..])?;
/// Guest::new(9, 7, 20, &[[10, 50, 50]]).write(1, &mut sheet)?;
/// assert_eq!(amended_find(&plan, &sheet, 7), Ok(Of::Plan(0)));
/// assert_eq!(amended_find(&plan, &sheet, 9), Ok(Of::Sheet(0)));
/// let no_guest = Refusal { number: 7, place: 0 };
/// assert_eq!(amended_find(&plan, &sheet, 8), Err(Of::Plan(no_guest)));
/// let not_its_place = Refusal { number: 16, place: 0 };
/// Guest::new(9, 7, 20, &[[10, 50, 50]]).write(0, &mut sheet)?;
/// assert_eq!(amended_find(&plan, &sheet, 9), Err(Of::Sheet(not_its_place)));
/// # Ok::<(), coreshare::Refusal>(())
/// ```
pub fn amended_find(plan: &[u8], sheet: &[u8], id: u32) -> Result<Of<usize>, Of<Refusal>> {
    let located = exports::amended_find(plan, sheet, id);
    match located.refusal().or(located.place as usize) {
        Ok(place) => Ok(located.of(place)),
        Err(refusal) => Err(located.of(refusal)),
    }
}

/// The guest's block as it stands in the lent sheet if that has one for the guest, otherwise in the lent plan.
///
/// ```
/// use coreshare::{BLOCK, Guest, amended_block};
///
/// let (mut plan, mut sheet) = ([0; 2 * BLOCK], [0; BLOCK]);
/// Guest::new(7, 2, 5, &[[1, 20, 20]]).write(0, &mut plan)?;
/// Guest::new(9, 8, 20, &[[10, 50, 50]]).write(1, &mut plan[BLOCK..])?;
/// Guest::new(9, 7, 20, &[[10, 50, 50]]).write(1, &mut sheet)?;
/// assert_eq!(amended_block(&plan, &sheet, 7)?, &plan[..BLOCK]);
/// assert_eq!(amended_block(&plan, &sheet, 9)?, &sheet);
/// assert_eq!(amended_block(&plan, &sheet, 8).unwrap_err().number, 7);
/// # Ok::<(), coreshare::Refusal>(())
/// ```
pub fn amended_block<'a>(plan: &'a [u8], sheet: &'a [u8], id: u32) -> Result<&'a [u8], Refusal> {
    let (lent, place) = match amended_find(plan, sheet, id) {
        Ok(Of::Plan(place)) => (plan, place),
        Ok(Of::Sheet(position)) => (sheet, position),
        Err(Of::Plan(refusal) | Of::Sheet(refusal)) => return Err(refusal),
    };
    Ok(&lent[BLOCK * place..BLOCK * (place + 1)])
}

/// The verdict of the guest with this id, in the plan with the sheet's blocks replaced.
///
/// ```
/// use coreshare::{BLOCK, Guest, GuestVerdict, amended_guest_verdict};
///
/// let (mut plan, mut sheet) = ([0; 2 * BLOCK], [0; BLOCK]);
/// Guest::new(1, 2, 5, &[[1, 20, 20]]).write(0, &mut plan)?;
/// Guest::new(2, 3, 6, &[[1, 20, 20]]).write(1, &mut plan[BLOCK..])?;
/// Guest::new(2, 4, 6, &[[1, 20, 20]]).write(1, &mut sheet)?;
/// assert_eq!(amended_guest_verdict(&plan, &sheet, 2), Ok(GuestVerdict::Unfit));
/// assert_eq!(amended_guest_verdict(&plan, &sheet, 1), Ok(GuestVerdict::Fitted(2)));
/// assert_eq!(amended_guest_verdict(&plan, &[], 2).unwrap_err().number, 1);
/// # Ok::<(), coreshare::Refusal>(())
/// ```
pub fn amended_guest_verdict(plan: &[u8], sheet: &[u8], id: u32) -> Result<GuestVerdict, Refusal> {
    exports::amended_guest_verdict(plan, sheet, id).of_guest()
}

/// The verdict of a task of the guest with this id, in the plan with the sheet's blocks replaced; tasks are
/// numbered from 1.
///
/// ```
/// use coreshare::{BLOCK, Guest, TaskVerdict, amended_task_verdict};
///
/// let (mut plan, mut sheet) = ([0; 2 * BLOCK], [0; BLOCK]);
/// let tasks = [[10, 50, 50], [8, 100, 100]];
/// Guest::new(7, 2, 5, &[[1, 20, 20]]).write(0, &mut plan)?;
/// Guest::new(9, 8, 20, &tasks).write(1, &mut plan[BLOCK..])?;
/// Guest::new(9, 7, 20, &tasks).write(1, &mut sheet)?;
/// assert_eq!(amended_task_verdict(&plan, &sheet, 9, 1), Ok(TaskVerdict::Met(38)));
/// assert_eq!(amended_task_verdict(&plan, &sheet, 9, 2), Ok(TaskVerdict::Met(86)));
/// assert_eq!(amended_task_verdict(&plan, &sheet, 9, 3).unwrap_err().number, 8);
/// # Ok::<(), coreshare::Refusal>(())
/// ```
pub fn amended_task_verdict(
    plan: &[u8],
    sheet: &[u8],
    id: u32,
    task: u32,
) -> Result<TaskVerdict, Refusal> {
    exports::amended_task_verdict(plan, sheet, id, task).of_task()
}

/// Whether all guests are fitted and all tasks met, in the plan with the sheet's blocks replaced.
///
/// ```
/// use coreshare::{BLOCK, Guest, amended_accept};
///
/// let (mut plan, mut sheet) = ([0; BLOCK], [0; BLOCK]);
/// Guest::new(7, 2, 5, &[[1, 20, 4]]).write(0, &mut plan)?;
/// Guest::new(7, 2, 5, &[[1, 20, 3]]).write(0, &mut sheet)?;
/// assert_eq!(amended_accept(&plan, &plan), Ok(true));
/// assert_eq!(amended_accept(&plan, &sheet), Ok(false));
/// # Ok::<(), coreshare::Refusal>(())
/// ```
pub fn amended_accept(plan: &[u8], sheet: &[u8]) -> Result<bool, Refusal> {
    exports::amended_accept(plan, sheet).of_plan()
}

/// The smallest capacity at which the guest with this id is fitted and all its tasks are met, in the plan with the
/// sheet's blocks replaced.
///
/// ```
/// use coreshare::{BLOCK, Guest, amended_smallest_capacity};
///
/// let (mut plan, mut sheet) = ([0; 2 * BLOCK], [0; BLOCK]);
/// Guest::new(7, 2, 5, &[[1, 20, 20]]).write(0, &mut plan)?;
/// Guest::new(9, 8, 20, &[[10, 50, 50], [8, 100, 100]]).write(1, &mut plan[BLOCK..])?;
/// Guest::new(9, 1, 6, &[[4, 6, 6]]).write(1, &mut sheet)?;
/// assert_eq!(amended_smallest_capacity(&plan, &plan, 9), Ok(7));
/// assert_eq!(amended_smallest_capacity(&plan, &sheet, 9).unwrap_err().number, 11);
/// # Ok::<(), coreshare::Refusal>(())
/// ```
pub fn amended_smallest_capacity(plan: &[u8], sheet: &[u8], id: u32) -> Result<u32, Refusal> {
    exports::amended_smallest_capacity(plan, sheet, id).of_capacity()
}

impl Located {
    fn refusal(self) -> Refusal {
        Refusal {
            number: self.number,
            place: self.place,
        }
    }

    /// The value as one of the sheet or of the plan, whichever this names.
    fn of<T>(self, value: T) -> Of<T> {
        match self.sheet {
            1 => Of::Sheet(value),
            _ => Of::Plan(value),
        }
    }
}
