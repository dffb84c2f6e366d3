//! The declarations of `c/dushemqa.h` once more, and calls over slices in place of pointers and lengths.

/// "ever" as a value or a worth; "-" as a choice, a step or a highest value; no report of a lane.
pub const NONE: u16 = 65_535;

#[repr(C)]
#[derive(Clone, Copy, Debug, Default, PartialEq, Eq)]
pub struct Refusal {
    pub number: u32,
    pub line: usize,
    pub position: usize,
    pub condition: u8,
}

#[repr(C)]
#[derive(Clone, Copy, Debug, Default, PartialEq, Eq)]
pub struct Valued {
    pub refusal: Refusal,
    pub rounds: u16,
}

#[repr(C)]
#[derive(Clone, Copy, Debug, Default, PartialEq, Eq)]
pub struct Written {
    pub refusal: Refusal,
    pub length: usize,
}

#[repr(C)]
#[derive(Clone, Copy, Debug, Default, PartialEq, Eq)]
pub struct FirstLine {
    pub rounds: u16,
    pub highest: u16,
    pub evers: u16,
}

#[repr(C)]
#[derive(Clone, Copy, Debug, Default, PartialEq, Eq)]
pub struct Reading {
    pub refusal: Refusal,
    pub first_line: FirstLine,
}

/// `agree` is C's `bool`. It is a byte here, so that a byte other than 0 and 1 would show as a mismatch.
#[repr(C)]
#[derive(Clone, Copy, Debug, Default, PartialEq, Eq)]
pub struct Compared {
    pub refusal: Refusal,
    pub agree: u8,
    pub position: usize,
    pub value: u16,
    pub worth: u16,
}

#[repr(C)]
#[derive(Clone, Copy, Debug, Default, PartialEq, Eq)]
pub struct Run {
    pub position: usize,
    pub seen: u32,
    pub initial: u16,
    pub value: u16,
}

impl Run {
    /// No run: what a refused start hands back. It stands on no chart, so a report of it gives 13.
    pub const NONE: Run = Run { position: usize::MAX, seen: 0, initial: 0, value: 0 };
}

#[repr(C)]
#[derive(Clone, Copy, Debug, Default, PartialEq, Eq)]
pub struct Advice {
    pub choice: u16,
    pub value: u16,
}

#[repr(C)]
#[derive(Clone, Copy, Debug, Default, PartialEq, Eq)]
pub struct Step {
    pub refusal: Refusal,
    pub run: Run,
    pub advice: Advice,
}

#[repr(C)]
#[derive(Clone, Copy, Debug, Default, PartialEq, Eq)]
pub struct Listed {
    pub refusal: Refusal,
    pub lines: usize,
}

#[repr(C)]
#[derive(Clone, Copy, Debug, Default, PartialEq, Eq)]
pub struct House {
    pub refusal: Refusal,
    pub lane: usize,
    pub moved: usize,
}

#[repr(C)]
#[derive(Clone, Copy, Debug, Default, PartialEq, Eq)]
pub struct Indexed {
    pub refusal: Refusal,
    pub index: usize,
}

/// A way of Valuing: the chart, and the rows for values, choices and steps.
pub type Valuing = fn(&[u8], &mut [u16], &mut [u16], &mut [u16]) -> Valued;

#[rustfmt::skip]
extern "C" {
    fn dushemqa_value(chart: *const u8, chart_length: usize, values: *mut u16, values_length: usize,
                      choices: *mut u16, choices_length: usize, steps: *mut u16, steps_length: usize) -> Valued;
    fn dushemqa_value_plain(chart: *const u8, chart_length: usize, values: *mut u16, values_length: usize,
                            choices: *mut u16, choices_length: usize, steps: *mut u16, steps_length: usize) -> Valued;
    fn dushemqa_write(chart: *const u8, chart_length: usize, plate: *mut u8, plate_length: usize) -> Written;
    fn dushemqa_read(chart: *const u8, chart_length: usize, plate: *const u8, plate_length: usize,
                     values: *mut u16, values_length: usize, choices: *mut u16, choices_length: usize,
                     steps: *mut u16, steps_length: usize) -> Reading;
    fn dushemqa_check(chart: *const u8, chart_length: usize, plate: *const u8, plate_length: usize) -> Refusal;
    fn dushemqa_weigh(chart: *const u8, chart_length: usize, choices: *const u16, choices_length: usize,
                      worths: *mut u16, worths_length: usize) -> Refusal;
    fn dushemqa_compare(chart: *const u8, chart_length: usize, plate: *const u8, plate_length: usize,
                        choices: *const u16, choices_length: usize) -> Compared;
    fn dushemqa_start(chart: *const u8, chart_length: usize, plate: *const u8, plate_length: usize,
                      position: usize) -> Step;
    fn dushemqa_report(run: Run, chart: *const u8, chart_length: usize, plate: *const u8, plate_length: usize,
                       to: usize) -> Step;
    fn dushemqa_good_moves(chart: *const u8, chart_length: usize, sheet: *mut u8, sheet_length: usize) -> Listed;
    fn dushemqa_ruin(chart: *const u8, chart_length: usize, choices: *const u16, choices_length: usize,
                     position: usize, sheet: *mut u8, sheet_length: usize) -> Listed;
    fn dushemqa_report_house(runs: *mut Run, runs_length: usize, reports: *const u16, reports_length: usize,
                             chart: *const u8, chart_length: usize, plate: *const u8, plate_length: usize) -> House;
    fn dushemqa_small_chart(positions: usize, index: usize, chart: *mut u8, chart_length: usize) -> Written;
    fn dushemqa_small_index(chart: *const u8, chart_length: usize) -> Indexed;
}

// In each call below a slice gives a pointer that is not null, as many elements as its length says, and, where it is
// `&mut`, memory that nothing else uses. That is all the header asks for.

pub fn value(chart: &[u8], values: &mut [u16], choices: &mut [u16], steps: &mut [u16]) -> Valued {
    unsafe {
        dushemqa_value(
            chart.as_ptr(),
            chart.len(),
            values.as_mut_ptr(),
            values.len(),
            choices.as_mut_ptr(),
            choices.len(),
            steps.as_mut_ptr(),
            steps.len(),
        )
    }
}

pub fn value_plain(chart: &[u8], values: &mut [u16], choices: &mut [u16], steps: &mut [u16]) -> Valued {
    unsafe {
        dushemqa_value_plain(
            chart.as_ptr(),
            chart.len(),
            values.as_mut_ptr(),
            values.len(),
            choices.as_mut_ptr(),
            choices.len(),
            steps.as_mut_ptr(),
            steps.len(),
        )
    }
}

pub fn write(chart: &[u8], plate: &mut [u8]) -> Written {
    unsafe { dushemqa_write(chart.as_ptr(), chart.len(), plate.as_mut_ptr(), plate.len()) }
}

pub fn read(chart: &[u8], plate: &[u8], values: &mut [u16], choices: &mut [u16], steps: &mut [u16]) -> Reading {
    unsafe {
        dushemqa_read(
            chart.as_ptr(),
            chart.len(),
            plate.as_ptr(),
            plate.len(),
            values.as_mut_ptr(),
            values.len(),
            choices.as_mut_ptr(),
            choices.len(),
            steps.as_mut_ptr(),
            steps.len(),
        )
    }
}

pub fn check(chart: &[u8], plate: &[u8]) -> Refusal {
    unsafe { dushemqa_check(chart.as_ptr(), chart.len(), plate.as_ptr(), plate.len()) }
}

pub fn weigh(chart: &[u8], choices: &[u16], worths: &mut [u16]) -> Refusal {
    unsafe {
        dushemqa_weigh(chart.as_ptr(), chart.len(), choices.as_ptr(), choices.len(), worths.as_mut_ptr(), worths.len())
    }
}

pub fn compare(chart: &[u8], plate: &[u8], choices: &[u16]) -> Compared {
    unsafe {
        dushemqa_compare(chart.as_ptr(), chart.len(), plate.as_ptr(), plate.len(), choices.as_ptr(), choices.len())
    }
}

pub fn start(chart: &[u8], plate: &[u8], position: usize) -> Step {
    unsafe { dushemqa_start(chart.as_ptr(), chart.len(), plate.as_ptr(), plate.len(), position) }
}

pub fn report(run: Run, chart: &[u8], plate: &[u8], to: usize) -> Step {
    unsafe { dushemqa_report(run, chart.as_ptr(), chart.len(), plate.as_ptr(), plate.len(), to) }
}

pub fn good_moves(chart: &[u8], sheet: &mut [u8]) -> Listed {
    unsafe { dushemqa_good_moves(chart.as_ptr(), chart.len(), sheet.as_mut_ptr(), sheet.len()) }
}

pub fn ruin(chart: &[u8], choices: &[u16], position: usize, sheet: &mut [u8]) -> Listed {
    unsafe {
        dushemqa_ruin(
            chart.as_ptr(),
            chart.len(),
            choices.as_ptr(),
            choices.len(),
            position,
            sheet.as_mut_ptr(),
            sheet.len(),
        )
    }
}

pub fn report_house(runs: &mut [Run], reports: &[u16], chart: &[u8], plate: &[u8]) -> House {
    unsafe {
        dushemqa_report_house(
            runs.as_mut_ptr(),
            runs.len(),
            reports.as_ptr(),
            reports.len(),
            chart.as_ptr(),
            chart.len(),
            plate.as_ptr(),
            plate.len(),
        )
    }
}

pub fn small_chart(positions: usize, index: usize, chart: &mut [u8]) -> Written {
    unsafe { dushemqa_small_chart(positions, index, chart.as_mut_ptr(), chart.len()) }
}

pub fn small_index(chart: &[u8]) -> Indexed {
    unsafe { dushemqa_small_index(chart.as_ptr(), chart.len()) }
}
