//! The calendar: on which day each month of the century begins, and of the next, where windows can end by their length.

/// The last entry of the month table: the day after the century's last.
pub const LAST: usize = 1200;

/// Entry k is the first day of month k; those past the table's last go on by the calendar.
pub fn month_starts() -> Vec<usize> {
    let mut starts = vec![0];
    for year in 2000..2200usize {
        let leap = year % 4 == 0 && (year % 100 != 0 || year % 400 == 0);
        for length in [31, if leap { 29 } else { 28 }, 31, 30, 31, 30, 31, 31, 30, 31, 30, 31] {
            starts.push(starts[starts.len() - 1] + length);
        }
    }
    starts
}
