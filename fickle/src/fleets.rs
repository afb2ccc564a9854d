//! Cost per label across a fleet: the labels of an ended run, and reports of many (document 02, §1).

use crate::answers::{unpack, unpack_report};
use crate::{c, Refusal};

/// Labels printed, and those of them that were spoiled afterwards.
#[derive(Clone, Copy, Debug, PartialEq, Eq)]
pub struct Labels {
    pub printed: u32,
    pub spoiled: u32,
}

/// Counts the labels of one ended run: objects that ended in class `printed` or below it, and those of them in class
/// `spoiled` or below. `rows` are the program's, `store` is what its run left and `objects` how many it made; what the
/// store holds beyond them is ignored. Refused with 18, line 1, where the program is refused, does not declare both classes
/// with `spoiled` strictly below `printed`, or lacks a class other than Object that the store holds, or where the store is
/// shorter.
///
/// ```
/// use fickle::{count_run, rows_of_text, Labels, Reason, Refusal};
/// // Class 1 is a root, class 2 a state below it.
/// let rows = rows_of_text(b"C\t1\t0\nC\t2\t1\nS\nB\t0\t1\nT\n")?;
/// let mut store = [0; 3 * 18];
/// (store[0], store[18], store[36]) = (1, 2, 1);
/// assert_eq!(count_run(&rows, &store, 3, 1, 2), Ok(Labels { printed: 3, spoiled: 1 }));
/// assert_eq!(count_run(&rows, &store, 3, 2, 1), Err(Refusal::new(Reason::Class, 1)));
/// # Ok::<(), Refusal>(())
/// ```
pub fn count_run(
    rows: &[u32],
    store: &[u32],
    objects: u32,
    printed: u32,
    spoiled: u32,
) -> Result<Labels, Refusal> {
    labels_of(c::fickle_count_run, rows, store, [objects, printed, spoiled])
}

/// Counts the labels of a run as `count_run` does, but from the store that a run of its plain program left: for each
/// Identity, the class of its present implementor. `rows` are the source's, and so are the two classes. Refused with 18,
/// line 1, also where an Identity has no implementor among the objects.
///
/// ```
/// use fickle::{count_plain_run, rows_of_text, Labels};
/// let rows = rows_of_text(b"C\t1\t0\nC\t2\t1\nS\nB\t0\t1\nT\n")?;
/// // The Identity's first field holds the second object, an implementor of source class 2.
/// let mut store = [0; 2 * 18];
/// (store[0], store[1], store[18], store[19]) = (1, 4, 4, 3);
/// assert_eq!(count_plain_run(&rows, &store, 2, 1, 2), Ok(Labels { printed: 1, spoiled: 1 }));
/// # Ok::<(), fickle::Refusal>(())
/// ```
pub fn count_plain_run(
    rows: &[u32],
    store: &[u32],
    objects: u32,
    printed: u32,
    spoiled: u32,
) -> Result<Labels, Refusal> {
    labels_of(c::fickle_count_plain_run, rows, store, [objects, printed, spoiled])
}

/// A C function that counts the labels of a run: rows, store, objects, the two classes, and where the counts go.
type CountRun =
    unsafe extern "C" fn(*const u32, usize, *const u32, usize, u32, u32, u32, *mut u32, *mut u32) -> u64;

fn labels_of(
    count: CountRun,
    rows: &[u32],
    store: &[u32],
    [objects, printed, spoiled]: [u32; 3],
) -> Result<Labels, Refusal> {
    let mut labels = Labels { printed: 0, spoiled: 0 };
    // SAFETY: pointers and lengths are those of live slices; the counts are lent to nobody else.
    let answer = unsafe {
        count(
            rows.as_ptr(),
            rows.len(),
            store.as_ptr(),
            store.len(),
            objects,
            printed,
            spoiled,
            &mut labels.printed,
            &mut labels.spoiled,
        )
    };
    unpack(answer).map(|_| labels)
}

/// Sums counted lines by model and writes their report: a line a model, by cents per good label. A counted line is four
/// numbers: model, printed, spoiled, cents. Returns how many bytes were written. Refusals, with the line's place from 1: 1
/// where more labels are spoiled than printed, 17 where a sum passes 4,000,000,000; 1, line 0, where the length is not a
/// multiple of 4; 13 last.
///
/// ```
/// let mut report = [0; 64];
/// let length = fickle::rank_models(&[7, 3, 0, 10, 8, 1, 0, 3, 7, 1, 1, 0], &mut report)?;
/// assert_eq!(report[..length], *b"8\t1\t0\t3\n7\t4\t1\t10\n");
/// # Ok::<(), fickle::Refusal>(())
/// ```
pub fn rank_models(counts: &[u32], report: &mut [u8]) -> Result<usize, Refusal> {
    let mut told = 0;
    // SAFETY: as above, and `report` is lent to nobody else.
    let number = unsafe {
        c::fickle_rank_models(counts.as_ptr(), counts.len(), report.as_mut_ptr(), report.len(), &mut told)
    };
    unpack_report(number, told)
}

/// Writes the report over a fleet of ended runs. A run is six numbers: model, count of rows, count of objects made, printed
/// class, spoiled class, cents; `programs` holds the rows of all runs one after another, `stores` their objects. Returns how
/// many bytes were written. Refusals, with the run's place from 1 as line: 18 as for `count_run`, 17 where the run takes one
/// of its model's sums past 4,000,000,000; 1, line 0, where the length of `runs` is not a multiple of 6; 13 last.
///
/// ```
/// let rows = fickle::rows_of_text(b"C\t1\t0\nC\t2\t1\nS\nB\t0\t1\nT\n")?;
/// let mut store = [0; 18];
/// store[0] = 1;
/// let mut report = [0; 64];
/// let length = fickle::report_fleet(&[7, 5, 1, 1, 2, 250], &rows, &store, &mut report)?;
/// assert_eq!(report[..length], *b"7\t1\t0\t250\n");
/// # Ok::<(), fickle::Refusal>(())
/// ```
pub fn report_fleet(
    runs: &[u32],
    programs: &[u32],
    stores: &[u32],
    report: &mut [u8],
) -> Result<usize, Refusal> {
    let mut told = 0;
    // SAFETY: as above.
    let number = unsafe {
        c::fickle_report_fleet(
            runs.as_ptr(),
            runs.len(),
            programs.as_ptr(),
            programs.len(),
            stores.as_ptr(),
            stores.len(),
            report.as_mut_ptr(),
            report.len(),
            &mut told,
        )
    };
    unpack_report(number, told)
}
