//! The library's functions as they are in C, with a slice for each pointer and
//! count. Each answers 0 or a refusal's number; what each list holds stands at
//! the functions of the same names in the crate's root. [`playlist`] answers 256 × the place
//! of the programme that it refuses + the number.
//!
//! Calls are numbers, three a call: [`PIN`] or [`LIFT`], the unit, the choice,
//! which a lift does not look at. A call of another kind is refused with 2, then
//! a last call that is cut with 1, both right after the job's numbers, which come
//! first: 1 to 5, and of [`open`], [`calls`], [`plan`], [`playlist`], [`read`], [`set`] and all
//! that take a set but [`replay_set`] also 17. An aim that is neither [`TOTAL`] nor [`EVEN`] is
//! refused with 2 too, right after the job's numbers and before the calls', or after the set's
//! 6, and so is an order that is neither [`EARLY`] nor [`LATE`], right after the aim, or where
//! there is none in its place. A `values` list is one of those to be filled: where it is too
//! short, its 12 comes right after theirs.
//!
//! A set of pins is [`SET_NUMBERS`] numbers that the caller keeps between calls: [`set`]
//! writes the one without a pin, [`pin`], [`lift`], [`pin_and_see`] and [`lift_and_see`]
//! bring it up to date, [`plan_set`], [`replay_set`], [`change`] and [`sizes`] read it.
//! Number 0 is the kind of the job's header, 1 or 8 for one bucket or two; then come twelve
//! fields in the order of [`write()`], the last three 0 where there is one bucket; from
//! [`SET_PINS`] on the pins of units 1 to 512, a choice or [`NO_PIN`]; from [`SET_TOTALS`] on
//! the three values of [`calls`]. Each call reads all of them against the job again and
//! refuses others with 6, right after the job's numbers. Numbers behind them are not looked
//! at and keep their values. [`archive_set`] writes the set of a stored job whose line may
//! never drain.

/// The first number of a call that pins.
pub const PIN: u16 = 6;
/// The first number of a call that lifts.
pub const LIFT: u16 = 7;

/// The aim of a plan of least total distortion.
pub const TOTAL: u32 = 0;
/// The aim of a plan whose greatest unit distortion is least, and then its total.
pub const EVEN: u32 = 1;

/// The order that of several plans as good gives the one that sends early: the larger
/// rate index at the first interval at which they differ, then the smaller choice index.
/// It is the default.
pub const EARLY: u32 = 0;
/// The order that gives the one that sends late: the smaller rate index, then the smaller
/// choice index. Stored listings are in it.
pub const LATE: u32 = 1;

/// How many numbers a set of pins has.
pub const SET_NUMBERS: usize = 528;
/// Where the pins stand in a set: that of unit u at `SET_PINS + u - 1`.
pub const SET_PINS: usize = 13;
/// Where the three totals of a set stand: how many pins there are, the sum of their
/// grains, the sum of their distortions.
pub const SET_TOTALS: usize = 525;
/// The pin of a unit without one, and of a unit that the job does not have.
pub const NO_PIN: u32 = 65_535;

/// How many values [`open`] and [`archive`] write: the bytes that the job took, N, T,
/// and the words of the table.
pub const OPEN_VALUES: usize = 4;
/// How many values [`calls`] writes: how many pins stand at the end, the sum of
/// their grains, the sum of their distortions.
pub const CALLS_VALUES: usize = 3;
/// How many values [`plan`] and [`change`] write for a job with one bucket: distortion,
/// source grains, channel grains, unused grains.
pub const PLAN_VALUES: usize = 4;
/// How many values [`plan`] and [`change`] write for a job with two buckets, where the
/// unused grains of the second come last. A list of so many is long enough for every job.
pub const PLAN_VALUES_MOST: usize = 5;
/// How many values [`replay`] writes for a job with one bucket: 0 or the
/// violation's number; its interval or 0; then those of [`plan`], each 0 where
/// there is a violation. The numbers are 1 for decoder short, 2 for decoder over,
/// 3 for bucket over, 4 for a pin not held and 5 for second bucket over. They are
/// tested in the order 2, 1, 3, 5, 4.
pub const REPLAY_VALUES: usize = 6;
/// How many values [`replay`] writes for a job with two buckets. A list of so many
/// is long enough for every job.
pub const REPLAY_VALUES_MOST: usize = 7;
/// How many values [`write()`] and [`trial`] write: the bytes that the job took.
pub const WRITE_VALUES: usize = 1;
/// How many values [`read`] and [`read_archive`] write: the bytes that the job took, and how
/// many fields were written.
pub const READ_VALUES: usize = 2;
/// How many values [`pin_and_see`] and [`lift_and_see`] write: the least total distortion,
/// or [`NEVER`](crate::NEVER) where no plan holds the pins.
pub const SEE_VALUES: usize = 1;

/// How many totals [`playlist`] writes for each programme: the values that [`plan`] writes for
/// two buckets, the last 0 where there is one.
pub const PROGRAMME_TOTALS: usize = 5;

/// How many levels [`replay`] writes for each interval of a job with one bucket:
/// the decoder's, then the bucket's.
pub const LEVELS: usize = 2;
/// How many levels [`replay`] writes for each interval of a job with two buckets:
/// the second bucket's comes last.
pub const LEVELS_MOST: usize = 3;

/// How many fields [`write()`] and [`trial`] take for a job with one bucket, and [`read`] and
/// [`read_archive`] write: N, d, the sizes of decoder and bucket, the drain, the starting levels
/// of decoder and bucket, P, M.
pub const FIELDS: usize = 9;
/// How many fields [`write()`] and [`trial`] take for a job with two buckets, and [`read`] and
/// [`read_archive`] write: those nine, then the second bucket's size, drain and starting level.
/// Of those that are taken a count that is neither is refused with 3, as a field out of range
/// is; of those that are written a list of so many is long enough for every job.
pub const FIELDS_MOST: usize = 12;
/// The most rates that a job has: for those that [`read`] and [`read_archive`] write a list of
/// so many is long enough for every job.
pub const RATES_MOST: usize = 16;

#[link(name = "upload", kind = "static")]
extern "C" {
    fn upload_open(job: *const u8, job_len: usize, values: *mut u64, values_len: usize) -> u32;

    fn upload_archive(job: *const u8, job_len: usize, values: *mut u64, values_len: usize) -> u32;

    fn upload_calls(
        job: *const u8,
        job_len: usize,
        calls: *const u16,
        calls_len: usize,
        answers: *mut u8,
        answers_len: usize,
        values: *mut u64,
        values_len: usize,
    ) -> u32;

    fn upload_plan(
        job: *const u8,
        job_len: usize,
        calls: *const u16,
        calls_len: usize,
        aim: u32,
        order: u32,
        answers: *mut u8,
        answers_len: usize,
        table: *mut u32,
        table_len: usize,
        entries: *mut u8,
        entries_len: usize,
        values: *mut u64,
        values_len: usize,
    ) -> u32;

    fn upload_replay(
        job: *const u8,
        job_len: usize,
        calls: *const u16,
        calls_len: usize,
        entries: *const u8,
        entries_len: usize,
        levels: *mut u16,
        levels_len: usize,
        values: *mut u64,
        values_len: usize,
    ) -> u32;

    fn upload_set(job: *const u8, job_len: usize, set: *mut u32, set_len: usize) -> u32;

    fn upload_archive_set(job: *const u8, job_len: usize, set: *mut u32, set_len: usize) -> u32;

    fn upload_pin(
        job: *const u8,
        job_len: usize,
        set: *mut u32,
        set_len: usize,
        unit: u16,
        choice: u16,
    ) -> u32;

    fn upload_lift(job: *const u8, job_len: usize, set: *mut u32, set_len: usize, unit: u16)
        -> u32;

    fn upload_pin_and_see(
        job: *const u8,
        job_len: usize,
        set: *mut u32,
        set_len: usize,
        unit: u16,
        choice: u16,
        table: *mut u32,
        table_len: usize,
        values: *mut u64,
        values_len: usize,
    ) -> u32;

    fn upload_lift_and_see(
        job: *const u8,
        job_len: usize,
        set: *mut u32,
        set_len: usize,
        unit: u16,
        table: *mut u32,
        table_len: usize,
        values: *mut u64,
        values_len: usize,
    ) -> u32;

    fn upload_plan_set(
        job: *const u8,
        job_len: usize,
        set: *const u32,
        set_len: usize,
        aim: u32,
        order: u32,
        table: *mut u32,
        table_len: usize,
        entries: *mut u8,
        entries_len: usize,
        values: *mut u64,
        values_len: usize,
    ) -> u32;

    fn upload_replay_set(
        job: *const u8,
        job_len: usize,
        set: *const u32,
        set_len: usize,
        entries: *const u8,
        entries_len: usize,
        levels: *mut u16,
        levels_len: usize,
        values: *mut u64,
        values_len: usize,
    ) -> u32;

    fn upload_report(
        job: *const u8,
        job_len: usize,
        entries: *const u8,
        entries_len: usize,
        sums: *mut u32,
        sums_len: usize,
    ) -> u32;

    fn upload_turn(
        job: *const u8,
        job_len: usize,
        old: *const u8,
        old_len: usize,
        entries: *mut u8,
        entries_len: usize,
    ) -> u32;

    fn upload_change(
        job: *const u8,
        job_len: usize,
        set: *const u32,
        set_len: usize,
        old: *const u8,
        old_len: usize,
        first: u32,
        rates: *const u16,
        rates_len: usize,
        sizes: *const u16,
        sizes_len: usize,
        drains: *const u16,
        drains_len: usize,
        order: u32,
        table: *mut u32,
        table_len: usize,
        entries: *mut u8,
        entries_len: usize,
        values: *mut u64,
        values_len: usize,
    ) -> u32;

    fn upload_sizes(
        job: *const u8,
        job_len: usize,
        set: *const u32,
        set_len: usize,
        table: *mut u32,
        table_len: usize,
        totals: *mut u32,
        totals_len: usize,
    ) -> u32;

    fn upload_playlist(
        bytes: *const u8,
        bytes_len: usize,
        programmes: *const u32,
        programmes_len: usize,
        table: *mut u32,
        table_len: usize,
        entries: *mut u8,
        entries_len: usize,
        totals: *mut u64,
        totals_len: usize,
    ) -> u32;

    fn upload_write(
        fields: *const u16,
        fields_len: usize,
        rates: *const u16,
        rates_len: usize,
        sizes: *const u16,
        sizes_len: usize,
        distortions: *const u32,
        distortions_len: usize,
        job: *mut u8,
        job_len: usize,
        values: *mut u64,
        values_len: usize,
    ) -> u32;

    fn upload_read(
        job: *const u8,
        job_len: usize,
        fields: *mut u16,
        fields_len: usize,
        rates: *mut u16,
        rates_len: usize,
        sizes: *mut u16,
        sizes_len: usize,
        distortions: *mut u32,
        distortions_len: usize,
        values: *mut u64,
        values_len: usize,
    ) -> u32;

    fn upload_read_archive(
        job: *const u8,
        job_len: usize,
        fields: *mut u16,
        fields_len: usize,
        rates: *mut u16,
        rates_len: usize,
        sizes: *mut u16,
        sizes_len: usize,
        distortions: *mut u32,
        distortions_len: usize,
        values: *mut u64,
        values_len: usize,
    ) -> u32;

    fn upload_trial(
        fields: *const u16,
        fields_len: usize,
        state: u32,
        job: *mut u8,
        job_len: usize,
        values: *mut u64,
        values_len: usize,
    ) -> u32;
}

// In all twenty-two: a slice's pointer is aligned, never null, and good for the
// slice's length; slices that are written overlap no other. That is all the
// library asks, and it reads and writes nothing else.

/// Opens a job.
pub fn open(job: &[u8], values: &mut [u64]) -> u32 {
    unsafe { upload_open(job.as_ptr(), job.len(), values.as_mut_ptr(), values.len()) }
}

/// Opens a stored job, on a line that may never drain.
pub fn archive(job: &[u8], values: &mut [u64]) -> u32 {
    unsafe { upload_archive(job.as_ptr(), job.len(), values.as_mut_ptr(), values.len()) }
}

/// Makes the calls.
pub fn calls(job: &[u8], calls: &[u16], answers: &mut [u8], values: &mut [u64]) -> u32 {
    unsafe {
        upload_calls(
            job.as_ptr(),
            job.len(),
            calls.as_ptr(),
            calls.len(),
            answers.as_mut_ptr(),
            answers.len(),
            values.as_mut_ptr(),
            values.len(),
        )
    }
}

/// Makes the calls, then plans for the aim, [`TOTAL`] or [`EVEN`], in the order, [`EARLY`]
/// or [`LATE`].
pub fn plan(
    job: &[u8],
    calls: &[u16],
    aim: u32,
    order: u32,
    answers: &mut [u8],
    table: &mut [u32],
    entries: &mut [u8],
    values: &mut [u64],
) -> u32 {
    unsafe {
        upload_plan(
            job.as_ptr(),
            job.len(),
            calls.as_ptr(),
            calls.len(),
            aim,
            order,
            answers.as_mut_ptr(),
            answers.len(),
            table.as_mut_ptr(),
            table.len(),
            entries.as_mut_ptr(),
            entries.len(),
            values.as_mut_ptr(),
            values.len(),
        )
    }
}

/// Makes the calls, then follows a plan up to its first violation. On a line that never
/// drains each call is refused with 17, and no pin stands.
pub fn replay(
    job: &[u8],
    calls: &[u16],
    entries: &[u8],
    levels: &mut [u16],
    values: &mut [u64],
) -> u32 {
    unsafe {
        upload_replay(
            job.as_ptr(),
            job.len(),
            calls.as_ptr(),
            calls.len(),
            entries.as_ptr(),
            entries.len(),
            levels.as_mut_ptr(),
            levels.len(),
            values.as_mut_ptr(),
            values.len(),
        )
    }
}

/// Opens a job and writes its set without a pin.
pub fn set(job: &[u8], set: &mut [u32]) -> u32 {
    unsafe { upload_set(job.as_ptr(), job.len(), set.as_mut_ptr(), set.len()) }
}

/// Opens a stored job, whose line may never drain, and writes its set without a pin, which
/// serves replay.
pub fn archive_set(job: &[u8], set: &mut [u32]) -> u32 {
    unsafe { upload_archive_set(job.as_ptr(), job.len(), set.as_mut_ptr(), set.len()) }
}

/// Pins a unit at a choice.
pub fn pin(job: &[u8], set: &mut [u32], unit: u16, choice: u16) -> u32 {
    unsafe { upload_pin(job.as_ptr(), job.len(), set.as_mut_ptr(), set.len(), unit, choice) }
}

/// Lifts the pin of a unit.
pub fn lift(job: &[u8], set: &mut [u32], unit: u16) -> u32 {
    unsafe { upload_lift(job.as_ptr(), job.len(), set.as_mut_ptr(), set.len(), unit) }
}

/// Pins a unit at a choice, brings the table up to date and tells the least total
/// distortion. Of the table the layers of intervals 0 to `unit` + d - 1 are written, from
/// what stands in the next.
pub fn pin_and_see(
    job: &[u8],
    set: &mut [u32],
    unit: u16,
    choice: u16,
    table: &mut [u32],
    values: &mut [u64],
) -> u32 {
    unsafe {
        upload_pin_and_see(
            job.as_ptr(),
            job.len(),
            set.as_mut_ptr(),
            set.len(),
            unit,
            choice,
            table.as_mut_ptr(),
            table.len(),
            values.as_mut_ptr(),
            values.len(),
        )
    }
}

/// Lifts the pin of a unit, and goes on as [`pin_and_see`] does.
pub fn lift_and_see(
    job: &[u8],
    set: &mut [u32],
    unit: u16,
    table: &mut [u32],
    values: &mut [u64],
) -> u32 {
    unsafe {
        upload_lift_and_see(
            job.as_ptr(),
            job.len(),
            set.as_mut_ptr(),
            set.len(),
            unit,
            table.as_mut_ptr(),
            table.len(),
            values.as_mut_ptr(),
            values.len(),
        )
    }
}

/// Plans with the pins of a set, for the aim, [`TOTAL`] or [`EVEN`], in the order,
/// [`EARLY`] or [`LATE`].
pub fn plan_set(
    job: &[u8],
    set: &[u32],
    aim: u32,
    order: u32,
    table: &mut [u32],
    entries: &mut [u8],
    values: &mut [u64],
) -> u32 {
    unsafe {
        upload_plan_set(
            job.as_ptr(),
            job.len(),
            set.as_ptr(),
            set.len(),
            aim,
            order,
            table.as_mut_ptr(),
            table.len(),
            entries.as_mut_ptr(),
            entries.len(),
            values.as_mut_ptr(),
            values.len(),
        )
    }
}

/// Follows a plan with the pins of a set up to its first violation.
pub fn replay_set(
    job: &[u8],
    set: &[u32],
    entries: &[u8],
    levels: &mut [u16],
    values: &mut [u64],
) -> u32 {
    unsafe {
        upload_replay_set(
            job.as_ptr(),
            job.len(),
            set.as_ptr(),
            set.len(),
            entries.as_ptr(),
            entries.len(),
            levels.as_mut_ptr(),
            levels.len(),
            values.as_mut_ptr(),
            values.len(),
        )
    }
}

/// The effective buffer sizes of a plan.
pub fn report(job: &[u8], entries: &[u8], sums: &mut [u32]) -> u32 {
    unsafe {
        upload_report(
            job.as_ptr(),
            job.len(),
            entries.as_ptr(),
            entries.len(),
            sums.as_mut_ptr(),
            sums.len(),
        )
    }
}

/// Turns a stored plan of two bytes an interval into entries.
pub fn turn(job: &[u8], old: &[u8], entries: &mut [u8]) -> u32 {
    unsafe {
        upload_turn(
            job.as_ptr(),
            job.len(),
            old.as_ptr(),
            old.len(),
            entries.as_mut_ptr(),
            entries.len(),
        )
    }
}

/// Plans the rest of a programme afresh under a new contract, from the levels that the first
/// entries of an old plan led to, with the pins of a set and in the order, [`EARLY`] or
/// [`LATE`].
pub fn change(
    job: &[u8],
    set: &[u32],
    old: &[u8],
    first: u32,
    rates: &[u16],
    sizes: &[u16],
    drains: &[u16],
    order: u32,
    table: &mut [u32],
    entries: &mut [u8],
    values: &mut [u64],
) -> u32 {
    unsafe {
        upload_change(
            job.as_ptr(),
            job.len(),
            set.as_ptr(),
            set.len(),
            old.as_ptr(),
            old.len(),
            first,
            rates.as_ptr(),
            rates.len(),
            sizes.as_ptr(),
            sizes.len(),
            drains.as_ptr(),
            drains.len(),
            order,
            table.as_mut_ptr(),
            table.len(),
            entries.as_mut_ptr(),
            entries.len(),
            values.as_mut_ptr(),
            values.len(),
        )
    }
}

/// Lists what a larger bucket would bring, with the pins of a set: the least total for each
/// size of the first bucket from the job's own to [`LARGEST_SIZE`](crate::LARGEST_SIZE), or
/// [`NEVER`](crate::NEVER) where there is no plan.
pub fn sizes(job: &[u8], set: &[u32], table: &mut [u32], totals: &mut [u32]) -> u32 {
    unsafe {
        upload_sizes(
            job.as_ptr(),
            job.len(),
            set.as_ptr(),
            set.len(),
            table.as_mut_ptr(),
            table.len(),
            totals.as_mut_ptr(),
            totals.len(),
        )
    }
}

/// Plans the programmes of a playlist one after another, each from the bucket levels at which the
/// one before it ended, in the order [`LATE`]. `programmes` has two numbers an entry: where the
/// job's first byte stands in `bytes`, and how many bytes it has. An odd count of them is refused
/// with 21, as no entry is and more than [`PROGRAMMES`](crate::PROGRAMMES).
///
/// Answers 0, or 256 × the place of the programme that is refused, counted from 1, + the number:
/// [`PlaylistRefusal::from_answer`](crate::PlaylistRefusal::from_answer) takes it apart. 21 has no
/// place.
pub fn playlist(
    bytes: &[u8],
    programmes: &[u32],
    table: &mut [u32],
    entries: &mut [u8],
    totals: &mut [u64],
) -> u32 {
    unsafe {
        upload_playlist(
            bytes.as_ptr(),
            bytes.len(),
            programmes.as_ptr(),
            programmes.len(),
            table.as_mut_ptr(),
            table.len(),
            entries.as_mut_ptr(),
            entries.len(),
            totals.as_mut_ptr(),
            totals.len(),
        )
    }
}

/// Writes a job's bytes from its header and lists.
pub fn write(
    fields: &[u16],
    rates: &[u16],
    sizes: &[u16],
    distortions: &[u32],
    job: &mut [u8],
    values: &mut [u64],
) -> u32 {
    unsafe {
        upload_write(
            fields.as_ptr(),
            fields.len(),
            rates.as_ptr(),
            rates.len(),
            sizes.as_ptr(),
            sizes.len(),
            distortions.as_ptr(),
            distortions.len(),
            job.as_mut_ptr(),
            job.len(),
            values.as_mut_ptr(),
            values.len(),
        )
    }
}

/// Reads a job back: its header and lists, as [`write()`] takes them. For a job of n bytes lists
/// of [`FIELDS_MOST`], [`RATES_MOST`], n / 6, n / 6 and [`READ_VALUES`] numbers are long enough.
pub fn read(
    job: &[u8],
    fields: &mut [u16],
    rates: &mut [u16],
    sizes: &mut [u16],
    distortions: &mut [u32],
    values: &mut [u64],
) -> u32 {
    unsafe {
        upload_read(
            job.as_ptr(),
            job.len(),
            fields.as_mut_ptr(),
            fields.len(),
            rates.as_mut_ptr(),
            rates.len(),
            sizes.as_mut_ptr(),
            sizes.len(),
            distortions.as_mut_ptr(),
            distortions.len(),
            values.as_mut_ptr(),
            values.len(),
        )
    }
}

/// Reads a stored job back, whose line may never drain, and all else as [`read`] does.
pub fn read_archive(
    job: &[u8],
    fields: &mut [u16],
    rates: &mut [u16],
    sizes: &mut [u16],
    distortions: &mut [u32],
    values: &mut [u64],
) -> u32 {
    unsafe {
        upload_read_archive(
            job.as_ptr(),
            job.len(),
            fields.as_mut_ptr(),
            fields.len(),
            rates.as_mut_ptr(),
            rates.len(),
            sizes.as_mut_ptr(),
            sizes.len(),
            distortions.as_mut_ptr(),
            distortions.len(),
            values.as_mut_ptr(),
            values.len(),
        )
    }
}

/// Writes a trial job's bytes from its header and a starting state.
pub fn trial(fields: &[u16], state: u32, job: &mut [u8], values: &mut [u64]) -> u32 {
    unsafe {
        upload_trial(
            fields.as_ptr(),
            fields.len(),
            state,
            job.as_mut_ptr(),
            job.len(),
            values.as_mut_ptr(),
            values.len(),
        )
    }
}
