/* The upload planner, callable from C.

   A job says what a channel has to send: N units with M choices each, P channel
   rates, a delay of d intervals, the size and starting level of the decoder's
   buffer, and those of the carrier's leaky bucket, with its drain; some lines
   have two such buckets, each with a size, a drain and a starting level of its
   own. There are T = N + d intervals. Interval t sends at one of the rates and,
   for t > d, decodes unit t - d at one of its choices. A plan gives a rate to
   each interval and a choice to each unit. It is admissible if in every interval
   what the decoder holds just before the unit leaves, its level before the
   interval and what that sends, is at most its size and at least what the unit
   takes; if the level of each bucket stays at most its size; and if every pinned
   unit has its pinned choice. The decoder's level is what is left after the
   unit. What an interval sends goes to each bucket too, which then loses its
   drain, or all that it has; grains of the drain that find nothing there go by
   unused. Planning gives the admissible plan of least total distortion, or, where
   the caller names UPLOAD_EVEN, the one whose greatest unit distortion is least,
   and among such plans the total. Among several the first interval at which they
   differ decides: for UPLOAD_EARLY, which is the default, the larger rate index,
   for UPLOAD_LATE the smaller one, and then the smaller choice index. The table,
   the total and whether there is a plan are the same in both orders.

   A carrier may alter the contract, rates and buckets, while the programme is
   sent. upload_change keeps what was sent under the old one and plans the rest
   afresh under the new one, from the levels that were reached. upload_sizes lists
   what larger buckets would bring, upload_playlist plans programmes that are sent
   back to back.

   The header says how many buckets there are: upload_read tells it by the number
   of fields, a set of pins by its number 0, and a job that opens has it in its
   byte 2, the kind of its first record, which is one of enum upload_header. With
   a second bucket planning and replay have a value more, and replay a level more
   for each interval. A list for values as long as the _MOST constant below is
   long enough for every job; for a job with one bucket its last number keeps its
   value.

   upload_write makes the bytes of a job from its header and lists, upload_trial
   those of a job to try things with, from its header and a starting state. Every
   other function takes these bytes and reads them again, by one of two doors (see
   below); upload_read gives header and lists back. Bytes after the job are not
   looked at, but for upload_playlist, which has an entry for each job. Nothing is
   kept between calls, and no memory is taken: all that is written goes to lists
   that the caller lends. Calls from several threads are fine as long as no list
   that one writes is lent to another. Of the C library only memcpy and memset are
   used.

   A list is a pointer and a count of its numbers. One that is written may be
   longer than needed; what stands past the part named as written keeps its
   values. A pointer is never null, also where the count is 0, and is aligned
   for its type. A list that is written overlaps no other list: nothing notices one
   that does, and what is then answered and written is silently wrong.

   Each function answers 0, or the number of the refusal; upload_playlist tells the
   programme's place in the same number. Wherever a job is read, its own numbers
   come first: 1 to 5, and by the door of opening 17, directly after 3. In
   upload_playlist 21 and the 22 of an entry that passes the bytes come before
   them. A refusal writes nothing, with one exception: UPLOAD_NO_PLAN comes after the search and
   leaves `table` written, and no other list. Of a playlist this is said of the
   programme that is refused: what was written for those before it stays.

   A drain of 0 was once typed for a line without a limit, and says the opposite:
   what is sent stays in the bucket. A job with it, in either bucket, is refused
   with UPLOAD_NEVER_DRAINS by the door of opening. All fields of the header are
   looked at for 3 before that, and no other record. By the door of the archive
   such a job is taken as every other, and all else in it is looked at in the same
   way.

       function         door       of a job with drain 0
       upload_write     opening    is not written: 17, after 3 and before 16
       upload_trial     opening    is not written: 17, after 3 and before 12
       upload_open      opening    17
       upload_calls     opening    17
       upload_plan      opening    17
       upload_set, upload_pin, upload_lift, upload_pin_and_see,
       upload_lift_and_see, upload_plan_set, upload_change, upload_sizes,
       upload_playlist, upload_read
                        opening    17
       upload_archive   archive    opened, with the values that another drain has
       upload_read_archive
                        archive    read back as with another drain
       upload_replay    archive    replayed without pins: each call is refused
       upload_replay_set
                        archive    replayed without pins: no call pins a unit
       upload_archive_set
                        archive    its set without a pin is written, for replay
       upload_report    archive    reported as with another drain
       upload_turn      archive    turned as with another drain */

#ifndef UPLOAD_H
#define UPLOAD_H

#include <stddef.h>
#include <stdint.h>

#ifdef __cplusplus
extern "C" {
#endif

#define UPLOAD_VERSION "0.1.0"

/* What a function answers. */
enum upload_refusal {
    UPLOAD_OK = 0,              /* not refused */
    UPLOAD_CUT = 1,             /* the bytes end before a record that is due is whole; or the last
                                   call is cut */
    UPLOAD_WRONG_RECORD = 2,    /* a record's kind or length is not the one due; or an aim is none
                                   of enum upload_aim, or an order none of enum upload_order; or a
                                   call's kind is neither a pin nor a lift */
    UPLOAD_HEADER = 3,          /* a field of the header is out of range, or the fields are not
                                   nine or twelve; of a new contract a size or a drain is out of
                                   range, or there is another number of them than the job has
                                   buckets, no rate or more than 16 */
    UPLOAD_RATES = 4,           /* a rate is over 4,095, or the rates do not rise; also of a new
                                   contract */
    UPLOAD_CHOICES = 5,         /* a choice's size or distortion is over its limit */
    UPLOAD_OTHER_JOB = 6,       /* the numbers are no set of pins of this job: they have another
                                   header, a pin that is no choice, totals that are not those of
                                   the pins, or are fewer than UPLOAD_SET_NUMBERS; only the
                                   functions that take a set give this */
    UPLOAD_NO_SUCH_UNIT = 7,    /* pin, lift: the unit is not from 1 to N */
    UPLOAD_NO_SUCH_CHOICE = 8,  /* pin: the choice is not below M */
    UPLOAD_PINNED = 9,          /* pin: the unit is pinned already */
    UPLOAD_NOT_PINNED = 10,     /* lift: the unit is not pinned */
    UPLOAD_TABLE_TOO_SHORT = 11,/* the table has fewer words than planning needs; upload_sizes:
                                   than planning with the largest first bucket needs */
    UPLOAD_LIST_TOO_SHORT = 12, /* another list that is to be filled is too short */
    UPLOAD_NO_PLAN = 13,        /* no plan is admissible; upload_change: none of the rest is */
    UPLOAD_NOT_A_PLAN = 14,     /* the entries are not 3 x T bytes, or one is out of range;
                                   upload_turn: the job has more than 31 choices, or the bytes
                                   were no plan of two bytes an interval */
    UPLOAD_INPUT_TOO_LONG = 15, /* the program `plan` alone: more than 32,768 bytes of input */
    UPLOAD_LENGTHS = 16,        /* a list's length is not what the header calls for */
    UPLOAD_NEVER_DRAINS = 17,   /* the drain of a bucket is 0: by the door of opening alone, and
                                   of a new contract */
    UPLOAD_NOT_WITHIN = 18,     /* upload_change: the interval after which the contract changes
                                   is not from 1 to T - 1 */
    UPLOAD_OLD_VIOLATION = 19,  /* upload_change: the old plan has a violation up to there */
    UPLOAD_CARRIED_OVER = 20,   /* upload_change: the level that a bucket has there is over its
                                   new size; upload_playlist: that it had at the last
                                   programme's end is over its size in this one */
    UPLOAD_NOT_A_LIST = 21,     /* upload_playlist: no entry, more than UPLOAD_PROGRAMMES, or an
                                   odd count of numbers */
    UPLOAD_PROGRAMME = 22       /* upload_playlist: an entry passes the bytes, bytes are left
                                   behind its job, or it has another number of buckets than
                                   the first one */
};

/* upload_playlist alone: the place of the programme that was refused, counted from 1,
   or 0, and the number of its refusal. */
#define UPLOAD_PLACE(answer) ((answer) / 256)
#define UPLOAD_NUMBER(answer) ((answer) % 256)

/* Calls are numbers, three a call: one of these kinds, the unit (1 to N), the
   choice (0 to M - 1). A lift does not look at its third number. */
enum upload_call {
    UPLOAD_PIN = 6,
    UPLOAD_LIFT = 7
};

/* What a plan is to make least. Pinned units count as all others do. There is no
   plan for the one aim exactly where there is none for the other. */
enum upload_aim {
    UPLOAD_TOTAL = 0,           /* the total distortion */
    UPLOAD_EVEN = 1             /* even pictures: the greatest distortion of a unit, and among
                                   plans in which that is least the total */
};

/* Which of several plans that are as good is given: at the first interval in
   which they differ, the one with the larger rate index (early) or the smaller
   one (late), and of equal rates the one with the smaller choice index. Lines
   drop more near the end of a programme, so that early is the default, and what
   `plan` prints; late was the only order once, and stored listings are in it. */
enum upload_order {
    UPLOAD_EARLY = 0,
    UPLOAD_LATE = 1
};

/* The kind of a job's header, which is byte 2 of a job that opens: how many
   buckets the line has. */
enum upload_header {
    UPLOAD_ONE_BUCKET = 1,
    UPLOAD_TWO_BUCKETS = 8
};

/* The choice of an interval that decodes no unit. */
#define UPLOAD_NO_UNIT 65535

/* The word of a state from which no plan can be completed, and the total of a size
   for which there is none. */
#define UPLOAD_NEVER UINT32_C(4294967295)

/* The largest size of a first bucket. */
#define UPLOAD_LARGEST_SIZE 255

/* The most entries of a playlist, and how many totals it gives for each. */
#define UPLOAD_PROGRAMMES 64
#define UPLOAD_PROGRAMME_TOTALS 5

/* A set of pins as numbers: what an editor's tool keeps between its calls, in a
   list of its own. upload_set writes the set without a pin, and the calls that
   pin and lift bring it up to date.

       number 0          one of enum upload_header
       numbers 1 to 12   the fields of the header in the order of upload_write;
                         the last three are 0 where there is one bucket
       numbers 13 to 524 the pins of units 1 to 512: a choice or UPLOAD_NO_PIN,
                         which stands also for units that the job does not have
       numbers 525 to 527
                         how many pins there are, the sum of the grains that
                         their units take at the pinned choices, and the sum of
                         the distortions of these choices

   Every call reads all of them against the job again, and a number that is not
   what the job's header and the pins make it is refused with UPLOAD_OTHER_JOB.
   Two jobs with one header can share a set whose pins come to the same totals in
   both, one without pins above all: keep a set with its job. Numbers behind these
   are not looked at and keep their values. */
#define UPLOAD_SET_NUMBERS 528
#define UPLOAD_SET_PINS 13
#define UPLOAD_SET_TOTALS 525

/* The pin of a unit without one. */
#define UPLOAD_NO_PIN 65535

/* What replay finds first. In each interval they are tested in this order:
   UPLOAD_DECODER_OVER, UPLOAD_DECODER_SHORT, UPLOAD_BUCKET_OVER,
   UPLOAD_SECOND_BUCKET_OVER, UPLOAD_PIN_NOT_HELD. */
enum upload_violation {
    UPLOAD_CLEAN = 0,
    UPLOAD_DECODER_SHORT = 1,   /* the decoder holds less than the unit takes */
    UPLOAD_DECODER_OVER = 2,    /* what the decoder holds just before a unit leaves, or in an
                                   interval without one, would pass its size */
    UPLOAD_BUCKET_OVER = 3,     /* the level of the bucket, of two the first, would pass its
                                   size */
    UPLOAD_PIN_NOT_HELD = 4,    /* the unit is pinned at another choice */
    UPLOAD_SECOND_BUCKET_OVER = 5   /* the second bucket's level would pass its size */
};

/* How many numbers the `values` lists need. For planning it is 3 and the number
   of buckets, for replay 5 and the number of buckets. */
#define UPLOAD_OPEN_VALUES 4
#define UPLOAD_CALLS_VALUES 3
#define UPLOAD_PLAN_VALUES 4        /* one bucket */
#define UPLOAD_PLAN_VALUES_MOST 5   /* two buckets */
#define UPLOAD_REPLAY_VALUES 6      /* one bucket */
#define UPLOAD_REPLAY_VALUES_MOST 7 /* two buckets */
#define UPLOAD_WRITE_VALUES 1
#define UPLOAD_READ_VALUES 2
#define UPLOAD_SEE_VALUES 1

/* How many levels replay gives for each interval: 1 and the number of buckets. */
#define UPLOAD_LEVELS 2             /* one bucket */
#define UPLOAD_LEVELS_MOST 3        /* two buckets */

/* How many fields a job's header has. */
#define UPLOAD_FIELDS 9             /* one bucket */
#define UPLOAD_FIELDS_MOST 12       /* two buckets */

/* The most rates that a job has. */
#define UPLOAD_RATES_MOST 16

/* Opens a job: checks all of it and says what the other functions need.

   values: 4 numbers written: the bytes that the job took, N, T, and the words
   of the table, (T + 1) x (decoder size + 1) x (bucket size + 1), and with two
   buckets x (second bucket's size + 1).

   Refusals in order: 1 to 5, with 17 directly after 3; 12 where `values` is too
   short. */
uint32_t upload_open(const uint8_t *job, size_t job_len,
                     uint64_t *values, size_t values_len);

/* Opens a stored job, whose line may never drain: checks all else as upload_open
   does and says the same. A job that opens has the same values here. The words of
   the table are those that planning would need, which refuses such a job.

   values: 4 numbers written, as upload_open writes them.

   Refusals in order: 1 to 5; 12 where `values` is too short. */
uint32_t upload_archive(const uint8_t *job, size_t job_len,
                        uint64_t *values, size_t values_len);

/* Makes the calls in turn on a fresh set of pins, refused ones included.

   calls:   three numbers a call.
   answers: one byte a call written: 0 where it was taken, otherwise its number,
            7 to 10. A refused call changes no pin.
   values:  3 numbers written: how many pins stand at the end, the sum of the
            grains that their units take at the pinned choices, and the sum of
            the distortions of these choices.

   Refusals in order: 1 to 5 for the job, with 17 directly after 3; 2 for a call
   of another kind, then 1 where the last call is cut; 12 where `answers`, then
   where `values` is too short. A call that is refused is not a refusal of the
   function. */
uint32_t upload_calls(const uint8_t *job, size_t job_len,
                      const uint16_t *calls, size_t calls_len,
                      uint8_t *answers, size_t answers_len,
                      uint64_t *values, size_t values_len);

/* Makes the calls as upload_calls does, then plans with the pins that stand at
   the end.

   calls:   three numbers a call.
   aim:     one of enum upload_aim.
   order:   one of enum upload_order; UPLOAD_EARLY is 0, the default.
   answers: one byte a call written, as upload_calls writes them.
   table:   the words that upload_open names are written. Word
            (t x (decoder size + 1) + b) x (bucket size + 1) + l is the least
            distortion that intervals t + 1 to T can add from decoder level b
            and bucket level l after interval t, pins held; UPLOAD_NEVER where
            they cannot be completed. With two buckets it is word ((t x (decoder
            size + 1) + b) x (bucket size + 1) + l) x (second bucket's size + 1)
            + m, for level m of the second. For UPLOAD_EVEN it is the table in
            which choices above the plan's greatest distortion are left out, in
            every word, be its levels reached from the start or not; a choice at
            that distortion stays. Where there is no plan it is the full table, as
            for UPLOAD_TOTAL.
   entries: 3 x T bytes written, three an interval: the index of its rate, then
            that of its unit's choice as two bytes, the lower first, or
            UPLOAD_NO_UNIT for the first d.
   values:  3 numbers and one for each bucket written, 4 or 5: total distortion,
            source grains (what the units take), channel grains (what the
            intervals send), then for each bucket its unused grains (in each
            interval the larger of 0 and its drain less its level before it less
            what is sent). For each bucket its starting level + channel grains +
            its unused grains = T x its drain + its last level.

   Refusals in order: 1 to 5 for the job, with 17 directly after 3; 2 for another
   aim, then for another order; 2 for a call of another kind, then 1 where the
   last call is cut; 11; 12 where `answers`, `entries` or `values` is too short;
   13, which leaves `table` written, and `answers`, `entries` and `values` as they
   were; upload_calls says what the calls met with. */
uint32_t upload_plan(const uint8_t *job, size_t job_len,
                     const uint16_t *calls, size_t calls_len,
                     uint32_t aim, uint32_t order,
                     uint8_t *answers, size_t answers_len,
                     uint32_t *table, size_t table_len,
                     uint8_t *entries, size_t entries_len,
                     uint64_t *values, size_t values_len);

/* Makes the calls as upload_calls does, then follows a plan interval by interval
   up to its first violation. On a line that never drains each pin or lift is
   refused with 17 and changes nothing, so that no pin stands.

   entries: exactly 3 x T bytes, as upload_plan writes them.
   levels:  room for 2 x T numbers, with two buckets for 3 x T: after each
            interval, when its unit has left, the decoder's level, the bucket's,
            and the second bucket's where there is one. Only those before the
            violation are written.
   values:  5 numbers and one for each bucket written, 6 or 7: 0 or the
            violation; its interval, from 1, or 0; then the 4 or 5 numbers of
            upload_plan, each 0 where there is a violation.

   Refusals in order: 1 to 5 for the job; 2 for a call of another kind, then 1
   where the last call is cut; 14; 12 where `levels` or `values` is too short. A
   plan with a violation is not a refusal. */
uint32_t upload_replay(const uint8_t *job, size_t job_len,
                       const uint16_t *calls, size_t calls_len,
                       const uint8_t *entries, size_t entries_len,
                       uint16_t *levels, size_t levels_len,
                       uint64_t *values, size_t values_len);

/* Opens a job and writes its set without a pin.

   set: UPLOAD_SET_NUMBERS numbers written.

   Refusals in order: 1 to 5, with 17 directly after 3; 12 where `set` is too
   short. */
uint32_t upload_set(const uint8_t *job, size_t job_len,
                    uint32_t *set, size_t set_len);

/* Opens a stored job, whose line may never drain, as upload_archive does, and
   writes its set without a pin, which serves replay.

   set: UPLOAD_SET_NUMBERS numbers written.

   Refusals in order: 1 to 5; 12 where `set` is too short. */
uint32_t upload_archive_set(const uint8_t *job, size_t job_len,
                            uint32_t *set, size_t set_len);

/* Pins a unit at a choice.

   set:    the job's; written with the pin in it.
   unit:   1 to N.
   choice: 0 to M - 1.

   Refusals in order: 1 to 5, with 17 directly after 3; 6; 7; 8; 9. */
uint32_t upload_pin(const uint8_t *job, size_t job_len,
                    uint32_t *set, size_t set_len,
                    uint16_t unit, uint16_t choice);

/* Lifts the pin of a unit.

   set:  the job's; written without the pin.
   unit: 1 to N.

   Refusals in order: 1 to 5, with 17 directly after 3; 6; 7; 10. */
uint32_t upload_lift(const uint8_t *job, size_t job_len,
                     uint32_t *set, size_t set_len,
                     uint16_t unit);

/* Pins a unit u at a choice as upload_pin does, brings a table up to date and
   tells the least total distortion. Only the layers of intervals 0 to u + d - 1
   are written, each from the next, and the last of them from what stands in
   layer u + d: the earlier the unit, the sooner it is done. Where the table was
   that of the set before the pin, as upload_plan_set for UPLOAD_TOTAL leaves it,
   or one of these two calls, it is now that of the set with the pin. A table of
   the aim UPLOAD_EVEN, of another job or of another set is not refused: what is
   written follows by the same rule from the words that stand there, of which one
   over 512,000,000 counts as UPLOAD_NEVER, and the number told is then no total.
   After upload_pin or upload_lift the table is that of another set: plan again,
   or keep to these two calls. For a plan with UPLOAD_EVEN lend another list.

   set:    the job's; written with the pin in it.
   unit:   1 to N.
   choice: 0 to M - 1.
   table:  at least the words that upload_open names; the first u + d layers are
           written, a layer being 1 / (T + 1) of these words.
   values: 1 number written: the word of layer 0 at the starting levels, the
           least total distortion, or UPLOAD_NEVER where no plan holds the pins.
           That is not a refusal: this call never gives 13.

   Refusals in order: 1 to 5, with 17 directly after 3; 6; 7; 8; 9; 11; 12 where
   `values` is too short. With 11 and 12 too the unit is not pinned. */
uint32_t upload_pin_and_see(const uint8_t *job, size_t job_len,
                            uint32_t *set, size_t set_len,
                            uint16_t unit, uint16_t choice,
                            uint32_t *table, size_t table_len,
                            uint64_t *values, size_t values_len);

/* Lifts the pin of a unit as upload_lift does, and goes on as upload_pin_and_see
   does.

   Refusals in order: 1 to 5, with 17 directly after 3; 6; 7; 10; 11; 12 where
   `values` is too short. */
uint32_t upload_lift_and_see(const uint8_t *job, size_t job_len,
                             uint32_t *set, size_t set_len,
                             uint16_t unit,
                             uint32_t *table, size_t table_len,
                             uint64_t *values, size_t values_len);

/* Plans with the pins of a set, as upload_plan does with those that calls leave.

   set:     the job's; not written.
   aim:     one of enum upload_aim.
   order:   one of enum upload_order.
   table, entries, values: written as upload_plan writes them.

   Refusals in order: 1 to 5, with 17 directly after 3; 6; 2 for another aim,
   then for another order; 11; 12 where `entries` or `values` is too short; 13,
   which leaves `table` written, and `entries` and `values` as they were. */
uint32_t upload_plan_set(const uint8_t *job, size_t job_len,
                         const uint32_t *set, size_t set_len,
                         uint32_t aim, uint32_t order,
                         uint32_t *table, size_t table_len,
                         uint8_t *entries, size_t entries_len,
                         uint64_t *values, size_t values_len);

/* Follows a plan with the pins of a set, as upload_replay does with those that
   calls leave.

   set:     the job's; not written.
   entries: exactly 3 x T bytes, as upload_plan writes them.
   levels, values: written as upload_replay writes them.

   Refusals in order: 1 to 5 for the job; 6; 14; 12 where `levels` or `values` is
   too short. A plan with a violation is not a refusal. */
uint32_t upload_replay_set(const uint8_t *job, size_t job_len,
                           const uint32_t *set, size_t set_len,
                           const uint8_t *entries, size_t entries_len,
                           uint16_t *levels, size_t levels_len,
                           uint64_t *values, size_t values_len);

/* The effective buffer sizes of a plan, admissible or not.

   entries: exactly 3 x T bytes, as upload_plan writes them.
   sums:    N + 1 numbers written: for i from 0 to N the grains that intervals
            i + 1 to i + d send.

   Refusals in order: 1 to 5; 14; 12 where `sums` is too short. */
uint32_t upload_report(const uint8_t *job, size_t job_len,
                       const uint8_t *entries, size_t entries_len,
                       uint32_t *sums, size_t sums_len);

/* Turns a stored plan of two bytes an interval, as plans were while a job had at
   most 31 choices, into entries. The rate and the choice of each interval are
   kept, and 255, which stood for no unit, becomes UPLOAD_NO_UNIT; so the entries
   replay to the levels of the old plan.

   old:     exactly 2 x T bytes, two an interval: the index of its rate, below P,
            then that of its unit's choice, below M, or 255 for the first d.
   entries: 3 x T bytes written, as upload_plan writes them.

   Refusals in order: 1 to 5; 14 where the job has more than 31 choices or `old`
   is anything else; 12 where `entries` is too short. */
uint32_t upload_turn(const uint8_t *job, size_t job_len,
                     const uint8_t *old, size_t old_len,
                     uint8_t *entries, size_t entries_len);

/* Plans the rest of a programme afresh when the carrier's contract changes. The first
   `first` entries of the old plan remain, with the levels that they led to under the
   job's own contract; the intervals after them are planned under the new one, from
   these levels and with the pins of the set. The decoder, the units and the delay
   stay. The plan of the rest is the admissible one of least total distortion, of
   equal ones the first in the order named.

   set:     the job's; not written.
   old:     exactly 3 x T bytes, as upload_plan writes them.
   first:   how many entries remain, 1 to T - 1.
   rates:   the new rates, 1 to 16 numbers, each at most 4,095, strictly rising.
   sizes:   the new size of each bucket of the job, in its order: at most 255 for the
            first, 63 for the second.
   drains:  the new drain of each bucket, 1 to 4,095.
   order:   one of enum upload_order.
   table:   (T + 1) x (decoder size + 1) x (bucket size + 1) words, with a second
            bucket x (its size + 1), by the new sizes: layers `first` to T are
            written, those before stay.
   entries: 3 x T bytes written: the old ones, then those of the rest, whose rate
            indices are of the new rates.
   values:  3 numbers and one for each bucket written, as upload_plan writes them:
            distortion, source size and channel size of the whole plan, then the
            unused drain of each bucket, each interval by its own contract.

   Refusals in order: 1 to 5 and 17 for the job; 6; 2 for another order; 14 for the
   old plan; of the new contract 3 (a size or drain out of range, another number of
   them than the job has buckets, no rate or more than 16), 17 (a drain of 0) and 4;
   18 where `first` is not in 1 to T - 1; 19 where the old plan, with the set's pins,
   has a violation in an interval up to `first`; 20 where the level of a bucket after
   these intervals exceeds its new size; 11; 12 where `entries` or `values` is too
   short; 13 where no plan of the rest is admissible, which leaves the table written. */
uint32_t upload_change(const uint8_t *job, size_t job_len,
                       const uint32_t *set, size_t set_len,
                       const uint8_t *old, size_t old_len,
                       uint32_t first,
                       const uint16_t *rates, size_t rates_len,
                       const uint16_t *sizes, size_t sizes_len,
                       const uint16_t *drains, size_t drains_len,
                       uint32_t order,
                       uint32_t *table, size_t table_len,
                       uint8_t *entries, size_t entries_len,
                       uint64_t *values, size_t values_len);

/* Lists what a larger bucket would bring: the least total for each size of the first
   bucket from the job's own, K, to UPLOAD_LARGEST_SIZE, all else equal, with the pins
   of a set. No number exceeds the one before it.

   set:    the job's, with its own K; not written.
   table:  (T + 1) x (decoder size + 1) x 256 words, and with two buckets x (second
           bucket's size + 1), are written: the table of the job with a first bucket
           of size UPLOAD_LARGEST_SIZE, as upload_plan_set writes it for UPLOAD_TOTAL.
           Unless K is that size it is not the set's own: do not go on from it with a
           call that sees.
   totals: 256 - K numbers written, size after size: the least total distortion, or
           UPLOAD_NEVER where no plan is admissible.

   Refusals in order: 1 to 5 for the job, with 17 directly after 3; 6; 11; 12 where
   `totals` is too short. UPLOAD_NO_PLAN is not given. */
uint32_t upload_sizes(const uint8_t *job, size_t job_len,
                      const uint32_t *set, size_t set_len,
                      uint32_t *table, size_t table_len,
                      uint32_t *totals, size_t totals_len);

/* Plans the programmes of a playlist, which are sent back to back over one line: each
   from the bucket levels at which the one before it ended, the first from its own;
   the decoder starts at each job's own level. Each plan is the best for its programme
   from there, as upload_plan_set gives it for UPLOAD_TOTAL and UPLOAD_LATE, without
   pins; nothing is claimed for the list as a whole.

   bytes:      the jobs; they may stand anywhere, and may overlap.
   programmes: two numbers an entry, 1 to UPLOAD_PROGRAMMES entries: where the job's
               first byte stands in `bytes`, counted from 0, and how many bytes it has.
   table:      the words that each job needs, one planning after another; the last
               one's stand in the end, and behind them what one before it left.
   entries:    3 x T bytes a programme, one plan after another.
   totals:     UPLOAD_PROGRAMME_TOTALS numbers a programme, in the order of the list:
               distortion, source size, channel size, the unused drain of the bucket
               and that of the second bucket, 0 where there is none.

   Work stops at the first programme that is refused. The answer is then 256 x its
   place, counted from 1, + the number (UPLOAD_PLACE and UPLOAD_NUMBER take it apart);
   plans and totals of the programmes before it stay written, and so does the last
   table. Of the refused programme nothing is written, but that UPLOAD_NO_PLAN leaves
   its table. One refusal has no place and writes nothing: 21 where there is no entry,
   more than UPLOAD_PROGRAMMES, or an odd count of numbers.

   Refusals of an entry in order: 22 where it passes `bytes`; 1 to 5 for its job, with
   17 directly after 3; 22 where bytes are left behind the job, or its number of
   buckets is not the first one's; 20 where a level that is carried is above its
   bucket's size; 11; 12 where its plan or its totals do not fit behind the
   others; 13. */
uint32_t upload_playlist(const uint8_t *bytes, size_t bytes_len,
                         const uint32_t *programmes, size_t programmes_len,
                         uint32_t *table, size_t table_len,
                         uint8_t *entries, size_t entries_len,
                         uint64_t *totals, size_t totals_len);

/* Writes a job's bytes from its header and lists: the record of the header, that
   of the rates, then one for each unit. What is written opens and holds this
   header and these lists; a job that opens, written from its own, is the bytes
   that it took.

   fields:      exactly UPLOAD_FIELDS numbers, the header's in their order: N
                (1 to 512), d (0 to 64), decoder size and bucket size (0 to 255
                each), drain (1 to 4,095), the starting levels of decoder and
                bucket (each from 0 to its size), P (1 to 16), M (1 to 1,000).
                For two buckets exactly UPLOAD_FIELDS_MOST numbers: these nine,
                then the second bucket's size (0 to 63), drain (1 to 4,095) and
                starting level (0 to its size). Of all these numbers a drain of
                0 alone is refused with 17, and another that is out of range
                with 3.
   rates:       exactly P numbers, each at most 4,095, strictly rising.
   sizes:       exactly N x M numbers by unit and choice, unit after unit: the
                grains that the unit takes, each at most 4,095.
   distortions: exactly N x M numbers in the order of `sizes`, each at most
                1,000,000.
   job:         26 + 2 x P + N x (4 + 6 x M) bytes written, 6 more with two
                buckets; never more than 3,074,112.
   values:      1 number written: how many bytes the job took.

   Refusals in order: 3 where `fields` is not nine or twelve numbers or one of
   them is out of range; 17; 16 where `rates`, `sizes` or `distortions` has
   another length; 4; 5; 12 where `job` or `values` is too short. */
uint32_t upload_write(const uint16_t *fields, size_t fields_len,
                      const uint16_t *rates, size_t rates_len,
                      const uint16_t *sizes, size_t sizes_len,
                      const uint32_t *distortions, size_t distortions_len,
                      uint8_t *job, size_t job_len,
                      uint64_t *values, size_t values_len);

/* Reads a job back: its header and lists, as upload_write takes them. Written
   again they are the bytes that the job took.

   fields:      UPLOAD_FIELDS numbers written, or UPLOAD_FIELDS_MOST where the line
                has two buckets: the header's in the order of upload_write.
   rates:       P numbers written.
   sizes:       N x M numbers written by unit and choice, unit after unit: number
                (u - 1) x M + c is what unit u takes at choice c, in grains.
   distortions: N x M numbers written in the order of `sizes`.
   values:      2 numbers written: how many bytes the job took, and how many fields
                were written.

   Lists of UPLOAD_FIELDS_MOST, UPLOAD_RATES_MOST, job_len / 6, job_len / 6 and
   UPLOAD_READ_VALUES numbers are long enough for every job of job_len bytes.

   Refusals in order: 1 to 5, with 17 directly after 3; 12 where a list is too
   short. */
uint32_t upload_read(const uint8_t *job, size_t job_len,
                     uint16_t *fields, size_t fields_len,
                     uint16_t *rates, size_t rates_len,
                     uint16_t *sizes, size_t sizes_len,
                     uint32_t *distortions, size_t distortions_len,
                     uint64_t *values, size_t values_len);

/* Reads a stored job back, whose line may never drain: all else is as in
   upload_read. A job that opens is read as there. One with a drain of 0 is not
   written again.

   Refusals in order: 1 to 5; 12 where a list is too short. */
uint32_t upload_read_archive(const uint8_t *job, size_t job_len,
                             uint16_t *fields, size_t fields_len,
                             uint16_t *rates, size_t rates_len,
                             uint16_t *sizes, size_t sizes_len,
                             uint32_t *distortions, size_t distortions_len,
                             uint64_t *values, size_t values_len);

/* Writes a trial job: one with this header, whose rates, sizes and distortions are
   drawn from a starting state. The same header and state give the same bytes on
   every machine, and what is written opens.

   A draw replaces the state by state x 1,664,525 + 1,013,904,223, of which the
   lowest 32 bits are kept, and is the new state divided by 65,536, rounded down.
   The first rate is a draw modulo 4, and each later one the rate before it plus 1
   plus a draw modulo 4. Then for each choice of each unit in turn the grains are a
   draw modulo 64, and the distortion is the draw after it.

   fields: the header's, nine numbers or twelve as upload_write takes them.
   state:  the starting state, any number.
   job:    as many bytes written as upload_write writes for this header.
   values: 1 number written: how many bytes the job took.

   Refusals in order: 3 where `fields` is not nine or twelve numbers or one of
   them is out of range; 17; 12 where `job` or `values` is too short. */
uint32_t upload_trial(const uint16_t *fields, size_t fields_len,
                      uint32_t state,
                      uint8_t *job, size_t job_len,
                      uint64_t *values, size_t values_len);

/* What a refusal says, in words, by its number; of upload_playlist's answer by
   UPLOAD_NUMBER of it. */
static inline const char *upload_refusal_words(uint32_t number)
{
    switch (number) {
    case UPLOAD_OK:
        return "not refused";
    case UPLOAD_CUT:
        return "the bytes end before a record that is due is whole, or the last call is cut";
    case UPLOAD_WRONG_RECORD:
        return "a record, an aim, an order or a call of another kind or length than the one due";
    case UPLOAD_HEADER:
        return "a field of the header or a number of a contract is out of range, or there are "
               "more or fewer than are due";
    case UPLOAD_RATES:
        return "a rate is over 4,095, or the rates do not rise";
    case UPLOAD_CHOICES:
        return "a choice's grains or distortion are over their limit";
    case UPLOAD_OTHER_JOB:
        return "the set of pins does not fit the job";
    case UPLOAD_NO_SUCH_UNIT:
        return "the job has no such unit";
    case UPLOAD_NO_SUCH_CHOICE:
        return "the unit has no such choice";
    case UPLOAD_PINNED:
        return "the unit is pinned already";
    case UPLOAD_NOT_PINNED:
        return "the unit is not pinned";
    case UPLOAD_TABLE_TOO_SHORT:
        return "the table has fewer words than planning needs";
    case UPLOAD_LIST_TOO_SHORT:
        return "a list that is to be filled is too short";
    case UPLOAD_NO_PLAN:
        return "no plan is admissible";
    case UPLOAD_NOT_A_PLAN:
        return "the entries are not a plan of this job";
    case UPLOAD_INPUT_TOO_LONG:
        return "the input is longer than 32,768 bytes";
    case UPLOAD_LENGTHS:
        return "a list's length is not what the header calls for";
    case UPLOAD_NEVER_DRAINS:
        return "the drain of a bucket is 0, so that the line never drains";
    case UPLOAD_NOT_WITHIN:
        return "the contract does not change within the programme";
    case UPLOAD_OLD_VIOLATION:
        return "the old plan has a violation before the contract changes";
    case UPLOAD_CARRIED_OVER:
        return "the level of a bucket is over its size in the new contract or the next programme";
    case UPLOAD_NOT_A_LIST:
        return "the playlist has no entry, more than 64, or an odd count of numbers";
    case UPLOAD_PROGRAMME:
        return "an entry passes the bytes, bytes are left behind its job, or it has another "
               "number of buckets than the first";
    default:
        return "no refusal has this number";
    }
}

/* What replay found, in words, by its number. */
static inline const char *upload_violation_words(uint64_t number)
{
    switch (number) {
    case UPLOAD_CLEAN:
        return "no violation";
    case UPLOAD_DECODER_SHORT:
        return "decoder short";
    case UPLOAD_DECODER_OVER:
        return "decoder over";
    case UPLOAD_BUCKET_OVER:
        return "bucket over";
    case UPLOAD_PIN_NOT_HELD:
        return "pin not held";
    case UPLOAD_SECOND_BUCKET_OVER:
        return "second bucket over";
    default:
        return "no violation has this number";
    }
}

#ifdef __cplusplus
}
#endif

#endif
