//! The proved code as a shared library, made for the machine at hand by the script `host/library`: its functions found
//! by name, those on words called as Rattle's own code calls them, those on bytes as C does.

use crate::book::Refusal;
use crate::judge::Verdict;
use crate::types;
use std::ffi::{c_char, c_int, c_void, CStr, CString};
use std::mem;
use std::path::Path;

unsafe extern "C" {
    fn dlopen(name: *const c_char, how: c_int) -> *mut c_void;
    fn dlsym(library: *mut c_void, name: *const c_char) -> *mut c_void;
    fn dlerror() -> *const c_char;
}

/// All names are looked up at once, so that a call never waits for one.
const NOW: c_int = 2;

const TRANSLATE: &CStr = c"translator::translate";
const REHEARSE: &CStr = c"rehearsal::rehearse";
const TRANSLATE_BYTES: &CStr = c"nghiralum_translate";
const REHEARSE_BYTES: &CStr = c"nghiralum_rehearse";
const WRITE_SUMMARY: &CStr = c"summary::write_summary";
const ASK: &CStr = c"summary::ask";
const SUMMARY_BYTES: &CStr = c"nghiralum_summary";
const ASK_BYTES: &CStr = c"nghiralum_ask";
const JUDGE: &CStr = c"judge::judge";
const JUDGE_BYTES: &CStr = c"nghiralum_judge";
const CHECK: &CStr = c"checking::check";
const APART: &CStr = c"apart::keeps_apart";
const CHECK_BYTES: &CStr = c"nghiralum_check";
const APART_BYTES: &CStr = c"nghiralum_apart";

/// Rattle's `Result` with a refusal: case 0 with what is answered, or 1 with the refusal. A `bool` stands in the byte behind the
/// case, all else where its own size lets it stand.
#[repr(C)]
#[derive(Default)]
struct Answer {
    case: u8,
    flag: u8,
    value: Value,
}

/// A length; or a refusal, a verdict on a listing or a finding: its case in the first byte, then its values, each where its own
/// size lets it stand.
#[repr(C, align(8))]
#[derive(Default, Clone, Copy)]
struct Value {
    bytes: [u8; 16],
}

impl Value {
    fn word(self, at: usize) -> u32 {
        let four = [0, 1, 2, 3].map(|byte| self.bytes[at + byte]);
        u32::from_ne_bytes(four)
    }

    fn length(self, at: usize) -> usize {
        let eight = [0, 1, 2, 3, 4, 5, 6, 7].map(|byte| self.bytes[at + byte]);
        u64::from_ne_bytes(eight) as usize
    }
}

impl Value {
    /// The refusal as the host gives it. Rattle's `Refusal` has a case for each number, in the order in which they came
    /// up: 1 to 12, 20, 21, 13, 22, 24. Which values a case has, this can only take from its number. A new refusal, or a case with
    /// other values, needs a line here. All bytes were set before the call, so whatever case comes back, what is read here
    /// was written.
    fn refusal(self) -> Refusal {
        let number = match self.bytes[0] {
            case @ 0..12 => u32::from(case) + 1,
            case @ 12..14 => u32::from(case) + 8,
            14 => 13,
            15 => 22,
            16 => 24,
            _ => NO_REFUSAL,
        };
        let place = match number {
            1 | 9 => vec![0],
            10 | 13 => vec![self.word(4), self.word(8)],
            12 | 20 => vec![u32::try_from(self.length(8)).unwrap_or(u32::MAX)],
            _ => vec![self.word(4)],
        };
        Refusal { number, place }
    }
}

/// The number of a case that there is none of.
const NO_REFUSAL: u32 = 255;

impl Answer {
    /// The answer as the host gives it.
    fn read(&self) -> Result<usize, Refusal> {
        match self.case {
            0 => Ok(self.value.length(0)),
            _ => Err(self.value.refusal()),
        }
    }

    /// The reply to a question, as the host gives it.
    fn reply(&self) -> Result<bool, Refusal> {
        match self.case {
            0 => Ok(self.flag != 0),
            _ => Err(self.value.refusal()),
        }
    }

    /// The verdict on a listing, as the host gives it: case 0 for the same, 1 with a place.
    fn verdict(&self) -> Result<Verdict, Refusal> {
        match (self.case, self.value.bytes[0]) {
            (0, 0) => Ok(Verdict::Same),
            (0, _) => Ok(Verdict::Differs(self.value.length(8))),
            _ => Err(self.value.refusal()),
        }
    }

    /// The verdict on a derivation, as the host gives it: case 0 for safe, 1 with a line, 2 for another. Its one refusal is 24, and any
    /// other is given as no count that a derivation has.
    fn finding(&self) -> types::Verdict {
        match (self.case, self.value.bytes[0]) {
            (0, 0) => types::Verdict::Safe,
            (0, 1) => types::Verdict::Bad(u32::try_from(self.value.length(8)).unwrap_or(u32::MAX)),
            (0, _) => types::Verdict::Another,
            _ => match self.value.refusal() {
                Refusal { number: 24, place } => types::Verdict::Refused(place[0]),
                _ => types::Verdict::Refused(0),
            },
        }
    }
}

/// An answer as the functions on bytes give it, in one number: the refusal's in the lowest byte, 0 for none; above it
/// four bytes for the first value, a length in words or a place, and three for a second place.
pub fn packed(answer: &Result<usize, Refusal>) -> u64 {
    let (number, place) = match answer {
        Ok(length) => (0, vec![*length as u64]),
        Err(Refusal { number, place }) => (u64::from(*number), place.iter().map(|word| u64::from(*word)).collect()),
    };
    let value = |at: usize| place.get(at).copied().unwrap_or(0);
    number | value(0) << 8 | value(1) << 40
}

/// The reply to a question, packed likewise: the first value is 1 for yes and 0 for no.
pub fn packed_reply(reply: &Result<bool, Refusal>) -> u64 {
    packed(&reply.clone().map(usize::from))
}

/// The verdict on a listing, packed likewise: the first value is 1 for the same and 0 for another, of which the second is
/// the place.
pub fn packed_verdict(verdict: &Result<Verdict, Refusal>) -> u64 {
    match verdict {
        Ok(Verdict::Same) => 1 << 8,
        Ok(Verdict::Differs(place)) => (*place as u64) << 40,
        Err(refusal) => packed(&Err(refusal.clone())),
    }
}

/// The verdict on a derivation, packed likewise: the first value is 1 for safe and 2 for another; for a bad line it is 0,
/// and the second is the line.
pub fn packed_finding(verdict: &Result<types::Verdict, Refusal>) -> u64 {
    match verdict {
        Ok(types::Verdict::Safe) => 1 << 8,
        Ok(types::Verdict::Another) => 2 << 8,
        Ok(types::Verdict::Bad(line)) => u64::from(*line) << 40,
        Ok(types::Verdict::Refused(count)) => u64::from(*count) << 8 | 24,
        Err(refusal) => packed(&Err(refusal.clone())),
    }
}

// Rattle hands a slice over as a pointer and a length, to its own functions as to C's, and `host/library` holds those on words
// to these parameters.
type Translate = unsafe extern "C" fn(*mut Answer, *const u32, usize, *mut u32, usize);
type Rehearse = unsafe extern "C" fn(*mut Answer, *const u32, usize, *const u32, usize, *mut u32, usize);
type TranslateBytes = unsafe extern "C" fn(*const u8, usize, *mut u8, usize) -> u64;
type RehearseBytes = unsafe extern "C" fn(*const u8, usize, *const u8, usize, *mut u8, usize) -> u64;
type Ask = unsafe extern "C" fn(*mut Answer, *const u32, usize, u32, u32, u32);
type AskBytes = unsafe extern "C" fn(*const u8, usize, u32, u32, u32) -> u64;
type Judge = unsafe extern "C" fn(*mut Answer, *const u32, usize, u32, *const u32, usize);
type JudgeBytes = unsafe extern "C" fn(*const u8, usize, u32, *const u8, usize) -> u64;
type Check = unsafe extern "C" fn(*mut Answer, *const u32, usize, *const u32, usize);
type Apart = unsafe extern "C" fn(*const u32, usize) -> bool;
type CheckBytes = unsafe extern "C" fn(*const u8, usize, *const u8, usize, *mut u32, usize) -> u64;
type ApartBytes = unsafe extern "C" fn(*const u8, usize, *mut u32, usize) -> u64;

/// The functions that a library has. It is never closed: they live as long as the command.
pub struct Library {
    translate: Option<Translate>,
    rehearse: Option<Rehearse>,
    translate_bytes: Option<TranslateBytes>,
    rehearse_bytes: Option<RehearseBytes>,
    write_summary: Option<Translate>,
    ask: Option<Ask>,
    summary_bytes: Option<TranslateBytes>,
    ask_bytes: Option<AskBytes>,
    judge: Option<Judge>,
    judge_bytes: Option<JudgeBytes>,
    check: Option<Check>,
    apart: Option<Apart>,
    check_bytes: Option<CheckBytes>,
    apart_bytes: Option<ApartBytes>,
}

impl Library {
    /// Opens a library. What it holds is believed to be what the script puts there.
    pub fn open(path: &Path) -> Result<Library, String> {
        let library = opened(path)?;
        let find = |name: &CStr| {
            // SAFETY: the library is open, and the name ends with a zero.
            let found = unsafe { dlsym(library, name.as_ptr()) };
            (!found.is_null()).then_some(found)
        };
        // SAFETY: the IR declares those on words with pointers and plain numbers alone, those on bytes as C does, in this
        // order.
        Ok(unsafe {
            Library {
                translate: find(TRANSLATE).map(|found| mem::transmute::<*mut c_void, Translate>(found)),
                rehearse: find(REHEARSE).map(|found| mem::transmute::<*mut c_void, Rehearse>(found)),
                translate_bytes: find(TRANSLATE_BYTES)
                    .map(|found| mem::transmute::<*mut c_void, TranslateBytes>(found)),
                rehearse_bytes: find(REHEARSE_BYTES).map(|found| mem::transmute::<*mut c_void, RehearseBytes>(found)),
                write_summary: find(WRITE_SUMMARY).map(|found| mem::transmute::<*mut c_void, Translate>(found)),
                ask: find(ASK).map(|found| mem::transmute::<*mut c_void, Ask>(found)),
                summary_bytes: find(SUMMARY_BYTES).map(|found| mem::transmute::<*mut c_void, TranslateBytes>(found)),
                ask_bytes: find(ASK_BYTES).map(|found| mem::transmute::<*mut c_void, AskBytes>(found)),
                judge: find(JUDGE).map(|found| mem::transmute::<*mut c_void, Judge>(found)),
                judge_bytes: find(JUDGE_BYTES).map(|found| mem::transmute::<*mut c_void, JudgeBytes>(found)),
                check: find(CHECK).map(|found| mem::transmute::<*mut c_void, Check>(found)),
                apart: find(APART).map(|found| mem::transmute::<*mut c_void, Apart>(found)),
                check_bytes: find(CHECK_BYTES).map(|found| mem::transmute::<*mut c_void, CheckBytes>(found)),
                apart_bytes: find(APART_BYTES).map(|found| mem::transmute::<*mut c_void, ApartBytes>(found)),
            }
        })
    }

    /// The names of the functions that the library doesn't have: those of books.
    pub fn missing(&self) -> Vec<&'static str> {
        lacking(&[
            (TRANSLATE, self.translate.is_some()),
            (REHEARSE, self.rehearse.is_some()),
            (TRANSLATE_BYTES, self.translate_bytes.is_some()),
            (REHEARSE_BYTES, self.rehearse_bytes.is_some()),
            (WRITE_SUMMARY, self.write_summary.is_some()),
            (ASK, self.ask.is_some()),
            (SUMMARY_BYTES, self.summary_bytes.is_some()),
            (ASK_BYTES, self.ask_bytes.is_some()),
            (JUDGE, self.judge.is_some()),
            (JUDGE_BYTES, self.judge_bytes.is_some()),
        ])
    }

    /// And those of derivations.
    pub fn missing_types(&self) -> Vec<&'static str> {
        lacking(&[
            (CHECK, self.check.is_some()),
            (APART, self.apart.is_some()),
            (CHECK_BYTES, self.check_bytes.is_some()),
            (APART_BYTES, self.apart_bytes.is_some()),
        ])
    }

    pub fn has_check_bytes(&self) -> bool {
        self.check_bytes.is_some()
    }

    pub fn has_translate(&self) -> bool {
        self.translate.is_some()
    }

    pub fn has_rehearse(&self) -> bool {
        self.rehearse.is_some()
    }

    pub fn has_judge_bytes(&self) -> bool {
        self.judge_bytes.is_some()
    }

    /// The proved `translator::translate`, which the library must have.
    pub fn translate(&self, book: &[u32], out: &mut [u32]) -> Result<usize, Refusal> {
        let translate = self.translate.expect("the library has `translate`");
        let mut answer = Answer::default();
        // SAFETY: the slices are what they say, and the answer is as large as Rattle's.
        unsafe { translate(&mut answer, book.as_ptr(), book.len(), out.as_mut_ptr(), out.len()) };
        answer.read()
    }

    /// The proved `rehearsal::rehearse`, which the library must have.
    pub fn rehearse(&self, book: &[u32], schedule: &[u32], out: &mut [u32]) -> Result<usize, Refusal> {
        let rehearse = self.rehearse.expect("the library has `rehearse`");
        let mut answer = Answer::default();
        let (moves, count) = (schedule.as_ptr(), schedule.len());
        // SAFETY: as above.
        unsafe {
            rehearse(
                &mut answer,
                book.as_ptr(),
                book.len(),
                moves,
                count,
                out.as_mut_ptr(),
                out.len(),
            )
        };
        answer.read()
    }

    /// The proved `nghiralum_translate`, which the library must have: its answer as it is packed.
    pub fn translate_bytes(&self, book: &[u8], out: &mut [u8]) -> u64 {
        let translate = self.translate_bytes.expect("the library has `nghiralum_translate`");
        // SAFETY: the slices are what they say.
        unsafe { translate(book.as_ptr(), book.len(), out.as_mut_ptr(), out.len()) }
    }

    /// The proved `nghiralum_rehearse`, which the library must have: its answer as it is packed.
    pub fn rehearse_bytes(&self, book: &[u8], schedule: &[u8], out: &mut [u8]) -> u64 {
        let rehearse = self.rehearse_bytes.expect("the library has `nghiralum_rehearse`");
        let (moves, count) = (schedule.as_ptr(), schedule.len());
        // SAFETY: as above.
        unsafe { rehearse(book.as_ptr(), book.len(), moves, count, out.as_mut_ptr(), out.len()) }
    }

    /// The proved `summary::write_summary`, which the library must have.
    pub fn write_summary(&self, book: &[u32], out: &mut [u32]) -> Result<usize, Refusal> {
        let write = self.write_summary.expect("the library has `write_summary`");
        let mut answer = Answer::default();
        // SAFETY: as of `translate`.
        unsafe { write(&mut answer, book.as_ptr(), book.len(), out.as_mut_ptr(), out.len()) };
        answer.read()
    }

    /// The proved `summary::ask`, which the library must have, with the numbers of a party, a row and a step.
    pub fn ask(&self, summary: &[u32], [party, row, step]: [u32; 3]) -> Result<bool, Refusal> {
        let ask = self.ask.expect("the library has `ask`");
        let mut answer = Answer::default();
        // SAFETY: the slice is what it says, and the answer is as large as Rattle's `Result<bool, Refusal>`.
        unsafe { ask(&mut answer, summary.as_ptr(), summary.len(), party, row, step) };
        answer.reply()
    }

    /// The proved `nghiralum_summary`, which the library must have: its answer as it is packed.
    pub fn summary_bytes(&self, book: &[u8], out: &mut [u8]) -> u64 {
        let write = self.summary_bytes.expect("the library has `nghiralum_summary`");
        // SAFETY: as above.
        unsafe { write(book.as_ptr(), book.len(), out.as_mut_ptr(), out.len()) }
    }

    /// The proved `nghiralum_ask`, which the library must have: its answer as it is packed.
    pub fn ask_bytes(&self, summary: &[u8], [party, row, step]: [u32; 3]) -> u64 {
        let ask = self.ask_bytes.expect("the library has `nghiralum_ask`");
        // SAFETY: as above.
        unsafe { ask(summary.as_ptr(), summary.len(), party, row, step) }
    }

    /// The proved `judge::judge`, which the library must have.
    pub fn judge(&self, book: &[u32], party: u32, listing: &[u32]) -> Result<Verdict, Refusal> {
        let judge = self.judge.expect("the library has `judge`");
        let mut answer = Answer::default();
        // SAFETY: the slices are what they say, and the answer is as large as Rattle's `Result<Verdict, Refusal>`.
        unsafe {
            judge(
                &mut answer,
                book.as_ptr(),
                book.len(),
                party,
                listing.as_ptr(),
                listing.len(),
            )
        };
        answer.verdict()
    }

    /// The proved `nghiralum_judge`, which the library must have: its answer as it is packed.
    pub fn judge_bytes(&self, book: &[u8], party: u32, listing: &[u8]) -> u64 {
        let judge = self.judge_bytes.expect("the library has `nghiralum_judge`");
        // SAFETY: as above.
        unsafe { judge(book.as_ptr(), book.len(), party, listing.as_ptr(), listing.len()) }
    }

    /// The proved `checking::check`, which the library must have.
    pub fn check(&self, asked: &[u32], derivation: &[u32]) -> types::Verdict {
        let check = self.check.expect("the library has `check`");
        let mut answer = Answer::default();
        // SAFETY: the slices are what they say, and the answer is as large as Rattle's.
        unsafe {
            check(
                &mut answer,
                asked.as_ptr(),
                asked.len(),
                derivation.as_ptr(),
                derivation.len(),
            )
        };
        answer.finding()
    }

    /// The proved `apart::keeps_apart`, which the library must have.
    pub fn keeps_apart(&self, asked: &[u32]) -> bool {
        let apart = self.apart.expect("the library has `keeps_apart`");
        // SAFETY: the slice is what it says.
        unsafe { apart(asked.as_ptr(), asked.len()) }
    }

    /// The proved `nghiralum_check`, which the library must have: its answer as it is packed.
    pub fn check_bytes(&self, asked: &[u8], derivation: &[u8], room: &mut [u32]) -> u64 {
        let check = self.check_bytes.expect("the library has `nghiralum_check`");
        let (lines, length) = (derivation.as_ptr(), derivation.len());
        // SAFETY: the slices are what they say.
        unsafe {
            check(
                asked.as_ptr(),
                asked.len(),
                lines,
                length,
                room.as_mut_ptr(),
                room.len(),
            )
        }
    }

    /// The proved `nghiralum_apart`, which the library must have: its answer as it is packed.
    pub fn apart_bytes(&self, asked: &[u8], room: &mut [u32]) -> u64 {
        let apart = self.apart_bytes.expect("the library has `nghiralum_apart`");
        // SAFETY: as above.
        unsafe { apart(asked.as_ptr(), asked.len(), room.as_mut_ptr(), room.len()) }
    }
}

/// The names of what isn't there.
fn lacking(all: &[(&'static CStr, bool)]) -> Vec<&'static str> {
    let missing = all.iter().filter(|(_, there)| !there);
    missing
        .map(|(name, _)| name.to_str().expect("names are plain"))
        .collect()
}

fn opened(path: &Path) -> Result<*mut c_void, String> {
    let told = |what: &str| format!("{}: {what}", path.display());
    // A name without a slash would be looked for in the system's folders.
    let whole = path.canonicalize();
    let whole = whole.map_err(|error| told(&error.to_string()))?;
    let name = CString::new(whole.as_os_str().as_encoded_bytes());
    let name = name.map_err(|_| told("no name of a file"))?;
    // SAFETY: the name ends with a zero. The library has no code that runs when it is opened.
    let library = unsafe { dlopen(name.as_ptr(), NOW) };
    if library.is_null() {
        // SAFETY: after a failure this is a text that ends with a zero.
        let why = unsafe { CStr::from_ptr(dlerror()) };
        return Err(told(&why.to_string_lossy()));
    }
    Ok(library)
}

#[cfg(test)]
mod tests {
    use super::*;

    fn answered(case: u8, flag: u8, bytes: [u8; 16]) -> Answer {
        let value = Value { bytes };
        Answer { case, flag, value }
    }

    fn answer(case: u8, bytes: [u8; 16]) -> Result<usize, Refusal> {
        answered(case, 0, bytes).read()
    }

    #[test]
    fn answers_are_read() {
        assert_eq!(mem::size_of::<Answer>(), 24);
        let mut bytes = [0; 16];
        bytes[..8].copy_from_slice(&300u64.to_ne_bytes());
        assert_eq!(answer(0, bytes), Ok(300));
        assert_eq!(answer(1, [0; 16]), Err(Refusal::new(1, &[0])));
        let mut bytes = [0; 16];
        bytes[0] = 9;
        bytes[4..8].copy_from_slice(&5u32.to_ne_bytes());
        bytes[8..12].copy_from_slice(&700u32.to_ne_bytes());
        assert_eq!(answer(1, bytes), Err(Refusal::new(10, &[5, 700])));
        bytes[0] = 14;
        assert_eq!(answer(1, bytes), Err(Refusal::new(13, &[5, 700])));
        bytes[0] = 3;
        assert_eq!(answer(1, bytes), Err(Refusal::new(4, &[5])));
        let mut bytes = [0; 16];
        bytes[0] = 11;
        bytes[8..].copy_from_slice(&20_000u64.to_ne_bytes());
        assert_eq!(answer(1, bytes), Err(Refusal::new(12, &[20_000])));
        let mut bytes = [0xff; 16];
        bytes[0] = 12;
        bytes[8..].copy_from_slice(&16_388u64.to_ne_bytes());
        assert_eq!(answer(1, bytes), Err(Refusal::new(20, &[16_388])));
        bytes[0] = 13;
        bytes[4..8].copy_from_slice(&1_024u32.to_ne_bytes());
        assert_eq!(answer(1, bytes), Err(Refusal::new(21, &[1_024])));
        bytes[0] = 15;
        assert_eq!(answer(1, bytes), Err(Refusal::new(22, &[1_024])));
        bytes[0] = 16;
        assert_eq!(answer(1, bytes), Err(Refusal::new(24, &[1_024])));
        // Whatever comes back is read, and a case that there is none of is no refusal's.
        for case in 17..=255 {
            bytes[0] = case;
            assert_eq!(answer(0xff, bytes), Err(Refusal::new(255, &[1_024])));
        }
    }

    #[test]
    fn replies_are_read() {
        let reply = |case: u8, flag: u8, bytes: [u8; 16]| answered(case, flag, bytes).reply();
        assert_eq!(reply(0, 1, [0xff; 16]), Ok(true));
        assert_eq!(reply(0, 0, [0xff; 16]), Ok(false));
        let mut bytes = [0; 16];
        bytes[0] = 12;
        // A length is told as at most the largest word.
        for (length, told) in [(0, 0), (13, 13), (u64::from(u32::MAX), u32::MAX), (1 << 32, u32::MAX)] {
            bytes[8..].copy_from_slice(&length.to_ne_bytes());
            assert_eq!(reply(1, 0xff, bytes), Err(Refusal::new(20, &[told])));
        }
        bytes[0] = 13;
        bytes[4..8].copy_from_slice(&u32::MAX.to_ne_bytes());
        assert_eq!(reply(1, 0xff, bytes), Err(Refusal::new(21, &[u32::MAX])));
    }

    #[test]
    fn verdicts_are_read() {
        let verdict = |case: u8, bytes: [u8; 16]| answered(case, 0xff, bytes).verdict();
        let mut bytes = [0xff; 16];
        bytes[0] = 0;
        assert_eq!(verdict(0, bytes), Ok(Verdict::Same));
        bytes[0] = 1;
        for place in [0, 1, 70_000, 1_051_906] {
            bytes[8..].copy_from_slice(&(place as u64).to_ne_bytes());
            assert_eq!(verdict(0, bytes), Ok(Verdict::Differs(place)));
        }
        bytes[0] = 15;
        for party in [2, 0x1_0000, u32::MAX] {
            bytes[4..8].copy_from_slice(&party.to_ne_bytes());
            assert_eq!(verdict(1, bytes), Err(Refusal::new(22, &[party])));
        }
    }

    #[test]
    fn findings_are_read() {
        let finding = |case: u8, bytes: [u8; 16]| answered(case, 0xff, bytes).finding();
        let mut bytes = [0xff; 16];
        bytes[0] = 0;
        assert_eq!(finding(0, bytes), types::Verdict::Safe);
        bytes[0] = 2;
        assert_eq!(finding(0, bytes), types::Verdict::Another);
        bytes[0] = 1;
        for line in [0, 1, 1_023] {
            bytes[8..].copy_from_slice(&u64::from(line).to_ne_bytes());
            assert_eq!(finding(0, bytes), types::Verdict::Bad(line));
        }
        bytes[0] = 16;
        bytes[4..8].copy_from_slice(&1_025u32.to_ne_bytes());
        assert_eq!(finding(1, bytes), types::Verdict::Refused(1_025));
    }

    #[test]
    fn verdicts_are_packed() {
        assert_eq!(packed_verdict(&Ok(Verdict::Same)), 1 << 8);
        assert_eq!(packed_verdict(&Ok(Verdict::Differs(0))), 0);
        assert_eq!(packed_verdict(&Ok(Verdict::Differs(1_051_906))), 1_051_906 << 40);
        assert_eq!(packed_verdict(&Err(Refusal::new(22, &[u32::MAX]))), 0xff_ffff_ff16);
        assert_eq!(packed_verdict(&Err(Refusal::new(10, &[63, 5]))), 5 << 40 | 63 << 8 | 10);
    }

    #[test]
    fn findings_are_packed() {
        assert_eq!(packed_finding(&Ok(types::Verdict::Safe)), 1 << 8);
        assert_eq!(packed_finding(&Ok(types::Verdict::Another)), 2 << 8);
        assert_eq!(packed_finding(&Ok(types::Verdict::Bad(0))), 0);
        assert_eq!(packed_finding(&Ok(types::Verdict::Bad(1_023))), 1_023 << 40);
        assert_eq!(packed_finding(&Ok(types::Verdict::Refused(u32::MAX))), 0xff_ffff_ff18);
        assert_eq!(packed_finding(&Err(Refusal::new(12, &[7]))), 7 << 8 | 12);
    }

    #[test]
    fn answers_are_packed() {
        assert_eq!(packed(&Ok(0)), 0);
        assert_eq!(packed(&Ok(51)), 51 << 8);
        assert_eq!(packed(&Err(Refusal::new(1, &[0]))), 1);
        assert_eq!(packed(&Err(Refusal::new(12, &[33_558_593]))), 33_558_593 << 8 | 12);
        assert_eq!(packed(&Err(Refusal::new(10, &[63, 1_023]))), 1_023 << 40 | 63 << 8 | 10);
        assert_eq!(packed(&Err(Refusal::new(13, &[63, 1_023]))), 1_023 << 40 | 63 << 8 | 13);
        assert_eq!(packed_reply(&Ok(true)), 1 << 8);
        assert_eq!(packed_reply(&Ok(false)), 0);
        assert_eq!(packed_reply(&Err(Refusal::new(20, &[u32::MAX]))), 0xff_ffff_ff14);
        assert_eq!(packed_reply(&Err(Refusal::new(21, &[7]))), 7 << 8 | 21);
    }
}
