//! Making the call of a case and writing its answer down.

use crate::words::{write_bytes, write_list};
use crate::{Case, Library};
use crestulbino::{Beams, Built, Field, Kind, Refused, Row, Source, Verdict};
use std::fmt::{self, Display};

/// The answer to a line that is no case.
pub const BAD_LINE: &str = "bad line";

/// A part that an answer does not have.
const ABSENT: &str = "absent";

/// Answers a line, whether or not it is a case.
pub fn answer_line(library: &Library, line: &[u8]) -> String {
    Case::parse(line).map_or_else(|| BAD_LINE.to_string(), |case| answer(library, &case))
}

/// Makes the call of a case. Memory that the call may write to is shown behind its answer,
/// refused or not.
pub fn answer(library: &Library, case: &Case) -> String {
    match case {
        Case::ReadLabel { bytes, versions } => {
            line((library.read_label)(*versions, bytes).map(|label| {
                format!(
                    "{} {} {} {} {} {}",
                    Bytes(&label.agency),
                    label.version.number(),
                    Bytes(&[label.class]),
                    Bytes(&label.description),
                    label.length,
                    label.spaces
                )
            }))
        }
        Case::WriteLabel {
            version,
            head,
            length,
            buffer,
        } => writes(buffer, Bytes, |buffer| {
            (library.write_label)(*version, head, *length, buffer)
        }),
        Case::CheckLabelled { file, versions } => {
            line((library.check)(Kind::Labelled(*versions), file))
        }
        Case::CheckWaveform { file } => line((library.check)(Kind::Waveform, file)),
        Case::CheckBursts { file, start } => line((library.check)(Kind::Bursts(*start), file)),
        Case::ReadRowLabelled {
            file,
            row,
            window,
            versions,
        } => {
            let kind = Kind::Labelled(*versions);
            shown((library.read_row)(kind, file, *row, *window))
        }
        Case::ReadRowWaveform { file, row, window } => {
            shown((library.read_row)(Kind::Waveform, file, *row, *window))
        }
        Case::ReadRowBursts {
            file,
            start,
            row,
            window,
        } => {
            let kind = Kind::Bursts(*start);
            shown((library.read_row)(kind, file, *row, *window))
        }
        Case::JumpLabelled {
            file,
            list,
            row,
            window,
            versions,
        } => shown((library.jump_labelled)(
            *versions, file, list, *row, *window,
        )),
        Case::JumpWaveform { file, row, window } => {
            shown((library.jump_waveform)(file, *row, *window))
        }
        Case::JumpBursts {
            file,
            start,
            row,
            window,
        } => shown((library.jump_bursts)(file, *start, *row, *window)),
        Case::RowFrom { kind, file, from } => shown((library.row_from)(*kind, file, *from)),
        Case::SubstituteRow {
            original,
            substitute,
            row,
            versions,
        } => line(
            (library.substitute_row)(*versions, original, substitute, *row).map(|chosen| {
                let source = match chosen.source {
                    Source::Original => "original",
                    Source::Substitute => "substitute",
                };
                format!("{source} {}", RowParts(chosen.row))
            }),
        ),
        Case::BuildIndex {
            file,
            list,
            versions,
        } => writes(list, List, |list| {
            (library.build_index)(*versions, file, list).map(both_counts)
        }),
        Case::CheckIndex {
            file,
            list,
            versions,
        } => accepted((library.check_index)(*versions, file, list)),
        Case::JoinedIndex {
            first,
            first_list,
            second,
            second_list,
            list,
            versions,
        } => writes(list, List, |list| {
            let joined =
                (library.joined_index)(*versions, first, first_list, second, second_list, list);
            joined.map(both_counts)
        }),
        Case::KeepIndex { list, buffer } => {
            writes(buffer, Bytes, |buffer| (library.keep_index)(list, buffer))
        }
        Case::LoadKept { bytes, list } => {
            writes(list, List, |list| (library.load_kept)(bytes, list))
        }
        Case::LoadKept2 { bytes, list } => writes(list, List, |list| {
            let loaded = (library.load_kept2)(bytes, list)?;
            Ok(format!("{} {}", loaded.rows, loaded.entries))
        }),
        Case::Convert1To2 {
            file,
            kept,
            buffer,
            versions,
        } => writes(buffer, Bytes, |buffer| {
            (library.convert_1_to_2)(*versions, file, kept, buffer)
        }),
        Case::Convert2To1 { kept, buffer } => writes(buffer, Bytes, |buffer| {
            (library.convert_2_to_1)(kept, buffer)
        }),
        Case::CheckKept2 {
            file,
            kept,
            versions,
        } => accepted((library.check_kept2)(*versions, file, kept)),
        Case::Tone { byte } => line(Ok((library.tone)(*byte))),
        Case::Strip {
            kind,
            file,
            row,
            rows,
            window,
            buffer,
        } => writes(buffer, Bytes, |buffer| {
            (library.strip)(*kind, file, *row, *rows, *window, buffer)
        }),
        Case::Behind {
            kind,
            file,
            row,
            window,
            column,
            line: of_strip,
        } => {
            let dot = (library.behind)(*kind, file, *row, *window, *column, *of_strip);
            line(dot.map(|dot| {
                let bit = u8::from(dot.is_set);
                format!("{} {} {} {bit}", dot.place, dot.byte, dot.tone)
            }))
        }
        Case::Sample { byte } => line(Ok((library.sample)(*byte))),
        Case::VaxF { bytes } => line((library.vax_f)(bytes).map(Float)),
        Case::VaxD { bytes } => line((library.vax_d)(bytes).map(Float)),
        Case::VaxDDropped { bytes } => line((library.vax_d_dropped)(bytes).map(Float)),
        Case::Opening { bytes } => line((library.opening)(bytes).map(|opening| {
            let (start, stop) = (Float(opening.start), Float(opening.stop));
            format!("{} {start} {stop}", opening.orbit)
        })),
        Case::Verdict { element, value } => judged((library.verdict)(*element, *value)),
        Case::BurstField {
            file,
            start,
            row,
            position,
        } => line(
            (library.burst_field)(file, *start, *row, *position).map(|field| match field {
                Field::Unsigned(number) => format!("unsigned {number}"),
                Field::Signed(number) => format!("signed {number}"),
                Field::Float4(bits) => format!("float4 {bits:08x}"),
                Field::Float8(bits) => format!("float8 {bits:016x}"),
                Field::Text(text) => format!("text {}", Bytes(text.bytes)),
            }),
        ),
        Case::BurstVerdict {
            file,
            start,
            row,
            position,
        } => judged((library.burst_verdict)(file, *start, *row, *position)),
        Case::Beams { mask } => match (library.beams)(*mask) {
            Beams::Inside(beams) => format!("ok inside {beams}"),
            Beams::Above => format!("ok above {ABSENT}"),
        },
        Case::Mode { number } => match (library.mode)(*number) {
            Some(mode) => format!("ok {}", mode.number()),
            None => "ok unnamed".to_string(),
        },
    }
}

fn both_counts(built: Built) -> String {
    format!("{} {}", built.entries, built.rows)
}

fn accepted(answer: Result<(), Refused>) -> String {
    answer.map_or_else(refusal, |()| "ok".to_string())
}

fn judged(verdict: Result<Verdict, Refused>) -> String {
    line(verdict.map(|verdict| match verdict {
        Verdict::Below => "below",
        Verdict::Inside => "inside",
        Verdict::Above => "above",
    }))
}

fn refusal(refused: Refused) -> String {
    format!("ref {} {}", refused.refusal.number(), refused.place)
}

fn line(answer: Result<impl Display, Refused>) -> String {
    answer.map_or_else(refusal, |parts| format!("ok {parts}"))
}

fn shown(answer: Result<Row<'_>, Refused>) -> String {
    line(answer.map(RowParts))
}

/// Lends a copy of the case's memory to a call, and shows it behind the answer.
fn writes<T: Copy, Answer: Display, Shown: Display>(
    memory: &[T],
    show: impl FnOnce(Vec<T>) -> Shown,
    call: impl FnOnce(&mut [T]) -> Result<Answer, Refused>,
) -> String {
    let mut memory = memory.to_vec();
    let answer = line(call(&mut memory));
    format!("{answer} {}", show(memory))
}

/// A row with its address.
struct RowParts<'a>(Row<'a>);

impl Display for RowParts<'_> {
    fn fmt(&self, f: &mut fmt::Formatter<'_>) -> fmt::Result {
        let row = self.0;
        write!(
            f,
            "{} {} {} ",
            row.place,
            Bytes(row.bytes),
            row.address.label
        )?;
        match row.address.nesting {
            Some(nesting) => write!(f, "{} {}", nesting.depth, nesting.outermost),
            None => write!(f, "{ABSENT} {ABSENT}"),
        }
    }
}

struct Bytes<B>(B);

impl<B: AsRef<[u8]>> Display for Bytes<B> {
    fn fmt(&self, f: &mut fmt::Formatter<'_>) -> fmt::Result {
        write_bytes(self.0.as_ref(), f)
    }
}

struct List(Vec<u32>);

impl Display for List {
    fn fmt(&self, f: &mut fmt::Formatter<'_>) -> fmt::Result {
        write_list(&self.0, f)
    }
}

/// The bits of a float, the most significant digit first.
struct Float(f64);

impl Display for Float {
    fn fmt(&self, f: &mut fmt::Formatter<'_>) -> fmt::Result {
        write!(f, "{:016x}", self.0.to_bits())
    }
}
