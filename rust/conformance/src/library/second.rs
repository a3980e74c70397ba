//! The second implementation behind the calls' types.

use super::Library;
use crestulbino::{
    Address, Beams, Built, Chosen, Dot, Field, Kept2, Kind, Label, Mode, Nesting, Opening, Refusal,
    Refused, Row, Source, Text, Verdict, Version, Versions, Window,
};
use independent::refusal::{self, Reason};
use independent::{
    altimeter, bursts, joined, kept, label, labelled, orbit, plotter, row_index, substitute, vax,
    waveform, window,
};

/// The second implementation, written from the documents alone.
pub const INDEPENDENT: Library = Library {
    read_label: |versions, bytes| {
        let label = label::read(taken(versions), bytes).map_err(refused)?;
        Ok(Label {
            agency: label.agency,
            version: match label.version {
                label::Version::One => Version::One,
                label::Version::Two => Version::Two,
            },
            class: label.class,
            description: label.description,
            length: label.length as usize,
            spaces: label.spaces,
        })
    },
    write_label: |version, head, length, buffer| {
        let version = match version {
            Version::One => label::Version::One,
            Version::Two => label::Version::Two,
        };
        count(label::write(version, head, length as u64, buffer))
    },
    check: |kind, file| {
        count(match kind {
            Kind::Labelled(versions) => labelled::check(taken(versions), file),
            Kind::Waveform => waveform::check(file),
            Kind::Bursts(start) => bursts::check(file, start as u64),
        })
    },
    read_row: |kind, file, row, window| {
        let (row, window) = (row as u64, part_of_row(window));
        shown(match kind {
            Kind::Labelled(versions) => labelled::read_row(taken(versions), file, row, window),
            Kind::Waveform => waveform::read_row(file, row, window),
            Kind::Bursts(start) => bursts::read_row(file, start as u64, row, window),
        })
    },
    jump_labelled: |versions, file, list, row, window| {
        let (row, window) = (row as u64, part_of_row(window));
        shown(row_index::jump(taken(versions), file, list, row, window))
    },
    jump_waveform: |file, row, window| shown(waveform::jump(file, row as u64, part_of_row(window))),
    jump_bursts: |file, start, row, window| {
        let (start, row) = (start as u64, row as u64);
        shown(bursts::jump(file, start, row, part_of_row(window)))
    },
    row_from: |kind, file, from| {
        shown(match kind {
            Kind::Labelled(versions) => labelled::row_from(taken(versions), file, from as u64),
            Kind::Waveform => waveform::row_from(file, from as u64),
            Kind::Bursts(start) => bursts::row_from(file, start as u64, from as u64),
        })
    },
    substitute_row: |versions, original, substitute, row| {
        let choice = substitute::row(taken(versions), original, substitute, row as u64);
        let choice = choice.map_err(refused)?;
        Ok(Chosen {
            source: match choice.origin {
                substitute::Origin::Original => Source::Original,
                substitute::Origin::Substitute => Source::Substitute,
            },
            row: row_of(choice.part),
        })
    },
    build_index: |versions, file, list| built(row_index::build(taken(versions), file, list)),
    check_index: |versions, file, list| {
        row_index::check(taken(versions), file, list).map_err(refused)
    },
    joined_index: |versions, first, first_list, second, second_list, list| {
        built(joined::index(
            taken(versions),
            first,
            first_list,
            second,
            second_list,
            list,
        ))
    },
    keep_index: |list, buffer| count(kept::keep(list, buffer)),
    load_kept: |bytes, list| count(kept::load(bytes, list)),
    load_kept2: |bytes, list| {
        let loaded = kept::load_counted(bytes, list).map_err(refused)?;
        Ok(Kept2 {
            rows: loaded.rows as usize,
            entries: loaded.entries as usize,
        })
    },
    convert_1_to_2: |versions, file, kept, buffer| {
        count(kept::add_count(taken(versions), file, kept, buffer))
    },
    convert_2_to_1: |kept, buffer| count(kept::drop_count(kept, buffer)),
    check_kept2: |versions, file, kept| {
        kept::check_counted(taken(versions), file, kept).map_err(refused)
    },
    tone: plotter::tone,
    strip: |kind, file, row, rows, window, buffer| {
        let (kind, window) = (kind_of(kind), part_of_row(window));
        let (row, rows) = (row as u64, rows as u64);
        count(plotter::strip(kind, file, row, rows, window, buffer))
    },
    behind: |kind, file, row, window, column, line| {
        let (kind, window) = (kind_of(kind), part_of_row(window));
        let (row, column, line) = (row as u64, column as u64, line as u64);
        let dot = plotter::behind(kind, file, row, window, column, line).map_err(refused)?;
        Ok(Dot {
            place: dot.place as usize,
            byte: dot.byte,
            tone: dot.tone,
            is_set: dot.is_set,
        })
    },
    sample: |byte| waveform::sample(byte).into(),
    vax_f: |bytes| vax::f_float(bytes).map_err(refused),
    vax_d: |bytes| vax::d_float(bytes).map_err(refused),
    vax_d_dropped: |bytes| vax::d_float_dropped(bytes).map_err(refused),
    opening: |bytes| {
        let opening = orbit::opening(bytes).map_err(refused)?;
        Ok(Opening {
            orbit: opening.orbit.into(),
            start: opening.start,
            stop: opening.stop,
        })
    },
    verdict: |element, value| judged(altimeter::verdict(element, value)),
    burst_field: |file, start, row, position| {
        let value = bursts::value(file, start as u64, row as u64, position);
        Ok(match value.map_err(refused)? {
            bursts::Value::Unsigned(number) => Field::Unsigned(number.into()),
            bursts::Value::Signed(number) => Field::Signed(number.into()),
            bursts::Value::Float4(bits) => Field::Float4(bits),
            bursts::Value::Float8(bits) => Field::Float8(bits),
            bursts::Value::Text(text) => Field::Text(Text {
                place: text.place as usize,
                bytes: text.bytes,
            }),
        })
    },
    burst_verdict: |file, start, row, position| {
        judged(bursts::verdict(file, start as u64, row as u64, position))
    },
    beams: |mask| bursts::beams(mask).map_or(Beams::Above, Beams::Inside),
    mode: |number| bursts::mode(number).map(mode_named),
};

fn judged(verdict: Result<altimeter::Verdict, refusal::Refusal>) -> Result<Verdict, Refused> {
    Ok(match verdict.map_err(refused)? {
        altimeter::Verdict::Below => Verdict::Below,
        altimeter::Verdict::Inside => Verdict::Inside,
        altimeter::Verdict::Above => Verdict::Above,
    })
}

fn mode_named(mode: bursts::Mode) -> Mode {
    match mode {
        bursts::Mode::EightToTwoAdaptive => Mode::Baq8To2,
        bursts::Mode::EightToOneAdaptive => Mode::Baq8To1,
        bursts::Mode::EightToZero => Mode::Bits8To0,
        bursts::Mode::EightToTwoHighest => Mode::Bits8To2Msb,
        bursts::Mode::EightToFourHighest => Mode::Bits8To4Msb,
        bursts::Mode::EightStraight => Mode::Bits8Straight,
        bursts::Mode::EightToFourAdaptiveLow => Mode::Baq8To4Low,
        bursts::Mode::EightToFourAdaptiveHigh => Mode::Baq8To4High,
    }
}

/// The choice in the words of the second implementation.
pub(crate) fn taken(versions: Versions) -> label::Versions {
    match versions {
        Versions::One => label::Versions::First,
        Versions::OneAndTwo => label::Versions::Both,
    }
}

fn kind_of(kind: Kind) -> plotter::Kind {
    match kind {
        Kind::Labelled(versions) => plotter::Kind::Labelled(taken(versions)),
        Kind::Waveform => plotter::Kind::Waveform,
        Kind::Bursts(start) => plotter::Kind::Bursts(start as u64),
    }
}

fn count(answer: Result<u64, refusal::Refusal>) -> Result<usize, Refused> {
    answer.map(|count| count as usize).map_err(refused)
}

fn built(answer: Result<row_index::Built, refusal::Refusal>) -> Result<Built, Refused> {
    let built = answer.map_err(refused)?;
    Ok(Built {
        entries: built.entries as usize,
        rows: built.rows as usize,
    })
}

fn part_of_row(window: Window) -> window::Window {
    window::Window::new(window.first as u64, window.count as u64)
}

fn shown(answer: Result<window::Part<'_>, refusal::Refusal>) -> Result<Row<'_>, Refused> {
    answer.map(row_of).map_err(refused)
}

fn row_of(part: window::Part<'_>) -> Row<'_> {
    let nesting = part.address.nesting.map(|nesting| Nesting {
        depth: nesting.depth as usize,
        outermost: nesting.outermost as usize,
    });
    Row {
        place: part.place as usize,
        bytes: part.bytes,
        address: Address {
            label: part.address.label as usize,
            nesting,
        },
    }
}

fn refused(refusal: refusal::Refusal) -> Refused {
    Refused {
        refusal: named(refusal.reason),
        place: refusal.place as usize,
    }
}

fn named(reason: Reason) -> Refusal {
    match reason {
        Reason::Short => Refusal::Short,
        Reason::BadLabel => Refusal::BadLabel,
        Reason::BadLength => Refusal::BadLength,
        Reason::Overrun => Refusal::Overrun,
        Reason::Deep => Refusal::Deep,
        Reason::NoRow => Refusal::NoRow,
        Reason::NoPart => Refusal::NoPart,
        Reason::Small => Refusal::Small,
        Reason::Reserved => Refusal::Reserved,
        Reason::Unknown => Refusal::Unknown,
        Reason::BadIndex => Refusal::BadIndex,
        Reason::Ragged => Refusal::Ragged,
        Reason::BadKept => Refusal::BadKept,
        Reason::TooBig => Refusal::TooBig,
        Reason::TooLong => Refusal::TooLong,
        Reason::BadStart => Refusal::BadStart,
    }
}

#[cfg(test)]
mod tests {
    use super::*;

    #[test]
    fn both_sides_number_refusals_alike() {
        let reasons = [
            Reason::Short,
            Reason::BadLabel,
            Reason::BadLength,
            Reason::Overrun,
            Reason::Deep,
            Reason::NoRow,
            Reason::NoPart,
            Reason::Small,
            Reason::Reserved,
            Reason::Unknown,
            Reason::BadIndex,
            Reason::Ragged,
            Reason::BadKept,
            Reason::TooBig,
            Reason::TooLong,
            Reason::BadStart,
        ];
        for reason in reasons {
            assert_eq!(named(reason).number(), u64::from(reason.number()));
        }
    }
}
