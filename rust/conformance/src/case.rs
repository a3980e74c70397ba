//! The cases: one line of a table for each call.

use crate::argument::Argument;
use crate::words::Words;
use crestulbino::{Kind, Version, Versions, Window};
use std::fmt;

/// Makes the cases of the calls' names and arguments, with all that is done alike for each.
macro_rules! cases {
    ($($name:literal $call:ident { $($argument:ident: $of:ty),+ })+) => {
        /// One call with all that is lent to it.
        #[derive(Clone, Debug, PartialEq, Eq)]
        pub enum Case {
            $(#[doc = concat!("`", $name, "`")] $call { $($argument: $of),+ },)+
        }

        impl Case {
            /// Reads a case from a line without its ending byte, or nothing if the line is no
            /// case.
            pub fn parse(line: &[u8]) -> Option<Case> {
                let mut words = Words::of(line);
                let case = match std::str::from_utf8(words.next()?).ok()? {
                    $($name => Case::$call { $($argument: Argument::read(&mut words)?),+ },)+
                    _ => return None,
                };
                words.are_used_up().then_some(case)
            }

            /// Makes its arguments smaller, one after the other, as long as the case still
            /// serves. Gives nothing once no more may be tried; what was found so far is kept.
            pub fn shrink(
                &mut self,
                serves: &mut dyn FnMut(&Case) -> Option<bool>,
            ) -> Option<()> {
                match self {
                    $(Case::$call { .. } => { $(
                        let mut trial = self.clone();
                        if let Case::$call { $argument, .. } = self {
                            $argument.shrink(&mut |smaller| {
                                if let Case::$call { $argument, .. } = &mut trial {
                                    $argument.clone_from(smaller);
                                }
                                serves(&trial)
                            })?;
                        }
                    )+ })+
                }
                Some(())
            }
        }

        /// A case is shown as its line, without the ending byte.
        impl fmt::Display for Case {
            fn fmt(&self, f: &mut fmt::Formatter<'_>) -> fmt::Result {
                match self {
                    $(Case::$call { $($argument),+ } => {
                        f.write_str($name)?;
                        $(
                            f.write_str(" ")?;
                            $argument.write(f)?;
                        )+
                    })+
                }
                Ok(())
            }
        }
    };
}

cases! {
    "read_label" ReadLabel { bytes: Vec<u8>, versions: Versions }
    "write_label" WriteLabel { version: Version, head: Vec<u8>, length: usize, buffer: Vec<u8> }
    "check_labelled" CheckLabelled { file: Vec<u8>, versions: Versions }
    "check_waveform" CheckWaveform { file: Vec<u8> }
    "check_bursts" CheckBursts { file: Vec<u8>, start: usize }
    "read_row_labelled" ReadRowLabelled { file: Vec<u8>, row: usize, window: Window, versions: Versions }
    "read_row_waveform" ReadRowWaveform { file: Vec<u8>, row: usize, window: Window }
    "read_row_bursts" ReadRowBursts { file: Vec<u8>, start: usize, row: usize, window: Window }
    "jump_labelled" JumpLabelled { file: Vec<u8>, list: Vec<u32>, row: usize, window: Window, versions: Versions }
    "jump_waveform" JumpWaveform { file: Vec<u8>, row: usize, window: Window }
    "jump_bursts" JumpBursts { file: Vec<u8>, start: usize, row: usize, window: Window }
    "row_from" RowFrom { kind: Kind, file: Vec<u8>, from: usize }
    "substitute_row" SubstituteRow { original: Vec<u8>, substitute: Vec<u8>, row: usize, versions: Versions }
    "build_index" BuildIndex { file: Vec<u8>, list: Vec<u32>, versions: Versions }
    "check_index" CheckIndex { file: Vec<u8>, list: Vec<u32>, versions: Versions }
    "joined_index" JoinedIndex { first: Vec<u8>, first_list: Vec<u32>, second: Vec<u8>, second_list: Vec<u32>, list: Vec<u32>, versions: Versions }
    "keep_index" KeepIndex { list: Vec<u32>, buffer: Vec<u8> }
    "load_kept" LoadKept { bytes: Vec<u8>, list: Vec<u32> }
    "load_kept2" LoadKept2 { bytes: Vec<u8>, list: Vec<u32> }
    "convert_1_to_2" Convert1To2 { file: Vec<u8>, kept: Vec<u8>, buffer: Vec<u8>, versions: Versions }
    "convert_2_to_1" Convert2To1 { kept: Vec<u8>, buffer: Vec<u8> }
    "check_kept2" CheckKept2 { file: Vec<u8>, kept: Vec<u8>, versions: Versions }
    "tone" Tone { byte: u8 }
    "strip" Strip { kind: Kind, file: Vec<u8>, row: usize, rows: usize, window: Window, buffer: Vec<u8> }
    "behind" Behind { kind: Kind, file: Vec<u8>, row: usize, window: Window, column: usize, line: usize }
    "sample" Sample { byte: u8 }
    "vax_f" VaxF { bytes: Vec<u8> }
    "vax_d" VaxD { bytes: Vec<u8> }
    "vax_d_dropped" VaxDDropped { bytes: Vec<u8> }
    "opening" Opening { bytes: Vec<u8> }
    "verdict" Verdict { element: u64, value: i64 }
    "burst_field" BurstField { file: Vec<u8>, start: usize, row: usize, position: u64 }
    "burst_verdict" BurstVerdict { file: Vec<u8>, start: usize, row: usize, position: u64 }
    "beams" Beams { mask: u64 }
    "mode" Mode { number: u64 }
}

#[cfg(test)]
mod tests {
    use super::*;

    fn case(line: &str) -> Case {
        Case::parse(line.as_bytes()).unwrap()
    }

    #[test]
    fn a_case_is_shown_as_its_line() {
        for line in [
            "read_label - 1",
            "write_label 2 4e4a 18446744073709551615 00ff",
            "check_labelled - 2",
            "read_row_labelled 00 1 2 3 1",
            "jump_labelled 00 7,4294967295 1 2 3 2",
            "build_index 00 7 1",
            "check_index 00 - 2",
            "joined_index 00 1,4294967295 01ff 2 3,4 1",
            "joined_index - - - - - 2",
            "load_kept2 00ff 7,4294967295",
            "convert_1_to_2 00 01 02ff 1",
            "convert_2_to_1 00 -",
            "check_kept2 - 00 2",
            "tone 255",
            "strip labelled1 00 1 2 3 4 05ff",
            "strip labelled2 - 18446744073709551615 0 0 18446744073709551615 -",
            "strip waveform - 0 18446744073709551615 18446744073709551615 0 00",
            "strip bursts:7 00ff 1 2 3 4 -",
            "behind labelled1 00 1 2 3 4 5",
            "behind labelled2 - 18446744073709551615 0 1 0 18446744073709551615",
            "behind waveform 00 0 18446744073709551615 0 18446744073709551615 0",
            "behind bursts:18446744073709551615 - 0 0 18446744073709551615 0 0",
            "row_from labelled1 00 5",
            "row_from labelled2 00 5",
            "row_from waveform - 0",
            "row_from bursts:0 00 5",
            "row_from bursts:18446744073709551615 - 18446744073709551615",
            "substitute_row 00 01ff 18446744073709551615 1",
            "substitute_row - - 0 2",
            "check_bursts 00 1",
            "read_row_bursts - 18446744073709551615 1 2 3",
            "jump_bursts 00ff 1 18446744073709551615 2 3",
            "burst_field 00 1 2 255",
            "burst_verdict - 0 0 18446744073709551615",
            "beams 32",
            "mode 18446744073709551615",
            "sample 255",
            "verdict 141 -9223372036854775808",
        ] {
            assert_eq!(case(line).to_string(), line);
        }
    }

    #[test]
    fn versions_are_1_and_2() {
        for versions in ["0", "3", "01", "02", "+1", "-1", "11", "12", "-", "v1", ""] {
            for line in [
                format!("read_label - {versions}"),
                format!("write_label {versions} - 0 -"),
                format!("check_labelled - {versions}"),
                format!("read_row_labelled - 0 0 0 {versions}"),
                format!("jump_labelled - - 0 0 0 {versions}"),
                format!("substitute_row - - 0 {versions}"),
                format!("build_index - - {versions}"),
                format!("check_index - - {versions}"),
                format!("joined_index - - - - - {versions}"),
                format!("convert_1_to_2 - - - {versions}"),
                format!("check_kept2 - - {versions}"),
            ] {
                assert_eq!(Case::parse(line.as_bytes()), None, "{line}");
            }
        }
    }

    #[test]
    fn kinds_are_these_words() {
        for kind in [
            "labelled",
            "labelled0",
            "labelled3",
            "labelled02",
            "labelled12",
            "Labelled1",
            "waveforms",
            "waveform:0",
            "labelled1:0",
            "bursts",
            "bursts0",
            "bursts:",
            "bursts:-",
            "bursts:-1",
            "bursts:+1",
            "bursts:00",
            "bursts:01",
            "bursts:0x1",
            "bursts:1:1",
            "bursts:0,1",
            "bursts:18446744073709551616",
            "Bursts:0",
            "burst:0",
            ":0",
            "-",
            "",
        ] {
            for line in [
                format!("row_from {kind} - 0"),
                format!("strip {kind} - 0 0 0 0 -"),
                format!("behind {kind} - 0 0 0 0 0"),
            ] {
                assert_eq!(Case::parse(line.as_bytes()), None, "{line}");
            }
        }
    }

    #[test]
    fn every_argument_is_made_smaller() {
        for (line, smallest) in [
            (
                "jump_labelled 010203 4,5,6 7 8 9 2",
                "jump_labelled - - 0 0 0 1",
            ),
            ("write_label 2 0102 12 0304", "write_label 1 - 0 -"),
            ("check_labelled 01 1", "check_labelled - 1"),
            (
                "joined_index 01 2,3 0405 6 7,8 2",
                "joined_index - - - - - 1",
            ),
            ("load_kept2 0102 3,4", "load_kept2 - -"),
            ("convert_1_to_2 01 02 03 2", "convert_1_to_2 - - - 1"),
            ("convert_2_to_1 0102 03", "convert_2_to_1 - -"),
            ("check_kept2 01 0203 2", "check_kept2 - - 1"),
            ("tone 200", "tone 0"),
            (
                "strip labelled2 0102 3 4 5 6 0708",
                "strip labelled1 - 0 0 0 0 -",
            ),
            (
                "behind bursts:12 0102 3 4 5 6 7",
                "behind bursts:0 - 0 0 0 0 0",
            ),
            ("row_from waveform 0102 77", "row_from waveform - 0"),
            ("row_from labelled2 0102 77", "row_from labelled1 - 0"),
            ("row_from bursts:12 0102 77", "row_from bursts:0 - 0"),
            ("substitute_row 0102 03 4 2", "substitute_row - - 0 1"),
            ("burst_field 0102 3 4 5", "burst_field - 0 0 0"),
            ("jump_bursts 0102 3 4 5 6", "jump_bursts - 0 0 0 0"),
            ("beams 33", "beams 0"),
            ("verdict 141 -9223372036854775808", "verdict 0 0"),
            ("sample 200", "sample 0"),
        ] {
            let mut shrunk = case(line);
            shrunk.shrink(&mut |_| Some(true)).unwrap();
            assert_eq!(shrunk, case(smallest));
        }
    }

    #[test]
    fn what_matters_is_kept() {
        let mut shrunk = case("verdict 141 -2001");
        let still = |trial: &Case| matches!(trial, Case::Verdict { value: ..=-100, .. });
        shrunk.shrink(&mut |trial| Some(still(trial))).unwrap();
        assert_eq!(shrunk, case("verdict 0 -100"));
        let mut shrunk = case("keep_index 9,300,9 -");
        let still = |trial: &Case| match trial {
            Case::KeepIndex { list, .. } => list.iter().any(|&entry| entry > 255),
            _ => false,
        };
        shrunk.shrink(&mut |trial| Some(still(trial))).unwrap();
        assert_eq!(shrunk, case("keep_index 256 -"));
        let mut shrunk = case("row_from labelled2 0102 5");
        let still = |trial: &Case| trial.to_string().contains("labelled2");
        shrunk.shrink(&mut |trial| Some(still(trial))).unwrap();
        assert_eq!(shrunk, case("row_from labelled2 - 0"));
        let mut shrunk = case("substitute_row 0102 0304 5 2");
        let still = |trial: &Case| match trial {
            Case::SubstituteRow {
                original,
                substitute,
                ..
            } => original.contains(&1) && substitute.contains(&4),
            _ => false,
        };
        shrunk.shrink(&mut |trial| Some(still(trial))).unwrap();
        assert_eq!(shrunk, case("substitute_row 01 04 0 1"));
        let mut shrunk = case("joined_index 0102 3,9 0405 6,300 7,8 2");
        let still = |trial: &Case| match trial {
            Case::JoinedIndex {
                first,
                second_list,
                list,
                ..
            } => first.contains(&2) && second_list.iter().any(|&e| e > 255) && list.len() > 1,
            _ => false,
        };
        shrunk.shrink(&mut |trial| Some(still(trial))).unwrap();
        assert_eq!(shrunk, case("joined_index 02 - - 256 0,0 1"));
        let mut shrunk = case("strip waveform 0102 3 40 5 60 0708");
        let still = |trial: &Case| match trial {
            Case::Strip {
                rows,
                window,
                buffer,
                ..
            } => *rows > 8 && window.count > 7 && buffer.contains(&8),
            _ => false,
        };
        shrunk.shrink(&mut |trial| Some(still(trial))).unwrap();
        assert_eq!(shrunk, case("strip waveform - 0 9 0 8 08"));
        let mut shrunk = case("behind labelled2 0102 3 40 50 60 70");
        let still = |trial: &Case| match trial {
            Case::Behind {
                window,
                column,
                line,
                ..
            } => window.first > 3 && *column > 9 && *line == 70,
            _ => false,
        };
        shrunk.shrink(&mut |trial| Some(still(trial))).unwrap();
        assert_eq!(shrunk, case("behind labelled1 - 0 4 0 10 70"));
        let mut shrunk = case("row_from bursts:2000 0102 5");
        let still = |trial: &Case| match trial {
            Case::RowFrom { kind, .. } => kind.first_place() >= 7,
            _ => false,
        };
        shrunk.shrink(&mut |trial| Some(still(trial))).unwrap();
        assert_eq!(shrunk, case("row_from bursts:7 - 0"));
    }
}
