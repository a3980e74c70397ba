//! Short burst files: whole records of one size from a first place on, the
//! fields of a record, verdicts on them, beam masks and compression modes.

use crate::altimeter::Verdict;
use crate::refusal::{Reason, Refusal};
use crate::window::{self, Part, Row, Window};
use crate::{check_size, pass_rows};
use Storage::{Float32, Float64, Int32, Text, Uint32};

/// A record is a row.
pub const RECORD_BYTES: u64 = 1_272;

/// How a field is stored, by the words of its description.
#[derive(Clone, Copy, Debug, PartialEq, Eq)]
pub enum Storage {
    Uint32,
    Int32,
    Float32,
    Float64,
    /// An ASCII string.
    Text,
}

/// A field as the table of start bytes lists it.
#[derive(Clone, Copy, Debug, PartialEq, Eq)]
pub struct Field {
    pub position: u64,
    pub name: &'static str,
    /// The first byte is 1.
    pub start_byte: u64,
    pub length: u64,
    pub storage: Storage,
    /// Minimum and maximum of an integer, where both are plain numbers.
    pub limits: Option<(i64, i64)>,
}

const fn field(
    position: u64,
    name: &'static str,
    start_byte: u64,
    length: u64,
    storage: Storage,
) -> Field {
    Field {
        position,
        name,
        start_byte,
        length,
        storage,
        limits: None,
    }
}

const fn limited(
    position: u64,
    name: &'static str,
    start_byte: u64,
    length: u64,
    storage: Storage,
    minimum: i64,
    maximum: i64,
) -> Field {
    Field {
        limits: Some((minimum, maximum)),
        ..field(position, name, start_byte, length, storage)
    }
}

/// The fields of a record: position, long name, start byte and length as in
/// section 8.1, storage type and plain limits as in section 8.2. Where an
/// integer has no plain limits, the remark says what stands in their place.
#[rustfmt::skip] // A line for a field, as in section 8.1.
pub static FIELDS: [Field; 255] = [
    field(    1, "sync",                               1,  4, Uint32), // Limits in hexadecimal.
    field(    2, "spacecraft_clock",                   5,  4, Uint32), // To 2^32 - 1, a power.
    field(    3, "burst_id",                           9,  4, Uint32), // To 2^32 - 1.
    field(    4, "cds_pickup_rate",                   13,  4, Float32), // uint32 in 8.2, PC_REAL in the format file.
    field(    5, "burst_start_time",                  17,  4, Float32), // The same.
    field(    6, "header_tfi",                        21,  4, Float32),
    limited(  7, "header_tnc",                        25,  4, Uint32, 0, 255),
    field(    8, "header_typ",                        29,  4, Uint32), // A possible value only.
    limited(  9, "header_tca",                        33,  4, Uint32, 0, 65_535),
    limited( 10, "header_tcb",                        37,  4, Uint32, 0, 65_535),
    limited( 11, "header_tcc",                        41,  4, Uint32, 0, 65_535),
    field(   12, "pwri",                              45,  4, Uint32), // To 2^32 - 1.
    limited( 13, "vicc",                              49,  4, Uint32, 0, 65_535),
    limited( 14, "vimc",                              53,  4, Uint32, 0, 65_535),
    field(   15, "tail_len",                          57,  4, Uint32), // Possible values only.
    limited( 16, "tail_id",                           61,  4, Uint32, 0, 65_535),
    limited( 17, "sab_counter",                       65,  4, Uint32, 0, 65_535),
    limited( 18, "sab_len",                           69,  4, Uint32, 0, 65_535),
    limited( 19, "fswm",                              73,  4, Uint32, 0, 255),
    limited( 20, "fswc",                              77,  4, Uint32, 0, 255),
    limited( 21, "ctbc",                              81,  4, Uint32, 0, 255),
    limited( 22, "rx_window_pri",                     85,  4, Uint32, 0, 255),
    limited( 23, "ctps",                              89,  4, Uint32, 0, 2_047),
    field(   24, "ctbe",                              93,  4, Uint32), // Possible values only.
    limited( 25, "ctps_ctbe",                         97,  4, Uint32, 0, 64_094),
    field(   26, "header_end",                       101,  4, Uint32), // Two maxima.
    limited( 27, "slow_tfi",                         105,  4, Uint32, 0, 65_535),
    limited( 28, "data_take_number",                 109,  4, Uint32, 0, 255),
    field(   29, "slow_typ",                         113,  4, Uint32), // A minimum and a possible value.
    limited( 30, "calibration_source",               117,  4, Uint32, 0, 15),
    limited( 31, "radar_mode",                       121,  4, Uint32, 0, 15),
    limited( 32, "sin",                              125,  4, Uint32, 0, 255),
    limited( 33, "bem",                              129,  4, Uint32, 0, 31),
    limited( 34, "baq_mode",                         133,  4, Uint32, 0, 7),
    field(   35, "tro",                              137,  4, Float32),
    field(   36, "receiver_bandwidth",               141,  4, Float32),
    field(   37, "adc_rate",                         145,  4, Float32),
    field(   38, "at1_tot",                          149,  4, Float32),
    field(   39, "at3_tot",                          153,  4, Float32),
    field(   40, "at4_tot",                          157,  4, Float32),
    limited( 41, "at1_each",                         161,  4, Uint32, 0, 4_095),
    limited( 42, "at3_each",                         165,  4, Uint32, 0, 4_095),
    limited( 43, "at4_each",                         169,  4, Uint32, 0, 4_095),
    field(   44, "antenna_int_period",               173,  4, Float32),
    field(   45, "chirp_time_step",                  177,  4, Float32),
    limited( 46, "num_rad_meas",                     181,  4, Uint32, 1, 255),
    limited( 47, "num_chirp_steps",                  185,  4, Uint32, 216, 749),
    field(   48, "chirp_length",                     189,  4, Float32),
    field(   49, "chirp_freq_step",                  193,  4, Float32),
    field(   50, "fast_tfi",                         197,  4, Float32),
    limited( 51, "fin",                              201,  4, Uint32, 0, 255),
    field(   52, "fast_type",                        205,  4, Uint32), // A possible value only.
    limited( 53, "num_pulses",                       209,  4, Uint32, 0, 255),
    limited( 54, "bii",                              213,  4, Uint32, 0, 255),
    field(   55, "burst_period",                     217,  4, Float32),
    field(   56, "pri",                              221,  4, Float32),
    field(   57, "rx_window_delay",                  225,  4, Float32),
    field(   58, "chirp_start_freq",                 229,  4, Float32),
    limited( 59, "iebtth",                           233,  4, Uint32, 0, 65_535),
    limited( 60, "iebtll",                           237,  4, Uint32, 0, 65_535),
    limited( 61, "bgcalls",                          241,  4, Uint32, 0, 65_535),
    limited( 62, "delvmn",                           245,  4, Uint32, 1, 12),
    limited( 63, "delvda",                           249,  4, Uint32, 1, 31),
    limited( 64, "delvyr",                           253,  4, Uint32, 1_990, 2_010),
    limited( 65, "raw_res_load_meas",                257,  4, Uint32, 0, 4_095),
    field(   66, "raw_antenna_meas",                 261,  4, Uint32), // To 2^20 - 1.
    limited( 67, "raw_noise_diode_meas",             265,  4, Uint32, 0, 4_095),
    limited( 68, "eout",                             269,  4, Uint32, 0, 7),
    limited( 69, "subr",                             273,  4, Uint32, 0, 15),
    limited( 70, "space_craft_time",                 277,  4, Uint32, 0, 4_095),
    field(   71, "noise_diode_int_period",           281,  4, Float32),
    field(   72, "res_load_int_period",              285,  4, Float32),
    field(   73, "fwdtmp",                           289,  4, Float32),
    field(   74, "be1tmp",                           293,  4, Float32),
    field(   75, "be2tmp",                           297,  4, Float32),
    field(   76, "be3tmp",                           301,  4, Float32),
    field(   77, "be4tmp",                           305,  4, Float32),
    field(   78, "be5tmp",                           309,  4, Float32),
    field(   79, "diptmp",                           313,  4, Float32),
    field(   80, "rlotmp",                           317,  4, Float32),
    field(   81, "tadcal1",                          321,  4, Float32),
    field(   82, "nsdtmp",                           325,  4, Float32),
    field(   83, "lnatmp",                           329,  4, Float32),
    field(   84, "evdtmp",                           333,  4, Float32),
    field(   85, "mratmp",                           337,  4, Float32),
    field(   86, "mruttm",                           341,  4, Float32),
    field(   87, "dcgttm",                           345,  4, Float32),
    field(   88, "cucttm",                           349,  4, Float32),
    field(   89, "twttmp",                           353,  4, Float32),
    field(   90, "epctmp",                           357,  4, Float32),
    field(   91, "tw1ttm",                           361,  4, Float32),
    field(   92, "ep1ttm",                           365,  4, Float32),
    field(   93, "p_stmp",                           369,  4, Float32),
    field(   94, "p_sttm",                           373,  4, Float32),
    field(   95, "fguttm",                           377,  4, Float32),
    field(   96, "tadcal4",                          381,  4, Float32),
    field(   97, "esstmp",                           385,  4, Float32),
    field(   98, "wgb1t1",                           389,  4, Float32),
    field(   99, "wgb3t1",                           393,  4, Float32),
    field(  100, "wgb3t2",                           397,  4, Float32),
    field(  101, "wgb3t3",                           401,  4, Float32),
    field(  102, "wgb5t1",                           405,  4, Float32),
    field(  103, "pcutmp",                           409,  4, Float32),
    field(  104, "adctmp",                           413,  4, Float32),
    field(  105, "tadcal2",                          417,  4, Float32),
    field(  106, "ecltmp",                           421,  4, Float32),
    field(  107, "cputmp",                           425,  4, Float32),
    field(  108, "memtmp",                           429,  4, Float32),
    field(  109, "sadctmp",                          433,  4, Float32),
    field(  110, "tadcal3",                          437,  4, Float32),
    field(  111, "frwdpw",                           441,  4, Float32),
    field(  112, "dcgmon",                           445,  4, Float32),
    field(  113, "lpltlm",                           449,  4, Float32),
    field(  114, "nsdcur",                           453,  4, Float32),
    field(  115, "hpapsm",                           457,  4, Float32),
    field(  116, "catcur",                           461,  4, Float32),
    field(  117, "p_smon",                           465,  4, Float32),
    field(  118, "svlsta",                           469,  4, Float32),
    field(  119, "usotmp",                           473,  4, Float32),
    field(  120, "cpbnkv",                           477,  4, Float32),
    field(  121, "essvlt",                           481,  4, Float32),
    field(  122, "tadcal5",                          485,  4, Float32),
    field(  123, "pcu5v_pos",                        489,  4, Float32),
    field(  124, "pcu5i_pos",                        493,  4, Float32),
    field(  125, "pcu5v_neg",                        497,  4, Float32),
    field(  126, "pcu5i_neg",                        501,  4, Float32),
    field(  127, "pcu15v_pos",                       505,  4, Float32),
    field(  128, "pcu15i_pos",                       509,  4, Float32),
    field(  129, "pcu15v_neg",                       513,  4, Float32),
    field(  130, "pcu15i_neg",                       517,  4, Float32),
    field(  131, "pcu12v_neg",                       521,  4, Float32),
    field(  132, "pcu12i_neg",                       525,  4, Float32),
    field(  133, "pcucur",                           529,  4, Float32),
    field(  134, "pllmon",                           533,  4, Float32),
    field(  135, "ctu5i",                            537,  4, Float32),
    field(  136, "tadcal6",                          541,  4, Float32),
    field(  137, "pcu9v_pos",                        545,  4, Float32),
    field(  138, "pcu9i_pos",                        549,  4, Float32),
    field(  139, "pcu9v_neg",                        553,  4, Float32),
    field(  140, "pcu9i_neg",                        557,  4, Float32),
    field(  141, "tadcal7",                          561,  4, Float32),
    field(  142, "shpttm",                           565,  4, Float32),
    field(  143, "num_bursts_in_flight",             569,  4, Uint32), // No limits.
    limited(144, "raw_active_mode_length",           573,  4, Uint32, 0, 32_000),
    field(  145, "raw_active_mode_rms",              577,  4, Float32),
    field(  146, "engineer_qual_flag",               581,  4, Uint32), // Possible values only.
    field(  147, "t_sc_clock",                       585,  8, Float64),
    field(  148, "t_ephem_time",                     593,  8, Float64),
    field(  149, "t_utc_ymd",                        601, 24, Text),
    field(  150, "t_utc_doy",                        625, 24, Text),
    field(  151, "transmit_time_offset",             649,  8, Float64),
    field(  152, "time_from_closest_approach",       657,  8, Float64),
    field(  153, "time_from_epoch",                  665,  8, Float64),
    field(  154, "target_name",                      673, 16, Text),
    field(  155, "tbf_frame_name",                   689, 24, Text),
    field(  156, "pole_right_ascension",             713,  8, Float64),
    field(  157, "pole_declination",                 721,  8, Float64),
    field(  158, "target_rotation_rate",             729,  8, Float64),
    field(  159, "target_rotation_angle",            737,  8, Float64),
    field(  160, "scwg_tmp",                         745,  4, Float32),
    field(  161, "feed_tmp",                         749,  4, Float32),
    field(  162, "hga_tmp",                          753,  4, Float32),
    field(  163, "beam_number",                      757,  4, Uint32), // Possible values only.
    field(  164, "sc_pos_j2000_x",                   761,  8, Float64),
    field(  165, "sc_pos_j2000_y",                   769,  8, Float64),
    field(  166, "sc_pos_j2000_z",                   777,  8, Float64),
    field(  167, "sc_vel_j2000_x",                   785,  8, Float64),
    field(  168, "sc_vel_j2000_y",                   793,  8, Float64),
    field(  169, "sc_vel_j2000_z",                   801,  8, Float64),
    field(  170, "sc_pos_target_x",                  809,  8, Float64),
    field(  171, "sc_pos_target_y",                  817,  8, Float64),
    field(  172, "sc_pos_target_z",                  825,  8, Float64),
    field(  173, "sc_vel_target_x",                  833,  8, Float64),
    field(  174, "sc_vel_target_y",                  841,  8, Float64),
    field(  175, "sc_vel_target_z",                  849,  8, Float64),
    field(  176, "sc_x_axis_j2000_x",                857,  8, Float64),
    field(  177, "sc_x_axis_j2000_y",                865,  8, Float64),
    field(  178, "sc_x_axis_j2000_z",                873,  8, Float64),
    field(  179, "sc_y_axis_j2000_x",                881,  8, Float64),
    field(  180, "sc_y_axis_j2000_y",                889,  8, Float64),
    field(  181, "sc_y_axis_j2000_z",                897,  8, Float64),
    field(  182, "sc_z_axis_j2000_x",                905,  8, Float64),
    field(  183, "sc_z_axis_j2000_y",                913,  8, Float64),
    field(  184, "sc_z_axis_j2000_z",                921,  8, Float64),
    field(  185, "sc_x_axis_target_x",               929,  8, Float64),
    field(  186, "sc_x_axis_target_y",               937,  8, Float64),
    field(  187, "sc_x_axis_target_z",               945,  8, Float64),
    field(  188, "sc_y_axis_target_x",               953,  8, Float64),
    field(  189, "sc_y_axis_target_y",               961,  8, Float64),
    field(  190, "sc_y_axis_target_z",               969,  8, Float64),
    field(  191, "sc_z_axis_target_x",               977,  8, Float64),
    field(  192, "sc_z_axis_target_y",               985,  8, Float64),
    field(  193, "sc_z_axis_target_z",               993,  8, Float64),
    field(  194, "rot_vel_j2000_x",                1_001,  8, Float64),
    field(  195, "rot_vel_j2000_y",                1_009,  8, Float64),
    field(  196, "rot_vel_j2000_z",                1_017,  8, Float64),
    field(  197, "rot_vel_target_x",               1_025,  8, Float64),
    field(  198, "rot_vel_target_y",               1_033,  8, Float64),
    field(  199, "rot_vel_target_z",               1_041,  8, Float64),
    field(  200, "norm_cnt_rl",                    1_049,  4, Float32),
    field(  201, "norm_cnt_nd",                    1_053,  4, Float32),
    field(  202, "norm_cnt_radio",                 1_057,  4, Float32),
    field(  203, "science_qual_flag",              1_061,  4, Int32), // No maximum.
    field(  204, "system_gain",                    1_065,  4, Float32),
    field(  205, "antenna_temp",                   1_069,  4, Float32),
    field(  206, "receiver_temp",                  1_073,  4, Float32),
    field(  207, "ant_temp_std",                   1_077,  4, Float32),
    field(  208, "pass_geom_time_offset",          1_081,  4, Float32),
    field(  209, "pass_pol_angle",                 1_085,  4, Float32),
    field(  210, "pass_emission_angle",            1_089,  4, Float32),
    field(  211, "pass_azimuth_angle",             1_093,  4, Float32),
    field(  212, "pass_centroid_lon",              1_097,  4, Float32),
    field(  213, "pass_centroid_lat",              1_101,  4, Float32),
    field(  214, "pass_major_width",               1_105,  4, Float32),
    field(  215, "pass_minor_width",               1_109,  4, Float32),
    field(  216, "pass_ellipse_pt1_lon",           1_113,  4, Float32),
    field(  217, "pass_ellipse_pt2_lon",           1_117,  4, Float32),
    field(  218, "pass_ellipse_pt3_lon",           1_121,  4, Float32),
    field(  219, "pass_ellipse_pt4_lon",           1_125,  4, Float32),
    field(  220, "pass_ellipse_pt1_lat",           1_129,  4, Float32),
    field(  221, "pass_ellipse_pt2_lat",           1_133,  4, Float32),
    field(  222, "pass_ellipse_pt3_lat",           1_137,  4, Float32),
    field(  223, "pass_ellipse_pt4_lat",           1_141,  4, Float32),
    field(  224, "num_pulses_received",            1_145,  4, Float32),
    field(  225, "total_echo_energy",              1_149,  4, Float32),
    field(  226, "noise_echo_energy",              1_153,  4, Float32),
    field(  227, "x_factor",                       1_157,  4, Float32),
    field(  228, "sigma0_uncorrected",             1_161,  4, Float32),
    field(  229, "sigma0_corrected",               1_165,  4, Float32),
    field(  230, "sigma0_uncorrected_std",         1_169,  4, Float32),
    field(  231, "surface_height",                 1_173,  4, Float32),
    field(  232, "surf_ht_std",                    1_177,  4, Float32),
    field(  233, "act_geom_time_offset",           1_181,  4, Float32),
    field(  234, "act_pol_angle",                  1_185,  4, Float32),
    field(  235, "act_incidence_angle",            1_189,  4, Float32),
    field(  236, "act_azimuth_angle",              1_193,  4, Float32),
    field(  237, "act_centroid_lon",               1_197,  4, Float32),
    field(  238, "act_centroid_lat",               1_201,  4, Float32),
    field(  239, "act_major_width",                1_205,  4, Float32),
    field(  240, "act_minor_width",                1_209,  4, Float32),
    field(  241, "act_ellipse_pt1_lon",            1_213,  4, Float32),
    field(  242, "act_ellipse_pt2_lon",            1_217,  4, Float32),
    field(  243, "act_ellipse_pt3_lon",            1_221,  4, Float32),
    field(  244, "act_ellipse_pt4_lon",            1_225,  4, Float32),
    field(  245, "act_ellipse_pt1_lat",            1_229,  4, Float32),
    field(  246, "act_ellipse_pt2_lat",            1_233,  4, Float32),
    field(  247, "act_ellipse_pt3_lat",            1_237,  4, Float32),
    field(  248, "act_ellipse_pt4_lat",            1_241,  4, Float32),
    field(  249, "altimeter_profile_range_start",  1_245,  4, Float32),
    field(  250, "altimeter_profile_range_step",   1_249,  4, Float32),
    limited(251, "altimeter_profile_length",       1_253,  4, Uint32, 0, 32_000),
    field(  252, "sar_azimuth_res",                1_257,  4, Float32),
    field(  253, "sar_range_res",                  1_261,  4, Float32),
    field(  254, "sar_centroid_bidr_lon",          1_265,  4, Float32),
    field(  255, "sar_centroid_bidr_lat",          1_269,  4, Float32),
];

/// What a field holds. A float is its stored bits.
#[derive(Clone, Copy, Debug, PartialEq, Eq)]
pub enum Value<'a> {
    Unsigned(u32),
    Signed(i32),
    Float4(u32),
    Float8(u64),
    Text(window::Text<'a>),
}

/// How echoes were compressed, in the order of section 8.2.n.34.
#[derive(Clone, Copy, Debug, PartialEq, Eq)]
pub enum Mode {
    EightToTwoAdaptive,
    EightToOneAdaptive,
    EightToZero,
    EightToTwoHighest,
    EightToFourHighest,
    EightStraight,
    EightToFourAdaptiveLow,
    EightToFourAdaptiveHigh,
}

/// The modes, each at its number.
pub const MODES: [Mode; 8] = [
    Mode::EightToTwoAdaptive,
    Mode::EightToOneAdaptive,
    Mode::EightToZero,
    Mode::EightToTwoHighest,
    Mode::EightToFourHighest,
    Mode::EightStraight,
    Mode::EightToFourAdaptiveLow,
    Mode::EightToFourAdaptiveHigh,
];

/// The antenna's beams, a bit of the mask for each.
const BEAMS: u32 = 5;

/// Checks the size of a file behind its first place and answers how many rows
/// it has.
pub fn check(file: &[u8], first_place: u64) -> Result<u64, Refusal> {
    let length = file.len() as u64;
    check_size(length)?;
    let rest = length
        .checked_sub(first_place)
        .ok_or(Reason::BadStart.at_start())?;
    if !rest.is_multiple_of(RECORD_BYTES) {
        return Err(Reason::Ragged.at_start());
    }
    Ok(rest / RECORD_BYTES)
}

/// Reads a window of row `number`, passing the records in front of it one by
/// one from the first place on.
pub fn read_row(
    file: &[u8],
    first_place: u64,
    number: u64,
    window: Window,
) -> Result<Part<'_>, Refusal> {
    check(file, first_place)?;
    let place = pass_rows(first_place, file.len() as u64, RECORD_BYTES, number)?;
    window.show(file, record_at(place))
}

/// Reads a window of row `number` at its computed place.
pub fn jump(
    file: &[u8],
    first_place: u64,
    number: u64,
    window: Window,
) -> Result<Part<'_>, Refusal> {
    window.show(file, row(file, first_place, number)?)
}

/// Gives the record that begins at the place `from`.
pub fn row_from(file: &[u8], first_place: u64, from: u64) -> Result<Part<'_>, Refusal> {
    check(file, first_place)?;
    let is_record = from < file.len() as u64
        && from
            .checked_sub(first_place)
            .is_some_and(|before| before.is_multiple_of(RECORD_BYTES));
    if !is_record {
        return Err(Reason::NoRow.at_start());
    }
    Window::new(0, RECORD_BYTES).show(file, record_at(from))
}

/// Reads the field at a position of the table, in row `number`. Numbers are
/// stored with the least significant byte first.
pub fn value(
    file: &[u8],
    first_place: u64,
    number: u64,
    position: u64,
) -> Result<Value<'_>, Refusal> {
    let record = row(file, first_place, number)?;
    let field = field_at(position)?;
    let window = Window::new(field.start_byte - 1, field.length);
    let Part { place, bytes, .. } = window.show(file, record)?;
    Ok(match field.storage {
        Uint32 => Value::Unsigned(four(bytes)),
        Int32 => Value::Signed(four(bytes) as i32),
        Float32 => Value::Float4(four(bytes)),
        Float64 => Value::Float8(least_first(bytes)),
        Text => Value::Text(window::Text { place, bytes }),
    })
}

/// Judges the field at a position of the table, in row `number`, against its
/// limits.
pub fn verdict(
    file: &[u8],
    first_place: u64,
    number: u64,
    position: u64,
) -> Result<Verdict, Refusal> {
    let value = match value(file, first_place, number, position)? {
        Value::Unsigned(value) => i64::from(value),
        Value::Signed(value) => i64::from(value),
        _ => return Err(Reason::Unknown.at_start()),
    };
    let (minimum, maximum) = field_at(position)?
        .limits
        .ok_or(Reason::Unknown.at_start())?;
    Ok(if value < minimum {
        Verdict::Below
    } else if value > maximum {
        Verdict::Above
    } else {
        Verdict::Inside
    })
}

/// How many beams a mask enables; nothing for a mask with more bits than there
/// are beams, which is above.
pub fn beams(mask: u64) -> Option<u64> {
    if mask >= 1 << BEAMS {
        return None;
    }
    Some((0..BEAMS).map(|beam| (mask >> beam) & 1).sum())
}

/// The compression mode with this number, if one is named.
pub fn mode(number: u64) -> Option<Mode> {
    MODES.get(usize::try_from(number).ok()?).copied()
}

/// Where row `number` stands.
fn row(file: &[u8], first_place: u64, number: u64) -> Result<Row, Refusal> {
    if number >= check(file, first_place)? {
        return Err(Reason::NoRow.at_start());
    }
    Ok(record_at(first_place + number * RECORD_BYTES))
}

fn record_at(start: u64) -> Row {
    Row::unlabelled(start, RECORD_BYTES)
}

fn field_at(position: u64) -> Result<Field, Refusal> {
    FIELDS
        .iter()
        .find(|field| field.position == position)
        .copied()
        .ok_or(Reason::Unknown.at_start())
}

/// The number in four bytes.
fn four(bytes: &[u8]) -> u32 {
    least_first(bytes) as u32
}

/// The number in up to eight bytes, of which the first is the least
/// significant.
fn least_first(bytes: &[u8]) -> u64 {
    bytes
        .iter()
        .rev()
        .fold(0, |number, &byte| (number << 8) | u64::from(byte))
}

#[cfg(test)]
mod tests {
    use super::*;
    use crate::window::{Address, Nesting};

    const RECORD: usize = RECORD_BYTES as usize;

    /// So many bytes in front, then records of which each byte tells its place
    /// in the record and the record's number.
    fn file(front: usize, records: usize) -> Vec<u8> {
        let byte = |at: usize| (at % RECORD * 7 + at / RECORD) as u8;
        let records = (0..records * RECORD).map(byte);
        vec![0xee; front].into_iter().chain(records).collect()
    }

    /// A record of zeros with these bytes in a field.
    fn record_with(position: u64, bytes: &[u8]) -> Vec<u8> {
        let mut record = vec![0; RECORD];
        let start = FIELDS[position as usize - 1].start_byte as usize - 1;
        record[start..start + bytes.len()].copy_from_slice(bytes);
        record
    }

    fn refused<T>(reason: Reason) -> Result<T, Refusal> {
        Err(reason.at_start())
    }

    #[test]
    fn fields_stand_end_to_end_and_fill_the_record() {
        let mut next = 1;
        for (before, field) in (0..).zip(FIELDS) {
            assert_eq!(field.position, before + 1);
            assert_eq!(field.start_byte, next, "{}", field.name);
            next += field.length;
        }
        assert_eq!(next, 1_273);
    }

    #[test]
    fn lengths_are_those_of_the_storage_types() {
        for field in FIELDS {
            let length = match field.storage {
                Uint32 | Int32 | Float32 => 4,
                Float64 => 8,
                Text => field.length,
            };
            assert_eq!(field.length, length, "{}", field.name);
        }
        let text = |field: &&Field| field.storage == Text;
        let texts: Vec<(u64, u64)> = FIELDS
            .iter()
            .filter(text)
            .map(|field| (field.position, field.length))
            .collect();
        assert_eq!(texts, [(149, 24), (150, 24), (154, 16), (155, 24)]);
    }

    #[test]
    fn fields_of_each_type_are_counted() {
        let count = |storage| FIELDS.iter().filter(|f| f.storage == storage).count();
        let counts = [Uint32, Int32, Float32, Float64, Text].map(count);
        assert_eq!(counts, [57, 1, 148, 45, 4]);
    }

    #[test]
    fn only_integers_have_limits() {
        for field in FIELDS {
            let Some((minimum, maximum)) = field.limits else {
                continue;
            };
            assert_eq!(field.storage, Uint32, "{}", field.name);
            assert!(minimum <= maximum, "{}", field.name);
        }
        assert_eq!(FIELDS.iter().filter(|f| f.limits.is_some()).count(), 43);
    }

    #[test]
    fn only_whole_records_are_taken() {
        for front in [0, 1, 31, 1_271, 1_272, 1_273] {
            for records in 0..3 {
                let file = file(front, records);
                assert_eq!(check(&file, front as u64), Ok(records as u64));
                if records > 0 {
                    let short = &file[..file.len() - 1];
                    assert_eq!(check(short, front as u64), refused(Reason::Ragged));
                }
                let long = [&file[..], &[0]].concat();
                assert_eq!(check(&long, front as u64), refused(Reason::Ragged));
            }
        }
        assert_eq!(check(&[0; 1_273], 0), refused(Reason::Ragged));
    }

    #[test]
    fn the_first_place_may_be_the_end_of_the_file() {
        for length in [0, 1, 1_272, 2_000] {
            let file = vec![0; length];
            assert_eq!(check(&file, length as u64), Ok(0));
            for first_place in [length as u64 + 1, 1 << 32, 1 << 63, u64::MAX] {
                let window = Window::new(9_999, 9);
                assert_eq!(check(&file, first_place), refused(Reason::BadStart));
                let read = read_row(&file, first_place, 5, window);
                assert_eq!(read, refused(Reason::BadStart));
                let jumped = jump(&file, first_place, 5, window);
                assert_eq!(jumped, refused(Reason::BadStart));
                let row = row_from(&file, first_place, first_place);
                assert_eq!(row, refused(Reason::BadStart));
                let field = value(&file, first_place, 5, 0);
                assert_eq!(field, refused(Reason::BadStart));
                let judged = verdict(&file, first_place, 5, 0);
                assert_eq!(judged, refused(Reason::BadStart));
            }
        }
    }

    #[test]
    fn reading_and_jumping_agree() {
        let windows = [(0, 1_272), (1_271, 1), (1_272, 0), (1_272, 1), (1_273, 0)];
        let beyond = u64::MAX / RECORD_BYTES + 1;
        for front in [0, 5, 1_272] {
            let file = file(front, 3);
            for number in [0, 1, 2, 3, 4, 1 << 29, 1 << 61, beyond, u64::MAX] {
                for (first, count) in windows {
                    let window = Window::new(first, count);
                    let answer = jump(&file, front as u64, number, window);
                    assert_eq!(read_row(&file, front as u64, number, window), answer);
                    let expected = if number > 2 {
                        refused(Reason::NoRow)
                    } else if first + count > 1_272 {
                        refused(Reason::NoPart)
                    } else {
                        Ok(front as u64 + number * 1_272 + first)
                    };
                    assert_eq!(answer.map(|part| part.place), expected);
                    if let Ok(part) = answer {
                        let place = part.place as usize;
                        assert_eq!(part.bytes, &file[place..place + count as usize]);
                    }
                }
            }
        }
    }

    #[test]
    fn going_on_begins_where_records_begin() {
        let file = file(5, 3);
        for place in [5, 1_277, 2_549] {
            let part = row_from(&file, 5, place).unwrap();
            let at = place as usize;
            assert_eq!((part.place, part.bytes), (place, &file[at..at + 1_272]));
        }
        let turned = u64::MAX / RECORD_BYTES * RECORD_BYTES + 5;
        for place in [0, 4, 6, 1_272, 1_276, 1_278, 3_821, 5_093, turned, u64::MAX] {
            assert_eq!(row_from(&file, 5, place), refused(Reason::NoRow));
        }
        assert_eq!(row_from(&[], 0, 0), refused(Reason::NoRow));
        assert_eq!(row_from(&file, 4, 4), refused(Reason::Ragged));
        assert_eq!(row_from(&file, 4, 5), refused(Reason::Ragged));
    }

    #[test]
    fn faults_come_in_their_order() {
        let file = file(0, 1);
        let window = Window::new(1_273, 1);
        assert_eq!(jump(&file, 1, 1, window), refused(Reason::Ragged));
        assert_eq!(jump(&file, 0, 1, window), refused(Reason::NoRow));
        assert_eq!(jump(&file, 0, 0, window), refused(Reason::NoPart));
        for position in [0, 1, 7, 256, u64::MAX] {
            assert_eq!(value(&file, 1, 1, position), refused(Reason::Ragged));
            assert_eq!(value(&file, 0, 1, position), refused(Reason::NoRow));
            assert_eq!(verdict(&file, 1, 1, position), refused(Reason::Ragged));
            assert_eq!(verdict(&file, 0, 1, position), refused(Reason::NoRow));
        }
        for position in [0, 256, 257, 1 << 32, (1 << 32) + 7, 1 << 63, u64::MAX] {
            assert_eq!(value(&file, 0, 0, position), refused(Reason::Unknown));
            assert_eq!(verdict(&file, 0, 0, position), refused(Reason::Unknown));
        }
    }

    #[test]
    fn numbers_have_their_least_significant_byte_first() {
        let of = |position, bytes: &[u8]| {
            let record = record_with(position, bytes);
            match value(&record, 0, 0, position).unwrap() {
                Value::Text(_) => panic!("a text at {position}"),
                value => format!("{value:?}"),
            }
        };
        assert_eq!(of(1, &[0x6a, 0x6b, 0x74, 0x77]), "Unsigned(2004118378)");
        assert_eq!(of(251, &[0, 0, 0, 0x80]), "Unsigned(2147483648)");
        assert_eq!(of(203, &[0xfe, 0xff, 0xff, 0xff]), "Signed(-2)");
        assert_eq!(of(203, &[0, 1, 0, 0]), "Signed(256)");
        let one = format!("Float4({})", 1.0_f32.to_bits());
        assert_eq!(of(4, &[0, 0, 0x80, 0x3f]), one);
        assert_eq!(of(255, &[0, 0, 0x80, 0x3f]), one);
        let half = format!("Float8({})", (-0.5_f64).to_bits());
        assert_eq!(of(147, &[0, 0, 0, 0, 0, 0, 0xe0, 0xbf]), half);
    }

    #[test]
    fn texts_are_their_bytes() {
        let mut file = vec![0xff; 9];
        file.extend(record_with(154, b"TITAN           "));
        let text = window::Text {
            place: 9 + 672,
            bytes: b"TITAN           ",
        };
        assert_eq!(value(&file, 9, 0, 154), Ok(Value::Text(text)));
    }

    #[test]
    fn limits_themselves_are_inside() {
        for field in FIELDS {
            let Some((minimum, maximum)) = field.limits else {
                let judged = verdict(&[0; RECORD], 0, 0, field.position);
                assert_eq!(judged, refused(Reason::Unknown), "{}", field.name);
                continue;
            };
            let judge = |value: i64| {
                let bytes = u32::try_from(value).unwrap().to_le_bytes();
                let record = record_with(field.position, &bytes);
                verdict(&record, 0, 0, field.position).unwrap()
            };
            if minimum > 0 {
                assert_eq!(judge(0), Verdict::Below);
                assert_eq!(judge(minimum - 1), Verdict::Below);
            }
            assert_eq!(judge(minimum), Verdict::Inside);
            assert_eq!(judge(maximum), Verdict::Inside);
            assert_eq!(judge(maximum + 1), Verdict::Above);
            assert_eq!(judge(u32::MAX.into()), Verdict::Above);
        }
    }

    #[test]
    fn beams_are_the_set_bits_of_a_mask() {
        for (mask, count) in [(0, 0), (1, 1), (0b11010, 3), (16, 1), (31, 5)] {
            assert_eq!(beams(mask), Some(count));
        }
        for mask in [32, 33, 63, 64, 1 << 32, 1 << 63, u64::MAX] {
            assert_eq!(beams(mask), None);
        }
    }

    #[test]
    fn eight_modes_are_named() {
        for (number, mode) in MODES.into_iter().enumerate() {
            assert_eq!(super::mode(number as u64), Some(mode));
            assert_eq!(mode as usize, number);
        }
        for number in [8, 9, 1 << 32, 1 << 63, u64::MAX] {
            assert_eq!(mode(number), None);
        }
    }

    #[test]
    fn addresses_are_those_of_the_first_byte() {
        for (front, places) in [
            (0, [0, 1_272, 2_544]),
            (5, [5, 1_277, 2_549]),
            (1_300, [1_300, 2_572, 3_844]),
        ] {
            let file = file(front, 3);
            let front = front as u64;
            for (number, place) in (0..).zip(places) {
                let nesting = Some(Nesting {
                    depth: 0,
                    outermost: place,
                });
                let address = Address {
                    label: place,
                    nesting,
                };
                for (first, count) in [(0, 1_272), (600, 7), (1_271, 1), (1_272, 0)] {
                    let window = Window::new(first, count);
                    let read = read_row(&file, front, number, window).unwrap();
                    assert_eq!((read.place, read.address), (place + first, address));
                    let jumped = jump(&file, front, number, window).unwrap();
                    assert_eq!((jumped.place, jumped.address), (place + first, address));
                }
                let whole = row_from(&file, front, place).unwrap();
                assert_eq!((whole.place, whole.address), (place, address));
            }
        }
    }
}
