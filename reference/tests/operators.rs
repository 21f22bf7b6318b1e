//! Each of the 57 operators on a small graph, answers worked out by hand.

mod common;

use common::check_after;

/// UNIVERSE: nodes 1, 2, 3; edges 1-5-2, 1-6-3, 1-8-1, 2-5-1, 3-7-1.
/// Space 9: nodes 1, 2; edge 1-5-2.
const GRAPH: [&str; 9] = [
    "CUS 9",
    "CUN 1 9",
    "CUN 2 9",
    "CUN 3",
    "COP 1 5 2 9",
    "COP 1 6 3",
    "COP 2 5 1",
    "COP 3 7 1",
    "COP 1 8 1",
];

/// Nodes 1 to 6; edges 1-5-2, 1-6-3, 4-5-1, 5-6-1; node 6 stands alone.
const STAR: [&str; 10] = [
    "CUN 1",
    "CUN 2",
    "CUN 3",
    "CUN 4",
    "CUN 5",
    "CUN 6",
    "COP 1 5 2",
    "COP 1 6 3",
    "COP 4 5 1",
    "COP 5 6 1",
];

fn on_graph(lines: &[(&str, &str)]) {
    check_after(&GRAPH, lines);
}

fn on_star(lines: &[(&str, &str)]) {
    check_after(&STAR, lines);
}

#[test]
fn operator_1_cop() {
    on_graph(&[
        ("COP 2 9 3", "= 2 +1"),
        ("SOP 2", "L 2 5:1 9:3"),
        ("SOP 3", "L 1 7:1"),
        ("VOP 2 9 3", "V 0"),
    ]);
    on_graph(&[
        ("COP 2 4 1 9", "= 2 +2"),
        ("SOP 2 9", "L 1 4:1"),
        ("SOP 2", "L 2 4:1 5:1"),
    ]);
}

#[test]
fn operator_1_cop_keeps_what_is_present() {
    on_graph(&[
        ("BOP 1 5 2 60", "= 1"),
        ("BOP 1 5 2 61 9", "= 1"),
        ("COP 1 5 2 9", "= 1 +0"),
        ("VOP 1 5 2", "V 60"),
        ("VOP 1 5 2 9", "V 61"),
    ]);
}

#[test]
fn operator_2_cip() {
    on_graph(&[
        ("CIP 2 9 3", "= 2 +1"),
        ("SOP 2", "L 1 5:1"),
        ("SOP 3", "L 2 7:1 9:2"),
    ]);
    on_graph(&[
        ("CIP 1 5 2 9", "= 1 +1"),
        ("SOP 2 9", "L 1 5:1"),
        ("SOP 2", "L 1 5:1"),
    ]);
}

#[test]
fn operator_3_cap() {
    on_graph(&[
        ("CAP 2 9 3", "= 2 +2"),
        ("SOP 2", "L 2 5:1 9:3"),
        ("SOP 3", "L 2 7:1 9:2"),
    ]);
    on_graph(&[
        ("BOP 1 5 2 61 9", "= 1"),
        ("CAP 2 5 1 9", "= 2 +1"),
        ("VOP 1 5 2 9", "V 61"),
        ("VOP 2 5 1 9", "V 0"),
    ]);
}

#[test]
fn operator_4_bop() {
    on_graph(&[
        ("BOP 1 5 2 60", "= 1"),
        ("VOP 1 5 2", "V 60"),
        ("VOP 1 5 2 9", "V 0"),
        ("VOP 2 5 1", "V 0"),
        ("BOP 1 5 2 61 9", "= 1"),
        ("VOP 1 5 2 9", "V 61"),
        ("VOP 1 5 2", "V 60"),
    ]);
}

#[test]
fn operator_5_bip() {
    on_graph(&[
        ("BIP 1 5 2 60", "= 1"),
        ("VOP 2 5 1", "V 60"),
        ("VOP 1 5 2", "V 0"),
        ("BIP 2 5 1 61 9", "= 2"),
        ("VOP 1 5 2 9", "V 61"),
        ("VOP 1 5 2", "V 0"),
    ]);
}

#[test]
fn operator_6_bap() {
    on_graph(&[
        ("BAP 1 5 2 60", "= 1"),
        ("VOP 1 5 2", "V 60"),
        ("VOP 2 5 1", "V 60"),
        ("BAP 2 5 1 61 9", "= 2"),
        ("VOP 1 5 2 9", "V 61"),
        ("XOP 2 5 1 9", "NIL"),
        ("VOP 1 5 2", "V 60"),
    ]);
}

#[test]
fn operators_7_and_8_vop_vip() {
    on_graph(&[
        ("VOP 1 6 3", "V 0"),
        ("BOP 1 6 3 4294967295", "= 1"),
        ("VOP 1 6 3", "V 4294967295"),
        ("VIP 3 6 1", "V 4294967295"),
        ("VIP 1 7 3", "V 0"),
        ("VIP 2 5 1 9", "V 0"),
    ]);
}

#[test]
fn operator_9_xop() {
    on_graph(&[
        ("XOP 1 6 3", "T"),
        ("XOP 3 6 1", "NIL"),
        ("XOP 1 6 2", "NIL"),
        ("XOP 1 5 2 9", "T"),
        ("XOP 2 5 1 9", "NIL"),
    ]);
}

#[test]
fn operator_10_xip() {
    on_graph(&[
        ("XIP 1 7 3", "T"),
        ("XIP 3 7 1", "NIL"),
        ("XIP 2 5 1 9", "T"),
        ("XIP 1 5 2 9", "NIL"),
    ]);
}

#[test]
fn operator_11_xap() {
    on_graph(&[
        ("XAP 1 6 3", "T"),
        ("XAP 3 6 1", "T"),
        ("XAP 2 6 3", "NIL"),
        ("XAP 1 8 1", "T"),
        ("XAP 1 5 2 9", "T"),
        ("XAP 2 5 1 9", "T"),
        ("XAP 1 8 1 9", "NIL"),
    ]);
}

#[test]
fn operator_12_dop() {
    on_graph(&[
        ("DOP 1 5 2", "= 1 -2"),
        ("XOP 1 5 2", "NIL"),
        ("XOP 1 5 2 9", "NIL"),
        ("XOP 2 5 1", "T"),
        ("DOP 1 5 2", "= 1 -0"),
    ]);
    on_graph(&[
        ("DOP 1 5 2 9", "= 1 -1"),
        ("XOP 1 5 2 9", "NIL"),
        ("XOP 1 5 2", "T"),
    ]);
}

#[test]
fn operator_13_dip() {
    on_graph(&[
        ("DIP 1 5 2", "= 1 -1"),
        ("XOP 2 5 1", "NIL"),
        ("XOP 1 5 2", "T"),
    ]);
    on_graph(&[
        ("DIP 2 5 1 9", "= 2 -1"),
        ("XOP 1 5 2 9", "NIL"),
        ("XOP 1 5 2", "T"),
    ]);
}

#[test]
fn operator_14_dap() {
    on_graph(&[
        ("DAP 2 5 1", "= 2 -3"),
        ("XOP 2 5 1", "NIL"),
        ("XOP 1 5 2", "NIL"),
        ("XOP 1 5 2 9", "NIL"),
    ]);
    on_graph(&[
        ("DAP 2 5 1 9", "= 2 -1"),
        ("XOP 1 5 2 9", "NIL"),
        ("XOP 1 5 2", "T"),
        ("XOP 2 5 1", "T"),
    ]);
}

#[test]
fn operator_15_dog() {
    on_graph(&[
        ("DOG 1", "= 1 -4"),
        ("SOP 1", "L 0"),
        ("SIP 1", "L 2 5:2 7:3"),
        ("SAP 1 9", "L 0"),
        ("SUN", "L 3 0:1 0:2 0:3"),
    ]);
    on_graph(&[
        ("DOG 1 9", "= 1 -1"),
        ("SOP 1 9", "L 0"),
        ("SOP 1", "L 3 5:2 6:3 8:1"),
    ]);
}

#[test]
fn operator_16_dig() {
    on_graph(&[
        ("DIG 1", "= 1 -3"),
        ("SIP 1", "L 0"),
        ("SOP 1", "L 2 5:2 6:3"),
        ("SOP 1 9", "L 1 5:2"),
    ]);
    on_graph(&[
        ("DIG 2 9", "= 2 -1"),
        ("SOP 1 9", "L 0"),
        ("SOP 1", "L 3 5:2 6:3 8:1"),
    ]);
}

#[test]
fn operator_17_dag() {
    on_graph(&[
        ("DAG 1", "= 1 -6"),
        ("SAP 1", "L 0"),
        ("SAP 1 9", "L 0"),
        ("SUN", "L 3 0:1 0:2 0:3"),
        ("SUN 9", "L 2 0:1 0:2"),
    ]);
    on_graph(&[
        ("DAG 2 9", "= 2 -1"),
        ("SAP 1 9", "L 0"),
        ("SAP 1", "L 4 5:2 6:3 7:3 8:1"),
    ]);
}

#[test]
fn operator_18_dogg() {
    on_graph(&[
        ("DOGG 1 5", "= 1 -2"),
        ("SOP 1", "L 2 6:3 8:1"),
        ("SOP 1 9", "L 0"),
        ("SOP 2", "L 1 5:1"),
    ]);
    on_graph(&[
        ("DOGG 1 5 9", "= 1 -1"),
        ("SOP 1 9", "L 0"),
        ("SOP 1", "L 3 5:2 6:3 8:1"),
    ]);
}

#[test]
fn operator_19_digg() {
    on_graph(&[
        ("DIGG 1 5", "= 1 -1"),
        ("SIP 1", "L 2 7:3 8:1"),
        ("SOP 1", "L 3 5:2 6:3 8:1"),
        ("SOP 1 9", "L 1 5:2"),
    ]);
    on_graph(&[
        ("DIGG 1 5 9", "= 1 -0"),
        ("SOP 1 9", "L 1 5:2"),
        ("DIGG 2 5 9", "= 2 -1"),
        ("SOP 1 9", "L 0"),
        ("SOP 1", "L 3 5:2 6:3 8:1"),
    ]);
}

#[test]
fn operator_20_dagg() {
    on_graph(&[
        ("DAGG 1 5", "= 1 -3"),
        ("SAP 1", "L 3 6:3 7:3 8:1"),
        ("SAP 1 9", "L 0"),
    ]);
    on_graph(&[
        ("DAGG 2 5 9", "= 2 -1"),
        ("SAP 1 9", "L 0"),
        ("SAP 1", "L 4 5:2 6:3 7:3 8:1"),
    ]);
}

#[test]
fn operator_21_dogn() {
    on_graph(&[
        ("DOGN 1 3", "= 1 -1"),
        ("SOP 1", "L 2 5:2 8:1"),
        ("SIP 1", "L 3 5:2 7:3 8:1"),
    ]);
    on_graph(&[
        ("DOGN 1 2 9", "= 1 -1"),
        ("SOP 1 9", "L 0"),
        ("SOP 1", "L 3 5:2 6:3 8:1"),
    ]);
}

#[test]
fn operator_22_dign() {
    on_graph(&[
        ("DIGN 1 3", "= 1 -1"),
        ("SIP 1", "L 2 5:2 8:1"),
        ("SOP 1", "L 3 5:2 6:3 8:1"),
    ]);
    on_graph(&[("DIGN 2 1 9", "= 2 -1"), ("SOP 1 9", "L 0")]);
}

#[test]
fn operator_23_dagn() {
    on_graph(&[("DAGN 1 3", "= 1 -2"), ("SAP 1", "L 2 5:2 8:1")]);
    on_graph(&[
        ("DAGN 2 1 9", "= 2 -1"),
        ("SAP 1 9", "L 0"),
        ("SAP 1", "L 4 5:2 6:3 7:3 8:1"),
    ]);
}

#[test]
fn operator_24_don() {
    on_star(&[("DON 1", "= 1 -4"), ("SUN", "L 4 0:1 0:4 0:5 0:6")]);
    on_graph(&[
        ("DON 2", "= 2 -8"),
        ("SUN", "L 2 0:2 0:3"),
        ("SUN 9", "L 1 0:2"),
        ("SAP 3", "L 0"),
    ]);
    on_graph(&[
        ("DON 1 9", "= 1 -2"),
        ("SUN 9", "L 1 0:1"),
        ("SAP 1 9", "L 0"),
        ("SUN", "L 3 0:1 0:2 0:3"),
    ]);
}

#[test]
fn operator_25_din() {
    on_star(&[("DIN 1", "= 1 -4"), ("SUN", "L 4 0:1 0:2 0:3 0:6")]);
    on_graph(&[
        ("DIN 2 9", "= 2 -2"),
        ("SUN 9", "L 1 0:2"),
        ("SOP 1", "L 3 5:2 6:3 8:1"),
    ]);
}

#[test]
fn operator_26_dan() {
    on_star(&[("DAN 1", "= 1 -8"), ("SUN", "L 2 0:1 0:6")]);
    on_graph(&[
        ("DAN 2 9", "= 2 -2"),
        ("SUN 9", "L 1 0:2"),
        ("SUN", "L 3 0:1 0:2 0:3"),
    ]);
}

#[test]
fn operator_27_dong() {
    on_star(&[("DONG 1 5", "= 1 -2"), ("SUN", "L 5 0:1 0:3 0:4 0:5 0:6")]);
    on_graph(&[("DONG 1 5 9", "= 1 -2"), ("SUN 9", "L 1 0:1")]);
    on_graph(&[("DONG 1 6 9", "= 1 -0"), ("SUN 9", "L 2 0:1 0:2")]);
}

#[test]
fn operator_28_ding() {
    on_star(&[("DING 1 5", "= 1 -2"), ("SUN", "L 5 0:1 0:2 0:3 0:5 0:6")]);
    on_graph(&[("DING 2 5 9", "= 2 -2"), ("SUN 9", "L 1 0:2")]);
}

#[test]
fn operator_29_dang() {
    on_star(&[("DANG 1 5", "= 1 -4"), ("SUN", "L 4 0:1 0:3 0:5 0:6")]);
    on_graph(&[("DANG 2 5 9", "= 2 -2"), ("SUN 9", "L 1 0:2")]);
}

#[test]
fn operators_30_to_32_sop_sip_sap() {
    on_graph(&[
        ("SOP 1", "L 3 5:2 6:3 8:1"),
        ("SIP 1", "L 3 5:2 7:3 8:1"),
        ("SAP 1", "L 4 5:2 6:3 7:3 8:1"),
        ("SOP 1 9", "L 1 5:2"),
        ("SIP 1 9", "L 0"),
        ("SIP 2 9", "L 1 5:1"),
        ("SAP 2 9", "L 1 5:1"),
    ]);
}

#[test]
fn operators_33_to_35_sog_sig_sag() {
    on_graph(&[
        ("SOG 1", "L 3 5:0 6:0 8:0"),
        ("SIG 1", "L 3 5:0 7:0 8:0"),
        ("SAG 1", "L 4 5:0 6:0 7:0 8:0"),
        ("SOG 2 9", "L 0"),
        ("SIG 2 9", "L 1 5:0"),
        ("SAG 2 9", "L 1 5:0"),
    ]);
}

#[test]
fn operators_36_to_38_sogn_sign_sagn() {
    on_graph(&[
        ("SOGN 1 3", "L 1 6:0"),
        ("SIGN 1 3", "L 1 7:0"),
        ("SAGN 1 3", "L 2 6:0 7:0"),
        ("SAGN 1 1", "L 1 8:0"),
        ("SAGN 2 3", "L 0"),
        ("SOGN 1 2 9", "L 1 5:0"),
        ("SIGN 1 2 9", "L 0"),
        ("SAGN 2 1 9", "L 1 5:0"),
    ]);
}

#[test]
fn operators_39_to_41_son_sin_san() {
    on_star(&[
        ("SON 1", "L 2 0:2 0:3"),
        ("SIN 1", "L 2 0:4 0:5"),
        ("SAN 1", "L 4 0:2 0:3 0:4 0:5"),
    ]);
    on_graph(&[
        ("SON 1", "L 3 0:1 0:2 0:3"),
        ("SAN 3", "L 1 0:1"),
        ("SON 2 9", "L 0"),
        ("SIN 2 9", "L 1 0:1"),
        ("SAN 2 9", "L 1 0:1"),
    ]);
}

#[test]
fn operators_42_to_44_song_sing_sang() {
    on_star(&[
        ("SONG 1 5", "L 1 0:2"),
        ("SING 1 5", "L 1 0:4"),
        ("SANG 1 5", "L 2 0:2 0:4"),
    ]);
    on_graph(&[
        ("SONG 1 7", "L 0"),
        ("SING 1 7", "L 1 0:3"),
        ("SANG 1 5 9", "L 1 0:2"),
        ("SING 1 5 9", "L 0"),
        ("SANG 2 5 9", "L 1 0:1"),
    ]);
}

#[test]
fn operator_45_cun() {
    on_graph(&[
        ("CUN 4 9", "= 4 +2"),
        ("SUN 9", "L 3 0:1 0:2 0:4"),
        ("SUN", "L 4 0:1 0:2 0:3 0:4"),
        ("BUN 4 60", "= 4"),
        ("CUN 4", "= 4 +0"),
        ("VUN 4", "V 60"),
        ("VUN 4 9", "V 0"),
    ]);
}

#[test]
fn operators_46_and_47_bun_vun() {
    on_graph(&[
        ("VUN 1 9", "V 0"),
        ("BUN 1 60 9", "= 1"),
        ("VUN 1 9", "V 60"),
        ("VUN 1", "V 0"),
        ("BUN 1 4294967295", "= 1"),
        ("VUN 1", "V 4294967295"),
        ("BUN 1 0", "= 1"),
        ("VUN 1 U", "V 0"),
    ]);
}

#[test]
fn operator_48_xun() {
    on_graph(&[
        ("XUN 3", "T"),
        ("XUN 3 9", "NIL"),
        ("XUN 1 9", "T"),
        ("XUN 4", "NIL"),
    ]);
}

#[test]
fn operator_49_dun() {
    on_graph(&[
        ("DUN 1", "= 1 -8"),
        ("SUN", "L 2 0:2 0:3"),
        ("SUN 9", "L 1 0:2"),
        ("SAP 2", "L 0"),
        ("SAP 3", "L 0"),
    ]);
    on_graph(&[
        ("DUN 3 9", "= 3 -0"),
        ("SUN", "L 3 0:1 0:2 0:3"),
        ("DUN 1 9", "= 1 -2"),
        ("SUN 9", "L 1 0:2"),
        ("SAP 2 9", "L 0"),
        ("SAP 2", "L 1 5:1"),
    ]);
}

#[test]
fn operator_50_sun() {
    on_graph(&[
        ("SUN", "L 3 0:1 0:2 0:3"),
        ("SUN U", "L 3 0:1 0:2 0:3"),
        ("SUN 9", "L 2 0:1 0:2"),
    ]);
}

#[test]
fn operator_51_cus() {
    on_graph(&[
        ("CUS 8", "= 8 +1"),
        ("SUN 8", "L 0"),
        ("BUS 9 60", "= 9"),
        ("CUS 9", "= 9 +0"),
        ("VUS 9", "V 60"),
        ("SUN 9", "L 2 0:1 0:2"),
    ]);
}

#[test]
fn operators_52_and_53_bus_vus() {
    on_graph(&[
        ("VUS 9", "V 0"),
        ("BUS 9 60", "= 9"),
        ("VUS 9", "V 60"),
        ("VUS U", "V 0"),
        ("BUS U 4294967295", "= 0"),
        ("VUS U", "V 4294967295"),
        ("VUS 8", "R 5"),
        ("BUS 8 1", "R 5"),
    ]);
}

#[test]
fn operator_54_xus() {
    on_graph(&[("XUS 9", "T"), ("XUS 8", "NIL"), ("XUS U", "T")]);
}

#[test]
fn operator_55_dus() {
    on_graph(&[
        ("DUS 9", "= 9 -4"),
        ("XUS 9", "NIL"),
        ("SUN 9", "R 5"),
        ("SUN", "L 3 0:1 0:2 0:3"),
        ("SAP 1", "L 4 5:2 6:3 7:3 8:1"),
        ("DUS 8", "= 8 -0"),
    ]);
}

#[test]
fn operators_56_and_57_sus() {
    on_graph(&[
        ("SUS", "L 2 0:0 0:9"),
        ("SUS 1", "L 2 0:0 0:9"),
        ("SUS 3", "L 1 0:0"),
        ("SUS 4", "R 6"),
        ("CUS 65535", "= 65535 +1"),
        ("CUS 1", "= 1 +1"),
        ("SUS", "L 4 0:0 0:1 0:9 0:65535"),
    ]);
}

#[test]
fn a_fresh_store_has_one_space() {
    check_after(&[], &[("SUS", "L 1 0:0"), ("SUN", "L 0"), ("VUS U", "V 0")]);
}
