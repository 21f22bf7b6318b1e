//! The operators: the fields that each one reads, and what it does.
//!
//! A pair (g, m) of n is outpointing (an edge g from n to m), inpointing (from
//! m to n) or adjacent (either). Removing from a numbered space takes what is
//! in it; from UNIVERSE, what is in all spaces.

/// `n g m s`: makes the edge g from n to m, in s and in UNIVERSE.
pub const COP: u32 = 1;
/// `n g m s`: makes the edge g from m to n, in s and in UNIVERSE.
pub const CIP: u32 = 2;
/// `n g m s`: makes the edge g between n and m, both ways, in s and in
/// UNIVERSE.
pub const CAP: u32 = 3;
/// `n g m v s`: sets the value in s of the edge g from n to m.
pub const BOP: u32 = 4;
/// `n g m v s`: sets the value in s of the edge g from m to n.
pub const BIP: u32 = 5;
/// `n g m v s`: sets the values in s of the edges g between n and m that are
/// there.
pub const BAP: u32 = 6;
/// `n g m s`: the value in s of the edge g from n to m.
pub const VOP: u32 = 7;
/// `n g m s`: the value in s of the edge g from m to n.
pub const VIP: u32 = 8;
/// `n g m s`: is the edge g from n to m in s?
pub const XOP: u32 = 9;
/// `n g m s`: is the edge g from m to n in s?
pub const XIP: u32 = 10;
/// `n g m s`: is an edge g between n and m in s, either way?
pub const XAP: u32 = 11;
/// `n g m s`: removes the edge g from n to m.
pub const DOP: u32 = 12;
/// `n g m s`: removes the edge g from m to n.
pub const DIP: u32 = 13;
/// `n g m s`: removes the edge g between n and m, both ways.
pub const DAP: u32 = 14;
/// `n s`: removes the edges of the outpointing pairs of n.
pub const DOG: u32 = 15;
/// `n s`: removes the edges of the inpointing pairs of n.
pub const DIG: u32 = 16;
/// `n s`: removes the edges of the adjacent pairs of n.
pub const DAG: u32 = 17;
/// `n g s`: removes the edges of the outpointing pairs of n with edge g.
pub const DOGG: u32 = 18;
/// `n g s`: removes the edges of the inpointing pairs of n with edge g.
pub const DIGG: u32 = 19;
/// `n g s`: removes the edges of the adjacent pairs of n with edge g.
pub const DAGG: u32 = 20;
/// `n m s`: removes the edges of the outpointing pairs of n with node m.
pub const DOGN: u32 = 21;
/// `n m s`: removes the edges of the inpointing pairs of n with node m.
pub const DIGN: u32 = 22;
/// `n m s`: removes the edges of the adjacent pairs of n with node m.
pub const DAGN: u32 = 23;
/// `n s`: removes the nodes of the outpointing pairs of n, each as by DUN.
pub const DON: u32 = 24;
/// `n s`: removes the nodes of the inpointing pairs of n, each as by DUN.
pub const DIN: u32 = 25;
/// `n s`: removes the nodes of the adjacent pairs of n, each as by DUN.
pub const DAN: u32 = 26;
/// `n g s`: removes the nodes of the outpointing pairs of n with edge g.
pub const DONG: u32 = 27;
/// `n g s`: removes the nodes of the inpointing pairs of n with edge g.
pub const DING: u32 = 28;
/// `n g s`: removes the nodes of the adjacent pairs of n with edge g.
pub const DANG: u32 = 29;
/// `n s`: lists the outpointing pairs of n.
pub const SOP: u32 = 30;
/// `n s`: lists the inpointing pairs of n.
pub const SIP: u32 = 31;
/// `n s`: lists the adjacent pairs of n.
pub const SAP: u32 = 32;
/// `n s`: lists the edges of the outpointing pairs of n.
pub const SOG: u32 = 33;
/// `n s`: lists the edges of the inpointing pairs of n.
pub const SIG: u32 = 34;
/// `n s`: lists the edges of the adjacent pairs of n.
pub const SAG: u32 = 35;
/// `n m s`: lists the edges of the outpointing pairs of n with node m.
pub const SOGN: u32 = 36;
/// `n m s`: lists the edges of the inpointing pairs of n with node m.
pub const SIGN: u32 = 37;
/// `n m s`: lists the edges of the adjacent pairs of n with node m.
pub const SAGN: u32 = 38;
/// `n s`: lists the nodes of the outpointing pairs of n.
pub const SON: u32 = 39;
/// `n s`: lists the nodes of the inpointing pairs of n.
pub const SIN: u32 = 40;
/// `n s`: lists the nodes of the adjacent pairs of n.
pub const SAN: u32 = 41;
/// `n g s`: lists the nodes of the outpointing pairs of n with edge g.
pub const SONG: u32 = 42;
/// `n g s`: lists the nodes of the inpointing pairs of n with edge g.
pub const SING: u32 = 43;
/// `n g s`: lists the nodes of the adjacent pairs of n with edge g.
pub const SANG: u32 = 44;
/// `n s`: makes node n in s and in UNIVERSE.
pub const CUN: u32 = 45;
/// `n v s`: sets the value of node n in s.
pub const BUN: u32 = 46;
/// `n s`: the value of node n in s.
pub const VUN: u32 = 47;
/// `n s`: is node n in s?
pub const XUN: u32 = 48;
/// `n s`: removes node n from s, with its edges there; from UNIVERSE,
/// everywhere.
pub const DUN: u32 = 49;
/// `s`: lists the nodes of s.
pub const SUN: u32 = 50;
/// `s`: makes space s.
pub const CUS: u32 = 51;
/// `s v`: sets the value of s.
pub const BUS: u32 = 52;
/// `s`: the value of s.
pub const VUS: u32 = 53;
/// `s`: is space s there?
pub const XUS: u32 = 54;
/// `s`: removes s and what it holds. The nodes and edges themselves stay, in
/// UNIVERSE and in other spaces.
pub const DUS: u32 = 55;
/// Lists all spaces, UNIVERSE first, as 0.
pub const SUS: u32 = 56;
/// `n`: lists the spaces that hold n, UNIVERSE first, as 0.
pub const SUS_OF_NODE: u32 = 57;
