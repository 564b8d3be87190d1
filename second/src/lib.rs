//! The FM Layer 1 bit chain of SY_IDD_1011s revision G for the primary service modes MP1, MP2,
//! MP3, MP5, MP6 and MP11, with the house matters of document 01 and of document 02, S-9.

pub mod calls;
pub mod cells;
pub mod coding;
pub mod commands;
pub mod control;
pub mod draw;
pub mod dumps;
pub mod interleaving;
pub mod locating;
pub mod modes;
pub mod nearest;
pub mod packing;
pub mod places;
pub mod reading;
pub mod restoring;
pub mod run;
pub mod scrambling;
pub mod sets;
pub mod sheet;
pub mod six;
pub mod vector;
pub mod words;
