//! Numbers by name, as `include/lentilpot.h` has them.

/// The refusals: what [`Refusal::number`](crate::Refusal::number) gives.
pub mod refused {
    /// The room for a reply is too small.
    pub const REPLY_ROOM: u32 = 1;
    /// No table is written as these bytes.
    pub const NO_TABLE: u32 = 2;
    /// The session is not open, or a number in it is out of range.
    pub const SESSION: u32 = 3;
    /// A date or time isn't real, or the day is before the table's.
    pub const DATE_OR_TIME: u32 = 4;
    /// The table has 32 customers already.
    pub const TABLE_FULL: u32 = 5;
    /// A customer with this identity and qualifier is there already.
    pub const CUSTOMER_IS_THERE: u32 = 6;
    /// There is no customer with this identity and qualifier.
    pub const NO_CUSTOMER: u32 = 7;
    /// The parity of a key part is even.
    pub const PARITY: u32 = 8;
    /// The check value differs.
    pub const CHECK_VALUE: u32 = 9;
    /// The new transport generation isn't the next.
    pub const GENERATION: u32 = 10;
    /// An argument is outside its limits.
    pub const ARGUMENT: u32 = 11;
    /// The changeover from the previous key is not past.
    pub const CHANGEOVER: u32 = 12;
    /// A field that was given breaks document 01's format or value rules.
    pub const FIELD: u32 = 13;
}

/// The codes of replies: what [`Reply::code`](crate::Reply::code) gives. Those that begin with ACCEPTED are K, the others E.
pub mod code {
    /// Accepted.
    pub const ACCEPTED: u16 = 1001;
    /// Accepted; the previous working key was used, and the current one is enclosed.
    pub const ACCEPTED_CURRENT_KEY_ENCLOSED: u16 = 1002;
    /// Accepted; the key asked for is enclosed.
    pub const ACCEPTED_KEY_CHANGE_GRANTED: u16 = 1003;
    /// Accepted; no key, for the customer has no leave to ask for one.
    pub const ACCEPTED_KEY_CHANGE_REFUSED: u16 = 1004;
    /// Accepted; no key, for a changeover still runs.
    pub const ACCEPTED_KEY_CHANGE_TOO_OFTEN: u16 = 1005;
    /// Accepted; the changeover was ended.
    pub const ACCEPTED_CHANGEOVER_ENDED: u16 = 1036;
    /// Accepted; there was no changeover that could be ended.
    pub const ACCEPTED_NO_CHANGEOVER_TO_END: u16 = 1037;
    /// A field's format; the notice names the field.
    pub const FIELD_FORMAT: u16 = 1010;
    /// A field's value; the notice names the field.
    pub const FIELD_VALUE: u16 = 1011;
    /// The version is below the bank's floor.
    pub const VERSION_TOO_OLD: u16 = 1012;
    /// The transport key of that generation isn't valid on the stamp's date.
    pub const TRANSPORT_KEY_NOT_VALID: u16 = 1013;
    /// The working key of that generation isn't valid on the stamp's date.
    pub const WORKING_KEY_NOT_VALID: u16 = 1014;
    /// The stamp's date is more than five banking days old.
    pub const DATE_TOO_OLD: u16 = 1015;
    /// The stamp's date is after today.
    pub const DATE_AHEAD: u16 = 1016;
    /// The one-time key was used before.
    pub const ONE_TIME_KEY_USED: u16 = 1017;
    /// The time stamp was used before.
    pub const STAMP_USED: u16 = 1018;
    /// The digest differs.
    pub const DIGEST_DIFFERS: u16 = 1019;
    /// The checksum differs.
    pub const CHECKSUM_DIFFERS: u16 = 1020;
    /// The receiver isn't this bank.
    pub const OTHER_RECEIVER: u16 = 1021;
    /// Data without a SUO before it.
    pub const SUO_MISSING: u16 = 1023;
    /// A batch without its VAR.
    pub const VAR_MISSING: u16 = 1024;
    /// This data type isn't allowed to the customer.
    pub const TYPE_NOT_ALLOWED: u16 = 1025;
    /// SUO and VAR differ in the field that the notice names.
    pub const SUO_AND_VAR_DIFFER: u16 = 1026;
    /// The one-time key's parity is even.
    pub const ONE_TIME_KEY_PARITY: u16 = 1031;
    /// A message is cut short.
    pub const MESSAGE_TOO_SHORT: u16 = 1032;
    /// No customer has this identity and qualifier.
    pub const UNKNOWN_CUSTOMER: u16 = 1033;
    /// 64 live stamps are held, or the file is too large.
    pub const NO_ROOM: u16 = 1034;
    /// The customer is known and has not agreed on PATU.
    pub const NOT_AGREED: u16 = 1035;
}

/// The desk's findings: what [`Finding::code`](crate::Finding::code) gives, document 001's codes of the customer's side.
#[cfg(feature = "desk")]
pub mod finding {
    /// A field's format; the finding names the field. A blank checksum is this on field 17, or on a lower one.
    pub const FIELD_FORMAT: u32 = 3010;
    /// A field's value; the finding names the field. On field 10 or 11: not the key generation that was sent.
    pub const FIELD_VALUE: u32 = 3011;
    /// The checksum differs, or the desk holds no working key of that generation.
    pub const CHECKSUM_DIFFERS: u32 = 3020;
    /// The receiver's identity or qualifier isn't the desk's own.
    pub const OTHER_RECEIVER: u32 = 3021;
    /// An ESI's stamp isn't the one that was sent.
    pub const STAMP_DIFFERS: u32 = 3022;
    /// SUO and PTE differ in the field that the finding names.
    pub const SUO_AND_PTE_DIFFER: u32 = 3027;
    /// The digests of VAR and PTE differ.
    pub const DIGEST_DIFFERS: u32 = 3028;
    /// The PTE never came.
    pub const PTE_MISSING: u32 = 3029;
    /// The enclosed key's parity is even, or the desk holds no transport key of that generation.
    pub const KEY_PARITY: u32 = 3030;
    /// The reply is under 237 characters, a PTE under 317.
    pub const REPLY_TOO_SHORT: u32 = 3032;
}

/// Where a reply's fields stand, alike in both kinds: `&reply.as_bytes()[at::NOTICE]`. An ESI ends after the notice, and only a PTE
/// has a receipt. The numbers are the fields of document 001, appendix 1.
pub mod at {
    use std::ops::Range;

    /// Field 1: `>>ESI` or `>>PTE`.
    pub const KIND: Range<usize> = 0..5;
    /// Field 2: 237 or 317.
    pub const SIZE: Range<usize> = 5..8;
    /// Field 3: the version of PATU, 120.
    pub const PATU: Range<usize> = 8..11;
    /// Field 4: K or E.
    pub const VERDICT: Range<usize> = 11..12;
    /// Field 5: four digits, [`code`](crate::code).
    pub const CODE: Range<usize> = 12..16;
    /// Field 6: the bank's software.
    pub const SOFTWARE: Range<usize> = 16..32;
    /// Field 7: SMH.
    pub const METHOD: Range<usize> = 32..35;
    /// Field 8: the customer, identity and qualifier.
    pub const RECEIVER: Range<usize> = 35..60;
    /// Field 9: the bank, identity and qualifier.
    pub const SENDER: Range<usize> = 60..85;
    /// Field 10: the transport key's generation.
    pub const TRANSPORT_GENERATION: Range<usize> = 85..86;
    /// Field 11: the working key's generation.
    pub const WORKING_GENERATION: Range<usize> = 86..87;
    /// Field 12: yymmddhhmmssnnn of the message.
    pub const STAMP: Range<usize> = 87..102;
    /// Field 13: S or A; blank in an ESI.
    pub const AREA: Range<usize> = 102..103;
    /// Field 14: blank.
    pub const SPARE: Range<usize> = 103..112;
    /// Field 15: enciphered, in hex; blank in an ESI.
    pub const ONE_TIME_KEY: Range<usize> = 112..128;
    /// Field 16: in hex; blank in an ESI.
    pub const DIGEST: Range<usize> = 128..144;
    /// Field 17: in hex, or blank.
    pub const CHECKSUM: Range<usize> = 144..160;
    /// Field 18: 1 where a key is enclosed, else 0.
    pub const KEY_FLAG: Range<usize> = 160..161;
    /// Field 19: the key enclosed, enciphered, in hex; else blank.
    pub const NEW_KEY: Range<usize> = 161..177;
    /// Field 20: HH:MM:SS, a blank, the code's text.
    pub const NOTICE: Range<usize> = 177..237;
    /// Field 21: a PTE's alone; blank.
    pub const RECEIPT: Range<usize> = 237..317;
    /// Within the notice: the code's text.
    pub const TEXT: Range<usize> = 186..237;
    /// Where the field's name begins in a notice of 1010; it ends before a blank, and the field as received follows.
    pub const NAME_1010: usize = 206;
    /// Where the field's name begins in a notice of 1011; it ends before a blank, and the field as received follows.
    pub const NAME_1011: usize = 205;
    /// Where the field's name begins in a notice of 1026; it ends before a colon.
    pub const NAME_1026: usize = 193;
}
