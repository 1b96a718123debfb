//! Delimited records (003 clauses 5.7 and 5.8) and the identities inside them
//! (003 clause 7.1). A record has a checksum that ends it.

use crate::{crc, text};

/// PARSE-RECORD of 003 clause 5.8.2: the `N` fields after the type, or nothing
/// when type, checksum, last delimiter, bytes or field count are wrong.
pub fn parse<'a, const N: usize>(record: &'a [u8], kind: &[u8], delimiter: u8) -> Option<[&'a [u8]; N]> {
    let after_kind = record.strip_prefix(kind)?;
    if after_kind.first() != Some(&delimiter) || after_kind.len() < 5 {
        return None;
    }
    let (covered, checksum) = record.split_at(record.len() - 4);
    if checksum != crc::digits(crc::modbus(covered)) {
        return None;
    }
    // DFPARSE, clause 5.7.2: printable, and the last delimiter ends the last field.
    if covered.last() != Some(&delimiter) || !covered.iter().all(|byte| (0x20..=0x7E).contains(byte)) {
        return None;
    }
    // The type and its delimiter, then each field with its own.
    let body = &covered[kind.len() + 1..];
    if body.iter().filter(|&&byte| byte == delimiter).count() != N {
        return None;
    }
    let mut fields = body.split(|&byte| byte == delimiter);
    Some([(); N].map(|()| fields.next().unwrap_or_default()))
}

/// BUILD-RECORD of 003 clause 5.8.1.
pub fn build(kind: &[u8], delimiter: u8, fields: &[&[u8]]) -> Vec<u8> {
    let mut record = kind.to_vec();
    record.push(delimiter);
    for field in fields {
        record.extend_from_slice(field);
        record.push(delimiter);
    }
    let checksum = crc::digits(crc::modbus(&record));
    record.extend_from_slice(&checksum);
    record
}

/// An identity (003 clause 7.1): SWID or manufacturer, KMCID or MID, timestamp, fingerprint.
#[derive(Clone, Copy)]
pub struct Identity<'a> {
    pub maker: &'a [u8],
    pub name: &'a [u8],
    pub time: &'a [u8],
    pub fingerprint: &'a [u8],
}

impl<'a> Identity<'a> {
    /// `kind` is KMCID.1 or SMID.1. Question 9 asks this, question 10 asks `in_form`.
    pub fn parse(record: &'a [u8], kind: &[u8]) -> Option<Self> {
        let [maker, name, time, fingerprint] = parse(record, kind, b':')?;
        Some(Identity { maker, name, time, fingerprint })
    }

    pub fn in_form(&self) -> bool {
        text::is_ident(self.maker)
            && text::is_ident(self.name)
            && text::is_timestamp(self.time)
            && text::is_hex_of(self.fingerprint, 16)
    }
}

#[cfg(test)]
mod tests {
    use super::*;

    /// 001 example 6.3.4.4, the record that decides (document 01, "Records").
    const MODULE: &[u8] = b"SMID.1:Prism:12345678:20130303T153830Z:E7C42215AF1FE951:9C7D";

    #[test]
    fn the_deciding_record() {
        let identity = Identity::parse(MODULE, b"SMID.1").unwrap();
        assert!(identity.in_form());
        assert_eq!(identity.name, b"12345678");
        assert_eq!(build(b"SMID.1", b':', &[b"Prism", b"12345678", b"20130303T153830Z", b"E7C42215AF1FE951"]), MODULE);
    }

    #[test]
    fn identities_of_the_examples() {
        for (record, kind) in [
            (&b"SMID.1:Prism:94000933:20170424T094750Z:B6B7687425372936:33D3"[..], &b"SMID.1"[..]),
            (b"KMCID.1:SoftwareV2.3:KMCName:20130301T173830Z:8E22231BC992010A:A4A4", b"KMCID.1"),
            (b"KMCID.1:ArbSWID:ArbKMCID:20040101T120000Z:65AF90C4DBAF23D3:3AC4", b"KMCID.1"),
            (b"KMCID.1:Prism:K0001:20160418T121717Z:52204DE9EEFA6EB8:E7BF", b"KMCID.1"),
            (b"SMID.1:Prism:94000507:20160506T095338Z:F184871DC4F23CB0:1F8C", b"SMID.1"),
        ] {
            assert!(Identity::parse(record, kind).unwrap().in_form(), "{}", String::from_utf8_lossy(record));
        }
    }

    #[test]
    fn faults() {
        assert!(Identity::parse(MODULE, b"KMCID.1").is_none());
        assert!(Identity::parse(&MODULE.to_ascii_lowercase(), b"SMID.1").is_none());
        assert!(parse::<3>(MODULE, b"SMID.1", b':').is_none());
        assert!(parse::<5>(MODULE, b"SMID.1", b':').is_none());
        assert!(parse::<0>(b"SMID.1:", b"SMID.1", b':').is_none());
        assert!(parse::<0>(&build(b"K", b'|', &[]), b"K", b'|').is_some());
        let mut after = MODULE.to_vec();
        after.push(b':');
        assert!(Identity::parse(&after, b"SMID.1").is_none());
        // A right checksum over text that does not end in the delimiter.
        let mut open = b"SMID.1:a:b:c:d".to_vec();
        let checksum = crc::digits(crc::modbus(&open));
        open.extend_from_slice(&checksum);
        assert!(Identity::parse(&open, b"SMID.1").is_none());
    }

    #[test]
    fn records_of_003_appendix_a() {
        let response = b"VKLOAD.RESP.1|KMCID.1:Prism:K0001:20160418T121717Z:52204DE9EEFA6EB8:E7BF|SMID.1:Prism:94000507:20160506T095338Z:F184871DC4F23CB0:1F8C|20160506T122741Z|C9A5161F864E1978435A2CEAA611930F37824EDCE6252CEC|71CC";
        assert!(parse::<4>(response, b"VKLOAD.RESP.1", b'|').is_some());
        let key = b"KEY.1|A8556C52BA3345996C1551DC|ACT20160425T114321Z;BDT19930101T000000Z;CLM44fa0000;CLU0;DKG02;EXP20170506T215959Z;IUT20160903T102658Z;KCV17D819;KEN255;KRN1;KTC2;SBMFFFF;SGC0000112233;SGNSURELOAD KMC TEST VUDK 1;ULM1000;|849B9665C2BFFB75BF58629A0A057D528888559693DB293A|8F06";
        assert!(parse::<3>(key, b"KEY.1", b'|').is_some());
        let fourth = b"KEY.1|5EE5F985A1186F8A5DD1175F|ACT20140813T000000Z;BDT19930101T000000Z;CLM461c4000;CLU0;DKG02;EXP20170506T215959Z;IUT20160903T102658Z;KCVC33F45;KEN255;KRN1;KTC2;SBM0001;SGC0000123456;SGNACME;ULM10000;|7865DC2B97755CFFA8B5A83C34D1AB8EB6955666F5C78A0B|25EB";
        assert!(parse::<3>(fourth, b"KEY.1", b'|').is_some());
    }
}
